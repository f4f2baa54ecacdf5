%% Load for tests: workers that change groups and know what has to come of it, and a comparison with the former pg2.
-module(zulayefi_load).
-compile({nowarn_removed, [pg2]}).
-export([faults/2, start/4, results/1, judge/3, differences/2, worker/5]).

-record(worker, {
    id :: term(),
    common :: [term()],
    until :: integer(),
    %% nodes at which calls are made, and nodes at which what was answered has to be seen
    others :: [node()],
    readers :: [node()],
    pids = [] :: [pid()],
    %% how often each process counts in a group; whether groups of its own are there, if that is known
    counts = #{} :: #{{term(), pid()} => non_neg_integer()},
    own = #{} :: #{term() => yes | no | unknown},
    faults = [] :: [term()],
    done = 0 :: non_neg_integer(),
    in_doubt = 0 :: non_neg_integer(),
    longest = 0 :: non_neg_integer()
}).

%% What is wrong after so many milliseconds of three workers at each node.
faults(Nodes, Ms) ->
    judge(Nodes, results(start(Nodes, [1, 2, 3], Ms, [Node || {_, Node} <- Nodes])), false).

%% Starts workers at nodes; those at `readers' see what is answered at once.
start(Nodes, Ids, Ms, Readers) ->
    Me = self(),
    Names = [Node || {_, Node} <- Nodes],
    [begin
        Ref = make_ref(),
        Args = [{Name, Id}, groups(), Ms, Names -- [Name], Readers -- [Name]],
        spawn(fun() -> Me ! {Ref, catch zulayefi_cluster:call(Node, ?MODULE, worker, Args, 150000)} end),
        {Ref, Name}
     end || {_, Name} = Node <- Nodes, Id <- Ids].

groups() -> [{common, I} || I <- lists:seq(1, 4)].

%% What became of each worker, with its node.
results(Started) -> [{Node, receive {Ref, Result} -> Result after 160000 -> late end} || {Ref, Node} <- Started].

%% What is wrong with the tables of nodes that are at rest, by what the workers know that have ended there. Where nodes have parted, a group that was deleted at
%% one side may be back with the other, and its members of before.
judge(Nodes, Results, MayReturn) ->
    [Table | _] = Tables = zulayefi_cluster:tables(Nodes),
    Names = [Node || {_, Node} <- Nodes],
    Ended = [Worker || {Node, #worker{} = Worker} <- Results, lists:member(Node, Names)],
    Failed = [{failed, Node, Result} || {Node, Result} <- Results, lists:member(Node, Names), not is_record(Result, worker)],
    Counts = maps:from_list(lists:append([maps:to_list(Worker#worker.counts) || Worker <- Ended])),
    Living = lists:append([Worker#worker.pids || Worker <- Ended]),
    Failed
        ++ [{tables_differ, Tables} || length(lists:usort(Tables)) > 1]
        ++ [{count, Name, Pid, wanted, Count, found, count(Name, Pid, Table)} || {{Name, Pid}, Count} <- maps:to_list(Counts), count(Name, Pid, Table) =/= Count,
            not (MayReturn andalso Count =:= 0 andalso element(1, Name) =:= own)]
        ++ [{no_living_member, Name, Pid} || {Name, Members} <- Table, Pid <- lists:usort(Members), not lists:member(Pid, Living)]
        ++ [{unwanted, Name, Pid} || {{Kind, _} = Name, Members} <- Table, Kind =/= shared, not (MayReturn andalso Kind =:= own), Pid <- lists:usort(Members),
            not is_map_key({Name, Pid}, Counts)]
        ++ [{group, Name, wanted, Wanted} || Worker <- Ended, {Name, Wanted} <- maps:to_list(Worker#worker.own), Wanted =/= unknown,
            not (MayReturn andalso Wanted =:= no), (Wanted =:= yes) =/= lists:keymember(Name, 1, Table)]
        ++ lists:append([Worker#worker.faults || Worker <- Ended]).

count(Name, Pid, Table) ->
    case lists:keyfind(Name, 1, Table) of
        {_, Members} -> count(Pid, Members);
        false -> 0
    end.

count(Pid, Members) when is_list(Members) -> length([Each || Each <- Members, Each =:= Pid]);
count(_, Error) -> Error.

%% ---- a worker

worker(Id, Common, Ms, Others, Readers) ->
    rand:seed(exsss),
    [created(Name) || Name <- Common],
    work(#worker{id = Id, common = Common, until = now_ms() + Ms, others = Others, readers = Readers, pids = [new(), new(), new()],
                 own = maps:from_list([{{own, {Id, I}}, no} || I <- [1, 2]])}).

%% (again where the server was killed meanwhile)
created(Name) ->
    case safe(fun() -> pg2:create(Name) end) of
        {raised, _, _} -> created(Name);
        ok -> ok
    end.

now_ms() -> erlang:monotonic_time(millisecond).
new() -> spawn(zulayefi_cluster, hold, []).

work(#worker{until = Until} = W) ->
    Begun = now_ms(),
    case Begun >= Until of
        true -> W;
        false ->
            W1 = step(rand:uniform(24), W),
            rand:uniform(3) =:= 1 andalso timer:sleep(rand:uniform(4)),
            work(W1#worker{done = W1#worker.done + 1, longest = max(W1#worker.longest, now_ms() - Begun)})
    end.

step(1, W) -> replaced(one_of(W#worker.pids), W);
step(2, W) -> shared(create, [], W);
step(3, W) -> shared(delete, [], W);
step(4, W) -> shared(join, [one_of(W#worker.pids)], W);
step(Kind, #worker{own = Own} = W) when Kind < 8 ->
    Name = one_of(maps:keys(Own)),
    own_group(map_get(Name, Own), Name, W);
step(Kind, #worker{common = Common, own = Own, pids = Pids, counts = Counts} = W) ->
    Name = one_of(Common ++ [Each || {Each, yes} <- maps:to_list(Own)]),
    Pid = one_of(Pids),
    Word = case Kind < 17 of true -> join; false -> leave end,
    Count = maps:get({Name, Pid}, Counts, 0),
    case changed(Kind =:= 8, Word, Name, Pid, W) of
        ok when Word =:= join -> checked(Name, Pid, counted(Name, Pid, Count + 1, W));
        ok -> checked(Name, Pid, counted(Name, Pid, max(0, Count - 1), W));
        Other -> doubted(Other, {Word, Name}, Pid, W)
    end.

changed(true, Word, Name, Pid, #worker{others = [_ | _] = Others}) -> safe(fun() -> erpc:call(one_of(Others), pg2, Word, [Name, Pid], 60000) end);
changed(_, Word, Name, Pid, _) -> safe(fun() -> pg2:Word(Name, Pid) end).

counted(Name, Pid, Count, #worker{counts = Counts} = W) -> W#worker{counts = Counts#{{Name, Pid} => Count}}.

%% Groups that others create and delete too: nothing is known of them.
shared(Word, Args, W) ->
    safe(fun() -> apply(pg2, Word, [{shared, rand:uniform(3)} | Args]) end),
    W.

%% With a group that is deleted its memberships go.
own_group(yes, Name, #worker{own = Own, counts = Counts} = W) ->
    case safe(fun() -> pg2:delete(Name) end) of
        ok -> W#worker{own = Own#{Name := no}, counts = maps:filter(fun({Other, _}, _) -> Other =/= Name end, Counts)};
        Error ->
            Members = lists:usort([Pid || {Other, Pid} <- maps:keys(Counts), Other =:= Name]),
            lists:foldl(fun replaced/2, noted(Error, {delete, Name}, W#worker{own = Own#{Name := unknown}}), Members)
    end;
own_group(_, Name, #worker{own = Own} = W) ->
    case safe(fun() -> pg2:create(Name) end) of
        ok -> W#worker{own = Own#{Name := yes}};
        Error -> noted(Error, {create, Name}, W#worker{own = Own#{Name := unknown}})
    end.

%% Ends a process, and has another in its place.
replaced(Pid, #worker{pids = Pids, counts = Counts} = W) ->
    exit(Pid, kill),
    W#worker{pids = [new() | Pids -- [Pid]], counts = maps:filter(fun({_, Other}, _) -> Other =/= Pid end, Counts)}.

%% It is not known whether a call whose server died was made, so its process ends.
doubted(Error, What, Pid, W) -> replaced(Pid, noted(Error, What, W)).

noted({raised, _, _}, _, #worker{in_doubt = InDoubt} = W) -> W#worker{in_doubt = InDoubt + 1};
noted(Error, What, #worker{faults = Faults} = W) -> W#worker{faults = [{What, Error} | Faults]}.

safe(Call) ->
    try Call()
    catch Class:Reason -> {raised, Class, Reason}
    end.

%% What was answered is in the table of this node, and in that of another.
checked(Name, Pid, #worker{counts = Counts, readers = Readers} = W) ->
    Wanted = map_get({Name, Pid}, Counts),
    Found = [{node(), pg2:get_members(Name)} | read_elsewhere(Name, Readers)],
    Faults = [{seen, Node, Name, Pid, wanted, Wanted, found, count(Pid, Members)} || {Node, Members} <- Found, count(Pid, Members) =/= Wanted],
    W#worker{faults = Faults ++ W#worker.faults}.

read_elsewhere(_, []) -> [];
read_elsewhere(Name, Readers) ->
    Node = one_of(Readers),
    case safe(fun() -> erpc:call(Node, pg2, get_members, [Name], 5000) end) of
        Members when is_list(Members) -> [{Node, Members}];
        _ -> []
    end.

one_of(List) -> lists:nth(rand:uniform(length(List)), List).

%% ---- beside the former pg2

%% Makes calls one after another, of random nodes, names and processes, at both; how many answers differ.
differences(Nodes, Calls) ->
    Names = [g, "text", {a, 1}, #{map => 1.5}, <<"binary">>, [x | y], 1 bsl 80],
    differences(Nodes, Names, lists:append([zulayefi_cluster:holders(Node, 3) || Node <- Nodes]), Calls).

differences(_, _, _, 0) -> 0;
differences(Nodes, Names, Pids, Calls) ->
    Node = one_of(Nodes),
    {Function, Args} = random_call(rand:uniform(12), one_of(Names), one_of(Pids)),
    [Ours, Theirs] = [sorted(zulayefi_cluster:call(Node, Module, Function, Args)) || Module <- [pg2, former_pg2]],
    Ours =:= Theirs orelse io:format("~tp ~tp at ~p: ~tp, the former ~tp~n", [Function, Args, element(2, Node), Ours, Theirs]),
    Rest = differences(Nodes, Names, some_end(rand:uniform(40), Nodes, Pids), Calls - 1),
    case Ours =:= Theirs of
        true -> Rest;
        false -> Rest + 1
    end.

random_call(Kind, Name, _) when Kind < 3 -> {create, [Name]};
random_call(3, Name, _) -> {one_of([delete, get_local_members]), [Name]};
random_call(4, _, _) -> {which_groups, []};
random_call(Kind, Name, Pid) when Kind < 8 -> {join, [Name, Pid]};
random_call(Kind, Name, Pid) when Kind < 10 -> {leave, [Name, Pid]};
random_call(10, Name, _) -> {get_local_members, [Name]};
random_call(_, Name, _) -> {get_members, [Name]}.

some_end(1, Nodes, [Pid | Others]) ->
    {value, Node} = lists:search(fun({_, Name}) -> Name =:= node(Pid) end, Nodes),
    zulayefi_cluster:call(Node, erlang, exit, [Pid, kill]),
    zulayefi_cluster:soon(fun() -> lists:all(fun({_, Members}) -> not lists:member(Pid, Members) end, lists:append(zulayefi_cluster:tables(Nodes))) end),
    timer:sleep(20),
    Others ++ [zulayefi_cluster:holder(Node)];
some_end(_, _, Pids) -> Pids.

sorted(List) when is_list(List) -> lists:sort(List);
sorted(Other) -> Other.
