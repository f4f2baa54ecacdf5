%% How fast groups are, beside the former pg2 and OTP's pg, on the same three nodes in turn.
-module(zulayefi_bench).
-compile({nowarn_removed, [pg2]}).
-export([rates/1, losses/1, arrivals/1]).
-export([changes/5, queries/4, fill/3, watch_gone/2, longest_wait/3]).
-import(zulayefi_cluster, [with/2, boot/2, connect/1, formed/1, call/4, stop/1, soon/1]).

-define(CLIENTS, [6, 24]).
-define(ROUNDS, 100).
-define(QUERY_MS, 200).

%% Changes and queries a second: medians, least and most of so many rounds.
rates(Times) ->
    with(3, fun(Nodes) ->
        [{ok, _} = call(Node, former_pg2, start, []) || Node <- Nodes],
        [{ok, _} = call(Node, pg, start, [pg]) || Node <- Nodes],
        [create(Nodes, Module, one) || Module <- modules()],
        Kinds = [{Kind, Clients} || Kind <- [one_group, own_groups], Clients <- ?CLIENTS]
            ++ [{Query, Clients} || Query <- [get_members, get_closest_pid], Clients <- [1, 4]],
        _ = [rate(Nodes, Module, Kind) || Kind <- Kinds, Module <- modules()],
        Rates = [{{Kind, Module}, rate(Nodes, Module, Kind)} || _ <- lists:seq(1, Times), Kind <- Kinds, Module <- modules(), is_there(Kind, Module)],
        [print(Kind, Module, [Rate || {Key, Rate} <- Rates, Key =:= {Kind, Module}]) || Kind <- Kinds, Module <- modules(), is_there(Kind, Module)]
    end).

modules() -> [pg2, former_pg2, pg].

is_there({get_closest_pid, _}, pg) -> false;
is_there(_, _) -> true.

create(_, pg, _) -> ok;
create([Node | _], Module, Name) -> ok = call(Node, Module, create, [Name]).

print({Kind, Clients}, Module, Rates) ->
    io:format("~ts, ~b clients, ~ts: ~b a second (~b to ~b)~n", [Kind, Clients, Module, median(Rates), lists:min(Rates), lists:max(Rates)]).

median(Numbers) -> lists:nth((length(Numbers) + 1) div 2, lists:sort(Numbers)).

%% Each client joins and leaves with a process of its own.
rate(Nodes, Module, {Kind, Clients}) when Kind =:= one_group; Kind =:= own_groups ->
    Each = Clients div length(Nodes),
    Ms = at_once([{Node, changes, [Module, Kind, Each, ?ROUNDS, Id]} || {Node, Id} <- lists:zip(Nodes, lists:seq(1, length(Nodes)))]),
    2 * ?ROUNDS * Clients * 1000 div max(1, lists:max(Ms));
rate(_, pg, {get_closest_pid, _}) -> 0;
rate([Node | _] = Nodes, Module, {Query, Clients}) ->
    Pids = [zulayefi_cluster:holder(Each) || Each <- Nodes, _ <- lists:seq(1, 4)],
    [ok = call(Home, Module, join, [one, Pid]) || Pid <- Pids, {_, Name} = Home <- Nodes, Name =:= node(Pid)],
    soon(fun() -> length(call(Node, Module, get_members, [one])) =:= 12 end),
    Rate = call(Node, ?MODULE, queries, [Module, Query, Clients, ?QUERY_MS]),
    [ok = call(Home, Module, leave, [one, Pid]) || Pid <- Pids, {_, Name} = Home <- Nodes, Name =:= node(Pid)],
    soon(fun() -> call(Node, Module, get_members, [one]) =:= [] end),
    Rate.

at_once(Calls) ->
    Me = self(),
    Runners = [spawn_link(fun() -> Me ! {self(), call(Node, ?MODULE, Function, Args)} end) || {Node, Function, Args} <- Calls],
    [receive {Runner, Result} -> Result end || Runner <- Runners].

%% For how many milliseconds clients of this node change groups.
changes(Module, Kind, Clients, Rounds, Id) ->
    Names = [name(Kind, {Id, I}) || I <- lists:seq(1, Clients)],
    [Module =:= pg orelse (ok = Module:create(Name)) || Name <- lists:usort(Names)],
    timed(fun() ->
        together([fun() ->
            Pid = spawn(zulayefi_cluster, hold, []),
            repeat(Rounds, fun() -> ok = Module:join(Name, Pid), ok = Module:leave(Name, Pid) end),
            exit(Pid, kill)
        end || Name <- Names])
    end).

name(one_group, _) -> one;
name(own_groups, Id) -> {own, Id}.

timed(Call) ->
    Begun = erlang:monotonic_time(millisecond),
    Call(),
    erlang:monotonic_time(millisecond) - Begun.

together(Calls) ->
    Runners = [spawn_monitor(Call) || Call <- Calls],
    [receive {'DOWN', Monitor, process, Runner, normal} -> ok end || {Runner, Monitor} <- Runners].

repeat(0, _) -> ok;
repeat(Times, Call) -> Call(), repeat(Times - 1, Call).

%% Queries a second by so many clients of this node.
queries(Module, Query, Clients, Ms) ->
    Until = erlang:monotonic_time(millisecond) + Ms,
    Me = self(),
    [spawn_link(fun() -> Me ! {asked, asked(Module, Query, Until, 0)} end) || _ <- lists:seq(1, Clients)],
    lists:sum([receive {asked, Count} -> Count end || _ <- lists:seq(1, Clients)]) * 1000 div Ms.

asked(Module, Query, Until, Count) ->
    case erlang:monotonic_time(millisecond) >= Until of
        true -> Count;
        false ->
            repeat(200, fun() -> Module:Query(one) end),
            asked(Module, Query, Until, Count + 200)
    end.

%% A node of three with 1,000 memberships is killed: milliseconds from the first sign of it until it is out of all groups at all that are left, and the longest
%% wait of a change.
losses(Times) ->
    Found = [with(3, fun([One, Two, Three] = Nodes) ->
        [call(Node, ?MODULE, fill, [element(2, Node), 100, 10]) || Node <- Nodes],
        ok = call(One, pg2, create, [watched]),
        {_, Name} = Three,
        Me = self(),
        Watchers = [spawn_link(fun() -> Me ! {self(), call(Node, ?MODULE, watch_gone, [Name, 10000])} end) || Node <- [One, Two]],
        Waiter = spawn_link(fun() -> Me ! {self(), call(One, ?MODULE, longest_wait, [watched, Name, 2000])} end),
        timer:sleep(500),
        zulayefi_cluster:kill(Three),
        Gone = lists:max([receive {Watcher, Us} -> Us end || Watcher <- Watchers]),
        {Gone, receive {Waiter, Us} -> Us end}
    end) || _ <- lists:seq(1, Times)],
    print_us("out of all groups, after nodedown", [Gone || {Gone, _} <- Found]),
    print_us("longest wait of a change", [Wait || {_, Wait} <- Found]).

print_us(What, Us) -> io:format("~ts: median ~b microseconds, worst ~b~n", [What, median(Us), lists:max(Us)]).

%% So many groups of so many processes of this node each.
fill(Node, Groups, Members) ->
    Pids = [spawn(zulayefi_cluster, hold, []) || _ <- lists:seq(1, Members)],
    [begin
        Name = {full, I},
        ok = pg2:create(Name),
        [ok = pg2:join(Name, Pid) || Pid <- Pids]
     end || I <- lists:seq(1, Groups)],
    Node.

watch_gone(Node, Ms) ->
    ok = net_kernel:monitor_nodes(true),
    receive {nodedown, Node} -> ok after Ms -> exit(late) end,
    Begun = erlang:monotonic_time(microsecond),
    gone(Node),
    erlang:monotonic_time(microsecond) - Begun.

gone(Node) ->
    Has = fun({_, Members, _}, Found) -> Found orelse lists:any(fun(Pid) -> node(Pid) =:= Node end, Members) end,
    case ets:foldl(Has, false, zulayefi_table) of
        true -> gone(Node);
        false -> ok
    end.

%% The longest time that a change took from the first sign that a node is gone on.
longest_wait(Name, Node, Ms) ->
    ok = net_kernel:monitor_nodes(true),
    Pid = spawn(zulayefi_cluster, hold, []),
    Wait = longest_wait(Name, Pid, erlang:monotonic_time(millisecond) + Ms, 0),
    receive {nodedown, Node} -> Wait after 0 -> exit(no_nodedown) end.

longest_wait(Name, Pid, Until, Longest) ->
    Begun = erlang:monotonic_time(microsecond),
    ok = pg2:join(Name, Pid),
    ok = pg2:leave(Name, Pid),
    Us = erlang:monotonic_time(microsecond) - Begun,
    case erlang:monotonic_time(millisecond) >= Until of
        true -> max(Us, Longest);
        false -> longest_wait(Name, Pid, Until, max(Us, Longest))
    end.

%% An empty node comes to three with 10,000 memberships each: milliseconds from its first connection until it has formed with them, and for which changes waited.
arrivals(Times) ->
    Found = [with(3, fun(Nodes) ->
        at_once([{Node, fill, [Name, 1000, 10]} || {_, Name} = Node <- Nodes]),
        [Fourth] = boot([zulayefi_cluster:name(4)], []),
        try
            {Us, _} = timer:tc(fun() -> connect([Fourth | Nodes]), formed([Fourth | Nodes]) end),
            {Us, 1000 * lists:max([maps:get(pause, call(Node, zulayefi, info, [])) || Node <- Nodes])}
        after
            stop(Fourth)
        end
    end) || _ <- lists:seq(1, Times)],
    print_us("formed with a node that came", [Us || {Us, _} <- Found]),
    print_us("pause of changes", [Us || {_, Us} <- Found]).
