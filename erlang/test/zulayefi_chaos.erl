%% Clusters under load whose nodes, programs and servers are killed by chance. In the end the tables have to be the same, and as the workers know. All
%% generations are recorded.
-module(zulayefi_chaos).
-export([run/3]).
-import(zulayefi_cluster, [boot/2, connect/1, formed/1, call/4, stop/1, kill/1, signal/2, program/1, kill_program/1, kill_server/1, part/2, soon/1]).

-define(WORK_MS, 2500).

%% (programs that were stopped end with their server, but not where its node is killed before: they go on in the end, and then end)
-record(chaos, {folder :: file:filename(), alive :: [{pid(), node()}], dead = [] :: [node()], stopped = [] :: [pos_integer()], started = [] :: [term()], done = [] :: [term()]}).

%% Runs clusters until so many seconds are over, each by a seed of its own, from this one on; gives how many there were, and the seeds of those that failed.
%% Recordings of all are kept in this folder, with `none' only those of clusters that fail.
run(Seconds, Seed, Keep) -> run(erlang:monotonic_time(second) + Seconds, Seed, Keep, 0, []).

run(Until, Seed, Keep, Rounds, Failed) ->
    case erlang:monotonic_time(second) >= Until of
        true -> {Rounds, lists:reverse(Failed)};
        false ->
            rand:seed(exsss, {Seed, 3, 7}),
            Folder = filename:join(case Keep of none -> filename:absname("recordings"); _ -> Keep end, integer_to_list(Seed)),
            Faults = round(Seed, one_of([gentle, parting]), Folder),
            kept(Keep, Faults, Folder),
            run(Until, Seed + 1, Keep, Rounds + 1, [Seed || Faults =/= []] ++ Failed)
    end.

kept(none, [], Folder) -> file:del_dir_r(Folder);
kept(none, _, Folder) ->
    Kept = string:trim(os:cmd("mktemp -d")),
    [] = os:cmd("mv '" ++ Folder ++ "' '" ++ Kept ++ "'"),
    io:format("its recordings: ~ts~n", [filename:join(Kept, filename:basename(Folder))]);
kept(_, [], _) -> ok;
kept(_, _, Folder) -> io:format("its recordings: ~ts~n", [Folder]).

%% Where no node parts from another, what was answered is seen at once by all that are left. A group that one side has deleted may come back with another.
kinds(gentle) -> [kill, program, program, stopped_program];
kinds(parting) -> [kill, program, server, part, blink, come, back, hang].

round(Seed, Way, Folder) ->
    Nodes = boot([zulayefi_cluster:name(I) || I <- lists:seq(1, 2 + rand:uniform(3))], parameters(Folder)),
    connect(Nodes),
    formed(Nodes),
    Readers = case Way of
        gentle -> [Name || {_, Name} <- Nodes];
        parting -> []
    end,
    Chaos = faults(rand:uniform(4), Way, #chaos{folder = Folder, alive = Nodes, started = zulayefi_load:start(Nodes, [1, 2, 3], ?WORK_MS, Readers)}),
    Faults = try judged(Way, Chaos)
    catch Class:Reason:Trace -> [{Class, Reason, Trace, [catch call(Node, zulayefi, info, []) || Node <- Chaos#chaos.alive]}]
    end,
    Said = case Faults of [] -> "ok"; _ -> io_lib:format("~0tp", [Faults]) end,
    io:format("~b ~ts, ~b nodes: ~0tp: ~ts~n", [Seed, Way, length(Nodes), lists:reverse(Chaos#chaos.done), Said]),
    [stop(Node) || Node <- Chaos#chaos.alive],
    [signal("CONT", OsPid) || OsPid <- Chaos#chaos.stopped],
    Faults.

parameters(Folder) -> [{seconds_of_silence, 2}, {recording, Folder}, {"-kernel", ["net_ticktime", "8"]}].

judged(Way, #chaos{alive = Alive, started = Started}) ->
    Results = zulayefi_load:results(Started),
    soon(fun() -> connect(Alive) =/= [] orelse true end),
    formed(Alive),
    soon(fun() -> lists:all(fun(Node) -> maps:get(open, call(Node, zulayefi, info, [])) =:= 0 end, Alive) end),
    soon(fun() -> length(lists:usort(zulayefi_cluster:tables(Alive))) =:= 1 end),
    zulayefi_load:judge(Alive, Results, Way =:= parting).

faults(0, _, Chaos) -> Chaos;
faults(Left, Way, Chaos) ->
    timer:sleep(one_of([0, rand:uniform(60), rand:uniform(800)])),
    Kind = one_of(kinds(Way)),
    faults(Left - 1, Way, (fault(Kind, Chaos))#chaos{done = [Kind | Chaos#chaos.done]}).

fault(kill, #chaos{alive = [_, _ | _] = Alive, dead = Dead, started = Started} = Chaos) ->
    {_, Name} = Node = one_of(Alive),
    kill(Node),
    Chaos#chaos{alive = Alive -- [Node], dead = [Name | Dead], started = [Each || {_, At} = Each <- Started, At =/= Name]};
fault(program, Chaos) -> at_one(fun(Node) -> kill_program(Node) end, Chaos);
fault(stopped_program, #chaos{alive = Alive, stopped = Stopped} = Chaos) ->
    OsPid = program(one_of(Alive)),
    signal("STOP", OsPid),
    Chaos#chaos{stopped = [OsPid | Stopped]};
fault(server, Chaos) -> at_one(fun(Node) -> kill_server(Node) end, Chaos);
fault(hang, Chaos) ->
    at_one(fun(Node) ->
        OsPid = call(Node, os, getpid, []),
        signal("STOP", OsPid),
        timer:sleep(one_of([500, 2000, 10000])),
        signal("CONT", OsPid)
    end, Chaos);
fault(part, #chaos{alive = [_, _ | _] = Alive} = Chaos) ->
    [One, Other] = two_of(Alive),
    part(One, Other),
    Chaos;
fault(blink, #chaos{alive = [_, _ | _] = Alive} = Chaos) ->
    [One, {_, Name} = Other] = two_of(Alive),
    part(One, Other),
    call(One, net_adm, ping, [Name]),
    Chaos;
fault(come, Chaos) -> come(zulayefi_cluster:name(9), Chaos);
fault(back, #chaos{dead = [Name | Dead]} = Chaos) -> come(list_to_atom(hd(string:lexemes(atom_to_list(Name), "@"))), Chaos#chaos{dead = Dead});
fault(_, Chaos) -> Chaos.

at_one(Fault, #chaos{alive = Alive} = Chaos) ->
    catch Fault(one_of(Alive)),
    Chaos.

%% A node comes, and works too.
come(Name, #chaos{folder = Folder, alive = Alive, started = Started} = Chaos) ->
    [Node] = boot([Name], parameters(Folder)),
    [call(Node, net_adm, ping, [Other]) || {_, Other} <- Alive],
    Chaos#chaos{alive = [Node | Alive], started = zulayefi_load:start([Node], [4], ?WORK_MS div 2, []) ++ Started}.

two_of(List) ->
    One = one_of(List),
    [One, one_of(List -- [One])].

one_of(List) -> lists:nth(rand:uniform(length(List)), List).
