%% Clusters of nodes on this machine for tests. Their standard input and output control them, so they also answer where they are connected to nobody, and
%% end with this node.
-module(zulayefi_cluster).
-export([with/2, with/3, with_nodes/3, boot/2, connect/1, formed/1, is_formed/2, call/4, call/5, stop/1, kill/1, signal/2]).
-export([kill_program/1, kill_server/1, part/2, soon/1, soon/2, members_everywhere/2, tables/1, table/0, holder/1, hold/0, holders/2, program/1, name/1]).

%% Runs a test in a cluster of so many nodes, or in one of the nodes with these parameters.
with(Number, Test) -> with(Number, [], Test).

with(Number, Parameters, Test) ->
    with_nodes([name(I) || I <- lists:seq(1, Number)], Parameters, fun(Nodes) ->
        connect(Nodes),
        formed(Nodes),
        Test(Nodes)
    end).

%% Runs a test with nodes that are not connected. One without a name is told so by `none'.
with_nodes(Names, Parameters, Test) ->
    Nodes = boot(Names, Parameters),
    try
        Test(Nodes)
    after
        [stop(Node) || Node <- Nodes]
    end.

name(Number) -> list_to_atom(lists:concat([n, Number, "_", erlang:unique_integer([positive]), "_", os:getpid()])).

%% Starts nodes at once, with the application.
boot(Names, Parameters) ->
    Me = self(),
    Starters = [spawn_link(fun() -> Me ! {self(), started(Name, Parameters)} end) || Name <- Names],
    [receive {Starter, Node} -> Node end || Starter <- Starters].

started(Name, Parameters) ->
    Paths = lists:append([["-pa", filename:dirname(code:which(Module))] || Module <- [zulayefi_server, ?MODULE]]),
    {Application, Others} = lists:partition(fun({Key, _}) -> is_atom(Key) end, Parameters),
    Words = lists:append([["-zulayefi", atom_to_list(Key), lists:flatten(io_lib:format("~0p", [Value]))] || {Key, Value} <- Application])
        ++ lists:append([[Key | Value] || {Key, Value} <- Others]),
    Options = #{connection => standard_io, peer_down => continue, wait_boot => 60000,
        args => Paths ++ ["+S", "2:2", "+sbwt", "none", "+sbwtdcpu", "none", "+sbwtdio", "none", "-kernel", "logger_level", "emergency"] ++ Words},
    {Peer, Node} = case Name of
        none -> {ok, Started, _} = peer:start(Options), {Started, none};
        _ -> {ok, Started, Full} = peer:start(Options#{name => Name}), {Started, Full}
    end,
    {ok, _} = peer:call(Peer, application, ensure_all_started, [zulayefi], 60000),
    {Peer, Node}.

connect(Nodes) -> [pong = call(One, net_adm, ping, [Node]) || One <- Nodes, {_, Node} <- Nodes, One =/= Node].

formed(Nodes) -> soon(fun() -> is_formed(Nodes, lists:sort([Node || {_, Node} <- Nodes])) end).

%% Whether each of these is formed in this set, all in the same generation.
is_formed(Nodes, Set) ->
    Infos = [call(Node, zulayefi, info, []) || Node <- Nodes],
    lists:all(fun(Info) -> maps:get(stage, Info) =:= formed andalso lists:sort(maps:get(set, Info)) =:= Set end, Infos)
        andalso length(lists:usort([maps:get(generation, Info) || Info <- Infos])) =:= 1.

call(Node, Module, Function, Args) -> call(Node, Module, Function, Args, 60000).
call({Peer, _}, Module, Function, Args, Ms) -> peer:call(Peer, Module, Function, Args, Ms).

stop({Peer, _}) -> catch peer:stop(Peer).

%% Ends a node by signal 9.
kill(Node) ->
    signal(9, call(Node, os, getpid, [])),
    stop(Node).

signal(Signal, Pid) when is_integer(Pid) -> signal(Signal, integer_to_list(Pid));
signal(Signal, Pid) -> os:cmd(lists:concat(["kill -", Signal, " ", Pid])).

program(Node) -> maps:get(program, call(Node, zulayefi, info, [])).

kill_program(Node) -> signal(9, program(Node)).

kill_server(Node) -> call(Node, erlang, apply, [fun() -> exit(whereis(zulayefi_server), kill) end, []]).

part(Node, {_, Other}) -> call(Node, erlang, disconnect_node, [Other]).

%% Waits until something holds.
soon(Test) -> soon(Test, 1500).

soon(Test, 0) -> true = Test();
soon(Test, Times) ->
    case catch Test() of
        true -> ok;
        _ -> timer:sleep(20), soon(Test, Times - 1)
    end.

%% What the nodes say of the members of a group: one opinion, if they agree.
members_everywhere(Nodes, Name) -> lists:usort([sorted(call(Node, pg2, get_members, [Name])) || Node <- Nodes]).

sorted(List) when is_list(List) -> lists:sort(List);
sorted(Other) -> Other.

tables(Nodes) -> [call(Node, ?MODULE, table, []) || Node <- Nodes].

table() -> lists:sort([{Name, lists:sort(Members)} || {Name, Members, _} <- zulayefi_table:rows()]).

%% A process of a node that does nothing.
holder(Node) -> call(Node, erlang, spawn, [?MODULE, hold, []]).
holders(Node, Number) -> [holder(Node) || _ <- lists:seq(1, Number)].

hold() -> receive stop -> ok end.
