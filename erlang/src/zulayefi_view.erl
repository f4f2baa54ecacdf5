%% @doc Which servers a server sees, what each told of itself, and which of them are to be the set.
%%
%% A generation is one run of a program on each node of a set. Generations are ordered by their number, then by the node of the server that
%% proposed them, then by that server. The set is the servers with the least names of a view, as many as may be.
-module(zulayefi_view).
-export([new/1, servers/1, others/1, set/1, has/2, of_node/2, met/3, lost/2]).
-export([greeted/2, greeted_by_all/1, unseen/1]).
-export([first/0, number/1, is_greater/2, next_number/2, wants/4, told_formed/3]).
-export_type([view/0, generation/0, stage/0, told/0]).

-record(view, {
    %% each server but this one: its monitor, and the state that it told last
    servers = #{} :: #{pid() => {reference(), told()}},
    %% nodes that were there at the start and told nothing yet, by the monitors of their servers
    awaited = #{} :: #{reference() => node()},
    set = [] :: [pid()],
    most :: pos_integer()
}).

-opaque view() :: #view{}.
-type generation() :: {non_neg_integer(), Proposer :: pid() | none}.
%% Whether a server's program runs, and has formed.
-type stage() :: none | runs | formed.
-type told() :: {generation(), stage(), Servers :: [pid()]}.

%% @doc A view of this server alone. It waits to be greeted by the nodes that are there.
-spec new(pos_integer()) -> view().
new(Most) ->
    Awaited = maps:from_list([{monitor(process, {zulayefi_server, Node}), Node} || Node <- nodes()]),
    with_set(#view{awaited = Awaited, most = Most}).

%% @doc All servers, this one too, in order.
-spec servers(view()) -> [pid()].
servers(View) -> by_name([self() | others(View)]).

-spec others(view()) -> [pid()].
others(#view{servers = Servers}) -> maps:keys(Servers).

-spec set(view()) -> [pid()].
set(#view{set = Set}) -> Set.

with_set(#view{most = Most} = View) -> View#view{set = chosen(servers(View), Most)}.

%% (Each node has one server, so all choose alike.)
chosen(Servers, Most) -> lists:sublist(Servers, Most).

by_name(Servers) -> [Pid || {_, Pid} <- lists:sort([{node(Pid), Pid} || Pid <- Servers])].

-spec has(pid(), view()) -> boolean().
has(Pid, #view{servers = Servers}) -> is_map_key(Pid, Servers).

%% @doc The servers that are seen at a node: one, or none.
-spec of_node(node(), view()) -> [pid()].
of_node(Node, View) -> [Pid || Pid <- others(View), node(Pid) =:= Node].

%% @doc A server told its state. A new one is monitored.
-spec met(pid(), told(), view()) -> view().
met(Pid, Told, #view{servers = Servers} = View) ->
    case Servers of
        #{Pid := {Monitor, _}} -> View#view{servers = Servers#{Pid := {Monitor, Told}}};
        _ -> with_set(View#view{servers = Servers#{Pid => {monitor(process, Pid), Told}}})
    end.

-spec lost(pid(), view()) -> view().
lost(Pid, #view{servers = Servers} = View) ->
    {{Monitor, _}, Others} = maps:take(Pid, Servers),
    demonitor(Monitor, [flush]),
    with_set(View#view{servers = Others}).

%% ---- the start

%% @doc A node told its state, or its server is not there: by its name, or by the monitor.
-spec greeted(node() | reference(), view()) -> view().
greeted(Node, #view{awaited = Awaited} = View) when is_atom(Node) ->
    {Came, Others} = lists:partition(fun({_, Other}) -> Other =:= Node end, maps:to_list(Awaited)),
    [demonitor(Monitor, [flush]) || {Monitor, _} <- Came],
    View#view{awaited = maps:from_list(Others)};
greeted(Monitor, #view{awaited = Awaited} = View) -> View#view{awaited = maps:remove(Monitor, Awaited)}.

%% @doc Waits for nobody any more.
-spec greeted_by_all(view()) -> view().
greeted_by_all(#view{awaited = Awaited} = View) ->
    [demonitor(Monitor, [flush]) || Monitor <- maps:keys(Awaited)],
    View#view{awaited = #{}}.

%% @doc Nodes whose servers others see, and to which there is no connection.
-spec unseen(view()) -> [node()].
unseen(#view{servers = Servers}) ->
    lists:usort([node(Pid) || {_, {_, _, Seen}} <- maps:values(Servers), Pid <- Seen]) -- [node() | nodes()].

%% ---- generations

-spec first() -> generation().
first() -> {0, none}.

-spec number(generation()) -> non_neg_integer().
number({Number, _}) -> Number.

-spec is_greater(generation(), generation()) -> boolean().
is_greater(One, Other) -> order(One) > order(Other).

order({Number, none}) -> {Number, none, none};
order({Number, Pid}) -> {Number, node(Pid), Pid}.

%% @doc A number above that of each generation that the set knows.
-spec next_number(generation(), view()) -> pos_integer().
next_number(Own, View) -> 1 + lists:max([number(Own) | [number(Generation) || {Generation, _, _} <- told_by_set(View)]]).

%% What each other server of the set told last.
told_by_set(#view{set = Set, servers = Servers}) -> [element(2, map_get(Pid, Servers)) || Pid <- Set, Pid =/= self()].

%% @doc Whether this server has to propose a generation: its name is the least, all others of the set choose the same set, and the one that
%% runs is not of this set, has stopped here or there, or is not the greatest. Of a smaller one the start is on its way.
-spec wants(generation(), [pid()], stage(), view()) -> boolean().
wants(Own, Running, Stage, #view{set = [Least | _] = Set, most = Most} = View) when Least =:= self() ->
    Told = told_by_set(View),
    map_size(View#view.awaited) =:= 0
        andalso lists:all(fun({_, _, Seen}) -> chosen(Seen, Most) =:= Set end, Told)
        andalso (Stage =:= none orelse Running =/= Set orelse lists:any(fun(Each) -> calls_for_another(Each, Own) end, Told));
wants(_, _, _, _) -> false.

calls_for_another({Own, Stage, _}, Own) -> Stage =:= none;
calls_for_another({Generation, _, _}, Own) -> is_greater(Generation, Own).

%% @doc Whether all others of a set told that they formed in this generation.
-spec told_formed(generation(), [pid()], view()) -> boolean().
told_formed(Generation, Set, #view{servers = Servers}) ->
    lists:all(fun(Pid) ->
        case Servers of
            #{Pid := {_, {Generation, formed, _}}} -> true;
            _ -> Pid =:= self()
        end
    end, Set).
