%% @doc The table that queries read: one row a group, `{Name, Members, Local}', written whole. So a query sees a group as one assignment left
%% it, and asks no process. It belongs to the supervisor, and outlives the server.
-module(zulayefi_table).
-export([new/0, members/1, local_members/1, closest/1, names/0]).
-export([has/1, rows/0, put/1, assign/1, assigned/2, without_node/1, close/1, open/0, is_open/0, keep/2, kept/2]).
-export_type([assignment/0, row/0]).

%% What the server keeps beside the rows: whether the node is in a set, and what a later server has to know.
-define(KEPT, zulayefi_kept).

%% The group is gone; it is there with these members; this process counts so often in it.
-type assignment() :: {Name :: term()} | {Name :: term(), [pid()]} | {Name :: term(), pid(), non_neg_integer()}.
-type row() :: {Name :: term(), Members :: [pid()], Local :: [pid()]}.
-type missing() :: {error, {no_such_group, term()} | {set_full, pos_integer()}}.

-spec new() -> ok.
new() ->
    ?MODULE = ets:new(?MODULE, [named_table, public, {read_concurrency, true}]),
    ?KEPT = ets:new(?KEPT, [named_table, public, {read_concurrency, true}]),
    ok.

%% ---- queries

-spec members(term()) -> [pid()] | missing().
members(Name) ->
    case lookup(Name) of
        [{_, Members, _}] -> Members;
        [] -> missing(Name)
    end.

-spec local_members(term()) -> [pid()] | missing().
local_members(Name) ->
    case lookup(Name) of
        [{_, _, Local}] -> Local;
        [] -> missing(Name)
    end.

-spec closest(term()) -> pid() | {error, {no_process, term()}} | missing().
closest(Name) ->
    case lookup(Name) of
        [{_, [], _}] -> {error, {no_process, Name}};
        [{_, Members, []}] -> one_of(Members);
        [{_, _, Local}] -> one_of(Local);
        [] -> missing(Name)
    end.

one_of([Pid]) -> Pid;
one_of(Pids) -> lists:nth(rand:uniform(length(Pids)), Pids).

-spec names() -> [term()] | missing().
names() ->
    try {ets:select(?MODULE, [{{'$1', '_', '_'}, [], ['$1']}]), full()} of
        {Names, false} -> Names;
        {_, Most} -> {error, {set_full, Most}}
    catch
        error:badarg -> exit({noproc, {?MODULE, names, []}})
    end.

lookup(Name) ->
    try ets:lookup(?MODULE, Name)
    catch error:badarg -> exit({noproc, {?MODULE, lookup, [Name]}})
    end.

missing(Name) ->
    case full() of
        false -> {error, {no_such_group, Name}};
        Most -> {error, {set_full, Most}}
    end.

full() -> kept(full, false).

%% ---- what the server writes

-spec has(term()) -> boolean().
has(Name) -> ets:member(?MODULE, Name).

%% @doc All rows, also where the node is in no set.
-spec rows() -> [row()].
rows() -> kept(closed, ets:tab2list(?MODULE)).

row(Name, Members) -> {Name, Members, [Pid || Pid <- Members, node(Pid) =:= node()]}.

%% @doc Puts all rows in their place at once.
-spec put([row()]) -> ok.
put(Rows) ->
    true = ets:insert(?MODULE, Rows),
    ok.

%% @doc Applies an assignment; gives the row that was there and the one that is there now.
-spec assign(assignment()) -> {row() | none, row() | none}.
assign(Assignment) ->
    Name = element(1, Assignment),
    Before = case ets:lookup(?MODULE, Name) of [Row] -> Row; [] -> none end,
    After = assigned(Assignment, Before),
    case After of
        none -> ets:delete(?MODULE, Name);
        _ -> ets:insert(?MODULE, After)
    end,
    {Before, After}.

%% @doc The row that an assignment makes of one.
-spec assigned(assignment(), row() | none) -> row() | none.
assigned({_}, _) -> none;
assigned({Name, Members}, _) -> row(Name, Members);
assigned({_, _, _}, none) -> none;
assigned({Name, Pid, Count}, {Name, Members, Local}) when node(Pid) =:= node() ->
    {Name, counted(Pid, Count, Members), counted(Pid, Count, Local)};
assigned({Name, Pid, Count}, {Name, Members, Local}) -> {Name, counted(Pid, Count, Members), Local}.

counted(Pid, Count, Pids) -> lists:duplicate(Count, Pid) ++ [Other || Other <- Pids, Other =/= Pid].

%% @doc Takes all members of a node out.
-spec without_node(node()) -> ok.
without_node(Node) ->
    Is = fun(Pid) -> node(Pid) =:= Node end,
    Without = fun({Name, Members, Local}, Rows) ->
        case lists:any(Is, Members) of
            true -> [{Name, [Pid || Pid <- Members, not Is(Pid)], Local} | Rows];
            false -> Rows
        end
    end,
    put(ets:foldl(Without, [], ?MODULE)).

%% @doc Hides all rows: the node is in no set, since that has as many nodes as it may.
-spec close(pos_integer()) -> ok.
close(Most) ->
    Rows = rows(),
    keep(closed, Rows),
    keep(full, Most),
    true = ets:delete_all_objects(?MODULE),
    ok.

%% @doc Ends that, once the rows are in their place.
-spec open() -> ok.
open() ->
    true = ets:delete(?KEPT, full),
    true = ets:delete(?KEPT, closed),
    ok.

-spec is_open() -> boolean().
is_open() -> full() =:= false.

-spec keep(term(), term()) -> ok.
keep(Key, Value) ->
    true = ets:insert(?KEPT, {Key, Value}),
    ok.

-spec kept(term(), Default) -> term() | Default.
kept(Key, Default) ->
    case ets:lookup(?KEPT, Key) of
        [{_, Value}] -> Value;
        [] -> Default
    end.
