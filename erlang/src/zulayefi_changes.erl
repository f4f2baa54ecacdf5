%% @doc Changes that callers wait for, those of each group in order. The program makes one after another, and is given a few ahead, so that it goes on
%% by itself; the others wait behind them.
-module(zulayefi_changes).
-include("zulayefi_changes.hrl").
-export([new/0, add/2, first/2, next/2, given/2, begun/2, waits/2, pop/2, stopped/1, names/1, all/1, count/1, is_effect/3]).
-export_type([changes/0]).

%% So many changes of a group the program has at most: one that it makes, and the next.
-define(AHEAD, 2).

-type change() :: #change{}.
%% Of each group those that were given, and behind them those that wait. Only the first has begun, as the program answers it before it makes the next.
-opaque changes() :: #{term() => {Given :: [change()], queue:queue(change())}}.

-spec new() -> changes().
new() -> #{}.

%% @doc Puts it behind the others of its group.
-spec add(change(), changes()) -> changes().
add(#change{name = Name} = Change, Changes) ->
    {Given, Waiting} = maps:get(Name, Changes, {[], queue:new()}),
    Changes#{Name => {Given, queue:in(Change, Waiting)}}.

-spec first(term(), changes()) -> change() | none.
first(Name, Changes) ->
    case Changes of
        #{Name := {[Change | _], _}} -> Change;
        #{Name := {[], Waiting}} -> queue:get(Waiting);
        _ -> none
    end.

%% @doc The first change of a group that waits, and whether none is before it; `none' where the program has enough, or one has to be settled before.
-spec next(term(), changes()) -> {IsFirst :: boolean(), change()} | none.
next(Name, Changes) ->
    case Changes of
        #{Name := {[#change{status = over} | _], _}} -> none;
        #{Name := {Given, Waiting}} when length(Given) < ?AHEAD -> waiting(Given =:= [], queue:peek(Waiting));
        _ -> none
    end.

waiting(IsFirst, {value, Change}) -> {IsFirst, Change};
waiting(_, empty) -> none.

%% @doc The program is given the first change of a group that waits.
-spec given(term(), changes()) -> changes().
given(Name, Changes) ->
    #{Name := {Given, Waiting}} = Changes,
    Changes#{Name := {Given ++ [(queue:get(Waiting))#change{status = given}], queue:drop(Waiting)}}.

%% @doc The effect of the first change of a group was read.
-spec begun(term(), changes()) -> changes().
begun(Name, Changes) ->
    #{Name := {[First | Others], Waiting}} = Changes,
    Changes#{Name := {[First#change{status = begun} | Others], Waiting}}.

%% @doc The first change of a group, with which the program was stopped, is made again.
-spec waits(term(), changes()) -> changes().
waits(Name, Changes) ->
    #{Name := {[First], Waiting}} = Changes,
    Changes#{Name := {[], waits_again(First, Waiting)}}.

waits_again(Change, Waiting) -> queue:in_r(Change#change{status = waits}, Waiting).

%% @doc The first change of a group was answered.
-spec pop(term(), changes()) -> changes().
pop(Name, Changes) ->
    Rest = case map_get(Name, Changes) of
        {[_ | Others], Waiting} -> {Others, Waiting};
        {[], Waiting} -> {[], queue:drop(Waiting)}
    end,
    case is_empty(Rest) of
        true -> maps:remove(Name, Changes);
        false -> Changes#{Name := Rest}
    end.

is_empty({Given, Waiting}) -> Given =:= [] andalso queue:is_empty(Waiting).

%% @doc The program was stopped. What had not begun left no trace, and is made again; what had begun is settled once the next has formed.
-spec stopped(changes()) -> changes().
stopped(Changes) -> maps:map(fun(_, {Given, Waiting}) -> stopped(Given, Waiting) end, Changes).

stopped([#change{status = Status} = First | Others], Waiting) when Status =/= given ->
    {[First#change{status = over}], lists:foldr(fun waits_again/2, Waiting, Others)};
stopped(Given, Waiting) -> {[], lists:foldr(fun waits_again/2, Waiting, Given)}.

-spec names(changes()) -> [term()].
names(Changes) -> maps:keys(Changes).

-spec all(changes()) -> [change()].
all(Changes) -> lists:append([Given ++ queue:to_list(Waiting) || {Given, Waiting} <- maps:values(Changes)]).

-spec count(changes()) -> non_neg_integer().
count(Changes) -> length(all(Changes)).

%% @doc Whether an assignment, by the row before and after it, has the effect of a change. By whom it was made is not told, and need not be.
-spec is_effect(change(), Row, Row) -> boolean() when Row :: zulayefi_table:row() | none.
is_effect(#change{word = create}, Before, After) -> Before =:= none andalso After =/= none;
is_effect(#change{word = delete}, Before, After) -> Before =/= none andalso After =:= none;
is_effect(#change{word = join, pid = Pid}, Before, After) -> count(Pid, After) > count(Pid, Before);
is_effect(#change{word = leave, pid = Pid}, Before, After) -> count(Pid, After) < count(Pid, Before).

count(_, none) -> 0;
count(Pid, {_, _, Local}) -> length([Each || Each <- Local, Each =:= Pid]).
