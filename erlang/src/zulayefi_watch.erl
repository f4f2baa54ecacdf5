%% @doc Processes of this node that are members, or about to join: each has a monitor as long as something uses it, a group or an open join.
-module(zulayefi_watch).
-export([new/0, use/2, drop/2, change/3, has/2, ended/3, count/1]).
-export_type([watch/0]).

-opaque watch() :: #{pid() => {reference(), pos_integer()}}.

-spec new() -> watch().
new() -> #{}.

%% @doc One use more.
-spec use(pid(), watch()) -> watch().
use(Pid, Watch) ->
    case Watch of
        #{Pid := {Monitor, Uses}} -> Watch#{Pid := {Monitor, Uses + 1}};
        _ -> Watch#{Pid => {monitor(process, Pid), 1}}
    end.

%% @doc One use less. Where its end was seen there is none.
-spec drop(pid(), watch()) -> watch().
drop(Pid, Watch) ->
    case Watch of
        #{Pid := {Monitor, 1}} -> demonitor(Monitor, [flush]), maps:remove(Pid, Watch);
        #{Pid := {Monitor, Uses}} -> Watch#{Pid := {Monitor, Uses - 1}};
        _ -> Watch
    end.

%% @doc A group had these members of this node, and has those now.
-spec change([pid()], [pid()], watch()) -> watch().
change(Same, Same, Watch) -> Watch;
change(Before, After, Watch) ->
    {Was, Is} = {lists:usort(Before), lists:usort(After)},
    lists:foldl(fun drop/2, lists:foldl(fun use_again/2, Watch, Is -- Was), Was -- Is).

%% A process whose end was seen is not watched again: it is about to leave the group.
use_again(Pid, Watch) ->
    case is_map_key(Pid, Watch) orelse is_process_alive(Pid) of
        true -> use(Pid, Watch);
        false -> Watch
    end.

-spec has(pid(), watch()) -> boolean().
has(Pid, Watch) -> is_map_key(Pid, Watch).

%% @doc A monitor tells an end: `false' where it is none of these.
-spec ended(reference(), pid(), watch()) -> watch() | false.
ended(Monitor, Pid, Watch) ->
    case Watch of
        #{Pid := {Monitor, _}} -> maps:remove(Pid, Watch);
        _ -> false
    end.

-spec count(watch()) -> non_neg_integer().
count(Watch) -> map_size(Watch).
