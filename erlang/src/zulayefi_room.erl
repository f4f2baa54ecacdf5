%% @doc How much this node brings into a set. All names of its table and its own memberships have to fit what nodes exchange, or the set could never
%% change again. So a create or join that would pass the limit is refused, before it is given.
-module(zulayefi_room).
-include("zulayefi_changes.hrl").
-export([new/1, reserve/2, release/2, change/3, is_passed/1, brought/1]).
-export_type([room/0]).

%% What stands around a name.
-define(AROUND, 8).

-record(room, {
    most :: pos_integer(),
    pid_bytes = zulayefi_term:bytes_of_pid(self()) :: pos_integer(),
    %% bytes of the table, and of open creates and joins
    names = 0 :: non_neg_integer(),
    members = 0 :: non_neg_integer(),
    creates = 0 :: non_neg_integer(),
    joins = 0 :: non_neg_integer()
}).
-opaque room() :: #room{}.

-spec new(pos_integer()) -> room().
new(Most) -> #room{most = Most}.

%% @doc Room for a change that is about to be given.
-spec reserve(#change{}, room()) -> {ok, room()} | full.
reserve(#change{word = create, wrapped = Wrapped}, Room) ->
    within(Room#room{creates = Room#room.creates + bytes_of(Wrapped)});
reserve(#change{word = join}, Room) ->
    within(Room#room{joins = Room#room.joins + Room#room.pid_bytes});
reserve(_, Room) -> {ok, Room}.

within(#room{most = Most, names = Names, creates = Creates, members = Members, joins = Joins} = Room) ->
    case Names + Creates =< Most andalso Members + Joins =< Most of
        true -> {ok, Room};
        false -> full
    end.

%% @doc It was answered.
-spec release(#change{}, room()) -> room().
release(#change{word = create, wrapped = Wrapped}, Room) -> Room#room{creates = Room#room.creates - bytes_of(Wrapped)};
release(#change{word = join}, Room) -> Room#room{joins = Room#room.joins - Room#room.pid_bytes};
release(_, Room) -> Room.

bytes_of(Wrapped) -> ?AROUND + zulayefi_term:bytes_of(Wrapped).

%% @doc The table had the one row, and has the other now.
-spec change(Row, Row, room()) -> room() when Row :: zulayefi_table:row() | none.
change(none, none, Room) -> Room;
change(none, {Name, _, _} = After, Room) ->
    change({Name, [], []}, After, Room#room{names = Room#room.names + bytes_of(zulayefi_term:wrapped(Name))});
change({Name, _, _} = Before, none, Room) ->
    change(Before, {Name, [], []}, Room#room{names = Room#room.names - bytes_of(zulayefi_term:wrapped(Name))});
change({_, _, Same}, {_, _, Same}, Room) -> Room;
change({_, _, Before}, {_, _, After}, #room{members = Members, pid_bytes = Bytes} = Room) ->
    Room#room{members = Members + Bytes * (length(After) - length(Before))}.

%% @doc Whether more is there than can be brought: two sides that had parted may have so much together.
-spec is_passed(room()) -> boolean().
is_passed(#room{most = Most, names = Names, members = Members}) -> Names > Most orelse Members > Most.

-spec brought(room()) -> #{atom() => non_neg_integer()}.
brought(#room{most = Most, names = Names, members = Members}) -> #{names => Names, members => Members, most => Most}.
