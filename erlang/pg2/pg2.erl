%% @doc Distributed named process groups, as OTP had them up to release 23.
%%
%% A group has a name and members, processes of any node of the set; each is a member as often as it joined. Changes take a lock of the group's on all
%% nodes, and return once each node has them. Queries read a table of this node.
%%
%% Beside the answers of the former module there are these: `{error, {set_full, Most}}', as the set has so many nodes as it may; `{error,
%% {not_in_set, Node}}', as the process is of a node that is connected, but not in the set; `{error, system_limit}', as all names or all
%% memberships of a node take too many bytes; `{error, {refused, N}}', a fault of the program. A name of more than 1,000 bytes is `badarg'.
-module(pg2).
-export([start/0, start_link/0]).
-export([create/1, delete/1, join/2, leave/2, get_members/1, get_local_members/1, get_closest_pid/1, which_groups/0]).
-export_type([name/0]).

-type name() :: any().
-type limit() :: {set_full, pos_integer()}.

%% @doc Starts the server, where it does not run.
-spec start() -> {ok, pid()} | {error, any()}.
start() ->
    case application:ensure_all_started(zulayefi) of
        {ok, _} -> {ok, whereis(zulayefi_server)};
        Error -> Error
    end.

%% @doc Starts the server. It runs already, as the application starts it.
-spec start_link() -> {ok, pid()} | {error, any()}.
start_link() ->
    case start() of
        {ok, Pid} -> {error, {already_started, Pid}};
        Error -> Error
    end.

%% @doc Creates a new, empty group. Where it is there nothing happens.
-spec create(Name :: name()) -> ok | {error, limit() | system_limit | {refused, pos_integer()}}.
create(Name) -> zulayefi_calls:create(Name).

%% @doc Deletes a group.
-spec delete(Name :: name()) -> ok | {error, limit() | {refused, pos_integer()}}.
delete(Name) -> zulayefi_calls:delete(Name).

%% @doc The process joins the group. It can join many times, and then has to leave as often.
-spec join(Name, Pid :: pid()) -> ok | {error, {no_such_group, Name} | limit() | {not_in_set, node()} | system_limit | {refused, pos_integer()}} when Name :: name().
join(Name, Pid) when is_pid(Pid) -> zulayefi_calls:join(Name, Pid).

%% @doc The process leaves the group once. Where it is no member, nothing happens.
-spec leave(Name, Pid :: pid()) -> ok | {error, {no_such_group, Name} | limit() | {not_in_set, node()} | {refused, pos_integer()}} when Name :: name().
leave(Name, Pid) when is_pid(Pid) -> zulayefi_calls:leave(Name, Pid).

%% @doc All processes of the group, each as often as it joined.
-spec get_members(Name) -> [pid()] | {error, {no_such_group, Name} | limit()} when Name :: name().
get_members(Name) -> zulayefi_table:members(Name).

%% @doc All processes of the group that are of this node.
-spec get_local_members(Name) -> [pid()] | {error, {no_such_group, Name} | limit()} when Name :: name().
get_local_members(Name) -> zulayefi_table:local_members(Name).

%% @doc A process of the group: of this node, if there is one, else any.
-spec get_closest_pid(Name) -> pid() | {error, {no_process, Name} | {no_such_group, Name} | limit()} when Name :: name().
get_closest_pid(Name) -> zulayefi_table:closest(Name).

%% @doc The names of all groups.
-spec which_groups() -> [name()] | {error, limit()}.
which_groups() -> zulayefi_table:names().
