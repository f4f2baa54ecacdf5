%% What pg2 was in OTP up to release 23, to compare with: changes by `global:trans' and `gen_server:multi_call', a table at each node, and each node
%% watches each member.
-module(former_pg2).
-behaviour(gen_server).
-export([start/0, create/1, delete/1, join/2, leave/2, get_members/1, get_local_members/1, get_closest_pid/1, which_groups/0]).
-export([init/1, handle_call/3, handle_cast/2, handle_info/2]).

start() -> gen_server:start({local, ?MODULE}, ?MODULE, [], []).

create(Name) ->
    case is_group(Name) of
        true -> ok;
        false -> everywhere(Name, {create, Name})
    end.

delete(Name) -> everywhere(Name, {delete, Name}).
join(Name, Pid) when is_pid(Pid) -> of_group(Name, {join, Name, Pid}).
leave(Name, Pid) when is_pid(Pid) -> of_group(Name, {leave, Name, Pid}).

get_members(Name) -> members(Name, fun(_) -> true end).
get_local_members(Name) -> members(Name, fun(Pid) -> node(Pid) =:= node() end).

get_closest_pid(Name) ->
    case {get_local_members(Name), get_members(Name)} of
        {[], []} -> {error, {no_process, Name}};
        {[], Members} -> lists:nth(rand:uniform(length(Members)), Members);
        {[_ | _] = Local, _} -> lists:nth(rand:uniform(length(Local)), Local);
        {Error, _} -> Error
    end.

which_groups() -> [Name || [Name] <- ets:match(?MODULE, {{group, '$1'}})].

is_group(Name) -> ets:member(?MODULE, {group, Name}).

of_group(Name, Request) ->
    case is_group(Name) of
        true -> everywhere(Name, Request);
        false -> {error, {no_such_group, Name}}
    end.

everywhere(Name, Request) ->
    global:trans({{?MODULE, Name}, self()}, fun() -> gen_server:multi_call(?MODULE, Request) end),
    ok.

members(Name, Is) ->
    case is_group(Name) of
        true -> lists:append([lists:duplicate(Count, Pid) || [Pid, Count] <- ets:match(?MODULE, {{member, Name, '$1'}, '$2'}), Is(Pid)]);
        false -> {error, {no_such_group, Name}}
    end.

%% ---- the server of a node; its state has the processes that it watches

init([]) ->
    ?MODULE = ets:new(?MODULE, [ordered_set, protected, named_table]),
    {ok, #{}}.

handle_call({create, Name}, _, Watched) ->
    ets:insert_new(?MODULE, {{group, Name}}),
    {reply, ok, Watched};
handle_call({delete, Name}, _, Watched) ->
    ets:delete(?MODULE, {group, Name}),
    ets:match_delete(?MODULE, {{member, Name, '_'}, '_'}),
    {reply, ok, Watched};
handle_call({join, Name, Pid}, _, Watched) ->
    ets:update_counter(?MODULE, {member, Name, Pid}, 1, {{member, Name, Pid}, 0}),
    {reply, ok, watch(Pid, Watched)};
handle_call({leave, Name, Pid}, _, Watched) ->
    left(ets:lookup(?MODULE, {member, Name, Pid})),
    {reply, ok, Watched}.

watch(Pid, Watched) when is_map_key(Pid, Watched) -> Watched;
watch(Pid, Watched) -> Watched#{Pid => monitor(process, Pid)}.

left([{Member, 1}]) -> ets:delete(?MODULE, Member);
left([{Member, _}]) -> ets:update_counter(?MODULE, Member, -1);
left([]) -> true.

handle_cast(_, Watched) -> {noreply, Watched}.

handle_info({'DOWN', _, process, Pid, _}, Watched) ->
    ets:match_delete(?MODULE, {{member, '_', Pid}, '_'}),
    {noreply, maps:remove(Pid, Watched)};
handle_info(_, Watched) -> {noreply, Watched}.
