%% pg2's interface, which left OTP with release 24, over a cluster of `pg2sim serve`.
%%
%% start(Program, Nodes) runs the program with these nodes, a list of atoms. A process is at the first of them unless it calls at(Node).
%% The first join of a process makes one at its node, which ends once the process does. See the manual page of pg2 for the other calls.
%%
%% Beside pg2's answers a call gives {error, Reason}:
%%   busy             too many requests have no answer yet: 10,000, or as many as start/3 is told by #{most => N}
%%   {refused, N}     a node refused it by this fault, and nothing happened; 30: the service ends, since a node's clock is nearly full
%%   {unknown, N}     the service ended by this fault while the request was open: it may have happened
%%   {node_lost, Node}, {bad_request, N}: the node is lost; no term of the service's formats, as a float
%%   {ended, Reason}  the program ended, by {exit_status, Status} mostly, or stop/0 was called; what was under way may have happened
%%   not_running, timeout: there is no cluster; no answer came within a minute
-module(pg2_cluster).
-export([start/2, start/3, stop/0, at/1]).
-export([create/1, delete/1, join/2, leave/2, get_members/1, get_local_members/1, which_groups/0, get_closest_pid/1]).

-define(MOST, 10000).
-define(TIMEOUT, 60000).

%% waiting: what becomes of the reply to each request, by its place among all; numbers: of each node the number of its first request that has no
%% reply, and the places of all that have none, in order; out: bodies that the port did not take yet.
-record(state, {port, nodes, most, sent = 0, waiting = #{}, numbers = #{}, out = queue:new(), places = #{}, made = #{}, pids = #{}, watched = #{}}).

start(Program, Nodes) -> start(Program, Nodes, #{}).

start(Program, [_ | _] = Nodes, Options) ->
    Caller = self(),
    Ref = make_ref(),
    {Server, Monitor} = spawn_monitor(fun() -> begin_server(Caller, Ref, Program, Nodes, maps:get(most, Options, ?MOST)) end),
    receive
        {Ref, Reply} -> demonitor(Monitor, [flush]), Reply;
        {'DOWN', Monitor, process, Server, Reason} -> {error, Reason}
    after ?TIMEOUT ->
        demonitor(Monitor, [flush]),
        exit(Server, kill),
        {error, timeout}
    end.

stop() -> call(stop).
at(Node) -> call({at, Node}).
create(Name) -> call({create, Name}).
delete(Name) -> call({delete, Name}).
join(Name, Pid) when is_pid(Pid) -> call({join, Name, Pid});
join(_, _) -> error(badarg).
leave(Name, Pid) when is_pid(Pid) -> call({leave, Name, Pid});
leave(_, _) -> error(badarg).
get_members(Name) -> call({members, Name}).
get_local_members(Name) -> call({local_members, Name}).
which_groups() -> call(which_groups).
get_closest_pid(Name) -> call({closest, Name, rand:uniform(1 bsl 32) - 1}).

call(Request) ->
    Ref = monitor(process, ?MODULE),
    catch ?MODULE ! {call, {self(), Ref}, Request},
    receive
        {Ref, Reply} -> demonitor(Ref, [flush]), Reply;
        {'DOWN', Ref, process, _, noproc} -> {error, not_running};
        {'DOWN', Ref, process, _, Reason} -> {error, {ended, Reason}}
    after ?TIMEOUT ->
        demonitor(Ref, [flush]),
        {error, timeout}
    end.

%% ---- the process that speaks with the program

begin_server(Caller, Ref, Program, Nodes, Most) ->
    process_flag(trap_exit, true),
    Names = lists:append([["--name", atom_to_list(Node)] || Node <- Nodes]),
    Args = ["serve", "--nodes", integer_to_list(length(Nodes)), "--ports", "1" | Names],
    try
        register(?MODULE, self()),
        open_port({spawn_executable, Program}, [{packet, 4}, binary, exit_status, {args, Args}])
    of
        Port ->
            Numbers = maps:from_list([{Node, {1, queue:new()}} || Node <- Nodes]),
            State = #state{port = Port, nodes = Nodes, most = Most, numbers = Numbers},
            %% It has started once it answers.
            loop(ask(hd(Nodes), which_groups, {started, {Caller, Ref}}, State))
    catch
        error:Reason -> Caller ! {Ref, {error, started_twice(Reason)}}
    end.

started_twice(badarg) ->
    case whereis(?MODULE) of
        Other when is_pid(Other), Other =/= self() -> {already_started, Other};
        _ -> badarg
    end;
started_twice(Reason) -> Reason.

loop(#state{port = Port} = State) ->
    receive
        {call, From, stop} ->
            catch port_close(Port),
            ended(stopped, State),
            answer(From, ok);
        {call, From, Request} -> loop(handle(Request, From, State));
        {Port, {data, Body}} -> loop(reply(binary_to_term(Body), State));
        {Port, {exit_status, Status}} -> ended({exit_status, Status}, State);
        {'EXIT', Port, Reason} -> ended(exit_reason(Port, Reason), State);
        {'DOWN', _, process, Pid, _} -> loop(gone(Pid, State));
        {finish, Node, Made} -> loop(ask(Node, {finish, Made}, {finished, Node, Made}, State));
        {forget, Made} -> loop(State#state{pids = maps:remove(Made, State#state.pids)});
        flush -> loop(flush(State));
        _ -> loop(State)
    end.

%% The status of the program, where it comes at once.
exit_reason(Port, Reason) ->
    receive {Port, {exit_status, Status}} -> {exit_status, Status} after 100 -> Reason end.

%% The program is over: whoever waits is told so.
ended(Reason, #state{waiting = Waiting}) ->
    [told(What, {error, {ended, Reason}}) || {_, What} <- maps:values(Waiting)],
    ok.

told({started, From}, Error) -> answer(From, case Error of {error, {ended, Reason}} -> {error, Reason}; _ -> Error end);
told({_, From}, Reply) -> answer(From, Reply);
told({make, _, _, Then}, Error) -> [answer(From, Error) || {From, _, _} <- Then];
told({finished, _, _}, _) -> ok.

answer({Pid, Ref}, Reply) -> Pid ! {Ref, Reply}.

handle({at, Node}, {Pid, _} = From, State) ->
    case lists:member(Node, State#state.nodes) of
        true ->
            answer(From, ok),
            watch(Pid, State#state{places = maps:put(Pid, Node, State#state.places)});
        false ->
            answer(From, {error, {no_such_node, Node}}),
            State
    end;
handle(_, From, #state{waiting = Waiting, most = Most} = State) when map_size(Waiting) >= Most ->
    answer(From, {error, busy}),
    State;
handle({Word, Name, Member}, From, State) when Word =:= join; Word =:= leave ->
    change({From, Word, Name}, Member, State);
handle(which_groups, {Pid, _} = From, State) -> ask(node_of(Pid, State), which_groups, {names, From}, State);
handle(Query, {Pid, _} = From, State) -> ask(node_of(Pid, State), Query, {query, From}, State).

%% A process joins or leaves: one of the cluster stands for it, which is made the first time.
change({{Pid, _} = From, _, Name} = Change, Member, #state{made = Known} = State) ->
    case Known of
        #{Member := {making, Place}} ->
            #{Place := {Node, {make, Node, Member, Then}}} = State#state.waiting,
            What = {Node, {make, Node, Member, Then ++ [Change]}},
            State#state{waiting = maps:put(Place, What, State#state.waiting)};
        #{Member := {_, Made}} -> membership(Change, Made, State);
        %% It ended before the one that stands for it was made.
        #{Member := gone} -> ask(node_of(Pid, State), {local_members, Name}, {is_there, From}, State);
        _ ->
            Node = node_of(Member, State),
            Next = ask(Node, make, {make, Node, Member, [Change]}, State),
            watch(Member, Next#state{made = Known#{Member => {making, Next#state.sent}}})
    end.

membership({{Pid, _} = From, Word, Name}, Made, State) -> ask(node_of(Pid, State), {Word, Name, Made}, {query, From}, State).

node_of(Pid, State) -> maps:get(Pid, State#state.places, hd(State#state.nodes)).

watch(Pid, #state{watched = Watched} = State) when is_map_key(Pid, Watched) -> State;
watch(Pid, State) -> State#state{watched = maps:put(Pid, monitor(process, Pid), State#state.watched)}.

%% A process of Erlang's has ended.
gone(Pid, State) ->
    Next = State#state{places = maps:remove(Pid, State#state.places), watched = maps:remove(Pid, State#state.watched)},
    case maps:take(Pid, Next#state.made) of
        {{making, _}, _} -> Next#state{made = maps:put(Pid, gone, Next#state.made)};
        {{Node, Made}, Known} -> ask(Node, {finish, Made}, {finished, Node, Made}, Next#state{made = Known});
        _ -> Next
    end.

%% ---- requests and replies

ask(Node, Command, What, State) ->
    Place = State#state.sent + 1,
    {First, Places} = maps:get(Node, State#state.numbers),
    Body = term_to_binary({Node, 1, Command}, [{minor_version, 2}]),
    flush(State#state{
        sent = Place,
        waiting = maps:put(Place, {Node, What}, State#state.waiting),
        numbers = maps:put(Node, {First, queue:in(Place, Places)}, State#state.numbers),
        out = queue:in(Body, State#state.out)
    }).

%% Gives the port what it takes; this process never waits for it.
flush(#state{port = Port, out = Out} = State) ->
    case queue:peek(Out) of
        empty -> State;
        {value, Body} ->
            %% A port that is closed tells so by a message.
            case catch port_command(Port, Body, [nosuspend]) of
                false -> later(State);
                _ -> flush(State#state{out = queue:drop(Out)})
            end
    end.

later(State) ->
    case get(later) of
        undefined -> ok;
        Timer -> erlang:cancel_timer(Timer)
    end,
    put(later, erlang:send_after(2, self(), flush)),
    State.

%% The replies at a node come in the order of its requests.
reply({Node, 1, Number, Reply}, State) ->
    {Number, Places} = maps:get(Node, State#state.numbers),
    {{value, Place}, Rest} = queue:out(Places),
    {{Node, What}, Waiting} = maps:take(Place, State#state.waiting),
    become(What, Reply, State#state{waiting = Waiting, numbers = maps:put(Node, {Number + 1, Rest}, State#state.numbers)});
%% A bad request has no number.
reply({error, {bad_request, Place}} = Reply, State) ->
    {{Node, What}, Waiting} = maps:take(Place, State#state.waiting),
    {First, Places} = maps:get(Node, State#state.numbers),
    Rest = queue:filter(fun(Other) -> Other =/= Place end, Places),
    become(What, Reply, State#state{waiting = Waiting, numbers = maps:put(Node, {First, Rest}, State#state.numbers)}).

become({started, From}, Groups, State) when is_list(Groups) ->
    answer(From, ok),
    State;
become({query, From}, Reply, State) ->
    answer(From, real(Reply, State)),
    State;
become({is_there, From}, Members, State) when is_list(Members) ->
    answer(From, ok),
    State;
become({make, Node, Member, Then}, Made, #state{made = Known} = State) when not is_tuple(Made) ->
    Next = lists:foldl(fun(One, Now) -> membership(One, Made, Now) end, State#state{pids = maps:put(Made, Member, State#state.pids)}, Then),
    case Known of
        #{Member := gone} -> ask(Node, {finish, Made}, {finished, Node, Made}, Next#state{made = maps:remove(Member, Known)});
        _ -> Next#state{made = Known#{Member => {Node, Made}}}
    end;
become({make, _, Member, Then}, Reply, State) ->
    [answer(From, error_of(Reply)) || {From, _, _} <- Then],
    State#state{made = maps:remove(Member, State#state.made)};
%% A node takes no end before it knows what all others told it.
become({finished, Node, Made}, {refused, 25}, State) ->
    erlang:send_after(1, self(), {finish, Node, Made}),
    State;
%% Others see it for a while.
become({finished, _, Made}, _, State) ->
    erlang:send_after(?TIMEOUT, self(), {forget, Made}),
    State;
become(What, Reply, State) ->
    told(What, error_of(Reply)),
    State.

error_of({refused, Number}) -> {error, {refused, Number}};
error_of(Reply) -> Reply.

%% The members as Erlang's processes.
real(Pids, State) when is_list(Pids) -> [real(Pid, State) || Pid <- Pids];
real(Pid, State) when is_pid(Pid) -> maps:get(Pid, State#state.pids, Pid);
real(Reply, _) -> error_of(Reply).
