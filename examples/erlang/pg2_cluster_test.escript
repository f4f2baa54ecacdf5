#!/usr/bin/env escript
%% Real processes join a group from two nodes; one is killed, and leaves. Then a service that is missing, ends at once, is started twice,
%% refuses, is stopped, is killed and ends early. The program is that of the environment's PG2SIM.
-mode(compile).

main([]) ->
    Here = filename:dirname(filename:absname(escript:script_name())),
    {ok, pg2_cluster, Code} = compile:file(filename:join(Here, "pg2_cluster.erl"), [binary]),
    {module, pg2_cluster} = code:load_binary(pg2_cluster, "pg2_cluster.erl", Code),
    Program = os:getenv("PG2SIM"),
    groups(Program),
    starts(Program),
    refusals(Program),
    stopped(Program),
    many(Program),
    early(),
    io:format("ok~n").

groups(Program) ->
    ok = pg2_cluster:start(Program, [a, b]),
    First = worker(a),
    Second = worker(b),
    ok = pg2_cluster:create(workers),
    [workers] = pg2_cluster:which_groups(),
    {error, {no_process, workers}} = pg2_cluster:get_closest_pid(workers),
    ok = ask(First, fun() -> pg2_cluster:join(workers, self()) end),
    ok = ask(Second, fun() -> pg2_cluster:join(workers, self()) end),
    ok = pg2_cluster:join(workers, First),
    [First, First, Second] = ask(Second, fun() -> pg2_cluster:get_members(workers) end),
    [First, First] = pg2_cluster:get_local_members(workers),
    [Second] = ask(Second, fun() -> pg2_cluster:get_local_members(workers) end),
    First = pg2_cluster:get_closest_pid(workers),
    Second = ask(Second, fun() -> pg2_cluster:get_closest_pid(workers) end),
    ok = pg2_cluster:leave(workers, First),
    [First, Second] = pg2_cluster:get_members(workers),
    exit(Second, kill),
    ok = once(fun() -> pg2_cluster:get_members(workers) =:= [First] end),
    ok = once(fun() -> ask(First, fun() -> pg2_cluster:get_members(workers) end) =:= [First] end),
    {error, {no_such_group, others}} = pg2_cluster:join(others, First),
    {error, {no_such_group, others}} = pg2_cluster:get_members(others),
    ok = pg2_cluster:delete(workers),
    [] = pg2_cluster:which_groups(),
    ok = pg2_cluster:stop().

starts(Program) ->
    {error, enoent} = pg2_cluster:start("/no/such/program", [a]),
    {error, {exit_status, 1}} = pg2_cluster:start("/bin/false", [a]),
    {error, _} = pg2_cluster:start("/bin/false", [a]),
    {error, not_running} = pg2_cluster:which_groups(),
    ok = pg2_cluster:start(Program, [a]),
    {error, {already_started, Server}} = pg2_cluster:start(Program, [a]),
    Server = whereis(pg2_cluster),
    [] = pg2_cluster:which_groups(),
    ok = pg2_cluster:stop(),
    {error, {exit_status, 2}} = pg2_cluster:start(Program, [a, a]).

refusals(Program) ->
    ok = pg2_cluster:start(Program, [a, b]),
    ok = pg2_cluster:create(g),
    {'EXIT', {badarg, _}} = (catch pg2_cluster:join(g, no_pid)),
    {'EXIT', {badarg, _}} = (catch pg2_cluster:leave(g, 7)),
    {error, {no_such_node, c}} = pg2_cluster:at(c),
    %% A name above 1,024 bytes.
    {error, {refused, 23}} = pg2_cluster:create(lists:duplicate(2000, a)),
    [] = pg2_cluster:get_members(g),
    %% A process that has ended joins, and is gone.
    {Ended, Monitor} = spawn_monitor(fun() -> ok end),
    receive {'DOWN', Monitor, process, Ended, _} -> ok end,
    ok = pg2_cluster:join(g, Ended),
    ok = once(fun() -> pg2_cluster:get_members(g) =:= [] end),
    %% The names are given back as they are.
    ok = pg2_cluster:create({refused, 7}),
    [g, {refused, 7}] = lists:sort(pg2_cluster:which_groups()),
    ok = pg2_cluster:stop().

%% A service that stands still takes no more than it may, and none of the callers waits once it is killed.
stopped(Program) ->
    ok = pg2_cluster:start(Program, [a], #{most => 10}),
    {os_pid, Os} = erlang:port_info(hd([Port || Port <- erlang:ports(), {connected, whereis(pg2_cluster)} =:= erlang:port_info(Port, connected)]), os_pid),
    os:cmd("kill -STOP " ++ integer_to_list(Os)),
    Callers = [async(fun() -> pg2_cluster:create(N) end) || N <- lists:seq(1, 30)],
    Busy = [Caller || Caller <- Callers, busy =:= early_reply(Caller)],
    20 = length(Busy),
    os:cmd("kill -KILL " ++ integer_to_list(Os)),
    [{error, {ended, {exit_status, 137}}} = reply(Caller) || Caller <- Callers -- Busy],
    {error, not_running} = pg2_cluster:which_groups(),
    ok = pg2_cluster:start(Program, [a]),
    ok = pg2_cluster:stop().

%% Many requests under way, of names that fill the pipes.
many(Program) ->
    ok = pg2_cluster:start(Program, [a, b], #{most => 20000}),
    Long = lists:duplicate(300, x),
    ok = pg2_cluster:create(Long),
    Callers = [async(fun() -> pg2_cluster:which_groups() end) || _ <- lists:seq(1, 20000)],
    [[Long] = reply(Caller) || Caller <- Callers],
    Makers = [async(fun() -> pg2_cluster:at(lists:nth(1 + N rem 2, [a, b])), pg2_cluster:create(N), pg2_cluster:join(N, self()), {self(), pg2_cluster:get_members(N)} end) || N <- lists:seq(1, 50)],
    [begin {Pid, [Pid]} = reply(Maker) end || Maker <- Makers],
    ok = pg2_cluster:stop().

%% A service that takes a request for a bad one, which then has no number, and then one whose clock is nearly full: a request that was not
%% handed over is refused, one that was open is unknown.
early() ->
    Folder = string:trim(os:cmd("mktemp -d")),
    File = filename:join(Folder, "early"),
    ok = file:write_file(File, [
        "#!/usr/bin/env escript\n%%! -noinput\n",
        "main(_) ->\n",
        "    Port = open_port({fd, 0, 1}, [{packet, 4}, binary, eof]),\n",
        "    [receive {Port, {data, _}} -> port_command(Port, term_to_binary(Reply, [{minor_version, 2}])) end\n",
        "     || Reply <- [{a, 1, 1, []}, {error, {bad_request, 2}}, {a, 1, 2, {refused, 30}}, {a, 1, 3, {error, {unknown, 30}}}]],\n",
        "    receive {Port, eof} -> ok after 1000 -> halt(1) end.\n"
    ]),
    ok = file:change_mode(File, 8#700),
    ok = pg2_cluster:start(File, [a]),
    {error, {bad_request, 2}} = pg2_cluster:create(1.5),
    {error, {refused, 30}} = pg2_cluster:create(g),
    {error, {unknown, 30}} = pg2_cluster:create(g),
    {error, {ended, {exit_status, 1}}} = pg2_cluster:create(g),
    os:cmd("rm -r " ++ Folder).

%% A call in a process of its own.
async(Fun) ->
    Parent = self(),
    Ref = make_ref(),
    spawn(fun() -> Parent ! {Ref, Fun()}, receive after infinity -> ok end end),
    Ref.

reply(Ref) -> receive {Ref, Reply} -> Reply after 60000 -> exit(no_answer) end.

early_reply(Ref) -> receive {Ref, {error, busy}} -> busy after 50 -> nothing end.

%% A process at a node, which does what it is asked.
worker(Node) ->
    Pid = spawn(fun work/0),
    ok = ask(Pid, fun() -> pg2_cluster:at(Node) end),
    Pid.

work() ->
    receive
        {From, Ref, Fun} -> From ! {Ref, Fun()}, work()
    end.

ask(Pid, Fun) ->
    Ref = make_ref(),
    Pid ! {self(), Ref, Fun},
    receive {Ref, Reply} -> Reply after 20000 -> exit(no_answer) end.

%% Waits until it is so.
once(Holds) -> once(Holds, 1000).
once(_, 0) -> late;
once(Holds, Left) ->
    case Holds() of
        true -> ok;
        false -> timer:sleep(10), once(Holds, Left - 1)
    end.
