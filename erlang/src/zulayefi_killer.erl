%% @doc Kills programs that do not end. A program ends by itself once its port is closed, but not where it hangs, and a server that is killed cannot
%% see to it. So each is noted here, with the time at which it began: a process with the same number that began at another time is another.
-module(zulayefi_killer).
-behaviour(gen_server).
-export([start_link/0, started/1, stopped/2, began/1, kill/2]).
-export([init/1, handle_call/3, handle_cast/2, handle_info/2, terminate/2]).

%% How long a program has to end by itself.
-define(PATIENCE_MS, 500).

-type os_pid() :: pos_integer() | none.

-spec start_link() -> gen_server:start_ret().
start_link() -> gen_server:start_link({local, ?MODULE}, ?MODULE, [], []).

%% @doc The calling server has started a program.
-spec started(os_pid()) -> ok.
started(OsPid) -> gen_server:cast(?MODULE, {started, OsPid, self()}).

%% @doc The calling server has closed its port.
-spec stopped(os_pid(), hangs | unneeded) -> ok.
stopped(OsPid, How) -> gen_server:cast(?MODULE, {stopped, OsPid, How}).

%% Programs outlive this process in the table: each has the time at which it began, and its server.
init([]) ->
    process_flag(trap_exit, true),
    Programs = zulayefi_table:kept(programs, #{}),
    [monitor(process, Server) || {_, Server} <- maps:values(Programs)],
    {ok, Programs}.

handle_call(_, _, Programs) -> {noreply, Programs}.

handle_cast({started, OsPid, Server}, Programs) ->
    [monitor(process, Server) || not lists:keymember(Server, 2, maps:values(Programs))],
    {noreply, keep(Programs#{OsPid => {began(OsPid), Server}})};
handle_cast({stopped, OsPid, hangs}, Programs) -> {noreply, ended(OsPid, Programs)};
handle_cast({stopped, OsPid, unneeded}, Programs) ->
    erlang:send_after(?PATIENCE_MS, self(), {late, OsPid}),
    {noreply, Programs}.

handle_info({late, OsPid}, Programs) -> {noreply, ended(OsPid, Programs)};
handle_info({'DOWN', _, process, Server, _}, Programs) ->
    [erlang:send_after(?PATIENCE_MS, self(), {late, OsPid}) || {OsPid, {_, Of}} <- maps:to_list(Programs), Of =:= Server],
    {noreply, Programs};
handle_info(_, Programs) -> {noreply, Programs}.

terminate(_, Programs) -> maps:foreach(fun(OsPid, {Began, _}) -> kill(OsPid, Began) end, Programs).

ended(OsPid, Programs) ->
    case Programs of
        #{OsPid := {Began, _}} -> kill(OsPid, Began), keep(maps:remove(OsPid, Programs));
        _ -> Programs
    end.

keep(Programs) ->
    zulayefi_table:keep(programs, Programs),
    Programs.

%% @doc Kills a process of the machine, if it is the one that began then.
-spec kill(os_pid(), binary() | none) -> ok.
kill(OsPid, Began) ->
    case Began =/= none andalso began(OsPid) =:= Began of
        true ->
            _ = os:cmd("kill -9 " ++ integer_to_list(OsPid)),
            ok;
        false -> ok
    end.

%% @doc The time at which a process of the machine began, in ticks since the machine did: the twentieth field behind the name, which ends at the last
%% parenthesis. One that has ended, but is not waited for, is none.
-spec began(os_pid()) -> binary() | none.
began(none) -> none;
began(OsPid) ->
    case file:read_file("/proc/" ++ integer_to_list(OsPid) ++ "/stat") of
        {ok, Text} ->
            Behind = lists:last(binary:split(Text, <<")">>, [global])),
            [State | Fields] = binary:split(Behind, <<" ">>, [global, trim_all]),
            case State of
                <<"Z">> -> none;
                _ -> lists:nth(19, Fields)
            end;
        {error, _} -> none
    end.
