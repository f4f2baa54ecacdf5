%% @doc The program as a port: its start, what it is given and says, its end. What it is given is gathered, and pushed at once. Nothing is pushed by a
%% call that may suspend: what a busy port does not take waits here, and is tried again.
-module(zulayefi_port).
-export([check/0, start/1, give/2, push/1, again/1, bodies/2, is_of/2, is_idle/1, is_pushed/1, bytes/1, waiting/1, os_pid/1, stop/2, format/0]).
-export_type([program/0]).

%% The format of bodies that this application knows.
-define(FORMAT, 1).
-define(VERSION, 21).
%% The most bytes of a body.
-define(MOST, 16777216).

-record(program, {
    port :: port(),
    os_pid :: pos_integer() | none,
    %% bodies to push, the last first, each behind its length, and the bytes of all; whether the port did not take them
    waiting = [] :: [iodata()],
    bytes = 0 :: non_neg_integer(),
    is_busy = false :: boolean(),
    %% what came of a body that is not whole, the last piece first; its bytes, and how many there have to be
    came = [] :: [binary()],
    size = 0 :: non_neg_integer(),
    wanted = 0 :: non_neg_integer()
}).
-opaque program() :: #program{}.

-spec format() -> pos_integer().
format() -> ?FORMAT.

%% The parameter `program', else PG2SIM of the environment, else what stands in priv.
path() ->
    case {application:get_env(zulayefi, program), os:getenv("PG2SIM")} of
        {{ok, Path}, _} -> Path;
        {undefined, false} -> filename:join(zulayefi_app:priv(), "pg2sim");
        {undefined, Path} -> Path
    end.

%% @doc Starts the program once, and gives its version. It ends at once.
-spec check() -> {ok, binary()} | {error, term()}.
check() ->
    case start(["--own", "none"]) of
        {ok, #program{port = Port, os_pid = OsPid} = Program} ->
            Began = zulayefi_killer:began(OsPid),
            Timer = erlang:start_timer(1000 * zulayefi_app:parameter(seconds_to_start), self(), late),
            Checked = first(Timer, Program),
            _ = erlang:cancel_timer(Timer),
            close(Port),
            zulayefi_killer:kill(OsPid, Began),
            Checked;
        Error -> Error
    end.

%% What its first body says.
first(Timer, #program{port = Port} = Program) ->
    receive
        {Port, {data, Data}} ->
            case bodies(Data, Program) of
                {[], Program1} -> first(Timer, Program1);
                {[<<?VERSION, ?FORMAT, Version/binary>> | _], _} -> {ok, Version};
                {[<<?VERSION, Theirs, _/binary>> | _], _} -> {error, {format, Theirs, ?FORMAT}};
                {_, _} -> {error, {format, none, ?FORMAT}}
            end;
        {Port, {exit_status, Status}} -> {error, {exit_status, Status}};
        {timeout, Timer, late} -> {error, timeout}
    end.

%% @doc Starts the program with these words.
-spec start([unicode:chardata()]) -> {ok, program()} | {error, term()}.
start(Words) ->
    Args = [unicode:characters_to_binary(Word) || Word <- ["node", "--mirror" | Words]],
    try open_port({spawn_executable, path()}, [stream, binary, exit_status, {args, Args}]) of
        Port -> {ok, #program{port = Port, os_pid = os_pid_of(Port)}}
    catch
        error:Reason -> {error, {Reason, path()}}
    end.

os_pid_of(Port) ->
    case erlang:port_info(Port, os_pid) of
        {os_pid, OsPid} -> OsPid;
        undefined -> none
    end.

%% @doc Gives it a body, behind those that wait.
-spec give(iodata(), program()) -> program().
give(Body, #program{waiting = Waiting, bytes = Bytes} = Program) ->
    Size = iolist_size(Body),
    Program#program{waiting = [[<<Size:32>>, Body] | Waiting], bytes = Bytes + Size}.

%% @doc Pushes what waits, unless the port was busy the last time.
-spec push(program()) -> program().
push(#program{waiting = [_ | _] = Waiting, is_busy = false} = Program) ->
    case is_taken(lists:reverse(Waiting), Program) of
        true -> Program#program{waiting = [], bytes = 0};
        false -> Program#program{is_busy = true}
    end;
push(Program) -> Program.

%% @doc Pushes what waits.
-spec again(program()) -> program().
again(Program) -> push(Program#program{is_busy = false}).

%% What a port that has closed is given comes to nothing. Its end is told by a message.
is_taken(Body, #program{port = Port}) ->
    try port_command(Port, Body, [nosuspend])
    catch error:badarg -> true
    end.

%% @doc The bodies that are whole now that this came of the program. Behind a length that no body has there is none.
-spec bodies(binary(), program()) -> {[binary() | too_long], program()}.
bodies(Data, #program{came = Came, size = Size, wanted = Wanted} = Program) ->
    case Size + byte_size(Data) of
        Have when Have < Wanted -> {[], Program#program{came = [Data | Came], size = Have}};
        _ -> cut(joined([Data | Came]), [], Program)
    end.

joined([Data]) -> Data;
joined(Pieces) -> iolist_to_binary(lists:reverse(Pieces)).

cut(<<Size:32, _/binary>>, Bodies, Program) when Size > ?MOST -> {lists:reverse([too_long | Bodies]), Program};
cut(<<Size:32, Body:Size/binary, Rest/binary>>, Bodies, Program) -> cut(Rest, [Body | Bodies], Program);
cut(<<>>, Bodies, Program) -> {lists:reverse(Bodies), Program#program{came = [], size = 0, wanted = 0}};
cut(Rest, Bodies, Program) -> {lists:reverse(Bodies), Program#program{came = [Rest], size = byte_size(Rest), wanted = wanted(Rest)}}.

wanted(<<Size:32, _/binary>>) -> 4 + Size;
wanted(_) -> 4.

-spec is_of(port(), program() | none) -> boolean().
is_of(Port, #program{port = Port}) -> true;
is_of(_, _) -> false.

-spec is_idle(program()) -> boolean().
is_idle(#program{waiting = Waiting}) -> Waiting =:= [].

%% @doc Whether nothing is to be pushed: nothing waits, or only for a busy port.
-spec is_pushed(program()) -> boolean().
is_pushed(#program{waiting = Waiting, is_busy = IsBusy}) -> IsBusy orelse Waiting =:= [].

%% @doc How many bytes wait.
-spec bytes(program()) -> non_neg_integer().
bytes(#program{bytes = Bytes}) -> Bytes.

-spec waiting(program()) -> non_neg_integer().
waiting(#program{waiting = Waiting}) -> length(Waiting).

-spec os_pid(program()) -> pos_integer() | none.
os_pid(#program{os_pid = OsPid}) -> OsPid.

%% @doc Ends it. What was not read of it is void. One that hangs is killed at once, another if it does not end by itself; so closing never waits for long.
-spec stop(hangs | unneeded, program()) -> ok.
stop(How, #program{port = Port, os_pid = OsPid}) ->
    ok = zulayefi_killer:stopped(OsPid, How),
    close(Port).

close(Port) ->
    catch port_close(Port),
    flush(Port).

flush(Port) ->
    receive
        {Port, _} -> flush(Port);
        {'EXIT', Port, _} -> flush(Port)
    after 0 -> ok
    end.
