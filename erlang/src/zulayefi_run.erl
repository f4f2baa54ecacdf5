%% @doc One run of the program: this node's part of a generation. It carries the bytes of the others, and says what each body of the program means.
-module(zulayefi_run).
-export([start/2, bring/2, stop/2, opened/2, take/5, ask/4, came/2, heard/2, out/1, push/1, is_pushed/1, gathered/1, beat/1, is_idle/1, second/1, is_of/2]).
-export([os_pid/1, waiting/1]).
-export_type([run/0, event/0]).

%% What the first byte of a body says, below it are places of peers.
-define(PLACES, 16).
-define(TICK, 16).
-define(CLOCK, 17).
-define(DENIED, 19).
-define(GROUPS, 20).
-define(VERSION, 21).
-define(FORMED, 22).
-define(ASSIGNED, 23).
-define(TERM, 131).

%% So many processes of this node the program may be told of: all that it can number.
-define(MADE, "268435455").
-define(SECONDS_BETWEEN_CLOCKS, 5).

-record(run, {
    program :: zulayefi_port:program(),
    peers :: tuple(),
    places :: #{pid() => non_neg_integer()},
    creations :: zulayefi_term:creations(),
    %% peers whose stream has begun, with the number of the bytes that come next, and of those that go next
    streams = #{} :: #{pid() => non_neg_integer()},
    sent = #{} :: #{pid() => non_neg_integer()},
    %% bytes for peers, the last first; ports at which this node was denied a lock, of which a peer is told with the next bytes, or at the next beat
    out = #{} :: #{pid() => [binary()]},
    out_bytes = 0 :: non_neg_integer(),
    denied = #{} :: #{pid() => [pos_integer()]},
    desk = zulayefi_desk:new() :: zulayefi_desk:desk(),
    %% whether the clock is asked for, whether anything came in this second, and for how many seconds nothing came since it was asked for
    asks_clock = false :: boolean(),
    heard = false :: boolean(),
    silent = 0 :: non_neg_integer(),
    seconds = 0 :: non_neg_integer()
}).
-opaque run() :: #run{}.

%% What a body of the program means.
-type event() ::
    none
    | {version, binary()}
    | {assigned, [zulayefi_table:assignment()]}
    | formed
    | {clock, non_neg_integer()}
    | {replied, What :: term(), Reply :: term()}
    | {has_ended, What :: term()}
    | {stop, Why :: term()}.

%% @doc Starts a program among these servers, in their order. Further words make it record.
-spec start([pid()], [unicode:chardata()]) -> {ok, run()} | {error, term()}.
start(Set, Words) ->
    Peers = Set -- [self()],
    Names = [atom_to_list(node(Pid)) || Pid <- Peers],
    PeersWords = case Names of [] -> []; _ -> ["--peers", lists:join(",", Names)] end,
    case zulayefi_port:start(["--own", atom_to_list(node()), "--made", ?MADE, "--ports", integer_to_list(zulayefi_desk:ports())] ++ PeersWords ++ Words) of
        {ok, Program} ->
            zulayefi_killer:started(zulayefi_port:os_pid(Program)),
            {ok, #run{
                program = Program,
                peers = list_to_tuple(Peers),
                places = maps:from_list(lists:zip(Peers, lists:seq(0, length(Peers) - 1))),
                creations = maps:from_list([{atom_to_binary(node(Pid)), zulayefi_term:creation(Pid)} || Pid <- Set])
            }};
        Error -> Error
    end.

%% @doc The groups that this node brings, first of all.
-spec bring([{zulayefi_term:wrapped(), [pid()]}], run()) -> run().
bring(Groups, Run) -> give([?GROUPS, zulayefi_term:to_program(Groups)], Run).

give(Body, #run{program = Program} = Run) -> Run#run{program = zulayefi_port:give(Body, Program)}.

-spec stop(hangs | unneeded, run()) -> ok.
stop(How, #run{program = Program}) -> zulayefi_port:stop(How, Program).

%% ---- the others

%% @doc A peer told that it begins: from now on its bytes are taken.
-spec opened(pid(), run()) -> run().
opened(Pid, #run{places = Places, streams = Streams} = Run) when is_map_key(Pid, Places), not is_map_key(Pid, Streams) ->
    Run#run{streams = Streams#{Pid => 0}};
opened(_, Run) -> Run.

%% @doc Bytes of a peer, with their number, and the ports at which it was denied a lock.
-spec take(pid(), non_neg_integer(), [binary()], [pos_integer()], run()) -> {ok, run()} | ignored | gap.
take(Pid, Number, Bytes, Denied, #run{streams = Streams} = Run) ->
    case Streams of
        #{Pid := Number} -> {ok, lists:foldl(fun deny/2, feed(Pid, Bytes, Run#run{streams = Streams#{Pid := Number + 1}}), Denied)};
        #{Pid := _} -> gap;
        _ -> ignored
    end.

feed(_, [], Run) -> Run;
feed(Pid, Bytes, #run{places = Places} = Run) -> give([map_get(Pid, Places) | Bytes], Run).

deny(Port, Run) -> give([?DENIED, Port], Run).

%% ---- requests

-spec ask(pos_integer(), term(), term(), run()) -> run().
ask(Port, Command, What, #run{desk = Desk} = Run) ->
    {Bodies, Desk1} = zulayefi_desk:ask(Port, Command, What, Desk),
    lists:foldl(fun give/2, Run#run{desk = Desk1}, Bodies).

%% ---- what the program says

%% @doc The bodies that are whole now that this came of the program.
-spec came(binary(), run()) -> {[binary() | too_long], run()}.
came(Data, #run{program = Program} = Run) ->
    {Bodies, Program1} = zulayefi_port:bodies(Data, Program),
    {Bodies, Run#run{program = Program1, heard = true}}.

%% @doc What a body means. What is for peers is gathered.
-spec heard(binary() | too_long, run()) -> {event(), run()}.
heard(too_long, Run) -> {{stop, too_long}, Run};
heard(<<Place, Piece/binary>>, #run{peers = Peers, out = Out, out_bytes = Bytes} = Run) when Place < ?PLACES ->
    Pid = element(Place + 1, Peers),
    {none, Run#run{out = Out#{Pid => [Piece | maps:get(Pid, Out, [])]}, out_bytes = Bytes + byte_size(Piece)}};
heard(<<?ASSIGNED, Terms/binary>>, #run{creations = Creations} = Run) ->
    {{assigned, [unwrapped(Each) || Each <- zulayefi_term:from_program(Terms, Creations)]}, Run};
heard(<<?TERM, _/binary>> = Body, Run) -> said(binary_to_term(Body), Run);
heard(<<?DENIED, Port>>, #run{peers = Peers, denied = Denied} = Run) ->
    {none, Run#run{denied = maps:from_list([{Pid, ordsets:add_element(Port, maps:get(Pid, Denied, []))} || Pid <- tuple_to_list(Peers)])}};
heard(<<?CLOCK, Clock:32>>, Run) -> {{clock, Clock}, Run#run{asks_clock = false}};
heard(<<?FORMED>>, Run) -> {formed, Run};
heard(<<?VERSION, Format, Version/binary>>, Run) ->
    case zulayefi_port:format() of
        Format -> {{version, binary:copy(Version)}, Run};
        Ours -> {{stop, {format, Format, Ours}}, Run}
    end.

unwrapped(Assignment) -> setelement(1, Assignment, zulayefi_term:unwrapped(element(1, Assignment))).

%% @doc What is gathered for peers: bytes with their number, and ports at which this node was denied a lock.
-spec out(run()) -> {[{pid(), non_neg_integer(), [binary()], [pos_integer()]}], run()}.
out(#run{out = Out} = Run) -> lists:mapfoldl(fun message/2, Run#run{out = #{}, out_bytes = 0}, maps:to_list(Out)).

message({Pid, Bytes}, #run{sent = Sent, denied = Denied} = Run) ->
    Number = maps:get(Pid, Sent, 0),
    {{Pid, Number, lists:reverse(Bytes), maps:get(Pid, Denied, [])}, Run#run{sent = Sent#{Pid => Number + 1}, denied = maps:remove(Pid, Denied)}}.

%% @doc Pushes what the program is given.
-spec push(run()) -> run().
push(#run{program = Program} = Run) -> Run#run{program = zulayefi_port:push(Program)}.

%% @doc Whether nothing is gathered, for peers or for the program.
-spec is_pushed(run()) -> boolean().
is_pushed(#run{program = Program, out = Out}) -> map_size(Out) =:= 0 andalso zulayefi_port:is_pushed(Program).

%% @doc How many bytes are gathered.
-spec gathered(run()) -> non_neg_integer().
gathered(#run{program = Program, out_bytes = Bytes}) -> Bytes + zulayefi_port:bytes(Program).

said({_, Port, Number, Reply}, #run{desk = Desk} = Run) ->
    {What, Bodies, Desk1} = zulayefi_desk:answered(Port, Number, Desk),
    {{replied, What, Reply}, lists:foldl(fun give/2, Run#run{desk = Desk1}, Bodies)};
said({has_ended, {_, Port, Number}}, #run{desk = Desk} = Run) -> {{has_ended, zulayefi_desk:what(Port, Number, Desk)}, Run};
said(Notice, Run) -> {{stop, Notice}, Run}.

%% ---- time

%% @doc Each two milliseconds where something is open or waits: a tick, what waits is tried again, and peers are told of what was denied.
-spec beat(run()) -> run().
beat(#run{program = Program, desk = Desk, out = Out, denied = Denied} = Run) ->
    Run1 = Run#run{program = zulayefi_port:again(Program), out = maps:merge(maps:map(fun(_, _) -> [] end, Denied), Out)},
    case zulayefi_desk:open(Desk) > 0 andalso zulayefi_port:is_idle(Run1#run.program) of
        true -> give(<<?TICK>>, Run1);
        false -> Run1
    end.

-spec is_idle(run()) -> boolean().
is_idle(#run{program = Program, desk = Desk, denied = Denied}) -> zulayefi_desk:open(Desk) =:= 0 andalso map_size(Denied) =:= 0 andalso zulayefi_port:is_idle(Program).

%% @doc Each second. The clock is asked for from time to time; a program that says nothing for long while it is asked for hangs.
-spec second(run()) -> {ok | hangs, run()}.
second(#run{asks_clock = true, heard = false, silent = Silent} = Run) ->
    State = case Silent + 1 >= zulayefi_app:parameter(seconds_of_silence) of
        true -> hangs;
        false -> ok
    end,
    {State, Run#run{silent = Silent + 1}};
second(#run{asks_clock = false, seconds = Seconds} = Run) when Seconds >= ?SECONDS_BETWEEN_CLOCKS ->
    {ok, give(<<?CLOCK>>, Run#run{asks_clock = true, heard = false, silent = 0, seconds = 0})};
second(#run{seconds = Seconds} = Run) -> {ok, Run#run{heard = false, silent = 0, seconds = Seconds + 1}}.

-spec is_of(port(), run() | none) -> boolean().
is_of(_, none) -> false;
is_of(Port, #run{program = Program}) -> zulayefi_port:is_of(Port, Program).

%% ---- for whoever looks

-spec os_pid(run()) -> pos_integer() | none.
os_pid(#run{program = Program}) -> zulayefi_port:os_pid(Program).

%% @doc How many bodies wait for a busy port.
-spec waiting(run()) -> non_neg_integer().
waiting(#run{program = Program}) -> zulayefi_port:waiting(Program).
