%% @doc The server of a node: it sees other servers, agrees with them on generations, runs the program, and makes the changes of its node.
%%
%% A generation is one run of a program on each node of a set. Where a node comes or goes, or a program ends, each server of the set drops its program
%% where it stands, and the next generation begins with what their tables have: all names, and of each node its own living members.
-module(zulayefi_server).
-behaviour(gen_server).
-include("zulayefi_changes.hrl").
-include_lib("kernel/include/logger.hrl").
-export([start_link/0, change/4]).
-export([init/1, handle_call/3, handle_cast/2, handle_info/2, terminate/2]).

%% It stands first in each message, so that later ones can differ.
-define(PROTOCOL, 2).
-define(BEAT_MS, 2).
-define(SECOND_MS, 1000).
%% So many messages are handled at most, or so many bytes gathered, before what follows from them is pushed.
-define(AT_ONCE, 64).
-define(GATHERED, 16384).
%% Words of memory to begin with. What a message leaves behind is little, and is collected once in a thousand or so.
-define(HEAP, 50000).
%% How long a proposal that did not form is left alone before it is made again.
-define(FIRST_WAIT_MS, 10).
-define(LAST_WAIT_MS, 10000).

-record(state, {
    own = node() :: node(),
    view :: zulayefi_view:view(),
    links = zulayefi_links:new() :: zulayefi_links:links(),
    %% what all others were told last
    said :: {state, zulayefi_view:generation(), zulayefi_view:stage(), [pid()]} | undefined,

    %% the greatest generation that was heard of, its set and where it is recorded; its run, where this node's program runs
    generation = zulayefi_view:first() :: zulayefi_view:generation(),
    set = [] :: [pid()],
    recording = none :: file:filename_all() | none,
    run = none :: zulayefi_run:run() | none,
    is_formed = false :: boolean(),
    is_settled = false :: boolean(),
    %% what the table becomes once it is formed, and processes of this node that ended meanwhile
    rows = #{} :: #{term() => zulayefi_table:row()},
    ended = [] :: [pid()],
    %% how many assignments of the run were read; of which generation the table is that it began with, and how many of that one had been read
    read = 0 :: non_neg_integer(),
    brought = {zulayefi_view:first(), 0} :: {zulayefi_view:generation(), non_neg_integer()},
    %% the file in which the run is recorded
    file = none :: file:filename_all() | none,

    changes = zulayefi_changes:new() :: zulayefi_changes:changes(),
    watch = zulayefi_watch:new() :: zulayefi_watch:watch(),
    room :: zulayefi_room:room(),

    %% the set that was proposed, when, and how long it is left alone; a timer to propose again
    proposal = none :: {[pid()], integer(), pos_integer()} | none,
    timer = none :: reference() | none,
    is_beating = false :: boolean(),
    %% how many messages were handled whose bytes and bodies are not pushed
    handled = 0 :: non_neg_integer(),

    version = <<>> :: binary(),
    clock = 0 :: non_neg_integer(),
    begun = 0 :: non_neg_integer(),
    formed = 0 :: non_neg_integer(),
    answered = 0 :: non_neg_integer(),
    why = #{} :: #{atom() => pos_integer()},
    stopped_at = now_ms() :: integer(),
    pause = 0 :: non_neg_integer(),
    strangers = #{} :: #{node() => integer()}
}).

-spec start_link() -> gen_server:start_ret().
start_link() -> gen_server:start_link({local, ?MODULE}, ?MODULE, [], [{spawn_opt, [{min_heap_size, ?HEAP}]}]).

%% @doc The request for a change.
-spec change(create | delete | join | leave, term(), zulayefi_term:wrapped(), pid() | none) -> term().
change(Word, Name, Wrapped, Pid) -> {?PROTOCOL, #change{word = Word, name = Name, wrapped = Wrapped, pid = Pid}}.

%% ---- the start

init([]) ->
    process_flag(trap_exit, true),
    process_flag(message_queue_data, off_heap),
    ok = net_kernel:monitor_nodes(true),
    View = zulayefi_view:new(zulayefi_app:parameter(set_size)),
    zulayefi_term:fits(self()) orelse ?LOG_WARNING("zulayefi: processes of this node have longer numbers than the program knows"),
    S = with_table(#state{view = View, room = room(), recording = zulayefi_app:parameter(recording)}),
    erlang:send_after(?SECOND_MS, self(), second),
    {ok, consider(lists:foldl(fun tell_node/2, S, nodes()))}.

room() -> zulayefi_room:new(zulayefi_app:parameter(brought_bytes)).

%% A server that died has left the table.
with_table(S) -> lists:foldl(fun(Row, Next) -> follow(none, Row, Next) end, S, zulayefi_table:rows()).

terminate(_, S) -> stop_run(unneeded, S).

%% ---- messages

handle_call({?PROTOCOL, #change{} = Change}, From, S) -> handled(asked(Change#change{from = From}, named(S)));
handle_call({record, Dir}, From, S) ->
    S1 = record(Dir, S),
    gen_server:reply(From, ok),
    handled(S1);
handle_call(info, From, S) ->
    gen_server:reply(From, info(S)),
    handled(S);
handle_call(_, From, S) ->
    gen_server:reply(From, {error, {not_in_set, node()}}),
    handled(S).

handle_cast(_, S) -> handled(S).

handle_info(timeout, S) -> pushed(S);
handle_info(Message, S) -> handled(told(Message, S)).

told({Port, {data, Data}}, S) when is_port(Port) -> came(Port, Data, S);
told({?PROTOCOL, Pid, Message}, S) when Pid =/= self() -> message(Message, Pid, S);
told({Protocol, Pid, _}, S) when is_integer(Protocol), is_pid(Pid) -> stranger(Protocol, node(Pid), S);
told(beat, S) -> beat(S#state{is_beating = false});
told({'DOWN', Monitor, process, Pid, _}, S) -> ended(Monitor, Pid, S);
told(second, S) ->
    erlang:send_after(?SECOND_MS, self(), second),
    second(S);
told(propose, S) -> consider(S#state{timer = none});
told({nodeup, Node}, S) -> tell_node(Node, named(S));
told({Port, {exit_status, Status}}, S) -> program_ended(Port, Status, S);
told({'EXIT', Port, Reason}, S) when is_port(Port) -> program_ended(Port, Reason, S);
told(_, S) -> S.

%% What is for peers and for the program is gathered as long as messages wait, and then goes out together: a message costs little, a write much.
handled(#state{handled = Handled} = S) ->
    case is_pushed(S) of
        true -> {noreply, beating(S)};
        false ->
            case Handled >= ?AT_ONCE orelse zulayefi_run:gathered(S#state.run) >= ?GATHERED of
                true -> pushed(S);
                false -> {noreply, S#state{handled = Handled + 1}, 0}
            end
    end.

is_pushed(#state{run = none}) -> true;
is_pushed(#state{run = Run}) -> zulayefi_run:is_pushed(Run).

pushed(S) -> {noreply, beating(push(S#state{handled = 0}))}.

push(#state{run = none} = S) -> S;
push(S) ->
    #state{run = Run} = S1 = bytes_out(S),
    S1#state{run = zulayefi_run:push(Run)}.

%% Bytes for peers go out.
bytes_out(#state{run = none} = S) -> S;
bytes_out(#state{run = Run, generation = Generation} = S) ->
    {Out, Run1} = zulayefi_run:out(Run),
    lists:foldl(fun({Pid, Number, Bytes, Denied}, Next) -> put_out(Pid, {bytes, Generation, Number, Bytes, Denied}, Next) end, S#state{run = Run1}, Out).

message({state, Generation, Stage, Servers}, Pid, S) ->
    S1 = consider(settle(met(Pid, {Generation, Stage, Servers}, S))),
    case lists:member(self(), Servers) of
        true -> S1;
        false -> send(Pid, state(S1), S1)
    end;
message({start, Generation, Set, Recording}, Pid, S) -> consider(started(Generation, Set, Recording, Pid, S));
message({bytes, Generation, Number, Bytes, Denied}, Pid, #state{generation = Generation, run = Run} = S) when Run =/= none ->
    case zulayefi_run:take(Pid, Number, Bytes, Denied, Run) of
        {ok, Run1} -> S#state{run = Run1};
        ignored -> S;
        gap -> consider(lost(Pid, S))
    end;
message({record, Dir}, _, S) -> record(Dir, S);
message(_, _, S) -> S.

stranger(Protocol, Node, #state{strangers = Strangers} = S) ->
    is_map_key(Node, Strangers) orelse ?LOG_WARNING("zulayefi: ~ts has another protocol: ~b, here ~b", [Node, Protocol, ?PROTOCOL]),
    consider(S#state{view = zulayefi_view:greeted(Node, S#state.view), strangers = Strangers#{Node => Protocol}}).

%% ---- other servers

%% (behind the bytes that are gathered)
send(To, Message, S) -> put_out(To, Message, bytes_out(S)).

put_out(To, Message, #state{links = Links} = S) -> S#state{links = zulayefi_links:send(To, {?PROTOCOL, self(), Message}, Links)}.

send_all(Pids, Message, S) -> lists:foldl(fun(Pid, Next) -> send(Pid, Message, Next) end, S, Pids).

tell_node(Node, S) -> send({?MODULE, Node}, state(S), S).

state(#state{generation = Generation, view = View} = S) -> {state, Generation, stage(S), zulayefi_view:servers(View)}.

stage(#state{run = none}) -> none;
stage(#state{is_formed = false}) -> runs;
stage(_) -> formed.

%% A server told its state. Where its node had another, that has ended.
met(Pid, Told, #state{view = View} = S) ->
    #state{view = View1} = S1 = lists:foldl(fun lost/2, S, zulayefi_view:of_node(node(Pid), View) -- [Pid]),
    S1#state{view = zulayefi_view:met(Pid, Told, zulayefi_view:greeted(node(Pid), View1))}.

ended(Monitor, Pid, #state{view = View, watch = Watch} = S) ->
    case is_pid(Pid) andalso zulayefi_view:has(Pid, View) of
        true -> consider(lost(Pid, S));
        false ->
            case zulayefi_watch:ended(Monitor, Pid, Watch) of
                false -> consider(S#state{view = zulayefi_view:greeted(Monitor, View)});
                Watch1 -> finish(Pid, S#state{watch = Watch1})
            end
    end.

%% A server has ended, or cannot be heard: members of its node leave, and what runs with it stops. Its node may have another server already.
lost(Pid, #state{view = View, links = Links, set = Set} = S) ->
    zulayefi_table:without_node(node(Pid)),
    S1 = S#state{view = zulayefi_view:lost(Pid, View), links = zulayefi_links:lost(node(Pid), Links)},
    S2 = case lists:member(Pid, Set) of
        true -> stop(node_lost, S1);
        false -> S1
    end,
    tell_node(node(Pid), S2).

%% ---- generations

%% Behind each event that may have changed what this server has to tell, or to propose.
consider(S) ->
    S1 = tell(within(S)),
    #state{generation = Generation, set = Set, view = View} = S1,
    case zulayefi_view:wants(Generation, Set, stage(S1), View) of
        true -> propose(S1);
        false -> S1
    end.

tell(#state{said = Said, view = View} = S) ->
    case state(S) of
        Said -> S;
        State -> send_all(zulayefi_view:others(View), State, S#state{said = State})
    end.

%% A set that is full has no place for this node: no program runs, and the table is hidden.
within(#state{view = View} = S) ->
    case lists:member(self(), zulayefi_view:set(View)) of
        true -> S;
        false -> outside(length(zulayefi_view:set(View)), S)
    end.

outside(Most, S) ->
    S1 = stop(set_full, S),
    case zulayefi_table:is_open() of
        true ->
            ?LOG_WARNING("zulayefi: the set is full with ~b nodes, this one is outside", [Most]),
            zulayefi_table:close(Most);
        false -> ok
    end,
    Refused = lists:foldl(fun(Change, Next) -> reply(Change, {error, {set_full, Most}}, Next) end, S1, zulayefi_changes:all(S1#state.changes)),
    Refused#state{changes = zulayefi_changes:new()}.

propose(#state{view = View, proposal = Proposal} = S) ->
    Set = zulayefi_view:set(View),
    case Proposal of
        {Set, At, Wait} ->
            case At + Wait - now_ms() of
                Left when Left > 0 -> propose_later(Left, S);
                _ -> propose(Set, min(2 * Wait, ?LAST_WAIT_MS), S)
            end;
        _ -> propose(Set, ?FIRST_WAIT_MS, S)
    end.

propose(Set, Wait, #state{generation = Generation, view = View, recording = Recording} = S) ->
    Next = {zulayefi_view:next_number(Generation, View), self()},
    consider(begin_run(Next, Set, Recording, S#state{proposal = {Set, now_ms(), Wait}})).

propose_later(Ms, #state{timer = none} = S) -> S#state{timer = erlang:send_after(Ms, self(), propose)};
propose_later(_, S) -> S.

now_ms() -> erlang:monotonic_time(millisecond).

%% A server begins a generation. Its bytes follow.
started(Generation, Set, Recording, Pid, #state{generation = Own, view = View, run = Run} = S) ->
    case {Generation =:= Own, zulayefi_view:is_greater(Generation, Own)} of
        {true, _} when Run =/= none -> S#state{run = zulayefi_run:opened(Pid, Run)};
        {_, false} -> S;
        {_, true} ->
            case zulayefi_view:set(View) of
                Set -> opened(Pid, begin_run(Generation, Set, Recording, S));
                _ -> (stop(other_set, S))#state{generation = Generation, set = Set, recording = Recording}
            end
    end.

opened(_, #state{run = none} = S) -> S;
opened(Pid, #state{run = Run} = S) -> S#state{run = zulayefi_run:opened(Pid, Run)}.

%% Drops what runs, tells the others, and starts a program with all names of the table and this node's living members alone.
begin_run(Generation, Set, Recording, S) ->
    S1 = (stop_run(unneeded, S))#state{generation = Generation, set = Set, recording = Recording, begun = S#state.begun + 1, read = 0, rows = #{}, ended = [],
        is_settled = false},
    S2 = send_all(Set -- [self()], {start, Generation, Set, Recording}, S1),
    {Words, S3} = recording_words(S2),
    case zulayefi_run:start(Set, Words) of
        {ok, Run} -> S3#state{run = zulayefi_run:bring(brought(S3), Run)};
        {error, Reason} ->
            ?LOG_ERROR("zulayefi: the program cannot be started: ~tp", [Reason]),
            because(no_program, S3)
    end.

brought(#state{watch = Watch}) ->
    [{zulayefi_term:wrapped(Name), [Pid || Pid <- Local, zulayefi_watch:has(Pid, Watch)]} || {Name, _, Local} <- zulayefi_table:rows()].

%% Drops what runs, for a reason.
stop(_, #state{run = none} = S) -> S;
stop(Why, S) ->
    How = case Why of hangs -> hangs; _ -> unneeded end,
    ?LOG_NOTICE("zulayefi: generation ~b stops: ~ts", [zulayefi_view:number(S#state.generation), Why]),
    because(Why, stop_run(How, S)).

because(Why, #state{why = Counts} = S) -> S#state{why = maps:update_with(Why, fun(Count) -> Count + 1 end, 1, Counts)}.

stop_run(_, #state{run = none} = S) -> S;
stop_run(How, #state{run = Run, changes = Changes, is_formed = IsFormed} = S) ->
    ok = zulayefi_run:stop(How, Run),
    S1 = case IsFormed of
        true -> S#state{stopped_at = now_ms(), brought = {S#state.generation, S#state.read}};
        false -> S
    end,
    S1#state{run = none, is_formed = false, rows = #{}, file = none, changes = zulayefi_changes:stopped(Changes)}.

program_ended(Port, Reason, #state{run = Run} = S) ->
    case zulayefi_run:is_of(Port, Run) of
        true ->
            ?LOG_WARNING("zulayefi: the program ended: ~tp", [Reason]),
            consider(stop(program_ended, S));
        false -> S
    end.

%% ---- what the program says

came(Port, Data, #state{run = Run} = S) ->
    case zulayefi_run:is_of(Port, Run) of
        true ->
            {Bodies, Run1} = zulayefi_run:came(Data, Run),
            lists:foldl(fun(Body, Next) -> heard(Port, Body, Next) end, S#state{run = Run1}, Bodies);
        false -> S
    end.

%% (by a body before it the run may have stopped)
heard(Port, Body, #state{run = Run} = S) ->
    case zulayefi_run:is_of(Port, Run) of
        true ->
            {Event, Run1} = zulayefi_run:heard(Body, Run),
            on(Event, S#state{run = Run1});
        false -> S
    end.

on(none, S) -> S;
on({assigned, Assignments}, #state{read = Read} = S) -> lists:foldl(fun assigned/2, S#state{read = Read + length(Assignments)}, Assignments);
on({replied, {change, Name}, Reply}, S) -> next(Name, answer(Name, real(Reply, Name), S));
on({replied, finish, ok}, S) -> S;
on({replied, finish, Reply}, S) -> refused(Reply, S);
on(formed, S) -> consider(settle(formed(S)));
on({clock, Clock}, S) -> S#state{clock = Clock};
on({has_ended, {change, Name}}, S) -> has_ended(zulayefi_changes:first(Name, S#state.changes), S);
on({version, Version}, S) -> S#state{version = Version};
on({stop, {old_clock, Clock}}, S) -> consider(stop(old_clock, S#state{clock = Clock}));
on({stop, {many_ended, _}}, S) -> consider(stop(many_ended, S));
on({stop, {format, Theirs, Ours}}, S) ->
    ?LOG_ERROR("zulayefi: the program has format ~b, here ~b", [Theirs, Ours]),
    consider(stop(format, S));
on({stop, Notice}, S) -> refused(Notice, S).

%% A broken link, or something that this server should not have said.
refused(Notice, S) ->
    ?LOG_ERROR("zulayefi: the program refuses: ~tp", [Notice]),
    consider(stop(refused, S)).

%% A process joins whose number has ended in this generation. One that lives has a number that came again.
has_ended(#change{pid = Pid}, S) ->
    case is_alive(Pid) of
        true -> consider(stop(number_again, S));
        false -> S
    end.

%% Until the generation has formed, queries read the table of the one before.
assigned(Assignment, #state{is_formed = false, rows = Rows} = S) ->
    Name = element(1, Assignment),
    case zulayefi_table:assigned(Assignment, maps:get(Name, Rows, none)) of
        none -> S#state{rows = maps:remove(Name, Rows)};
        Row -> S#state{rows = Rows#{Name => Row}}
    end;
assigned(Assignment, S) ->
    {Before, After} = zulayefi_table:assign(Assignment),
    noticed(element(1, Assignment), Before, After, follow(told_of(Assignment, local(Before)), told_of(Assignment, local(After)), Before, After, S)).

%% The table had the one row, and has the other now.
follow(Before, After, S) -> follow(local(Before), local(After), Before, After, S).

%% (of members of this node those that may have come or gone)
follow(Were, Are, Before, After, #state{watch = Watch, room = Room} = S) ->
    S#state{watch = zulayefi_watch:change(Were, Are, Watch), room = zulayefi_room:change(Before, After, Room)}.

local(none) -> [];
local({_, _, Local}) -> Local.

%% What an assignment tells of one process leaves the others as they are.
told_of({_, Pid, _}, Pids) -> [Pid || lists:member(Pid, Pids)];
told_of(_, Pids) -> Pids.

%% A change that is under way has begun once its effect is seen.
noticed(Name, Before, After, #state{changes = Changes} = S) ->
    case zulayefi_changes:first(Name, Changes) of
        #change{status = given} = Change ->
            case zulayefi_changes:is_effect(Change, Before, After) of
                true -> S#state{changes = zulayefi_changes:begun(Name, Changes)};
                false -> S
            end;
        _ -> S
    end.

%% All rows come into their place at once. No name is missing among them, as this node brought its own. Then what has waited goes on.
formed(#state{rows = Rows, ended = Ended, stopped_at = StoppedAt} = S) ->
    Old = maps:from_list([{Name, Row} || {Name, _, _} = Row <- zulayefi_table:rows()]),
    S1 = maps:fold(fun(Name, Row, Next) -> follow(maps:get(Name, Old, none), Row, Next) end, S, Rows),
    zulayefi_table:put(maps:values(Rows)),
    zulayefi_table:is_open() orelse zulayefi_table:open(),
    S2 = S1#state{is_formed = true, rows = #{}, ended = [], proposal = none, formed = S#state.formed + 1, pause = now_ms() - StoppedAt},
    tell_formed(S2),
    S3 = lists:foldl(fun finish/2, S2, Ended),
    lists:foldl(fun next/2, S3, zulayefi_changes:names(S3#state.changes)).

tell_formed(#state{generation = Generation, set = Set, pause = Pause, room = Room}) ->
    ?LOG_NOTICE("zulayefi: generation ~b of ~0tp formed after ~b ms", [zulayefi_view:number(Generation), [node(Pid) || Pid <- Set], Pause]),
    zulayefi_room:is_passed(Room) andalso
        ?LOG_ERROR("zulayefi: the table is larger than what a node can bring, so the next generation may not form; delete groups: ~0tp", [zulayefi_room:brought(Room)]).

%% A process of this node that was watched has ended.
finish(Pid, #state{is_formed = false, ended = Ended} = S) -> S#state{ended = [Pid | Ended]};
finish(Pid, S) -> ask(zulayefi_desk:last_port(), {finish, Pid}, finish, S).

ask(Port, Command, What, #state{run = Run} = S) -> S#state{run = zulayefi_run:ask(Port, Command, What, Run)}.

%% ---- changes

asked(#change{name = Name} = Change, #state{changes = Changes} = S) ->
    case is_refused(Change, S) of
        {true, Reply} -> gen_server:reply(Change#change.from, Reply), S;
        {false, S1} -> next(Name, S1#state{changes = zulayefi_changes:add(Change, Changes)})
    end.

is_refused(Change, #state{view = View} = S) ->
    Set = zulayefi_view:set(View),
    case {lists:member(self(), Set), held(Change, S)} of
        {false, _} -> {true, {error, {set_full, length(Set)}}};
        {true, full} -> {true, {error, system_limit}};
        {true, S1} -> {false, S1}
    end.

%% Until it is answered, a change has room reserved, and a process that joins is watched.
held(#change{word = Word, pid = Pid} = Change, #state{room = Room, watch = Watch} = S) ->
    case zulayefi_room:reserve(Change, Room) of
        full -> full;
        {ok, Room1} when Word =:= join -> S#state{room = Room1, watch = zulayefi_watch:use(Pid, Watch)};
        {ok, Room1} -> S#state{room = Room1}
    end.

%% Gives the next changes of a group to the program, as far as they can be given. One that is void is answered once it is the first.
next(_, #state{is_formed = false} = S) -> S;
next(Name, #state{changes = Changes} = S) ->
    case zulayefi_changes:next(Name, Changes) of
        none -> S;
        {IsFirst, Change} ->
            case is_void(Change, S) of
                false -> next(Name, give(Change, S));
                true when IsFirst -> next(Name, answer(Name, void(Name), S));
                true -> S
            end
    end.

%% A process that has ended, maybe in an earlier life of this node, joins and leaves nothing. One that is watched has not, as far as is known.
is_void(#change{pid = none}, _) -> false;
is_void(#change{pid = Pid}, #state{watch = Watch}) -> not (zulayefi_watch:has(Pid, Watch) orelse is_alive(Pid)).

is_alive(Pid) ->
    try is_process_alive(Pid)
    catch error:badarg -> false
    end.

void(Name) ->
    case zulayefi_table:has(Name) of
        true -> ok;
        false -> {error, {no_such_group, Name}}
    end.

give(#change{name = Name, wrapped = Wrapped, word = Word, pid = Pid}, #state{changes = Changes} = S) ->
    Command = case Pid of
        none -> {Word, Wrapped};
        _ -> {Word, Wrapped, Pid}
    end,
    ask(zulayefi_desk:port_of(Name), Command, {change, Name}, S#state{changes = zulayefi_changes:given(Name, Changes)}).

answer(Name, Reply, #state{changes = Changes} = S) ->
    reply(zulayefi_changes:first(Name, Changes), Reply, S#state{changes = zulayefi_changes:pop(Name, Changes)}).

reply(#change{from = From, word = Word, pid = Pid} = Change, Reply, #state{room = Room, watch = Watch, answered = Answered} = S) ->
    gen_server:reply(From, Reply),
    Watch1 = case Word of
        join -> zulayefi_watch:drop(Pid, Watch);
        _ -> Watch
    end,
    S#state{room = zulayefi_room:release(Change, Room), watch = Watch1, answered = Answered + 1}.

real({error, {Word, _}}, Name) -> {error, {Word, Name}};
real({refused, _} = Refused, _) -> {error, Refused};
real(Reply, _) -> Reply.

%% Changes that had begun before the last stop are settled once each node of the set told that it has formed: then what is answered here stands in each
%% table that queries read.
settle(#state{is_formed = true, is_settled = false, generation = Generation, set = Set, view = View, changes = Changes} = S) ->
    case zulayefi_view:told_formed(Generation, Set, View) of
        true -> lists:foldl(fun settle/2, S#state{is_settled = true}, zulayefi_changes:names(Changes));
        false -> S
    end;
settle(S) -> S.

settle(Name, #state{changes = Changes} = S) ->
    case zulayefi_changes:first(Name, Changes) of
        #change{status = over, word = delete} -> settle_delete(Name, S);
        #change{status = over} -> next(Name, answer(Name, ok, S));
        _ -> S
    end.

%% The group may be back, by a node that had not seen it deleted.
settle_delete(Name, #state{changes = Changes} = S) ->
    case zulayefi_table:has(Name) of
        true -> next(Name, S#state{changes = zulayefi_changes:waits(Name, Changes)});
        false -> next(Name, answer(Name, ok, S))
    end.

%% ---- time

%% Something is open, or waits for a busy port or connection.
beating(#state{is_beating = true} = S) -> S;
beating(#state{links = Links, run = Run} = S) ->
    case zulayefi_links:is_idle(Links) andalso (Run =:= none orelse zulayefi_run:is_idle(Run)) of
        true -> S;
        false ->
            erlang:send_after(?BEAT_MS, self(), beat),
            S#state{is_beating = true}
    end.

beat(#state{links = Links, run = Run} = S) ->
    Run1 = case Run of
        none -> none;
        _ -> zulayefi_run:beat(Run)
    end,
    S#state{links = zulayefi_links:again(Links), run = Run1}.

second(S) ->
    connect(zulayefi_view:unseen(S#state.view)),
    S1 = named(S#state{view = zulayefi_view:greeted_by_all(S#state.view)}),
    consider(recorded(listened(S1))).

%% Whom another server sees, this one has to see too, or they never agree. Connecting takes time, so it is done by others.
connect(Nodes) -> lists:foreach(fun(Node) -> spawn(net_kernel, connect_node, [Node]) end, Nodes).

%% A node that got another name has other processes.
named(#state{own = Own} = S) when Own =:= node() -> S;
named(#state{changes = Changes} = S) ->
    S1 = with_table(stop(renamed, S#state{own = node(), watch = zulayefi_watch:new(), room = room()})),
    consider(lists:foldl(fun held_again/2, S1, zulayefi_changes:all(Changes))).

held_again(Change, S) ->
    case held(Change, S) of
        full -> S;
        S1 -> S1
    end.

listened(#state{run = none} = S) -> S;
listened(#state{run = Run} = S) ->
    case zulayefi_run:second(Run) of
        {ok, Run1} -> S#state{run = Run1};
        {hangs, _} -> stop(hangs, S)
    end.

%% ---- recordings

%% The server that proposes is asked, and begins a generation that is recorded so.
record(Dir, #state{view = View, recording = Recording} = S) ->
    case hd(zulayefi_view:set(View)) of
        Least when Least =/= self() -> send(Least, {record, Dir}, S);
        _ when Dir =:= Recording -> S;
        _ -> consider(stop(recording, S#state{recording = Dir}))
    end.

recording_words(#state{recording = none} = S) -> {[], S};
recording_words(#state{recording = Dir, generation = Generation, brought = Brought} = S) ->
    File = zulayefi_recording:file(Dir, node(), Generation),
    case zulayefi_recording:can_be_made(File) of
        ok -> {zulayefi_recording:words(File, Generation, Brought), S#state{file = File}};
        {error, Reason} ->
            ?LOG_ERROR("zulayefi: ~ts cannot be made: ~tp", [File, Reason]),
            self() ! {?PROTOCOL, none, {record, none}},
            {[], S}
    end.

recorded(#state{file = none} = S) -> S;
recorded(#state{file = File} = S) ->
    case zulayefi_recording:is_full(File) of
        true ->
            ?LOG_NOTICE("zulayefi: ~ts is full", [File]),
            record(none, S);
        false -> S
    end.

%% ---- for whoever looks

info(#state{generation = {Number, Proposer}, set = Set, view = View, run = Run, room = Room} = S) ->
    Brought = zulayefi_room:brought(Room),
    #{
        node => S#state.own,
        view => [node(Pid) || Pid <- zulayefi_view:servers(View)],
        set => [node(Pid) || Pid <- Set],
        generation => {Number, case Proposer of none -> none; _ -> node(Proposer) end},
        stage => stage(S),
        pause => S#state.pause,
        begun => S#state.begun,
        formed => S#state.formed,
        why => S#state.why,
        clock => S#state.clock,
        version => S#state.version,
        program => case Run of none -> none; _ -> zulayefi_run:os_pid(Run) end,
        open => zulayefi_changes:count(S#state.changes),
        answered => S#state.answered,
        watched => zulayefi_watch:count(S#state.watch),
        names => maps:get(names, Brought),
        members => maps:get(members, Brought),
        most => maps:get(most, Brought),
        waiting => zulayefi_links:waiting(S#state.links) + case Run of none -> 0; _ -> zulayefi_run:waiting(Run) end,
        recording => S#state.recording,
        strangers => S#state.strangers
    }.
