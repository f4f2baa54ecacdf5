%% @doc Requests at the ports of the program. A reply has the number of its request at its port. A port is given a thousand at most, as the program
%% refuses more; others wait here, in order.
-module(zulayefi_desk).
-export([new/0, ports/0, port_of/1, last_port/0, ask/4, answered/3, what/3, open/1]).
-export_type([desk/0]).

-define(PORTS, 64).
-define(MOST, 1000).

-record(desk, {
    %% each port: how many requests it was given, and how many of them are open
    given = #{} :: #{pos_integer() => {non_neg_integer(), non_neg_integer()}},
    asked = #{} :: #{{pos_integer(), pos_integer()} => term()},
    waiting = #{} :: #{pos_integer() => queue:queue({term(), term()})}
}).
-opaque desk() :: #desk{}.

-spec new() -> desk().
new() -> #desk{}.

-spec ports() -> pos_integer().
ports() -> ?PORTS.

%% @doc A port makes one change after another, so all changes of a group go to one.
-spec port_of(term()) -> pos_integer().
port_of(Name) -> 1 + erlang:phash2(Name, ?PORTS - 1).

%% @doc The port to which no group goes.
-spec last_port() -> pos_integer().
last_port() -> ?PORTS.

%% @doc A request, and for what it is made. Gives the bodies for the program.
-spec ask(pos_integer(), term(), term(), desk()) -> {[iodata()], desk()}.
ask(Port, Command, What, #desk{given = Given, waiting = Waiting} = Desk) ->
    case maps:get(Port, Given, {0, 0}) of
        {_, ?MOST} ->
            Queue = maps:get(Port, Waiting, queue:new()),
            {[], Desk#desk{waiting = Waiting#{Port => queue:in({Command, What}, Queue)}}};
        {Number, Open} ->
            {[request({node(), Port, Command})],
             Desk#desk{given = Given#{Port => {Number + 1, Open + 1}}, asked = (Desk#desk.asked)#{{Port, Number + 1} => What}}}
    end.

%% (where it names a process, that stands last)
request({_, _, {Word, _}} = Request) when Word =/= finish -> zulayefi_term:to_program(Request);
request(Request) -> zulayefi_term:to_program_at_end(Request).

%% @doc A reply came. Gives for what the request was made, and the bodies that have waited for it.
-spec answered(pos_integer(), pos_integer(), desk()) -> {term(), [iodata()], desk()}.
answered(Port, Number, #desk{given = Given, asked = Asked, waiting = Waiting} = Desk) ->
    {What, Others} = maps:take({Port, Number}, Asked),
    {Last, Open} = map_get(Port, Given),
    Desk1 = Desk#desk{given = Given#{Port := {Last, Open - 1}}, asked = Others},
    case Waiting of
        #{Port := Queue} ->
            {{value, {Command, Next}}, Rest} = queue:out(Queue),
            {Bodies, Desk2} = ask(Port, Command, Next, Desk1#desk{waiting = with_queue(Port, Rest, Waiting)}),
            {What, Bodies, Desk2};
        _ -> {What, [], Desk1}
    end.

with_queue(Port, Queue, Waiting) ->
    case queue:is_empty(Queue) of
        true -> maps:remove(Port, Waiting);
        false -> Waiting#{Port := Queue}
    end.

%% @doc For what an open request was made.
-spec what(pos_integer(), pos_integer(), desk()) -> term().
what(Port, Number, #desk{asked = Asked}) -> map_get({Port, Number}, Asked).

%% @doc How many requests the program has.
-spec open(desk()) -> non_neg_integer().
open(#desk{asked = Asked}) -> map_size(Asked).
