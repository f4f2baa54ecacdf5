%% @doc What goes to other servers, each node's in its order. No send suspends this server: what a busy connection does not take waits here, and is
%% tried again. Nothing connects; what goes to a node without a connection is lost, and its monitors say so.
-module(zulayefi_links).
-export([new/0, send/3, again/1, lost/2, is_idle/1, waiting/1]).
-export_type([links/0]).

-type target() :: pid() | {atom(), node()}.
-opaque links() :: #{node() => queue:queue({target(), term()})}.

-spec new() -> links().
new() -> #{}.

-spec send(target(), term(), links()) -> links().
send(To, Message, Links) ->
    Node = node_of(To),
    case Links of
        #{Node := Queue} -> Links#{Node := queue:in({To, Message}, Queue)};
        _ ->
            case is_taken(To, Message) of
                true -> Links;
                false -> Links#{Node => queue:from_list([{To, Message}])}
            end
    end.

node_of({_, Node}) -> Node;
node_of(Pid) -> node(Pid).

is_taken(To, Message) -> erlang:send(To, Message, [nosuspend, noconnect]) =/= nosuspend.

%% @doc Tries again what waits.
-spec again(links()) -> links().
again(Links) -> maps:filtermap(fun(_, Queue) -> again_to(Queue) end, Links).

again_to(Queue) ->
    case queue:peek(Queue) of
        empty -> false;
        {value, {To, Message}} ->
            case is_taken(To, Message) of
                true -> again_to(queue:drop(Queue));
                false -> {true, Queue}
            end
    end.

%% @doc The server of a node has ended, or cannot be heard: nothing waits for it any more.
-spec lost(node(), links()) -> links().
lost(Node, Links) -> maps:remove(Node, Links).

-spec is_idle(links()) -> boolean().
is_idle(Links) -> map_size(Links) =:= 0.

%% @doc How many messages wait.
-spec waiting(links()) -> non_neg_integer().
waiting(Links) -> maps:fold(fun(_, Queue, Count) -> Count + queue:len(Queue) end, 0, Links).
