%% @doc The changes of pg2. A join or leave is made at the process' own node, which watches it; the others are made at this one. A call waits for its
%% answer without end, also while there is no set, or no server for a moment.
-module(zulayefi_calls).
-export([create/1, delete/1, join/2, leave/2, request/1]).
-export_type([error/0]).

%% After how long a server that is about to be started again is asked again.
-define(BETWEEN_TRIES_MS, 10).

-type error() :: {error, {no_such_group, term()} | {set_full, pos_integer()} | {not_in_set, node()} | system_limit | {refused, pos_integer()}}.

-spec create(term()) -> ok | error().
create(Name) -> request(change(create, Name, none)).

-spec delete(term()) -> ok | error().
delete(Name) -> request(change(delete, Name, none)).

-spec join(term(), pid()) -> ok | error().
join(Name, Pid) -> at_home(join, Name, Pid).

-spec leave(term(), pid()) -> ok | error().
leave(Name, Pid) -> at_home(leave, Name, Pid).

change(Word, Name, Pid) ->
    case zulayefi_term:is_name(Name) of
        true -> zulayefi_server:change(Word, Name, zulayefi_term:wrapped(Name), Pid);
        false -> error(badarg, [Name])
    end.

at_home(Word, Name, Pid) ->
    zulayefi_term:fits(Pid) orelse error(badarg, [Name, Pid]),
    Change = change(Word, Name, Pid),
    case node(Pid) =:= node() of
        true -> request(Change);
        false -> there(node(Pid), Change, Name)
    end.

%% @doc Asks the server of this node, and waits where it is about to be started again.
-spec request(term()) -> term().
request(Request) ->
    try gen_server:call(zulayefi_server, Request, infinity)
    catch
        exit:{noproc, _} = Reason ->
            case whereis(zulayefi_sup) of
                undefined -> exit(Reason);
                _ -> timer:sleep(1), request(Request)
            end
    end.

%% Asks the server of another node, and waits where it is about to be started again, as long as the application runs there. A process of a node that is not
%% connected has left all groups, so nothing is left to do.
there(Node, Change, Name) ->
    case lists:member(Node, nodes()) of
        true ->
            try gen_server:call({zulayefi_server, Node}, Change, infinity) of
                {error, {set_full, _}} -> {error, {not_in_set, Node}};
                Reply -> Reply
            catch
                exit:{{nodedown, _}, _} -> gone(Name);
                exit:{noconnection, _} -> gone(Name);
                exit:{noproc, _} -> there_again(Node, Change, Name)
            end;
        false ->
            case lists:member(Node, nodes(connected)) of
                true -> {error, {not_in_set, Node}};
                false -> gone(Name)
            end
    end.

there_again(Node, Change, Name) ->
    case runs(Node) of
        true -> timer:sleep(?BETWEEN_TRIES_MS), there(Node, Change, Name);
        false -> {error, {not_in_set, Node}}
    end.

%% Whether the application runs at a node; also where it is gone meanwhile, as the next trial sees.
runs(Node) ->
    try erpc:call(Node, erlang, whereis, [zulayefi_sup]) =/= undefined
    catch error:{erpc, _} -> true
    end.

gone(Name) ->
    case zulayefi_table:members(Name) of
        Members when is_list(Members) -> ok;
        Error -> Error
    end.
