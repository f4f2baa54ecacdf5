%% @doc Supervises the server, and what has to outlive it: the table belongs to this process, and programs are killed by a process beside the server.
-module(zulayefi_sup).
-behaviour(supervisor).
-export([start_link/0, init/1]).

-spec start_link() -> supervisor:startlink_ret().
start_link() -> supervisor:start_link({local, ?MODULE}, ?MODULE, []).

init([]) ->
    ok = zulayefi_table:new(),
    {ok, {#{strategy => one_for_one, intensity => 20, period => 10}, [child(zulayefi_killer), child(zulayefi_server)]}}.

child(Module) -> #{id => Module, start => {Module, start_link, []}, shutdown => 5000}.
