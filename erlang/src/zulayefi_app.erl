%% @doc Starts the application: tries the program, starts the server, and puts pg2 in the place of kernel's empty module of that name.
-module(zulayefi_app).
-behaviour(application).
-export([start/2, stop/1]).
-export([priv/0, parameter/1]).

start(_, _) ->
    File = filename:join(priv(), "pg2.beam"),
    case {zulayefi_port:check(), file:read_file(File)} of
        {{ok, _}, {ok, Code}} ->
            Started = zulayefi_sup:start_link(),
            ok = put_in_place(File, Code),
            Started;
        {{ok, _}, {error, Reason}} -> {error, {Reason, File}};
        {Error, _} -> Error
    end.

%% Kernel's module has no function but is sticky, and the code server finds it before any other. So ours is loaded by hand.
put_in_place(File, Code) ->
    _ = code:unstick_mod(pg2),
    _ = code:purge(pg2),
    {module, pg2} = code:load_binary(pg2, File, Code),
    ok.

stop(_) -> ok.

%% @doc The folder of the program and of pg2, also where the application is not at a library path.
-spec priv() -> file:filename_all().
priv() ->
    case code:priv_dir(zulayefi) of
        {error, bad_name} -> filename:join(filename:dirname(filename:dirname(code:which(?MODULE))), "priv");
        Dir -> Dir
    end.

%% @doc A parameter of the application.
-spec parameter(atom()) -> term().
parameter(Key) ->
    {ok, Value} = application:get_env(zulayefi, Key),
    Value.
