%% waits: not given to the program, or to none that runs; given: it has it; begun: its effect was read; over: begun with a program that was stopped.
-type status() :: waits | given | begun | over.

-record(change, {
    %% (undefined until the server has it)
    from :: gen_server:from() | undefined,
    word :: create | delete | join | leave,
    name :: term(),
    wrapped :: zulayefi_term:wrapped(),
    pid :: pid() | none,
    status = waits :: status()
}).
