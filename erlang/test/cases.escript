#!/usr/bin/env escript
%% Runs cases of the suite without Common Test: the folder of the beams, then the names of cases; none for the short ones, `all' for all. A line for each.
-mode(compile).

main([Folder | Words]) ->
    [true = code:add_patha(filename:join(Folder, Part)) || Part <- ["ebin", "test"]],
    logger:set_primary_config(level, error),
    Cases = case Words of
        [] -> zulayefi_SUITE:short();
        ["all"] -> zulayefi_SUITE:all();
        _ -> [list_to_atom(Word) || Word <- Words]
    end,
    Failed = [Case || Case <- Cases, not holds(Case)],
    io:format("~b passed, ~b failed~n", [length(Cases) - length(Failed), length(Failed)]),
    halt(case Failed of [] -> 0; _ -> 1 end).

holds(Case) ->
    Begun = erlang:monotonic_time(millisecond),
    {Runner, Monitor} = spawn_monitor(fun() -> zulayefi_SUITE:Case([]) end),
    Reason = receive
        {'DOWN', Monitor, process, Runner, Why} -> Why
    after 120000 ->
        exit(Runner, kill),
        late
    end,
    Ms = erlang:monotonic_time(millisecond) - Begun,
    case Reason of
        normal -> io:format("~ts: ok, ~b ms~n", [Case, Ms]), true;
        _ -> io:format("~ts: failed, ~b ms: ~0tp~n", [Case, Ms, Reason]), false
    end.
