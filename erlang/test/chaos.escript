#!/usr/bin/env escript
%% The folder of the beams, for how many seconds clusters are disturbed, the seed of the first, and the folder in which recordings are kept, which may be none.
-mode(compile).

main([Folder, Seconds, Seed | Keep]) ->
    [true = code:add_patha(filename:join(Folder, Part)) || Part <- ["ebin", "test"]],
    logger:set_primary_config(level, critical),
    {Rounds, Failed} = zulayefi_chaos:run(list_to_integer(Seconds), list_to_integer(Seed), case Keep of [] -> none; [Kept] -> Kept end),
    io:format("~b clusters, ~b failed~s~n", [Rounds, length(Failed), [[", seed ", integer_to_list(Each)] || Each <- Failed]]),
    Keep =:= [] orelse io:format("recordings: ~ts~n", [Keep]),
    halt(case Failed of [] -> 0; _ -> 1 end).
