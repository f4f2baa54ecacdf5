#!/usr/bin/env escript
%% The folder of the beams, what is measured, and how often.
-mode(compile).

main([Folder, What, Times]) ->
    [true = code:add_patha(filename:join(Folder, Part)) || Part <- ["ebin", "test"]],
    logger:set_primary_config(level, critical),
    zulayefi_bench:(list_to_atom(What))(list_to_integer(Times)).
