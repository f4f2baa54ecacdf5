#!/usr/bin/env escript
%% Tries the application, and projects that use it, with tools that need not be there: the folder of the beams, then names of tools; all where none is named. A line
%% for each tool.
-mode(compile).

main([Folder | Words]) ->
    [true = code:add_patha(filename:join(Folder, Part)) || Part <- ["ebin", "test"]],
    logger:set_primary_config(level, error),
    known(Words -- [Name || {Name, _, _} <- tools()]),
    Source = filename:join(Folder, "zulayefi"),
    ok = file:make_dir(Source),
    Own = filename:dirname(filename:dirname(filename:absname(escript:script_name()))),
    {0, _} = shell(["cp -r ", [[filename:join(Own, Part), " "] || Part <- ["src", "pg2", "rebar.config"]], Source]),
    Results = [tried(Name, Has, Try, {Folder, Source}) || {Name, Has, Try} <- tools(), Words =:= [] orelse lists:member(Name, Words)],
    halt(case lists:member(failed, Results) of true -> 1; false -> 0 end).

tools() ->
    [{"compiler", module(compile), fun compiler/1},
     {"xref", module(xref), fun xref/1},
     {"dialyzer", module(dialyzer), fun dialyzer/1},
     {"edoc", module(edoc), fun edoc/1},
     {"common_test", module(ct), fun common_test/1},
     {"rebar3", program("rebar3"), fun rebar3/1},
     {"mix", program("mix") andalso program("rebar3"), fun mix/1}].

known([]) -> ok;
known(Words) ->
    io:format("these are no tools: ~ts~n", [lists:join(" ", Words)]),
    halt(2).

module(Name) -> code:which(Name) =/= non_existing.
program(Name) -> os:find_executable(Name) =/= false.

tried(Name, false, _, _) ->
    io:format("~ts: not run, as it is not there~n", [Name]),
    not_run;
tried(Name, true, Try, Folders) ->
    Begun = erlang:monotonic_time(second),
    {Result, Said} = try Try(Folders) of
        _ -> {ok, "ok"}
    catch
        Class:Reason:Trace -> {failed, io_lib:format("failed: ~0tp", [{Class, Reason, Trace}])}
    end,
    io:format("~ts: ~ts, ~b s~n", [Name, Said, erlang:monotonic_time(second) - Begun]),
    Result.

%% What a command of the shell says, behind its status.
shell(Command) ->
    Text = os:cmd(unicode:characters_to_list(["{ ", Command, "\n} 2>&1; printf '\\n%s\\n' $?"])),
    [Status | Said] = lists:reverse(string:lexemes(Text, "\n")),
    {list_to_integer(Status), lists:flatten(lists:join("\n", lists:reverse(Said)))}.

held(Command) ->
    {0, Said} = shell(Command),
    Said.

in(Folder, Command) -> held(["cd ", Folder, "; ", Command]).

write(Folder, Files) ->
    [begin
        File = filename:join(Folder, Name),
        ok = filelib:ensure_dir(File),
        ok = file:write_file(File, Text)
     end || {Name, Text} <- Files].

%% ---- a module that calls pg2

caller(Folder, Attributes) ->
    write(Folder, [{"caller.erl", [
        "-module(caller).\n", Attributes, "-export([run/0]).\n",
        "run() -> ok = pg2:create(workers), ok = pg2:join(workers, self()), pg2:get_members(workers).\n"]}]),
    File = filename:join(Folder, "caller.erl"),
    case compile:file(File, [warnings_as_errors, return, debug_info, {outdir, Folder}]) of
        {ok, caller, []} -> filename:join(Folder, "caller.beam");
        error -> refused;
        {error, [], [_]} -> refused
    end.

quiet() -> "-compile({nowarn_removed, [pg2]}).\n".

compiler({Folder, _}) ->
    refused = caller(Folder, ""),
    "" ++ _ = caller(Folder, quiet()).

%% Calls are missing, unless our pg2 is among the modules.
xref({Folder, _}) ->
    {ok, _} = xref:start(calls, [{xref_mode, functions}]),
    ok = xref:set_library_path(calls, code_path),
    {ok, caller} = xref:add_module(calls, caller(Folder, quiet())),
    {ok, [_, _, _]} = xref:analyze(calls, undefined_function_calls),
    {ok, pg2} = xref:add_module(calls, pg2_beam(Folder)),
    {ok, _} = xref:add_directory(calls, filename:join(Folder, "ebin")),
    {ok, []} = xref:analyze(calls, undefined_function_calls).

pg2_beam(Folder) -> filename:join([Folder, "priv", "pg2.beam"]).

dialyzer({Folder, _}) ->
    Table = filename:join(Folder, "otp.plt"),
    [] = dialyzer:run([{analysis_type, plt_build}, {output_plt, Table}, {files_rec, [code:lib_dir(Each, ebin) || Each <- [erts, kernel, stdlib]]}]),
    Warnings = fun(Files) ->
        [lists:flatten(dialyzer:format_warning(Each))
            || Each <- dialyzer:run([{init_plt, Table}, {files, Files}, {warnings, [unmatched_returns, error_handling, missing_return]}])]
    end,
    Ours = [pg2_beam(Folder) | filelib:wildcard(filename:join([Folder, "ebin", "*.beam"]))],
    [] = Warnings(Ours),
    Caller = caller(Folder, quiet()),
    [_, _, _] = Warnings([Caller]),
    [] = Warnings([Caller | Ours]),
    Caller = caller(Folder, [quiet(), "-dialyzer(no_missing_calls).\n"]),
    [] = Warnings([Caller]).

%% Pages for all modules, and no warning.
edoc({Folder, Source}) ->
    Files = filelib:wildcard(filename:join(Source, "{src,pg2}/*.erl")),
    To = filename:join(Folder, "pages"),
    [] = held(io_lib:format("erl -noshell -eval 'ok = edoc:files(~0tp, [{dir, ~0tp}]), halt().'", [Files, To])),
    [true = filelib:is_file(filename:join(To, filename:basename(File, ".erl") ++ ".html")) || File <- Files].

common_test({Folder, _}) ->
    Logs = filename:join(Folder, "logs"),
    ok = file:make_dir(Logs),
    {Passed, 0, {0, 0}} = ct:run_test([{dir, filename:join(Folder, "test")}, {suite, zulayefi_SUITE}, {auto_compile, false}, {logdir, Logs}]),
    Passed = length(zulayefi_SUITE:all()).

%% ---- projects

%% The application itself, then a project with the lines of the page, also as a release in embedded mode.
rebar3({Folder, Source}) ->
    [in(Source, ["rebar3 ", Command]) || Command <- ["compile", "xref", "edoc"]],
    Project = filename:join(Folder, "project"),
    write(Project, [
        {"rebar.config", [
            "{deps, [zulayefi]}.\n{erl_opts, [warnings_as_errors, {nowarn_removed, [pg2]}]}.\n{xref_ignores, [pg2]}.\n",
            "{relx, [{release, {tried, \"1\"}, [tried, zulayefi]}, {mode, prod}, {include_erts, true}, {include_src, false}]}.\n"]},
        {"src/tried.app.src", "{application, tried, [{description, \"tried\"}, {vsn, \"1\"}, {applications, [kernel, stdlib, zulayefi]}, {mod, {tried, []}}]}.\n"},
        {"src/tried.erl", [
            "-module(tried).\n-behaviour(application).\n-export([start/2, stop/1]).\n",
            "start(_, _) -> ok = pg2:create(workers), {ok, spawn_link(fun() -> receive stop -> ok end end)}.\n",
            "stop(_) -> ok.\n"]}]),
    ok = filelib:ensure_dir(filename:join([Project, "_checkouts", "zulayefi"])),
    ok = file:make_symlink(Source, filename:join([Project, "_checkouts", "zulayefi"])),
    [in(Project, ["rebar3 ", Command]) || Command <- ["compile", "xref", "release"]],
    Used = "embedded = code:get_mode(), [workers] = pg2:which_groups(), halt().",
    in(Project, ["cd _build/default/rel/tried; erts-*/bin/erl -boot releases/1/start -mode embedded -noshell -eval '", Used, "'"]).

mix({Folder, Source}) ->
    Project = filename:join(Folder, "mixed"),
    write(Project, [
        {"mix.exs", [
            "defmodule Tried.MixProject do\n  use Mix.Project\n",
            "  def project, do: [app: :tried, version: \"1.0.0\", deps: [{:zulayefi, path: \"", Source, "\", manager: :rebar3}]]\nend\n"]},
        {"lib/tried.ex", [
            "defmodule Tried do\n  @compile {:no_warn_undefined, :pg2}\n",
            "  def run do\n    :ok = :pg2.create(\"workers\")\n    :ok = :pg2.join(\"workers\", self())\n    true = :pg2.get_members(\"workers\") == [self()]\n  end\nend\n"]}]),
    [in(Project, ["MIX_REBAR3=$(command -v rebar3) mix ", Command, " < /dev/null"]) || Command <- ["compile --warnings-as-errors", "run -e 'Tried.run()'"]].
