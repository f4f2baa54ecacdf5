%% The cases of the application: a suite of Common Test, which the script beside it also runs where there is none.
-module(zulayefi_SUITE).
-compile({nowarn_removed, [pg2]}).
-export([all/0, short/0]).
-export([answers/1, names/1, start_refused/1, found/1, seen_everywhere/1, ends/1, others_processes/1, node_dies/1, program_dies/1, server_dies/1, server_away/1, parted/1]).
-export([partial_mesh/1, first_call/1, callers_wait/1, hanging_program/1, no_program/1, set_full/1, system_limit/1, new_name/1, recorded/1, notices/1]).
-export([same_as_former/1, workers/1, same_for_long/1, workers_of_five/1, workers_of_eight/1]).
-import(zulayefi_cluster, [with/2, with/3, with_nodes/3, boot/2, connect/1, formed/1, is_formed/2, call/4, stop/1, kill/1, signal/2]).
-import(zulayefi_cluster, [kill_program/1, kill_server/1, part/2, soon/1, members_everywhere/2, holder/1, holders/2, program/1]).

all() -> short() ++ [same_for_long, workers_of_five, workers_of_eight].

%% Those that take a minute together.
short() ->
    [answers, names, start_refused, found, seen_everywhere, ends, others_processes, node_dies, program_dies, server_dies, server_away, parted, partial_mesh, first_call,
     callers_wait, hanging_program, no_program, set_full, system_limit, new_name, recorded, notices, same_as_former, workers].

%% The manual's answers, at a node alone.
answers(_) ->
    with(1, fun([Node]) ->
        Pg2 = fun(Function, Args) -> call(Node, pg2, Function, Args) end,
        [] = Pg2(which_groups, []),
        ok = Pg2(create, [g]),
        ok = Pg2(create, [g]),
        [g] = Pg2(which_groups, []),
        [] = Pg2(get_members, [g]),
        [] = Pg2(get_local_members, [g]),
        {error, {no_process, g}} = Pg2(get_closest_pid, [g]),
        [One, Two] = holders(Node, 2),
        ok = Pg2(join, [g, One]),
        ok = Pg2(join, [g, One]),
        ok = Pg2(join, [g, Two]),
        [One, One, Two] = lists:sort(Pg2(get_members, [g])),
        [One, One, Two] = lists:sort(Pg2(get_local_members, [g])),
        true = lists:member(Pg2(get_closest_pid, [g]), [One, Two]),
        ok = Pg2(leave, [g, One]),
        [One, Two] = lists:sort(Pg2(get_members, [g])),
        ok = Pg2(leave, [g, One]),
        ok = Pg2(leave, [g, One]),
        [Two] = Pg2(get_members, [g]),
        Two = Pg2(get_closest_pid, [g]),
        [{error, {no_such_group, h}} = Pg2(Function, [h | Args])
            || {Function, Args} <- [{join, [One]}, {leave, [One]}, {get_members, []}, {get_local_members, []}, {get_closest_pid, []}]],
        ok = Pg2(delete, [h]),
        ok = Pg2(delete, [g]),
        [] = Pg2(which_groups, []),
        {ok, Server} = Pg2(start, []),
        {error, {already_started, Server}} = Pg2(start_link, []),
        [{'EXIT', {function_clause, _}} = call(Node, erlang, apply, [fun() -> catch apply(pg2, Function, [g, none]) end, []]) || Function <- [join, leave]],
        ok
    end).

%% Any term up to 1,000 bytes is a name.
names(_) ->
    with(2, fun([One, Two]) ->
        Deep = lists:foldl(fun(_, Term) -> {Term} end, deep, lists:seq(1, 100)),
        Names = ["", "text", lists:duplicate(600, $a), 1.5, #{a => [1.0]}, <<1:3>>, {'$erlang', <<>>}, 1 bsl 80, -1, 255, 256, -(1 bsl 63), [x | y], Deep,
            {a, "b", <<"c">>}, self(), make_ref(), 'ünïcode', lists:duplicate(200, 7), <<0:7900>>],
        [ok = call(One, pg2, create, [Name]) || Name <- Names],
        Pid = holder(One),
        [ok = call(Two, pg2, join, [Name, Pid]) || Name <- Names],
        [[Pid] = call(Two, pg2, get_members, [Name]) || Name <- Names],
        Sorted = lists:sort(Names),
        [Sorted = lists:sort(call(Node, pg2, which_groups, [])) || Node <- [One, Two]],
        [{'EXIT', {badarg, _}} = call(One, erlang, apply, [fun() -> catch pg2:create(Name) end, []]) || Name <- [<<0:8000>>, lists:seq(1, 1000)]],
        ok
    end).

%% Programs that are not there, end at once, have another format, or say nothing.
start_refused(_) ->
    Folder = string:trim(os:cmd("mktemp -d")),
    try
        Script = fun(Name, Text) ->
            File = filename:join(Folder, Name),
            ok = file:write_file(File, "#!/bin/sh\n" ++ Text),
            ok = file:change_mode(File, 8#755),
            File
        end,
        Programs = [
            {filename:join(Folder, "none"), {enoent, filename:join(Folder, "none")}},
            {Script("ends", "exit 3\n"), {exit_status, 3}},
            {Script("other", "printf '\\000\\000\\000\\003\\025\\011x'\nexec cat\n"), {format, 9, zulayefi_port:format()}},
            {Script("silent", "exec sleep 60\n"), timeout}
        ],
        with(1, [{seconds_to_start, 2}], fun([Node]) -> [refused(Node, Program, Reason) || {Program, Reason} <- Programs] end)
    after
        file:del_dir_r(Folder)
    end.

refused(Node, Program, Reason) ->
    _ = call(Node, zulayefi, stop, []),
    ok = call(Node, application, set_env, [zulayefi, program, Program]),
    {error, {zulayefi, {Reason, _}}} = call(Node, application, ensure_all_started, [zulayefi]).

%% However a node finds the application, pg2 comes into the place of kernel's module, also where that was loaded, and in a release.
found(_) ->
    Ebin = filename:absname(filename:dirname(code:which(zulayefi_server))),
    Folder = string:trim(os:cmd("mktemp -d")),
    try
        ok = file:make_symlink(filename:dirname(Ebin), filename:join(Folder, "zulayefi")),
        ok = file:write_file(filename:join(Folder, "tried.rel"), io_lib:format("~tp.~n", [release()])),
        ok = systools:make_script(filename:join(Folder, "tried"), [local, no_warn_sasl, {path, [Ebin]}]),
        Used = "ok = pg2:create(g), [g] = pg2:which_groups(), ",
        Started = "{ok, _} = application:ensure_all_started(zulayefi), ",
        Empty = "undef = try pg2:create(g) catch error:Reason -> Reason end, ",
        [{Way, "held"} = {Way, os:cmd(lists:concat(["cd ", Folder, "; ", Way, " -noshell -kernel logger_level error -eval '", Text, "io:put_chars(\"held\"), halt().'"]))}
            || {Way, Text} <- [
                {"erl -pa " ++ Ebin, Started ++ Used},
                {"erl -pa " ++ Ebin, Empty ++ Started ++ Used},
                {"ERL_LIBS=" ++ Folder ++ " erl", Empty ++ Started ++ Used},
                {"erl -mode embedded -boot tried", Used}
            ]],
        ok
    after
        file:del_dir_r(Folder)
    end.

release() ->
    Version = fun(Application) ->
        _ = application:load(Application),
        {ok, Text} = application:get_key(Application, vsn),
        {Application, Text}
    end,
    {release, {"tried", "1"}, {erts, erlang:system_info(version)}, [Version(Application) || Application <- [kernel, stdlib, zulayefi]]}.

%% What is answered anywhere is seen everywhere.
seen_everywhere(_) ->
    with(3, fun([One, Two, Three] = Nodes) ->
        ok = call(One, pg2, create, [g]),
        [[g]] = lists:usort([call(Node, pg2, which_groups, []) || Node <- Nodes]),
        Pids = [A, B, C] = lists:sort([holder(Node) || Node <- Nodes]),
        [ok = call(Three, pg2, join, [g, Pid]) || Pid <- Pids],
        [Pids] = members_everywhere(Nodes, g),
        [begin
            [Local] = call(Node, pg2, get_local_members, [g]),
            Local = call(Node, pg2, get_closest_pid, [g])
         end || Node <- Nodes],
        ok = call(Two, pg2, join, [g, A]),
        [[A, A, B, C]] = members_everywhere(Nodes, g),
        [ok = call(Two, pg2, leave, [g, Pid]) || Pid <- Pids],
        [[A]] = members_everywhere(Nodes, g),
        [A = call(Node, pg2, get_closest_pid, [g]) || Node <- Nodes],
        ok = call(Two, pg2, delete, [g]),
        [{error, {no_such_group, g}}] = members_everywhere(Nodes, g),
        ok
    end).

%% A process that ends leaves all its groups. One in no group is not watched.
ends(_) ->
    with(3, fun([One, Two | _] = Nodes) ->
        [ok = call(One, pg2, create, [Name]) || Name <- [g, h]],
        [A, B] = holders(Two, 2),
        [ok = call(One, pg2, join, [Name, Pid]) || Name <- [g, h], Pid <- [A, A, B]],
        call(Two, erlang, exit, [A, kill]),
        soon(fun() -> members_everywhere(Nodes, g) =:= [[B]] andalso members_everywhere(Nodes, h) =:= [[B]] end),
        1 = maps:get(watched, call(Two, zulayefi, info, [])),
        [ok = call(One, pg2, leave, [Name, B]) || Name <- [g, h]],
        0 = maps:get(watched, call(Two, zulayefi, info, [])),
        ok = call(One, pg2, join, [g, B]),
        ok = call(One, pg2, delete, [g]),
        soon(fun() -> maps:get(watched, call(Two, zulayefi, info, [])) =:= 0 end),
        %% more at once than a port of the program takes
        ok = call(One, erlang, apply, [fun() ->
            Many = [spawn(zulayefi_cluster, hold, []) || _ <- lists:seq(1, 1200)],
            [ok = pg2:join(h, Pid) || Pid <- Many],
            [exit(Pid, kill) || Pid <- Many],
            ok
        end, []]),
        soon(fun() -> members_everywhere(Nodes, h) =:= [[]] end)
    end).

%% Processes that have ended, of nodes that went, of an earlier life of a node, and of a node in no set.
others_processes(_) ->
    with(2, fun([{_, Name} = One, Two]) ->
        ok = call(One, pg2, create, [g]),
        Dead = call(Two, erlang, spawn, [erlang, self, []]),
        Earlier = binary_to_term(<<131, 88, 119, (byte_size(atom_to_binary(Name))), (atom_to_binary(Name))/binary, 90:32, 0:32, 7:32>>),
        Gone = binary_to_term(<<131, 88, 119, 12, "gone@nowhere", 90:32, 0:32, 7:32>>),
        Long = binary_to_term(<<131, 88, 119, (byte_size(atom_to_binary(Name))), (atom_to_binary(Name))/binary, 0:32, 8192:32, 7:32>>),
        [ok = call(Node, pg2, Word, [g, Pid]) || Word <- [join, leave], Pid <- [Dead, Earlier, Gone], Node <- [One, Two]],
        [[]] = members_everywhere([One, Two], g),
        [{error, {no_such_group, h}} = call(One, pg2, join, [h, Pid]) || Pid <- [Dead, Earlier, Gone]],
        {'EXIT', {badarg, _}} = call(One, erlang, apply, [fun() -> catch pg2:join(g, Long) end, []]),
        ok = call(Two, zulayefi, stop, []),
        soon(fun() -> is_formed([One], [Name]) end),
        {_, Other} = Two,
        {error, {not_in_set, Other}} = call(One, pg2, join, [g, holder(Two)]),
        ok
    end).

%% A node dies with its members, and comes back.
node_dies(_) ->
    with(3, fun([One, Two, {_, Name} = Three]) ->
        Left = [One, Two],
        [ok = call(One, pg2, create, [Group]) || Group <- [g, h]],
        [A, B, C] = [holder(Node) || Node <- [One, Two, Three]],
        [ok = call(Two, pg2, join, [Group, Pid]) || Group <- [g, h], Pid <- [A, B, C]],
        kill(Three),
        ok = call(One, pg2, join, [g, A]),
        Now = lists:sort([A, A, B]),
        soon(fun() -> members_everywhere(Left, g) =:= [Now] andalso members_everywhere(Left, h) =:= [lists:sort([A, B])] end),
        formed(Left),
        [Back] = boot([list_to_atom(hd(string:lexemes(atom_to_list(Name), "@")))], []),
        try
            connect([One, Two, Back]),
            formed([One, Two, Back]),
            [Now] = members_everywhere([One, Two, Back], g),
            D = holder(Back),
            ok = call(One, pg2, join, [g, D]),
            Later = lists:sort([D | Now]),
            [Later] = members_everywhere([One, Two, Back], g),
            ok
        after
            stop(Back)
        end
    end).

%% A program that is killed takes nothing with it.
program_dies(_) ->
    with(3, fun([One, Two | _] = Nodes) ->
        ok = call(One, pg2, create, [g]),
        [A, B] = [holder(Node) || Node <- [One, Two]],
        [ok = call(One, pg2, join, [g, Pid]) || Pid <- [A, A, B]],
        Members = lists:sort([A, A, B]),
        [begin
            kill_program(Node),
            [Members] = members_everywhere(Nodes, g),
            ok = call(Two, pg2, join, [g, B]),
            ok = call(One, pg2, leave, [g, B]),
            [Members] = members_everywhere(Nodes, g)
         end || Node <- Nodes],
        ok
    end).

%% So does a server, but for the calls that it had.
server_dies(_) ->
    with(2, fun([One, Two] = Nodes) ->
        ok = call(One, pg2, create, [g]),
        [A, B, C] = [holder(Node) || Node <- [One, Two, One]],
        [ok = call(One, pg2, join, [g, Pid]) || Pid <- [A, A, B, C]],
        OsPid = program(One),
        kill_server(One),
        Members = lists:sort([A, A, B, C]),
        ok = call(One, pg2, create, [h]),
        [Members] = members_everywhere(Nodes, g),
        call(One, erlang, exit, [C, kill]),
        Left = lists:sort([A, A, B]),
        soon(fun() -> members_everywhere(Nodes, g) =:= [Left] end),
        soon(fun() -> not filelib:is_dir("/proc/" ++ integer_to_list(OsPid)) end)
    end).

%% A server that is away at a node whose application runs is awaited, until it is back, the application stops or the node is gone.
server_away(_) ->
    with(3, fun([One, Two, {_, Name} = Three]) ->
        ok = call(One, pg2, create, [g]),
        [A, B] = [holder(Node) || Node <- [Two, Three]],
        [ok = call(Node, supervisor, terminate_child, [zulayefi_sup, zulayefi_server]) || Node <- [Two, Three]],
        Me = self(),
        Join = fun(Pid) -> spawn_link(fun() -> Me ! {joined, Pid, call(One, pg2, join, [g, Pid])} end) end,
        [Join(Pid) || Pid <- [A, B, B]],
        receive {joined, _, _} = Early -> exit(Early) after 1500 -> ok end,
        {ok, _} = call(Two, supervisor, restart_child, [zulayefi_sup, zulayefi_server]),
        receive {joined, A, ok} -> ok end,
        receive {joined, _, _} = Also -> exit(Also) after 100 -> ok end,
        ok = call(Three, zulayefi, stop, []),
        [receive {joined, B, {error, {not_in_set, Name}}} -> ok end || _ <- [1, 2]],
        ok = call(Two, supervisor, terminate_child, [zulayefi_sup, zulayefi_server]),
        Join(A),
        receive {joined, _, _} = Again -> exit(Again) after 100 -> ok end,
        kill(Two),
        receive {joined, A, ok} -> ok end,
        [] = call(One, pg2, get_members, [g])
    end).

%% Two nodes part, go on each for itself, and meet again.
parted(_) ->
    with(2, fun([One, Two] = Nodes) ->
        ok = call(One, pg2, create, [g]),
        [A, B] = [holder(Node) || Node <- Nodes],
        [ok = call(One, pg2, join, [g, Pid]) || Pid <- [A, B]],
        part(One, Two),
        soon(fun() -> call(One, pg2, get_members, [g]) =:= [A] andalso call(Two, pg2, get_members, [g]) =:= [B] end),
        ok = call(One, pg2, join, [g, A]),
        ok = call(Two, pg2, create, [h]),
        ok = call(Two, pg2, join, [h, B]),
        ok = call(Two, pg2, leave, [g, B]),
        connect(Nodes),
        formed(Nodes),
        [[A, A]] = members_everywhere(Nodes, g),
        [[B]] = members_everywhere(Nodes, h),
        %% a connection that is back at once
        part(One, Two),
        connect(Nodes),
        ok = call(One, pg2, join, [h, A]),
        formed(Nodes),
        Both = lists:sort([A, B]),
        [Both] = members_everywhere(Nodes, h),
        ok
    end).

%% Two nodes of three see each other no more: the third has the one connect the other.
partial_mesh(_) ->
    with(3, [{"-kernel", ["prevent_overlapping_partitions", "false"]}], fun([One, Two, Three] = Nodes) ->
        part(One, Two),
        ok = call(Three, pg2, create, [g]),
        formed(Nodes),
        [[g]] = lists:usort([call(Node, pg2, which_groups, []) || Node <- Nodes]),
        ok
    end).

%% A node that starts among others answers nothing from a set of its own.
first_call(_) ->
    with(2, fun([One, Two] = Nodes) ->
        ok = call(One, pg2, create, [g]),
        ok = call(Two, zulayefi, stop, []),
        Pid = holder(Two),
        ok = call(Two, erlang, apply, [fun() -> {ok, _} = application:ensure_all_started(zulayefi), pg2:join(g, Pid) end, []]),
        [[Pid]] = members_everywhere(Nodes, g),
        ok
    end).

%% Callers see no error while programs are killed, and nothing that was answered is lost or doubled.
callers_wait(_) ->
    with(3, fun(Nodes) ->
        [ok = call(Node, pg2, create, [g]) || Node <- Nodes],
        Me = self(),
        Joiners = [{Node, holder(Node)} || Node <- Nodes, _ <- lists:seq(1, 4)],
        [spawn_link(fun() -> [ok = call(Node, pg2, join, [g, Pid]) || _ <- lists:seq(1, 10)], Me ! {joined, Pid} end) || {Node, Pid} <- Joiners],
        [begin timer:sleep(100), kill_program(Node) end || Node <- Nodes],
        [receive {joined, Pid} -> ok end || {_, Pid} <- Joiners],
        Members = lists:sort(lists:append([lists:duplicate(10, Pid) || {_, Pid} <- Joiners])),
        [Members] = members_everywhere(Nodes, g),
        ok
    end).

%% A program that is stopped is killed.
hanging_program(_) ->
    with(2, [{seconds_of_silence, 1}], fun([One, Two] = Nodes) ->
        ok = call(One, pg2, create, [g]),
        OsPid = program(One),
        signal("STOP", OsPid),
        ok = call(Two, pg2, create, [h]),
        [[g, h]] = lists:usort([lists:sort(call(Node, pg2, which_groups, [])) || Node <- Nodes]),
        false = program(One) =:= OsPid,
        #{hangs := 1} = maps:get(why, call(One, zulayefi, info, [])),
        soon(fun() -> not filelib:is_dir("/proc/" ++ integer_to_list(OsPid)) end)
    end).

%% A program that is there no more, and comes back.
no_program(_) ->
    with(2, fun([One, Two] = Nodes) ->
        ok = call(One, application, set_env, [zulayefi, program, "/no/such/program"]),
        kill_program(One),
        Me = self(),
        spawn_link(fun() -> Me ! {created, call(Two, pg2, create, [g])} end),
        soon(fun() -> #{no_program := _} = maps:get(why, call(One, zulayefi, info, [])), true end),
        receive {created, _} -> exit(too_early) after 200 -> ok end,
        [] = call(One, pg2, which_groups, []),
        ok = call(One, application, unset_env, [zulayefi, program]),
        receive {created, ok} -> ok end,
        formed(Nodes)
    end).

%% A node beyond the most is outside, until another goes.
set_full(_) ->
    with_nodes([zulayefi_cluster:name(I) || I <- [1, 2, 3]], [{set_size, 2}], fun([A, B, {_, Name} = C] = Nodes) ->
        ok = call(C, pg2, create, [of_c]),
        Pid = holder(C),
        ok = call(C, pg2, join, [of_c, Pid]),
        connect(Nodes),
        formed([A, B]),
        soon(fun() -> call(C, pg2, which_groups, []) =:= {error, {set_full, 2}} end),
        [{error, {set_full, 2}} = call(C, pg2, Function, Args)
            || {Function, Args} <- [{create, [g]}, {delete, [of_c]}, {join, [of_c, Pid]}, {leave, [of_c, Pid]}, {get_members, [of_c]}, {get_local_members, [of_c]},
                {get_closest_pid, [of_c]}]],
        ok = call(A, pg2, create, [g]),
        {error, {not_in_set, Name}} = call(A, pg2, join, [g, Pid]),
        none = program(C),
        kill(B),
        formed([A, C]),
        [[Pid]] = members_everywhere([A, C], of_c),
        ok = call(A, pg2, join, [g, Pid]),
        [[Pid]] = members_everywhere([A, C], g),
        ok
    end).

%% Names and memberships that would not fit an exchange are refused.
system_limit(_) ->
    with(1, [{brought_bytes, 1000}], fun([Node]) ->
        ok = call(Node, pg2, create, [<<0:6400>>]),
        {error, system_limit} = call(Node, pg2, create, [<<1:6400>>]),
        ok = call(Node, pg2, create, [g]),
        ok = call(Node, pg2, delete, [<<0:6400>>]),
        ok = call(Node, pg2, create, [<<1:6400>>]),
        Pid = holder(Node),
        Joined = joined(Node, Pid, 0),
        Joined = length(call(Node, pg2, get_members, [g])),
        ok = call(Node, pg2, leave, [g, Pid]),
        ok = call(Node, pg2, join, [g, Pid]),
        {error, system_limit} = call(Node, pg2, join, [g, Pid]),
        kill_program(Node),
        ok = call(Node, pg2, create, [h]),
        Joined = length(call(Node, pg2, get_members, [g])),
        ok
    end).

joined(Node, Pid, Count) ->
    case call(Node, pg2, join, [g, Pid]) of
        ok -> joined(Node, Pid, Count + 1);
        {error, system_limit} when Count > 10 -> Count
    end.

%% A node without a name is a set of one. Once it has one it begins anew, with its groups and members.
new_name(_) ->
    with_nodes([none], [], fun([Node]) ->
        'nonode@nohost' = maps:get(node, call(Node, zulayefi, info, [])),
        ok = call(Node, erlang, apply, [fun() ->
            ok = pg2:create(g),
            Pid = spawn(zulayefi_cluster, hold, []),
            [ok = pg2:join(Name, Pid) || Name <- [g, g]],
            {ok, _} = net_kernel:start([zulayefi_cluster:name(1), shortnames]),
            ok = pg2:join(g, Pid),
            [Pid, Pid, Pid] = pg2:get_local_members(g),
            ok
        end, []]),
        soon(fun() -> is_formed([Node], [call(Node, erlang, node, [])]) end)
    end).

%% Each program of the set records, from the next generation on, until that is ended or a file is full.
recorded(_) ->
    Folder = string:trim(os:cmd("mktemp -d")),
    try
        with(2, [{recorded_bytes, 20000}], fun([One, {_, Name} = Two] = Nodes) ->
            ok = call(One, pg2, create, [g]),
            ok = call(Two, zulayefi, record, [Folder]),
            soon(fun() -> [Folder, Folder] =:= [maps:get(recording, call(Node, zulayefi, info, [])) || Node <- Nodes] end),
            formed(Nodes),
            ok = call(One, pg2, create, [h]),
            {ok, Files} = file:list_dir(Folder),
            2 = length(Files),
            [File] = [Each || Each <- Files, lists:prefix(atom_to_list(Name), Each)],
            {ok, Head} = file:read_file(filename:join(Folder, File)),
            {_, _} = binary:match(Head, <<" read">>),
            Pid = holder(One),
            soon(fun() ->
                ok = call(One, pg2, join, [h, Pid]),
                [none, none] =:= [maps:get(recording, call(Node, zulayefi, info, [])) || Node <- Nodes]
            end),
            ok = call(One, zulayefi, record, ["/proc/none"]),
            ok = call(One, pg2, create, [i]),
            soon(fun() -> [none, none] =:= [maps:get(recording, call(Node, zulayefi, info, [])) || Node <- Nodes] end),
            formed(Nodes)
        end),
        %% from the start on, also with a server that is started again
        with_nodes([zulayefi_cluster:name(1)], [{recording, Folder}], fun([{_, Name} = One]) ->
            ok = call(One, pg2, create, [g]),
            kill_server(One),
            ok = call(One, pg2, create, [h]),
            Folder = maps:get(recording, call(One, zulayefi, info, [])),
            {ok, Files} = file:list_dir(Folder),
            2 = length([Each || Each <- Files, lists:prefix(atom_to_list(Name), Each)])
        end)
    after
        file:del_dir_r(Folder)
    end.

%% What a program tells of its clock and of ended processes begins a generation.
notices(_) ->
    with(2, fun([One | _] = Nodes) ->
        ok = call(One, pg2, create, [g]),
        [begin
            Before = maps:get(formed, call(One, zulayefi, info, [])),
            call(One, erlang, apply, [fun() -> say(Notice) end, []]),
            ok = call(One, pg2, create, [Why]),
            soon(fun() -> #{why := #{Why := 1}, formed := After} = call(One, zulayefi, info, []), After > Before end),
            formed(Nodes)
         end || {Why, Notice} <- [{old_clock, {old_clock, 1 bsl 29}}, {many_ended, {many_ended, 1000000}}, {refused, {{refused, 1}, nobody}}]],
        [[g, many_ended, old_clock, refused]] = lists:usort([lists:sort(call(Node, pg2, which_groups, [])) || Node <- Nodes]),
        ok
    end).

%% The server of this node takes it for what its program says.
say(Notice) ->
    Server = whereis(zulayefi_server),
    [Port] = [Each || Each <- erlang:ports(), erlang:port_info(Each, connected) =:= {connected, Server}],
    Body = term_to_binary(Notice),
    Server ! {Port, {data, <<(byte_size(Body)):32, Body/binary>>}}.

%% The former pg2 says the same to calls one after another.
same_as_former(_) -> same(400).
same_for_long(_) -> same(10000).

same(Calls) ->
    with(3, fun(Nodes) ->
        [{ok, _} = call(Node, former_pg2, start, []) || Node <- Nodes],
        0 = zulayefi_load:differences(Nodes, Calls),
        ok
    end).

%% Workers change groups of all nodes at once: what is answered is seen by a read at another node, and in the end the tables are as each worker knows.
workers(_) -> workers(3, 2000).
workers_of_five(_) -> workers(5, 5000).
workers_of_eight(_) -> workers(8, 5000).

workers(Number, Ms) -> with(Number, fun(Nodes) -> [] = zulayefi_load:faults(Nodes, Ms) end).
