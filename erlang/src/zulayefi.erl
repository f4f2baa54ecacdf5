%% @doc Looks at this node's part of a set, records it, and stops it. Process groups themselves are those of the module pg2.
-module(zulayefi).
-export([info/0, record/1, stop/0]).

%% @doc How this node and its set are. `members' and `names' are bytes of what this node brings.
-spec info() -> #{atom() => term()}.
info() ->
    #{program := OsPid} = Info = zulayefi_calls:request(info),
    Info#{memory => memory(OsPid)}.

%% @doc From the next generation on, which begins at once, the program of each node of the set writes what it hears into a new file of this folder, on
%% its own machine; with `none' none does.
-spec record(file:filename_all() | none) -> ok.
record(Dir) -> zulayefi_calls:request({record, Dir}).

%% @doc Stops the application on this node. Its members leave the groups of the others.
-spec stop() -> ok | {error, term()}.
stop() -> application:stop(zulayefi).

%% The bytes of memory that the program takes of the machine.
memory(none) -> none;
memory(OsPid) ->
    case file:read_file("/proc/" ++ integer_to_list(OsPid) ++ "/statm") of
        {ok, Text} -> 4096 * binary_to_integer(lists:nth(2, string:lexemes(Text, " ")));
        {error, _} -> none
    end.
