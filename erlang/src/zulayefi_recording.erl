%% @doc Recordings of generations: the file in which a program notes what it hears, and what stands at its head.
-module(zulayefi_recording).
-export([file/3, words/3, can_be_made/1, is_full/1]).

%% What the program takes of a label.
-define(LABEL_BYTES, 255).

%% @doc Each node and each generation have a file of their own. A server that is started again proposes the same numbers again, as another process.
-spec file(file:filename_all(), node(), zulayefi_view:generation()) -> file:filename_all().
file(Dir, Node, {Number, Proposer}) ->
    {Id, Serial} = zulayefi_term:number(Proposer),
    Name = io_lib:format("~ts-~b-~ts-~b.~b.~b.log", [Node, Number, node(Proposer), zulayefi_term:creation(Proposer), Id, Serial]),
    filename:join(Dir, lists:flatten(Name)).

%% @doc The words that make a program record. The label says which generation it is, of which one the table is that is brought, and how many
%% assignments of that one the node had read.
-spec words(file:filename_all(), zulayefi_view:generation(), {zulayefi_view:generation(), non_neg_integer()}) -> [unicode:chardata()].
words(File, Generation, {Brought, Read}) ->
    Label = io_lib:format("~ts brings ~ts, ~b read", [text(Generation), text(Brought), Read]),
    ["--log", File, "--label", shortened(unicode:characters_to_binary(Label))].

text({Number, none}) -> integer_to_list(Number);
text({Number, Pid}) ->
    {Id, Serial} = zulayefi_term:number(Pid),
    io_lib:format("~b of ~ts <~b.~b> ~b", [Number, node(Pid), Id, Serial, zulayefi_term:creation(Pid)]).

%% (cut between two characters)
shortened(Label) when byte_size(Label) =< ?LABEL_BYTES -> Label;
shortened(Label) ->
    case unicode:characters_to_binary(binary_part(Label, 0, ?LABEL_BYTES)) of
        {incomplete, Whole, _} -> Whole;
        Whole -> Whole
    end.

%% @doc Whether the program can make this file: a new one, in a folder that is there or is made.
-spec can_be_made(file:filename_all()) -> ok | {error, term()}.
can_be_made(File) ->
    case filelib:ensure_dir(File) of
        ok ->
            case file:open(File, [write, exclusive]) of
                {ok, Opened} -> ok = file:close(Opened), file:delete(File);
                Error -> Error
            end;
        Error -> Error
    end.

%% @doc Whether a file has as many bytes as one may have.
-spec is_full(file:filename_all()) -> boolean().
is_full(File) -> filelib:file_size(File) >= zulayefi_app:parameter(recorded_bytes).
