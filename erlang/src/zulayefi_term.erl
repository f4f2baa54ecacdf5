%% @doc Names and processes as the program has them.
%%
%% The program knows atoms, binaries, integers of 64 bits, tuples and proper lists. Another name goes to it in a tuple, as the bytes that
%% Erlang writes for it. It numbers processes as Erlang does, in 28 bits, but gives each creation 1. So a process with another creation stands
%% for a real one, and no table is needed.
-module(zulayefi_term).
-export([is_name/1, wrapped/1, unwrapped/1, bytes_of/1]).
-export([creation/1, number/1, fits/1, bytes_of_pid/1, to_program/1, to_program_at_end/1, from_program/2]).
-export_type([wrapped/0, creations/0]).

-define(WRITTEN, [{minor_version, 2}]).
%% What the program takes of a name is 1,024 bytes and 32 levels. A wrapped one has 14 bytes more than its own.
-define(NAME_BYTES, 1000).
-define(PLAIN_BYTES, 1024).
-define(LEVELS, 30).

-type wrapped() :: term().
-type creations() :: #{binary() => non_neg_integer()}.

%% @doc Whether a term can be a name: at most 1,000 bytes as Erlang writes it.
-spec is_name(term()) -> boolean().
is_name(Name) -> byte_size(erlang_bytes(Name)) =< ?NAME_BYTES.

%% @doc A name as the program is told it.
-spec wrapped(term()) -> wrapped().
wrapped(Name) ->
    case is_plain(Name, ?LEVELS) andalso bytes_of(Name) =< ?PLAIN_BYTES of
        true -> Name;
        false -> {'$erlang', erlang_bytes(Name)}
    end.

-spec unwrapped(wrapped()) -> term().
unwrapped({'$erlang', Bytes}) -> binary_to_term(Bytes);
unwrapped(Name) -> Name.

erlang_bytes(Name) -> term_to_binary(Name, [deterministic | ?WRITTEN]).

is_plain({'$erlang', _}, _) -> false;
is_plain(Term, _) when is_atom(Term); is_binary(Term); Term =:= [] -> true;
is_plain(Term, _) when is_integer(Term) -> Term >= -(1 bsl 63) andalso Term < 1 bsl 63;
is_plain(Term, Levels) when is_tuple(Term), Levels > 0 -> are_plain(tuple_to_list(Term), Levels - 1);
is_plain([_ | _] = Term, Levels) when Levels > 0 -> are_plain(Term, Levels - 1);
is_plain(_, _) -> false.

are_plain([], _) -> true;
are_plain([First | Rest], Levels) -> is_plain(First, Levels) andalso are_plain(Rest, Levels);
are_plain(_, _) -> false.

%% @doc How many bytes the program writes for a plain term. It has no short form for a list of bytes.
-spec bytes_of(wrapped()) -> pos_integer().
bytes_of(Term) when is_atom(Term) -> atom_head(byte_size(atom_to_binary(Term)));
bytes_of(Term) when is_binary(Term) -> 5 + byte_size(Term);
bytes_of(Term) when is_integer(Term), Term >= 0, Term < 256 -> 2;
bytes_of(Term) when is_integer(Term), Term >= -(1 bsl 31), Term < 1 bsl 31 -> 5;
bytes_of(Term) when is_integer(Term) -> 11;
bytes_of([]) -> 1;
bytes_of(Term) when is_list(Term) -> 6 + bytes_of_all(Term);
bytes_of(Term) when is_tuple(Term) -> 5 + bytes_of_all(tuple_to_list(Term)).

bytes_of_all([]) -> 0;
bytes_of_all([First | Rest]) -> bytes_of(First) + bytes_of_all(Rest).

atom_head(Size) when Size < 256 -> 2 + Size;
atom_head(Size) -> 3 + Size.

%% @doc The creation of a process' node.
-spec creation(pid()) -> non_neg_integer().
creation(Pid) ->
    Bytes = term_to_binary(Pid, ?WRITTEN),
    binary:decode_unsigned(binary_part(Bytes, byte_size(Bytes), -4)).

%% @doc Whether the program can number a process: 15 bits of its ID, 13 of its Serial.
-spec fits(pid()) -> boolean().
fits(Pid) ->
    {Id, Serial} = number(Pid),
    Id < 1 bsl 15 andalso Serial < 1 bsl 13.

%% @doc The ID and Serial of a process.
-spec number(pid()) -> {non_neg_integer(), non_neg_integer()}.
number(Pid) ->
    Bytes = term_to_binary(Pid, ?WRITTEN),
    <<Id:32, Serial:32, _:32>> = binary_part(Bytes, byte_size(Bytes), -12),
    {Id, Serial}.

%% @doc How many bytes each process of this node takes.
-spec bytes_of_pid(pid()) -> pos_integer().
bytes_of_pid(Pid) -> byte_size(term_to_binary(Pid, ?WRITTEN)) - 1.

%% @doc A term with processes of this node, as the program reads it.
-spec to_program(term()) -> iodata().
to_program(Term) -> with_creations(term_to_binary(Term, ?WRITTEN), #{atom_to_binary(node()) => 1}).

%% @doc The same of a term that ends with a process of this node, and has no other.
-spec to_program_at_end(term()) -> iodata().
to_program_at_end(Term) ->
    Bytes = term_to_binary(Term, ?WRITTEN),
    [binary_part(Bytes, 0, byte_size(Bytes) - 4), <<1:32>>].

%% @doc What the program wrote, with real processes: a node has the creation that stands at its name.
-spec from_program(binary(), creations()) -> term().
from_program(Bytes, Creations) -> binary_to_term(iolist_to_binary(with_creations(Bytes, Creations))).

with_creations(<<131, Terms/binary>> = All, Creations) -> pieces(Terms, 1, 0, All, Creations).

%% Terms stand one behind another, the parts of a tuple or list behind its head. `At' is the place of the next in all bytes, `From' the end of the last
%% creation: what is between two creations is one piece.
pieces(<<97, _, Rest/binary>>, At, From, All, Cs) -> pieces(Rest, At + 2, From, All, Cs);
pieces(<<98, _:32, Rest/binary>>, At, From, All, Cs) -> pieces(Rest, At + 5, From, All, Cs);
pieces(<<104, _, Rest/binary>>, At, From, All, Cs) -> pieces(Rest, At + 2, From, All, Cs);
pieces(<<119, Size, _:Size/binary, Rest/binary>>, At, From, All, Cs) -> pieces(Rest, At + 2 + Size, From, All, Cs);
pieces(<<88, 119, Size, Node:Size/binary, _:96, Rest/binary>>, At, From, All, Cs) -> creation(At + 11 + Size, Node, Rest, From, All, Cs);
pieces(<<88, 118, Size:16, Node:Size/binary, _:96, Rest/binary>>, At, From, All, Cs) -> creation(At + 12 + Size, Node, Rest, From, All, Cs);
pieces(<<108, _:32, Rest/binary>>, At, From, All, Cs) -> pieces(Rest, At + 5, From, All, Cs);
pieces(<<106, Rest/binary>>, At, From, All, Cs) -> pieces(Rest, At + 1, From, All, Cs);
pieces(<<109, Size:32, _:Size/binary, Rest/binary>>, At, From, All, Cs) -> pieces(Rest, At + 5 + Size, From, All, Cs);
pieces(<<107, Size:16, _:Size/binary, Rest/binary>>, At, From, All, Cs) -> pieces(Rest, At + 3 + Size, From, All, Cs);
pieces(<<110, Size, _, _:Size/binary, Rest/binary>>, At, From, All, Cs) -> pieces(Rest, At + 3 + Size, From, All, Cs);
pieces(<<118, Size:16, _:Size/binary, Rest/binary>>, At, From, All, Cs) -> pieces(Rest, At + 3 + Size, From, All, Cs);
pieces(<<105, _:32, Rest/binary>>, At, From, All, Cs) -> pieces(Rest, At + 5, From, All, Cs);
pieces(<<>>, At, From, All, _) -> [binary_part(All, From, At - From)].

creation(At, Node, Rest, From, All, Cs) -> [binary_part(All, From, At - From), <<(map_get(Node, Cs)):32>> | pieces(Rest, At + 4, At + 4, All, Cs)].
