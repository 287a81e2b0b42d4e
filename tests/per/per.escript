#!/usr/bin/env escript
%% The second PER program: Erlang's asn1 application on clause 7 of T.125.
%%
%%   per.escript SPEC DIR    compiles SPEC into DIR, then answers each line of standard input with a line:
%%
%%   read HEX                the message, where these octets are its encoding; else no. Erlang's decoder is lax, so a message that
%%                           is not encoded again as the same octets is no.
%%   write NAME FIELD ..     the octets in hexadecimal; no where Erlang refuses the message.
%%
%% A message is its name and its fields with a space between: a number, a name of an enumeration, - where an OPTIONAL is absent,
%% [1,2] for a list, #hex for a string.
-mode(compile).

-define(PER, 'MCS-PROTOCOL').
-define(TOP, 'DomainMCSPDU').

main([Spec, Dir]) ->
    ok = asn1ct:compile(Spec, [per, {outdir, Dir}]),
    true = code:add_patha(Dir),
    ok = io:setopts([binary, {encoding, latin1}]),
    answer_lines().

answer_lines() ->
    case io:get_line("") of
        eof -> ok;
        Line ->
            Words = string:lexemes(string:trim(binary_to_list(Line)), " "),
            io:put_chars([answer(Words), "\n"]),
            answer_lines()
    end.

answer(["read"]) -> read(<<>>);
answer(["read", Hex]) -> read(octets(Hex));
answer(["write", Name | Fields]) ->
    case encode({list_to_atom(string:lowercase(Name)), list_to_tuple([list_to_atom(Name) | [field(F) || F <- Fields]])}) of
        {ok, Octets} -> hex(Octets);
        no -> "no"
    end.

read(Octets) ->
    try ?PER:decode(?TOP, Octets) of
        {ok, Message} ->
            case encode(Message) of
                {ok, Octets} -> text(Message);
                _ -> "no"
            end;
        {error, _} -> "no"
    catch _:_ -> "no"
    end.

encode(Message) ->
    try ?PER:encode(?TOP, Message) of
        {ok, Octets} -> {ok, Octets};
        {error, _} -> no
    catch _:_ -> no
    end.

field("-") -> asn1_NOVALUE;
field("#" ++ Hex) -> octets(Hex);
field("[" ++ Rest) -> [list_to_integer(N) || N <- string:lexemes(Rest, ",]")];
field([C | _] = Digits) when C >= $0, C =< $9 -> list_to_integer(Digits);
field(Name) -> list_to_atom(Name).

text({_, Record}) ->
    [Name | Fields] = tuple_to_list(Record),
    lists:join(" ", [atom_to_list(Name) | [field_text(F) || F <- Fields]]).

field_text(asn1_NOVALUE) -> "-";
field_text(F) when is_binary(F) -> ["#", hex(F)];
field_text(F) when is_integer(F) -> integer_to_list(F);
field_text(F) when is_atom(F) -> atom_to_list(F);
field_text(F) when is_list(F) -> ["[", lists:join(",", [field_text(I) || I <- F]), "]"];
field_text(F) -> io_lib:format("~w", [F]).

octets(Hex) -> binary:decode_hex(list_to_binary(Hex)).
hex(Octets) -> string:lowercase(binary:encode_hex(Octets)).
