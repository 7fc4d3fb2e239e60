%%% The command `core_listing': writes a listing for each module that its words name.
-module(core_listing_command).

-export([run/1]).

-define(USAGE,
    "usage: core_listing [-o DIR] [--locations] [--open MODULE..] [-pa DIR] [-I DIR] [-D NAME[=VALUE]]\n"
    "                    [--apps APPLICATION..] [-r DIR..] [--files] [FILE.beam|FILE.erl|DIR ..]\n").

-record(words, {
    folder = "core" :: file:filename(),
    options = #{} :: core_listing:options(),
    inputs = [] :: [string()]
}).

%% @doc Answers the status: 0, 1 where a file has no listing by an error, or 2 where the words are no command.
-spec run([string()]) -> 0..2.
run(Arguments) ->
    try words(Arguments, #words{}) of
        #words{inputs = []} -> usage();
        #words{inputs = Inputs} = Words -> files(core_listing:inputs(lists:reverse(Inputs)), Words)
    catch
        throw:usage -> usage()
    end.

usage() ->
    io:put_chars(standard_error, ?USAGE),
    2.

words(["-o", Folder | Rest], Words) -> words(Rest, Words#words{folder = Folder});
words(["--locations" | Rest], Words) -> words(Rest, option(locations, true, Words));
words(["--open", Module | Rest], Words) -> open([Module | Rest], Words);
words(["-pa", Folder | Rest], Words) -> words(Rest, more(paths, Folder, Words));
words(["-I", Folder | Rest], Words) -> words(Rest, more(include, Folder, Words));
words(["-D", Macro | Rest], Words) -> words(Rest, more(define, macro(Macro), Words));
words([Word | Rest], #words{inputs = Inputs} = Words) -> words(Rest, Words#words{inputs = [Word | Inputs]});
words([], Words) -> Words.

%% The modules that are named up to the next option.
open([[$- | _] | _] = Rest, Words) -> words(Rest, Words);
open([Module | Rest], Words) -> open(Rest, more(open, list_to_atom(Module), Words));
open([], Words) -> Words.

option(Key, Value, #words{options = Options} = Words) -> Words#words{options = Options#{Key => Value}}.

more(Key, Value, #words{options = Options} = Words) -> option(Key, maps:get(Key, Options, []) ++ [Value], Words).

macro(Word) ->
    case string:split(Word, "=") of
        [Name] -> {Name, true};
        [Name, Value] -> {Name, term(Value)}
    end.

term(Text) ->
    case erl_scan:string(Text ++ ".") of
        {ok, Tokens, _} ->
            case erl_parse:parse_term(Tokens) of
                {ok, Term} -> Term;
                {error, _} -> throw(usage)
            end;
        {error, _, _} -> throw(usage)
    end.

files({error, Reason}, _) ->
    say("error: ", [Reason]),
    1;
files({ok, Files}, #words{folder = Folder, options = Options}) ->
    code:add_pathsz(lists:usort([filename:dirname(File) || File <- Files])),
    case filelib:ensure_path(Folder) of
        ok ->
            {Status, _} = lists:foldl(fun(File, State) -> write(File, Folder, Options, State) end, {0, #{}}, Files),
            Status;
        {error, Reason} ->
            say("error: ", [Folder, ": ", file:format_error(Reason)]),
            1
    end.

%% The state is the worst status, and where each module was listed from.
write(File, Folder, Options, {Status, Listed}) ->
    case core_listing:file(File, Options) of
        {ok, #{module := Module}} when is_map_key(Module, Listed) ->
            say("note: ", [File, ": left out: its module was listed from ", map_get(Module, Listed)]),
            {Status, Listed};
        {ok, #{module := Module} = Listing} ->
            [say("note: ", [File, ": ", Note]) || Note <- maps:get(notes, Listing)],
            {max(Status, written(Listing, Folder, Options)), Listed#{Module => File}};
        {left_out, Reason, Notes} ->
            [say("note: ", [File, ": ", Note]) || Note <- [["left out: ", Reason] | Notes]],
            {Status, Listed};
        {error, Reason} ->
            say("error: ", [File, ": ", Reason]),
            {1, Listed}
    end.

written(#{module := Module, text := Text, locations := Locations}, Folder, Options) ->
    Base = filename:join(Folder, file_name(Module)),
    Files = [{Base ++ ".core", Text} |
             [{Base ++ ".locations", locations(Locations)} || maps:get(locations, Options, false)]],
    case [{File, Reason} || {File, Bytes} <- Files, {error, Reason} <- [file:write_file(File, Bytes)]] of
        [] ->
            io:format("~ts~n", [Base ++ ".core"]),
            0;
        [{File, Reason} | _] ->
            say("error: ", [File, ": ", file:format_error(Reason)]),
            1
    end.

%% A term a line, for file:consult/1.
locations(Locations) ->
    ["%% coding: utf-8\n" |
     [unicode:characters_to_binary(io_lib:format("~0tp.\n",
          [{Id, File, Line, Column, Function, Silent}])) ||
         #{id := Id, file := File, line := Line, column := Column, function := Function, silent := Silent}
             <- Locations]].

%% Characters of a module's name that a file's name can't have everywhere are written in hexadecimal.
file_name(Module) -> lists:flatmap(fun safe/1, atom_to_list(Module)).

safe(C) when C =< $\s; C > $~; C =:= $/; C =:= $%; C =:= $\\; C =:= $: -> "%" ++ integer_to_list(C, 16);
safe(C) -> [C].

say(Sort, Text) -> io:put_chars(standard_error, [Sort, printable(Text), $\n]).

%% Reasons hold names of functions as bytes, and names of files as characters.
printable(Text) ->
    case unicode:characters_to_list(Text) of
        Characters when is_list(Characters) -> Characters;
        _ -> io_lib:format("~0tp", [Text])
    end.
