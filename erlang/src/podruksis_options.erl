%% The words of the command, read to options.
%%
%% A word that begins with a minus is an option and ends the list that stands
%% before it: `--apps kernel stdlib --quiet m.beam' has two applications and one
%% file. What stands behind `--' is a file or a folder, whatever it begins with.
-module(podruksis_options).

-export([parse/1, default/0, usage/0, kinds/0]).

-export_type([options/0, kind/0, word/0, format/0]).

%% The kinds of findings, by the names of the options that leave them out.
-type kind() :: no_return | no_match | no_fail_call | no_unused | no_unknown.

%% What is to be read: a file or a folder, a tree of folders, an application.
-type word() :: {file | tree | application, string()}.

-type format() :: text | json | sarif | github.

-type options() :: #{
    command := check | build,
    words := [word()],
    %% what is handed in with the others and not reported on
    context := [word()],
    %% applications whose exported functions aren't unknown
    known := [string()],
    dialyze := default | string(),
    cache := default | string(),
    table := default | string(),
    output := standard | string(),
    %% lists everything anew
    fresh := boolean(),
    workers := default | 1..64,
    paths := [string()],
    include := [string()],
    define := [{atom(), term()}],
    open := [module()],
    %% kinds that are left out
    silent := [kind()],
    quiet := boolean(),
    statistics := boolean(),
    format := format(),
    colour := auto | always | never
}.

%% What the words mean that stand next: a list that an option began, or files.
-type place() :: files | apps | trees | paths | open | context | known.

-spec kinds() -> [kind()].
kinds() -> [no_return, no_match, no_fail_call, no_unused, no_unknown].

-spec default() -> options().
default() ->
    #{command => check, words => [], context => [], known => [], dialyze => default, cache => default,
      table => default, output => standard, fresh => false, workers => default, paths => [], include => [],
      define => [], open => [], silent => [], quiet => false, statistics => false, format => text,
      colour => auto}.

%% The options that the words say, or why they say none.
-spec parse([string()]) -> {ok, options()} | help | {error, unicode:chardata()}.
parse(["build" | Words]) -> parse(Words, (default())#{command := build});
parse(Words) -> parse(Words, default()).

-spec parse([string()], options()) -> {ok, options()} | help | {error, unicode:chardata()}.
parse(Words, Options) ->
    try
        {ok, complete(words(Words, files, Options))}
    catch
        throw:help -> help;
        throw:{wrong, Text} -> {error, Text}
    end.

%% Lists were gathered from their ends.
-spec complete(options()) -> options().
complete(Options) ->
    Ordered = lists:foldl(fun(Key, Map) -> maps:update_with(Key, fun lists:reverse/1, Map) end, Options,
                          [words, context, known, paths, include, define, open]),
    maps:get(words, Ordered) =/= [] orelse wrong("no file, folder or application is named"),
    Ordered#{silent := lists:usort(maps:get(silent, Ordered))}.

-spec words([string()], place(), options()) -> options().
words([], _, Options) -> Options;
words(["--" | Words], _, Options) -> lists:foldl(fun(Word, Map) -> listed(files, Word, Map) end, Options, Words);
words([[$- | _] = Word | Words], _, Options) -> option(Word, Words, Options);
words([Word | Words], Place, Options) -> words(Words, Place, listed(Place, Word, Options)).

%% One word of a list.
-spec listed(place(), string(), options()) -> options().
listed(_, "", _) -> wrong("a name is empty");
listed(files, Word, Options) -> add(words, {file, Word}, Options);
listed(trees, Word, Options) -> add(words, {tree, Word}, Options);
listed(apps, Word, Options) -> add(words, {application, Word}, Options);
listed(context, Word, Options) -> add(context, there(Word), Options);
listed(open, Word, Options) -> add(open, list_to_atom(Word), Options);
listed(known, Word, Options) -> add(known, Word, Options);
listed(paths, Word, Options) -> add(paths, Word, Options).

%% A file or a folder where there is one, else an application.
-spec there(string()) -> word().
there(Word) ->
    case filelib:is_file(Word) of
        true -> {file, Word};
        false -> {application, Word}
    end.

%% An option, with the words behind it.
-spec option(string(), [string()], options()) -> options().
option("--help", _, _) -> throw(help);
option("--files", Words, Options) -> words(Words, files, Options);
option("--apps", Words, Options) -> words(Words, apps, Options);
option("-r", Words, Options) -> words(Words, trees, Options);
option("-pa", Words, Options) -> words(Words, paths, Options);
option("--open", Words, Options) -> words(Words, open, Options);
option("--context", Words, Options) -> words(Words, context, Options);
option("--known", Words, Options) -> words(Words, known, Options);
option("--fresh", Words, Options) -> words(Words, files, Options#{fresh := true});
option("--quiet", Words, Options) -> words(Words, files, Options#{quiet := true});
option("--statistics", Words, Options) -> words(Words, files, Options#{statistics := true});
option("--no-unknown", Words, Options) -> words(Words, files, add(silent, no_unknown, Options));
option("-W" ++ Kind, Words, Options) -> words(Words, files, add(silent, kind(Kind), Options));
option("-I", Words, Options) -> valued("-I", Words, Options);
option("-I" ++ Dir, Words, Options) -> valued("-I", [Dir | Words], Options);
option("-D", Words, Options) -> valued("-D", Words, Options);
option("-D" ++ Macro, Words, Options) -> valued("-D", [Macro | Words], Options);
option(Name, Words, Options) -> valued(Name, Words, Options).

%% An option with one value.
-spec valued(string(), [string()], options()) -> options().
valued(Name, Words, Options) ->
    case lists:member(Name, ["-I", "-D", "--dialyze", "--cache", "--plt", "--output", "-o", "--workers", "--format",
                             "--colour", "--color"]) of
        false -> wrong([Name, ": no such option"]);
        true when Words =:= []; hd(Words) =:= "" -> wrong([Name, ": its value is missing"]);
        true -> words(tl(Words), files, value(Name, hd(Words), Options))
    end.

-spec value(string(), string(), options()) -> options().
value("-I", Dir, Options) -> add(include, Dir, Options);
value("-D", Macro, Options) -> add(define, macro(Macro), Options);
value("--dialyze", Path, Options) -> Options#{dialyze := Path};
value("--cache", Dir, Options) -> Options#{cache := Dir};
value("--plt", File, Options) -> Options#{table := File};
value("--output", File, Options) -> Options#{output := File};
value("-o", File, Options) -> Options#{output := File};
value("--workers", Number, Options) -> Options#{workers := workers(Number)};
value("--format", Name, Options) -> Options#{format := one_of("--format", Name, [text, json, sarif, github])};
value("--colour", Name, Options) -> Options#{colour := one_of("--colour", Name, [auto, always, never])};
value("--color", Name, Options) -> value("--colour", Name, Options).

-spec workers(string()) -> 1..64.
workers(Text) ->
    case string:to_integer(Text) of
        {Number, ""} when Number >= 1, Number =< 64 -> Number;
        _ -> wrong(["--workers: ", Text, " is no number from 1 to 64"])
    end.

-spec one_of(string(), string(), [atom()]) -> atom().
one_of(Option, Name, Names) ->
    case [Known || Known <- Names, atom_to_list(Known) =:= Name] of
        [Known] -> Known;
        [] -> wrong([Option, ": ", Name, " is none of ", lists:join(", ", [atom_to_list(Known) || Known <- Names])])
    end.

-spec kind(string()) -> kind().
kind(Name) -> one_of("-W", Name, kinds()).

%% A macro with a value, an Erlang term, or with true.
-spec macro(string()) -> {atom(), term()}.
macro(Text) ->
    case string:split(Text, "=") of
        ["" | _] -> wrong(["-D: ", Text, " names no macro"]);
        [Name] -> {list_to_atom(Name), true};
        [Name, Value] -> {list_to_atom(Name), term(Text, Value)}
    end.

-spec term(string(), string()) -> term().
term(Text, Value) ->
    parsed(erl_scan:string(Value ++ "."), Text).

-spec parsed(term(), string()) -> term().
parsed({ok, Tokens, _}, Text) ->
    case erl_parse:parse_term(Tokens) of
        {ok, Term} -> Term;
        {error, _} -> wrong(["-D: the value of ", Text, " is no Erlang term"])
    end;
parsed(_, Text) -> wrong(["-D: the value of ", Text, " is no Erlang term"]).

-spec add(atom(), term(), options()) -> options().
add(Key, Value, Options) -> maps:update_with(Key, fun(Values) -> [Value | Values] end, Options).

-spec wrong(unicode:chardata()) -> no_return().
wrong(Text) -> throw({wrong, Text}).

-spec usage() -> unicode:chardata().
usage() ->
    "usage: podruksis [OPTION..] [--apps A..] [-r DIR..] [FILE|DIR ..]\n"
    "       podruksis build [OPTION..] [--apps A..] [-r DIR..] [FILE|DIR ..]\n"
    "\n"
    "Lists beams and sources that changed, checks all of them together, and prints\n"
    "what can't work. FILE is a beam or an .erl file; DIR has beams, or sources.\n"
    "build makes the table of applications that later runs are checked against.\n"
    "\n"
    "  --apps A..           applications of this Erlang, by name\n"
    "  --files W..          files and folders, behind a list of something else\n"
    "  -r DIR..             folders with all folders in them\n"
    "  --context W..        files, folders or applications that are handed in with\n"
    "                       the others, and not reported on\n"
    "  --known A..          applications whose exported functions aren't unknown\n"
    "  --no-unknown         no unknown functions, as -Wno_unknown\n"
    "  -Wno_return -Wno_match -Wno_fail_call -Wno_unused -Wno_unknown\n"
    "                       leave findings of a kind out\n"
    "  --open M..           modules whose functions may be replaced at run time\n"
    "  -pa DIR..            folders for the path of code\n"
    "  -I DIR, -D NAME[=V]  folders of included files and macros, for sources\n"
    "  --format F           text, json, sarif or github\n"
    "  --output FILE        the findings go into FILE, not to the standard output\n"
    "  --colour C           auto, always or never\n"
    "  --quiet              only findings and errors\n"
    "  --statistics         what was done, with counts and seconds\n"
    "  --dialyze PATH       the program; else $PODRUKSIS_DIALYZE, else dialyze on the path\n"
    "  --workers N          threads that solve, 1 to 64\n"
    "  --cache DIR          where listings are kept\n"
    "  --fresh              lists everything anew\n"
    "  --plt FILE           the table of build\n"
    "\n"
    "It ends with 0 where nothing was found, 1 after an error, 2 where something was.\n".
