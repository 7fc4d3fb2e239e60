%% What a run says of itself on the standard error.
-module(podruksis_summary).

-export([check/2, build/2, printed/1, lines/2]).

-type run() :: #{
    modules := [podruksis_listings:listed()],
    parts := pos_integer(),
    findings := [podruksis_findings:finding()],
    %% how many findings aren't shown, by reason
    left_out := #{atom() => non_neg_integer()},
    errors := non_neg_integer(),
    %% milliseconds of a clock
    began := integer(), listed := integer(), checked := integer(), ended := integer()
}.

-spec check(run(), podruksis_options:options()) -> ok.
check(Run, Options) -> write(lines(Run, Options)).

-spec write([unicode:chardata()]) -> ok.
write(Lines) -> io:put_chars(standard_error, [["podruksis: ", Line, "\n"] || Line <- Lines]).

%% The lines of a run: one, or those of the statistics, or none.
-spec lines(run(), podruksis_options:options()) -> [unicode:chardata()].
lines(Run, #{statistics := true}) -> long(Run);
lines(_, #{quiet := true}) -> [];
lines(#{modules := Modules, findings := Findings, began := Began, ended := Ended}, _) ->
    [io_lib:format("~ts, ~w of them listed now; ~ts; ~ts s",
                   [count(length(Modules), "module"), new(Modules), count(length(Findings), "finding"), seconds(Began, Ended)])].

-spec long(run()) -> [unicode:chardata()].
long(#{modules := Modules, parts := Parts, findings := Findings, left_out := LeftOut, errors := Errors} = Run) ->
    #{began := Began, listed := Listed, checked := Checked, ended := Ended} = Run,
    Bytes = lists:sum([Size || #{entry := #{bytes := Size}} <- Modules]),
    [io_lib:format("listing: ~ts, ~w of them listed now, ~ts; ~ts s",
                   [count(length(Modules), "module"), new(Modules), count(Errors, "error"), seconds(Began, Listed)]),
     io_lib:format("checking: ~ts MiB in ~ts; ~ts s",
                   [decimal(Bytes * 10 div (1024 * 1024), 10), count(Parts, "part"), seconds(Listed, Checked)]),
     io_lib:format("findings: ~w; ~ts", [length(Findings), by_kind(Findings)]),
     io_lib:format("left out: ~w by attributes, ~w by options, ~w of the context, ~w of functions that are known, "
                   "~w of functions of modules that weren't handed in together",
                   [maps:get(Why, LeftOut, 0) || Why <- [attribute, option, context, known, elsewhere]]),
     io_lib:format("altogether: ~ts s", [seconds(Began, Ended)])].

-spec by_kind([podruksis_findings:finding()]) -> unicode:chardata().
by_kind(Findings) ->
    lists:join(", ", [io_lib:format("~w ~w", [length([Kind || #{kind := Found} <- Findings, Found =:= Kind]), Kind])
                      || Kind <- podruksis_options:kinds()]).

-spec build(#{modules := [podruksis_listings:listed()], table := file:filename(), began := integer(), ended := integer()},
            podruksis_options:options()) -> ok.
build(_, #{quiet := true}) -> ok;
build(#{modules := Modules, table := Table, began := Began, ended := Ended}, _) ->
    write([io_lib:format("~ts: the table of ~ts; ~ts s", [Table, count(length(Modules), "module"), seconds(Began, Ended)])]).

-spec new([podruksis_listings:listed()]) -> non_neg_integer().
new(Modules) -> length([Module || #{new := true} = Module <- Modules]).

-spec count(non_neg_integer(), string()) -> unicode:chardata().
count(1, Thing) -> ["1 ", Thing];
count(Number, Thing) -> [integer_to_list(Number), " ", Thing, "s"].

-spec seconds(integer(), integer()) -> string().
seconds(From, To) -> decimal((To - From) div 100, 10).

%% A number of tenths.
-spec decimal(integer(), 10) -> string().
decimal(Tenths, Ten) -> lists:flatten(io_lib:format("~w.~w", [Tenths div Ten, Tenths rem Ten])).

%% A text on one line, in which a name may have any characters.
-spec printed(unicode:chardata()) -> unicode:chardata().
printed(Text) ->
    case unicode:characters_to_list(Text) of
        Characters when is_list(Characters) -> [character(Character) || Character <- Characters];
        _ -> io_lib:format("~0tp", [Text])
    end.

-spec character(char()) -> unicode:chardata().
character(Character) when Character < 32; Character =:= 127 -> io_lib:format("\\x~2.16.0B", [Character]);
character(Character) -> Character.
