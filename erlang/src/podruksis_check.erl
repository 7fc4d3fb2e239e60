%% One check of all listings: part after part, each by one run of the program.
-module(podruksis_check).

-export([run/3, limits/0]).

-export_type([setting/0]).

-type setting() :: #{
    program := file:filename(),
    workers := 1..64,
    %% where the table of this check stands, if the program keeps tables
    place := none | podruksis_tables:place(),
    fresh := boolean(),
    say := fun((unicode:chardata()) -> term())
}.

%% The lines of all parts, and what there is to be noted.
-type answer() :: {ok, [podruksis_findings:line()], [unicode:chardata()]} | {error, unicode:chardata()}.

%% The table to begin with, which may be none, and the name of the new one.
-type tables() :: {[file:filename()], file:filename()}.

%% What the program takes at once.
-spec limits() -> podruksis_parts:limits().
limits() -> #{files => 1024, bytes => 64 * 1024 * 1024}.

%% Checks the parts. Record is kept beside the table.
-spec run([[podruksis_listings:listed()]], setting(), map()) -> answer().
run(Parts, #{place := none} = Setting, _) -> parts(Parts, 1, length(Parts), none, Setting, []);
run(Parts, #{place := Place, fresh := Fresh} = Setting, Record) ->
    Modules = [Module || Part <- Parts, #{module := Module} <- Part],
    case podruksis_tables:begin_from(Place, Modules, Fresh) of
        {ok, Table} -> with_table(Parts, Table, Modules, Setting, Record);
        {error, Reason} -> {error, Reason}
    end.

%% A check that begins with a table and leaves a new one. Where the table of the
%% last run is damaged the check begins without it.
-spec with_table([[podruksis_listings:listed()]], [file:filename()], [module()], setting(), map()) -> answer().
with_table(Parts, Table, Modules, #{place := #{table := Own} = Place} = Setting, Record) ->
    New = Own ++ ".new." ++ os:getpid(),
    _ = filelib:ensure_dir(New),
    Answer = parts(Parts, 1, length(Parts), {Table, New}, Setting, []),
    case Answer of
        {ok, _, _} ->
            case podruksis_tables:made(New, Place, Modules, Record) of
                ok -> Answer;
                {error, Reason} -> {error, Reason}
            end;
        {table_fault, Line} when Table =:= [Own] ->
            _ = file:delete(Own ++ ".record"),
            again(run(Parts, Setting, Record), ["the table of the last run isn't used: ", Line]);
        {table_fault, Line} ->
            {error, ["dialyze doesn't take the table (", Line, "): podruksis build makes it again"]};
        {error, Reason} ->
            _ = file:delete(New),
            {error, Reason}
    end.

-spec again(answer(), unicode:chardata()) -> answer().
again({ok, Lines, Notes}, Note) -> {ok, Lines, [Note | Notes]};
again({error, Reason}, _) -> {error, Reason}.

%% The parts from one on, with the lines so far, the last first. Tables are the list of the table to begin with, which
%% may be empty, and the name of the new one.
-spec parts([[podruksis_listings:listed()]], pos_integer(), pos_integer(), none | tables(), setting(),
            [[podruksis_findings:line()]]) -> answer() | {table_fault, binary()}.
parts([], _, _, _, _, Lines) -> {ok, lists:append(lists:reverse(Lines)), []};
parts([Part | Parts], Number, Count, Tables, Setting, Lines) ->
    #{program := Program, say := Say} = Setting,
    Text = doing(length(Part), Number, Count),
    Say(Text),
    case podruksis_program:run(Program, words(Part, Tables, Setting), fun() -> Say(Text) end) of
        {report, Report} ->
            case podruksis_findings:read(Report) of
                {ok, Read} -> parts(Parts, Number + 1, Count, next(Tables), Setting, [Read | Lines]);
                {error, Line} -> {error, ["dialyze printed a line that is none of a report: ", Line]}
            end;
        {refused, Line} -> {error, refused(Line, Part)};
        {table_fault, Line} when Tables =:= none -> {error, ["dialyze: ", Line]};
        {table_fault, Line} -> {table_fault, Line};
        {failed, Reason} -> {error, Reason}
    end.

-spec doing(non_neg_integer(), pos_integer(), pos_integer()) -> unicode:chardata().
doing(Modules, _, 1) -> io_lib:format("checking ~w modules", [Modules]);
doing(Modules, Number, Count) -> io_lib:format("checking ~w modules, part ~w of ~w", [Modules, Number, Count]).

-spec words([podruksis_listings:listed()], none | tables(), setting()) -> [file:filename()].
words(Part, Tables, #{workers := Workers}) ->
    Files = [Listing || #{entry := #{listing := Listing}} <- Part],
    ["check"] ++ table_words(Tables) ++ ["--workers", integer_to_list(Workers) | Files].

-spec table_words(none | tables()) -> [file:filename()].
table_words(none) -> [];
table_words({Table, New}) -> lists:append([["--plt", File] || File <- Table]) ++ ["--out", New].

%% The next part begins with the table of this one.
-spec next(none | tables()) -> none | tables().
next(none) -> none;
next({_, New}) -> {[New], New}.

%% A refusal, with the input whose listing it is.
-spec refused(binary(), [podruksis_listings:listed()]) -> unicode:chardata().
refused(Line, Part) ->
    Inputs = [Input || #{input := Input, entry := #{listing := Listing}} <- Part,
                       string:prefix(Line, unicode:characters_to_binary([Listing, ":"])) =/= nomatch],
    case Inputs of
        [Input] -> ["dialyze refuses the listing of ", Input, ": ", Line];
        _ -> ["dialyze refuses the listings: ", Line]
    end.
