%% The command for Erlang teams: lists what changed, checks all of it with
%% `dialyze', and prints what was found where people look for it.
%%
%% It ends with 0 where nothing was found, 2 where something was, and 1 after an
%% error: an input that can't be listed, a program that is missing, crashed or
%% refused a listing. What was found is printed in spite of inputs with errors.
-module(podruksis).

-export([main/1, run/1]).

-export_type([outcome/0]).

%% How a run ended, and how many findings it printed.
-type outcome() :: {0..2, non_neg_integer()}.

%% What a run knows from its options.
-type run() :: #{
    options := podruksis_options:options(),
    program := file:filename(),
    folder := file:filename(),
    cache := podruksis_cache:cache(),
    progress := pid(),
    began := integer()
}.

%% The command with its words.
-spec main([string()]) -> no_return().
main(Words) ->
    _ = io:setopts(standard_io, [{encoding, unicode}]),
    _ = io:setopts(standard_error, [{encoding, unicode}]),
    halt(command(podruksis_options:parse(Words))).

-spec command({ok, podruksis_options:options()} | help | {error, unicode:chardata()}) -> 0..2.
command({ok, Options}) ->
    {Status, _} = run(Options),
    Status;
command(help) ->
    io:put_chars(podruksis_options:usage()),
    0;
command({error, Text}) ->
    say("error: ", Text),
    io:put_chars(standard_error, podruksis_options:usage()),
    1.

%% A run with its options; errors and notes go to the standard error.
-spec run(podruksis_options:options()) -> outcome().
run(#{quiet := Quiet} = Options) ->
    Progress = podruksis_progress:start(Quiet),
    try
        begin_run(Options, Progress)
    catch
        throw:{wrong, Text} ->
            podruksis_progress:stop(Progress),
            say("error: ", Text),
            {1, 0}
    end.

-spec begin_run(podruksis_options:options(), pid()) -> outcome().
begin_run(#{command := Command, dialyze := Where, cache := Cache, fresh := Fresh} = Options, Progress) ->
    Folder = folder(Cache),
    Run = #{options => Options, program => right(podruksis_program:find(Where)), folder => Folder,
            cache => right(podruksis_cache:open(Folder, podruksis_listings:options(Options), Fresh)),
            progress => Progress, began => now_()},
    case Command of
        check -> check(Run);
        build -> build(Run)
    end.

%% The folder for what is kept.
-spec folder(default | string()) -> file:filename().
folder(default) ->
    try filename:basedir(user_cache, "podruksis") catch _:_ -> wrong("there is no home for a cache: --cache DIR says where") end;
folder(Folder) -> filename:absname(Folder).

%% What is to be listed, and a listing of each.
-spec listed(run()) -> #{modules := [podruksis_listings:listed()], left := [binary()], errors := non_neg_integer()}.
listed(#{options := Options, cache := Cache, progress := Progress}) ->
    #{words := Words, context := Context, quiet := Quiet} = Options,
    Reported = right(podruksis_listings:inputs(Words)),
    Others = right(podruksis_listings:inputs(Context)) -- Reported,
    Inputs = [{report, Input} || Input <- Reported] ++ [{context, Input} || Input <- Others],
    Say = fun(Count, Total) -> podruksis_progress:say(Progress, io_lib:format("listed ~w of ~w modules that changed", [Count, Total])) end,
    #{modules := Modules, notes := Notes, errors := Errors} =
        podruksis_listings:list(Inputs, podruksis_listings:options(Options), Cache, Say),
    podruksis_progress:pause(Progress),
    Quiet orelse [say("note: ", [shown(Input), ": ", Note]) || {Input, Note} <- Notes],
    [say("error: ", [shown(Input), ": ", Error]) || {Input, Error} <- Errors],
    Modules =/= [] orelse wrong("there is no module to check"),
    #{modules => Modules, left => left(Inputs, Modules), errors => length(Errors)}.

%% The names of the modules that aren't handed in, though they were asked for:
%% nothing is known of their functions, which doesn't make them unknown.
-spec left([{report | context, file:filename()}], [podruksis_listings:listed()]) -> [binary()].
left(Inputs, Modules) ->
    Names = [unicode:characters_to_binary(filename:basename(Input, filename:extension(Input))) || {_, Input} <- Inputs],
    lists:usort(Names) -- [atom_to_binary(Module) || #{module := Module} <- Modules].

%% The command without a name: lists, checks, prints.
-spec check(run()) -> outcome().
check(#{options := #{words := Words, context := Context, table := Table}} = Run) ->
    #{modules := Modules, left := Left, errors := Errors} = listed(Run),
    Listed = now_(),
    Parts = parts(Modules, Run),
    Place = place({Words, Context, Table}, Run),
    Lines = checked(Parts, Place, #{}, Run),
    Checked = now_(),
    {Findings, Counts} = findings(Lines, Modules, Left, length(Parts) > 1, Run),
    #{progress := Progress} = Run,
    podruksis_progress:stop(Progress),
    print(Findings, Run),
    podruksis_summary:check(#{modules => Modules, parts => length(Parts), findings => Findings, left_out => Counts,
                              errors => Errors, began => maps:get(began, Run), listed => Listed, checked => Checked,
                              ended => now_()}, maps:get(options, Run)),
    {status(Errors, Findings), length(Findings)}.

-spec status(non_neg_integer(), [podruksis_findings:finding()]) -> 0..2.
status(0, []) -> 0;
status(0, _) -> 2;
status(_, _) -> 1.

%% The parts of the run, with what is to be noted of them.
-spec parts([podruksis_listings:listed()], run()) -> [[podruksis_listings:listed()]].
parts(Modules, #{options := #{quiet := Quiet}}) ->
    Pieces = [Module#{bytes => Bytes, calls => Calls} || #{entry := #{bytes := Bytes, calls := Calls}} = Module <- Modules],
    {Parts, Notes} = podruksis_parts:split(Pieces, podruksis_check:limits()),
    Quiet orelse [say("note: ", Note) || Note <- Notes],
    Parts.

%% Where the table of these words stands, if the program keeps tables.
-spec place(term(), run()) -> none | podruksis_tables:place().
place(Words, #{program := Program, folder := Folder, options := #{table := Table}}) ->
    Base = podruksis_tables:of_build(Table, Folder),
    case podruksis_tables:keeps(Program, Folder) of
        false when Table =/= default -> wrong("--plt: this dialyze keeps no tables yet");
        false -> none;
        true ->
            Here = right(file:get_cwd()),
            #{table => podruksis_tables:place(Folder, {Here, Words}), program => right(podruksis_program:version(Program)),
              base => base(Table, Base)}
    end.

-spec base(default | string(), file:filename()) -> none | {file:filename(), binary()}.
base(Option, Table) ->
    case podruksis_cache:digest_of_file(Table) of
        {ok, Digest} -> {Table, Digest};
        {error, _} when Option =:= default -> none;
        {error, Reason} -> wrong(["--plt: ", Table, ": ", file:format_error(Reason)])
    end.

%% The lines of the report on all parts.
-spec checked([[podruksis_listings:listed()]], none | podruksis_tables:place(), map(), run()) -> [podruksis_findings:line()].
checked(Parts, Place, Record, #{options := Options, program := Program, progress := Progress}) ->
    #{workers := Workers, fresh := Fresh, quiet := Quiet} = Options,
    Setting = #{program => Program, workers => workers(Workers), place => Place, fresh => Fresh,
                say => fun(Text) -> podruksis_progress:say(Progress, Text) end},
    case podruksis_check:run(Parts, Setting, Record) of
        {ok, Lines, Notes} ->
            podruksis_progress:pause(Progress),
            Quiet orelse [say("note: ", Note) || Note <- Notes],
            Lines;
        {error, Reason} -> wrong(Reason)
    end.

-spec workers(default | 1..64) -> 1..64.
workers(default) -> min(64, erlang:system_info(schedulers_online));
workers(Number) -> Number.

%% The findings that are shown, in order, and how many are left out for which reason.
-spec findings([podruksis_findings:line()], [podruksis_listings:listed()], [binary()], boolean(), run()) ->
          {[podruksis_findings:finding()], #{atom() => non_neg_integer()}}.
findings(Lines, Modules, Left, InParts, #{options := #{silent := Silent, known := Known}}) ->
    Unknown = lists:usort([Module || #{unknown := {Module, _, _}} <- Lines]),
    Exports = right(podruksis_known:exports(Known, Unknown)),
    Names = [{atom_to_binary(Module), Listed} || #{module := Module} = Listed <- Modules],
    Handed = case InParts of true -> [{Name, true} || {Name, _} <- Names]; false -> [] end,
    Filter = #{silent => Silent, context => maps:from_list([{Name, true} || {Name, #{context := true}} <- Names]),
               elsewhere => maps:from_list([{Name, true} || Name <- Left] ++ Handed),
               known => fun(Function) -> podruksis_known:is_known(Function, Exports) end},
    Placed = placed(Lines, maps:from_list(Names)),
    Judged = [{podruksis_findings:shown(Finding, Filter), Finding} || Finding <- podruksis_findings:merge(Placed)],
    {[Finding || {shown, Finding} <- Judged],
     lists:foldl(fun(Why, Counts) -> maps:update_with(Why, fun(Count) -> Count + 1 end, 1, Counts) end, #{},
                 [Why || {Why, _} <- Judged, Why =/= shown])}.

%% Lines with their places; the locations of a module are read once.
-spec placed([podruksis_findings:line()], #{binary() => podruksis_listings:listed()}) -> [podruksis_findings:finding()].
placed(Lines, Modules) ->
    Here = right(file:get_cwd()),
    Found = lists:foldr(fun(#{module := Name} = Line, Map) ->
                                maps:update_with(Name, fun(Others) -> [Line | Others] end, [Line], Map)
                        end, #{}, Lines),
    lists:append([placed_in(Name, Own, Modules, Here) || {Name, Own} <- maps:to_list(Found)]).

-spec placed_in(binary(), [podruksis_findings:line()], #{binary() => podruksis_listings:listed()}, file:filename()) ->
          [podruksis_findings:finding()].
placed_in(Name, Lines, Modules, Here) ->
    case Modules of
        #{Name := #{input := Input, entry := Entry}} ->
            Locations = right(podruksis_cache:locations(Entry)),
            Named = lists:usort([Input | [File || #{id := Id} <- Lines, {ok, #{file := File}} <- [maps:find(Id, Locations)]]]),
            Shown = maps:from_list([{File, podruksis_places:shown(File, Input, Here)} || File <- Named]),
            Files = #{default => Input, shown => fun(File) -> maps:get(File, Shown) end},
            [podruksis_findings:placed(Line, Locations, Files) || Line <- Lines];
        #{} -> wrong(["dialyze reports on a module that wasn't handed in: ", Name])
    end.

%% Prints what was found, to where the options say.
-spec print([podruksis_findings:finding()], run()) -> ok.
print(Findings, #{options := #{format := Format, output := Output, colour := Colour}}) ->
    Text = podruksis_format:print(Format, Findings, coloured(Colour, Output)),
    case Output of
        standard -> io:put_chars(Text);
        File ->
            case file:write_file(File, unicode:characters_to_binary(Text)) of
                ok -> ok;
                {error, Reason} -> wrong([File, ": ", file:format_error(Reason)])
            end
    end.

-spec coloured(auto | always | never, standard | string()) -> boolean().
coloured(always, _) -> true;
coloured(auto, standard) ->
    os:getenv("NO_COLOR", "") =:= "" andalso os:getenv("TERM", "") =/= "dumb" andalso podruksis_progress:is_terminal(output);
coloured(_, _) -> false.

%% The command `build': makes the table of what the words mean.
-spec build(run()) -> outcome().
build(#{program := Program, folder := Folder, progress := Progress, options := #{table := Option} = Options} = Run) ->
    podruksis_tables:keeps(Program, Folder) orelse wrong("this dialyze keeps no tables yet"),
    #{modules := Modules, errors := Errors} = listed(Run),
    Parts = parts(Modules, Run),
    Table = podruksis_tables:of_build(Option, Folder),
    Place = #{table => Table, program => right(podruksis_program:version(Program)), base => none},
    _ = checked(Parts, Place, #{}, Run#{options := Options#{fresh := true}}),
    podruksis_progress:stop(Progress),
    podruksis_summary:build(#{modules => Modules, table => Table, began => maps:get(began, Run), ended => now_()}, Options),
    {min(1, Errors), 0}.

%% A path as it is shown here.
-spec shown(file:filename()) -> file:filename().
shown(Input) -> podruksis_places:shown(Input, Input, right(file:get_cwd())).

-spec now_() -> integer().
now_() -> erlang:monotonic_time(millisecond).

-spec say(string(), unicode:chardata()) -> ok.
say(Kind, Text) -> io:put_chars(standard_error, ["podruksis: ", Kind, podruksis_summary:printed(Text), "\n"]).

-spec right({ok, Value} | {error, unicode:chardata()}) -> Value.
right({ok, Value}) -> Value;
right({error, Reason}) when is_atom(Reason) -> wrong(file:format_error(Reason));
right({error, Text}) -> wrong(Text).

-spec wrong(unicode:chardata()) -> no_return().
wrong(Text) -> throw({wrong, Text}).
