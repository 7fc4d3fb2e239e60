%% `rebar3 podruksis': checks the applications of a project.
%%
%% The project is compiled first, in the profile of the command. Its applications
%% are reported on; its dependencies are handed in with them, so that calls into
%% them are checked too. What Erlang's own applications export isn't unknown, as
%% far as the project's applications and dependencies name them as theirs.
%%
%% Options stand in rebar.config, `{podruksis, [..]}', and on the command line,
%% which counts more.
-module(rebar3_podruksis).

-export([init/1, do/1, format_error/1]).
-export([words/3]).

-export_type([project/0]).

%% What the plugin knows of a project.
-type project() :: #{
    %% the folders of beams
    applications := [file:filename()],
    dependencies := [file:filename()],
    %% Erlang's own applications that these name
    known := [string()],
    cache := file:filename()
}.

%% Tells rebar3 of the command.
-spec init(term()) -> {ok, term()}.
init(State) ->
    Provider = providers:create([
        {name, podruksis},
        {module, ?MODULE},
        {bare, true},
        {deps, [{default, compile}]},
        {example, "rebar3 podruksis --no-unknown"},
        {short_desc, "Prints what can't work in a project, by Podruksis."},
        {desc, "Lists the beams of the project's applications that changed, checks all of them "
               "together with their dependencies, and prints what can't work."},
        {opts, options()}]),
    {ok, rebar_state:add_provider(State, Provider)}.

%% The options of the command line, as getopt has them.
-spec options() -> [tuple()].
options() ->
    [{dialyze, undefined, "dialyze", string, "the program; else $PODRUKSIS_DIALYZE, else dialyze on the path"},
     {format, undefined, "format", string, "text, json, sarif or github"},
     {output, $o, "output", string, "a file for the findings"},
     {workers, undefined, "workers", integer, "threads that solve, 1 to 64"},
     {plt, undefined, "plt", string, "the table of podruksis build"},
     {colour, undefined, "colour", string, "auto, always or never"},
     {warning, $W, "warning", string, "a kind of findings to leave out: no_return, no_match, no_fail_call, no_unused, no_unknown"},
     {no_unknown, undefined, "no-unknown", boolean, "no unknown functions"},
     {fresh, undefined, "fresh", boolean, "lists everything anew"},
     {quiet, undefined, "quiet", boolean, "only findings and errors"},
     {statistics, undefined, "statistics", boolean, "what was done, with counts and seconds"}].

%% Runs the command. Findings are an error of rebar3, so that it ends with a
%% status that isn't 0.
-spec do(term()) -> {ok, term()} | {error, {module(), term()}}.
do(State) ->
    {Given, _} = rebar_state:command_parsed_args(State),
    Config = rebar_state:get(State, podruksis, []),
    case words(project(State, Config), Config, Given) of
        {ok, Words} -> run(podruksis_options:parse(Words), State);
        {error, Text} -> failed({wrong, Text})
    end.

-spec run({ok, podruksis_options:options()} | {error, unicode:chardata()}, term()) ->
          {ok, term()} | {error, {module(), term()}}.
run({error, Text}, _) -> failed({wrong, Text});
run({ok, Options}, State) ->
    case podruksis:run(Options) of
        {0, _} -> {ok, State};
        {1, _} -> failed(not_done);
        {2, Count} -> failed({findings, Count})
    end.

-spec failed(term()) -> {error, {module(), term()}}.
failed(Reason) -> {error, {?MODULE, Reason}}.

-spec format_error(term()) -> iolist().
format_error({wrong, Text}) -> io_lib:format("podruksis: ~ts", [Text]);
format_error(not_done) -> "podruksis: not everything could be checked";
format_error({findings, 1}) -> "podruksis: 1 finding";
format_error({findings, Count}) -> io_lib:format("podruksis: ~w findings", [Count]).

%% What the project is.
-spec project(term(), [term()]) -> project().
project(State, Config) ->
    Excluded = proplists:get_value(exclude_apps, Config, []),
    Applications = [App || App <- rebar_state:project_apps(State), not is_named(App, Excluded)],
    Dependencies = [App || App <- rebar_state:all_deps(State), not is_named(App, Excluded)],
    All = Applications ++ Dependencies,
    Own = [binary_to_list(rebar_app_info:name(App)) || App <- All],
    Named = lists:append([named(App) || App <- All]) ++ ["erts", "kernel", "stdlib"],
    #{applications => folders(Applications), dependencies => folders(Dependencies), known => lists:usort(Named) -- Own,
      cache => filename:join(rebar_dir:base_dir(State), "podruksis")}.

-spec is_named(term(), [atom()]) -> boolean().
is_named(App, Names) -> lists:member(binary_to_atom(rebar_app_info:name(App), utf8), Names).

-spec folders([term()]) -> [file:filename()].
folders(Applications) -> [filename:absname(rebar_app_info:ebin_dir(App)) || App <- Applications].

%% The applications that an application names as those that it needs, where
%% Erlang has them.
-spec named(term()) -> [string()].
named(App) ->
    File = filename:join(rebar_app_info:ebin_dir(App), binary_to_list(rebar_app_info:name(App)) ++ ".app"),
    case file:consult(File) of
        {ok, [{application, _, Keys}]} ->
            Names = lists:append([proplists:get_value(Key, Keys, []) || Key <- [applications, included_applications]]),
            [atom_to_list(Name) || Name <- Names, is_list(code:lib_dir(Name))];
        _ -> []
    end.

%% The words of the command podruksis, of the project, of rebar.config, and of
%% the command line.
-spec words(project(), [term()], [{atom(), term()}]) -> {ok, [string()]} | {error, unicode:chardata()}.
words(#{applications := Applications, dependencies := Dependencies, known := Known, cache := Cache}, Config, Given) ->
    try
        Own = lists:append([option(proplists:unfold([Option])) || Option <- Config]),
        Said = lists:append([option([Option]) || Option <- Given]),
        Handed = case proplists:get_value(deps, Config, true) of true -> Dependencies; false -> [] end,
        {ok, ["--cache", Cache] ++ list("--context", Handed) ++ list("--known", Known) ++ Own ++ Said
             ++ ["--" | Applications]}
    catch
        throw:{wrong, Text} -> {error, Text}
    end.

%% The words of one option.
-spec option([term()]) -> [string()].
option([{Name, Value}])
  when Name =:= dialyze; Name =:= format; Name =:= output; Name =:= workers; Name =:= plt; Name =:= colour; Name =:= cache ->
    ["--" ++ atom_to_list(Name), word(Value)];
option([{Name, true}]) when Name =:= fresh; Name =:= quiet; Name =:= statistics -> ["--" ++ atom_to_list(Name)];
option([{no_unknown, true}]) -> ["--no-unknown"];
option([{Name, false}]) when Name =:= fresh; Name =:= quiet; Name =:= statistics; Name =:= no_unknown -> [];
option([{warning, Kind}]) -> ["-W" ++ word(Kind)];
option([{warnings, Kinds}]) when is_list(Kinds) -> ["-W" ++ word(Kind) || Kind <- Kinds];
option([{Name, Values}]) when is_list(Values), Name =:= open; is_list(Values), Name =:= known; is_list(Values), Name =:= context ->
    list("--" ++ atom_to_list(Name), [word(Value) || Value <- Values]);
option([{deps, Value}]) when is_boolean(Value) -> [];
option([{exclude_apps, Names}]) when is_list(Names) -> [];
option([Other]) -> throw({wrong, io_lib:format("~0tp is no option of podruksis", [Other])}).

-spec list(string(), [string()]) -> [string()].
list(_, []) -> [];
list(Option, Values) -> [Option | Values].

-spec word(term()) -> string().
word(Value) when is_atom(Value) -> atom_to_list(Value);
word(Value) when is_integer(Value) -> integer_to_list(Value);
word(Value) when is_binary(Value) -> unicode:characters_to_list(Value);
word(Value) when is_list(Value) -> Value;
word(Value) -> throw({wrong, io_lib:format("~0tp is no value of an option of podruksis", [Value])}).
