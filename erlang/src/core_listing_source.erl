%%% From a source to Core Erlang, by the compiler. Included files are looked for in the source's folder, in `../include'
%%% and `../src', and where the nearest `rebar.config' above says.
-module(core_listing_source).

-export([core/3]).

%% @doc Gives the module, its Core Erlang, its forms and the options that decided how it was compiled. The forms are
%% made first, since attributes of the source are read in them.
-spec core(file:name_all(), [term()], core_listing:options()) ->
    {ok, module(), cerl:c_module(), [term()], [term()]} | {error, iodata()}.
core(Source, CoreOptions, Options) ->
    Folder = filename:dirname(Source),
    Compile = macros(Options) ++ included(Folder, Options) ++ project(Folder),
    Quiet = [binary, return_errors, no_spawn_compiler_process],
    case answer(compile:noenv_file(Source, [to_pp | Quiet ++ Compile])) of
        {ok, Forms} ->
            Later = [Each || Each <- Compile, not is_for_reading(Each)],
            case answer(compile:noenv_forms(Forms, Later ++ CoreOptions ++ Quiet)) of
                {ok, Core} -> {ok, cerl:atom_val(cerl:module_name(Core)), Core, Forms, Later};
                Error -> Error
            end;
        Error -> Error
    end.

answer({ok, _, Made}) -> {ok, Made};
answer({error, Errors, _Warnings}) -> {error, ["it doesn't compile: ", messages(Errors)]};
answer(error) -> {error, "it doesn't compile"}.

macros(Options) ->
    [{d, to_atom(Name), Value} || {Name, Value} <- maps:get(define, Options, [])].

to_atom(Name) when is_atom(Name) -> Name;
to_atom(Name) -> list_to_atom(Name).

included(Folder, Options) ->
    Near = [Folder, filename:join(Folder, "../include"), filename:join(Folder, "../src")],
    [{i, Each} || Each <- maps:get(include, Options, []) ++ Near].

%% Options that have had their effect when the forms are made.
is_for_reading({parse_transform, _}) -> true;
is_for_reading({i, _}) -> true;
is_for_reading({d, _}) -> true;
is_for_reading({d, _, _}) -> true;
is_for_reading(_) -> false.

messages(Errors) ->
    lists:join("; ", [message(File, Error) || {File, OfFile} <- Errors, Error <- OfFile]).

message(File, {none, By, What}) -> [File, ": ", By:format_error(What)];
message(File, {Place, By, What}) -> [File, ":", place(Place), ": ", By:format_error(What)];
message(File, {By, What}) -> [File, ": ", By:format_error(What)].

place({Line, Column}) -> io_lib:format("~w:~w", [Line, Column]);
place(Line) -> io_lib:format("~w", [Line]).

%% The options of the nearest rebar.config, up to four folders above. The libraries that its project has built come
%% into the code path.
project(Folder) ->
    Above = [filename:join([Folder | lists:duplicate(Up, "..")]) || Up <- lists:seq(0, 4)],
    case [Top || Top <- Above, filelib:is_regular(filename:join(Top, "rebar.config"))] of
        [] -> [];
        [Top | _] ->
            Libraries = filename:join(Top, "_build/default/lib"),
            Built = [filename:join(Libraries, Each) || Each <- filelib:wildcard("*", Libraries)],
            code:add_pathsz([filename:join(Each, "ebin") || Each <- Built]),
            erl_opts(Top) ++ [{i, Libraries} | [{i, filename:join(Each, "include")} || Each <- Built]]
    end.

erl_opts(Top) ->
    case file:consult(filename:join(Top, "rebar.config")) of
        {ok, Terms} ->
            [below(Top, Each) || Each <- proplists:get_value(erl_opts, Terms, []), decides_the_code(Each)];
        {error, _} -> []
    end.

below(Top, {i, Folder}) -> {i, filename:join(Top, Folder)};
below(_, Option) -> Option.

decides_the_code({i, _}) -> true;
decides_the_code({d, _}) -> true;
decides_the_code({d, _, _}) -> true;
decides_the_code({parse_transform, _}) -> true;
decides_the_code({feature, _, _}) -> true;
decides_the_code({nowarn_unused_function, _}) -> true;
decides_the_code(Option) ->
    lists:member(Option, [export_all, nowarn_unused_function, strict_record_tests, no_strict_record_tests,
                          no_auto_import_types, tuple_calls]).
