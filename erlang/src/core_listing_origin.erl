%%% Where Core Erlang comes from: the debug information of a compiled file, or a source. Both go through the compiler
%%% as Dialyzer calls it, so that the text is not optimised.
-module(core_listing_origin).

-export([core/2]).
-export_type([origin/0]).

%% `compile': the options of the compiler that the module was compiled with, and those of its attributes.
-type origin() :: #{module := module(), core := cerl:c_module(), compile := [term()]}.
-type answer() :: {ok, origin()} | {left_out, iodata()} | {error, iodata()}.

-spec core(file:name_all(), core_listing:options()) -> answer().
core(Input, Options) ->
    code:add_pathsz([text(P) || P <- maps:get(paths, Options, [])]),
    case filename:extension(text(Input)) of
        ".erl" -> of_source(Input, Options);
        _ -> of_beam(Input)
    end.

of_source(Source, Options) ->
    case core_listing_source:core(Source, compiler_options(), Options) of
        {ok, Module, Core, Forms, Compile} ->
            {ok, #{module => Module, core => Core, compile => compile_options({Forms, Compile})}};
        {error, Reason} -> {error, Reason}
    end.

%% beam_lib reads the file itself, since it may be compressed.
of_beam(Beam) ->
    Folder = filename:dirname(text(Beam)),
    code:add_pathz(Folder),
    case beam_lib:chunks(text(Beam), [debug_info]) of
        {ok, {Module, [{debug_info, {debug_info_v1, Backend, Data}}]}} ->
            look_for(Backend, Folder),
            by_backend(Backend, Module, Data);
        {ok, {_, [{debug_info, no_debug_info}]}} -> {left_out, "it has no debug information"};
        {error, beam_lib, {missing_chunk, _, _}} -> {left_out, "it has no debug information"};
        {error, beam_lib, {key_missing_or_invalid, _, _}} -> {left_out, "its debug information is encrypted"};
        {error, beam_lib, Reason} -> {error, beam_lib:format_error(Reason)}
    end.

%% The module that reads another language's debug information may be in an application beside this one.
look_for(Backend, Folder) ->
    case code:which(Backend) of
        non_existing ->
            Libraries = filename:join(Folder, "../.."),
            code:add_pathsz([filename:join([Libraries, Name, "ebin"]) || Name <- filelib:wildcard("*", Libraries)]);
        _ -> ok
    end.

by_backend(Backend, Module, Data) ->
    try Backend:debug_info(core_v1, Module, Data, compiler_options()) of
        {ok, Core} -> {ok, #{module => Module, core => Core, compile => compile_options(Data)}};
        {error, missing} -> {left_out, "it has no debug information"};
        {error, Reason} -> {left_out, no_core(Backend, Reason)}
    catch
        error:undef -> {left_out, no_core(Backend, "this module isn't in the code path")};
        _:Reason -> {left_out, no_core(Backend, Reason)}
    end.

no_core(Backend, Reason) ->
    io_lib:format("its debug information gives no Core Erlang by ~tw: ~0tP", [Backend, Reason, 20]).

%% As Dialyzer's. Options of the module itself come first, and decide.
compiler_options() ->
    [no_copt, to_core, return_errors, no_inline, strict_record_tests, strict_record_updates, dialyzer,
     no_spawn_compiler_process].

compile_options({Forms, Options}) when is_list(Forms), is_list(Options) ->
    Options ++ lists:append([as_list(Value) || {attribute, _, compile, Value} <- Forms]);
compile_options(_) -> [].

as_list(Value) when is_list(Value) -> Value;
as_list(Value) -> [Value].

text(Name) when is_binary(Name) -> unicode:characters_to_list(Name, file:native_name_encoding());
text(Name) -> Name.
