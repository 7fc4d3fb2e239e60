%%% Properties of listings, over random modules and modules of this machine's Erlang.
-module(core_listing_property_tests).

-include_lib("eunit/include/eunit.hrl").

%% Those with which the compiler makes its text.
-define(OPTIONS, [no_copt, to_core, no_inline, strict_record_tests, strict_record_updates, dialyzer, binary,
                  return_errors, no_spawn_compiler_process]).

%% The listing of a module that needs no rewriting has the report of the compiler's own text, apart from lines.
same_report_as_the_compilers_text_test_() ->
    listing_cases:with_program(fun() ->
        Reports = [{Module, reports(Forms)} || {Module, Forms} <- modules()],
        [?assertEqual({Module, OfText}, {Module, OfListing}) || {Module, {OfText, OfListing}} <- Reports],
        ?assert(length(Reports) >= 20),
        ?assert(lists:sum([length(Findings) || {_, {{ok, Findings}, _}} <- Reports]) >= 200)
    end).

%% The modules that need no rewriting, by their forms.
modules() ->
    Library = [{Module, forms(Module)} || Module <- [digraph, math, ordsets, orddict, random, calendar]],
    Random = [random(Seed) || Seed <- lists:seq(1, 30)],
    [{Module, Forms} || {Module, Forms} <- Library ++ Random, not needs_rewriting(core(Forms))].

forms(Module) ->
    {ok, {Module, [{abstract_code, {_, Forms}}]}} = beam_lib:chunks(code:which(Module), [abstract_code]),
    Forms.

random(Seed) ->
    Module = list_to_atom("random_" ++ integer_to_list(Seed)),
    listing_cases:in_folder(fun(Folder) ->
        Source = listing_cases:source(Folder, Module, random_modules:plain_source(Module, Seed)),
        {ok, Forms} = epp:parse_file(Source, []),
        {Module, Forms}
    end).

core(Forms) ->
    {ok, _, Core} = compile:forms(Forms, ?OPTIONS),
    Core.

%% The findings of the compiler's text and of the listing, without lines.
reports(Forms) ->
    Core = core(Forms),
    Origin = #{module => cerl:atom_val(cerl:module_name(Core)), core => Core, compile => []},
    {ok, #{text := Text}} = core_listing_module:list(Origin, #{}),
    {listing_cases:findings(core_pp:format(Core)), listing_cases:findings(Text)}.

%% Places to jump to, values without a literal, and marks of the compiler around code that it didn't write.
needs_rewriting(Core) ->
    cerl_trees:fold(fun(Node, Found) -> Found orelse is_rewritten(Node) end, false, Core).

is_rewritten(Node) ->
    Annotations = cerl:get_ann(Node),
    case cerl:type(Node) of
        module -> false;
        literal -> has_wide(cerl:concrete(Node));
        binary -> true;
        letrec -> lists:member(letrec_goto, Annotations);
        Type when Type =:= 'let'; Type =:= seq; Type =:= 'case'; Type =:= 'try'; Type =:= 'fun' ->
            lists:member(compiler_generated, Annotations);
        _ -> false
    end.

has_wide(N) when is_integer(N) -> abs(N) >= 1 bsl 127;
has_wide([Head | Tail]) -> has_wide(Head) orelse has_wide(Tail);
has_wide(Tuple) when is_tuple(Tuple) -> has_wide(tuple_to_list(Tuple));
has_wide(_) -> false.

%% A listing never creates a discrepancy: what is reported of random modules is held against their runs.
no_run_contradicts_a_report_test_() ->
    listing_cases:with_program(fun() ->
        Checked = [held_against_runs(Seed) || Seed <- lists:seq(1, 60)],
        {Findings, Contradicted} = lists:unzip(Checked),
        ?assertEqual([], lists:append(Contradicted)),
        ?assert(lists:sum(Findings) > 300)
    end).

%% The number of findings of a module, and those that one of its runs contradicts.
held_against_runs(Seed) ->
    Module = list_to_atom("run_" ++ integer_to_list(Seed)),
    listing_cases:in_folder(fun(Folder) ->
        Source = listing_cases:source(Folder, Module, random_modules:source(Module, Seed)),
        {ok, #{text := Text}} = core_listing:file(Source, #{}),
        Findings = listing_cases:report([#{text => iolist_to_binary(Text)}]),
        Seen = runs(Module, Source),
        {length(Findings), [{Seed, Finding} || Finding <- Findings, is_map_key(what(Finding), Seen)]}
    end).

%% What a run must not have done, by the text of a finding.
what(Finding) ->
    {match, [Line, Text]} = re:run(Finding, "':([0-9]+): (.*)$", [{capture, all_but_first, list}]),
    case {list_to_integer(Line), Text} of
        {N, "this clause can never match"} -> {clause, N};
        {N, "the call " ++ Call} -> {call, N, hd(string:split(Call, " "))};
        {_, "function " ++ Rest} ->
            [Name, Kind] = string:split(Rest, " "),
            {case Kind of "has no local return" -> gave; "is never called" -> entered end, Name};
        Other -> Other
    end.

%% All that was seen in runs of the exported functions.
runs(Module, Source) ->
    {ok, Module, Bytes} = compile:file(Source, [binary, {d, 'RUN'}, nowarn_unused_function, nowarn_unused_vars]),
    {module, Module} = code:load_binary(Module, "random", Bytes),
    Values = [0, 7, a, ok, [], {a, 1}, [1, 2], 1 bsl 127, -(1 bsl 127), <<2, 3, 4, 5>>, #{k => 1}, "text", 1.5,
              {a, {a, 7}}, [[], 7 | a], #{1 bsl 127 => a}],
    Calls = [{a, []}] ++ [{b, [V]} || V <- Values] ++ [{c, [V, lists:nth(rand:uniform(16), Values)]} || V <- Values],
    Seen = lists:foldl(fun({Name, Arguments}, Before) ->
        maps:merge(Before, run(Module, Name, Arguments))
    end, #{}, Calls),
    code:purge(Module),
    code:delete(Module),
    Seen.

%% A run notes what it does in the dictionary of its process, and is ended after some time.
run(Module, Name, Arguments) ->
    {Pid, Monitor} = spawn_opt(fun() ->
        catch apply(Module, Name, Arguments),
        exit({seen, get()})
    end, [monitor, {max_heap_size, #{size => 2000000, error_logger => false}}]),
    receive
        {'DOWN', Monitor, process, Pid, {seen, Seen}} -> seen(Seen);
        {'DOWN', Monitor, process, Pid, _} -> #{}
    after 20 ->
        Seen = case process_info(Pid, dictionary) of {dictionary, Noted} -> Noted; undefined -> [] end,
        exit(Pid, kill),
        receive {'DOWN', Monitor, process, Pid, _} -> seen(Seen) end
    end.

seen(Noted) -> maps:from_list([{Key, true} || {Key, true} <- Noted]).
