-module(core_listing_silence_tests).

-include_lib("eunit/include/eunit.hrl").

-define(BODIES, "f() -> atom_to_list(1).", "g() -> atom_to_list(2).").

listing(Attributes, Options) ->
    listing_cases:list(m, Options, ["-module(m).", "-export([f/0, g/0])." | Attributes] ++ [?BODIES]).

%% Whether the definitions of f/0 and of g/0 are hidden as a whole.
hidden(Attributes) ->
    Listing = listing(Attributes, #{}),
    [listing_cases:has(["(fun () ->\ncase <> of\n<> when 'true' -> call 'erlang':'atom_to_list'(", Number,
                        ")\nend -| [", Line, ",'compiler_generated'])"], Listing)
     || {Number, Line} <- lists:zip(["1", "2"], [integer_to_list(3 + length(Attributes) + N) || N <- [0, 1]])].

%% The kinds that are switched off at the definitions of f/0 and of g/0, and at their calls.
silent(Attributes) ->
    Listing = listing(Attributes, #{locations => true}),
    [[Silent || #{function := {Name, _}, silent := Silent} <- maps:get(locations, Listing), Name =:= Function]
     || Function <- [f, g]].

nowarn_function_hides_the_function_test() ->
    ?assertEqual([true, false], hidden(["-dialyzer({nowarn_function, f/0})."])),
    All = [no_fail_call, no_match, no_return, no_unknown, no_unused],
    ?assertEqual([[All], [[], []]], silent(["-dialyzer({nowarn_function, f/0})."])).

kinds_of_a_function_test() ->
    Attributes = ["-dialyzer([{[no_match, no_return], [g/0]}, no_improper_lists])."],
    ?assertEqual([false, true], hidden(Attributes)),
    ?assertEqual([[[], []], [[no_match, no_return], [no_match, no_return]]], silent(Attributes)).

kinds_of_the_module_test() ->
    ?assertEqual([true, true], hidden(["-dialyzer(no_return)."])),
    ?assertEqual([[[no_return], [no_return]], [[no_return], [no_return]]], silent(["-dialyzer(no_return)."])).

options_of_other_kinds_hide_nothing_test() ->
    Attributes = ["-dialyzer([no_improper_lists, no_opaque, unmatched_returns])."],
    ?assertEqual([false, false], hidden(Attributes)),
    ?assertEqual([[[], []], [[], []]], silent(Attributes)).

%% Calls to missing functions are calls by module and name; applications of values are the others.
missing_calls_and_applications_test() ->
    Kinds = fun(Option) ->
        Silence = core_listing_silence:of_module([[Option]], []),
        [core_listing_silence:kinds({f, 0}, Sort, Silence) || Sort <- [call, application, other]]
    end,
    ?assertEqual([[no_fail_call], [], []], Kinds(no_missing_calls)),
    ?assertEqual([[], [no_fail_call], []], Kinds(no_fun_app)),
    ?assertEqual([[no_fail_call], [no_fail_call], [no_fail_call]], Kinds(no_fail_call)).

%% With lines alone, a function that may be unused is hidden where nothing that is exported leads to it.
functions_that_may_be_unused_test() ->
    Lines = ["-module(m).", "-export([f/0]).", "-compile({nowarn_unused_function, [{g, 0}, {h, 0}]}).",
             "f() -> g().", "g() -> ok.", "h() -> ok."],
    Listing = listing_cases:list(m, Lines),
    ?assert(listing_cases:has("'ok'\nend -| [5])", Listing)),
    ?assert(listing_cases:has("'ok'\nend -| [6,'compiler_generated'])", Listing)),
    Located = listing_cases:list(m, #{locations => true}, Lines),
    ?assertEqual([{{f, 0}, []}, {{g, 0}, [no_unused]}, {{h, 0}, [no_unused]}],
                 lists:usort([{Function, Silent} ||
                                 #{function := Function, silent := Silent} <- maps:get(locations, Located)])).

all_functions_may_be_unused_test() ->
    Silence = core_listing_silence:of_module([], [nowarn_unused_function]),
    ?assert(core_listing_silence:may_be_unused({f, 0}, Silence)).

report_test_() ->
    listing_cases:with_program(fun() ->
        ?assertEqual([], listing_cases:report([listing(["-dialyzer([no_return, no_fail_call])."], #{})])),
        ?assertEqual([<<"'m':5: function 'g'/0 has no local return">>,
                      <<"'m':5: the call 'erlang':'atom_to_list'/1 never returns">>],
                     listing_cases:report([listing(["-dialyzer({nowarn_function, f/0})."], #{})]))
    end).
