-module(podruksis_summary_tests).

-include_lib("eunit/include/eunit.hrl").

module(New) -> #{module => m, input => "m.beam", new => New, context => false, entry => #{bytes => 1024 * 1024}}.

run(Modules, Kinds) ->
    #{modules => Modules, parts => 1, findings => [#{kind => Kind} || Kind <- Kinds], left_out => #{attribute => 2, known => 5},
      errors => 1, began => 1000, listed => 1520, checked => 3000, ended => 13450}.

lines(Run, Options) ->
    [unicode:characters_to_list(Line) || Line <- podruksis_summary:lines(Run, maps:merge(podruksis_options:default(), Options))].

lines_test_() ->
    [?_assertEqual(["2 modules, 1 of them listed now; 1 finding; 12.4 s"], lines(run([module(true), module(false)], [no_match]), #{})),
     ?_assertEqual(["1 module, 0 of them listed now; 0 findings; 12.4 s"], lines(run([module(false)], []), #{})),
     ?_assertEqual([], lines(run([module(false)], []), #{quiet => true})),
     ?_assertEqual(["listing: 2 modules, 1 of them listed now, 1 error; 0.5 s",
                    "checking: 2.0 MiB in 1 part; 1.4 s",
                    "findings: 3; 0 no_return, 2 no_match, 0 no_fail_call, 0 no_unused, 1 no_unknown",
                    "left out: 2 by attributes, 0 by options, 0 of the context, 5 of functions that are known, "
                    "0 of functions of modules that weren't handed in together",
                    "altogether: 12.4 s"],
                   lines(run([module(true), module(false)], [no_match, no_unknown, no_match]), #{statistics => true, quiet => true}))].

%% What is said stays on one line.
printed_test_() ->
    [?_assertEqual("a\\x0Ab\\x1Bc \x{e9}", lists:flatten(podruksis_summary:printed(["a\nb\ec ", <<"\303\251">>])))].
