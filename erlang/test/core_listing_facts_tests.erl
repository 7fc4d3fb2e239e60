%%% What the system does with a module that its text doesn't show.
-module(core_listing_facts_tests).

-include_lib("eunit/include/eunit.hrl").

-define(REPLACED, "case primop 'replaced'() of\n(<'true'> when 'true' -> primop 'replaced'() -| ['compiler_generated'])\n"
                  "<_new1> when 'true' -> ").

%% The functions of a listing that may be replaced, but for those that are generated as a whole.
replaced(Listing) ->
    Definitions = tl(re:split(listing_cases:text(Listing), "\n(?='[^\n]* =\n)", [{return, binary}])),
    [Name || Definition <- Definitions, binary:match(Definition, <<?REPLACED>>) =/= nomatch,
             [Name | _] <- [binary:split(Definition, <<" =\n">>)]].

functions_of_a_module_that_loads_a_library_may_be_replaced_test() ->
    Listing = listing_cases:list(m, ["-module(m).", "-export([f/0]).", "-on_load(init/0).",
                                     "init() -> erlang:load_nif(\"m\", 0).", "f() -> exit(not_loaded)."]),
    ?assertEqual([<<"'init'/0">>, <<"'f'/0">>], replaced(Listing)).

functions_that_nifs_declares_may_be_replaced_test() ->
    Listing = listing_cases:list(m, ["-module(m).", "-export([f/0, g/0, init/0]).", "-nifs([f/0]).",
                                     "init() -> erlang:load_nif(\"m\", 0).",
                                     "f() -> erlang:nif_error(a).", "g() -> b."]),
    ?assertEqual([<<"'f'/0">>], replaced(Listing)).

names_that_are_handed_on_load_a_library_too_test_() ->
    [?_assertEqual([<<"'f'/0">>], replaced(listing_cases:list(m, ["-module(m).", "-export([f/0]).", Body])))
     || Body <- ["f() -> apply(erlang, load_nif, [\"m\", 0]).", "f() -> (fun erlang:load_nif/2)(\"m\", 0).",
                 "f() -> F = load_nif, erlang:F(\"m\", 0)."]].

a_module_that_loads_nothing_isnt_replaced_test() ->
    ?assertEqual([], replaced(listing_cases:list(m, ["-module(m).", "-export([f/0]).", "f() -> exit(a)."]))).

functions_of_an_open_module_may_be_replaced_test() ->
    Lines = ["-module(m).", "-export([f/0]).", "f() -> g().", "g() -> exit(a)."],
    ?assertEqual([<<"'f'/0">>, <<"'g'/0">>],
                 replaced(listing_cases:list(m, #{open => [other, m]}, Lines))).

built_in_functions_may_be_replaced_test() ->
    {ok, #{text := Text} = Listing} = core_listing:file(code:which(lists), #{}),
    Replaced = replaced(Listing#{text := iolist_to_binary(Text)}),
    ?assert(lists:member(<<"'member'/2">>, Replaced)),
    ?assertNot(lists:member(<<"'map'/2">>, Replaced)).

function_that_the_system_calls_on_load_is_exported_test() ->
    Listing = listing_cases:list(m, ["-module(m).", "-export([]).", "-on_load(start/0).", "start() -> go().",
                                     "go() -> ok."]),
    ?assertEqual(<<"module 'm' ['module_info'/0,'module_info'/1,'start'/0]">>, hd(listing_cases:lines(Listing))),
    ?assertEqual(["'start'/0 is called by the system when the module is loaded, and counts as exported"],
                 listing_cases:notes(Listing)).

module_that_answers_each_call_is_left_out_test() ->
    listing_cases:in_folder(fun(Folder) ->
        Source = listing_cases:source(Folder, m, ["-module(m).", "-export(['$handle_undefined_function'/2]).",
                                                  "'$handle_undefined_function'(F, A) -> {F, A}."]),
        ?assertEqual({left_out, "it exports '$handle_undefined_function'/2, so each call to it may be answered", []},
                     core_listing:file(Source, #{}))
    end).

reachable_functions_test() ->
    Named = #{{a, 0} => [{b, 0}], {b, 0} => [{a, 0}, {c, 1}], {d, 0} => [{a, 0}]},
    ?assertEqual([{a, 0}, {b, 0}, {c, 1}], lists:sort(maps:keys(core_listing_facts:reachable([{a, 0}], Named)))).

%% The text of these modules alone says things that their runs contradict.
report_test_() ->
    listing_cases:with_program(fun() ->
        Native = ["-module(m).", "-export([f/1, s/0]).", "-on_load(init/0).",
                  "init() -> erlang:load_nif(\"./m\", 0).",
                  "size_of(_) -> exit(nif_not_loaded).",
                  "f(X) -> case size_of(X) of 0 -> none; N -> pad(N) end.",
                  "pad(N) -> N + 1.",
                  "fast(_) -> slow.",
                  "s() -> case fast(1) of fast -> hit(); slow -> miss() end.",
                  "hit() -> 1.", "miss() -> 2."],
        ?assertEqual([], listing_cases:report([listing_cases:list(m, Native)])),
        Caller = listing_cases:list(caller, ["-module(caller).", "-export([f/0]).", "f() -> registry:all() + 1."]),
        Registry = fun(Options) ->
            listing_cases:list(registry, Options, ["-module(registry).", "-export([all/0]).", "all() -> not_yet."])
        end,
        ?assertEqual([<<"'caller':3: function 'f'/0 has no local return">>,
                      <<"'caller':3: the call 'erlang':'+'/2 never returns">>],
                     listing_cases:report([Caller, Registry(#{})])),
        ?assertEqual([], listing_cases:report([Caller, Registry(#{open => [registry]})]))
    end).
