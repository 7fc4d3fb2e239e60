-module(podruksis_parts_tests).

-include_lib("eunit/include/eunit.hrl").

%% A module of an application, with the modules that it calls.
piece(Application, Module, Bytes, Calls) ->
    #{module => Module, input => "/p/" ++ Application ++ "/ebin/" ++ atom_to_list(Module) ++ ".beam", bytes => Bytes,
      calls => [atom_to_binary(Name) || Name <- Calls]}.

names({Parts, Notes}) ->
    {[[Module || #{module := Module} <- Part] || Part <- Parts], [unicode:characters_to_list(Note) || Note <- Notes]}.

split(Pieces, Files, Bytes) -> names(podruksis_parts:split(Pieces, #{files => Files, bytes => Bytes})).

%% What fits is one part, in its order.
fits_test() ->
    Pieces = [piece("b", b1, 10, [a1]), piece("a", a1, 20, [])],
    ?assertEqual({[[b1, a1]], []}, split(Pieces, 2, 30)).

%% The called application stands first; each part is as full as it may be.
by_calls_test_() ->
    A = [piece("a", a1, 10, [b1, lists]), piece("a", a2, 10, [a1])],
    B = [piece("b", b1, 10, [c1])],
    C = [piece("c", c1, 10, []), piece("c", c2, 10, [b])],
    [?_assertEqual({[[c1, c2, b1], [a1, a2]], []}, split(A ++ B ++ C, 1000, 30)),
     ?_assertEqual({[[c1, c2, b1], [a1, a2]], []}, split(A ++ B ++ C, 3, 1000)),
     ?_assertEqual({[[c1, c2], [b1], [a1, a2]], []}, split(A ++ B ++ C, 1000, 29)),
     ?_assertEqual({[[c1, c2], [b1], [a1, a2]], []}, split(A ++ B ++ C, 2, 1000)),
     ?_assertEqual({[[c1, c2, b1], [a1, a2]], []}, split(A ++ B ++ C, 4, 1000)),
     ?_assertEqual({[[c1, c2], [b1], [a1, a2]], []}, split(C ++ B ++ A, 1000, 20))].

%% Applications that call one another stay together where they fit.
together_test() ->
    Pieces = [piece("a", a, 10, [b]), piece("b", b, 10, [a]), piece("c", c, 10, [a]), piece("d", d, 10, [])],
    ?assertEqual({[[a, b], [c, d]], []}, split(Pieces, 2, 1000)).

%% Where they don't, there is a note, and they are parted by application.
too_many_test() ->
    Pieces = [piece("a", a, 10, [b1]), piece("b", b1, 10, [c]), piece("b", b2, 10, []), piece("c", c, 10, [a])],
    ?assertEqual({[[a], [b1, b2], [c]],
                  ["the applications /p/a, /p/b, /p/c call one another and don't fit into one run: "
                   "calls between the parts are taken as calls of functions of which nothing is known"]},
                 split(Pieces, 2, 1000)).

%% So are the modules of one application.
large_application_test() ->
    Pieces = [piece("a", a1, 10, [a2]), piece("a", a2, 16, []), piece("a", a3, 9, [])],
    ?assertEqual({[[a1], [a2, a3]],
                  ["the application /p/a doesn't fit into one run: "
                   "calls between the parts are taken as calls of functions of which nothing is known"]},
                 split(Pieces, 1000, 25)).

%% Each module is in one part, and no part is too large, for many graphs.
all_there_test_() -> {timeout, 60, fun all_there/0}.

all_there() ->
    [begin
         Modules = [list_to_atom("m" ++ integer_to_list(N)) || N <- lists:seq(1, 40)],
         Pieces = [piece("a" ++ integer_to_list((N * Seed) rem 7), Module, 1 + (N * Seed) rem 5,
                         [lists:nth(1 + (N * N * Seed) rem 40, Modules)]) || {N, Module} <- lists:zip(lists:seq(1, 40), Modules)],
         {Parts, _} = podruksis_parts:split(Pieces, #{files => 9, bytes => 21}),
         ?assertEqual(lists:sort(Pieces), lists:sort(lists:append(Parts))),
         [begin
              ?assert(length(Part) =< 9),
              ?assert(lists:sum([Bytes || #{bytes := Bytes} <- Part]) =< 21)
          end || Part <- Parts]
     end || Seed <- lists:seq(1, 20)].

application_test_() ->
    [?_assertEqual(Expected, podruksis_parts:application(Input)) || {Input, Expected} <- [
        {"/lib/kernel-8.5/ebin/file.beam", "/lib/kernel-8.5"},
        {"/p/apps/a/src/m.erl", "/p/apps/a"},
        {"/p/apps/a/src/deep/m.erl", "/p/apps/a"},
        {"/p/beams/m.beam", "/p/beams"},
        {"/p/m.erl", "/p"}
    ]].

%% Components: lists of nodes that reach one another, the reached lists first.
components_test_() ->
    [?_assertEqual(Expected, podruksis_order:components(Graph)) || {Graph, Expected} <- [
        {#{}, []},
        {#{a => []}, [[a]]},
        {#{a => [b], b => []}, [[b], [a]]},
        {#{a => [a], b => [a]}, [[a], [b]]},
        {#{a => [b], b => [c], c => [a], d => [c], e => []}, [[a, b, c], [d], [e]]},
        {#{a => [b, c], b => [d], c => [d], d => []}, [[d], [b], [c], [a]]},
        {#{a => [b], b => [a, c], c => [d], d => [c]}, [[c, d], [a, b]]},
        {#{a => [c], b => [c], c => [b, d], d => []}, [[d], [b, c], [a]]}
    ]].
