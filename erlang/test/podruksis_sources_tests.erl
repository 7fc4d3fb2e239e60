-module(podruksis_sources_tests).

-include_lib("eunit/include/eunit.hrl").

rests_on(Source, Folders) ->
    [podruksis_places:real(File) || File <- podruksis_sources:rests_on(Source, maps:merge(#{include => [], paths => []}, Folders))].

%% The source, its headers by `include' and `include_lib', rebar.config, and the parse transform.
all_test_() -> {timeout, 60, fun all/0}.

all() ->
    podruksis_folder:with(fun(Given) ->
        Folder = podruksis_places:real(Given),
        Write = fun(Name, Text) -> podruksis_folder:write(Folder, Name, Text) end,
        Source = Write("p/apps/a/src/m.erl", "-include(\"own.hrl\").\n -include_lib( \"other/include/o.hrl\").\n"
                       "-include(\"deep.hrl\").\n-compile({parse_transform, shape}).\n"),
        Own = Write("p/apps/a/include/own.hrl", ""),
        Other = Write("p/apps/other/include/o.hrl", ""),
        Deep = Write("elsewhere/deep.hrl", ""),
        Config = Write("p/rebar.config", "{erl_opts, []}."),
        Beam = Write("beams/shape.beam", ""),
        _ = Write("p/apps/a/include/unused.hrl", ""),
        Found = rests_on(Source, #{include => [filename:join(Folder, "elsewhere")], paths => [filename:join(Folder, "beams")]}),
        ?assertEqual(Source, hd(Found)),
        ?assertEqual(lists:sort([Source, Own, Other, Deep, Config, Beam]), lists:sort(Found))
    end).

%% A header of one of Erlang's applications.
library_test_() -> {timeout, 60, fun library/0}.

library() ->
    podruksis_folder:with(fun(Folder) ->
        Source = podruksis_folder:write(Folder, "m.erl", "-include_lib(\"kernel/include/file.hrl\").\n"),
        [_, Header | _] = podruksis_sources:rests_on(Source, #{include => [], paths => []}),
        ?assertEqual(filename:join(code:lib_dir(kernel), "include/file.hrl"), Header)
    end).

%% Headers that include one another.
circle_test_() -> {timeout, 60, fun circle/0}.

circle() ->
    podruksis_folder:with(fun(Given) ->
        Folder = podruksis_places:real(Given),
        A = podruksis_folder:write(Folder, "a.hrl", "-include(\"b.hrl\")."),
        B = podruksis_folder:write(Folder, "b.hrl", "-include(\"a.hrl\")."),
        Source = podruksis_folder:write(Folder, "m.erl", "-include(\"a.hrl\")."),
        ?assertEqual([A, B, Source], lists:usort(rests_on(Source, #{})))
    end).
