-module(podruksis_places_tests).

-include_lib("eunit/include/eunit.hrl").

%% A project as rebar3 lays it out: the application below _build is a link to the folder that people edit.
project(Test) ->
    podruksis_folder:with(fun(Given) ->
        Folder = podruksis_places:real(Given),
        podruksis_folder:write(Folder, "p/apps/a/src/m.erl", ""),
        Lib = filename:join(Folder, "p/_build/default/lib/a"),
        Beam = podruksis_folder:write(Lib, "ebin/m.beam", ""),
        ok = file:make_symlink("../../../../apps/a/src", filename:join(Lib, "src")),
        Test(Folder, Beam)
    end).

shown_test_() -> {timeout, 60, fun shown/0}.

shown() ->
    project(fun(Folder, Beam) ->
        Here = filename:join(Folder, "p"),
        Shown = fun(File) -> podruksis_places:shown(File, Beam, Here) end,
        ?assertEqual("apps/a/src/m.erl", Shown(filename:join(Folder, "p/apps/a/src/m.erl"))),
        ?assertEqual("apps/a/src/m.erl", Shown(filename:join(Folder, "p/_build/default/lib/a/src/m.erl"))),
        ?assertEqual("apps/a/src/m.erl", Shown("src/m.erl")),
        ?assertEqual("apps/a/src/m.erl", Shown("apps/a/src/m.erl")),
        ?assertEqual("apps/a/src/m.erl", Shown("/home/of/another/machine/src/m.erl")),
        ?assertEqual("/home/of/another/machine/x.yrl", Shown("/home/of/another/machine/x.yrl")),
        ?assertEqual("gone.hrl", Shown("gone.hrl"))
    end).

%% Outside of the folder a path stands whole.
outside_test_() -> {timeout, 60, fun outside/0}.

outside() ->
    project(fun(Folder, Beam) ->
        ?assertEqual(filename:join(Folder, "p/apps/a/src/m.erl"),
                     podruksis_places:shown("src/m.erl", Beam, filename:join(Folder, "other")))
    end).

real_test_() -> {timeout, 60, fun real/0}.

real() ->
    podruksis_folder:with(fun(Given) ->
        Folder = podruksis_places:real(Given),
        ok = file:make_dir(filename:join(Folder, "a")),
        ok = file:make_symlink("a", filename:join(Folder, "b")),
        ok = file:make_symlink(filename:join(Folder, "b"), filename:join(Folder, "c")),
        ok = file:make_symlink("loop", filename:join(Folder, "loop")),
        Real = fun(Name) -> podruksis_places:real(filename:join(Folder, Name)) end,
        ?assertEqual(filename:join(Folder, "a/x"), Real("c/x")),
        ?assertEqual(filename:join(Folder, "x"), Real("c/../x")),
        ?assertEqual(filename:join(Folder, "a"), Real("./a/.")),
        ?assertEqual("/", podruksis_places:real("/..")),
        ?assert(is_list(Real("loop")))
    end).
