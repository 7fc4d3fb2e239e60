%% escript.erl FILE MODULE FOLDER OPTIONS: writes an escript that calls MODULE:main/1, with the compiled modules of FOLDER
%% in it and options of the emulator.
main([File, Module, Folder, Options]) ->
    Beams = filelib:wildcard("*.beam", Folder),
    Contents = [begin {ok, Bytes} = file:read_file(filename:join(Folder, Beam)), {Beam, Bytes} end || Beam <- Beams],
    Sections = [shebang, {comment, ""}, {emu_args, Options ++ " -escript main " ++ Module}, {archive, Contents, []}],
    ok = escript:create(File, Sections),
    ok = file:change_mode(File, 8#755).
