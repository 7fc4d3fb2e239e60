%% Findings as text, for people; as JSON; as SARIF 2.1.0, which services that
%% show the findings of analysers read; as commands of GitHub's workflows, which
%% show them beside the lines of a change.
-module(podruksis_format).

-export([print/3]).

%% All findings, as the whole output of a run. Colour is only of the text.
-spec print(podruksis_options:format(), [podruksis_findings:finding()], boolean()) -> unicode:chardata().
print(text, Findings, Colour) -> [text(Finding, Colour) || Finding <- Findings];
print(github, Findings, _) -> [github(Finding) || Finding <- Findings];
print(json, Findings, _) -> ["[", joined([json(Finding) || Finding <- Findings]), "]\n"];
print(sarif, Findings, _) -> sarif(Findings).

%% Members of a list, each on a line of its own.
-spec joined([unicode:chardata()]) -> unicode:chardata().
joined([]) -> [];
joined(Members) -> ["\n  ", lists:join(",\n  ", Members), "\n"].

%% `src/m.erl:12:7: this clause can never match'.
-spec text(podruksis_findings:finding(), boolean()) -> unicode:chardata().
text(#{file := File, line := Line, column := Column, kind := Kind, text := Text}, Colour) ->
    Place = [one_line(File), [[":", integer_to_list(Number)] || Number <- [Line, Column], Number > 0], ":"],
    [coloured(Place, "1", Colour), " ", coloured(Text, code(Kind), Colour), "\n"].

-spec coloured(unicode:chardata(), string(), boolean()) -> unicode:chardata().
coloured(Text, _, false) -> Text;
coloured(Text, Code, true) -> ["\e[", Code, "m", Text, "\e[0m"].

%% What can't work is red, what is never used yellow, what isn't known blue.
-spec code(podruksis_options:kind()) -> string().
code(no_return) -> "31";
code(no_fail_call) -> "31";
code(no_match) -> "33";
code(no_unused) -> "33";
code(no_unknown) -> "34".

%% A name of a file without ends of lines and other control characters.
-spec one_line(string()) -> unicode:chardata().
one_line(Text) -> [one_line_character(Character) || Character <- Text].

-spec one_line_character(char()) -> unicode:chardata().
one_line_character(Character) when Character < 32; Character =:= 127 ->
    io_lib:format("\\x~2.16.0B", [Character]);
one_line_character(Character) -> Character.

%% `::warning file=src/m.erl,line=12,col=7,title=no_match::this clause ..'.
-spec github(podruksis_findings:finding()) -> unicode:chardata().
github(#{file := File, line := Line, column := Column, kind := Kind, text := Text}) ->
    ["::warning file=", property(File), [[",line=", integer_to_list(Line)] || Line > 0],
     [[",col=", integer_to_list(Column)] || Column > 0], ",title=", atom_to_list(Kind), "::", data(Text), "\n"].

-spec data(string()) -> unicode:chardata().
data(Text) -> [percent(Character, "%\r\n") || Character <- Text].

-spec property(string()) -> unicode:chardata().
property(Text) -> [percent(Character, "%\r\n:,") || Character <- Text].

-spec percent(char(), string()) -> unicode:chardata().
percent(Character, Escaped) ->
    case lists:member(Character, Escaped) of
        true -> io_lib:format("%~2.16.0B", [Character]);
        false -> Character
    end.

%% What a kind is. Its name is that of the option that leaves it out.
-spec describe(podruksis_options:kind()) -> string().
describe(no_return) -> "The function never returns a value.";
describe(no_fail_call) -> "The call never returns.";
describe(no_match) -> "The clause is never chosen.";
describe(no_unused) -> "The function is never called.";
describe(no_unknown) -> "The function isn't in what was analysed.".

-spec json(podruksis_findings:finding()) -> unicode:chardata().
json(#{file := File, line := Line, column := Column, kind := Kind, text := Text, module := Module} = Finding) ->
    object([{"file", string(File)}, {"line", integer_to_list(Line)}, {"column", integer_to_list(Column)},
            {"kind", string(atom_to_list(Kind))}, {"text", string(Text)}, {"module", string(bytes(Module))}
            | [{"function", string(Function)} || Function <- function(Finding)]]).

%% The function in which the place stands, where it is known.
-spec function(podruksis_findings:finding()) -> [string()].
function(#{function := none}) -> [];
function(#{function := {Name, Arity}}) -> [lists:flatten(io_lib:format("~ts/~w", [Name, Arity]))].

-spec object([{string(), unicode:chardata()}]) -> unicode:chardata().
object(Members) -> ["{", lists:join(",", [[string(Key), ":", Value] || {Key, Value} <- Members]), "}"].

-spec array([unicode:chardata()]) -> unicode:chardata().
array(Values) -> ["[", lists:join(",", Values), "]"].

-spec string(string()) -> unicode:chardata().
string(Text) -> [$", [escaped(Character) || Character <- Text], $"].

-spec escaped(char()) -> unicode:chardata().
escaped($") -> "\\\"";
escaped($\\) -> "\\\\";
escaped($\n) -> "\\n";
escaped($\r) -> "\\r";
escaped($\t) -> "\\t";
escaped(Character) when Character < 32; Character =:= 127 -> io_lib:format("\\u~4.16.0B", [Character]);
escaped(Character) -> Character.

-spec bytes(binary()) -> string().
bytes(Name) ->
    case unicode:characters_to_list(Name) of
        Text when is_list(Text) -> Text;
        _ -> binary_to_list(Name)
    end.

-spec sarif([podruksis_findings:finding()]) -> unicode:chardata().
sarif(Findings) ->
    Rules = array([object([{"id", string(atom_to_list(Kind))},
                           {"shortDescription", object([{"text", string(describe(Kind))}])}])
                   || Kind <- podruksis_options:kinds()]),
    Driver = object([{"name", string("podruksis")}, {"rules", Rules}]),
    ["{\"version\":\"2.1.0\",\"$schema\":\"https://json.schemastore.org/sarif-2.1.0.json\",\"runs\":[{\"tool\":",
     object([{"driver", Driver}]), ",\"columnKind\":\"unicodeCodePoints\",\"results\":[",
     joined([result(Finding) || Finding <- Findings]), "]}]}\n"].

-spec result(podruksis_findings:finding()) -> unicode:chardata().
result(#{kind := Kind, text := Text} = Finding) ->
    object([{"ruleId", string(atom_to_list(Kind))}, {"level", string("warning")},
            {"message", object([{"text", string(Text)}])}, {"locations", array([location(Finding)])}]).

-spec location(podruksis_findings:finding()) -> unicode:chardata().
location(#{file := File, line := Line, column := Column, module := Module} = Finding) ->
    Region = [{"startLine", integer_to_list(Line)} || Line > 0]
        ++ [{"startColumn", integer_to_list(Column)} || Line > 0, Column > 0],
    Physical = [{"artifactLocation", object([{"uri", string(uri(File))}])}
                | [{"region", object(Region)} || Region =/= []]],
    Logical = [{"logicalLocations", array([object([{"fullyQualifiedName", string(bytes(Module) ++ ":" ++ Function)},
                                                   {"kind", string("function")}])])}
               || Function <- function(Finding)],
    object([{"physicalLocation", object(Physical)} | Logical]).

%% A path as a reference: relative, or that of a file from the root.
-spec uri(string()) -> string().
uri("/" ++ _ = File) -> "file://" ++ uri_path(File);
uri(File) ->
    case {lists:member($:, hd(filename:split(File))), uri_path(File)} of
        {true, Path} -> "./" ++ Path;
        {false, Path} -> Path
    end.

-spec uri_path(string()) -> string().
uri_path(File) -> lists:append([uri_byte(Byte) || <<Byte>> <= unicode:characters_to_binary(File)]).

-spec uri_byte(byte()) -> string().
uri_byte(Byte) when Byte >= $a, Byte =< $z; Byte >= $A, Byte =< $Z; Byte >= $0, Byte =< $9 -> [Byte];
uri_byte(Byte) ->
    case lists:member(Byte, "/-._~:@!$&'()*+,;=") of
        true -> [Byte];
        false -> lists:flatten(io_lib:format("%~2.16.0B", [Byte]))
    end.
