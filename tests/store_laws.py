"""Writes the cases of the program crates/test_stores: laws and the formats that are inferred for them.

Run at the repository's root: python3 tests/store_laws.py
It writes crates/test_stores/stdin, which the program reads, and crates/test_stores/stdout, which the program has to write.

The expected rounds, formats and words are computed by the model in this file, written from document 01; no comparison
with the Rust has been run. The text of a format, and that a call or block in a pattern opens the format, are from reading
formats.rs, to which document 01 leaves both. The model works on the parsed Refal and not on the law's bytes. For document
01's small laws the answer is written by hand too (`known`), and the model has to give it.

A refusal of 1 to 9 is written by hand beside its case; tests/edge_laws.py has the many cases of these.
"""
from pathlib import Path

from edge_laws import BRACKET, CALL, CHARACTER, E, IDENTIFIER, NUMBER, S, T, Reader, encoded, law, variables, word

# The model. A shape is a letter as displayed, or the row inside a bracket; a row is (shapes, open); a format is a row or NEVER.

NEVER = None
LEAVES = {CHARACTER: "C", NUMBER: "N", IDENTIFIER: "I", S: "S", T: "?"}
CODES = "CNIS?"
ANY = ((), True)


class Over(Exception):
    """Refusal 10."""


def join_shapes(a, b):
    if a == b:
        return a
    if isinstance(a, tuple) and isinstance(b, tuple):
        return join(a, b)
    return "S" if {a, b} <= set("CNIS") else "?"


def join(a, b):
    if a is NEVER or b is NEVER:
        return b if a is NEVER else a
    shapes = tuple(join_shapes(x, y) for x, y in zip(a[0], b[0]))
    return shapes, a[1] or b[1] or len(a[0]) != len(b[0])


def row_of(run, results):
    """The row of a run; results by folded name, or None for a pattern."""
    shapes = ()
    for kind, value, inside, _ in run:
        if kind in LEAVES:
            shapes += (LEAVES[kind],)
        elif kind == BRACKET:
            shapes += (row_of(inside, results),)
        elif kind == CALL and results is not None:
            callee = results.get(folded(value), ANY)
            if callee is not NEVER:
                shapes += callee[0]
                if callee[1]:
                    return shapes, True
        else:  # an e. variable, a block, or a call in a pattern
            return shapes, True
    return shapes, False


def size(row):
    return sum(1 + (size(shape) if isinstance(shape, tuple) else 0) for shape in row[0])


def folded(name):
    return name.upper().replace("_", "-")


def joined(runs, results):
    found = NEVER
    for run in runs:
        row = row_of(run, results)
        if size(row) > 64:
            raise Over
        found = join(found, row)
    return found


def infer(functions):
    """Rounds, settled, and the store's formats."""
    names = sorted({folded(name) for name, _ in functions}, key=str.encode)
    arguments = dict.fromkeys(names, NEVER)
    results = dict.fromkeys(names, NEVER)
    for name, sentences in functions:
        arguments[folded(name)] = join(arguments[folded(name)], joined([pattern for pattern, _, _ in sentences], None))
    rounds, settled = 0, False
    while not settled and rounds < len(names) + 4:
        rounds, settled = rounds + 1, True
        for name, sentences in functions:
            old = results[folded(name)]
            new = join(old, joined([result for _, _, result in sentences], results))
            settled = settled and new == old
            results[folded(name)] = new
    return rounds, settled, [format for name in names for format in (arguments[name], results[name])]


def shape_words(shape):
    if isinstance(shape, str):
        return [CODES.index(shape)]
    return [5 + 8 * size(shape) + 1024 * shape[1]] + row_words(shape)


def row_words(row):
    return [one for shape in row[0] for one in shape_words(shape)]


def format_words(format):
    return [512] if format is NEVER else [size(format) + 256 * format[1]] + row_words(format)


def display(format):
    if format is NEVER:
        return "never"
    items = [shape if isinstance(shape, str) else f"({display(shape)})" for shape in format[0]]
    return "[" + " ".join(items + [".."] * format[1]) + "]"


def until_zeros(words, zero=0):
    """Without the zeros at the end."""
    while words and words[-1] == zero:
        words = words[:-1]
    return words


def answer(functions):
    """What the program writes after a label."""
    try:
        rounds, settled, formats = infer(functions)
    except Over:
        return " refused 10\n"
    lines = f" {rounds} rounds {'settled' if settled else 'unsettled'}\n"
    # A closed format without items is all zeros.
    for k, format in enumerate(until_zeros(formats, ((), False))):
        lines += " ".join([f"  {k}", display(format)] + [str(one) for one in until_zeros(format_words(format))]) + "\n"
    return lines


# Cases

cases = []


def put(label, data, expected):
    assert 0 < len(label) < 80 and label.isascii() and label.isprintable(), label
    assert label not in [other for other, _, _ in cases], label
    cases.append((label, data, expected))


def case(label, source, known=None):
    """A case that the model answers; known is written by hand: rounds, settled, and the last format if there is one."""
    functions = Reader(source).functions()
    if known is not None:
        rounds, settled, formats = infer(functions)
        assert (rounds, settled, [display(format) for format in formats[-1:]]) == known, label
    put(label, encoded(law(source)), answer(functions))


def over(label, source):
    """A case that has over 64 shapes by its making."""
    functions = Reader(source).functions()
    assert answer(functions) == " refused 10\n", label
    put(label, encoded(law(source)), " refused 10\n")


def refused(label, source, number):
    """A case whose number is written by hand."""
    put(label, source if isinstance(source, bytes) else encoded(law(source)), f" refused {number}\n")


def growing(ones):
    return "F { = 'a' <F> " + "1 " * ones + "; }"


def times(count, piece="'a' "):
    return piece * count


def document_cases():
    case("doc: three 1s", growing(3), (5, True, ["[C S S S ..]"]))
    case("doc: four 1s", growing(4), (5, False, ["[C S S S S ..]"]))
    case("doc: five 1s", growing(5), (5, False, ["[C S S S S N ..]"]))
    case("doc: no functions", "", (1, True, []))
    case("doc: join of character and number", "F { = 'a'; = 1; }", (2, True, ["[S]"]))
    case("doc: join of one and two items", "F { = 'a'; = 'a' 1; }", (2, True, ["[C ..]"]))
    case("doc: never with empty", "F { } f { = ; }", (2, True, ["[]"]))
    case("doc: the listing's example", "F { e.X = 'a'; s.A = <F 1>; } H { 'q' = <H 2>; }")
    case("ones: none", growing(0))
    case("ones: six", growing(6))
    case("ones: six, one name more", growing(6) + " G { }")
    case("ones: six, one name more by folding", growing(6) + " f { }")


def shape_cases():
    case("shape: each kind", "F { 'a' 1 Name s.A t.B ('b') = 'a' 1 Name s.A t.B ('b'); }")
    case("shape: e. variable first", "F { e.X 'a' = e.X 'a'; }")
    case("shape: e. variable last", "F { 'a' e.X = 'a' e.X; }")
    case("shape: past an e. variable", "F { 'a' e.X 1 (e.Y) = 1 e.X 'a' <F> (2); }")
    case("shape: a number above a word", "F { 4294967296 = 00000000000000000000000000000000000012; }")
    case("shape: a character of three bytes", "F { '\u20ac' = '\U0001f600'; }")
    kinds = {"C": "'a'", "N": "1", "I": "Name", "S": "s.A", "T": "t.A", "B": "('a')", "E": "()", "O": "(e.A)"}
    for a, first in kinds.items():
        for b, second in kinds.items():
            if a < b:
                case(f"join: {a} and {b}", f"F {{ {first} = {first}; {second} = {second}; }}")
    case("join: closed of two and open of two", "F { 'a' 1 = 'a' 1; 'a' 1 e.X = 'a' 1 e.X; }")
    case("join: closed of one and open of two", "F { 'a' = 'a'; 'a' 1 e.X = 'a' 1 e.X; }")
    case("join: empty and open", "F { = ; e.X = e.X; }")
    case("join: nothing shared", "F { = ; 'a' = 'a'; }")
    case("join: three sentences", "F { 'a' 'b' 'c' = 'a'; 1 2 = 1 2; Name = ('a'); }")
    case("join: sentences in the other order", "F { Name = ('a'); 1 2 = 1 2; 'a' 'b' 'c' = 'a'; }")


def bracket_cases():
    case("bracket: empty", "F { () = (); }")
    case("bracket: nested", "F { ((('a') 1) Name) = (()) ((()())); }")
    case("bracket: open inside", "F { ('a' e.X 1) 'b' = ('a' e.X 1) 'b'; }")
    case("bracket: open inside and outside", "F { (e.X) e.Y = (('a' e.X)) e.Y 1; }")
    case("bracket: join inside", "F { (('a') 1) = (('a') 1); ((2 3) Name) = ((2 3) Name); }")
    case("bracket: with a symbol beside it", "F { ('a' (1 2)) 'b' = (('a') 1) 2; 'a' 'b' = 1 2; }")
    case("bracket: after one with more inside", "F { ('a' 'b' 'c') 1 = ('a' 'b' 'c') 1; ('a') Name = ('a') Name; }")
    case("bracket: call inside", "F { = (<G> 'a') 1; } G { = 2 Name; }")
    case("bracket: open call inside", "F { = (<G> 'a') 1; } G { = 2 e.X; }")
    case("bracket: undefined call inside", "F { = (<Add 1 2>) 1; }")
    case("bracket: never called inside", "F { = (<G>) 1; } G { }")
    case("bracket: calls itself inside", "F { = (<F>); }")
    case("bracket: calls itself inside, or empty", "F { = ; = (<F>); }")
    case("bracket: 32 deep", "F { = " + "(" * 32 + "'a'" + ")" * 32 + "; }")
    case("bracket: 33 deep", "F { " + "(" * 33 + ")" * 33 + " = 'a'; }")
    case("bracket: 63 inside one", "F { (" + times(63) + ") = (" + times(62) + "e.X); }")
    case("bracket: block inside", "F { = ('a' [ : = 'b';] 'c') 1; }")


def call_cases():
    case("call: undefined", "F { = 'a' <Prout 'b'> 1; }")
    case("call: undefined, then more calls", "F { = <Prout> <F>; }")
    case("call: no sentences", "F { = 'a' <G> 1; } G { }")
    case("call: itself only", "F { = <F>; }")
    case("call: two that call each other", "F { = <G>; } G { = <F>; }")
    case("call: later function", "F { = <G> <H>; } G { = <H> 1; } H { = 'a'; }")
    case("call: earlier function", "H { = 'a'; } G { = <H> 1; } F { = <G> <H>; }")
    case("call: in a pattern", "F { 'a' <F 'b'> 1 = ; }")
    case("call: in brackets in a pattern", "F { ('a' <F 'b'> 1) 2 = ; }")
    case("call: block in a pattern", "F { 'a' ['b' : ] 1 = ; }")
    case("call: block in a result", "F { = 'a' [e.X : 'b' = ; = 1;] 2; }")
    case("call: argument has calls and brackets", "F { = 'a' <G ('b') <F> e.X> 1; } G { e.X = Name; }")
    case("call: even and odd", "Even { = True; s.A e.X = <Odd e.X>; } Odd { = 0; s.A e.X = <Even e.X>; }")
    case("call: a chain of eight, last first",
         " ".join(f"F{k} {{ = <F{k + 1}> 'a'; }}" for k in range(7)) + " F7 { = 1; }")
    case("call: a ring of three", "A { = 'a' <B> 1; } B { = 'b' <C> 2; } C { = Name <A> 3; }")
    case("call: renewed in the same round", "F { = 'a'; = <G>; } G { = <F> 1; } H { = <G> <F>; }")
    case("call: conditions have no format", "F { s.A, <G s.A> : 'b' e.X = e.X; t.A, " + times(65) + ": = 1; } G { = 'a'; }")


def name_cases():
    case("name: two cases of letters", "Foo { 'a' = 'a'; } FOO { 1 = 1; } foo { Name = <fOO>; }")
    case("name: - and _", "Foo-Bar { 'a' = 'a'; } FOO_BAR { 'a' 1 = 'a' 1; } G { = <foo_bar>; }")
    case("name: twice, the second empty", "F { 'a' = 'a'; } f { }")
    case("name: twice, the first empty", "F { } f { 'a' = 'a'; }")
    case("name: twice, the second calls", "F { = 'a'; } f { = <F> 1; } G { = <f>; }")
    case("name: sorted by bytes", " ".join(
        f"{name} {{ {times(k)} = {times(k, '1 ')}; }}" for k, name in enumerate(
            ["Z", "a", "F_1", "F", "F1", "FA", "F-", "-", "_a", "9", "10", "F-a-b", "f--"])))
    case("name: 64 functions", " ".join(f"N{k * 37 % 64} {{ s.A = <N{(k + 1) * 37 % 64}> 1; }}" for k in range(64)))
    case("name: no functions after 64", " ")
    case("name: 64 functions of one name", " ".join(f"{'Ff'[k % 2]} {{ {'s.A' if k < 63 else 't.A'} = 1; }}" for k in range(64)))
    case("name: one function after 64", "F { 'a' = ; }")


def limit_cases():
    case("limit: 64 in a pattern", "F { " + times(64) + " = ; }")
    over("limit: 65 in a pattern", "F { " + times(65) + " = ; }")
    case("limit: no functions after a refusal", "")
    case("limit: 64 in a result", "F { = " + times(64) + "; }")
    over("limit: 65 in a result", "F { = " + times(65) + "; }")
    case("limit: nothing but empty after a refusal", "F { = ; }")
    case("limit: 64 and an open tail", "F { " + times(64) + " e.X 'a' = " + times(64) + " e.X 'a'; }")
    case("limit: 64 with brackets", "F { " + times(32, "('a') ") + " = " + times(64, "() ") + "; }")
    over("limit: 65 with brackets in a pattern", "F { " + times(32, "('a') ") + " () = ; }")
    over("limit: 65 with brackets in a result", "F { = ((" + times(63) + ")); }")
    over("limit: 65 in a later sentence's pattern", "F { = ; e.X = ; " + times(65) + " = ; }")
    over("limit: 65 in a later function's result", "F { = ; } G { = e.X; = " + times(65) + "; }")
    case("limit: 65 past an open tail inside", "F { (e.X " + times(65) + ") 'a' = (<Prout> " + times(65) + ") 'a'; }")
    case("limit: 32 twice by calls", "G { = " + times(32) + "; } F { = <G> <G>; }")
    over("limit: 33 twice by calls", "G { = " + times(33) + "; } F { = <G> <G>; }")
    over("limit: 33 and 32 by a call, second round", "F { = <G> " + times(33) + "; } G { = " + times(32) + "; }")
    case("limit: 32 and 32 by a call, second round", "F { = <G> " + times(32) + "; } G { = " + times(32) + "; }")
    # A result that was formed while its callee was at never opens in the next round, so only the second round can pass 64.
    case("limit: doubled twice, callees later", "F { = <G> <G>; } G { = <H> <H>; } H { = " + times(17) + "; }")
    over("limit: doubled twice, callees earlier", "H { = " + times(17) + "; } G { = <H> <H>; } F { = <G> <G>; }")
    case("limit: doubled twice to 64", "H { = " + times(16) + "; } G { = <H> <H>; } F { = <G> <G>; }")
    over("limit: 66 before a callee opens", "G { = <H> " + times(33) + "; } F { = <G> <G>; } H { = e.X; }")
    case("limit: 66 had a callee not opened", "H { = e.X; } G { = <H> " + times(33) + "; } F { = <G> <G>; }")
    over("limit: brackets grow", "F { = 'a'; } G { = (<F>) <G> " + times(40) + "; }")
    case("limit: 65 in a block, a condition and an argument",
         "F { s.A, " + times(65) + " : " + times(65) + " = 'a' <F " + times(65) + ">; = [" + times(65) + " : " + times(65) + " = ;]; }")


def refused_cases():
    refused("refused: empty file", b"", 2)
    refused("refused: text over", word(4097), 4)
    refused("refused: a byte left over", encoded(law("F { = 'a'; }")) + b"\0", 3)
    refused("refused: 65 functions", " ".join(f"F{k} {{ }}" for k in range(65)), 4)
    refused("refused: 33 variables before 65 shapes", "F { " + variables("s", 33) + times(65) + "= ; }", 9)
    refused("refused: depth", "F { = " + "(" * 33 + "'a'" + ")" * 33 + "; }", 8)
    # Their stores are one word short.
    refused("short: a law", "F { = 'a'; }", 15)
    refused("short: no functions", "", 15)
    refused("short: 65 shapes", "F { = " + times(65) + "; }", 15)
    refused("short: 33 variables", "F { " + variables("s", 33) + "= ; }", 9)
    case("store: after short ones", "F { = ; } G { = ; 'a' = ; }")


class Numbers:
    """A fixed row of numbers, the same under every version of Python."""

    def __init__(self):
        self.state = 1

    def below(self, limit):
        self.state = (self.state * 6364136223846793005 + 1442695040888963407) % 2**64
        return (self.state >> 33) % limit


def random_run(numbers, names, depth, pattern):
    run = ""
    for _ in range(numbers.below(4)):
        pick = numbers.below(16)
        if pick < 5 and not pattern or pick == 0:
            run += f"<{names[numbers.below(len(names))]} {random_run(numbers, names, depth + 1, pattern) if depth < 3 else ''}> "
        elif pick < 8 and depth < 3:
            run += f"({random_run(numbers, names, depth + 1, pattern)}) "
        elif pick == 8 and not pattern:
            run += "['b' : 'c' = ;] "
        else:
            run += ("'a' ", "1 ", "Name ", "s.A ", "t.B ", "e.C ", "'a' ", "1 ")[numbers.below(8)]
    return run


def random_cases(count):
    numbers = Numbers()
    for k in range(count):
        names = ["F", "f", "G-a", "g_A", "H", "Q", "Undefined"]
        source = ""
        for _ in range(1 + numbers.below(5)):
            source += names[numbers.below(6)] + " { "
            for _ in range(numbers.below(4)):
                source += random_run(numbers, names, 0, True) + "= " + random_run(numbers, names, 0, False) + "; "
            source += "} "
        case(f"random: {k}", source)


def main():
    document_cases()
    shape_cases()
    bracket_cases()
    call_cases()
    name_cases()
    limit_cases()
    refused_cases()
    random_cases(60)
    folder = Path(__file__).resolve().parent.parent / "crates" / "test_stores"
    with open(folder / "stdin", "wb") as given, open(folder / "stdout", "wb") as expected:
        for label, data, lines in cases:
            given.write(label.encode("ascii") + b"\n" + word(len(data)) + data)
            expected.write((label + lines).encode("ascii"))
    print(f"{len(cases)} cases")


if __name__ == "__main__":
    main()
