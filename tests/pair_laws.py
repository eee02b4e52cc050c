"""Writes the cases of the program crates/test_pairs: laws, which of their sentences shadow which, and which match their literal calls.

Run at the repository's root: python3 tests/pair_laws.py
It writes crates/test_pairs/stdin, which the program reads, and crates/test_pairs/stdout, which the program has to write.

The expected answers are computed by the model in this file, written from document 01, for numbers from document 02, R-3,
and, for what a match is, from the Refal-5 manual: it yields all matches of a pattern in order. No comparison with the Rust
has been run. The model works on the parsed Refal and not on the law's bytes. For document 01's small laws, for numbers, and
for the cases that name a slip, the answer is written by hand too (`known`), and the model has to give it.
"""
import itertools
import sys
import threading
from pathlib import Path

from edge_laws import (BLOCK, BRACKET, CALL, CHARACTER, E, IDENTIFIER, NUMBER, S, T, Reader, changed, encoded, law, variables,
                       word)
from store_laws import Numbers, folded, times

SYMBOLS = (CHARACTER, IDENTIFIER, NUMBER)


# The model. A term is (kind, spelling or scalar value, terms inside, sentences).

def same(a, b):
    """Are two terms the same? A call or a block is the same as nothing."""
    if a[0] != b[0] or a[0] in (CALL, BLOCK):
        return False
    if a[0] == BRACKET:
        return same_rows(a[2], b[2])
    if a[0] == IDENTIFIER:
        return folded(a[1]) == folded(b[1])
    if a[0] in (S, T, E):
        return a[1].upper() == b[1].upper()
    if a[0] == NUMBER:
        return int(a[1]) == int(b[1])  # numbers by value, of any size
    return a[1] == b[1]


def same_rows(a, b):
    return len(a) == len(b) and all(map(same, a, b))


def may_stand(kind, term):
    """May an s. or t. variable stand for a term? An e. variable is never a single term."""
    return term[0] in SYMBOLS + (S,) or kind == T and term[0] in (T, BRACKET)


def matches(pattern, row, values, back):
    """All matches in order; back says whether a bracket whose contents matched is gone back into."""
    if not pattern:
        if not row:
            yield values
        return
    (kind, name, inside, _), after = pattern[0], pattern[1:]
    variable = kind, name.upper() if kind in (S, T, E) else name
    if kind == BRACKET:
        if row and row[0][0] == BRACKET:
            inner = matches(inside, row[0][2], values, back)
            for found in inner if back else itertools.islice(inner, 1):
                yield from matches(after, row[1:], found, back)
    elif kind in SYMBOLS:
        if row and same(pattern[0], row[0]):
            yield from matches(after, row[1:], values, back)
    elif variable in values:
        size = len(values[variable])
        if same_rows(values[variable], row[:size]):
            yield from matches(after, row[size:], values, back)
    elif kind == E:
        for size in range(len(row) + 1):
            yield from matches(after, row[size:], {**values, variable: row[:size]}, back)
    elif kind in (S, T) and row and may_stand(kind, row[0]):
        yield from matches(after, row[1:], {**values, variable: row[:1]}, back)


def some(found):
    return next(found, None) is not None


def shadows(earlier, later):
    return some(matches(earlier, later, {}, False))


def recognises(pattern, argument):
    return some(matches(pattern, argument, {}, True))


def literal(run):
    return all(kind in SYMBOLS or kind == BRACKET and literal(inside) for kind, _, inside, _ in run)


def asked(functions):
    """The patterns of the sentences, and the calls with their record numbers, in record order."""
    patterns, calls, count = [], [], 0
    waiting = [sentence for _, sentences in functions for sentence in sentences]

    def walk(run):
        nonlocal count
        for kind, _, inside, sentences in run:
            if kind == CALL:
                calls.append((count, inside))
            count += 1
            waiting.extend(sentences)
            walk(inside)

    for pattern, conditions, result in waiting:
        patterns.append(pattern)
        walk(pattern)
        for condition_result, condition_pattern in conditions:
            walk(condition_result)
            walk(condition_pattern)
        walk(result)
    return patterns, calls


def answer(functions):
    """The lines that the program writes after a case's first."""
    patterns, calls = asked(functions)
    lines = []
    for later, pattern in enumerate(patterns):
        for earlier in range(later):
            lines.append(f"{earlier} {'shadows' if shadows(patterns[earlier], pattern) else 'does not shadow'} {later}")
    for at, argument in calls:
        if literal(argument):
            for sentence, pattern in enumerate(patterns):
                lines.append(f"{sentence} {'matches' if recognises(pattern, argument) else 'does not match'} the call at {at}")
    return lines


# Cases

cases = []


def put(label, data, expected):
    assert 0 < len(label) < 80 and label.isascii() and label.isprintable(), label
    assert label not in [other for other, _, _ in cases], label
    cases.append((label, data, expected))


def case(label, source, *known):
    """A case that the model answers; known are lines written by hand, with #0 for the first call of the law."""
    functions = Reader(source).functions()
    lines = answer(functions)
    for line in known:
        for k, (at, _) in enumerate(asked(functions)[1]):
            line = line.replace(f"call #{k}", f"the call at {at}")
        assert line in lines, (label, line, lines)
    put(label, encoded(law(source)), " accepted\n" + "".join(f"  {line}\n" for line in lines))


def pair(label, earlier, later, *known, calls=()):
    """Two patterns, and arguments of calls in the second sentence's result."""
    case(label, f"F {{ {earlier} = ; {later} = {' '.join(f'<F {one}>' for one in calls)}; }}", *known)


def one(label, pattern, *arguments, known=()):
    """A pattern and arguments of calls."""
    case(label, f"F {{ {pattern} = {' '.join(f'<F {one}>' for one in arguments)}; }}", *known)


def spellings(label, *groups):
    """Numbers, in groups of one value each, every two in both orders: one shadows and matches those of its group alone."""
    numbers = [(text, group) for group, texts in enumerate(groups) for text in texts]
    patterns = numbers + numbers[-2::-1]
    known = [f"{i} {'shadows' if a == b else 'does not shadow'} {j}"
             for (i, (_, a)), (j, (_, b)) in itertools.combinations(enumerate(patterns), 2)]
    known += [f"{i} {'matches' if a == b else 'does not match'} call #{j}"
              for i, (_, a) in enumerate(patterns) for j, (_, b) in enumerate(numbers)]
    calls = " ".join(f"<F {text}>" for text, _ in numbers)
    case(label, "F { " + " = ; ".join(text for text, _ in patterns) + f" = {calls}; }}", *known)


def refused(label, source, number):
    """A case whose number is written by hand."""
    put(label, source if isinstance(source, bytes) else encoded(law(source)), f" refused {number}\n")


YES, NO = "0 shadows 1", "0 does not shadow 1"


def document_cases():
    pair("doc: e.X and (t.A)", "e.X", "(t.A)", YES)
    pair("doc: (t.X) and (e.A)", "(t.X)", "(e.A)", NO)
    pair("doc: s.A s.A and 'x' 'x'", "s.A s.A", "'x' 'x'", YES)
    pair("doc: s.A s.A and s.B s.C", "s.A s.A", "s.B s.C", NO)
    pair("doc: (e.A) t.B and (s.Q) e.A", "(e.A) t.B", "(s.Q) e.A", NO,
         "0 does not match call #0", "1 matches call #0", calls=["('x') 'p' 'q'"])
    pair("doc: (e.A e.B) e.A and ('x') 'x'", "(e.A e.B) e.A", "('x') 'x'", NO, "0 matches call #0", calls=["('x') 'x'"])
    case("doc: the listing's example", "F { e.X = 'a'; s.A = <F 1>; } H { 'q' = <H 2>; }",
         "0 shadows 1", "2 does not match call #1")
    case("doc: no functions", "")


def single_cases():
    """What an s. and a t. variable may stand for."""
    terms = {"character": "'a'", "identifier": "Name", "number": "12", "s.": "s.Q", "t.": "t.Q", "e.": "e.Q",
             "brackets": "('a')", "empty brackets": "()", "call": "<F>", "block": "['a' : 'b' = ;]"}
    for kind in "ste":
        for name, term in terms.items():
            if (kind, name) in [("t", "e."), ("s", "t."), ("s", "brackets"), ("t", "call")]:
                pair(f"single: {kind}. variable and {name}", f"{kind}.X", term, NO)
            elif kind == "e" or (kind, name) in [("s", "s."), ("t", "t."), ("t", "brackets")]:
                pair(f"single: {kind}. variable and {name}", f"{kind}.X", term, YES)
            else:
                pair(f"single: {kind}. variable and {name}", f"{kind}.X", term)
    pair("single: t.A t.B and e.A t.C, e.A once more", "t.A t.B", "e.A t.C e.A", NO)
    pair("single: an e. variable of the same index", "e.A t.B", "t.Q e.A", NO)
    pair("single: an e. variable that the earlier has bound", "(e.A) t.B", "(t.Q) e.A", NO)
    pair("single: e.A t.B and t.Q s.R", "e.A t.B", "t.Q s.R", YES)
    pair("single: two e. variables", "e.A e.B", "e.C", YES)
    pair("single: one e. variable", "e.A", "e.B e.C 'x'", YES)
    pair("single: e.A 'x' and e.B", "e.A 'x'", "e.B", NO)
    pair("single: e.A 'x' and 'x' e.B 'x'", "e.A 'x'", "'x' e.B 'x'", YES)


def name_cases():
    pair("index: s.a-b s.a_b and two symbols", "s.a-b s.a_b", "'x' 'y'", YES, "0 matches call #0", calls=["'x' 'y'"])
    pair("index: s.a s.A and two symbols", "s.a s.A", "'x' 'y'", NO, "0 does not match call #0", "0 matches call #1",
         calls=["'x' 'y'", "'x' 'x'"])
    pair("index: s.A s.A and s.a-b s.a_b", "s.A s.A", "s.a-b s.a_b", NO)
    pair("index: s.A s.A and s.a-b s.A-B", "s.A s.A", "s.a-b s.A-B", YES)
    pair("index: s.A s.A and s.1 s.1", "s.A s.A", "s.1 s.1", YES)
    pair("index: s.A t.A", "s.A t.A", "'x' 'y'", YES, calls=["'x' 'y'", "'x' ('x')", "('x') 'x'"])
    pair("index: s.A t.A e.A", "s.A t.A e.A", "'x' ('y')", YES, calls=["'x' 'y' 'z' 'z'"])
    pair("index: t.A t.A and s.B t.B", "t.A t.A", "s.B t.B", NO)
    pair("index: e.a-b e.a_b e.A-B", "e.a-b e.a_b e.A-B", "'x' 'y' 'x'", YES, calls=["'x' 'y' 'x'", "'x'"])
    pair("name: Foo-Bar and foo_BAR", "Foo-Bar", "foo_BAR", YES, "0 matches call #0", calls=["FOO-BAR", "FooBar"])
    pair("name: Foo and 'F'", "Foo", "'F'", NO, calls=["Foo 1"])
    pair("name: a character by its value", "'a'", "'A'", NO, calls=["'a'", "'A'", "a"])
    # Zeros count in identifiers and indices.
    pair("name: A7 and A07", "A7", "A07", NO, "0 does not match call #0", calls=["A07"])
    pair("index: s.7 s.07 and two symbols", "s.7 s.07", "1 2", YES, "0 matches call #0", calls=["1 2"])


def number_cases():
    pair("number: 007 and 7", "007", "7", YES, "0 matches call #0", "1 matches call #1", calls=["7", "007"])
    pair("number: s.A s.A and 007 7", "s.A s.A", "007 7", YES, "0 matches call #0", "1 matches call #1", calls=["007 7", "7 7"])
    pair("number: above a word", "4294967296", "4294967297", NO, calls=["4294967296", "0"])
    pair("number: '7' and 7", "'7'", "7", NO, calls=["'7'", "7"])
    pair("number: 64 digits", "1" * 64, "1" * 63 + "2", NO, calls=["1" * 64])
    spellings("number: zeros in front", ["7", "07", "0" * 63 + "7"])
    spellings("number: zeros alone", ["0", "00", "0" * 64], ["1"])
    spellings("number: zeros after another digit", ["1", "001"], ["10", "010"], ["100"])
    spellings("number: 63 digits, and a zero in front", ["9" * 63, "0" + "9" * 63], ["9" * 64])
    # These differ in the last digit, by 2 to the power 32 and 64, and in the first digit: a machine word has one value for
    # some of them, and so has floating point.
    spellings("number: 64 digits, five values", *[[str(value)] for value in (
        10**63, 10**63 + 1, 10**63 + 2**32, 10**63 + 2**64, 2 * 10**63)])
    # Zeros alone are a term.
    pair("number: e.A and 00", "e.A", "00", YES, "0 matches call #0", "1 matches call #0", "1 does not match call #1",
         calls=["0", ""])
    pair("number: 00 and e.A", "00", "e.A", NO, "0 matches call #0", "0 does not match call #1", "0 does not match call #2",
         calls=["0", "", "0 0"])
    pair("number: 07 and '7'", "07", "'7'", NO, "0 does not match call #0", "1 does not match call #1", calls=["'7'", "7"])
    # No Refal spells the first two: identifiers of digits.
    digits = changed(changed(law("F { 07 = ; 7 = ; 7 = <F 07>; }"), "terms", 0, 0, IDENTIFIER), "terms", 1, 0, IDENTIFIER)
    put("number: 7 and the identifiers 07 and 7", encoded(digits), " accepted\n"
        "  0 does not shadow 1\n  0 does not shadow 2\n  1 does not shadow 2\n"
        "  0 does not match the call at 3\n  1 does not match the call at 3\n  2 matches the call at 3\n")


def repeated_number_cases():
    """A number in two spellings inside brackets and as a variable's values, the longer spelling first and second."""
    pair("number: in brackets", "((007) 0)", "((7) 00)", YES, "0 matches call #0", "0 does not match call #1",
         calls=["((07) 000)", "((70) 0)"])
    pair("number: s.A (s.A) and 07 (7)", "s.A (s.A)", "07 (7)", YES, "0 matches call #0", "0 does not match call #1",
         calls=["0 (00)", "1 (10)"])
    pair("number: t.A t.A and (007) (7)", "t.A t.A", "(007) (7)", YES, "0 matches call #0", "0 matches call #1",
         "0 does not match call #2", "0 does not match call #3", calls=["(7) (007)", "07 7", "(07) (70)", "(07) 7"])
    pair("number: e.A 'x' e.A and 07 1 'x' 7 01", "e.A 'x' e.A", "07 1 'x' 7 01", YES, "0 matches call #0",
         "0 does not match call #1", calls=["07 1 'x' 7 01", "07 1 'x' 7 10"])
    pair("number: (e.A) e.A and (0 (01)) 00 (1)", "(e.A) e.A", "(0 (01)) 00 (1)", YES, "0 matches call #0",
         "0 does not match call #1", calls=["(0 (01)) 00 (1)", "(0 (01)) 00 (0)"])


def repeated_cases():
    pair("repeated: s. variable apart", "s.A 'x' s.A", "'y' 'x' 'y'", YES, calls=["'y' 'x' 'y'", "'y' 'x' 'z'"])
    pair("repeated: t. variable", "t.A t.A", "('x' ()) ('x' ())", YES, "0 matches call #0", calls=["('x') ('x')", "('x') ('y')", "() ()"])
    pair("repeated: t. variable, brackets with variables", "t.A t.A", "(s.B e.C) (s.b e.c)", YES)
    pair("repeated: t. variable, other variables", "t.A t.A", "(s.B e.C) (s.B e.D)", NO)
    pair("repeated: t. variable, brackets with a call", "t.A t.A", "(<F>) (<F>)", NO)
    pair("repeated: t. variable, more inside", "t.A t.A", "('x') ('x' 'y')", NO, calls=["('x' 'y') ('x')"])
    pair("repeated: e. variable", "e.A e.A", "'x' 'y' 'x' 'y'", YES, "0 matches call #0",
         calls=["'x' 'y' 'x' 'y'", "'x' 'y' 'x'", "", "('x') ('x')", "('x') ('y')"])
    pair("repeated: e. variable with variables", "e.A e.A", "s.B e.C s.B e.C", YES)
    pair("repeated: e. variable, three times", "e.A 'b' e.A 'b' e.A", "'b' 'b'", YES, calls=["'a' 'b' 'a' 'b' 'a'", "'a' 'b' 'b' 'a'"])
    pair("repeated: inside and outside", "(e.A) e.A", "('x' 'y') 'x' 'y'", YES, calls=["('x') 'x'", "('x') 'y'", "()"])
    pair("repeated: outside and inside", "e.A (e.A)", "'x' ('x')", YES, calls=["'x' ('x')", "'x' ('y')", "('x') (('x'))"])
    pair("repeated: inside twice", "(e.A) (e.A)", "(s.B) (s.B)", YES, calls=["('x') ('x')", "('x') ()"])
    pair("repeated: s. variable in brackets", "((s.A)) s.A", "(('x')) 'x'", YES, calls=["(('x')) 'x'", "(('x')) 'y'"])
    pair("repeated: between brackets", "(e.A e.B) (e.B e.A)", "('x' 'y') ('y' 'x')", calls=["('x' 'y') ('y' 'x')", "('x' 'y') ('x' 'y')"])


def back_cases():
    """Going back into a bracket whose contents matched: in literal matching, never in shadowing."""
    pair("back: second length", "(e.A e.B) e.A 'y'", "('x') 'x' 'y'", NO, "0 matches call #0", calls=["('x') 'x' 'y'"])
    pair("back: first length", "(e.A e.B) e.B", "('x') 'x'", YES, calls=["('x') 'x'"])
    pair("back: two levels", "((e.A e.B) e.C) e.A e.C", "(('x') 'y') 'x' 'y'", NO, "0 matches call #0", calls=["(('x') 'y') 'x' 'y'"])
    pair("back: into the inner of two", "((e.A e.B) e.A) 'z'", "(('x') 'x') 'z'", NO, "0 matches call #0", calls=["(('x') 'x') 'z'"])
    pair("back: into the first of two brackets", "(e.A e.B) (e.A)", "('x') ('x')", NO, "0 matches call #0", calls=["('x') ('x')", "('x') ('y')"])
    pair("back: past a bracket that fails", "(e.A e.B) ('y') e.A", "('x') ('y') 'x'", NO, calls=["('x') ('y') 'x'"])
    pair("back: outside a bracket", "e.A (e.B) e.A", "'x' () 'x'", YES, calls=["'x' () 'x'"])
    pair("back: an e. variable before a bracket", "e.A ('x') e.B", "('y') ('x') ('x')", YES, calls=["('y') ('x') ('x')", "('y')"])
    pair("back: a later bracket outside", "e.A (e.B 'x') e.C", "('y') ('x') ('x')", YES, calls=["('y') ('z' 'x') 'a'"])


def other_cases():
    pair("other: call in the earlier pattern", "<F> e.X", "'a'", NO, calls=["'a'", ""])
    pair("other: call in brackets", "(<F>) e.X", "(<F>) 'a'", NO, calls=["() 'a'"])
    pair("other: call at the end", "e.X <F>", "e.X", NO, calls=["'a'", ""])
    pair("other: block in the earlier pattern", "['a' : 'b' = ;]", "e.X", NO, calls=["'a'"])
    pair("other: block in the later pattern", "e.X", "['a' : 'b' = ;] 'c'", YES)
    pair("other: block in brackets", "([ : = ;])", "()", NO, calls=["()"])
    pair("other: call in the later pattern's brackets", "(e.X)", "(<F 'a'>)", YES)
    case("other: sentences of a block", "F { e.X = [e.X : e.Y = <F 'a'>; 'b' s.A = ; s.A s.B = <F 'b' 'c'>; ]; }")
    case("other: calls in a condition", "F { e.X, <F 'a'> : s.A = ; s.A, <G> : 'b' <F 'b'> = <F s.A>; } G { = ; }")
    case("other: calls in calls", "F { s.A = <F <F 'a'>> (<F ('b')>); (e.A) = ; }")
    case("other: arguments that are not literal", "F { e.X = <F s.A> <F (e.X)> <F ('a' <F>)> <F [ : ]> <F ('a')>; }")


def empty_cases():
    one("empty: pattern", "", "", "'a'", "()", known=["0 matches call #0", "0 does not match call #1"])
    pair("empty: both patterns", "", "", YES)
    pair("empty: and e.X", "", "e.X", NO)
    pair("empty: e.X and nothing", "e.X", "", YES)
    pair("empty: e.X e.X and nothing", "e.X e.X", "", YES, calls=[""])
    pair("empty: e.X e.Y e.Z and brackets", "e.X e.Y e.Z", "() ()", YES, calls=["", "()", "() () ()"])
    pair("empty: brackets", "()", "(e.X)", NO, calls=["()", "(())", "() ()", ""])
    pair("empty: brackets in brackets", "(())", "(()())", NO, calls=["(())", "(() ())", "((()))"])


def nested(depth, inside=""):
    return "(" * depth + inside + ")" * depth


def limit_cases():
    pair("limit: 32 brackets around a symbol", nested(32, "'a'"), nested(32, "'a'"), YES)
    pair("limit: 32 brackets around a variable", nested(32, "e.X"), nested(33), YES)
    pair("limit: 33 brackets", nested(33), nested(33), YES)
    pair("limit: 33 brackets and 32", nested(33), nested(32), NO)
    one("limit: a call with 32 brackets", nested(32, "e.X"), nested(32), nested(31, "'a'"), known=["0 matches call #0"])
    one("limit: a call with 31 brackets", nested(31, "s.X"), nested(31, "'a'"), nested(31), known=["0 matches call #0"])
    one("limit: e. variables at each of 31 levels", "(e.X " * 31 + ")" * 31, nested(31), "('a' " * 31 + ")" * 31)
    refused("limit: 33 brackets around a symbol", "F { " + nested(33, "'a'") + " = ; }", 8)
    pair("limit: 32 s. variables", variables("s", 32), variables("s", 32), YES, "0 matches call #0", calls=[times(32), times(31)])
    pair("limit: 32 s. variables, the last repeated", variables("s", 32) + variables("s", 32)[-4:], times(33), YES)
    one("limit: 32 e. variables", variables("e", 32), "", "'a'", times(32))
    pair("limit: 32 e. variables and 32", variables("e", 32), variables("e", 32), YES)
    one("limit: 32 variables in brackets", "".join(f"(e.{k}) " for k in range(32)), "('a') " * 32, "() " * 31)
    refused("limit: 33 variables", "F { " + variables("s", 33) + " = ; }", 9)
    one("limit: 500 times e.X", "e.X " * 500, "", "'a'", known=["0 matches call #0", "0 does not match call #1"])
    pair("limit: 255 times e.X", "e.X " * 255, "e.X " * 255, YES)
    one("limit: 255 symbols", times(255), times(255), known=["0 matches call #0"])
    one("limit: 255 symbols, the last another", times(254) + "'b'", times(255), known=["0 does not match call #0"])
    pair("limit: 256 symbols", times(256), times(256), YES)
    one("limit: 255 empty brackets", "() " * 255, "() " * 255, known=["0 matches call #0"])
    one("limit: 127 pairs of brackets with a symbol", "(s.A) " * 127, "('a') " * 127)
    pair("limit: 256 t. variables", "t.A " * 256, "t.B " * 256, YES)
    case("limit: sentences of three functions", "F { e.X = ; s.A = ; } G { s.A = <F 1> <G 1>; } H { (e.A) = <H (1)>; () = ; }")


def random_run(numbers, depth, literals):
    run = ""
    for _ in range(numbers.below(4)):
        if numbers.below(4) == 0 and depth < 3:
            run += f"({random_run(numbers, depth + 1, literals)}) "
        elif literals or numbers.below(3) == 0:
            run += ("'a' ", "'b' ")[numbers.below(2)]
        else:
            run += ("s.A ", "t.B ", "e.C ", "e.D ", "s.E ", "e.C ")[numbers.below(6)]
    return run


def random_cases(count):
    numbers = Numbers()
    for k in range(count):
        patterns = [random_run(numbers, 0, False) for _ in range(4)]
        calls = " ".join(f"<F {random_run(numbers, 0, True)}>" for _ in range(4))
        case(f"random: {k}", "F { " + " = ; ".join(patterns) + f" = {calls}; }}")


def main():
    document_cases()
    single_cases()
    name_cases()
    number_cases()
    repeated_number_cases()
    repeated_cases()
    back_cases()
    other_cases()
    empty_cases()
    limit_cases()
    random_cases(40)
    folder = Path(__file__).resolve().parent.parent / "crates" / "test_pairs"
    with open(folder / "stdin", "wb") as given, open(folder / "stdout", "wb") as expected:
        for label, data, lines in cases:
            given.write(label.encode("ascii") + b"\n" + word(len(data)) + data)
            expected.write((label + lines).encode("ascii"))
    print(f"{len(cases)} cases")


if __name__ == "__main__":
    # a match goes one call deeper for each record
    sys.setrecursionlimit(10000)
    threading.stack_size(256 * 1024 * 1024)
    thread = threading.Thread(target=main)
    thread.start()
    thread.join()
