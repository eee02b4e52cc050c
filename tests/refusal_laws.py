"""Writes the cases of the program crates/test_refusals: what both calls answer, and what every lent word holds then.

Run at the repository's root: python3 tests/refusal_laws.py
It writes crates/test_refusals/stdin, which the program reads, and crates/test_refusals/stdout, which the program has to write.

A law is written as Refal and its spans are its places there; what is listed of it is computed by the model in
tests/listing_model.py. The refusals 1 to 9 are written by hand beside the cases, as in tests/edge_laws.py; the other
refusals, and which buffers keep their words, are computed here from document 01's table. Where document 01 gives an answer,
and where numbers have zeros in front (document 02, R-3), it is written by hand too (`found`, `told`, `formats`, `listed`), and
the model has to give it.

Not independent of the rest: the law files are made by the encoder of tests/edge_laws.py, which numbers records by the same
rule as the model does; formats and matching are those of tests/store_laws.py and tests/pair_laws.py; and the texts of
findings were copied from lints.rs.
"""
import sys
import threading
from pathlib import Path

from edge_laws import (BLOCK, BRACKET, CHARACTER, SMALL, TOP, Law, Reader, changed, chain, encoded, filled, one_term, records,
                       variables, word)
from listing_model import STORE, Listing
from pair_laws import nested
from store_laws import Numbers, Over, display, growing, infer, times

PLACES = 256
STRICT, CLASSIC = 1, 0
STORE_LEN, WORDS_LEN, TEXT_LEN = 8320, 256, 400


# What a case has to write

def runs(meanings):
    """Equal ones in a row as one, with their number."""
    pieces = []
    for one in meanings:
        if pieces and pieces[-1][0] == one:
            pieces[-1][1] += 1
        else:
            pieces.append([one, 1])
    return "".join(f" {one}" if count == 1 else f" {one}*{count}" for one, count in pieces) + "\n"


def after(written, lent):
    """The words of a buffer after a call that wrote some of them from the start."""
    assert len(written) <= lent
    return runs(list(written) + ["kept"] * (lent - len(written)))


def bytes_after(text, lent):
    return (f" {text}" if text else "") + after([], lent - len(text))


def settings_refused(mode, overrides):
    return mode not in (0, 1) or len(overrides) > 8 or any(lint not in (1, 2, 3, 4) or level > 3 for lint, level in overrides)


class Asked:
    """Settings and lent lengths; `refused` is the number of a refusal from 1 to 9 that the law deserves."""

    def __init__(self, functions, mode, overrides, store, words, text, position, refused):
        self.store, self.words, self.text, self.position = store, words, text, position
        self.listing = None
        if settings_refused(mode, overrides):
            self.number = 14
        elif refused is not None:
            self.number = refused
        elif store < STORE:
            self.number = 15
        else:
            self.number = None
            try:
                self.listing = Listing(functions, mode, overrides)
            except Over:
                self.number = 10

    def store_after(self):
        if self.listing:
            return after(self.listing.store, self.store)
        return after([0] * STORE if self.number == 10 else [], self.store)

    def found(self):
        """The findings call's answer, and the words that it writes."""
        if not self.listing:
            return f"refused {self.number}", []
        words = [one for finding, _ in self.listing.findings for one in finding]
        if len(words) > self.words:
            return "refused 11", []
        return f"{len(self.listing.findings)} {self.listing.rounds} {int(self.listing.settled)}", words

    def told(self):
        """The text call's answer, and the text that it writes."""
        if not self.listing:
            return f"refused {self.number}", ""
        if len(self.listing.findings) > PLACES:
            return "refused 11", ""
        if self.position >= len(self.listing.findings):
            return "refused 12", ""
        text = self.listing.findings[self.position][1]
        if len(text) > self.text:
            return "refused 13", ""
        return str(len(text)), text

    def lines(self):
        answer, words = self.found()
        lines = f"  findings {answer}\n    store{self.store_after()}    words{after(words, self.words)}"
        answer, text = self.told()
        return lines + f"  text {answer}\n    store{self.store_after()}    bytes{bytes_after(text, self.text)}"


# Cases

cases = []


def subjects(listing, source):
    """The lint of each finding, and its subject as the source spells it."""
    return [f"{finding[0]}: {source.strip()[finding[2]:finding[3]]}" for finding, _ in listing.findings]


def case(label, source, *, mode=STRICT, overrides=(), store=STORE_LEN, words=WORDS_LEN, text=TEXT_LEN, position=0,
         refused=None, found=None, told=None, formats=None, listed=None):
    """A case. The law is Refal, records or bytes; of the last two nothing is listed."""
    assert 0 < len(label) < 80 and label.isascii() and label.isprintable(), label
    assert label not in [other for other, _, _ in cases], label
    functions, refal = None, source
    if isinstance(source, str):
        functions = Reader(source).functions()
        source = records(functions, spans=True)
    data = encoded(source) if isinstance(source, Law) else source
    asked = Asked(functions, mode, overrides, store, words, text, position, refused)
    assert functions is not None or asked.number is not None, label
    assert found is None or asked.found()[0] == found, (label, asked.found())
    assert told is None or told in asked.told(), (label, asked.told())
    assert formats is None or formats == [display(format) for format in infer(functions)[2]], label
    assert listed is None or subjects(asked.listing, refal) == listed, (label, subjects(asked.listing, refal))
    assert len(data) <= 16400 and store <= 8400 and words <= 4200 and text <= 2048 and len(overrides) <= 16, label
    numbers = [mode, len(overrides), *[256 * lint + level for lint, level in overrides], store, words, text, position]
    cases.append((label, b"".join(map(word, numbers)) + word(len(data)) + data, asked.lines()))


EXAMPLE = "F { e.X = 'a'; s.A = <F 1>; } H { 'q' = <H 2>; }"
DEAD_TEXT = "sentence 2 of `F` is unreachable: sentence 1 has no conditions and already matches every argument this one matches"
# One finding of each lint.
FOUR = "F { e.X e.Y = <F 1>; s.A = <Numb>; } H { 'q' = <H 2>; }"
OVER_PATTERN = "F { " + times(65) + "= <Numb>; }"
OVER_ARGUMENT = "F { 'b' = ; } G { = <F " + times(65) + ">; }"
MANY = "F { = " + times(257, "<Numb> ") + "; }"
FILE_OVER = encoded(filled(4093, 3, 12, 500))
BLOCK_OWN = Law(b"", [], [[1, 0, 0]], [], [[BLOCK, 1]])
DEEP = "F { = " + nested(33, "'a'") + "; }"
WIDE = "F { " + variables("s", 33) + "= ; }"

FILES = {
    1: FILE_OVER,
    2: encoded(SMALL)[:-1],
    3: encoded(SMALL) + b"\0",
    4: word(4097),
    5: one_term(b"", CHARACTER, 0xD800),
    6: changed(SMALL, "functions", 1, 2, 2),
    7: BLOCK_OWN,
    8: DEEP,
    9: WIDE,
}


def document_cases():
    case("doc: the listing's example", EXAMPLE, found="2 2 1", told=DEAD_TEXT, formats=["[..]", "[..]", "[C]", "[]"])
    case("doc: the listing's example, second text", EXAMPLE, position=1,
         told="`<H ...>` always fails: `H` accepts [C], but this call passes [N]")
    case("doc: three 1s", growing(3), found="0 5 1", told="refused 12", formats=["[]", "[C S S S ..]"])
    case("doc: five 1s", growing(5), found="0 5 0", formats=["[]", "[C S S S S N ..]"])
    case("doc: <Add 1>", "F { = <Add 1>; }", found="1 2 1", told="`<Add ...>` always fails: expected exactly two integer numbers")
    case("doc: <Div 1 '-' 0>", "F { = <Div 1 '-' 0>; }", found="1 2 1", told="`<Div ...>` always fails: division by zero")
    case("doc: <Add 1 2 3>", "F { = <Add 1 2 3>; }", found="0 2 1", told="refused 12")
    case("doc: <Numb>", "F { = <Numb>; }", found="1 2 1",
         told="`<Numb ...>` always fails: expected a non-empty character string of decimal digits")
    case("doc: 64 functions", " ".join(f"F{k} {{ }}" for k in range(64)), found="0 1 1")
    case("doc: 65 functions", " ".join(f"F{k} {{ }}" for k in range(65)), refused=4)
    case("doc: depth 32", "F { = " + nested(32, "'a'") + "; }", found="0 2 1")
    case("doc: depth 33", DEEP, refused=8)
    case("doc: no functions", "", found="0 1 1", told="refused 12")
    case("doc: 65 characters that a sentence matches", "F { e.X = ; } G { = <F " + times(65) + ">; }", found="0 2 1")
    case("doc: 65 characters that no sentence matches", OVER_ARGUMENT, found="refused 10", told="refused 10")


def difference_cases():
    case("difference: (e.A) t.B does not shadow (s.Q) e.A", "F { (e.A) t.B = ; (s.Q) e.A = ; }", overrides=[(4, 3)], found="0 2 1")
    case("difference: a call that goes back into a bracket", "F { (e.A e.B) e.A = ; } G { = <F ('x') 'x'>; }",
         overrides=[(4, 3)], found="0 2 1")
    case("difference: shadowing does not go back", "F { (e.A e.B) e.A = ; ('x') 'x' = ; }", overrides=[(4, 3)], found="0 2 1")
    case("difference: brackets in a literal argument", "F { ('a') = ; } G { = <F ('b')>; }", found="1 2 1",
         told="`<F ...>` always fails: no sentence of `F` matches this argument")
    case("difference: numbers by value", "F { 007 = ; } G { = <F 7>; }", found="0 2 1")
    case("difference: a law's own Add", "Add { s.A = s.A; } F { = <Add 1>; }", found="1 2 1")
    case("difference: an outer variable is free in a block", "F { s.A e.X = [e.X : s.A = 1; s.B = 2;]; }", found="1 2 1",
         told="sentence 2 of `a block in `F`` is unreachable: sentence 1 has no conditions "
              "and already matches every argument this one matches")
    case("difference: twice, the last definition is matched", "F { 'a' = ; } f { 'b' = ; } G { = <F 'a'>; }", found="1 2 1",
         told="`<F ...>` always fails: no sentence of `F` matches this argument")
    case("difference: twice, formats join both", "F { 'a' = ; } f { 1 = ; } G { = <F s.A> <F Name>; }", found="1 2 1",
         formats=["[S]", "[]", "[]", "[]"], told="`<F ...>` always fails: no sentence of `F` matches this argument")


# Laws with zeros in front of numbers wherever numbers stand. A comment says what becomes of its line's last sentence or call;
# the line's others live or are recognised.
NINES, ZEROS = "9" * 63, "0" * 64
WRAPPED = str(int(NINES) + 2**64)  # 64 digits; a machine word takes it for NINES
# The second sentence of each of its blocks is dead: in its condition's result and pattern, and in its result.
WITH_BLOCKS = "008, [006 : 6 = ; 06 = ;] : [07 : 11 = ; 011 = ;] = [009 : 9 = ; 09 = ; 90 = ;]"
ZEROS_IN_SENTENCES = " ".join([
    "F { 7 = 007; 0007 = ;",  # dead
    "70 = ;",  # lives: a zero at the end counts
    f"0 = ; {ZEROS} = ;",  # dead: zeros alone are one number
    f"{NINES} = ; 0{NINES} = ;",  # dead: 64 digits
    f"{WRAPPED} = ;",  # lives
    "(02 (3)) = ; (2 (003)) = ;",  # dead: in brackets
    "s.A s.A = ; 01 1 = ;",  # dead: a repeated s. variable
    "1 10 = ;",  # lives: two values
    "t.A 'x' t.A = ; (00) 'x' (000) = ;",  # dead: a repeated t. variable
    "e.A 'y' e.A = ; 04 5 'y' 4 05 = ;",  # dead: a repeated e. variable
    "8, 07 : 7 = ; 08 = ;",  # lives: a sentence with a condition shadows nothing
    f"{WITH_BLOCKS}; }}",  # dead
])
ZEROS_IN_CALLS = " ".join([
    f"F {{ 7 = ; 0700 = ; 00 = ; {NINES} = ; s.A s.A = ; (02 t.B) t.B = ; e.C 'x' e.C = ; }}",
    "G { 07 <F 071>,",  # not asked about in a pattern
    "<F 0007> <F 070>",  # listed, in a condition: neither 7 nor 700
    ": 7 <F 072> =",  # not asked about in a pattern
    "<F 700> <F 7000>",  # listed
    f"<F 0> <F {ZEROS}>",  # recognised: zeros alone are one number
    f"<F 0{NINES}> <F {WRAPPED}>",  # listed: 64 digits
    "<F 05 5> <F 05 50>",  # listed: a repeated s. variable
    "<F (2 003) 3> <F (20 03) 3>",  # listed: in brackets, with a repeated t. variable
    "<F 01 (1) 'x' 1 (01)> <F 01 'x' 10>",  # listed: a repeated e. variable
    "(<F 000> <F 010>)",  # listed, in brackets
    # each second call listed, in a block's argument, result and condition; the second sentence dead
    "[<F 00007> <F 0070> : 8 = <F 07> <F 00070>; 08, <F 0000> <F 0100> : 00 = ;]",
    "<F <F 00071>>; }",  # listed; the call around it has no literal argument
])
ZEROS_IN_OPERANDS = " ".join([
    f"F {{ = <Div 1 000> <Mod 1 '-' {ZEROS}>",  # listed, both: division by zero
    "<Div 1 010>",  # not listed
    "<Div 00004294967295 0>",  # listed: a macrodigit
    "<Div 00004294967296 0>",  # not listed: above a macrodigit nothing is decided
    "<Add 0004294967295 1>",  # not listed
    f"<Add {'0' * 54}4294967295>",  # listed: 64 digits, one number alone
    f"<Add {'0' * 54}4294967296>; }}",  # not listed
])


def zeros_cases():
    case("zeros: sentences", ZEROS_IN_SENTENCES, overrides=[(4, 3)], position=9, found="11 2 1", listed=[
        "1: 0007 =", f"1: {ZEROS} =", f"1: 0{NINES} =", "1: (2 (003)) =", "1: 01 1 =", "1: (00) 'x' (000) =",
        "1: 04 5 'y' 4 05 =", f"1: {WITH_BLOCKS}", "1: 06 =", "1: 011 =", "1: 09 ="],
        told="sentence 2 of `a block in `F`` is unreachable: sentence 1 has no conditions "
             "and already matches every argument this one matches")
    case("zeros: calls", ZEROS_IN_CALLS, overrides=[(4, 3)], position=1, found="12 2 1", listed=[
        "1: 08, <F 0000> <F 0100> : 00 =", "2: <F 070>", "2: <F 7000>", f"2: <F {WRAPPED}>", "2: <F 05 50>", "2: <F (20 03) 3>",
        "2: <F 01 'x' 10>", "2: <F 010>", "2: <F 0070>", "2: <F 00070>", "2: <F 0100>", "2: <F 00071>"],
        told="`<F ...>` always fails: no sentence of `F` matches this argument")
    case("zeros: operands", ZEROS_IN_OPERANDS, position=1, found="4 2 1", listed=[
        "3: <Div 1 000>", f"3: <Mod 1 '-' {ZEROS}>", "3: <Div 00004294967295 0>", f"3: <Add {'0' * 54}4294967295>"],
        told="`<Mod ...>` always fails: division by zero")


def file_cases():
    """Each refusal of the file: before 15 and 10, and after 14."""
    for number, of in FILES.items():
        case(f"file: {number}", of, refused=number, found=f"refused {number}", told=f"refused {number}")
        case(f"file: {number}, nothing lent", of, store=0, words=0, text=0, refused=number, found=f"refused {number}")
        case(f"file: {number}, a longer store", of, store=8400, words=9, text=9, position=TOP, refused=number)
    for number in (1, 2, 9):
        case(f"file: {number}, mode 2", FILES[number], mode=2, refused=number, found="refused 14", told="refused 14")
    case("file: 1, 16400 zeros", bytes(16400), refused=1)
    case("file: 2, empty", b"", refused=2)
    case("file: 4, 129 sentences", filled(1, 129, 0, 0), refused=4)
    case("file: 4, 129 conditions", filled(1, 1, 129, 0), refused=4)
    case("file: 4, 513 terms", filled(1, 1, 0, 513), refused=4)
    case("file: 6, n passes", Law(b"F", [[0, 1, 1]], [[1, 0, 0]], [], [[BRACKET, 0, 0, 1]]), refused=6)
    case("file: 8, blocks' sentences", "F { = " + chain(33, "'a'") + "; }", refused=8)
    case("file: 9 before 10", "F { " + variables("s", 33) + times(65) + "= ; }", refused=9)


def settings_cases():
    case("settings: mode 2", EXAMPLE, mode=2, found="refused 14", told="refused 14")
    case("settings: mode the largest word", EXAMPLE, mode=TOP, found="refused 14")
    case("settings: eight overrides", EXAMPLE, overrides=[(1, 2)] * 8, found="2 2 1")
    case("settings: nine overrides", EXAMPLE, overrides=[(1, 2)] * 9, found="refused 14", told="refused 14")
    case("settings: lint 0", EXAMPLE, overrides=[(0, 1)], found="refused 14", told="refused 14")
    case("settings: lint 0, severity 0", EXAMPLE, overrides=[(0, 0)], found="refused 14")
    case("settings: lint 5", EXAMPLE, overrides=[(5, 1)], found="refused 14", told="refused 14")
    case("settings: severity 4", EXAMPLE, overrides=[(1, 4)], found="refused 14", told="refused 14")
    case("settings: severity 255", EXAMPLE, overrides=[(4, 255)], found="refused 14")
    case("settings: the largest override", EXAMPLE, overrides=[(0xFFFFFF, 255)], found="refused 14")
    case("settings: lint 256 + 1", EXAMPLE, overrides=[(257, 1)], found="refused 14")
    case("settings: the eighth is wrong", EXAMPLE, overrides=[(1, 1)] * 7 + [(1, 4)], found="refused 14")
    case("settings: a second one of a lint is wrong", EXAMPLE, overrides=[(1, 3), (1, 4)], found="refused 14")
    case("settings: mode 2, nothing lent", EXAMPLE, mode=2, store=0, words=0, text=0, found="refused 14")
    case("settings: nine overrides and 65 shapes", OVER_PATTERN, overrides=[(2, 3)] * 9, found="refused 14")


def store_cases():
    case("store: none", EXAMPLE, store=0, found="refused 15", told="refused 15")
    case("store: one word short", EXAMPLE, store=8319, found="refused 15", told="refused 15")
    case("store: one word short, no functions", "", store=8319, found="refused 15")
    case("store: one word more", EXAMPLE, store=8321, found="2 2 1")
    case("store: 80 words more", EXAMPLE, store=8400, position=1, found="2 2 1")
    case("store: 64 names", " ".join(f"F{k} {{ s.A = 'a'; }}" for k in range(64)), store=8400, found="0 2 1")
    case("store: 15 before 10 by a pattern", OVER_PATTERN, store=8319, found="refused 15", told="refused 15")
    case("store: 15 before 10 by an argument", OVER_ARGUMENT, store=8319, found="refused 15")
    case("store: 15 before 11", EXAMPLE, store=8319, words=0, text=0, found="refused 15", told="refused 15")


def shapes_cases():
    case("shapes: 65 in a pattern", OVER_PATTERN, found="refused 10", told="refused 10")
    case("shapes: 65 in a pattern, a longer store", OVER_PATTERN, store=8400, found="refused 10")
    case("shapes: 64 in a pattern", "F { " + times(64) + "= ; }", found="0 2 1")
    case("shapes: 65 in a result", "F { = " + times(65) + "; }", found="refused 10")
    case("shapes: 65 in an argument, a longer store", OVER_ARGUMENT, store=8400, found="refused 10", told="refused 10")
    case("shapes: 64 in an argument", "F { 'b' = ; } G { = <F " + times(64) + ">; }", found="1 2 1", text=2048)
    case("shapes: 10 before 11", "F { 'b' = <Numb>; } G { = <F " + times(65) + ">; }", words=0, text=0, found="refused 10", told="refused 10")
    case("shapes: 10 before 11 and 257 findings", MANY + " G { 'b' = <G " + times(65) + ">; }", words=0, found="refused 10", told="refused 10")
    case("shapes: 10 before 12", OVER_ARGUMENT, position=TOP, told="refused 10")
    for mode, level in ((STRICT, 3), (CLASSIC, 3), (CLASSIC, 0)):
        case(f"shapes: 65 in an argument, mode {mode}, lint 2 at {level}", OVER_ARGUMENT, mode=mode, overrides=[(2, level)],
             found="refused 10", told="refused 10")
    case("shapes: 65 in an argument, every lint hidden", OVER_ARGUMENT, overrides=[(lint, 3) for lint in (1, 2, 3, 4)], found="refused 10")
    case("shapes: 65 in an argument of an undefined function", "G { = <F " + times(65) + ">; }", found="0 2 1")
    case("shapes: 65 in an argument in a pattern", "F { <F " + times(65) + "> = ; }", found="0 2 1")
    case("shapes: 65 in an argument of a condition", "F { s.A, <F s.A " + times(64) + "> : = ; }", found="refused 10")
    case("shapes: 65 in an argument of a block's sentence", "F { 'b' = [ : = <F " + times(65) + ">;]; }", found="refused 10")
    case("shapes: 65 in an argument of a block in a pattern", "F { [ : = <F " + times(65) + ">;] = ; }", found="0 2 1")
    case("shapes: 65 in an argument inside an argument", "F { 'b' = <G <F " + times(65) + ">>; }", found="refused 10")
    case("shapes: 65 past an open tail", "F { s.A = ; } G { e.X = <F e.X " + times(65) + ">; }", found="0 2 1")
    case("shapes: 66 by two calls in an argument", "G { = " + times(33) + "; } F { 'b' = <F <G> <G>>; }", found="refused 10")
    case("shapes: 64 by two calls in an argument", "G { = " + times(32) + "; } F { 'b' = <F <G> <G>>; }", found="1 2 1", text=2048)
    case("shapes: 65 that the last definition matches", "F { 'b' = ; } f { e.X = ; } G { = <F " + times(65) + ">; }", found="0 2 1")
    case("shapes: 65 that an earlier definition matches", "f { e.X = ; } F { 'b' = ; } G { = <F " + times(65) + ">; }", found="refused 10")
    case("shapes: nothing after a refusal", "", found="0 1 1")


def findings_cases():
    case("findings: none, no words lent", "F { = ; }", words=0, text=0, found="0 2 1", told="refused 12")
    case("findings: two, no words lent", EXAMPLE, words=0, found="refused 11", told=DEAD_TEXT)
    case("findings: two, one word short", EXAMPLE, words=15, found="refused 11", told=DEAD_TEXT)
    case("findings: two, exactly full", EXAMPLE, words=16, found="2 2 1")
    case("findings: two, one word more", EXAMPLE, words=17, found="2 2 1")
    case("findings: two, a place of seven words more", EXAMPLE, words=23, found="2 2 1")
    case("findings: one of two hidden, exactly full", EXAMPLE, words=8, overrides=[(1, 3)], found="1 2 1")
    case("findings: one of two hidden, one word short", EXAMPLE, words=7, overrides=[(1, 3)], found="refused 11")
    case("findings: 256, exactly full", MANY.replace("<Numb> ", "", 1), words=2048, position=255, found="256 2 1")
    case("findings: 256, one word short", MANY.replace("<Numb> ", "", 1), words=2047, position=256, found="refused 11", told="refused 12")
    case("findings: 257, exactly full", MANY, words=2056, found="257 2 1", told="refused 11")
    case("findings: 257, one word short", MANY, words=2055, found="refused 11", told="refused 11")
    case("findings: 257, 40 words more", MANY, words=2096, position=TOP, text=0, found="257 2 1", told="refused 11")
    case("findings: 257 hidden", MANY, overrides=[(3, 3)], words=0, found="0 2 1", told="refused 12")
    case("findings: 512", "F { = " + times(512, "<Numb> ") + "; }", words=4200, found="512 2 1", told="refused 11")
    case("findings: 257 of lint 2 and none defined", "F { = " + times(257, "<G> ") + "; }", words=0, found="0 2 1")
    case("findings: 256 and one more that is hidden", MANY.replace("F {", "F { e.X = ; e.Y = ; "), words=2056,
         overrides=[(1, 3)], found="257 2 1", told="refused 11")
    pile = "F { " + times(100, "e.A e.B = <Numb> <Numb>; ") + "}"
    case("findings: 399", pile, words=3192, found="399 2 1", told="refused 11")
    case("findings: 399, 299 in classic mode", pile, mode=CLASSIC, words=2392, found="299 2 1", told="refused 11")
    case("findings: 399, 199 with lint 3 hidden", pile, overrides=[(3, 3)], words=1592, position=198, found="199 2 1")
    case("findings: 399, 200 of lint 3", pile, overrides=[(1, 3), (4, 3)], words=1600, position=199, found="200 2 1")


def text_cases():
    length = len(DEAD_TEXT)
    case("text: no bytes lent", EXAMPLE, text=0, told="refused 13")
    case("text: one byte short", EXAMPLE, text=length - 1, told="refused 13")
    case("text: exactly full", EXAMPLE, text=length, told=DEAD_TEXT)
    case("text: one byte more", EXAMPLE, text=length + 1, told=DEAD_TEXT)
    case("text: no such finding", EXAMPLE, position=2, told="refused 12")
    case("text: no such finding, no bytes lent", EXAMPLE, position=2, text=0, told="refused 12")
    case("text: position the largest word", EXAMPLE, position=TOP, told="refused 12")
    case("text: positions count what is shown", EXAMPLE, overrides=[(1, 3)], position=0,
         told="`<H ...>` always fails: `H` accepts [C], but this call passes [N]")
    case("text: positions count what is shown, no such one", EXAMPLE, overrides=[(1, 3)], position=1, told="refused 12")
    for position in range(4):
        case(f"text: each lint, {position}", FOUR, position=position)
    case("text: 10 e. variables, brackets included", "F { e.A (e.B (e.C)) e.A e.A e.A e.A e.A e.A e.A = ; }", found="1 2 1",
         told="sentence of `F` has 10 `e.`-variables in its pattern; matching may backtrack proportionally to the argument "
              "length to the power 10")
    case("text: numbers of two digits", "F { " + "".join(f"{k} = ; " for k in range(9)) + "s.A = ; 'a' = ; }", found="1 2 1",
         told="sentence 11 of `F` is unreachable: sentence 10 has no conditions and already matches every argument this one matches")
    long = "N" + "x" * 63
    case("text: names of 64 bytes", f"{long} {{ 'a' = <{long} 1>; }}", text=2048)
    case("text: a name as spelled at the call", "Foo_Bar { 'a' = <fOO-bAR 1>; }",
         told="`<fOO-bAR ...>` always fails: `fOO-bAR` accepts [C], but this call passes [N]")
    case("text: a name as spelled at the definition", "fOO-bAR { e.X = ; 'a' = ; } Foo_Bar { }")
    case("text: formats of each shape", "F { ('a' (1 e.X)) s.A t.B Name = <F (e.X) 'b' s.C 1 e.Y>; }",
         told="`<F ...>` always fails: `F` accepts [([C ([N ..])]) S ? I], but this call passes [([..]) C S N ..]")
    case("text: never", "F { } G { = <F> <F 'a' e.X>; }", position=1,
         told="`<F ...>` always fails: `F` accepts never, but this call passes [C ..]")
    case("text: an argument that is never called", "F { } G { 'a' = <G <F>>; }",
         told="`<G ...>` always fails: `G` accepts [C], but this call passes []")


def level_cases():
    case("level: strict", FOUR, found="4 2 1")
    case("level: classic hides lint 4", FOUR, mode=CLASSIC, found="3 2 1")
    for lint in (1, 2, 3, 4):
        for mode in (CLASSIC, STRICT):
            for level in (0, 2, 3):
                case(f"level: lint {lint} at {level}, mode {mode}", FOUR, mode=mode, overrides=[(lint, level)])
    case("level: the first wins, shown", FOUR, overrides=[(1, 2), (1, 3)], found="4 2 1")
    case("level: the first wins, hidden", FOUR, overrides=[(1, 3), (1, 0)], found="3 2 1", told="`<H ...>` always fails: `H` accepts [C], "
         "but this call passes [N]")
    case("level: the first of each wins", FOUR, overrides=[(4, 1), (1, 3), (2, 0), (4, 3), (1, 1), (2, 3), (3, 2), (3, 3)], found="3 2 1")
    case("level: classic, lint 4 at 1, then 3", FOUR, mode=CLASSIC, overrides=[(4, 1), (4, 3)], found="4 2 1")
    case("level: all hidden", FOUR, overrides=[(lint, 3) for lint in (1, 2, 3, 4)], words=0, found="0 2 1", told="refused 12")


def builtin_cases():
    calls = ["<Add 1>", "<Add>", "<Add '-'>", "<Add '-' 1>", "<Sub '+' 1 '-' 2>", "<Mul 1 2>", "<Mod 5 0>", "<Divmod 5 '+' 0 0>",
             "<Compare 1>", "<Compare 1 0>", "<aDD 1>", "<Div 1 000>", "<Div 1 '-' '-' 0>", "<Div 1 0 1>", "<Div 1>", "<Div-Mod 1 0>",
             "<Add 4294967295>", "<Add 4294967296>", "<Add 00000000004294967295>", "<Add 1 'a'>", "<Add 'a'>", "<Add (1)>",
             "<Add s.A>", "<Add Name>", "<Numb '1' '2'>", "<Numb '1' 'a'>", "<Numb 12>", "<Numb '-' '1'>", "<Numb e.X>", "<Numb (1)>",
             "<NUMB>", "<Nu_mb>", "<Symb>", "<Mul '*' 2>", "<Add 18446744073709551617>"]
    case("builtin: calls", "F { s.A e.X = " + " ".join(calls) + "; }")
    for k, call in enumerate(["<Mod 5 0>", "<Numb 'x'>", "<Sub '-' 7>", "<Divmod '-' 1 0>"]):
        case(f"builtin: text {k}", f"F {{ = {call}; }}", found="1 2 1")
    case("builtin: calls in calls, brackets and blocks",
         "F { = <Add <Numb> (<Add>)> [<Numb 'a'> : <Numb> = <Sub>; , <Mul 1> : <Mul> = ;]; , <Div 0> : <Mod 0> = (<Compare>); } G { <Numb> = <Mod>; }")


def walk_cases():
    case("walk: dead sentences of blocks", """
        F { s.A, [s.A : e.X = ; 'a' = [ : = ; = ;];] : [ : e.Y = ; s.B = ;] = ([<G [ : e.X = ; = ;]> : t.A = ; s.A = ; (e.A) = ;]); e.X = ; = ; }
        G { [ : = 1; = 2;] = ; s.A = [[ : = 3; = 4;] : s.Q = [ : = 5; = 6;]; 'x' = ;]; }""", words=400)
    case("walk: a sentence with a condition shadows nothing", "F { e.X, 'a' : e.X = ; s.A = ; s.B = ; }", found="1 2 1",
         told="sentence 3 of `F` is unreachable: sentence 2 has no conditions and already matches every argument this one matches")
    case("walk: the earliest shadows", "F { 'a' = ; s.A = ; t.A = ; e.X = ; 'a' = ; }", found="1 2 1",
         told="sentence 5 of `F` is unreachable: sentence 1 has no conditions and already matches every argument this one matches")
    case("walk: calls in every place", """
        F { 'a' <F 1>, <F 2> (<F 3>) : <F 4> = <F <F 5>> [<F 6> : <F 7> = <F 8>; , <F 9> : <F 10> = ;]; }
        G { 'b', [<G 11> : = ;] : [<G 12> : = <G 13>;] = ([ : = [ : = <G 14>;];]); }""", words=400)
    case("walk: recognition by literals in blocks", "F { 'a' = ; 1 = ; } G { = [<F 'b'> : 'c' = <F 2>;] <F <F 'd'>>; }", found="4 2 1")
    case("walk: e. variables only in functions' own patterns", """
        F { e.A (e.B), e.C e.D : e.E e.F = [e.A : e.G e.H = ;]; <F e.A e.B> = ; [e.A e.B : ] = ; e.A e.a = ; e.A s.A = ; }""", words=400)
    case("walk: functions of one name and their positions", "F { e.X = ; 'a' = ; } G { } f { e.X = ; 'b' = <Numb>; } F { = <Add>; }")
    case("walk: unsettled formats", "F { = 'a' <F> " + times(5, "1 ") + "; } G { 'q' = <G <F>>; }")


def random_run(numbers, names, depth, pattern):
    run = ""
    for _ in range(numbers.below(4)):
        pick = numbers.below(20)
        if pick < 5 and not pattern:
            run += f"<{names[numbers.below(len(names))]} {random_run(numbers, names, depth + 1, False) if depth < 3 else ''}> "
        elif pick < 8 and depth < 3:
            run += f"({random_run(numbers, names, depth + 1, pattern)}) "
        elif pick == 8 and depth < 2 and not pattern:
            run += f"[{random_run(numbers, names, depth + 1, False)} : {random_sentences(numbers, names, depth + 1)}] "
        elif pick < 16:
            run += ("'a' ", "1 ", "Name ", "'-' ", "0 ", "1 ")[numbers.below(6)]
        else:
            run += ("s.A ", "t.B ", "e.C ", "e.D ")[numbers.below(4)]
    return run


def random_sentences(numbers, names, depth):
    found = ""
    for _ in range(numbers.below(4)):
        found += random_run(numbers, names, depth, True)
        if numbers.below(5) == 0:
            found += f", {random_run(numbers, names, depth, False)}: {random_run(numbers, names, depth, True)}"
        found += f"= {random_run(numbers, names, depth, False)}; "
    return found


def random_cases(count):
    numbers = Numbers()
    names = ["F", "f", "G-a", "g_A", "H", "Add", "Div", "Numb", "Other"]
    for k in range(count):
        source = ""
        for _ in range(1 + numbers.below(4)):
            source += f"{names[numbers.below(5)]} {{ {random_sentences(numbers, names, 0)}}} "
        overrides = [(1 + numbers.below(4), numbers.below(4)) for _ in range(numbers.below(3))]
        case(f"random: {k}", source, mode=numbers.below(4) and 1, overrides=overrides, words=400, position=numbers.below(4))


def main():
    document_cases()
    difference_cases()
    zeros_cases()
    file_cases()
    settings_cases()
    store_cases()
    shapes_cases()
    findings_cases()
    text_cases()
    level_cases()
    builtin_cases()
    walk_cases()
    random_cases(40)
    folder = Path(__file__).resolve().parent.parent / "crates" / "test_refusals"
    with open(folder / "stdin", "wb") as given, open(folder / "stdout", "wb") as expected:
        for label, data, lines in cases:
            given.write(label.encode("ascii") + b"\n" + data)
            expected.write((label + "\n" + lines).encode("ascii"))
    print(f"{len(cases)} cases")


if __name__ == "__main__":
    # a match goes one call deeper for each record
    sys.setrecursionlimit(10000)
    threading.stack_size(256 * 1024 * 1024)
    thread = threading.Thread(target=main)
    thread.start()
    thread.join()
