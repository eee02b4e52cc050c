"""Writes the cases of the program crates/test_pages: what the page call answers, and what every lent word and byte holds then.

Run at the repository's root: python3 tests/page_laws.py
It writes crates/test_pages/stdin, which the program reads, and crates/test_pages/stdout, which the program has to write.

A law's listing, and the refusals that the page call has in common with the text call, are computed as for tests/refusal_laws.py.
The page is made from the listing here, by document 02, R-4. Beside each case its answer is written by hand: the lines that are
written (`lines`), or the number of the refusal (`number`). Some have the whole page written by hand too (`written`).
"""
import sys
import threading
from pathlib import Path

from edge_laws import TOP, Law, Reader, encoded, records, word
from listing_model import STORE
from refusal_laws import CLASSIC, EXAMPLE, FILES, FOUR, MANY, OVER_ARGUMENT, OVER_PATTERN, PLACES, STRICT, Asked
from store_laws import growing, times

# The bytes of a line with its line feed, and the lines of a page under its heading.
LINE, UNDER = 73, 59
LINTS = {1: "dead", 2: "no match", 3: "builtin", 4: "open"}
SEVERITIES = ("error", "deny", "warn", "allow")

# What the program lends at most, and what it lends where a case does not say: a page of five lines, and some more.
STORE_MOST, PAGE_MOST = 8400, 19200
PAGE_LEN = 400


# What a case has to write

def finding_line(functions, words):
    lint, severity, start, end, a, _, function, _ = words
    name = functions[function][0]
    if len(name) > 24:
        name = name[:23] + "+"
    return f"{name:<24} {LINTS[lint]:<8} {SEVERITIES[severity]:<5} {start:>10} {end:>10} {a:>10}\n"


def page_of(functions, listing):
    """What the page program writes."""
    lines = [finding_line(functions, words) for words, _ in listing.findings]
    parts = [lines[at:at + UNDER] for at in range(0, len(lines), UNDER)] or [[]]
    return "".join(f"{len(functions):<61} {number:>10}\n" + "".join(part) for number, part in enumerate(parts, 1))


def printed(asked, functions, lent):
    """The page call's answer, and the page that it writes."""
    if not asked.listing:
        return f"refused {asked.number}", ""
    if len(asked.listing.findings) > PLACES:
        return "refused 11", ""
    page = page_of(functions, asked.listing)
    if len(page) > lent:
        return "refused 18", ""
    return f"written {len(page)}", page


# Cases

cases = []


def case(label, source, *, lines=None, number=None, mode=STRICT, overrides=(), store=STORE, page=PAGE_LEN, refused=None,
         written=None, spans=()):
    """A case. The law is Refal, records or bytes; of the last two nothing is listed. `spans` are those of the first function's sentences."""
    assert 0 < len(label) < 80 and label.isascii() and label.isprintable(), label
    assert label not in [other for other, _, _ in cases], label
    functions = None
    if isinstance(source, str):
        functions = Reader(source).functions()
        for sentence, span in zip(functions[0][1] if spans else [], spans, strict=True):
            sentence.span = span
        source = records(functions, spans=True)
    data = encoded(source) if isinstance(source, Law) else source
    asked = Asked(functions, mode, overrides, store, 0, 0, 0, refused)
    assert functions is not None or asked.number is not None, label
    answer, text = printed(asked, functions, page)
    assert answer == (f"written {LINE * lines}" if number is None else f"refused {number}"), (label, answer)
    assert all(len(line) == LINE for line in text.splitlines(keepends=True)), label
    assert written is None or text == "".join(line + "\n" for line in written), (label, text)
    assert len(data) <= 16400 and store <= STORE_MOST and page <= PAGE_MOST and len(overrides) <= 16, label
    numbers = [mode, len(overrides), *[256 * lint + level for lint, level in overrides], store, page]
    shown = f"{label}\n  {answer}\n    store{asked.store_after()}    page\n{text}    kept*{page - len(text)}\n"
    cases.append((label, b"".join(map(word, numbers)) + word(len(data)) + data, shown))


def calls(count, of="<Numb> "):
    """A law of one function with so many findings."""
    return "F { = " + times(count, of) + "; }"


def pile(count):
    """A law with three findings for each sentence, but for the first, which has two."""
    return "F { " + times(count, "e.A e.B = <Numb>; ") + "}"


# The pages of EXAMPLE, whose findings document 01 gives, and of FOUR.
EXAMPLE_PAGE = [
    "2                                                                      1",
    "F                        dead     deny          15         26          2",
    "H                        no match deny          40         45          1",
]
FOUR_PAGE = [
    "2                                                                      1",
    "F                        dead     deny          21         33          2",
    "H                        no match deny          47         52          1",
    "F                        builtin  deny          27         33          3",
    "F                        open     allow          4         19          2",
]


def buffer_cases():
    case("buffer: 181 bytes more", EXAMPLE, lines=3, written=EXAMPLE_PAGE)
    case("buffer: exactly full", EXAMPLE, lines=3, page=219, written=EXAMPLE_PAGE)
    case("buffer: one byte more", EXAMPLE, lines=3, page=220, written=EXAMPLE_PAGE)
    case("buffer: one byte short", EXAMPLE, number=18, page=218)
    case("buffer: one line short", EXAMPLE, number=18, page=146)
    case("buffer: none", EXAMPLE, number=18, page=0)
    case("buffer: none, a longer store", EXAMPLE, number=18, page=0, store=STORE_MOST)
    case("buffer: the largest", EXAMPLE, lines=3, page=PAGE_MOST, store=STORE_MOST)
    case("buffer: only the heading, exactly full", "F { = ; }", lines=1, page=73)
    case("buffer: only the heading, one byte short", "F { = ; }", number=18, page=72)
    case("buffer: only the heading, none", "F { = ; }", number=18, page=0)


def count_cases():
    case("count: no functions", "", lines=1, written=["0" + " " * 70 + "1"])
    case("count: no functions, none lent", "", number=18, page=0)
    case("count: no findings", "F { e.X = ; } G { }", lines=1, written=["2" + " " * 70 + "1"])
    case("count: no findings, not settled", growing(5), lines=1)
    case("count: 64 functions, no findings", " ".join(f"F{k} {{ }}" for k in range(64)), lines=1, written=["64" + " " * 69 + "1"])
    case("count: 64 functions, a finding in each", " ".join(f"F{k} {{ = <Numb>; }}" for k in range(64)), lines=66, page=4900)
    case("count: 58 findings", calls(58), lines=59, page=4400)
    case("count: 59 findings", pile(20), lines=60, page=4400)
    case("count: 59 findings, one byte short", pile(20), number=18, page=4379)
    case("count: 60 findings", calls(60), lines=62, page=4526)
    case("count: 60 findings, one byte short", calls(60), number=18, page=4525)
    case("count: 60 findings, a heading short", calls(60), number=18, page=4453)
    case("count: 118 findings", calls(118, "<Add> "), lines=120, page=8760)
    case("count: 118 findings, one byte short", calls(118), number=18, page=8759)
    case("count: 119 findings", pile(40), lines=122, page=9000)
    case("count: 119 findings, one byte short", pile(40), number=18, page=8905)
    case("count: 256 findings", calls(256), lines=261, page=PAGE_MOST)
    case("count: 256 findings, one byte short", calls(256), number=18, page=19052)
    case("count: 256 findings and one that is hidden", calls(256).replace("F {", "F { e.X = ; "), number=18, overrides=[(1, 3)], page=0)
    case("count: 257 findings", MANY, number=11, page=PAGE_MOST)
    case("count: 257 findings, none lent", MANY, number=11, page=0)
    case("count: 257 findings that are hidden", MANY, lines=1, overrides=[(3, 3)])
    case("count: 399 findings", pile(100), number=11, store=STORE_MOST)
    case("count: 119 findings, 80 with lint 1 hidden", pile(40), lines=82, overrides=[(1, 3)], page=6000)


def level_cases():
    case("level: each lint, strict", FOUR, lines=5, written=FOUR_PAGE)
    case("level: each lint, classic", FOUR, lines=4, mode=CLASSIC, written=FOUR_PAGE[:4])
    for level in (0, 1, 2):
        case(f"level: each lint at {level}", FOUR, lines=5, overrides=[(lint, level) for lint in LINTS],
             written=FOUR_PAGE[:1] + [line[:34] + f"{SEVERITIES[level]:<5}" + line[39:] for line in FOUR_PAGE[1:]])
    for lint in LINTS:
        case(f"level: lint {lint} hidden", FOUR, lines=4, overrides=[(lint, 3)], written=FOUR_PAGE[:lint] + FOUR_PAGE[lint + 1:])
    case("level: each lint hidden", FOUR, lines=1, overrides=[(lint, 3) for lint in LINTS], written=FOUR_PAGE[:1])
    case("level: error, warn, hidden", FOUR, lines=4, overrides=[(1, 0), (2, 2), (3, 3)])
    case("level: classic, lint 4 at 2", FOUR, lines=5, mode=CLASSIC, overrides=[(4, 2)])
    case("level: classic, lint 1 at 0, lint 4 at 3", FOUR, lines=4, mode=CLASSIC, overrides=[(1, 0), (4, 3)])
    case("level: the first override of a lint", FOUR, lines=4, overrides=[(1, 2), (1, 3), (2, 3), (2, 0)])
    case("level: eight overrides", FOUR, lines=5, overrides=[(4, 0)] * 7 + [(3, 2)])


def name_cases():
    names = ["A" * 23, "B" * 24, "C" * 25, "D" * 64]
    case("name: 23, 24, 25 and 64 bytes", " ".join(f"{name} {{ e.X = ; 'a' = ; }}" for name in names), lines=5, written=[
        "4                                                                      1",
        "AAAAAAAAAAAAAAAAAAAAAAA  dead     deny          34         39          2",
        "BBBBBBBBBBBBBBBBBBBBBBBB dead     deny          79         84          2",
        "CCCCCCCCCCCCCCCCCCCCCCC+ dead     deny         125        130          2",
        "DDDDDDDDDDDDDDDDDDDDDDD+ dead     deny         210        215          2",
    ])
    # The first name has 24 bytes. The others are cut, and the three that differ only after byte 23 are then alike.
    inner = "x" * 21
    case("name: what is cut off", " ".join(f"{inner}{end} {{ = <Numb>; }}" for end in ("abc", "abcd", "abCD", "a-_9", "abcdefgh")), lines=6, page=500)
    case("name: a block's sentence and calls in blocks",
         "F { s.A e.X = [e.X : s.A = <Numb>; s.B = 2;]; } G { 'a' = [<G 1> : e.A e.B = <Add>;]; }", lines=5)
    case("name: of the function that has the call", "F { 'a' = ; } G { = <F 1> <f 2>; }", lines=3, written=[
        "2                                                                      1",
        "G                        no match deny          20         25          1",
        "G                        no match deny          26         31          1",
    ])
    case("name: as spelled at the definition", "fOO-bAR { e.X = ; 'a' = ; } Foo_Bar { = <Numb>; }", lines=3)
    case("name: one name three times", "F { e.X = ; 'a' = ; } G { } f { e.X = ; 'b' = <Numb>; } F { = <Add>; }", lines=5)


def number_cases():
    spans = [(0, 0), (0, 1), (9, 10), (99, 100), (999, 1000), (9999, 10000), (99999, 100000), (999999, 1000000), (9999999, 10000000),
             (99999999, 100000000), (999999999, 1000000000), (1000000000, 4294967295), (TOP, TOP), (TOP, 0), (2147483647, 2147483648)]
    case("number: spans of one to ten digits", "F { e.X = ; " + times(14, "'a' = ; ") + "}", lines=15, page=1100, spans=spans)
    case("number: a span of ten digits", "F { e.X = ; 'a' = ; }", lines=2, spans=[(0, 0), (1000000000, TOP)], written=[
        "1                                                                      1",
        "F                        dead     deny  1000000000 4294967295          2",
    ])
    sentences = "".join(f"{k} = ; " for k in range(99))
    case("number: a of three digits", "F { " + sentences + "98 = ; }", lines=2)
    case("number: a of two digits", "F { e.A (e.B (e.C)) e.A e.A e.A e.A e.A e.A e.A = ; }", lines=2)
    case("number: each a of lint 2 and of lint 3", "F { 'a' = <F 1> <F 'b'> <Add> <Div 1 0> <Numb>; }", lines=6, page=500)


def refusal_cases():
    """Each refusal that comes before 18, with what is lent afterwards; and each before the next, with nothing lent for the page."""
    case("refusal: 14, mode 2", EXAMPLE, number=14, mode=2)
    case("refusal: 14, mode the largest word", EXAMPLE, number=14, mode=TOP)
    case("refusal: 14, lint 0", EXAMPLE, number=14, overrides=[(0, 1)])
    case("refusal: 14, lint 5", EXAMPLE, number=14, overrides=[(5, 1)])
    case("refusal: 14, severity 4", EXAMPLE, number=14, overrides=[(1, 4)])
    case("refusal: 14, nine overrides", EXAMPLE, number=14, overrides=[(1, 2)] * 9)
    for number, of in FILES.items():
        case(f"refusal: {number}", of, number=number, refused=number)
        case(f"refusal: {number} before 15 and 18", of, number=number, refused=number, store=0, page=0)
    case("refusal: 2, an empty file", b"", number=2, refused=2)
    case("refusal: 14 before 1", FILES[1], number=14, mode=2, refused=1)
    case("refusal: 14 before 2, nothing lent", FILES[2], number=14, overrides=[(1, 4)], refused=2, store=0, page=0)
    case("refusal: 14 before 9", FILES[9], number=14, mode=2, refused=9)
    case("refusal: 14, no functions", "", number=14, mode=2)
    case("refusal: 15", EXAMPLE, number=15, store=STORE - 1)
    case("refusal: 15, no store", EXAMPLE, number=15, store=0)
    case("refusal: 15, no functions", "", number=15, store=STORE - 1)
    case("refusal: 15 before 10 in inference", OVER_PATTERN, number=15, store=STORE - 1)
    case("refusal: 15 before 10 by an argument", OVER_ARGUMENT, number=15, store=STORE - 1)
    case("refusal: 15 before 11", MANY, number=15, store=STORE - 1)
    case("refusal: 15 before 18", EXAMPLE, number=15, store=STORE - 1, page=0)
    case("refusal: 10 in inference", OVER_PATTERN, number=10)
    case("refusal: 10 in inference, a longer store", OVER_PATTERN, number=10, store=STORE_MOST)
    case("refusal: 10 by an argument", OVER_ARGUMENT, number=10)
    case("refusal: 10 by an argument, a longer store", OVER_ARGUMENT, number=10, store=STORE_MOST)
    case("refusal: 10 by an argument, each lint hidden", OVER_ARGUMENT, number=10, overrides=[(lint, 3) for lint in LINTS])
    case("refusal: 10 in inference before 11", MANY + " G { = " + times(65) + "; }", number=10)
    case("refusal: 10 by an argument before 11", MANY + " G { 'b' = <G " + times(65) + ">; }", number=10)
    case("refusal: 10 before 18", OVER_ARGUMENT, number=10, page=0)
    case("refusal: 11 before 18, one byte short of 257 findings", MANY, number=11, page=19125)
    case("refusal: none after others", EXAMPLE, lines=3, written=EXAMPLE_PAGE)


def main():
    buffer_cases()
    count_cases()
    level_cases()
    name_cases()
    number_cases()
    refusal_cases()
    folder = Path(__file__).resolve().parent.parent / "crates" / "test_pages"
    folder.joinpath("stdin").write_bytes(b"".join(label.encode("ascii") + b"\n" + data for label, data, _ in cases))
    folder.joinpath("stdout").write_bytes("".join(shown for _, _, shown in cases).encode("ascii"))
    print(f"{len(cases)} cases")


if __name__ == "__main__":
    # a match goes one call deeper for each record
    sys.setrecursionlimit(10000)
    threading.stack_size(256 * 1024 * 1024)
    thread = threading.Thread(target=main)
    thread.start()
    thread.join()
