"""Writes the cases of the program crates/test_loader: what the exported calls return, and what is lent after them.

Run at the repository's root: python3 tests/loader_laws.py
It writes crates/test_loader/stdin, which the program reads, and crates/test_loader/stdout, which the program has to write.

What the two calls answer is computed as for tests/refusal_laws.py. What the findings call returns and answers is also written
by hand beside each case.
"""
from pathlib import Path

from edge_laws import Reader, encoded, records, word
from listing_model import STORE
from refusal_laws import CLASSIC, EXAMPLE, FILES, FOUR, OVER_ARGUMENT, OVER_PATTERN, STRICT, Asked
from store_laws import growing, times

WORDS, TEXT, MORE = 56, 144, 4
KEPT, KEPT_BYTE = 99999, "#"

cases = []


def words_after(written, lent):
    """The lines of a buffer after a call that wrote some of it from the start, eight words in each."""
    after = written + [KEPT] * (lent - len(written))
    return "".join("\n    " + " ".join(map(str, after[at:at + 8])) for at in range(0, lent, 8))


def store_after(asked):
    written = asked.listing.store if asked.listing else [0] * STORE if asked.number == 10 else []
    after = written + [KEPT] * (STORE + MORE - len(written))
    return "\n  store" + words_after(after[:8], 8) + words_after(after[STORE - 8:], 8 + MORE) + "\n"


def returned(answer, kept):
    """The number that a call returns, and the words of its answer."""
    number = answer.removeprefix("refused ")
    return f"{number}; {kept}" if number != answer else f"0; {answer}"


def text_call(asked, lent):
    """The lines of a text call, and the text that it wrote."""
    asked.text = lent
    answer, text = asked.told()
    return f"  text call: {returned(answer, KEPT)}\n    {text:{KEPT_BYTE}<{lent}}" + store_after(asked), text


def case(label, source, *, found, mode=STRICT, overrides=(), refused=None):
    functions = Reader(source).functions() if isinstance(source, str) else None
    data = source if functions is None else encoded(records(functions, spans=True))
    asked = Asked(functions, mode, overrides, STORE + MORE, WORDS, TEXT, 0, refused)
    answer, listed = asked.found()
    assert answer == found, (label, answer)
    lines = f"{label}\n  findings call: {returned(answer, f'{KEPT} {KEPT} {KEPT}')}"
    lines += words_after(listed, WORDS) + store_after(asked)
    text = None
    while text != "":
        more, text = text_call(asked, TEXT)
        lines += more
        if text:
            lines += text_call(asked, len(text) - 1)[0]
        asked.position += 1
    numbers = [mode, len(overrides), *[256 * lint + level for lint, level in overrides], len(data)]
    cases.append((label, b"".join(map(word, numbers)) + data, lines))


def main():
    case("the listing's example", EXAMPLE, found="2 2 1")
    case("each lint", FOUR, found="4 2 1")
    case("each lint, classic, lint 1 hidden, lint 2 at 0", FOUR, mode=CLASSIC, overrides=[(1, 3), (2, 0)], found="2 2 1")
    case("formats of each shape", "F { ('a' (1 e.X)) s.A t.B Name = <F (e.X) 'b' s.C 1 e.Y>; }", found="1 2 1")
    # The second sentence is dead and `<F 70>` listed; `<F 07>` is recognised.
    case("numbers by value", "F { 007 = ; 7 = ; } G { = <F 07> <F 70>; }", found="2 2 1")
    case("not settled", growing(5), found="0 5 0")
    case("no functions", "", found="0 1 1")
    case("seven findings, as many as fit", "F { = " + times(7, "<Numb> ") + "; }", found="7 2 1")
    case("eight findings", "F { = " + times(8, "<Numb> ") + "; }", found="refused 11")
    case("mode 2", EXAMPLE, mode=2, found="refused 14")
    case("a law that is cut off", FILES[2], refused=2, found="refused 2")
    case("65 shapes in a pattern", OVER_PATTERN, found="refused 10")
    case("65 shapes in an argument", OVER_ARGUMENT, found="refused 10")
    folder = Path(__file__).resolve().parent.parent / "crates" / "test_loader"
    folder.joinpath("stdin").write_bytes(b"".join(label.encode("ascii") + b"\n" + data for label, data, _ in cases))
    folder.joinpath("stdout").write_bytes("".join(lines for _, _, lines in cases).encode("ascii"))
    print(f"{len(cases)} cases")


if __name__ == "__main__":
    main()
