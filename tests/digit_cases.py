"""Writes the cases of the program crates/test_digits: numbers that are typed digit by digit.

Run at the repository's root: python3 tests/digit_cases.py
It writes crates/test_digits/stdin, which the program reads, and crates/test_digits/stdout, which the program has to write.

The answers are computed by Python's whole numbers, which have no limit: 1 where the value of the digits so far is at most
4294967295, 0 where it is past that, 2 where a byte is no digit. What the last answer and the last state must be also stands
beside each case: by hand, or for a row of like cases by a rule of its own.
"""
import struct
from pathlib import Path

LAST = 4294967295
PAST = LAST + 1
NO_WORD = 2**64

cases = []


def typed(start, data):
    """The answer to each byte, and the state after all of them."""
    value, untouched, answers = start, True, []
    for byte in data:
        if chr(byte) not in "0123456789":
            answers.append(2)
            continue
        value, untouched = 10 * value + int(chr(byte)), False
        answers.append(int(value <= LAST))
    return answers, value if untouched else min(value, PAST)


def case(label, data, *, last, state, start=0):
    data = data.encode("ascii") if isinstance(data, str) else data
    answers, after = typed(start, data)
    assert (answers[-1:], after) == ([last] if data else [], state), (label, answers, after)
    assert start < NO_WORD and len(label) <= 80
    given = struct.pack("<QI", start, len(data)) + data
    cases.append((label, given, f"{label}\n  {''.join(map(str, answers))} {after}\n"))


def edges():
    case("no digit at all", "", last=None, state=0)
    case("0", "0", last=1, state=0)
    case("9", "9", last=1, state=9)
    case("4294967294", "4294967294", last=1, state=4294967294)
    case("4294967295", "4294967295", last=1, state=LAST)
    case("4294967296", "4294967296", last=0, state=PAST)
    case("4294967300", "4294967300", last=0, state=PAST)
    case("4300000000", "4300000000", last=0, state=PAST)
    case("ten nines", "9999999999", last=0, state=PAST)
    case("nine nines", "999999999", last=1, state=999999999)
    case("ten digits that are at most", "1000000000", last=1, state=1000000000)
    case("eleven digits", "10000000000", last=0, state=PAST)
    case("an eleventh digit after 4294967295", "42949672950", last=0, state=PAST)
    case("an eleventh digit after 4294967296", "42949672960", last=0, state=PAST)
    case("64 zeros", "0" * 64, last=1, state=0)
    case("64 nines", "9" * 64, last=0, state=PAST)
    case("1 and 63 zeros", "1" + "0" * 63, last=0, state=PAST)


def zeros():
    for count in (1, 9, 54, 63, 64):
        case(f"4294967295 after zeros: {count}", "0" * count + "4294967295", last=1, state=LAST)
        case(f"4294967296 after zeros: {count}", "0" * count + "4294967296", last=0, state=PAST)
    case("64 nines after 64 zeros", "0" * 64 + "9" * 64, last=0, state=PAST)
    case("128 zeros", "0" * 128, last=1, state=0)
    case("4294967295 after 1,000 zeros", "0" * 1000 + "4294967295", last=1, state=LAST)
    case("1 and 1,000 zeros", "1" + "0" * 1000, last=0, state=PAST)


def wrapping():
    """Values that are small again where a word of 32, 64 or 128 bits keeps the lower part alone."""
    for bits in (32, 33, 40, 63, 64, 65, 96, 128, 200):
        case(f"2 to the power {bits}", str(2**bits), last=0, state=PAST)
        case(f"2 to the power {bits}, and 7", str(2**bits + 7), last=0, state=PAST)


def others():
    case("a letter between digits", "4A2", last=1, state=42)
    case("a letter before the last digit of 4294967295", "429496729A5", last=1, state=LAST)
    case("a letter before the last digit of 4294967296", "429496729A6", last=0, state=PAST)
    case("a letter after 4294967295", "4294967295A", last=2, state=LAST)
    case("a letter after 4294967296", "4294967296A", last=2, state=PAST)
    case("a letter alone", "A", last=2, state=0)
    case("letters after each of 64 nines", "9O" * 64, last=2, state=PAST)
    case("a blank, a sign and a point", " -4+2.0", last=1, state=420)
    case("the bytes before 0 and after 9", "7/:8", last=1, state=78)
    case("digits of another script", "٤٢".encode(), last=2, state=0)
    case("every byte once", bytes(range(256)), last=2, state=123456789)


def states():
    for last in range(10):
        case(f"429496729, then {last}", str(last), start=429496729, last=int(last <= 5), state=min(4294967290 + last, PAST))
        case(f"429496730, then {last}", str(last), start=429496730, last=0, state=PAST)
    for start in (LAST, PAST, PAST + 1, 2**63, NO_WORD // 10, NO_WORD // 10 + 1, NO_WORD - 1):
        case(f"the state {start}, then 0", "0", start=start, last=0, state=PAST)
        case(f"the state {start}, then 9", "9", start=start, last=0, state=PAST)
        case(f"the state {start}, then a letter", "A", start=start, last=2, state=start)
        case(f"the state {start}, then a letter and 0", "A0", start=start, last=0, state=PAST)
        case(f"the state {start}, then nothing", "", start=start, last=None, state=start)


def main():
    edges()
    zeros()
    wrapping()
    others()
    states()
    folder = Path(__file__).resolve().parent.parent / "crates" / "test_digits"
    folder.joinpath("stdin").write_bytes(b"".join(label.encode("ascii") + b"\n" + given for label, given, _ in cases))
    folder.joinpath("stdout").write_bytes("".join(lines for _, _, lines in cases).encode("ascii"))
    print(f"{len(cases)} cases")


if __name__ == "__main__":
    main()
