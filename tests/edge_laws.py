"""Writes the cases of the program crates/test_edges: laws at the edges of document 01's refusals 1 to 9.

Run at the repository's root: python3 tests/edge_laws.py
It writes crates/test_edges/stdin, which the program reads, and crates/test_edges/stdout, which the program has to write.

The expected answer stands beside each case. It was written by hand from document 01 ("The law file", and the rows 1 to 9
of "Where a call is turned back"); nothing here decodes a law or works an answer out.

A law is written in one of two ways:
- as Refal, `law("F { e.X 'a', <G e.X> : s.B = [e.X : s.C = 12;]; }")`, where `, result : pattern` is a condition and
  `[argument : sentences]` a block. The records are then those that document 01 asks for.
- as records, `Law(text, functions, sentences, conditions, terms)`, each record a list of words. Words that are left out
  at its end are 0. These are the laws that no Refal says.
Both can be damaged: `changed` puts another word into a record, `encoded` takes counts that differ from the records.
"""
import copy
import re
import struct
from pathlib import Path

SECTIONS = ("text", "functions", "sentences", "conditions", "terms")
WORDS = {"functions": 5, "sentences": 5, "conditions": 4, "terms": 6}
CHARACTER, IDENTIFIER, NUMBER, S, T, E, BRACKET, CALL, BLOCK = range(9)
TOP = 0xFFFFFFFF
ACCEPTED = "accepted"


# Laws as records

class Law:
    def __init__(self, text=b"", functions=(), sentences=(), conditions=(), terms=()):
        self.text = text
        self.functions = [list(record) for record in functions]
        self.sentences = [list(record) for record in sentences]
        self.conditions = [list(record) for record in conditions]
        self.terms = [list(record) for record in terms]


def word(value):
    return struct.pack("<I", value)


def section(of, name, count=None):
    """A section's bytes: its count, which may be a wrong one, and its records."""
    records = getattr(of, name)
    if name == "text":
        body = records
    else:
        body = b"".join(word(value) for record in records for value in record + [0] * (WORDS[name] - len(record)))
    return word(len(records) if count is None else count) + body


def encoded(of, **counts):
    return b"".join(section(of, name, counts.get(name)) for name in SECTIONS)


def start_of(of, name):
    """The position of a section's count in the file."""
    return sum(len(section(of, earlier)) for earlier in SECTIONS[: SECTIONS.index(name)])


def changed(of, name, record, place, value):
    """The same law with another word at a place of a record."""
    other = copy.deepcopy(of)
    words = getattr(other, name)[record]
    words += [0] * (WORDS[name] - len(words))
    words[place] = value
    return other


# Laws as Refal

TOKEN = re.compile(
    r"\s*(?:'(?P<character>.)'|(?P<variable>[ste]\.[\w-]+)|<(?P<call>[\w-]+)|(?P<number>[0-9]+(?![\w-]))"
    r"|(?P<identifier>[\w-]+)|(?P<mark>[(){}>\[\]=;:,]))",
    re.ASCII,
)


class Spanned(tuple):
    """A function, sentence, condition or term, with the start and the end of its spelling in the source."""
    span = (0, 0)


class Reader:
    """Reads Refal. A term is (kind, spelling or scalar value, terms inside, sentences)."""

    def __init__(self, source):
        self.tokens = []
        self.places = []
        self.at = 0
        self.cut(source.strip())

    def cut(self, source):
        at = 0
        while at < len(source):
            found = TOKEN.match(source, at)
            self.tokens.append((found.lastgroup, found[found.lastgroup]))
            at = found.end()
            self.places.append((at - len(found[0].lstrip()), at))

    def stood(self, first, thing):
        """The thing that was read from a token on, with its span."""
        spanned = Spanned(thing)
        spanned.span = (self.places[first][0], self.places[max(first, self.at - 1)][1])
        return spanned

    def next_is(self, mark):
        return self.tokens[self.at] == ("mark", mark)

    def take(self):
        self.at += 1
        return self.tokens[self.at - 1]

    def skip(self, mark):
        assert self.take() == ("mark", mark), (mark, self.tokens[: self.at])

    def functions(self):
        found = []
        while self.at < len(self.tokens):
            first = self.at
            name = self.take()[1]
            self.skip("{")
            found.append(self.stood(first, (name, self.sentences("}"))))
        return found

    def sentences(self, end):
        found = []
        while not self.next_is(end):
            first = self.at
            pattern = self.run()
            conditions = []
            while self.next_is(","):
                self.skip(",")
                start = self.at
                result = self.run()
                self.skip(":")
                conditions.append(self.stood(start, (result, self.run())))
            self.skip("=")
            found.append(self.stood(first, (pattern, conditions, self.run())))
            self.skip(";")
        self.skip(end)
        return found

    def run(self):
        terms = []
        while True:
            group, value = self.tokens[self.at]
            if group == "mark" and value not in "([":
                return terms
            first = self.at
            self.take()
            terms.append(self.stood(first, self.term(group, value)))

    def term(self, group, value):
        if group == "character":
            return (CHARACTER, ord(value), [], [])
        if group == "identifier":
            return (IDENTIFIER, value, [], [])
        if group == "number":
            return (NUMBER, value, [], [])
        if group == "variable":
            return ({"s": S, "t": T, "e": E}[value[0]], value[2:], [], [])
        inside = self.run()
        if group == "call":
            self.skip(">")
            return (CALL, value, inside, [])
        if value == "(":
            self.skip(")")
            return (BRACKET, None, inside, [])
        self.skip(":")
        return (BLOCK, None, inside, self.sentences("]"))


def law(source):
    """The records of a law that is written as Refal. Each spelling stands once in the text."""
    return records(Reader(source).functions())


def records(functions, spans=False):
    """The records of a law that was read, with its spans or without."""
    made = Law()
    places = {}

    def spell(spelling):
        if spelling not in places:
            places[spelling] = len(made.text)
            made.text += spelling.encode("ascii")
        return [places[spelling], len(spelling)]

    def span(thing):
        return list(thing.span) if spans else []

    def put(run, waiting):
        first = len(made.terms)
        for term in run:
            kind, value, inside, sentences = term
            record = [kind, 0, 0, 0] + span(term)
            if kind == CHARACTER:
                record[1] = value
            elif kind == BLOCK:
                record[1] = len(sentences)
            elif kind != BRACKET:
                record[1:3] = spell(value)
            made.terms.append(record)
            waiting += sentences
            record[3] = put(inside, waiting)
        return len(made.terms) - first

    waiting = []
    for function in functions:
        name, sentences = function
        made.functions.append(spell(name) + [len(sentences)] + span(function))
        waiting += sentences
    # A block's sentences go to the end of the list that is gone through: block by block in record order.
    for sentence in waiting:
        pattern, conditions, result = sentence
        counts = [put(pattern, waiting), len(conditions), 0] + span(sentence)
        for condition in conditions:
            result_records = put(condition[0], waiting)
            made.conditions.append([result_records, put(condition[1], waiting)] + span(condition))
        counts[2] = put(result, waiting)
        made.sentences.append(counts)
    return made


# Cases

cases = []


def case(label, answer, of):
    """A case. The answer is ACCEPTED or the number of the refusal; the law is records or bytes."""
    data = encoded(of) if isinstance(of, Law) else of
    assert 0 < len(label) < 80 and label.isascii() and label.isprintable(), label
    assert label not in [other for other, _, _ in cases], label
    assert len(data) <= 16400, label
    cases.append((label, answer, data))


def filled(text, sentences, conditions, terms):
    """A law of one function F, all of whose conditions and terms stand in its first sentence."""
    first = [terms, conditions, 0]
    return Law(
        b"F" + b"." * (text - 1),
        [[0, 1, sentences]],
        [first] + [[0, 0, 0]] * (sentences - 1),
        [[0, 0]] * conditions,
        [[CHARACTER, 0x61]] * terms,
    )


def one_term(text, *term):
    """A law of one function F, which is the text's first byte, with one term as its pattern."""
    return Law(b"F" + text, [[0, 1, 1]], [[1, 0, 0]], [], [term])


NONE = encoded(Law())
SMALL = law("F { s.A, 'a' : e.B = 'b'; } G { 'c', Name : 12 = ('d'); }")


def file_cases():
    # 20 + 4096 + 20 + 2 * 20 + 13 * 16 + 500 * 24 = 16384
    largest = filled(4096, 2, 13, 500)
    # 20 + 4093 + 20 + 3 * 20 + 12 * 16 + 500 * 24 = 16385
    over = filled(4093, 3, 12, 500)
    assert len(encoded(largest)) == 16384 and len(encoded(over)) == 16385
    case("file: empty", 2, b"")
    case("file: 16384 bytes", ACCEPTED, largest)
    case("file: 16384 bytes, last record cut off", 2, encoded(largest, terms=501))
    case("file: 16384 bytes, 24 left over", 3, encoded(largest, terms=499))
    case("file: 16384 bytes, last count over", 4, encoded(largest, terms=513))
    case("file: 16384 bytes, last kind 9", 5, changed(largest, "terms", 499, 0, 9))
    case("file: 16385 bytes, else a law", 1, over)
    case("file: 16385 bytes, one left over", 1, encoded(largest) + b"\0")
    case("file: 16385 bytes, records cut off", 1, encoded(over, terms=512))
    case("file: 16385 bytes, first count over", 1, b"\xff" * 16385)
    case("file: 16384 bytes, first count over", 4, b"\xff" * 16384)
    case("file: 16384 zeros", 3, bytes(16384))
    case("file: 16400 zeros", 1, bytes(16400))


def cut_cases():
    whole = encoded(SMALL)
    case("cut: nothing", ACCEPTED, whole)
    for name in SECTIONS:
        start = start_of(SMALL, name)
        size = 4 * WORDS.get(name, 0) or 1
        end = start + len(section(SMALL, name))
        for count in range(4):
            if start + count > 0:
                case(f"cut: {name}, {count} bytes of the count", 2, whole[: start + count])
        case(f"cut: {name}, after the count", 2, whole[: start + 4])
        if size > 1:
            case(f"cut: {name}, first record after 1 byte", 2, whole[: start + 5])
            case(f"cut: {name}, last record after 5 bytes", 2, whole[: end - size + 5])
        else:
            case(f"cut: {name}, after 1 byte", 2, whole[: start + 5])
        case(f"cut: {name}, 1 byte short", 2, whole[: end - 1])


def count_cases():
    case("count: text 4095", ACCEPTED, Law(b"x" * 4095))
    case("count: text 4096", ACCEPTED, Law(b"x" * 4096))
    case("count: text 4097", 4, Law(b"x" * 4097))
    case("count: functions 63", ACCEPTED, Law(b"F", [[0, 1, 0]] * 63))
    case("count: functions 64", ACCEPTED, Law(b"F", [[0, 1, 0]] * 64))
    case("count: functions 65", 4, Law(b"F", [[0, 1, 0]] * 65))
    case("count: sentences 127", ACCEPTED, filled(1, 127, 0, 0))
    case("count: sentences 128", ACCEPTED, filled(1, 128, 0, 0))
    case("count: sentences 129", 4, filled(1, 129, 0, 0))
    case("count: conditions 127", ACCEPTED, filled(1, 1, 127, 0))
    case("count: conditions 128", ACCEPTED, filled(1, 1, 128, 0))
    case("count: conditions 129", 4, filled(1, 1, 129, 0))
    case("count: terms 511", ACCEPTED, filled(1, 1, 0, 511))
    case("count: terms 512", ACCEPTED, filled(1, 1, 0, 512))
    case("count: terms 513", 4, filled(1, 1, 0, 513))
    case("count: only 4096", 2, word(4096))
    case("count: only 4097", 4, word(4097))
    case("count: only 4097, its last byte cut off", 2, word(4097)[:3])
    case("count: only the largest word", 4, word(TOP))
    # At the limit the records are missed first, above it the count is.
    for name, limit, over in (("functions", 64, 65), ("sentences", 128, 129), ("conditions", 128, 129), ("terms", 512, 513)):
        before = encoded(SMALL)[: start_of(SMALL, name)]
        case(f"count: {name} {limit}, then the end", 2, before + word(limit))
        case(f"count: {name} {over}, then the end", 4, before + word(over))
    case("count: functions the largest word, then the end", 4, word(0) + word(TOP))
    case("count: terms the largest word, then the end", 4, word(0) * 4 + word(TOP))
    # Sizes that a 32-bit product of count and record size would wrap: 20 * 0x0ccccccd is 2^32 + 4, 24 * 0x0aaaaaab is 2^32 + 8.
    case("count: functions 0x0ccccccd", 4, word(0) + word(0x0CCCCCCD) + bytes(16))
    case("count: terms 0x0aaaaaab", 4, word(0) * 4 + word(0x0AAAAAAB) + bytes(8))


def left_over_cases():
    case("left over: one byte after five zero counts", 3, NONE + b"\0")
    case("left over: one byte after a law", 3, encoded(SMALL) + b"\0")
    case("left over: a term record that is not counted", 3, encoded(SMALL, terms=len(SMALL.terms) - 1))
    case("left over: a sixth section", 3, encoded(SMALL) + word(0))


def character_cases():
    case("field: characters 0, 0xd7ff, 0xe000, 0x10ffff", ACCEPTED, Law(
        b"F", [[0, 1, 1]], [[4, 0, 0]], [], [[CHARACTER, value] for value in (0, 0xD7FF, 0xE000, 0x10FFFF)]))
    for value in (0xD800, 0xDFFF, 0x110000, 0x01000061):
        case(f"field: character {value:#x}", 5, one_term(b"", CHARACTER, value))
    case("field: character, b is 1", 5, one_term(b"", CHARACTER, 0x61, 1))


def unused_cases():
    # The n that is not allowed would fit its run, so that nothing but the field is wrong.
    row = Law(b"F1", [[0, 1, 1]], [[7, 0, 0]], [], [[CHARACTER, 0x61]] + [[kind, 1, 1] for kind in (1, 2, 3, 4, 5)] + [[BRACKET]])
    case("field: kinds 0 to 5, n is 0", ACCEPTED, row)
    for kind in range(6):
        case(f"field: kind {kind}, n is 1", 5, changed(row, "terms", kind, 3, 1))
    case("field: kind 0, n is 2^24", 5, changed(row, "terms", 0, 3, 0x01000000))
    case("field: bracket, a is 1", 5, one_term(b"x", BRACKET, 1, 0))
    case("field: bracket, b is 1", 5, one_term(b"x", BRACKET, 0, 1))
    case("field: block, b is 1", 5, one_term(b"", BLOCK, 0, 1))
    for kind in (9, 0x100, TOP):
        case(f"field: kind {kind:#x}", 5, one_term(b"", kind, 0, 0))


def length_cases():
    letters = b"x" * 65
    digits = b"7" * 65
    case("field: function name, length 0", 5, Law(b"F", [[0, 0, 0]]))
    case("field: function name, lengths 1 and 64", ACCEPTED, Law(letters, [[0, 1, 0], [0, 64, 0]]))
    case("field: function name, length 65", 5, Law(letters, [[0, 65, 0]]))
    for kind in (S, CALL, NUMBER):
        case(f"field: kind {kind}, length 0", 5, one_term(digits, kind, 1, 0))
    for kind in (IDENTIFIER, NUMBER, T, E):
        case(f"field: kind {kind}, length 65", 5, one_term(digits, kind, 1, 65))
    case("field: kinds 1 to 5 and 7, length 64", ACCEPTED, Law(
        digits, [[0, 1, 1]], [[6, 0, 0]], [], [[kind, 1, 64] for kind in (IDENTIFIER, NUMBER, S, T, E, CALL)]))


def place_cases():
    # The text is F77: three bytes, of which the last two spell a name and a number.
    case("field: kinds 1 to 5 and 7, up to the text's end", ACCEPTED, Law(
        b"F77", [[1, 2, 1]], [[6, 0, 0]], [], [[kind, 1, 2] for kind in (IDENTIFIER, NUMBER, S, T, E, CALL)]))
    case("field: function name, one past the text's end", 5, Law(b"F77", [[1, 3, 0]]))
    case("field: function name in an empty text", 5, Law(b"", [[0, 1, 0]]))
    for kind in (NUMBER, E, CALL):
        case(f"field: kind {kind}, one past the text's end", 5, one_term(b"77", kind, 2, 2))
    case("field: function name, 0xffffffff and 3", 5, Law(b"F77", [[TOP, 3, 0]]))
    for kind in (IDENTIFIER, NUMBER, S, T, CALL):
        case(f"field: kind {kind}, 0xffffffff and 3", 5, one_term(b"77", kind, TOP, 3))
    case("field: start at the text's end, length 1", 5, one_term(b"77", IDENTIFIER, 3, 1))
    case("field: 0xffffffc1 and 64", 5, one_term(b"7" * 64, NUMBER, 0xFFFFFFC1, 64))
    case("field: 1 and 0xffffffff", 5, one_term(b"77", IDENTIFIER, 1, TOP))
    case("field: 2 and 0xffffffff", 5, one_term(b"77", E, 2, TOP))
    case("field: 0x80000000 and 0x80000001", 5, one_term(b"77", CALL, 0x80000000, 0x80000001))


def spelling_cases():
    ends = b"AZaz09-_"
    case("field: names A Z a z 0 9 - _ and all in one", ACCEPTED, Law(ends, [[place, 1, 0] for place in range(8)] + [[0, 8, 0]]))
    case("field: names that start with a digit", ACCEPTED, law("0a { s.9-x 0-Id = <1_ 7>; }"))
    case("field: names that overlap", ACCEPTED, Law(b"abc", [[0, 3, 0], [1, 2, 0], [0, 2, 0], [1, 1, 0]]))
    case("field: text of all bytes around names", ACCEPTED, Law(bytes(range(256)), [[0x41, 26, 0], [0x61, 26, 0], [0x30, 10, 0]]))
    for byte in b" ./:@[`{\x7f\x80":
        case(f"field: byte {byte:#04x} in a function name", 5, Law(bytes([0x46, byte, 0x46]), [[0, 3, 0]]))
    for kind in (IDENTIFIER, S, T, E, CALL):
        case(f"field: a point in kind {kind}", 5, one_term(b"a.b", kind, 1, 3))
    case("field: a point as the 64th byte of a name", 5, Law(b"x" * 63 + b".", [[0, 64, 0]]))
    case("field: a point as the first byte of a name", 5, Law(b".x", [[0, 2, 0]]))
    case("field: numbers 12, 007, 18446744073709551616", ACCEPTED, law("F { 12 007 18446744073709551616 = ; }"))
    for spelling in (b"1a", b"-1", b"1/", b":1", b"\xb11"):
        case(f"field: number {ascii(spelling)[1:]}", 5, one_term(spelling, NUMBER, 1, len(spelling)))


def every_record_cases():
    case("field: spans are not checked", ACCEPTED, Law(
        b"F", [[0, 1, 1, TOP, TOP]], [[1, 1, 0, TOP, 3]], [[0, 0, 5, TOP]], [[CHARACTER, 0x61, 0, 0, TOP, 1]]))
    case("field: the 64th function's name", 5, Law(b"F.", [[0, 1, 0]] * 63 + [[1, 1, 0]]))
    case("field: the 512th term", 5, changed(filled(1, 1, 0, 512), "terms", 511, 0, 9))
    case("field: a term inside brackets", 5, changed(law("F { = (('a' 'b')); }"), "terms", 3, 1, 0xD800))
    case("field: a term of a condition's pattern", 5, changed(law("F { , 'a' : 'b' = 'c'; }"), "terms", 1, 0, 9))
    case("field: a term of a block's sentence", 5, changed(law("F { = [ : = 'a';]; }"), "terms", 1, 0, 9))
    case("field: a term that no run reaches", 5, Law(b"F", [[0, 1, 1]], [[1, 0, 0]], [], [[0, 0x61], [9]]))
    case("field: the only term, no sentences", 5, Law(b"", [], [], [], [[CHARACTER, 0xD800]]))


def run_cases():
    def runs(pattern, result, *terms):
        return Law(b"F", [[0, 1, 1]], [[pattern, 0, result]], [], terms)

    a = [CHARACTER, 0x61]
    case("run: brackets, calls and blocks, n exactly", ACCEPTED,
         runs(4, 2, [BRACKET, 0, 0, 1], a, [CALL, 0, 1, 1], a, [BLOCK, 0, 0, 1], a))
    for kind in (BRACKET, CALL, BLOCK):
        case(f"run: kind {kind}, n one too many", 6, runs(3, 0, [kind, 0, int(kind == CALL), 3], a, a))
    case("run: n the largest word", 6, runs(3, 0, [BRACKET, 0, 0, TOP], a, a))
    case("run: n is 1 at the last record", 6, runs(2, 0, a, [BRACKET, 0, 0, 1]))
    # 24 * 0x0aaaaaab is 2^32 + 8
    case("run: n is 0x0aaaaaab", 6, runs(3, 0, [BRACKET, 0, 0, 0x0AAAAAAB], a, a))
    case("run: inner n up to the outer end", ACCEPTED, runs(4, 0, [BRACKET, 0, 0, 2], [BRACKET, 0, 0, 1], a, a))
    case("run: inner n passes the outer end, inside the run", 6, runs(4, 0, [BRACKET, 0, 0, 2], [BRACKET, 0, 0, 2], a, a))
    case("run: a call in a block's argument passes", 6, runs(4, 0, [BLOCK, 0, 0, 2], a, [CALL, 0, 1, 1], a))
    case("run: a bracket after a closed one passes", 6, runs(4, 0, [BRACKET, 0, 0, 3], [BRACKET, 0, 0, 1], a, [BRACKET, 0, 0, 1]))
    # Records: pattern 0, condition's result 1, condition's pattern 2, result 3, second sentence's pattern 4.
    row = Law(b"F", [[0, 1, 2]], [[1, 1, 1], [1, 0, 0]], [[1, 1]], [a] * 5)
    case("run: five runs of one record", ACCEPTED, row)
    for record, label in enumerate(("a pattern", "a condition's result", "a condition's pattern", "a result")):
        other = changed(row, "terms", record, 0, BRACKET)
        other = changed(other, "terms", record, 1, 0)
        case(f"run: n passes {label} into the next run", 6, changed(other, "terms", record, 3, 1))
    case("run: a condition's result stands before its pattern", ACCEPTED,
         Law(b"F", [[0, 1, 1]], [[0, 1, 0]], [[1, 2]], [a, [BRACKET, 0, 0, 1], a]))
    case("run: conditions stand before the result", ACCEPTED,
         Law(b"F", [[0, 1, 1]], [[0, 1, 2]], [[0, 1]], [a, [BRACKET, 0, 0, 1], a]))


def used_up_cases():
    a = [CHARACTER, 0x61]
    case("used up: a sentence and no function", 6, Law(b"", [], [[0, 0, 0]]))
    case("used up: a condition and no sentence", 6, Law(b"F", [[0, 1, 0]], [], [[0, 0]]))
    case("used up: a term and no sentence", 6, Law(b"F", [[0, 1, 0]], [], [], [a]))
    case("used up: a function counts one sentence too many", 6, changed(SMALL, "functions", 1, 2, 2))
    case("used up: a function counts one sentence too few", 6, changed(SMALL, "functions", 1, 2, 0))
    case("used up: a function counts the largest word", 6, changed(SMALL, "functions", 0, 2, TOP))
    case("used up: one condition too many", 6, changed(SMALL, "sentences", 1, 1, 2))
    case("used up: one condition too few", 6, changed(SMALL, "sentences", 1, 1, 0))
    case("used up: conditions the largest word", 6, changed(SMALL, "sentences", 0, 1, TOP))
    case("used up: one pattern record too many", 6, changed(SMALL, "sentences", 0, 0, 2))
    case("used up: one pattern record too few", 6, changed(SMALL, "sentences", 0, 0, 0))
    case("used up: a condition's result one too many", 6, changed(SMALL, "conditions", 0, 0, 2))
    block = law("F { = [ : = 'a';]; }")
    case("used up: a block counts one sentence too many", 6, changed(block, "terms", 0, 1, 2))
    case("used up: a block counts one sentence too few", 6, changed(block, "terms", 0, 1, 0))
    case("used up: a block counts the largest word", 6, changed(block, "terms", 0, 1, TOP))
    # Sums that are right once they are cut to 32 bits.
    case("used up: sentences 0xffffffff + 2 for 1", 6, Law(b"F", [[0, 1, TOP], [0, 1, 2]], [[0, 0, 0]]))
    case("used up: sentences 2^31 + 2^31 for none", 6, Law(b"F", [[0, 1, 1 << 31]] * 2))
    case("used up: sentences 1, blocks 0xffffffff + 2, for 2", 6,
         Law(b"F", [[0, 1, 1]], [[2, 0, 0], [0, 0, 0]], [], [[BLOCK, TOP], [BLOCK, 2]]))
    case("used up: conditions 0xffffffff + 2 for 1", 6, Law(b"F", [[0, 1, 2]], [[0, TOP, 0], [0, 2, 0]], [[0, 0]]))
    case("used up: records 0xffffffff + 2 for 1, one sentence", 6, Law(b"F", [[0, 1, 1]], [[TOP, 0, 2]], [], [a]))
    case("used up: records 2 + 0xffffffff for 1, two sentences", 6,
         Law(b"F", [[0, 1, 2]], [[2, 0, 0], [TOP, 0, 0]], [], [a]))
    case("used up: records 0xffffffff + 2 for 1, a condition", 6,
         Law(b"F", [[0, 1, 1]], [[0, 1, 0]], [[TOP, 2]], [a]))


def block_cases():
    def three(*blocks):
        """F has one sentence of three. A block is the sentence that it stands in, and how many it has."""
        counts = [sum(1 for at, _ in blocks if at == sentence) for sentence in range(3)]
        return Law(b"F", [[0, 1, 1]], [[0, 0, count] for count in counts], [], [[BLOCK, own] for _, own in blocks])

    case("block: in 0 has 1 and 2", ACCEPTED, three((0, 2)))
    case("block: in 1 has 1 and 2", 7, three((1, 2)))
    case("block: in 2 has 1 and 2", 7, three((2, 2)))
    case("block: in 0 has 1, in 1 has 2", ACCEPTED, three((0, 1), (1, 1)))
    case("block: in 0 has 1, in 2 has 2", 7, three((0, 1), (2, 1)))
    case("block: none in 0, in 0 has 1 and 2, none in 1 and 2", ACCEPTED, three((0, 0), (0, 2), (1, 0), (2, 0), (2, 0)))
    case("block: has the sentence that it stands in, no function", 7, Law(b"", [], [[1, 0, 0]], [], [[BLOCK, 1]]))
    case("block: has its own and the sentence before", 7, Law(b"F", [[0, 1, 0]], [[0, 0, 0], [1, 0, 0]], [], [[BLOCK, 2]]))
    case("block: in a condition's result, has its own sentence", 7, Law(b"", [], [[0, 1, 0]], [[1, 0]], [[BLOCK, 1]]))
    case("block: in a condition's pattern, has its own sentence", 7, Law(b"", [], [[0, 1, 0]], [[0, 1]], [[BLOCK, 1]]))
    case("block: in brackets in a result, has its own sentence", 7,
         Law(b"", [], [[0, 0, 2]], [], [[BRACKET, 0, 0, 1], [BLOCK, 1]]))
    case("block: in a block's argument, has its own sentence", 7,
         Law(b"F", [[0, 1, 1]], [[0, 0, 1], [0, 0, 0], [0, 0, 2]], [], [[BLOCK, 1], [BLOCK, 0, 0, 1], [BLOCK, 1]]))
    case("block: in the last sentence of many, has its own", 7,
         Law(b"F", [[0, 1, 127]], [[0, 0, 0]] * 127 + [[0, 0, 1]], [], [[BLOCK, 1]]))
    case("block: in the first function, has the sentence after the last function's", ACCEPTED,
         law("F { = [ : 'a' = ;]; = ; } G { 'b' = ; = [ : = 'c'; = 'd';]; }"))
    case("block: no sentences, alone", ACCEPTED, law("F { [ : ] = [ : ]; }"))


def chain(blocks, last):
    """Blocks, each the result of the sentence of the one before, around a last run."""
    return "[ : = " * blocks + last + ";]" * blocks


def depth_cases():
    def nested(left, count, inside):
        right = {"(": ")", "<F ": ">", "[": ":]"}[left]
        return left * count + inside + right * count

    case("depth: 32 brackets, a symbol inside", ACCEPTED, law("F { = " + nested("(", 32, "'a'") + "; }"))
    case("depth: 34 brackets, nothing inside", 8, law("F { = " + nested("(", 34, "") + "; }"))
    for left, name in (("(", "brackets"), ("<F ", "calls"), ("[", "block arguments")):
        case(f"depth: 33 {name}, nothing inside", ACCEPTED, law("F { = " + nested(left, 33, "") + "; }"))
        case(f"depth: 33 {name}, a symbol inside", 8, law("F { = " + nested(left, 33, "'a'") + "; }"))
    case("depth: 32 blocks' sentences, a symbol inside", ACCEPTED, law("F { = " + chain(32, "'a'") + "; }"))
    case("depth: 33 blocks' sentences, nothing inside", ACCEPTED, law("F { = " + chain(33, "") + "; }"))
    case("depth: 33 blocks' sentences, a symbol inside", 8, law("F { = " + chain(33, "'a'") + "; }"))
    case("depth: 127 blocks' sentences, nothing inside", 8, law("F { = " + chain(127, "") + "; }"))
    case("depth: 512 brackets", 8, Law(b"F", [[0, 1, 1]], [[512, 0, 0]], [], [[BRACKET, 0, 0, 511 - i] for i in range(512)]))

    def mixed(brackets):
        """8 calls, 8 block arguments, 8 blocks' sentences, and brackets around a symbol."""
        inner = chain(8, nested("(", brackets, "'a'"))
        return law("F { = " + nested("<F ", 8, nested("[", 8, inner)) + "; }")

    case("depth: 8 calls, 8 arguments, 8 blocks, 8 brackets", ACCEPTED, mixed(8))
    case("depth: 8 calls, 8 arguments, 8 blocks, 9 brackets", 8, mixed(9))
    fits, over = nested("(", 32, "'a'"), nested("(", 33, "'a'")
    case("depth: 32 in every run", ACCEPTED, law(f"F {{ {fits} , {fits} : {fits} , : {fits} = {fits}; }} G {{ = 'd' {fits}; }}"))
    case("depth: 33 in a pattern", 8, law(f"F {{ {over} = ; }}"))
    case("depth: 33 in a condition's result", 8, law(f"F {{ , {over} : = ; }}"))
    case("depth: 33 in a second condition's pattern", 8, law(f"F {{ , : 'a' , 'b' : {over} = ; }}"))
    case("depth: 33 in the last sentence's result", 8, law(f"F {{ 'a' = 'b'; }} G {{ = ; 'c', : = 'd' {over}; }}"))
    fits, over = nested("(", 31, "'a'"), nested("(", 32, "'a'")
    case("depth: a block and 31 in its runs", ACCEPTED, law(f"F {{ = [ : {fits} , {fits} : {fits} = {fits}; = {fits};]; }}"))
    case("depth: a block and 32 in its pattern", 8, law(f"F {{ = [ : {over} = ;]; }}"))
    case("depth: a block and 32 in its condition's result", 8, law(f"F {{ = [ : , {over} : = ;]; }}"))
    case("depth: a block and 32 in its condition's pattern", 8, law(f"F {{ = [ : , : {over} = ;]; }}"))
    case("depth: a block and 32 in its second sentence", 8, law(f"F {{ = [ : 'a' = ; = {over};]; }}"))
    case("depth: a block in a pattern and 32 in its sentence", 8, law("F { [ : = " + over + ";] = ; }"))
    case("depth: a block in a condition and 32 in its sentence", 8, law("F { , : [ : = " + over + ";] = ; }"))
    case("depth: a block in 32 brackets, an empty sentence", ACCEPTED, law("F { = " + nested("(", 32, "[ : , : = ;]") + "; }"))
    case("depth: a block in 32 brackets, a symbol in its sentence", 8, law("F { = " + nested("(", 32, "[ : = 'a';]") + "; }"))
    case("depth: a block in 32 brackets, a symbol in its argument", 8, law("F { = " + nested("(", 32, "['a' : ]") + "; }"))
    # An outer block's sentences stand before those of a block in its argument.
    case("depth: 31 in the outer block's sentence", ACCEPTED, law(f"F {{ = [[ : = 'b';] : = {fits};]; }}"))
    case("depth: 31 in the sentence of a block in an argument", 8, law(f"F {{ = [[ : = {fits};] : = 'b';]; }}"))
    # The sentences of the second block stand before those of a block in the first one's sentence.
    case("depth: 31 in the second block's sentence", ACCEPTED, law(f"F {{ = [ : = [ : = 'b';];] [ : = {fits};]; }}"))
    case("depth: 31 in the sentence of a block in the first one's", 8, law(f"F {{ = [ : = [ : = {fits};];] [ : = 'b';]; }}"))
    # A pattern's block comes before a condition's, and that before a result's: only the second stands in brackets.
    case("depth: 31 in the pattern's and the result's block", ACCEPTED,
         law(f"F {{ [ : = {fits};] , ([ : = 'b';]) : = [ : = {fits};]; }}"))
    case("depth: 31 in the sentence of a condition's block in brackets", 8,
         law(f"F {{ [ : = 'b';] , ([ : = {fits};]) : = [ : = 'b';]; }}"))
    case("depth: 32 brackets, a symbol, 32 brackets", ACCEPTED,
         law("F { = " + nested("(", 32, "'a'") + "'b'" + nested("(", 32, "'a'") + "; }"))
    case("depth: 10 brackets around 22 and 22", ACCEPTED,
         law("F { = " + nested("(", 10, nested("(", 22, "'a'") + nested("(", 22, "'a'")) + "; }"))
    case("depth: 10 brackets around 22 and 23", 8,
         law("F { = " + nested("(", 10, nested("(", 22, "'a'") + nested("(", 23, "'a'")) + "; }"))


LETTERS = "ABCDEFGHIJKLMNOPQRSTUVWXYZ"


def variables(kind, count, letters=LETTERS + "0123456789"):
    """So many variables of one kind with different indices of one byte."""
    return "".join(f"{kind}.{index} " for index in letters[:count])


def pattern_cases():
    v31, v32, v33 = variables("s", 31), variables("s", 32), variables("s", 33)
    case("pattern: 32 variables", ACCEPTED, law(f"F {{ {v32} = ; }}"))
    case("pattern: 33 variables", 9, law(f"F {{ {v33} = ; }}"))
    case("pattern: 33 e. variables", 9, law(f"F {{ {variables('e', 33)} = ; }}"))
    case("pattern: 32 variables, each three times", ACCEPTED, law(f"F {{ {v32} {v32} {v32} = ; }}"))
    case("pattern: 32 variables, then one that was there", ACCEPTED, law(f"F {{ {v32} s.A = ; }}"))
    # Kinds tell variables apart.
    case("pattern: 10 indices as s., t. and e., two more", ACCEPTED,
         law("F { " + variables("s", 12) + variables("t", 10) + variables("e", 10) + "= ; }"))
    case("pattern: 11 indices as s., t. and e.", 9,
         law("F { " + variables("s", 11) + variables("t", 11) + variables("e", 11) + "= ; }"))
    # Letter case does not.
    case("pattern: 32 variables, and s.a beside s.A", ACCEPTED, law(f"F {{ {v32} s.a = ; }}"))
    case("pattern: 32 variables, and t.a beside s.A", 9, law(f"F {{ {v32} t.a = ; }}"))
    case("pattern: 31 variables, s.a-b and s.a_b", 9, law(f"F {{ {v31} s.a-b s.a_b = ; }}"))
    case("pattern: 31 variables, s.a-b and s.A-B", ACCEPTED, law(f"F {{ {v31} s.a-b s.A-B = ; }}"))
    case("pattern: 31 variables, s.- and s._", 9, law(f"F {{ {v31} s.- s._ = ; }}"))
    case("pattern: 31 variables, s.01 and s.001", 9, law(f"F {{ {v31} s.01 s.001 = ; }}"))
    long = "x" * 63
    case("pattern: 31 variables, two of 64 bytes with other ends", 9, law(f"F {{ {v31} s.{long}y s.{long}z = ; }}"))
    case("pattern: 31 variables, two of 64 bytes with ends y and Y", ACCEPTED, law(f"F {{ {v31} s.{long}y s.{long}Y = ; }}"))
    case("pattern: one index spelled at 40 places", ACCEPTED,
         Law(b"F" + b"aA" * 20, [[0, 1, 1]], [[40, 0, 0]], [], [[S, 1 + i, 1] for i in range(40)]))
    case("pattern: 33 overlapping indices of one spelling's parts", 9,
         Law(b"F" + b"a" * 33, [[0, 1, 1]], [[33, 0, 0]], [], [[S, 1, 1 + i] for i in range(33)]))
    # Every place of a pattern counts.
    case("pattern: 32 variables and one in brackets", 9, law(f"F {{ {v32} ((s.6)) = ; }}"))
    case("pattern: 32 variables and one in a call", 9, law(f"F {{ {v32} <F s.6> = ; }}"))
    case("pattern: 32 variables and one in a block's argument", 9, law(f"F {{ {v32} [s.6 : ] = ; }}"))
    case("pattern: 32 variables in brackets, a call and an argument", ACCEPTED,
         law("F { (" + variables("s", 12) + ") <F " + variables("t", 10) + "> [" + variables("e", 10) + " : ] = ; }"))
    # Other runs do not.
    case("pattern: 33 variables in a condition and in a result", ACCEPTED, law(f"F {{ , {v33} : {v33} = {v33}; }}"))
    case("pattern: 32 s., a condition's 32 t., a result's 32 e.", ACCEPTED,
         law(f"F {{ {v32} , : {variables('t', 32)} = {variables('e', 32)}; }}"))
    case("pattern: 32 s., then 32 t. in the next sentence", ACCEPTED, law(f"F {{ {v32} = ; {variables('t', 32)} = ; }}"))
    case("pattern: 33 variables in the last sentence", 9, law(f"F {{ 'a', 'b' : 'c' = 'd'; }} G {{ = ; {v33} = ; }}"))
    case("pattern: 33 variables in a block's sentence in a result", 9, law(f"F {{ = [ : {v33} = ;]; }}"))
    case("pattern: 33 variables in a block's sentence in a condition", 9, law(f"F {{ , [ : {v33} = ;] : = ; }}"))
    case("pattern: 33 variables in a block's sentence in a pattern", 9, law(f"F {{ [ : {v33} = ;] = ; }}"))
    case("pattern: 32 s., and 32 t. in its block's sentence", ACCEPTED,
         law(f"F {{ {v32} [ : {variables('t', 32)} = ;] = ; }}"))
    case("pattern: 32 variables, its block's result has others", ACCEPTED,
         law(f"F {{ {v32} [ : = {variables('t', 33)};] = ; }}"))


def order_cases():
    """Laws that deserve two refusals or more. The first in the table's order is given."""
    # 1 before 2 and 4 is among the files, 2 and 4 in one section among the counts.
    case("order: 2 before 4, words over limits in a text that is cut off", 2, word(100) + b"\xff" * 99)
    case("order: 4 before 2, functions over, sentences cut off", 4, word(1) + b"F" + section(Law(b"F", [[0, 1, 0]] * 65), "functions"))
    case("order: 4 before 2, text over and cut off", 4, word(4097) + b"x")
    case("order: 4 before 3, terms over and a byte left over", 4, encoded(filled(1, 1, 0, 513)) + b"\0")
    case("order: 2 before 3, last count cut off after zeros", 2, bytes(19))
    # One sentence with 33 variables, and a symbol in 33 brackets; then its block has the sentence itself, and so on.
    eight_nine = law("F { [ : ] " + "(" * 33 + "'a'" + ")" * 33 + variables("s", 33) + "= ; }")
    nine = law("F { [ : ] " + variables("s", 33) + "= ; }")
    seven_nine = changed(changed(eight_nine, "functions", 0, 2, 0), "terms", 0, 1, 1)
    six_nine = changed(seven_nine, "functions", 0, 2, 1)
    five_nine = changed(six_nine, "terms", 0, 2, 1)
    case("order: 9", 9, nine)
    case("order: 8 and 9", 8, eight_nine)
    case("order: 7, 8 and 9", 7, seven_nine)
    case("order: 6 to 9", 6, six_nine)
    case("order: 5 to 9", 5, five_nine)
    case("order: 3 and 5 to 9", 3, encoded(five_nine) + b"\0")
    case("order: 3 before 5, a bad function name", 3, encoded(Law(b".", [[0, 1, 0]])) + b"\0")
    case("order: 5 before 6, a bad function name and a sentence too many", 5, Law(b".", [[0, 1, 0]], [[0, 0, 0]]))
    case("order: 6 before 7, a block that has its own sentence, a term too many", 6,
         Law(b"", [], [[1, 0, 0]], [], [[BLOCK, 1], [CHARACTER, 0x61]]))
    case("order: 6 before 7, n that passes after such a block", 6,
         Law(b"", [], [[2, 0, 0]], [], [[BLOCK, 1], [BRACKET, 0, 0, 1]]))
    case("order: 6 before 8, 33 brackets, a sentence too many", 6,
         changed(law("F { = " + "(" * 33 + "'a'" + ")" * 33 + "; }"), "functions", 0, 2, 2))
    case("order: 7 before 9, 33 variables first", 7,
         changed(changed(law("F { " + variables("s", 33) + "[ : ] = ; }"), "functions", 0, 2, 0), "terms", 33, 1, 1))
    case("order: 8 before 9, 33 variables in an earlier sentence", 8,
         law("F { " + variables("s", 33) + "= ; = " + "(" * 33 + "'a'" + ")" * 33 + "; }"))


def accepted_cases():
    case("law: no functions", ACCEPTED, NONE)
    case("law: text only", ACCEPTED, Law(b"\0\xff text of no name"))
    case("law: a function without sentences", ACCEPTED, law("F { }"))
    case("law: a name defined twice", ACCEPTED, law("F { = 'a'; } f { = 'b'; } F { }"))
    listing = law("F { e.X = 'a'; s.A = <F 1>; } H { 'q' = <H 2>; }")
    listing.sentences[1] += [15, 26]
    listing.terms[6] += [40, 45]
    case("law: the listing's example", ACCEPTED, listing)
    case("law: everything", ACCEPTED, law("""
        Start-1 { e.Rest 's' = <Print_it (e.Rest) 12 Name>; = ; }
        Print_it {
            s.A t.B e.C (s.A (t.B)) 'x' 42 Ident, <F e.C> : e.D (e.D), [e.D : 'q' = ; e.E = e.E;] : t.F
                = [s.A (e.C) : s.G = <F s.G>; t.H, 'y' [ : ] : s.I = [ : = 'z';];];
            [e.X : 'p' = ; ([t.Y : 'r' = ;]) = ;] <G e.Y> , : [ : = Last;] = ;
        }
        No-Sentences { }
    """))


def main():
    file_cases()
    cut_cases()
    count_cases()
    left_over_cases()
    character_cases()
    unused_cases()
    length_cases()
    place_cases()
    spelling_cases()
    every_record_cases()
    run_cases()
    used_up_cases()
    block_cases()
    depth_cases()
    pattern_cases()
    order_cases()
    accepted_cases()
    folder = Path(__file__).resolve().parent.parent / "crates" / "test_edges"
    with open(folder / "stdin", "wb") as given, open(folder / "stdout", "wb") as expected:
        for label, answer, data in cases:
            given.write(label.encode("ascii") + b"\n" + word(len(data)) + data)
            line = f"{label} {ACCEPTED}\n" if answer == ACCEPTED else f"{label} refused {answer}\n"
            expected.write(line.encode("ascii"))
    print(f"{len(cases)} cases")


if __name__ == "__main__":
    main()
