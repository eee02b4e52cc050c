"""A model of the reading of laws typed as text: the law file of a text, or the number of its refusal.

It was written from document 02, R-1, and document 01's limits, by this grammar:

    text     = { extern | [ "$ENTRY" ] function }
    extern   = "$EXTERN" ident { "," ident } ";"
    function = ident "{" sentence { ";" sentence } [ ";" ] "}"
    sentence = pattern { "," result ":" pattern } "=" result
    pattern  = { symbol | variable | "(" pattern ")" }
    result   = { symbol | variable | "(" result ")" | "<" ident result ">" }
    symbol   = quoted | ident | number
    quoted   = "'" char { char } "'"           char: any but ' and \\
    ident    = letter { letter | digit | "-" | "_" }
    number   = digit { digit }
    variable = ( "s" | "t" | "e" ) "." index   index: one or more of letter, digit, "-", "_"
    between  = { space | tab | line feed | carriage return | comment }
    comment  = "/*" anything without "*/" "*/"

A law is read to what edge_laws.Reader gives, so that listing_model lists it; each part has its span, and each spelling its
place in the text (`at`). UTF-8 is decoded by Python.
"""
import re
import sys

from edge_laws import BRACKET, CALL, CHARACTER, IDENTIFIER, NUMBER, E, Law, S, Spanned, T, encoded

# Calls go one deeper for each bracket.
sys.setrecursionlimit(20000)

FILE_BYTES, TEXT_BYTES, SPELLED_BYTES, DEPTH, VARIABLES = 16384, 4096, 64, 32, 32
MOST = {"functions": 64, "sentences": 128, "conditions": 128, "terms": 512}

BETWEEN = re.compile(r"[ \t\n\r]|/\*.*?\*/", re.DOTALL)
TOKENS = {
    "mark": re.compile(r"[{}()<>,:=;]|\$ENTRY|\$EXTERN"),
    "quoted": re.compile(r"'[^'\\]+'"),
    "ident": re.compile(r"[A-Za-z][A-Za-z0-9_-]*"),
    "number": re.compile(r"[0-9]+"),
    "variable": re.compile(r"[ste]\.[A-Za-z0-9_-]+"),
}
VARIABLE_KINDS = {"s": S, "t": T, "e": E}


class Outside(Exception):
    """The text is outside the grammar."""


class Token:
    def __init__(self, group, spelling, start, end):
        self.group, self.spelling, self.start, self.end = group, spelling, start, end


def tokens_of(text):
    try:
        characters = text.decode("utf-8")
    except UnicodeDecodeError:
        raise Outside from None
    found, at, byte = [], 0, 0
    while at < len(characters):
        group, match = None, BETWEEN.match(characters, at)
        for other, pattern in TOKENS.items():
            fits = pattern.match(characters, at)
            if fits and (match is None or match.end() < fits.end()):
                group, match = other, fits
        if match is None:
            raise Outside
        start, byte, at = byte, byte + len(match[0].encode("utf-8")), match.end()
        if group:
            found.append(Token(group, match[0], start, byte))
    return found + [Token("end", "", byte, byte)]


def placed(thing, start, end, at=None):
    spanned = Spanned(thing)
    spanned.span, spanned.at = (start, end), at
    return spanned


class TextReader:
    """Reads a text of the grammar. A term is (kind, spelling or scalar value, terms inside, no sentences)."""

    def __init__(self, text):
        self.tokens = tokens_of(text)
        self.position = 0

    def next_is(self, *spellings):
        token = self.tokens[self.position]
        return token.group == "mark" and token.spelling in spellings

    def take(self):
        self.position += 1
        return self.tokens[self.position - 1]

    def mark(self, spelling):
        if not self.next_is(spelling):
            raise Outside
        return self.take()

    def ident(self):
        if self.tokens[self.position].group != "ident":
            raise Outside
        return self.take()

    def since(self, first, thing, at=None):
        """The thing that was read from a token on."""
        return placed(thing, self.tokens[first].start, self.tokens[self.position - 1].end, at)

    def functions(self):
        found = []
        while self.tokens[self.position].group != "end":
            if self.next_is("$EXTERN"):
                self.extern()
            else:
                if self.next_is("$ENTRY"):
                    self.take()
                found.append(self.function())
        return found

    def extern(self):
        self.take()
        self.ident()
        while self.next_is(","):
            self.take()
            self.ident()
        self.mark(";")

    def function(self):
        first = self.position
        name = self.ident()
        self.mark("{")
        sentences = [self.sentence()]
        while self.next_is(";"):
            self.take()
            if self.next_is("}"):
                break
            sentences.append(self.sentence())
        self.mark("}")
        return self.since(first, (name.spelling, sentences), name.start)

    def sentence(self):
        first = self.position
        pattern = self.run(calls=False)
        conditions = []
        while self.next_is(","):
            self.take()
            conditions.append(self.condition())
        self.mark("=")
        return self.since(first, (pattern, conditions, self.run(calls=True)))

    def condition(self):
        first = self.position
        result = self.run(calls=True)
        self.mark(":")
        return self.since(first, (result, self.run(calls=False)))

    def run(self, calls):
        """A result, or a pattern: it has no calls."""
        terms = []
        while True:
            if self.next_is("(") or calls and self.next_is("<"):
                terms.append(self.around(calls))
            elif self.tokens[self.position].group in ("mark", "end"):
                return terms
            else:
                terms += self.atom(self.take())

    def around(self, calls):
        """A bracket or a call."""
        first = self.position
        if self.take().spelling == "(":
            inside = self.run(calls)
            self.mark(")")
            return self.since(first, (BRACKET, None, inside, []))
        name = self.ident()
        inside = self.run(calls)
        self.mark(">")
        return self.since(first, (CALL, name.spelling, inside, []), name.start)

    def atom(self, token):
        """A symbol or a variable; each character between quotes is a term."""
        if token.group == "quoted":
            terms, byte = [], token.start + 1
            for character in token.spelling[1:-1]:
                start, byte = byte, byte + len(character.encode("utf-8"))
                terms.append(placed((CHARACTER, ord(character), [], []), start, byte))
            return terms
        kind, spelling, at = NUMBER, token.spelling, token.start
        if token.group == "ident":
            kind = IDENTIFIER
        elif token.group == "variable":
            kind, spelling, at = VARIABLE_KINDS[spelling[0]], spelling[2:], at + 2
        return [placed((kind, spelling, [], []), token.start, token.end, at)]


def law_of(text, functions):
    """The records of what was read; the text is their text section."""
    made = Law(text)

    def put(run):
        first = len(made.terms)
        for term in run:
            kind, value, inside, _ = term
            record = [kind, 0, 0, 0, *term.span]
            if kind == CHARACTER:
                record[1] = value
            elif kind != BRACKET:
                record[1:3] = [term.at, len(value)]
            made.terms.append(record)
            record[3] = put(inside)
        return len(made.terms) - first

    for function in functions:
        name, sentences = function
        made.functions.append([function.at, len(name), len(sentences), *function.span])
        for sentence in sentences:
            pattern, conditions, result = sentence
            counts = [put(pattern), len(conditions), 0, *sentence.span]
            for condition in conditions:
                made.conditions.append([put(condition[0]), put(condition[1]), *condition.span])
            counts[2] = put(result)
            made.sentences.append(counts)
    return made


# Limits

def terms_in(run, around=0):
    """The terms of a run at every depth, each with the number of brackets and calls around it."""
    for term in run:
        yield term, around
        yield from terms_in(term[2], around + 1)


def over_limits(functions, law):
    """The number of the first of document 01's refusals that the law deserves, or None."""
    sentences = [sentence for _, sentences in functions for sentence in sentences]
    runs = [run for pattern, conditions, result in sentences for run in (pattern, result, *sum(conditions, ()))]
    terms = [one for run in runs for one in terms_in(run)]
    if len(encoded(law)) > FILE_BYTES:
        return 1
    if any(len(getattr(law, name)) > most for name, most in MOST.items()):
        return 4
    spelled = [name for name, _ in functions] + [term[1] for term, _ in terms if isinstance(term[1], str)]
    if any(len(spelling) > SPELLED_BYTES for spelling in spelled):
        return 5
    if any(around > DEPTH for _, around in terms):
        return 8
    for pattern, _, _ in sentences:
        if len({(term[0], term[1].upper()) for term, _ in terms_in(pattern) if term[0] in (S, T, E)}) > VARIABLES:
            return 9
    return None


def file_of(text):
    """The law file of a text, or the number of the refusal."""
    if len(text) > TEXT_BYTES:
        return 4
    try:
        functions = TextReader(text).functions()
    except Outside:
        return 16
    law = law_of(text, functions)
    return over_limits(functions, law) or encoded(law)


def read(text, room):
    """What the call answers with a buffer of so many bytes, and what it writes there."""
    file = file_of(text)
    if isinstance(file, bytes) and len(file) > room:
        file = 17
    if isinstance(file, int):
        return f"refused {file}", b""
    return f"written {len(file)}", file
