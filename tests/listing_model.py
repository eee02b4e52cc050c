"""A model of the listing: the findings of a law, their words and their texts.

It was written from document 01 ("The listing", "Differences from the Rust") and lints.rs; for the order and the texts of
findings document 01 names lints.rs alone. Formats are inferred by the model of store_laws.py and patterns matched by that
of pair_laws.py, for which numbers are their values, as document 02, R-3, has it and lints.rs has not. It works on the law as
read by edge_laws.Reader, with its spans, and not on a law file's bytes. It has been compared with nothing but the lines that
document 01 gives.
"""
from edge_laws import BLOCK, BRACKET, CALL, CHARACTER, E, NUMBER
from pair_laws import literal, recognises, shadows
from store_laws import NEVER, Over, display, folded, format_words, infer, row_of, size

DEAD, RECOGNITION, BUILTIN, OPEN = 1, 2, 3, 4
DENY, ALLOW = 1, 3
OWN_SEVERITY = {DEAD: DENY, RECOGNITION: DENY, BUILTIN: DENY, OPEN: ALLOW}
SHAPES = 64
STORE = 8320


def disjoint(a, b):
    """Is no expression in both formats?"""
    if a is NEVER or b is NEVER:
        return True
    if not a[1] and len(b[0]) > len(a[0]) or not b[1] and len(a[0]) > len(b[0]):
        return True
    return any(apart(x, y) for x, y in zip(a[0], b[0]))


def apart(a, b):
    if isinstance(a, tuple) and isinstance(b, tuple):
        return disjoint(a, b)
    if "?" in (a, b):
        return False
    if isinstance(a, tuple) or isinstance(b, tuple):
        return True
    return a != b and "S" not in (a, b)


def numbered(functions):
    """The record numbers of sentences and of terms, by identity: document 01's order of sections 3 and 5."""
    sentence_numbers, term_numbers = {}, {}
    waiting = [sentence for _, sentences in functions for sentence in sentences]

    def walk(run):
        for term in run:
            term_numbers[id(term)] = len(term_numbers)
            waiting.extend(term[3])
            walk(term[2])

    for sentence in waiting:
        sentence_numbers[id(sentence)] = len(sentence_numbers)
        pattern, conditions, result = sentence
        walk(pattern)
        for condition_result, condition_pattern in conditions:
            walk(condition_result)
            walk(condition_pattern)
        walk(result)
    return sentence_numbers, term_numbers


class Finding:
    def __init__(self, lint, subject, a, b, text):
        self.lint, self.subject, self.a, self.b, self.text = lint, subject, a, b, text
        self.function = None


# Lint 1

def dead_among(owner, sentences):
    for later, sentence in enumerate(sentences):
        for earlier, (pattern, conditions, _) in enumerate(sentences[:later]):
            if not conditions and shadows(pattern, sentence[0]):
                yield Finding(DEAD, sentence, later + 1, earlier + 1, (
                    f"sentence {later + 1} of `{owner}` is unreachable: sentence {earlier + 1} has no conditions "
                    "and already matches every argument this one matches"))
                break


def dead_inside(owner, sentences):
    for pattern, conditions, result in sentences:
        yield from dead_in(owner, pattern)
        for condition_result, condition_pattern in conditions:
            yield from dead_in(owner, condition_result)
            yield from dead_in(owner, condition_pattern)
        yield from dead_in(owner, result)


def dead_in(owner, run):
    for kind, _, inside, sentences in run:
        yield from dead_in(owner, inside)
        if kind == BLOCK:
            yield from dead_among(f"a block in `{owner}`", sentences)
            yield from dead_inside(owner, sentences)


def dead(function):
    name, sentences = function
    yield from dead_among(name, sentences)
    yield from dead_inside(name, sentences)


# Lints 2 and 3 look at the calls of results, of conditions' results and of blocks, a call before its argument.

def calls_of(sentences):
    for _, conditions, result in sentences:
        for condition_result, _ in conditions:
            yield from calls_in(condition_result)
        yield from calls_in(result)


def calls_in(run):
    for term in run:
        kind, _, inside, sentences = term
        if kind == CALL:
            yield term
        yield from calls_in(inside)
        yield from calls_of(sentences)


def recognition(call, last, arguments, results):
    """What lint 2 says of a call, by the last definitions and the formats."""
    _, name, argument, _ = call
    if folded(name) not in last:
        return
    exact = literal(argument)
    if exact and any(recognises(pattern, argument) for pattern, _, _ in last[folded(name)]):
        return
    passed, accepted = row_of(argument, results), arguments[folded(name)]
    if size(passed) > SHAPES:
        raise Over
    if disjoint(passed, accepted):
        yield Finding(RECOGNITION, call, 1, 0, (
            f"`<{name} ...>` always fails: `{name}` accepts {display(accepted)}, but this call passes {display(passed)}"))
    elif exact:
        yield Finding(RECOGNITION, call, 2, 0, f"`<{name} ...>` always fails: no sentence of `{name}` matches this argument")


def is_sign(term):
    return term[0] == CHARACTER and chr(term[1]) in "+-"


def macrodigits(operand):
    """The values of an operand's digits after one sign, or None where it has another term or a digit over a word."""
    digits = operand[1:] if operand and is_sign(operand[0]) else operand
    if any(kind != NUMBER or int(value) > 0xFFFFFFFF for kind, value, _, _ in digits):
        return None
    return [int(value) for _, value, _, _ in digits]


REASONS = {1: "expected exactly two integer numbers", 2: "division by zero",
           3: "expected a non-empty character string of decimal digits"}


def builtin_reason(name, argument):
    if name in ("ADD", "SUB", "MUL", "DIV", "MOD", "DIVMOD", "COMPARE"):
        split = 2 if argument and is_sign(argument[0]) else 1
        first, second = macrodigits(argument[:split]), macrodigits(argument[split:])
        if first is None or second is None:
            return None
        if not first or not second:
            return 1
        return 2 if name in ("DIV", "MOD", "DIVMOD") and not any(second) else None
    if name == "NUMB" and all(term[0] == CHARACTER for term in argument):
        return None if argument and all(chr(term[1]) in "0123456789" for term in argument) else 3
    return None


def builtin(call):
    _, name, argument, _ = call
    reason = builtin_reason(folded(name), argument)
    if reason is not None:
        yield Finding(BUILTIN, call, reason, 0, f"`<{name} ...>` always fails: {REASONS[reason]}")


# Lint 4

def e_occurrences(run):
    return sum((kind == E) + (e_occurrences(inside) if kind == BRACKET else 0) for kind, _, inside, _ in run)


def open_expressions(function):
    name, sentences = function
    for sentence in sentences:
        count = e_occurrences(sentence[0])
        if count >= 2:
            yield Finding(OPEN, sentence, count, 0, (
                f"sentence of `{name}` has {count} `e.`-variables in its pattern; matching may backtrack proportionally "
                f"to the argument length to the power {count}"))


# The listing

def every_finding(functions, arguments, results):
    last = {folded(name): sentences for name, sentences in functions}
    lints = (
        dead,
        lambda function: (one for call in calls_of(function[1]) for one in recognition(call, last, arguments, results)),
        lambda function: (one for call in calls_of(function[1]) for one in builtin(call)),
        open_expressions,
    )
    for lint in lints:
        for position, function in enumerate(functions):
            for finding in lint(function):
                finding.function = position
                yield finding


def severity(lint, overrides):
    """The severity that the first override of a lint says, else its own; and whether an override hides it."""
    said = [level for other, level in overrides if other == lint]
    return (said + [OWN_SEVERITY[lint]])[0], bool(said) and said[0] == ALLOW


class Listing:
    """What a law comes to under settings. Raises Over where it is refused with 10."""

    def __init__(self, functions, mode=1, overrides=()):
        self.rounds, self.settled, formats = infer(functions)
        names = sorted({folded(name) for name, _ in functions}, key=str.encode)
        arguments, results = dict(zip(names, formats[0::2])), dict(zip(names, formats[1::2]))
        sentence_numbers, term_numbers = numbered(functions)
        self.findings = []
        for finding in list(every_finding(functions, arguments, results)):
            level, hidden = severity(finding.lint, overrides)
            if not hidden and not (mode == 0 and level == ALLOW):
                numbers = sentence_numbers if finding.lint in (DEAD, OPEN) else term_numbers
                words = [finding.lint, level, *finding.subject.span, finding.a, finding.b, finding.function,
                         numbers[id(finding.subject)]]
                self.findings.append((words, finding.text))
        self.store = []
        for format in formats:
            words = format_words(format)
            self.store += words + [0] * (SHAPES + 1 - len(words))
        self.store += [0] * (STORE - len(self.store))

    def lines(self):
        """What the listing program writes."""
        rows = [[len(self.findings), self.rounds, int(self.settled)]] + [words for words, _ in self.findings]
        return "".join(" ".join(map(str, row)) + "\n" for row in rows)
