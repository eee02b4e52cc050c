#!/usr/bin/env python3
"""Tries contracts of the exported calls that promise less, or ask for something: the crate `loader` must refuse each.

A weaker contract is easier to prove. So in each of these the proofs of crates/bilzarko are kept in step, such that it is still
proved, and only what pins it is left to refuse it: the contracts of crates/loader, which say the same in other words. Edits of
crates/loader/must-fail cannot reach crates/bilzarko; else these are the same. They are tried by `rt check` in a copy of the crates,
which begins with what `rt check` has kept of the crates here. Words name contracts; without any, all are tried. --dry: no check,
only whether the old text of each edit stands in its file exactly once.

`put-whole` is a program instead, which no caller would miss: its proof is kept in step too, and only the contract of
`buffers::put`, on a buffer without room, is left to refuse it."""
import sys

from weaker_machines import tried

CODE = "bilzarko/src/lib.rt"
EXPORTED = "bilzarko/specs/Exported.antt"
LAWS = "bilzarko/proofs/ExportLaws.antt"
LAWS_USED = "use Rattle.bilzarko.proofs.ExportLaws.{"
PUT_CODE = "buffers/src/lib.rt"
PUT_PROOF = "buffers/proofs/put/Answers.antt"
PUT_ENDED = "put_ended x.out.now x.piece.now x.at c.loop-i.i c.loop-i.invariant "
PUT_LONG = "put_length c.loop-i.invariant"
PUT_BRANCHES = f"""    elim c.if-at-piece.branch [
      | then-at-piece w ↦ {PUT_ENDED}(omega (arith, {PUT_LONG}, w.fits-is, w.if-at-piece.true))
      | else-at-piece w ↦ {PUT_ENDED}(omega (arith, {PUT_LONG}, w.fits-is, w.if-at-piece.false))
    ]"""
PINS = {PUT_PROOF} | {"loader/proofs/" + name for name in ("LoadedLaws.antt", "BytesLaws.antt", "ShownLaws.antt", "PrintedLaws.antt", "TypedLaws.antt",
                                                         "MarkedLaws.antt", "load/Proof.antt", "show/Proof.antt", "print/Proof.antt", "read/Proof.antt", "mark/Proof.antt")}

# ---- demand 3

EXPORTED_PRELUDE = "use Rattle.std.specs.Prelude.{ℕ, ◌*◌, cond, List, [], ◌∷◌, ◌≡◌, take, get_or}"
PREMISES = "→ get_or after.answer 2 0 ≡ 1"
WORDS = "(take (8 * get_or after.answer 0 0) after.findings)"
CLAIM = f"→ NoFalseFinding law {WORDS}"
USED = "use Rattle.runs.specs.Claim.{NoFalseFinding}"
CLAIMED_FOR = "no_false_finding = λ law law-is none one."
CLAIMED = (
    "promise.no_false_finding law (record { findings = l.count; rounds = l.rounds; settled = l.settled }) law-is (rw is refl)"
    " (settled_by_word l.settled (rw (← word-is) one))"
)

# ---- the outcome

OUTCOME = "outcome : after ≡ findings_exit answer (findings_outcome limit settings bytes store words)"
REFUSED = "outcome = rw (← promise.outcome, is, number_is) refl;"
LISTED = "outcome = rw (← promise.outcome, is, word-is) refl;"
NUMBER_SOME = "absurd (turned_number_some why (rw (← number_is) none))"


class Call:
    """A call whose contract is one equation: its name, the word that its exit and its laws are named by, the fields of the exit and
    the parameter that each is of, and its outcome."""

    def __init__(self, name, word, fields, outcome):
        self.exit_type, self.fields = f"{word.capitalize()}Exit", tuple(fields)
        self.proof = f"bilzarko/proofs/bilzarko_{name}/Answers.antt"
        self.definition = f"abbrev pub {word}_exit :"
        after = "; ".join(f"{field} = {parameter}.new" for field, parameter in fields.items())
        self.record = f"(record {{ number = result; {after} }})"
        self.outcome = f"({word}_exit answer.old ({outcome}))"
        self.ensured = f"◌≡◌ {{A = {self.exit_type}}} {self.record}\n        {self.outcome}"
        start = f"c.args.answer.now c.{name}.ensures"
        self.refused = f"{word}_refused {start} c.in-Err.why c.in-Err.is c.from.ensures"
        self.written = f"{word}_written {start} c.in-Ok.bytes c.in-Ok.is"


TEXT = Call("text", "bytes", {"store": "store", "bytes": "text", "answer": "answer"},
            "text_outcome 64 (settings_from mode overrides.now) law.now store.old position text.old")
PAGE = Call("page", "bytes", {"store": "store", "bytes": "page", "answer": "answer"},
            "page_outcome 64 (settings_from mode overrides.now) law.now store.old page.old")
READ = Call("read", "read", {"law": "law", "answer": "answer"}, "read_outcome text.now law.old")

# ---- the digit call

DIGIT_TYPE = "◌≡◌ {A = DigitExit}"
DIGIT_ENSURED = f"{DIGIT_TYPE} (record {{ number = result; state = state.new }}) (digit_exit (step_of state.old digit))"
DIGIT_PROOF = "bilzarko/proofs/bilzarko_digit/Answers.antt"
DIGIT_TAKEN = "digit_taken c.digit_step-step.ensures c.tested_number.ensures"
DIGIT_BYTE = "Rattle.names.specs.Name.{digit_byte}"
AT_MOST = "Rattle.std.specs.Prelude.{◌≤◌}"


def said(name, type_of, fields, left_out, nothing, where):
    """A definition: what an exit says where a field counts only after refusals, or only where there is none."""
    kept = {field: f"e.{field}" for field in fields}
    ways = (f"e.{left_out}", nothing) if where == "refused" else (nothing, f"e.{left_out}")
    kept[left_out] = f"cond (eqb e.number 0) {' '.join(ways)}"
    return f"""abbrev pub {name} : {type_of} → {type_of}
{name} e = record {{ number = e.number; {'; '.join(f'{field} = {text}' for field, text in kept.items())} }}

"""


def besides(names):
    """Names that the definitions of the exported calls take from the library besides."""
    return (EXPORTED, EXPORTED_PRELUDE, EXPORTED_PRELUDE.replace("}", f", {names}}}"))


def findings_unsaid(field, where):
    definition = said("said", "FindingsExit", ("store", "findings", "answer"), field, "[]", where)
    return [
        besides("eqb"),
        (EXPORTED, "-- `bytes` is the law;", definition + "-- `bytes` is the law;"),
        (EXPORTED, OUTCOME, OUTCOME.replace("after ≡ ", "said after ≡ said (") + ")"),
    ] + ([(LAWS, LISTED, LISTED.replace(", word-is", ""))] if (field, where) == ("answer", "listed") else [])


def unsaid(call, field, where):
    definition = said("said", call.exit_type, call.fields, field, "0" if field == "answer" else "[]", where)
    return [
        besides("eqb"),
        (EXPORTED, call.definition, definition + call.definition),
        (CODE, "Exported.{FindingsExported, ", "Exported.{said, FindingsExported, "),
        (CODE, call.record, f"(said {call.record})"),
        (CODE, call.outcome, f"(said {call.outcome})"),
        (call.proof, LAWS_USED, f"use mathlib.Core.Path.{{ap}}\nuse Rattle.bilzarko.specs.Exported.{{said}}\n{LAWS_USED}"),
        (call.proof, call.refused, f"ap said ({call.refused})"),
        (call.proof, call.written, f"ap said ({call.written})"),
    ]


def asking(call, asked):
    return [(CODE, f"    ensures {{ {call}", f"    requires {{ {asked} }}\n    ensures {{ {call}")]


def using(names):
    """Names that the exported calls' contracts take from the libraries besides."""
    first = "ghost use Rattle.std.specs.Prelude.{◌≡◌};"
    return [(CODE, first, first + "".join(f"\nghost use {name};" for name in names))] if names else []


def digit_says(ensured, uses, proved):
    """The digit call with another promise, the names that it takes from the libraries, and its proof from the whole promise."""
    return [
        (CODE, DIGIT_ENSURED, ensured),
        (DIGIT_PROOF, LAWS_USED, f"use mathlib.Core.Path.{{ap}}\n{LAWS_USED}"),
        (DIGIT_PROOF, DIGIT_TAKEN, proved),
    ] + using(uses)


def nothing_said(call):
    return [(CODE, call.ensured, "Unit {0}"), (call.proof, call.refused, "tt"), (call.proof, call.written, "tt")]


CONTRACTS = {
    "no-demand-3": (
        "demand 3 is taken off",
        [(EXPORTED, CLAIM, "→ Unit {0}"), (LAWS, f"{CLAIMED_FOR}\n        {CLAIMED};", CLAIMED_FOR + " tt;")],
    ),
    "demand-3-empty": (
        "demand 3 of empty listings alone",
        [
            (EXPORTED, PREMISES, PREMISES + " → get_or after.answer 0 0 ≡ 0"),
            (LAWS, CLAIMED_FOR, CLAIMED_FOR.replace("one.", "one empty.")),
        ],
    ),
    "demand-3-zeros": (
        "demand 3 of laws without a digit 0 alone",
        [
            besides("true, false, eqb"),
            (EXPORTED, USED, USED + "\nuse Rattle.names.specs.Name.{every_byte}"),
            (EXPORTED, PREMISES, PREMISES + " → every_byte (λ b. cond (eqb b 48) false true) bytes ≡ true"),
            (LAWS, CLAIMED_FOR, CLAIMED_FOR.replace("one.", "one plain.")),
        ],
    ),
    "demand-3-lint-1": (
        "demand 3 of lint 1 alone",
        [
            (EXPORTED, USED, USED.replace("NoFalseFinding", "OfFunction, Lists, NeverChosen")),
            (EXPORTED, CLAIM, f"→ NeverChosen law (λ i. OfFunction law i × Lists {WORDS} 1 i)"),
            (LAWS, CLAIMED, f"({CLAIMED}).dead"),
        ],
    ),
    "demand-3-lint-2": (
        "demand 3 of lint 2 alone",
        [
            (EXPORTED, USED, USED.replace("NoFalseFinding", "Lists, NeverRecognised")),
            (EXPORTED, CLAIM, f"→ NeverRecognised law (Lists {WORDS} 2)"),
            (LAWS, CLAIMED, f"({CLAIMED}).recognition"),
        ],
    ),
    "findings-refusals-alone": (
        "the findings call's outcome is said of refusals alone",
        [
            (EXPORTED, OUTCOME, OUTCOME.replace("after ≡", "(after.number ≡ 0 → ⊥) → after ≡")),
            (LAWS, REFUSED, REFUSED.replace("rw", "λ some. rw")),
            (LAWS, LISTED, "outcome = λ some. absurd (some refl);"),
        ],
    ),
    "findings-listings-alone": (
        "the findings call's outcome is said of listings alone",
        [
            (EXPORTED, OUTCOME, OUTCOME.replace("after ≡", "after.number ≡ 0 → after ≡")),
            (LAWS, REFUSED, f"outcome = λ none. {NUMBER_SOME};"),
            (LAWS, LISTED, LISTED.replace("rw", "λ none. rw")),
        ],
    ),
    "findings-asks": ("the findings call asks for strict mode", asking("FindingsExported", "mode ≡ 1")),
    "text-asks": ("the text call asks for strict mode", asking(TEXT.ensured, "mode ≡ 1")),
    "text-nothing": ("the text call promises nothing", nothing_said(TEXT)),
    "page-asks": ("the page call asks for strict mode", asking(PAGE.ensured, "mode ≡ 1")),
    "page-nothing": ("the page call promises nothing", nothing_said(PAGE)),
    "read-asks": ("the reading call asks for a word of 7", asking(READ.ensured, "answer.old ≡ 7")),
    "read-nothing": ("the reading call promises nothing", nothing_said(READ)),
    "digit-asks": (
        "the digit call asks for a state that digits give",
        asking(DIGIT_TYPE, "state.old ≤ 4294967296") + using([AT_MOST]),
    ),
    "digit-nothing": ("the digit call promises nothing", digit_says("Unit {0}", [], "tt")),
    "digit-number": (
        "the digit call leaves the state unsaid",
        digit_says("result ≡ tested_number (step_of state.old digit).answer", [], f"ap (λ e. e.number) ({DIGIT_TAKEN})"),
    ),
    "digit-state": (
        "the digit call leaves the number unsaid",
        digit_says("state.new ≡ (step_of state.old digit).state", [], f"ap (λ e. e.state) ({DIGIT_TAKEN})"),
    ),
    "digit-digits": (
        "the digit call says nothing of a byte that is no digit",
        digit_says(f"(digit_byte digit ≡ true → {DIGIT_ENSURED})", ["Rattle.std.specs.Prelude.{true}", DIGIT_BYTE], f"λ is. {DIGIT_TAKEN}"),
    ),
    "digit-others": (
        "the digit call says nothing of a digit",
        digit_says(f"(digit_byte digit ≡ false → {DIGIT_ENSURED})", ["Rattle.std.specs.Prelude.{false}", DIGIT_BYTE], f"λ is. {DIGIT_TAKEN}"),
    ),
    "digit-small": (
        "the digit call says nothing of states past the macrodigits",
        digit_says(f"(state.old ≤ 4294967295 → {DIGIT_ENSURED})", [AT_MOST], f"λ is. {DIGIT_TAKEN}"),
    ),
    "put-whole": (
        "what puts bytes into a buffer writes none where there is no room for all",
        [
            (PUT_CODE, "piece.len().min(out.len().saturating_sub(at));", "if at + piece.len() <= out.len() { piece.len() } else { 0 };"),
            (PUT_PROOF, "use Rattle.buffers.proofs.put.Goals as goal", "use Rattle.buffers.proofs.put.Goals as goal\nuse Rattle.buffers.proofs.put.Goals.{then-at-piece, else-at-piece}"),
            (PUT_PROOF, f"    {PUT_ENDED}(omega (arith, {PUT_LONG}, c.saturating_sub.ensures, c.min-fits.ensures))", PUT_BRANCHES),
        ],
    ),
}
for where, when in (("refused", "after a refusal"), ("listed", "where it is not refused")):
    for field in ("store", "findings", "answer"):
        CONTRACTS[f"findings-{field}-{where}"] = (f"the findings call leaves its {field} unsaid {when}", findings_unsaid(field, where))
    for name, call in (("text", TEXT), ("page", PAGE), ("read", READ)):
        for field in call.fields:
            CONTRACTS[f"{name}-{field}-{where}"] = (f"the {name} call leaves its {field} unsaid {when}", unsaid(call, field, where))


if __name__ == "__main__":
    sys.exit(tried("loader", CONTRACTS, lambda by: bool(by) and by <= PINS))
