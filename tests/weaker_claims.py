#!/usr/bin/env python3
"""Tries claims that are weaker than that of crates/runs/specs/Claim.antt: the prover must refuse each.

A claim over fewer runs, calls, sentences or findings is easier to prove, and says less. So in each of these the proofs are kept in
step, such that the weaker claim is proved, and so is the lemma by which a run refutes a listing (`shown` in
specs/Refuting.antt). What is left to refuse it is the table of specs/FalseListings.antt: a listing that is false in just the way
that the weaker claim leaves out. The examples in specs/Premises.antt may refuse it too. Words name claims; without any, all are
tried. --dry: no check, only whether the old text of each edit stands in its file exactly once."""
import sys

from weaker_machines import INVARIANT, tried

CLAIM = "runs/specs/Claim.antt"
TABLE = "runs/specs/FalseListings.antt"
REFUTING = "runs/specs/Refuting.antt"
HOLDS = "runs/proofs/FindingsHold.antt"
NO_FALSE = "runs/proofs/NoFalse.antt"

RECOGNISES = (
    "Recognises (sentence m p cs r ss) v = (some_in (run_matches (pattern_of p) v none_bound) ≡ true) ⊎ Recognises ss v"
)
NONE_RECOGNISED = """none_recognised (sentence m p cs r ss) v h (inl e) = false_not_true (sym (ap some_in h.0) ∙ e)
none_recognised (sentence m p cs r ss) v h (inr k) = none_recognised ss v h.1 k"""
PRELUDE = "use Rattle.std.specs.Prelude.{ℕ, ◌+◌, ◌*◌, ◌≤◌, true, ◌⊎◌, ◌≡◌, length, get_or}"
COMES = "  pub comes : run law function argument answers steps ≡ state"
REACHED = "-- a state of a run: of any function of the law, on any expression, with any answers, cut off after any number of steps"
REACHED_HOLDS = """        (steps_hold (trying (sentences none_bound reached.argument reached.function.sentences) over reached.answers)
        (none_kinded any_literal any_literal, started reached.function reached.of_law reached.argument) reached.steps)"""
SHOWN_BY = "    → IsFalse law words (run law f v answers n) → NoFalseFinding law words → ⊥"
SHOWN = "    refuted law words (run law f v answers n) (record"
USES = "use Rattle.runs.specs.Claim.{"
EXPRESSIONS = "use Rattle.law.specs.Expression.{Expression}"


def fewer(name, definition, changed, run):
    """Runs that are fewer, by a definition of which part of a run's beginning counts; `changed` are the beginning's parts in the invariant."""
    holds = REACHED_HOLDS
    for old, new in changed:
        holds = holds.replace(old, new)
    return [
        (CLAIM, REACHED, definition + "\n" + REACHED),
        (CLAIM, COMES, COMES.replace("run law function argument answers steps", run("function", "argument", "answers", "steps"))),
        (INVARIANT, USES + "Reached", USES + f"{name}, Reached"),
        (INVARIANT, REACHED_HOLDS, holds),
        (REFUTING, USES + "Reached", USES + f"{name}, Reached"),
        (REFUTING, SHOWN_BY, SHOWN_BY.replace("run law f v answers n", run("f", "v", "answers", "n"))),
        (REFUTING, SHOWN, SHOWN.replace("run law f v answers n", run("f", "v", "answers", "n"))),
    ]


def besides(names):
    """Names that the claim takes from the library besides."""
    return (CLAIM, PRELUDE, PRELUDE.replace("}", f", {names}}}"))


def expressions(rows):
    """Runs on expressions in which this is left out."""
    definition = "abbrev pub kept : Expression → Expression\nkept nothing = nothing\n" + "".join(row + "\n" for row in rows)
    return [(CLAIM, EXPRESSIONS, "use Rattle.law.specs.Expression.{Literal, Expression, nothing, symbol, brackets}")] + fewer(
        "kept", definition, [("reached.argument", "(kept reached.argument)")],
        lambda function, argument, answers, steps: f"run law {function} (kept {argument}) {answers} {steps}")


def symbols(left_out):
    """The rows that keep brackets and symbols of each kind but this one."""
    return ["kept (brackets c x) = brackets (kept c) (kept x)"] + [
        f"kept (symbol (Literal.{kind} a) x) = " + ("kept x" if kind == left_out else f"symbol (Literal.{kind} a) (kept x)")
        for kind in ("character", "identifier", "number")]


CLAIMS = {
    "first-sentence": (
        "a listed call is held to the first sentence of its function",
        [
            (CLAIM, RECOGNISES, RECOGNISES.replace("⊎ Recognises ss v", "⊎ ⊥")),
            (HOLDS, NONE_RECOGNISED, NONE_RECOGNISED.replace("none_recognised ss v h.1 k", "absurd k")),
        ],
    ),
    "no-condition": (
        "a listed call is held to the sentences without conditions",
        [
            (CLAIM, "no_sentence, sentence, Function", "no_sentence, sentence, no_condition, condition, Function"),
            (CLAIM, RECOGNISES,
             RECOGNISES.replace(" cs r", " no_condition r") + "\nRecognises (sentence m p (condition q w cs) r ss) v = Recognises ss v"),
            (HOLDS, "use Rattle.law.specs.Tree.{Sentences, no_sentence, sentence, Law}",
             "use Rattle.law.specs.Tree.{Sentences, no_sentence, sentence, no_condition, condition, Law}"),
            (HOLDS, NONE_RECOGNISED,
             NONE_RECOGNISED.replace(" cs r", " no_condition r")
             + "\nnone_recognised (sentence m p (condition q w cs) r ss) v h k = none_recognised ss v h.1 k"),
        ],
    ),
    "first-function": (
        "only sentences of the first function count as dead",
        [
            (CLAIM, "⊎ OfFunction fs i", "⊎ ⊥"),
            (HOLDS, "function_record_lem P fs h.1 i j", "absurd j"),
        ],
    ),
    "first-of-function": (
        "only the first sentence of a function counts as dead",
        [
            (CLAIM, "⊎ IsAmong i ss", "⊎ ⊥"),
            (HOLDS, "among_record P ss h.1 i j", "absurd j"),
        ],
    ),
    "first-finding": (
        "only the first finding of a listing counts",
        [
            (CLAIM, "(get_or words (8 * j) 0 ≡ lint) × (get_or words (8 * j + 7) 0 ≡ subject)", "(get_or words 0 0 ≡ lint) × (get_or words 7 0 ≡ subject)"),
            (NO_FALSE, "listed_found settings (x ∷ xs) lint subject (zero, inside", "listed_found settings (x ∷ xs) lint subject (j, inside"),
            (NO_FALSE,
             """listed_found settings (x ∷ xs) lint subject (suc j, inside, first, last) =
    let next : 8 * suc j ≡ suc (suc (suc (suc (suc (suc (suc (suc (8 * j)))))))) = omega arith in
    let later : 8 * suc j + 7 ≡ suc (suc (suc (suc (suc (suc (suc (suc (8 * j + 7)))))))) = omega arith in
    let (y, m, l, s) = listed_found settings xs lint subject (j, omega (arith, inside), rw next at first, rw later at last) in
    (y, Memᴰ.tail m, l, s)
""", ""),
        ],
    ),
    "steps": (
        "runs of at most 1,000 steps",
        [besides("min")]
        + fewer("few", "abbrev pub few : ℕ → ℕ\nfew n = min n 1000\n", [("reached.steps", "(few reached.steps)")],
                lambda function, argument, answers, steps: f"run law {function} {argument} {answers} (few {steps})"),
    ),
    "answers": (
        "runs without answers",
        fewer("no_answer", "abbrev pub no_answer : List Expression → List Expression\nno_answer answers = []\n",
              [("reached.answers", "(no_answer reached.answers)")],
              lambda function, argument, answers, steps: f"run law {function} {argument} (no_answer {answers}) {steps}"),
    ),
    "first-runs": (
        "runs of the first function",
        fewer("first_of, first_in",
              """abbrev pub first_of : Law → Function → Function
first_of [] f = f
first_of (d ∷ ds) f = d

pub first_in : (law : Law) (f : Function) → Memᴰ f law → Memᴰ (first_of law f) law
first_in [] f m = m
first_in (d ∷ ds) f m = Memᴰ.head refl
""",
              [("reached.function.sentences", "(first_of law reached.function).sentences"),
               ("started reached.function reached.of_law",
                "started (first_of law reached.function) (first_in law reached.function reached.of_law)")],
              lambda function, argument, answers, steps: f"run law (first_of law {function}) {argument} {answers} {steps}")
        + [besides("refl")],
    ),
    "bracket-laws": (
        "laws without brackets",
        [
            besides("zero, Bool, false, cond, ◌&&◌"),
            (CLAIM, "use Rattle.law.specs.Tree.{Run, Sentences, no_sentence, sentence, Function, Law}",
             "use Rattle.law.specs.Tree as tree\n"
             "use Rattle.law.specs.Tree.{Run, Sentences, no_sentence, sentence, Conditions, no_condition, condition, Function, Law}"),
        ]
        + fewer("few",
                """abbrev pub flat : Run → Bool
flat tree.Run.empty = true
flat (tree.Run.symbol a r) = flat r
flat (tree.Run.variable k i r) = flat r
flat (tree.Run.bracket q r) = false
flat (tree.Run.call m f q r) = flat q && flat r
flat (tree.Run.block m q ss r) = flat q && flat r

abbrev pub flat_sentences : Sentences → Bool
flat_sentences no_sentence = true
flat_sentences (sentence m p cs r ss) = flat p && (flat r && flat_sentences ss)

abbrev pub flat_law : Law → Bool
flat_law [] = true
flat_law (f ∷ fs) = flat_sentences f.sentences && flat_law fs

abbrev pub few : Law → ℕ → ℕ
few law n = cond (flat_law law) n zero
""",
                [("reached.steps", "(few law reached.steps)")],
                lambda function, argument, answers, steps: f"run law {function} {argument} {answers} (few law {steps})"),
    ),
    "brackets": ("runs on expressions without brackets", expressions(["kept (symbol a x) = symbol a (kept x)", "kept (brackets c x) = kept x"])),
    "identifiers": ("runs on expressions without identifiers", expressions(symbols("identifier"))),
    "numbers": ("runs on expressions without numbers", expressions(symbols("number"))),
}


if __name__ == "__main__":
    sys.exit(tried("runs", CLAIMS, lambda by: TABLE in by and by <= {TABLE, "runs/specs/Premises.antt"}))
