#!/usr/bin/env python3
"""Tries machines that are weaker than that of crates/runs/specs/Machine.antt: the prover must refuse each.

A machine that ends runs early, or leaves out a part of them, would make the claim over runs (specs/Claim.antt) easier to prove,
and say less. So in each of these the invariant's proof (proofs/Invariant.antt) is kept in step, such that the claim is still
proved of the weaker machine, and only what pins the machine is left to refuse it: the runs by computation, of which one must
fail (RUNS), what ends a run (proofs/Ends.antt), and the false listings. An edit of crates/runs/must-fail replaces single lines,
and these need more; else they are the same. The edits are tried by `rt check` in a copy of the crates, which begins with what
`rt check` has kept of the crates here. Words name machines; without any, all are tried. --dry: no check, only whether the old text
of each edit stands in its file exactly once."""
import re
import shutil
import subprocess
import sys
import tempfile
from pathlib import Path

ROOT = Path(__file__).resolve().parent.parent
MACHINE = "runs/specs/Machine.antt"
INVARIANT = "runs/proofs/Invariant.antt"
RUNS = {"runs/specs/Examples.antt", "runs/specs/TermRuns.antt", "runs/specs/ConditionRuns.antt"}
PINS = RUNS | {"runs/proofs/Ends.antt", "runs/specs/FalseListings.antt", "runs/specs/Premises.antt"}

CONDITION = "give v (in_condition p env i cs r t k) answers = trying (ways (run_matches (pattern_of p) v env) i cs r t) k answers"
CONDITION_HOLDS = (
    "  give_holds v (in_condition p env i cs r t k) answers h ="
    " (matches_kinded p v env h.0, h.1, (λ d. absurd (h.2 d)), λ _. h.3)"
)
SYMBOL = "step law (working (tree.Run.symbol a r) env u k answers) = working r env (u ⊕ symbol (literal_of (symbol_of a)) nothing) k answers"
SYMBOL_HOLDS = """    step_holds (working (tree.Run.symbol a r) env u k answers) h =
        (h.0, h.1, λ w g. behind (Takes k) u (symbol (literal_of (symbol_of a)) nothing) w (h.2 (symbol (literal_of (symbol_of a)) w) (fits_symbol g)))"""
ASKED = """step law (trying (ways (env ∷ es) i (condition q p cs) r t) k answers) =
    working q env nothing (in_condition p env i cs r (ways es i (condition q p cs) r t) k) answers"""
ASKED_HOLDS = """    step_holds (trying (ways (env ∷ es) i (condition q p cs) r t) k answers) h =
        let kinded : RunKindedValues env = h.0 env (Memᴰ.head refl) in
        let alive : Dead i → ⊥ = λ d. not_none env es (h.2 d) in
        let later : TrialHolds (ways es i (condition q p cs) r t) (Takes k) ="""
BRACKET = "step law (working (tree.Run.bracket q r) env u k answers) = working q env nothing (in_bracket u r env k) answers"
BRACKET_HOLDS = """    step_holds (working (tree.Run.bracket q r) env u k answers) h =
        (h.0.0, h.1, λ c f. (h.0.1, h.1, λ w g. behind (Takes k) u (brackets c nothing) w (h.2 (brackets c w) (fits_bracket f g))))"""
BLOCK = "= working q env nothing (in_block m.at ss u r env k) answers"
BLOCK_HOLDS = """    step_holds (working (tree.Run.block m q ss r) env u k answers) h =
        (h.0.0, h.1, λ v g. (h.0.1, h.1, λ a. (h.0.2, h.1, λ w g'. behind (Takes k) u a w (h.2 (a ⊕ w) (fits_block a g')))))"""
STEP = "unfoldable pub step : Law → State → State"
STEP_HOLDS = "    step_holds : (state : State) → Holds state → Holds (step law state)"
LEFT = "trying (ways (run_matches (pattern_of p) v env) m.at cs r (sentences env v ss)) k answers"
LEFT_HOLDS = (
    "    step_holds (trying (sentences env v (sentence m p cs r ss)) k answers) h ="
    " (matches_kinded p v env h.0, h.1.0, h.1.1, λ x. (h.0, h.1.2 x))"
)
MACHINE_MATCHES = "use Rattle.matching.specs.Match.{Values, none_bound, value_in, run_matches}"
INVARIANT_MATCHES = "use Rattle.matching.specs.Match.{none_bound, value_in, any_literal, run_matches}"
INVARIANT_STATES = (
    "use Rattle.runs.specs.Machine.{State, working, called, entered, trying, chosen, finished, stopped,"
    " give, answered, step, steps, run}"
)
MATCHES = "(run_matches (pattern_of p) v env)"
NOT_NONE = "-- a list with a first is not empty"
FIRST_KINDED = """first_kinded : (es : List Env) → EachKinded es → EachKinded (all_or_first false es)
first_kinded [] h us m = h us m
first_kinded (e ∷ es) h us m = go (Memᴰ.cases_cons m)
  where
    go : (us ≡ e) ⊎ Memᴰ us [] → RunKindedValues us
    go (inl q) = h us (Memᴰ.head q)
    go (inr q) = absurd (Memᴰ.not-nil q)

"""
INSIDE = ["in_bracket a b c k", "in_call a b c d e k", "in_block a b c d e k", "in_place a b c k", "in_condition a b c d e f k"]


# the imports and the lemma for the first of some matches
FIRST = [
    (MACHINE, MACHINE_MATCHES,
     MACHINE_MATCHES.replace("run_matches}", "run_matches, all_or_first}") + "\nuse Rattle.std.specs.Prelude.{false}"),
    (INVARIANT, INVARIANT_MATCHES,
     INVARIANT_MATCHES.replace("run_matches}", "run_matches, all_or_first}")
     + """
use mathlib.Core.Bool.{false}
use mathlib.Core.List.Memᴰ
use mathlib.Core.Logic.{◌⊎◌, inl, inr}"""),
    (INVARIANT, NOT_NONE, FIRST_KINDED + NOT_NONE),
]


def symbols(line):
    """A clause for each of character and number, as for any symbol."""
    return [line.replace("symbol a r", f"symbol ({a}) r").replace("symbol_of a", f"symbol_of ({a})") for a in
            ("tree.Symbol.character c", "tree.Symbol.number c")]


MACHINES = {
    "bracket": (
        "a bracket in a result ends the run",
        [
            (MACHINE, BRACKET, "step law (working (tree.Run.bracket q r) env u k answers) = stopped"),
            (INVARIANT, BRACKET_HOLDS, "    step_holds (working (tree.Run.bracket q r) env u k answers) h = tt"),
        ],
    ),
    "bracket-finishes": (
        "a bracket in a result finishes the run",
        [
            (MACHINE, BRACKET, "step law (working (tree.Run.bracket q r) env u k answers) = finished u"),
            (INVARIANT, BRACKET_HOLDS, "    step_holds (working (tree.Run.bracket q r) env u k answers) h = tt"),
        ],
    ),
    "second-condition": (
        "a second condition ends the run",
        [
            (MACHINE, CONDITION,
             CONDITION.replace(" i cs r t", " i no_condition r t")
             + "\ngive v (in_condition p env i (condition qq pp cs) r t k) answers = stopped"),
            (INVARIANT, CONDITION_HOLDS,
             CONDITION_HOLDS.replace(" i cs r t", " i no_condition r t")
             + "\n  give_holds v (in_condition p env i (condition qq pp cs) r t k) answers h = tt"),
        ],
    ),
    "later-conditions": (
        "a call in a second condition is never reached: conditions after the first are left out",
        [
            (MACHINE, CONDITION, CONDITION.replace(" v env) i cs r t", " v env) i no_condition r t")),
            (INVARIANT, CONDITION_HOLDS, CONDITION_HOLDS.replace(", h.1, (λ d.", ", (tt, h.1.1, h.1.2), (λ d.")),
        ],
    ),
    "block-in-condition": (
        "a block in a condition ends the run",
        [
            (MACHINE, STEP,
             "\n".join(["abbrev pub outside : Stack → State → State", "outside over s = s"]
                       + [f"outside ({k}) s = {'stopped' if k.startswith('in_condition') else 's'}" for k in INSIDE] + ["", STEP])),
            (MACHINE, BLOCK, BLOCK.replace("= working", "= outside k (working") + ")"),
            (INVARIANT, INVARIANT_STATES, INVARIANT_STATES.replace("run}", "run, outside}")),
            (INVARIANT, STEP_HOLDS,
             "\n".join(["    outside_holds : (k : Stack) (s : State) → Holds s → Holds (outside k s)", "    outside_holds over s h = h"]
                       + [f"    outside_holds ({k}) s h = {'tt' if k.startswith('in_condition') else 'h'}" for k in INSIDE] + ["", STEP_HOLDS])),
            (INVARIANT, BLOCK_HOLDS,
             BLOCK_HOLDS.replace("h =\n        (", "h =\n        outside_holds k (working q env nothing (in_block m.at ss u r env k) answers)\n        (")),
        ],
    ),
    "identifier": (
        "an identifier in a result ends the run",
        [
            (MACHINE, SYMBOL,
             "\n".join(symbols(SYMBOL)
                       + ["step law (working (tree.Run.symbol (tree.Symbol.identifier c) r) env u k answers) = stopped"])),
            (INVARIANT, SYMBOL_HOLDS,
             "\n".join(symbols(SYMBOL_HOLDS)
                       + ["    step_holds (working (tree.Run.symbol (tree.Symbol.identifier c) r) env u k answers) h = tt"])),
        ],
    ),
    "condition-in-call": (
        "a condition that is asked inside a call ends the run",
        [
            (MACHINE, ASKED,
             "\n".join([ASKED.replace(" k) answers", " over) answers").replace(" k answers)", " over answers)")]
                       + [f"step law (trying (ways (env ∷ es) i (condition q p cs) r t) ({k}) answers) = stopped" for k in INSIDE])),
            (INVARIANT, ASKED_HOLDS,
             "\n".join([f"    step_holds (trying (ways (env ∷ es) i (condition q p cs) r t) ({k}) answers) h = tt" for k in INSIDE]
                       + [ASKED_HOLDS.replace(" k answers)", " over answers)").replace("(Takes k) =", "(Takes over) =")])),
        ],
    ),
    "first-match": (
        "only the first match of a condition's pattern is tried",
        FIRST
        + [
            (MACHINE, CONDITION, CONDITION.replace(MATCHES, f"(all_or_first false {MATCHES})")),
            (INVARIANT, CONDITION_HOLDS,
             CONDITION_HOLDS.replace("(matches_kinded p v env h.0,", f"(first_kinded {MATCHES} (matches_kinded p v env h.0),")),
        ],
    ),
    "first-left-match": (
        "only the first match of a left side is tried",
        FIRST
        + [
            (MACHINE, LEFT, LEFT.replace(MATCHES, f"(all_or_first false {MATCHES})")),
            (INVARIANT, "-- ---- the invariant",
             """none_at_all : (es : List Env) → all_or_first false es ≡ [] → es ≡ []
none_at_all [] e = e
none_at_all (env ∷ es) e = absurd (not_none env [] e)

-- ---- the invariant"""),
            (INVARIANT, LEFT_HOLDS,
             LEFT_HOLDS.replace("(matches_kinded p v env h.0,", f"(first_kinded {MATCHES} (matches_kinded p v env h.0),")
             .replace("h.1.1, λ x. (h.0, h.1.2 x))",
                      f"(λ d. rw (h.1.1 d) refl), λ x. (h.0, h.1.2 (λ c. none_at_all {MATCHES} (x c))))")),
        ],
    ),
}


# an error that only follows from another, and one of a name that the edit took away or never gave, which says nothing of a fact
FOLLOWS = re.compile(r"which was (not admitted|rejected)")
NAMELESS = re.compile(r"is not in scope|has no field|has no `|is no name")
ERROR = re.compile(r"^(?:\./)?((?:src|specs|proofs)/\S+?):(\d+):\d+: error(.*)", re.M)


def edited(crates, edits):
    """The texts of the files that edits change, as they become, and which old texts do not stand in their file exactly once."""
    texts, misfits = {}, []
    for file, old, new in edits:
        text = texts.get(file) or (crates / file).read_text()
        texts[file] = text.replace(old, new)
        if text.count(old) != 1 or old == new:
            misfits.append(f"{file} has this {text.count(old)} times: {old}" if old != new else f"{file}: nothing changes in {old}")
    return texts, misfits


def check(crates, name):
    """Checks a crate, and the libraries below it before: the exit status, and what was said."""
    done = subprocess.run(["rt", "check"], cwd=crates / name, stdout=subprocess.PIPE, stderr=subprocess.STDOUT, text=True)
    return done.returncode, done.stdout


def refused_by(crates, name, edits):
    """The files in which the prover finds errors after these edits, each with the first line and error; none where the crate is proved."""
    texts, misfits = edited(crates, edits)
    if misfits:
        return {f"no prover, since {misfit}": (0, "") for misfit in misfits}
    kept = {file: (crates / file).read_text() for file in texts}
    try:
        for file, text in texts.items():
            (crates / file).write_text(text)
        status, said = check(crates, name)
    finally:
        for file, text in kept.items():
            (crates / file).write_text(text)
    if status == 0:
        return {}
    lower = re.search(r"^rt: the library (\w+) did not build", said, re.M)
    found = {}
    for file, line, what in ERROR.findall(said):
        if not FOLLOWS.search(what):
            where = f"{lower[1] if lower else name}/{file}"
            found.setdefault(f"{where}, for a name" if NAMELESS.search(what) else where, (int(line), what.removeprefix(": ")))
    return found or {"nothing that was understood": (0, "\n".join(said.split("\n")[-8:]))}


def tried(name, weaker, is_right):
    """Tries what the words name, or all, over one crate, and prints which files refuse each; fails where that is not right."""
    failed = 0
    cases = [word for word in sys.argv[1:] if word != "--dry"] or list(weaker)
    if "--dry" in sys.argv[1:]:
        for case in cases:
            misfits = edited(ROOT / "crates", weaker[case][1])[1]
            failed += bool(misfits)
            print(*[f"{case}: {misfit}" for misfit in misfits], sep="\n", end="\n" if misfits else "")
        print(f"{len(cases) - failed} apply, {failed} do not")
        return 1 if failed else 0
    with tempfile.TemporaryDirectory() as folder:
        copy = Path(folder).resolve()
        shutil.copy(ROOT / "crates.txt", copy)
        shutil.copytree(ROOT / "crates", copy / "crates", ignore=shutil.ignore_patterns("out"))
        status, said = check(copy / "crates", name)
        if status:
            print(f"{name} is not proved without edits:\n" + "\n".join(said.split("\n")[-12:]))
            return 1
        for case in cases:
            says, edits = weaker[case]
            by = refused_by(copy / "crates", name, edits)
            good = is_right(by.keys())
            failed += not good
            places = ", ".join(f"{file}:{line}" for file, (line, _) in sorted(by.items())) or "nothing"
            print(f"{case} ({says}): {'refused, as it must be,' if good else 'NOT AS IT MUST BE: refused'} by {places}", flush=True)
            for file, (line, what) in sorted(by.items()) if not good else []:
                print(f"  {file}:{line}: {what}")
    return 1 if failed else 0


if __name__ == "__main__":
    sys.exit(tried("runs", MACHINES, lambda by: bool(by & RUNS) and by <= PINS))
