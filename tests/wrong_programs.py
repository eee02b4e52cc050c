#!/usr/bin/env python3
"""Tries the wrong programs of tests/wrong_programs, which the gate leaves out for its time: the prover must refuse each.

Each folder there is a crate's, and its edits are as those of crates/NAME/must-fail. They are put there in a copy of the crates,
where `rt check` of the crate begins with what it has kept here, and `rt must-fail` tries them over what that check kept: only what
an edit changes is checked again, and what was tried on this machine and has not changed is not tried again. Besides what
`rt must-fail` wants, an edit must be refused for a fact that fails: not for a name alone that it takes from a proof, where it does
not keep the proof in step, and not by a limit of the prover.

  wrong_programs.py [--gate] [--anew] [--dry] [NAME..]

NAME is a crate; without any, all that have edits are tried. --gate: the edits of crates/NAME/must-fail too, which `rt ci` tries.
--anew: those too that were tried before. --dry: no check, only whether each edit applies. The exit status is 1 where an edit is
not refused."""
import re
import shutil
import subprocess
import sys
import tempfile
from pathlib import Path

ROOT = Path(__file__).resolve().parent.parent
# what rt says of an edit that is refused, but not for a fact that fails
POORLY = re.compile(r"refused, as it must be \(only (because|by)")


def misfit(edit, crate):
    """Why an edit does not apply, if it does not: an old text must stand in its file once."""
    texts, path, old = {}, None, ""
    for line in edit.read_text().split("\n"):
        if line.startswith("file: "):
            path = crate / line.removeprefix("file: ").strip()
        elif line.startswith("old: "):
            old = line.removeprefix("old: ")
        elif line.startswith("new:"):
            if not path or not path.is_file() or not old:
                return "it names no file of the crate, or no old text"
            text, new = texts.get(path) or path.read_text(), line.removeprefix("new:").removeprefix(" ")
            if text.count(old) != 1 or old == new:
                return f"{path.relative_to(crate)} has this {text.count(old)} times: {old}" if old != new else f"nothing changes in {old}"
            texts[path], old = text.replace(old, new), ""
    return None if texts else "it has no old and new text"


def attempts(copy, name, edits, flags):
    """Tries the edits of a crate in a copy of the crates; how many are not refused for a fact."""
    crate = copy / "crates" / name
    checked = subprocess.run(["rt", "check"], cwd=crate, stdout=subprocess.PIPE, stderr=subprocess.STDOUT, text=True)
    if checked.returncode:
        print(f"{name}: NOT PROVED without edits\n" + "\n".join(checked.stdout.split("\n")[-12:]), flush=True)
        return len(edits)
    shutil.rmtree(crate / "must-fail", ignore_errors=True)
    (crate / "must-fail").mkdir()
    called = {edit: edit.name if edit.parent.name == "must-fail" else f"wrong-{edit.name}" for edit in edits}
    for edit in edits:
        shutil.copy(edit, crate / "must-fail" / called[edit])
    said = subprocess.run(["rt", "must-fail", *flags, name], cwd=copy, stdout=subprocess.PIPE, stderr=subprocess.STDOUT, text=True).stdout
    verdicts = dict(re.findall(rf"^rt: must-fail {name}/(\S+): (.*)", said, re.M))
    failed = 0
    for edit in edits:
        verdict = verdicts.get(called[edit], "NOT TRIED")
        good = verdict.startswith("refused, as it must be") and not POORLY.match(verdict)
        failed += not good
        print(f"{name}/{edit.stem}: {verdict if good or verdict[:3].isupper() else f'NOT AS IT MUST BE: {verdict}'}", flush=True)
    if not verdicts:
        print("\n".join(said.split("\n")[-12:]), flush=True)
    return failed


def main(words):
    names = [word for word in words if not word.startswith("--")]
    edits = sorted(ROOT.glob("tests/wrong_programs/*/*.edit"))
    if "--gate" in words:
        edits += sorted(ROOT.glob("crates/*/must-fail/*.edit"))
    by_crate = {}
    for edit in edits:
        by_crate.setdefault(edit.parent.parent.name if edit.parent.name == "must-fail" else edit.parent.name, []).append(edit)
    listed = re.findall(r"^(\w+):", (ROOT / "crates.txt").read_text(), re.M)
    unknown = [name for name in names if name not in by_crate] + [name for name in by_crate if name not in listed]
    if unknown:
        print(f"no edits, or no crate: {' '.join(unknown)}", file=sys.stderr)
        return 1
    wanted = [name for name in listed if name in by_crate and (not names or name in names)]  # lowest first
    tried, failed = sum(len(by_crate[name]) for name in wanted), 0
    if "--dry" in words:
        for name in wanted:
            for edit in by_crate[name]:
                why = misfit(edit, ROOT / "crates" / name)
                failed += bool(why)
                print(f"{name}/{edit.stem}: {why}\n" if why else "", end="")
        print(f"{tried - failed} apply, {failed} do not")
        return 1 if failed else 0
    with tempfile.TemporaryDirectory() as folder:
        copy = Path(folder).resolve()
        shutil.copy(ROOT / "crates.txt", copy)
        shutil.copytree(ROOT / "crates", copy / "crates", ignore=shutil.ignore_patterns("out"))
        for name in wanted:
            failed += attempts(copy, name, by_crate[name], [word for word in words if word == "--anew"])
    print(f"{tried - failed} refused, {failed} not")
    return 1 if failed else 0


if __name__ == "__main__":
    sys.exit(main(sys.argv[1:]))
