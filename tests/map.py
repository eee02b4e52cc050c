#!/usr/bin/env python3
"""Prints a map of the crates: each file of src, specs and proofs with the line that it begins with.

Words name crates; without any, all of crates.txt are printed. Proofs of single functions are left out, but for -v."""
import sys
from pathlib import Path

ROOT = Path(__file__).resolve().parent.parent


def head(path):
    """The comment that a file begins with, as one line."""
    said = []
    for line in path.read_text().split("\n"):
        if not line.startswith(("--", "//")):
            break
        said.append(line[2:].strip())
        if not said[-1]:
            break
    return " ".join(said).strip()


def of_one_function(path):
    """Is it the proof of a single function, in a folder of its own?"""
    return path.name in ("Proof.antt", "Invariants.antt", "Answers.antt") and path.parent.name != "proofs"


def main():
    words = [word for word in sys.argv[1:] if word != "-v"]
    listed = [line.split(":")[0].split()[0] for line in (ROOT / "crates.txt").read_text().split("\n") if ":" in line and not line.startswith("#")]
    for crate in words or listed:
        print(crate)
        for part in ("src", "specs", "proofs"):
            for path in sorted((ROOT / "crates" / crate / part).rglob("*")):
                if path.suffix not in (".rt", ".antt") or path.name == "Lib.antt" or (of_one_function(path) and "-v" not in sys.argv):
                    continue
                print(f"  {path.relative_to(ROOT / 'crates' / crate)}: {head(path) or '-'}")


if __name__ == "__main__":
    main()
