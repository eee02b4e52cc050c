#!/usr/bin/env python3
"""Counts the places in src/ where older forms may stand, point by point of docs/DESIGN-PASS.md.

usage: python3 tools/places.py [-v] [-c] [COMMIT]   at the top; without COMMIT the files as they lie here; -v prints each place, -c a
table by crate

  1  an enum with one variant without a value and one or more with (as Option and Result have); a struct or a tuple that is
     answered with a flag and a value; a constant or a number that stands for a kind or a refusal: a function whose arms are numbers
  2  functions of at least 25 tokens that are the same but for names, numbers and types
  3  while, and loop; those that step an index by one are counted again
  4  functions that compare, order, copy, convert or print by hand, by their names and arms
  5  three or more functions of a crate with the same two or more parameters; a fact that stands in three or more requires
  6  a buffer with its length beside it among parameters or fields; arrays side by side in a struct
  7  a match that only says which function is called; tables of functions
  8  answers that only say `search rules`, which the check tries by itself; files and lines of proofs

It reads text and judges nothing: a place that is counted may be as it should be. docs/DESIGN-PASS.md says which are."""
import collections
import re
import subprocess
import sys


def sources(commit, pattern):
    """The files of a commit, or those that lie here, by path."""
    if commit:
        names = subprocess.run(["git", "ls-tree", "-r", "--name-only", commit], capture_output=True, text=True, check=True).stdout.split("\n")
    else:
        names = subprocess.run(["git", "ls-files"], capture_output=True, text=True, check=True).stdout.split("\n")
    for name in sorted(n for n in names if re.fullmatch(pattern, n)):
        if commit:
            yield name, subprocess.run(["git", "show", f"{commit}:{name}"], capture_output=True, text=True, check=True).stdout
        else:
            try:
                yield name, open(name, encoding="utf-8").read()
            except FileNotFoundError:
                continue


def bare(text):
    """The code without comments and strings."""
    text = re.sub(r'b?"(\\.|[^"\\])*"', '""', text)
    return re.sub(r"//[^\n]*", "", text)


def closed(text, start, opening, closing):
    """The position after the bracket that closes the first one from a position on."""
    depth = 0
    for i in range(text.index(opening, start), len(text)):
        depth += (text[i] == opening) - (text[i] == closing)
        if depth == 0:
            return i + 1
    return len(text)


def functions(text):
    """Each function with its line, parameters, clauses and body."""
    for m in re.finditer(r"\bfn\s+(\w+)\s*(?:<[^(]*>)?\(", text):
        end = closed(text, m.end() - 1, "(", ")")
        parameters = text[m.end():end - 1]
        clause_end, clauses = end, []
        while True:
            head = re.compile(r"[^{;]*?\b(requires|ensures)\b[^{]*(?=\{)").match(text, clause_end)
            if not head or "\n}" in head.group(0):
                break
            stop = closed(text, head.end(), "{", "}")
            clauses.append((head.group(1), text[head.end():stop]))
            clause_end = stop
        if "{" not in text[clause_end:]:
            continue
        opening = text.index("{", clause_end)
        yield m.group(1), text[:m.start()].count("\n") + 1, parameters, clauses, text[opening:closed(text, opening, "{", "}")]


def named(parameters):
    """The parameters of a function as name and type."""
    depth, part, parts = 0, "", []
    for c in parameters + ",":
        depth += (c in "([<") - (c in ")]>")
        if c == "," and depth == 0:
            parts.append(" ".join(part.split()))
            part = ""
        else:
            part += c
    return [p for p in parts if ":" in p]


def shape(body):
    """A body's tokens with names of values, numbers and types taken away."""
    tokens = re.findall(r"[A-Za-z_]\w*|\d\w*|[^\s\w]", body)
    return tuple("n" if re.match(r"[A-Za-z_]", t) and t not in KEPT else "0" if t[0].isdigit() else t for t in tokens)


KEPT = {"if", "else", "while", "for", "in", "match", "return", "let", "mut", "break", "loop", "as"}
BY_HAND = r"(\w*_)?(equal|same|order|wide|narrow|number|copy\w*|clear\w*|display)(_\w*)?|is_\w+|print_\w+|kind_\w+|\w+_kind|\w+_code"


def enums(path, text, found):
    for m in re.finditer(r"\benum\s+(\w+)[^{]*\{", text):
        body = text[m.end():closed(text, m.end() - 1, "{", "}") - 1]
        variants = [v.strip() for v in re.split(r",(?![^(]*\))", body) if v.strip()]
        with_value = [v for v in variants if "(" in v or "{" in v]
        alone = [v for v in variants if "(" not in v and "{" not in v]
        failing = [v for v in variants if re.match(r"Refused|Fails|TooWide|Over|No\b|None|Nothing|Free|Full|Undecided|Unsaid", v)]
        if with_value and len(variants) <= 5 and (failing or len(alone) == 1) or failing:
            found[1].append((path, text[:m.start()].count("\n") + 1, f"enum {m.group(1)}"))
    for m in re.finditer(r"\bstruct\s+(\w+)[^{;]*\{", text):
        body = text[m.end():closed(text, m.end() - 1, "{", "}") - 1]
        line = text[:m.start()].count("\n") + 1
        if re.search(r":\s*bool\s*,", body) and body.count(":") > 1:
            found[1].append((path, line, f"struct {m.group(1)} with a flag"))
        if len(re.findall(r":\s*\[", body)) > 1 or re.search(r":\s*\[", body) and re.search(r"count|len", body):
            found[6].append((path, line, f"struct {m.group(1)} with arrays"))


def places(commit):
    found = collections.defaultdict(list)
    twins, together, facts = collections.defaultdict(list), collections.defaultdict(list), collections.defaultdict(list)
    for path, whole in sources(commit, r"crates/\w+/src/(.*/)?\w+\.rt"):
        text = bare(whole)
        crate = path.split("/")[1]
        enums(path, text, found)
        for name, line, parameters, clauses, body in functions(text):
            place = (path, line, name)
            if len(re.findall(r"=>\s*\d+\s*,", body)) > 2:
                found[1].append((path, line, f"{name}: numbers for cases"))
            for m in re.finditer(r"\bwhile\b[^{]*\{|\bloop\s*\{", body):
                inside = body[m.start():closed(body, m.start(), "{", "}")]
                stepped = re.search(r"\b(\w+) \+= 1;|\b(\w+) -= 1;", inside) is not None
                found[3].append((path, line, name + (": by one" if stepped else "")))
            if re.fullmatch(BY_HAND, name):
                found[4].append(place)
            s = shape(body)
            if len(s) >= 25:
                twins[s].append(place)
            own = named(parameters)
            for i in range(len(own)):
                for j in range(i + 1, len(own)):
                    together[crate, own[i], own[j]].append(place)
            if any(re.match(r"\w+: usize", p) and re.match(r"(count|len|size|words|records)\b", p) for p in own) and any("[u" in p for p in own):
                found[6].append((path, line, f"{name}: a length beside a buffer"))
            for kind, clause in clauses:
                if kind == "requires":
                    for fact in re.split(r"\s×\s", clause.strip("{} \n")):
                        facts[crate, " ".join(fact.strip("() ").split())].append(place)
            arms = re.findall(r"=>\s*\{?\s*(\w+)\(", body)
            if re.match(r"\{\s*match", body) and len(arms) > 1 and len(set(arms)) > 1:
                found[7].append(place)
    for group in twins.values():
        if len(group) > 1:
            found[2].extend((p, n, f"{f}: one of {len(group)}") for p, n, f in group)
    for (crate, a, b), group in together.items():
        if len(group) > 2:
            found[5].append((f"crates/{crate}", len(group), f"functions take {a} and {b}"))
    for (crate, fact), group in facts.items():
        if len(group) > 2:
            found[5].append((f"crates/{crate}", len(group), f"functions require {fact}"))
    lines = files = 0
    for path, text in sources(commit, r"crates/\w+/proofs/.*\.antt"):
        files, lines = files + 1, lines + text.count("\n")
        answers = r"(?m)^\S+ [\w ]*= search rules$" if path.endswith("Answers.antt") else r"\(λ c( κs)?\.\s+search rules\)"
        for m in re.finditer(answers, text):
            found[8].append((path, text[:m.start()].count("\n") + 1, "an answer by search alone"))
    return found, files, lines


def main():
    words = [w for w in sys.argv[1:] if w not in ("-v", "-c")]
    found, files, lines = places(words[0] if words else None)
    for point in range(1, 9):
        print(f"{point}: {len(found[point])}")
        if "-v" in sys.argv:
            for path, line, what in found[point]:
                print(f"    {path}:{line} {what}")
    if "-c" in sys.argv:
        crates = sorted({path.split("/")[1] for places in found.values() for path, _, _ in places})
        for crate in crates:
            counts = [sum(path.split("/")[1] == crate for path, _, _ in found[point]) for point in range(1, 9)]
            print(f"| {crate} | " + " | ".join(map(str, counts)) + " |")
    by_one = sum(what.endswith(": by one") for _, _, what in found[3])
    print(f"of 3, steps by one: {by_one}; proofs: {files} files, {lines} lines")


if __name__ == "__main__":
    main()
