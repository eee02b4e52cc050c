#!/usr/bin/env python3
"""Brings this repository's own definitions and lemmas to snake case, after port.py. usage: python3 tools/respell.py [--dry]   at the top

A definition, lemma, constructor or field of specs/ or proofs/ that is spelled in camel case, or with dashes between plain words, gets
underscores. Types, modules, names of the library, and names that Rattle makes of the source, keep their spelling. In .rt files only
clauses, imports and comments are touched, never code or strings. It stops, and changes nothing, where two names of one file would fall
together."""
import collections
import glob
import re
import sys

# Characters that a name can't have.
END = r"\s(){}\[\].,;:«»\"`|"
TOKEN = re.compile(rf"[^{END}]+")
CAMEL = re.compile(r"^[a-z][a-z0-9_']*[A-Z][A-Za-z0-9_']*$")
DECLARED = re.compile(
    r"(?m)^[ \t]*(?:(?:abbrev|unfoldable|pub|mutual)[ \t]+)*(?:(?:data|record)[ \t]+)?"
    rf"((?:[^{END}]+[ \t]+)*?[^{END}]+)(?:[ \t]+[({{][^\n]*)?[ \t]*:[ \t\n]"
)
# Names of the library that are declared here too, or words of code that only look like names.
KEEP = set()


def antt_files():
    return sorted(p for d in ("specs", "proofs") for p in glob.glob(f"crates/*/{d}/**/*.antt", recursive=True))


def rt_files():
    return sorted(glob.glob("crates/*/src/**/*.rt", recursive=True))


def pages():
    """What names definitions outside the crates' sources: edits, pages and the header."""
    found = ["README.md", "CONTRIBUTING.md", "crates.txt"] + glob.glob("docs/**/*.md", recursive=True) + glob.glob("include/*.h")
    found += glob.glob("crates/*/must-fail/*.edit") + glob.glob("tests/**/*.edit", recursive=True) + glob.glob("oracle/*.md")
    return sorted(p for p in found if not p.startswith("docs/PORT"))


def in_clauses(text):
    """Each line of a source file, and whether it stands in a clause or an import of one."""
    clause, depth = False, 0
    for line in text.split("\n"):
        s = line.strip()
        if not clause and re.match(r"(requires|ensures|ghost)\b", s):
            clause, depth = True, 0
        yield line, clause and not s.startswith("//")
        if clause:
            depth += line.count("{") - line.count("}")
            clause = depth > 0


def clauses(text):
    return [line for line, inside in in_clauses(text) if inside]


def code(text):
    return re.sub(r"(?m)(^|\s)--.*$", r"\1", text)


def snake(name):
    s = re.sub(r"([a-z0-9'])([A-Z])", r"\1_\2", name)
    s = re.sub(r"([A-Z])([A-Z][a-z])", r"\1_\2", s)
    return s.lower().replace("-", "_")


def renamings(texts):
    to, library = {}, set()
    for t in texts.values():
        for m in re.finditer(r"(?m)^use (?!Rattle\.(?!std\b))([^\n{]*)\{([^}]*)\}", t):
            for word in m.group(2).split(","):
                library.add(word.split(" as ")[0].strip())
    for path, t in texts.items():
        body = code(t)
        for token in TOKEN.findall(body):
            if CAMEL.match(token) and token not in library:
                to[token] = snake(token)
        for m in DECLARED.finditer(body):
            for name in m.group(1).split():
                if "-" in name and re.match(r"^[a-z][A-Za-z0-9_'-]*$", name) and name not in library and not re.search("[A-Z]", name):
                    to[name] = snake(name)
    for p in rt_files():
        for token in TOKEN.findall("\n".join(clauses(open(p, encoding="utf-8").read()))):
            if CAMEL.match(token) and token not in library:
                to[token] = snake(token)
    for path, t in texts.items():
        body = code(t)
        for token in TOKEN.findall(body):
            if re.match(r"^the(-[a-z0-9_']+)+$", token) and token not in library:
                to[token] = snake(token)
    to = {a: b for a, b in to.items() if a not in KEEP}
    # A lemma that would have its function's name gets `_lem`.
    camel = {b for a, b in to.items() if "-" not in a}
    plain = set()
    for t in texts.values():
        body = code(t)
        FIELDS.update(fields(body))
        for m in DECLARED.finditer(body):
            plain.update(w for w in m.group(1).split() if "_" in w and "-" not in w)
    for name in list(to):
        if "-" in name and not name.startswith("the-") and name not in FIELDS and (to[name] in camel or to[name] in plain):
            to[name] += "_lem"
    for name in plain:
        if name in camel and name not in library and name not in FIELDS:
            to[name] = name + "_lem"
    FIELDS.intersection_update(to)
    return to, library


def put(text, to):
    def one(m):
        name = m.group(0)
        if m.start() and text[m.start() - 1] == "." and name not in FIELDS:
            # A field, or a step that Rattle names after the source, keeps to the words.
            return snake(name) if name in to else name
        return to.get(name, name)

    return TOKEN.sub(one, text)


FIELDS = set()


def fields(body):
    for m in re.finditer(r"(?m)^([ \t]*)(?:pub[ \t]+)?record\b[^\n]*\bwhere[ \t]*\n((?:\1[ \t]+[^\n]*\n|[ \t]*\n)*)", body):
        for f in re.finditer(rf"(?m)^[ \t]+(?:pub[ \t]+)?((?:[^{END}]+[ \t]+)*?[^{END}]+)[ \t]*:[ \t\n]", m.group(2)):
            yield from (w for w in f.group(1).split() if w != "pub")


def bare(body):
    """The names of a text that stand for a definition, and not for a field or a step."""
    return {m.group(0) for m in TOKEN.finditer(body) if not (m.start() and body[m.start() - 1] == ".")}


def put_antt(text, to):
    out = []
    for line in text.split("\n"):
        m = re.search(r"(^|\s)--(\s|$)", line)
        head, comment = (line[: m.start()], line[m.start() :]) if m else (line, "")
        # In a comment a word with dashes is a name only where it is quoted.
        comment = put(comment, {a: b for a, b in to.items() if "-" not in a})
        comment = re.sub(r"`[^`]*`", lambda q: put(q.group(0), to), comment)
        out.append(put(head, to) + comment)
    return "\n".join(out)


def put_rt(text, to):
    camel = {a: b for a, b in to.items() if "-" not in a}
    out = []
    for line, inside in in_clauses(text):
        if inside:
            out.append(put(line, to))
        elif "//" in line:
            i = line.index("//")
            out.append(line[:i] + re.sub(r"`[^`]*`", lambda q: put(q.group(0), to), put(line[i:], camel)))
        else:
            out.append(line)
    return "\n".join(out)


def put_page(text, to, declared):
    """A name of a page that is spelled so nowhere now, but is declared in the new spelling."""

    def one(m):
        name = m.group(0)
        if name in to:
            return to[name]
        return snake(name) if CAMEL.match(name) and snake(name) in declared else name

    return re.sub(r"[A-Za-z][A-Za-z0-9_']*", one, text)


def main():
    dry = "--dry" in sys.argv
    texts = {p: open(p, encoding="utf-8").read() for p in antt_files()}
    to, library = renamings(texts)
    bad = 0
    for p, t in texts.items():
        body = code(t)
        tokens = bare(body)
        by_new = collections.defaultdict(set)
        for token in tokens:
            by_new[to.get(token, token)].add(token)
        for new, olds in by_new.items():
            if len(olds) > 1:
                print(f"fall together: {p}: {sorted(olds)}")
                bad += 1
    print(f"names {len(to)}; files {len(texts)}; fall together {bad}")
    if dry or (bad and "--force" not in sys.argv):
        return 1
    for p, t in texts.items():
        new = put_antt(t, to)
        if new != t:
            open(p, "w", encoding="utf-8").write(new)
    declared = {w for p in antt_files() for m in DECLARED.finditer(code(open(p, encoding="utf-8").read())) for w in m.group(1).split()}
    declared |= {m.group(0) for p in antt_files() for m in TOKEN.finditer(code(open(p, encoding="utf-8").read())) if "_" in m.group(0)}
    for p in pages():
        t = open(p, encoding="utf-8").read()
        if p.endswith(".edit"):
            t = put(t, to)
        new = put_page(t, {a: b for a, b in to.items() if "-" not in a and "_" not in a}, declared)
        if new != open(p, encoding="utf-8").read():
            open(p, "w", encoding="utf-8").write(new)
    for p in rt_files():
        t = open(p, encoding="utf-8").read()
        new = put_rt(t, to)
        if new != t:
            open(p, "w", encoding="utf-8").write(new)
    return 0


if __name__ == "__main__":
    sys.exit(main())
