#!/usr/bin/env python3
"""Lists the definitions that a reader must believe, holds them to tests/believed.lock, and fails where one is an inner promise.

A reader believes the contracts of the calls in CALLS and the statements of the theorems in THEOREMS, which docs/ARCHITECTURE.md
names; so also every definition that these reach, through other definitions, and every type that the code declares and these
name. What functions inside the library promise each other stands in crates/NAME/specs/Code, and no such definition may be
reached.

  believed.py             prints them, file by file
  believed.py -v          also the definitions in specs/ that are not reached: examples, what the laws speak of, answers of
                          inner calls
  believed.py --lock      writes tests/believed.lock: a line with a digest for each contract, theorem, definition and type, and
                          for each example, with the definitions that it alone speaks of
  believed.py --check     prints the lines that are changed, new, gone or moved against tests/believed.lock; fails where there
                          are any
  believed.py --since COMMIT
                          prints how tests/believed.lock differs from the one at a commit

A digest is of the text without comments, layout and marks such as `unfoldable`. Each name there stands for what it means: a
library's name with its module, a name that is brought in under another as it is defined, and a name that several believed
definitions have with its file. So `use` lines and line breaks change no digest as long as the meaning is the same.

It reads the sources as text and proves nothing. A call or a theorem that is not there is a failure, and so is a name whose
meaning is not found."""
import hashlib
import re
import subprocess
import sys
from pathlib import Path

ROOT = Path(__file__).resolve().parent.parent
CRATES = ROOT / "crates"
LOCK = ROOT / "tests" / "believed.lock"

CALLS = [
    ("listing/src/lib.rt", "findings"),
    ("listing/src/lib.rt", "text"),
    ("listing/src/lib.rt", "page"),
    ("bilzarko/src/lib.rt", "bilzarko_findings"),
    ("bilzarko/src/lib.rt", "bilzarko_text"),
    ("bilzarko/src/lib.rt", "bilzarko_page"),
    ("bilzarko/src/lib.rt", "bilzarko_read"),
    ("bilzarko/src/lib.rt", "bilzarko_digit"),
    ("bilzarko_c/src/lib.rt", "bilzarko_findings"),
    ("bilzarko_c/src/lib.rt", "bilzarko_text"),
    ("bilzarko_c/src/lib.rt", "bilzarko_page"),
    ("bilzarko_c/src/lib.rt", "bilzarko_read"),
    ("bilzarko_c/src/lib.rt", "bilzarko_digit"),
    ("numbers/src/lib.rt", "digit_step"),
    ("reader/src/lib.rt", "read"),
    ("loader/src/lib.rt", "load"),
    ("loader/src/lib.rt", "show"),
    ("loader/src/lib.rt", "print"),
    ("loader/src/lib.rt", "read"),
    ("loader/src/lib.rt", "mark"),
    ("law/src/lib.rt", "check_law"),
    ("formats/src/lib.rt", "infer_formats"),
    ("shapes/src/display.rt", "display_format"),
    ("sentences/src/lib.rt", "shadows_in"),
    ("sentences/src/lib.rt", "matches_in"),
]

THEOREMS = [
    ("runs/proofs/NoFalse.antt", "no_false_finding"),
    ("runs/proofs/NoFalse.antt", "no_false_dead"),
    ("runs/proofs/Ends.antt", "ends"),
    ("runs/proofs/Ends.antt", "ended"),
    ("runs/proofs/Ends.antt", "finishes"),
    ("runs/proofs/Ends.antt", "finished_with"),
    ("lints/specs/SmallLaws.antt", "small_laws"),
    ("shapes/proofs/JoinLaws.antt", "join_over_left"),
    ("shapes/proofs/JoinLaws.antt", "join_over_right"),
    ("shapes/proofs/JoinLaws.antt", "join_least"),
    ("shapes/proofs/DisjointLaws.antt", "disjoint_exact"),
    ("shapes/proofs/WordLaws.antt", "read_write"),
    ("formats/proofs/RoundLaws.antt", "pattern_closed"),
    ("formats/proofs/RoundLaws.antt", "result_closed"),
    ("matching/proofs/FillLaws.antt", "matches_iff"),
    ("matching/proofs/FillLaws.antt", "matches_iff_from"),
    ("matching/proofs/FillLaws.antt", "call_or_block_matches_nothing"),
    ("matching/proofs/OrderLaws.antt", "every_match"),
    ("matching/proofs/OrderLaws.antt", "matches_in_order"),
    ("matching/proofs/ShadowLaws.antt", "shadow_sound"),
    ("matching/proofs/LiteralLaws.antt", "literal_as_in_run"),
    ("matching/proofs/SymbolLaws.antt", "numbers_by_value"),
    ("matching/proofs/SymbolLaws.antt", "number_in_run"),
    ("matching/proofs/SymbolLaws.antt", "same_in_run"),
    ("numbers/proofs/DigitLaws.antt", "same_value"),
    ("numbers/proofs/PassLaws.antt", "state_of_digits"),
    ("numbers/proofs/PassLaws.antt", "answer_of_digits"),
    ("numbers/proofs/PassLaws.antt", "state_of_bytes"),
    ("numbers/proofs/PassLaws.antt", "answer_after_lem"),
    ("pages/proofs/LayoutLaws.antt", "every_line"),
    ("pages/proofs/LayoutLaws.antt", "heading_at"),
    ("pages/proofs/LayoutLaws.antt", "finding_at"),
    ("pages/proofs/LayoutLaws.antt", "line_count_lem"),
    ("pages/proofs/LayoutLaws.antt", "page_length_lem"),
    ("pages/proofs/FieldLaws.antt", "left_whole"),
    ("pages/proofs/FieldLaws.antt", "right_whole"),
    ("pages/proofs/FieldLaws.antt", "ten_digits"),
    ("tokens/proofs/NextPiece.antt", "next_longest"),
    ("tokens/proofs/NextPiece.antt", "longest_next"),
    ("tokens/proofs/Lexing.antt", "lexed_found"),
    ("tokens/proofs/Lexing.antt", "found_lexed"),
    ("tokens/proofs/Lexing.antt", "lexed_once"),
    ("grammar/proofs/Reading.antt", "written_found"),
    ("grammar/proofs/Reading.antt", "found_written"),
    ("grammar/proofs/Reading.antt", "written_once"),
    ("encoding/proofs/EncodedLaw.antt", "encoded_law"),
    ("encoding/proofs/EncodedLaw.antt", "only_these_refusals"),
    ("encoding/proofs/EncodedLaw.antt", "encoded_tree"),
]

# antt's own words and names, which no `use` line brings in, and those of contracts
ANTT = set(
    "λ → × : = | ↦ ← . _ [] let in do where elim as record data module deriving Discrete unfolding"
    " Type Unit tt ⊥ requires ensures result".split()
)
# The parts of operators that stand before or between their arguments
PARTS = {"if": "if◌then◌else◌", "then": "if◌then◌else◌", "else": "if◌then◌else◌"}
MARKS = {"pub", "abbrev", "unfoldable", "opaque", "private"}
RUST = set(
    "pub extern C unsafe no_mangle fn struct enum type const mut"
    " bool u8 u16 u32 u64 usize i8 i16 i32 i64 isize f32 f64 char str Option Result".split()
)

TOKEN = re.compile(r'(?P<skip>\{-.*?-\}|--[^\n]*|\s+)|"(?:\\.|[^"\\])*"|\[\]|[(){}\[\],;]|[^\s(){}\[\],;"]+', re.S)
OPENS, CLOSES = "([{", ")]}"


class Fault(Exception):
    pass


class Token(str):
    """A word of antt, with its column, and whether it is the first of its line."""

    def __new__(cls, text, column, first):
        token = super().__new__(cls, text)
        token.column, token.first = column, first
        return token


def antt(text):
    tokens, line, seen = [], 0, -1
    for found in TOKEN.finditer(text):
        if found["skip"] is None:
            line = text.rfind("\n", 0, found.start()) + 1
            tokens.append(Token(found[0], found.start() - line, line != seen))
            seen = line
    return tokens


def head(token):
    """What a projection, as `law.count`, is of; else the word itself, without the stop that ends a λ's names."""
    return token.rstrip(".").split(".")[0] or token


def blocks(tokens):
    """The items of a block: each begins a line at the block's column."""
    items = []
    for token in tokens:
        if not items or token.first and token.column <= tokens[0].column and token not in CLOSES:
            items.append([])
        items[-1].append(token)
    return items


def flat(tokens):
    """The tokens that stand in no bracket, with their positions."""
    depth = 0
    for i, token in enumerate(tokens):
        depth -= token in CLOSES
        if depth == 0:
            yield i, token
        depth += token in OPENS


def place(tokens, word):
    return next((i for i, token in flat(tokens) if token == word), None)


class Definition:
    """The heads of the modules around it, its statement, its clauses, and the names of its constructors."""

    def __init__(self, around, statement):
        self.around, self.statement, self.clauses, self.parts = around, statement, [], set()

    def items(self):
        return self.around + [self.statement] + self.clauses


class Module:
    """A file of definitions, or of code: what it brings in, and its definitions."""

    def __init__(self, path):
        if not path.is_file():
            raise Fault(f"{path.relative_to(ROOT)}: no such file")
        self.path, self.text = path, path.read_text()
        self.names = {}  # a name or a module here: a file, or a library's module, and the names that lead to it there
        self.definitions, self.twice = {}, set()
        if path.suffix == ".antt":
            self.read(antt(self.text), [], [])
        else:
            self.text = re.sub(r"//[^\n]*", "", self.text)
            for line in re.findall(r"^ghost use (.*?);$", self.text, re.M | re.S):
                self.bring(antt(line))
            for words in re.findall(r"^(?:pub )?use ([\w:{},\s]+);$", self.text, re.M):
                before, _, several = words.partition("{")
                for name in several.rstrip("}").split(",") if several else [""]:
                    path = [word for word in (before + name.strip()).split("::") if word]
                    if name.strip() or not several:
                        self.names[path[-1]] = rust_place(self.path, path)

    def bring(self, words):
        whole = "".join(words[:1])
        if len(words) == 3 and words[1] == "as":
            self.names[words[2]] = module_place(whole)
        elif len(words) == 1:
            self.names[whole.split(".")[-1]] = module_place(whole)
        elif len(words) > 2 and whole.endswith(".") and words[1] == "{" and words[-1] == "}":
            for name in " ".join(words[2:-1]).split(","):
                name = name.split()
                if name:
                    self.names[name[-1]] = module_place(whole[:-1]) + (name[0],)
        else:
            raise Fault(f"{self.path.relative_to(ROOT)}: use {' '.join(words)}: not understood")

    def read(self, tokens, around, marks):
        """Reads a block. A clause belongs to the definition that it names, or to the operator, or to the last one."""
        current, here, fixity = None, {}, []
        for item in blocks(tokens):
            at = next((i for i, word in enumerate(item) if word not in MARKS), len(item) - 1)
            key, rest = item[at], item[at + 1 :]
            if key == "use":
                self.bring(rest)
            elif key == "mod":
                pass
            elif key == "module":
                end = place(item, "where")
                if end is None or rest[0] != "_":
                    raise Fault(f"{self.path.relative_to(ROOT)}: {' '.join(item[:3])}: not understood")
                self.read(item[end + 1 :], around + [item[: end + 1]], marks)
            elif key == "mutual":
                self.read(rest, around, item[:at])
            elif key.startswith("infix") and len(rest) == 2:
                fixity = [item]
            elif key in ("data", "record") and rest:
                here[rest[0]] = current = self.define(rest[0], around, marks + item)
                end = place(item, "where")
                for part in blocks(item[end + 1 :]) if end else []:
                    names = part[: place(part, ":")] if key == "data" else []
                    current.parts.update(part[-1:] if part[0] == "deriving" else names)
            elif self.is_statement(item):
                for name in item[at : place(item, ":")]:
                    if name in OPENS:
                        break
                    here[name] = current = self.define(name, around, marks + item)
                    current.clauses += fixity
                fixity = []
            else:
                left = item[: place(item, "=")]
                operators = [d for name, d in here.items() if "◌" in name and any(word in left for word in name.split("◌") if word)]
                owner = here.get(key) or (operators + [current])[0]
                if owner is None and key == "unfolding":
                    continue  # of a whole `mutual`
                if owner is None:
                    raise Fault(f"{self.path.relative_to(ROOT)}: {' '.join(item[:5])}: no definition's")
                owner.clauses.append(item)
                current = owner

    def is_statement(self, item):
        colon, equals = place(item, ":"), place(item, "=")
        return item[0] != "unfolding" and colon is not None and (equals is None or colon < equals)

    def define(self, name, around, statement):
        if name in self.definitions:
            self.twice.add(name)
        self.definitions[name] = Definition(around, statement)
        return self.definitions[name]

    def own(self, name):
        """The definition of this file that has a name, or whose constructor has it."""
        if name in self.twice:
            raise Fault(f"{self.path.relative_to(ROOT)}: {name} is defined twice")
        if name in self.definitions:
            return name
        return next((whole for whole, d in self.definitions.items() if name in d.parts), None)

    def meaning(self, token):
        """What a name stands for here: a file, or a library's module, and names there. None where it is not known."""
        for name in (token, f"◌{token}◌", PARTS.get(token, token)):
            first, *others = [name] if "◌" in name else name.split(".")
            if first in self.names:
                return self.names[first] + tuple(others)
            if self.own(first):
                return self.path, first, *others
        return None


MODULES = {}


def module(path):
    if path not in MODULES:
        MODULES[path] = Module(path)
    return MODULES[path]


def module_place(words):
    """The file that a module's path names, or a file of code and the type declared there, or a library's module."""
    found = re.match(r"Rattle\.(\w+)\.(specs|proofs)\.([\w.+'-]+)$", words)
    if not found or not (CRATES / found[1]).is_dir():
        return (words,)
    crate, part, rest = found.groups()
    if rest.startswith("declared."):
        names = [name for name in rest.split(".")[1:] if name != "TheVariants"]
        return code_file(crate, names[:-1]), names[-1]
    return (CRATES / crate / part / (rest.replace(".", "/") + ".antt"),)


def code_file(crate, modules):
    return CRATES / crate / "src" / (("/".join(modules) or "lib") + ".rt")


def rust_place(path, words):
    """The file of code in which an item of a `use` line stands, and its name."""
    crate = path.relative_to(CRATES).parts[0] if words[0] == "crate" else words[0]
    return code_file(crate, words[1:-1]), words[-1]


def declared(path, name):
    """The text of a type or a constant that code declares."""
    here = module(path)
    found = re.search(rf"^(?:pub )?(?:enum|struct|type|const) {name}\b.*?(?:;$|^\}})", here.text, re.M | re.S)
    if not found:
        raise Fault(f"{path.relative_to(ROOT)}: no type {name}")
    return re.findall(r"\w+|[^\s\w]", found[0])


def contract(path, name):
    """A public function's signature, as words of Rust, and what it requires and ensures, as words of antt."""
    text = module(path).text
    found = re.search(rf'^(?:#\[[\w()]+\]\n)?pub (?:extern "C" )?fn {name}\(', text, re.M)
    if not found:
        raise Fault(f"{path.relative_to(ROOT)}: no public function {name}")
    signature, said, at, depth = "", [], found.start(), 0
    while True:
        keyword = re.compile(r"(requires|ensures)\s*(?:\w+\s*)?\{").match(text, at)
        if keyword and not depth:
            start, depth, at = keyword.end(), 1, keyword.end()
            while depth:
                depth += {"{": 1, "}": -1}.get(text[at], 0)
                at += 1
            said += [antt(keyword[1]) + antt(text[start : at - 1])]
        elif text[at] == "{" and not depth:
            return re.findall(r"\w+|[^\s\w]", signature), said
        else:
            depth += (text[at] in OPENS) - (text[at] in CLOSES)
            signature += text[at]
            at += 1


def bound(items):
    """The names that clauses, λ, `let`, `do`, cases and types bind, and the labels of fields, wherever they hold."""
    names = set()
    for item in items:
        line = 0
        for i, token in enumerate(item):
            line = i if token.first else line
            back = i
            if token in ("=", ":"):
                while back and item[back - 1] not in OPENS + CLOSES + ",;:":
                    back -= 1
                names.update(item[back:i])
                if token == "=":
                    names.update(item[line:i])
                    names.update(item[: i if i == place(item, "=") else 0])
            elif token == "←":
                names.update(item[line:i])
            elif token in ("λ", "|"):
                end = next((j for j in range(i, len(item)) if item[j][-1] == "." or item[j] == "↦"), i)
                names.update(word.rstrip(".") for word in item[i + 1 : end + 1])
    return names


def references(path, items, also=()):
    """What the names of an item stand for; a fault where one stands for nothing."""
    here, found, local = module(path), [], bound(items) | set(also)
    for token in [token for item in items for token in item]:
        if token[0] in '."' or token in OPENS + CLOSES + ",;" or token in MARKS or token[0].isdigit():
            continue
        token = token.rstrip(".") or token
        meaning = here.meaning(token) or here.meaning(head(token))
        token = token if meaning else head(token)
        if meaning:
            found.append(meaning)
        elif token not in ANTT and token not in local and not token.startswith("infix"):
            raise Fault(f"{path.relative_to(ROOT)}: {token} in {' '.join(items[-1][:3])} ..: nothing has this name")
        if token == "do":
            found += [meaning for meaning in map(here.meaning, (">>=", ">>")) if meaning]
    return found


def rust_references(path, words):
    """The types and constants of code that a type's or a function's text names."""
    here, found, depth = module(path), [], 0
    variants = "enum" in words[:2]
    for i, word in enumerate(words):
        depth += (word in OPENS) - (word in CLOSES)
        after = words[i + 1] if i + 1 < len(words) else ""
        if not re.match(r"[A-Za-z_]", word) or word in RUST or after == ":" or variants and depth == 1:
            continue
        if words[i - 1] in ("fn", "enum", "struct", "type", "const"):
            continue
        found.append(here.names.get(word, (path, word)))
    return found


def resolve(meaning):
    """A definition by its file and name, a constructor by its type; None for a library's."""
    where, name = meaning[:2]
    if isinstance(where, str):
        return None
    if where.suffix == ".rt":
        return where, name
    whole = module(where).own(name)
    if not whole and name in module(where).names:
        return resolve(module(where).names[name])  # brought in there, and handed on
    if not whole:
        raise Fault(f"{where.relative_to(ROOT)}: no definition {name}")
    return where, whole


def reach():
    """What is believed: contracts and theorems, and by whom each definition is reached."""
    said, todo, reached = [], [], {}
    for file, name in CALLS:
        path = CRATES / file
        signature, clauses = contract(path, name)
        said.append(("contract", path, name, signature, clauses))
        by = f"the contract of {name}"
        todo += [(found, by) for found in rust_references(path, signature) + references(path, clauses, signature)]
    for file, name in THEOREMS:
        path = CRATES / file
        theorem = module(path).definitions.get(name)
        if not theorem or "pub" not in theorem.statement:
            raise Fault(f"{file}: no public theorem {name}")
        items = theorem.around + [theorem.statement]
        said.append(("theorem", path, name, [], items))
        todo += [(found, f"the theorem {name}") for found in references(path, items) if found != (path, name)]
    while todo:
        place, by = todo.pop(0)
        found = resolve(place)
        if not found or found in reached:
            continue
        reached[found] = by
        path, name = found
        if path.suffix == ".rt":
            more = rust_references(path, declared(path, name))
        else:
            more = references(path, module(path).definitions[name].items())
        todo += [(place, name) for place in more]
    return said, reached


def examples(reached):
    """What specs/ proves by computation: each statement, and the definitions that it reaches and no reader must believe."""
    known = {CRATES / file: name for file, name in THEOREMS}
    for path in sorted(CRATES.glob("*/specs/*.antt")):
        for name, definition in module(path).definitions.items():
            marked = definition.statement[: definition.statement.index(name)]
            if (path, name) in reached or known.get(path) == name or set(marked) - {"pub"}:
                continue
            items = definition.around + [definition.statement]
            todo, found = [place for place in references(path, items) if place != (path, name)], {}
            while todo:
                where = resolve(todo.pop())
                if where and where not in reached and where not in found and where[0].suffix == ".antt":
                    found[where] = module(where[0]).definitions[where[1]].items()
                    todo += references(where[0], found[where])
            yield path, name, items, found


def spelled(path, items, shared):
    """Items as one line: no comments, no layout but for the ends of steps and clauses, names by what they stand for."""
    here, out = module(path), []
    for item in items:
        columns, out = [], out + ["⏎"]
        for i, token in enumerate(item):
            while token.first and columns and token.column < columns[-1]:
                columns.pop()
            if token.first and columns and token.column == columns[-1]:
                out.append("⏎")
            if i and item[i - 1] in ("do", "where"):
                columns.append(token.column)
            if token in MARKS or token in ",;" and i + 1 < len(item) and item[i + 1] in CLOSES:
                continue  # what the prover sees of it, and what layout puts where it breaks lines
            meaning = None if token[0] in '."' else here.meaning(token.rstrip(".") or token)
            if not meaning and token[0] not in '."' and head(token) != token and here.meaning(head(token)):
                meaning, fields = here.meaning(head(token)), token[len(head(token)) :]
            else:
                fields = ""
            whole = meaning and resolve(meaning)
            if whole:
                token = f"{whole[0].relative_to(ROOT) if whole[1] in shared else ''}:{whole[1]}:{'.'.join(meaning[1:])}{fields}"
            elif meaning:
                token = ".".join(meaning) + fields
            out.append(token)
    return " ".join(out)


def rust_spelled(path, words, shared):
    """A type's or a function's text as one line, and the files of the types that have the name of another."""
    files = [str(where.relative_to(ROOT)) for where, name in rust_references(path, words) if name in shared]
    return " ".join(words + files)


def lines(said, reached):
    """The lines of the lock."""
    names = [name for _, name in reached]
    shared = {name for name in names if names.count(name) > 1}
    out = []

    def add(kind, path, name, text):
        out.append(f"{kind} {path.relative_to(ROOT)} {name} {hashlib.sha256(text.encode()).hexdigest()[:16]}")

    for kind, path, name, signature, items in said:
        add(kind, path, name, rust_spelled(path, signature, shared) + spelled(path, items, shared))
    for path, name in reached:
        if path.suffix == ".rt":
            add("declared", path, name, rust_spelled(path, declared(path, name), shared))
        else:
            add("definition", path, name, spelled(path, module(path).definitions[name].items(), shared))
    for path, name, items, found in examples(reached):
        parts = [(where, items) for (where, _), items in sorted(found.items())]
        add("example", path, name, "".join(spelled(where, items, shared) for where, items in [(path, items)] + parts))
    return sorted(out)


def differences(before, after):
    """How two locks differ: what is changed, new, gone, or stands in another file with the same meaning."""
    old, new = ({tuple(line.split()[:3]): line.split()[3] for line in text} for text in (before, after))
    moved = {}
    for kind, path, name in old.keys() - new.keys():
        there = [what for what in new.keys() - old.keys() if what[::2] == (kind, name) and new[what] == old[kind, path, name]]
        moved.update({what: path for what in there[:1] if len(there) == 1})
    left = {(kind, path, name) for (kind, _, name), path in moved.items()}
    for what in sorted((old.keys() | new.keys()) - left):
        if what in moved:
            yield f"moved   {' '.join(what)}, from {moved[what]}"
        elif old.get(what) != new.get(what):
            yield f"{'new    ' if what not in old else 'gone   ' if what not in new else 'changed'} {' '.join(what)}"


def show(reached, verbose):
    by_file = {}
    for path, name in reached:
        by_file.setdefault(path, []).append(name)
    for path in sorted(by_file):
        print(f"{path.relative_to(ROOT)}: {' '.join(sorted(by_file[path]))}")
    if verbose:
        for path in sorted(CRATES.glob("*/specs/*.antt")):
            rest = [name for name in module(path).definitions if (path, name) not in reached]
            if rest:
                print(f"not reached, {path.relative_to(ROOT)}: {' '.join(rest)}")


def main(words):
    if len(words) == 2 and words[0] == "--since":
        got = subprocess.run(["git", "show", f"{words[1]}:tests/believed.lock"], cwd=ROOT, capture_output=True, text=True)
        if got.returncode:
            print(f"no lock at {words[1]}: {got.stderr.strip()}", file=sys.stderr)
            return 2
        for line in differences(got.stdout.splitlines(), LOCK.read_text().splitlines()):
            print(line)
        return 0
    if words not in ([], ["-v"], ["--lock"], ["--check"]):
        print(__doc__, file=sys.stderr)
        return 2
    try:
        said, reached = reach()
        lock = lines(said, reached)
    except Fault as fault:
        print(f"! {fault}", file=sys.stderr)
        return 1
    inner = sorted(found for found in reached if "Code" in found[0].parts)
    for path, name in inner:
        by = reached[(path, name)]
        print(f"! {path.relative_to(ROOT)}: {name} is an inner promise, and {by} reaches it", file=sys.stderr)
    differ = []
    if words == ["--lock"]:
        LOCK.write_text("\n".join(lock) + "\n")
    elif words == ["--check"]:
        differ = list(differences(LOCK.read_text().splitlines() if LOCK.is_file() else [], lock))
        for line in differ:
            print(line)
    else:
        show(reached, words == ["-v"])
    types = sum(path.suffix == ".rt" for path, _ in reached)
    shown = sum(line.startswith("example") for line in lock)
    print(
        f"{len(reached) - types} definitions, {types} types of the code, {len(CALLS)} contracts, {len(THEOREMS)} theorems,"
        f" {shown} examples"
    )
    if differ:
        print(f"! differences from tests/believed.lock: {len(differ)}", file=sys.stderr)
    return 1 if inner or differ else 0


if __name__ == "__main__":
    sys.exit(main(sys.argv[1:]))
