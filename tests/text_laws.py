"""Writes the cases of the program crates/test_texts: what the reading call answers, and what every lent byte holds then.

Run at the repository's root: python3 tests/text_laws.py
It writes crates/test_texts/stdin, which the program reads, and crates/test_texts/stdout, which the program has to write.

Answers are computed by the model in tests/text_model.py. Beside each case that is not random its answer is written by hand, from
document 02, R-1, and the model has to give it: the number of the refusal, or what the law file has in its sections (`shown`),
of
which a case says what it is about. The file of one text is written by hand word by word.
"""
import struct
from pathlib import Path

from edge_laws import CALL, CHARACTER, E, S, T, word
from store_laws import Numbers
from text_model import file_of, read

# What the program lends at most, and the values that it gives to bytes before a call, which come again after the last.
ROOM = 16400
BYTE_FIRST, BYTE_LAST = 128, 250


# What a case has to write

def given(n):
    """The value of each byte before the call."""
    return [BYTE_FIRST + k % (BYTE_LAST - BYTE_FIRST + 1) for k in range(n)]


def bytes_after(file, room):
    """All bytes of the buffer: `kept` where a byte has its value still, and equal ones in a row as one with their number."""
    before = given(room)
    now = list(file) + before[len(file):]
    pieces = []
    for one in ["kept" if a == b else a for a, b in zip(now, before)]:
        if pieces and pieces[-1][0] == one:
            pieces[-1][1] += 1
        else:
            pieces.append([one, 1])
    return "".join(f" {one}" if count == 1 else f" {one}*{count}" for one, count in pieces) + "\n"


# What a law file has, to be compared with what is written by hand

def shown_term(text, record):
    kind, a, b, n, start, end = record
    spelled = text[a:a + b].decode("ascii") if kind != CHARACTER else ""
    if kind == CHARACTER:
        what = f"'{chr(a)}'" if 0x20 < a < 0x7F else f"U+{a:04X}"
    elif kind in (S, T, E):
        what = {S: "s.", T: "t.", E: "e."}[kind] + spelled
    elif kind == CALL:
        what = f"<{spelled}:{n}>"
    else:
        what = spelled or f"({n})"
    return f"{what}@{start}-{end}"


def shown(file):
    """The records of a file, each with its span behind @: a function's name and number of sentences; a sentence's numbers of
    records of the pattern, of conditions and of records of the result; a condition's numbers of records of the result and of
    the pattern; a term as it is spelled, a character else by its scalar value, a bracket and a call with the number of records
    inside."""
    def section(at, words):
        count = struct.unpack_from("<I", file, at)[0]
        size = 4 * words
        rows = [struct.unpack_from(f"<{words}I", file, at + 4 + size * k) for k in range(count)]
        return rows, at + 4 + size * count

    length = struct.unpack_from("<I", file)[0]
    text = file[4:4 + length]
    functions, at = section(4 + length, 5)
    sentences, at = section(at, 5)
    conditions, at = section(at, 4)
    terms, at = section(at, 6)
    assert at == len(file)
    return {
        "functions": [f"{text[a:a + b].decode('ascii')}:{n}@{start}-{end}" for a, b, n, start, end in functions],
        "sentences": [f"{p},{c},{r}@{start}-{end}" for p, c, r, start, end in sentences],
        "conditions": [f"{r},{p}@{start}-{end}" for r, p, start, end in conditions],
        "terms": [shown_term(text, record) for record in terms],
    }


# Cases

cases = []
labels = set()


def case(label, text, room=None):
    """A case. Where no room is given, the buffer has three bytes more than the file, or five."""
    text = text.encode("utf-8") if isinstance(text, str) else text
    file = file_of(text)
    if room is None:
        room = len(file) + 3 if isinstance(file, bytes) else 5
    answer, file = read(text, room)
    assert 0 < len(label) < 80 and label.isascii() and label.isprintable(), label
    assert label not in labels, label
    assert len(text) <= ROOM and room <= ROOM, label
    labels.add(label)
    lines = f"{label}\n  {answer}\n    bytes{bytes_after(file, room)}"
    cases.append((label.encode("ascii") + b"\n" + word(room) + word(len(text)) + text, lines))
    return answer, file


def refused(number, label, text, room=None):
    answer, _ = case(label, text, room)
    assert answer == f"refused {number}", (label, answer)


def taken(label, text, room=None, **sections):
    """A text that is read. Sections that are named have these records."""
    answer, file = case(label, text, room)
    assert answer == f"written {len(file)}", (label, answer)
    of = shown(file)
    for name, records in sections.items():
        assert of[name] == records.split(), (label, name, of[name])


def outside(prefix, *texts):
    """Texts outside the grammar; a label is the text itself."""
    for text in texts:
        refused(16, f"{prefix}: {text}", text)


def document_cases():
    """A text with each of what is taken; its file is written by hand."""
    text = "$EXTERN G;$ENTRY F{s.A'b',<G 1>:(t.B)=e.C X;}"
    words = [
        [17, 1, 1, 17, 45],
        [2, 1, 2, 19, 43],
        [2, 2, 26, 37],
        [S, 21, 1, 0, 19, 22], [CHARACTER, 98, 0, 0, 23, 24], [CALL, 27, 1, 1, 26, 31], [2, 29, 1, 0, 29, 30],
        [6, 0, 0, 1, 32, 37], [T, 35, 1, 0, 33, 36], [E, 40, 1, 0, 38, 41], [1, 42, 1, 0, 42, 43],
    ]
    file = word(45) + text.encode("ascii")
    for records in (words[:1], words[1:2], words[2:3], words[3:]):
        file += word(len(records)) + b"".join(word(one) for record in records for one in record)
    assert case("file: one of each", text) == (f"written {len(file)}", file)
    taken("file: the listing's example", "F { e.X = 'a'; s.A = <F 1>; } H { 'q' = <H 2>; }", functions="F:2@0-29 H:1@30-48",
          sentences="1,0,1@4-13 1,0,2@15-26 1,0,2@34-45", conditions="",
          terms="e.X@4-7 'a'@11-12 s.A@15-18 <F:1>@21-26 1@24-25 'q'@35-36 <H:1>@40-45 2@43-44")


def grammar_cases():
    """Each line of the grammar, taken and just outside."""
    taken("text: empty", "", functions="", sentences="", conditions="", terms="")
    taken("text: blanks alone", " \t\n\r ", functions="")
    taken("text: functions and lists in any order", "$EXTERN A;F{=}$EXTERN B;$ENTRY G{=}H{=}$EXTERN C;",
          functions="F:1@10-14 G:1@31-35 H:1@35-39")
    taken("text: one name twice", "F{=}F{=}f{=}", functions="F:1@0-4 F:1@4-8 f:1@8-12")
    outside("text", ";", "=", "F", "F{=};", ";F{=}", "F{=},G{=}", "F{=}}", "{=}", "F=;", "'a'", "1", "e.X", "F{=}G", "(F{=})",
            "$", "F{=}$")

    taken("extern: F;", "$EXTERN F;", functions="")
    taken("extern: nothing between", "$EXTERNF;", functions="")
    taken("extern: $EXTERNAL;", "$EXTERNAL;", functions="")
    taken("extern: three names, one twice", "$EXTERN F , G,F ;", functions="")
    outside("extern", "$EXTERN;", "$EXTERN F", "$EXTERN F,;", "$EXTERN ,F;", "$EXTERN F G;", "$EXTERN F,,G;", "$EXTERN F;;",
            "$EXTERN 1;", "$EXTERN 'a';", "$EXTERN e.X;", "$EXTERN F{=}", "$EXTERN", "$EXTERN (F);", "$EXTERN $EXTERN F;",
            "$EXTERN F:G;", "$EXTRN F;", "$Extern F;", "$extern F;", "$EXTERN-F;", "$ EXTERN F;", "$EXTER NF;", "EXTERN F;",
            "$EXTERNS.F;")

    taken("entry: Go", "$ENTRY Go{=}", functions="Go:1@7-12")
    taken("entry: nothing between", "$ENTRYGo{=}", functions="Go:1@6-11")
    taken("entry: two", "$ENTRY F{=}$ENTRY/**/F{=}", functions="F:1@7-11 F:1@21-25")
    taken("entry: a name ENTRY", "ENTRY{=}", functions="ENTRY:1@0-8")
    outside("entry", "$ENTRY", "$ENTRY;", "$ENTRY $ENTRY F{=}", "$ENTRY $EXTERN F;", "$ENTRY 1{=}", "$entry F{=}",
            "$Entry F{=}", "$ ENTRY F{=}", "$ENTR Y{=}", "F $ENTRY{=}", "F{$ENTRY=}", "$ENTRY,F{=}", "$ENTRY Go",
            "$$ENTRY F{=}")

    taken("function: F{=}", "F{=}", functions="F:1@0-4", sentences="0,0,0@2-3", conditions="", terms="")
    taken("function: a last semicolon", "F{=;}", functions="F:1@0-5", sentences="0,0,0@2-3")
    taken("function: two sentences", "F{=;=}", functions="F:2@0-6", sentences="0,0,0@2-3 0,0,0@4-5")
    taken("function: two sentences and a last semicolon", " F { = ; = ; } ", functions="F:2@1-14",
          sentences="0,0,0@5-6 0,0,0@9-10")
    taken("function: named s", "s{=s}", functions="s:1@0-5", terms="s@3-4")
    taken("function: a span through the brace, after a comment", "F/*{*/{=/*}*/}", functions="F:1@0-14", sentences="0,0,0@7-8")
    outside("function", "F { }", "F{}", "F { ; }", "F{;=}", "F { = ; ; }", "F{=;;=}", "F { = ; };", "F{=", "F{", "F{=;",
            "F G{=}", "F{{=}}", "F{=}{=}", "F(=)", "1{=}", "'F'{=}", "e.F{=}", "s.F{=}", "(F){=}", "<F>{=}", "F,{=}", "F:{=}",
            "F[=]", "F{='a'", "F{=}=", "-F{=}", "_F{=}")

    taken("sentence: a pattern and a result", "F{'a'='b'}", sentences="1,0,1@2-9", terms="'a'@3-4 'b'@7-8")
    taken("sentence: a pattern alone", "F{'a' = ; }", sentences="1,0,0@2-7", terms="'a'@3-4")
    taken("sentence: a result alone", "F{ = 'a' ; }", sentences="0,0,1@3-8", terms="'a'@6-7")
    taken("sentence: a condition of nothing", "F { , : = }", sentences="0,1,0@4-9", conditions="0,0@6-7", terms="")
    taken("sentence: two conditions of nothing", "F{,:,:=}", sentences="0,2,0@2-7", conditions="0,0@3-4 0,0@5-6", terms="")
    taken("sentence: a condition with a result alone", "F{ , 'a' : = ;}", sentences="0,1,0@3-12", conditions="1,0@5-10",
          terms="'a'@6-7")
    taken("sentence: a condition with a pattern alone", "F{ , : 'a' = ;}", sentences="0,1,0@3-12", conditions="0,1@5-10",
          terms="'a'@8-9")
    taken("sentence: conditions among terms", "F{1,2 3:4,5:6 7=8;9=}", sentences="1,2,1@2-17 1,0,0@18-20",
          conditions="2,1@4-9 1,2@10-15",
          terms="1@2-3 2@4-5 3@6-7 4@8-9 5@10-11 6@12-13 7@14-15 8@16-17 9@18-19")
    taken("sentence: comments at its ends are not in its span", "F{/*a*/1/*b*/=2/*c*/;/*d*/}", sentences="1,0,1@7-15")
    taken("sentence: comments at a condition's ends", "F{1,/*a*/2/*b*/:3/*c*/=}", sentences="1,1,0@2-23", conditions="1,1@9-17")
    outside("sentence", "F{'a'}", "F{,=}", "F{:=}", "F{,:}", "F{,::=}", "F{,,:=}", "F{=,:}", "F{=:}", "F{==}", "F{= =}",
            "F{'a':=}", "F{'a':'a'='b'}", "F{,'a'='b'}", "F{='a','a':'b'}", "F{'a',:'b',='b'}", "F{,s.A:{=1}}",
            "F{s.A,s.A:{'a'=1;}}", "F{=[:=]}", "F{='a'='b'}", "F{,:;=}", "F{=,}")

    taken("pattern: a term of each kind", "F{'a'B 1s.C t.D e.E()=}", sentences="7,0,0@2-22",
          terms="'a'@3-4 B@5-6 1@7-8 s.C@8-11 t.D@12-15 e.E@16-19 (0)@19-21")
    taken("pattern: brackets in brackets", "F{(()('a'))()=}", sentences="5,0,0@2-14",
          terms="(3)@2-11 (0)@3-5 (1)@5-10 'a'@7-8 (0)@11-13")
    outside("pattern", "F{<G>=}", "F{(<G>)=}", "F{,:<G>=}", "F{,:(<G>)=}", "F{,<G>:<G>=}", "F{1<G>=}", "F{(=)}", "F{(=}",
            "F{)=}", "F{)(=}", "F{(()=}", "F{())=}", "F{(,:)=}", "F{(;)=}", "F{(1;1)=}", "F{(>=}", "F{>=}", "F{<=}",
            "F{({})=}", "F{,:(=}", "F{,:)=}", "F{[]=}")

    taken("result: a call", "F{=<G>}", sentences="0,0,1@2-6", terms="<G:0>@3-6")
    taken("result: calls in calls and brackets", "F{=<G(<H 1>)<K>>2}", sentences="0,0,6@2-17",
          terms="<G:4>@3-16 (2)@5-12 <H:1>@6-11 1@9-10 <K:0>@12-15 2@16-17")
    taken("result: blanks and comments around a call's name", "F{=< /*<*/G/*>*/ >}", terms="<G:0>@3-18")
    taken("result: a call of one that is no function here", "F{=<s><e><t>}", terms="<s:0>@3-6 <e:0>@6-9 <t:0>@9-12")
    taken("result: a call in a condition", "F{,<G>:=}", conditions="1,0@3-7", terms="<G:0>@3-6")
    taken("result: a call's name and its argument without a blank", "F{=<G'a'>}", terms="<G:1>@3-9 'a'@6-7")
    outside("result", "F{=<>}", "F{=<1>}", "F{=<'a'>}", "F{=<e.X>}", "F{=<(G)>}", "F{=<<G>>}", "F{=<G}", "F{=G>}", "F{=<G(>)}",
            "F{=(<G)>}", "F{=<G>>}", "F{=(<G>}", "F{=()", "F{=)}", "F{=)(}", "F{=(}", "F{=<G;>}", "F{=(;)}", "F{=<G,>}",
            "F{=<G=>}", "F{=<G:>}", "F{=<>G}", "F{=<G[]>}", "F{,<G:>=}", "F{,(:)=}", "F{=<}", "F{=>}", "F{=>G<}", "F{=({})}")


def token_cases():
    """Tokens: at each place the longest that fits."""
    taken("token: e.1'a'", "F{e.1'a'=}", terms="e.1@2-5 'a'@6-7")
    taken("token: 1e.X", "F{1e.X=}", terms="1@2-3 e.X@3-6")
    taken("token: 12ab", "F{12ab=}", terms="12@2-4 ab@4-6")
    taken("token: 12ab-3_c", "F{12ab-3_c=}", terms="12@2-4 ab-3_c@4-10")
    taken("token: 'a''b'", "F{'a''b'=}", terms="'a'@3-4 'b'@6-7")
    taken("token: 'ab'", "F{'ab'=}", terms="'a'@3-4 'b'@4-5")
    taken("token: e.X-1", "F{e.X-1=}", terms="e.X-1@2-7")
    taken("token: e._", "F{e._=}", terms="e._@2-5")
    taken("token: e.-", "F{e.-=}", terms="e.-@2-5")
    taken("token: s.1A-_", "F{s.1A-_=}", terms="s.1A-_@2-8")
    taken("token: t.--1", "F{t.--1=}", terms="t.--1@2-7")
    taken("token: s, t and e alone", "F{s t e=}", terms="s@2-3 t@4-5 e@6-7")
    taken("token: ste", "F{ste=}", terms="ste@2-5")
    taken("token: e.e.", "F{e.e=e.s}", terms="e.e@2-5 e.s@6-9")
    taken("token: A-", "F{A- A_ A--B=}", terms="A-@2-4 A_@5-7 A--B@8-12")
    taken("token: 007", "F{007 0=}", terms="007@2-5 0@6-7")
    taken("token: number, quotes, number", "F{12'3'45=}", terms="12@2-4 '3'@5-6 45@7-9")
    taken("token: identifier, quotes, identifier", "F{ab'c'd1=}", terms="ab@2-4 'c'@5-6 d1@7-9")
    taken("token: variables around a bracket", "F{e.X(e.Y)e.Z=}", terms="e.X@2-5 (1)@5-10 e.Y@6-9 e.Z@10-13")
    taken("token: a comment parts what it stands in", "F{e.1/**/e.2 A/**/B 1/**/2=}",
          terms="e.1@2-5 e.2@9-12 A@13-14 B@18-19 1@20-21 2@25-26")
    taken("token: every blank parts", "F{1 2\t3\n4\r5\r\n6=}", terms="1@2-3 2@4-5 3@6-7 4@8-9 5@10-11 6@13-14")
    taken("token: names in both cases", "Ab{aB=Ab}", functions="Ab:1@0-9", terms="aB@3-5 Ab@6-8")
    taken("token: the letters and digits at the ends", "A{AZaz09=Z z09 a}", terms="AZaz09@2-8 Z@9-10 z09@11-14 a@15-16")
    for one in ("e.1e.2", "E.X", "S.X", "T.X", "e. X", "e .X", "e.X.Y", "s.s.s", "e.", ".X", ".", "e..X", "x.X", "a.1", "se.X",
                "s-e.X", "1.2", "e.(X)", "e.'a'", "e./**/X", "-1", "-", "_", "_A", "1-2", "1_2", "+", "+1", "1+2", "A+B",
                "A.B", "%", "&", "*", "/", "\\", "\"a\"", "!", "#", "?", "@", "[", "]", "^", "`", "|", "~", "A/B", "A\\B"):
        refused(16, f"token: outside, {one}", "F{" + one + "=}")
    beside = {"before A": "@", "after Z": "[", "before a": "`", "after z": "{", "before 0": "/", "after 9": ":"}
    for label, one in beside.items():
        refused(16, f"token: the byte {label}, in an identifier", "F{A" + one + "B=}")
        refused(16, f"token: the byte {label}, as an index", "F{e." + one + "=}")
    taken("token: own places of a spelling that stands three times", "A{s.A A=A}", functions="A:1@0-10",
          terms="s.A@2-5 A@6-7 A@8-9")


def quote_cases():
    taken("quoted: what would else be tokens", "F{'$ENTRY(<>),:=;{}'=}", sentences="16,0,0@2-21")
    taken("quoted: a comment", "F{'/*'=}", terms="'/'@3-4 '*'@4-5")
    taken("quoted: a whole comment", "F{'/**/'=}", terms="'/'@3-4 '*'@4-5 '*'@5-6 '/'@6-7")
    taken("quoted: NUL", "F{'\0'=}", terms="U+0000@3-4")
    taken("quoted: line feeds, blanks and NUL", "F{'\n \r\t\0\n'=}",
          terms="U+000A@3-4 U+0020@4-5 U+000D@5-6 U+0009@6-7 U+0000@7-8 U+000A@8-9")
    taken("quoted: other control characters", "F{'\x01\x1b\x1f\x7f'=}", terms="U+0001@3-4 U+001B@4-5 U+001F@5-6 U+007F@6-7")
    taken("quoted: double quotes", "F{'\"'=}", terms="'\"'@3-4")
    taken("quoted: beside ' and backslash", "F{'&([]'=}", terms="'&'@3-4 '('@4-5 '['@5-6 ']'@6-7")
    taken("quoted: a digit is a character", "F{'12'=}", terms="'1'@3-4 '2'@4-5")
    taken("quoted: as many as a run has", "F{'aaa' 'aa'=}", terms="'a'@3-4 'a'@4-5 'a'@5-6 'a'@9-10 'a'@10-11")
    taken("quoted: what is between runs", "F{'a'/*'*/'b'=}", terms="'a'@3-4 'b'@11-12")
    outside("quoted", "F{''=}", "F{'=}", "F{'a=}", "F{a'=}", "F{'''=}", "F{'a'b'=}", "F{'a'''=}", "F{''a'=}", "F{'\\'=}",
            "F{'a\\'=}", "F{'\\n'=}", "F{'\\\\'=}", "F{'\\''=}", "F{'\\\\a'=}", "'", "''", "F{='", "F{=}'a'", "F{=}'a",
            "F'a'{=}", "F{'a'='b}")


def comment_cases():
    taken("comment: alone", "/**/", functions="")
    taken("comment: three stars", "/***/", functions="")
    taken("comment: /*/*/", "/*/*/", functions="")
    taken("comment: four stars", "/****/F{=}", functions="F:1@6-10")
    taken("comment: it ends at the first */", "/* /* */F{=}", functions="F:1@8-12")
    taken("comment: two", "/*a*//*b*/F{=}", functions="F:1@10-14")
    taken("comment: quotes and backslashes in it", "/*'\\*/F{=}", functions="F:1@6-10")
    taken("comment: NUL, blanks and control characters in it", "/*\0\n\r\t\x01\x7f*/F{=}", functions="F:1@10-14")
    taken("comment: between all tokens", "/*1*/$ENTRY/*2*/F/*3*/{/*4*/(/*5*/)/*6*/=/*7*/</*8*/G/*9*/>/*10*/;/*11*/}/*12*/",
          functions="F:1@16-73", sentences="1,0,1@28-59", terms="(0)@28-35 <G:0>@46-59")
    taken("comment: at the end, ** before */", "F{=}/* **/", functions="F:1@0-4")
    outside("comment", "/*/", "/*", "/* *", "/* * /", "/* /* */ */", "//", "// a", "/", "/ **/", "*/", "F{=}/*", "F{/*=}",
            "F{=}*/", "/**/*/", "$ENT/**/RY F{=}", "$/**/ENTRY F{=}", "/* */ /", "(* *)", "* a", "F{=}/", "/*//", "-- a", "# a")


NO_CHARACTERS = {
    "80": "a byte that goes on", "BF": "the last that goes on", "FE": "FE", "FF": "FF",
    # longer than they need be
    "C0 80": "NUL in two bytes", "C1 BF": "7F in two bytes", "E0 80 80": "NUL in three bytes", "E0 9F BF": "7FF in three bytes",
    "F0 80 80 80": "NUL in four bytes", "F0 8F BF BF": "FFFF in four bytes",
    "ED A0 80": "the first surrogate", "ED AF BF": "the last high surrogate", "ED B0 80": "the first low surrogate",
    "ED BF BF": "the last surrogate", "ED A0 BD ED B8 80": "two surrogates",
    "F4 90 80 80": "110000", "F4 BF BF BF": "13FFFF", "F5 80 80 80": "140000", "F7 BF BF BF": "1FFFFF",
    "F8 88 80 80 80": "five bytes", "FC 84 80 80 80 80": "six bytes",
    # cut off
    "C3": "one of two", "E2": "one of three", "E2 82": "two of three", "F0": "one of four", "F0 9F": "two of four",
    "F0 9F 98": "three of four",
    "C3 28": "of two, the second is none", "C2 7F": "7F after C2", "C2 C0": "C0 after C2", "C3 C3": "two first bytes",
    "C3 A9 A9": "one that goes on too many", "E2 28 A1": "of three, the second is none",
    "E2 82 28": "of three, the third is none",
    "F0 28 8C BC": "of four, the second is none", "F0 90 28 BC": "of four, the third is none",
    "F0 90 8C 28": "of four, the fourth is none",
}


def character_cases():
    """Characters of two, three and four bytes, and bytes that are none."""
    edges = [(2, [0x80, 0x7FF]), (3, [0x800, 0xFFF, 0x1000, 0xD7FF, 0xE000, 0xFFFD, 0xFFFF]),
             (4, [0x10000, 0x3FFFF, 0x40000, 0xFFFFF, 0x100000, 0x10FFFF])]
    for size, value in [(size, value) for size, values in edges for value in values]:
        character = chr(value)
        taken(f"utf-8: {value:X} in quotes", f"F{{'{character}'=}}", terms=f"U+{value:04X}@3-{3 + size}")
        taken(f"utf-8: {value:X} in a comment", f"/*{character}*/F{{=}}", functions=f"F:1@{4 + size}-{8 + size}")
        refused(16, f"utf-8: {value:X} outside", f"F{{=}}{character}")
    taken("utf-8: characters of each length in one run", "F{'a\u00e9\u20ac\U0001f600b'='\u00e9' 1}", sentences="5,0,2@2-22",
          terms="'a'@3-4 U+00E9@4-6 U+20AC@6-9 U+1F600@9-13 'b'@13-14 U+00E9@17-19 1@21-22")
    taken("utf-8: 85, A0 and 2028 are no line feeds and no blanks", "F{'\u0085\u00a0\u2028'=}",
          terms="U+0085@3-5 U+00A0@5-7 U+2028@7-10")
    for label, text in (("A0 as a blank", "F{\u00a0=}"), ("FEFF at the start", "\ufeffF{=}"), ("E9 in a name", "F\u00e9{=}"),
                        ("E9 as an index", "F{e.\u00e9=}"), ("a digit that is not ASCII", "F{\u0661=}"),
                        ("full-width brackets", "F{\uff08\uff09=}"), ("NUL outside", "\0"), ("NUL after a text", "F{=}\0"),
                        ("a vertical tab outside", "F{=}\v"), ("a form feed outside", "F{=}\f"), ("DEL outside", "\x7f"),
                        ("1A at the end", "F{=}\x1a")):
        refused(16, f"utf-8: {label}", text)
    for octets, label in NO_CHARACTERS.items():
        data = bytes.fromhex(octets)
        refused(16, f"utf-8: {label}, in quotes", b"F{'" + data + b"'=}")
        refused(16, f"utf-8: {label}, in a comment", b"/*" + data + b"*/")
    for octets in ("80", "C3 A9", "C3", "C0 80", "ED A0 80", "F4 90 80 80", "FF"):
        data = bytes.fromhex(octets)
        refused(16, f"utf-8: {octets} at the start", data + b"F{=}")
        refused(16, f"utf-8: {octets} at the end", b"F{=}" + data)
        refused(16, f"utf-8: {octets} in a pattern", b"F{" + data + b"=}")
    for octets in ("C3", "E2 82", "F0 9F 98"):
        data = bytes.fromhex(octets)
        refused(16, f"utf-8: {octets} and then nothing, in quotes", b"F{'" + data)
        refused(16, f"utf-8: {octets} and then nothing, in a comment", b"/*" + data)


def nested(depth, inside="", left="(", right=")"):
    return left * depth + inside + right * depth


def variables(count, kind="e"):
    return " ".join(f"{kind}.{k}" for k in range(count))


LONG = "N" * 65
# Each deserves its refusal alone.
OVER = {
    1: "F{'" + 700 * "a" + "'=}",
    4: 65 * "F{=}",
    5: LONG + "{=}",
    8: "F{=" + nested(33, "1") + "}",
    9: "F{" + variables(33) + "=}",
}


def text_limit_cases():
    taken("limit: a text of 4096 bytes", 4096 * " ", functions="")
    refused(4, "limit: a text of 4097 bytes", 4097 * " ")
    taken("limit: a comment of 4096 bytes", "/*" + 4092 * "*" + "*/", functions="")
    refused(4, "limit: a comment of 4097 bytes", "/*" + 4093 * "*" + "*/")
    refused(16, "limit: 4096 bytes that are no text", 4096 * "$")
    refused(4, "limit: 4097 bytes that are no text", 4097 * "$")
    refused(4, "limit: 16400 bytes that are no text", 16400 * b"\xff")
    refused(16, "limit: 4096 bytes, a character cut off", 4095 * b" " + b"\xc3")
    taken("limit: an extern of 4088 bytes", "$EXTERN" + 4088 * "F" + ";", functions="")


def spelling_limit_cases():
    for count, take in ((64, True), (65, False), (130, False), (1000, False)):
        name, number = "N" + (count - 1) * "9", count * "7"
        texts = {
            "a function's name": name + "{=}", "an identifier": f"F{{{name}=}}", "an identifier in a result": f"F{{={name}}}",
            "a call's name": f"F{{=<{name}>}}", "a number": f"F{{{number}=}}", "a number of zeros": f"F{{={count * '0'}}}",
            "an index of s.": f"F{{s.{number}=}}", "an index of t.": f"F{{t.{name}=}}",
            "an index of e.": f"F{{=e.{count * '-'}}}",
            "an identifier in a condition": f"F{{,{name}:=}}", "an index in a condition's pattern": f"F{{,:(e.{name})=}}",
        }
        for label, text in texts.items():
            if take:
                taken(f"limit: {count} bytes, {label}", text)
            else:
                refused(5, f"limit: {count} bytes, {label}", text)
        taken(f"limit: {count} bytes, names of a list", f"$EXTERN {name},{name};", functions="")
        taken(f"limit: {count} bytes, in a comment and quotes", f"/*{name}*/F{{'{min(count, 500) * 'N'}'=}}")
    taken("limit: 64 and 64 bytes side by side", f"F{{{64 * '1'}{64 * 'a'} e.{64 * '_'}=}}",
          terms=f"{64 * '1'}@2-66 {64 * 'a'}@66-130 e.{64 * '_'}@131-197")


def depth_limit_cases():
    for depth in (32, 33):
        inside = {
            "brackets": nested(depth, "1"),
            "brackets around nothing": nested(depth + 1),
            "the second term": "1" + nested(depth, "()s.A"),
            "calls": nested(depth, "'a'", "<F ", ">"),
            "brackets and calls": nested(depth - 30, nested(30, "e.X", "<G ", ">")),
        }
        for label, terms in inside.items():
            texts = {"in a result": f"F{{={terms}}}", "in a condition": f"F{{,{terms}:=}}"}
            if "calls" not in label:
                texts |= {"in a pattern": f"F{{{terms}=}}", "in a condition's pattern": f"F{{,:{terms}=}}"}
            for where, text in texts.items():
                if depth == 32:
                    taken(f"limit: {depth} around, {label}, {where}", text)
                else:
                    refused(8, f"limit: {depth} around, {label}, {where}", text)


def variable_limit_cases():
    for kind in "ste":
        taken(f"limit: 32 {kind}. variables", f"F{{{variables(32, kind)}=}}",
              sentences=f"32,0,0@2-{2 + 10 * 3 + 22 * 4 + 31 + 1}")
        refused(9, f"limit: 33 {kind}. variables", f"F{{{variables(33, kind)}=}}")
    taken("limit: 32 variables, some twice and in both cases", f"F{{{variables(30)} s.a e.A s.A e.a e.0 (e.1)=}}")
    refused(9, "limit: 33 variables, of two kinds", f"F{{{variables(32)} s.0=}}")
    refused(9, "limit: 33 variables, - and _ differ", f"F{{{variables(31)} e.- e._=}}")
    refused(9, "limit: 33 variables, one in brackets, in a second sentence", f"F{{=;{variables(32)}((t.A))=}}")
    taken("limit: 33 variables in a condition's pattern", f"F{{,:{variables(33)}=}}")
    taken("limit: 33 variables in a result", f"F{{={variables(33)}}}")
    taken("limit: 32 variables in each of two patterns", f"F{{{variables(32)}={variables(33)};{variables(32, 's')}=}}")


def count_limit_cases():
    taken("limit: 64 functions", 64 * "F{=}", functions=" ".join(f"F:1@{4 * k}-{4 * k + 4}" for k in range(64)))
    refused(4, "limit: 65 functions", 65 * "F{=}")
    taken("limit: 64 functions and 65 lists", 64 * "F{=}$EXTERN F;" + "$EXTERN F;")
    taken("limit: 128 sentences", "F{" + 128 * "=;" + "}", functions="F:128@0-259")
    refused(4, "limit: 129 sentences", "F{" + 129 * "=;" + "}")
    taken("limit: 128 sentences of 64 functions", 64 * "F{=;=}")
    refused(4, "limit: 129 sentences of 64 functions", 63 * "F{=;=}" + "F{=;=;=}")
    taken("limit: 128 conditions", "F{" + 128 * ",:" + "=}", sentences="0,128,0@2-259")
    refused(4, "limit: 129 conditions", "F{" + 129 * ",:" + "=}")
    taken("limit: 128 conditions of two functions", "F{" + 64 * ",:=;" + "}G{" + 64 * ",:" + "=}")
    refused(4, "limit: 129 conditions of two functions", "F{" + 64 * ",:=;" + "}G{" + 65 * ",:" + "=}")
    taken("limit: 512 characters in one run", "F{'" + 512 * "a" + "'=}", sentences="512,0,0@2-517")
    refused(4, "limit: 513 characters in one run", "F{'" + 513 * "a" + "'=}")
    spread = "F{" + 64 * "1()e.X A " + ",<G>" + 127 * "()" + ":" + 64 * "'ab'" + "="
    taken("limit: 512 terms of every kind in three runs", spread + "}", sentences="256,1,0@2-1094",
          conditions="128,128@579-1093")
    refused(4, "limit: 513 terms of every kind in four runs", spread + "1}")
    eight = "F{" + 8 * "()1=<G>2'ab's.A t.A;" + "}"
    taken("limit: 512 terms of 64 sentences", 8 * eight)
    refused(4, "limit: 513 terms of 64 sentences", 7 * eight + eight[:-2] + " 1}")
    taken("limit: 512 characters of four bytes", "F{'" + 512 * "\U0001f600" + "'=}", sentences="512,0,0@2-2053")
    refused(4, "limit: 513 characters of four bytes", "F{'" + 513 * "\U0001f600" + "'=}")


def file_limit_cases():
    # 20 bytes of counts, 20 of a function, 20 of a sentence, 24 of a term
    taken("limit: a file of 16384 bytes", ("F{'" + 512 * "a" + "'=}").ljust(16384 - 60 - 512 * 24), sentences="512,0,0@2-517")
    refused(1, "limit: a file of 16385 bytes", ("F{'" + 512 * "a" + "'=}").ljust(16385 - 60 - 512 * 24))
    refused(4, "limit: a file of 16384 bytes, 513 terms", ("F{'" + 513 * "a" + "'=}").ljust(16384 - 60 - 513 * 24))
    refused(1, "limit: a file of 16385 bytes, 513 terms", ("F{'" + 513 * "a" + "'=}").ljust(16385 - 60 - 513 * 24))
    refused(1, "limit: 700 characters in one run", OVER[1])
    refused(1, "limit: 4000 terms", "F{'" + 4000 * "a" + "'=}")
    refused(1, "limit: 1300 sentences", "F{" + 1300 * "=;" + "}")
    refused(1, "limit: 1024 functions", 1024 * "F{=}")


def order_cases():
    for number, text in OVER.items():
        refused(number, f"order: {number} alone", text)
        refused(number, f"order: {number} before 17", text, room=0)
        refused(16, f"order: 16 before {number}, a semicolon at the end", text + ";")
        refused(16, f"order: 16 before {number}, a semicolon at the start", ";" + text)
        refused(16, f"order: 16 before {number}, an open comment at the end", text + "/*")
        refused(16, f"order: 16 before {number}, a byte that is no character", text.encode("ascii") + b"/*\xff*/")
        refused(4, f"order: 4 by the text before {number}", text.ljust(4097))
        for other in OVER:
            if number < other:
                refused(number, f"order: {number} before {other}", text + OVER[other])
                refused(number, f"order: {number} before {other}, that first", OVER[other] + text)
    refused(5, "order: 5 before 8 and 9", OVER[9] + OVER[8] + OVER[5])
    refused(4, "order: 4 before 5, 8 and 9", OVER[9] + OVER[8] + OVER[5] + OVER[4])
    refused(1, "order: 1 before 4, 5, 8 and 9", OVER[9] + OVER[8] + OVER[5] + OVER[4] + OVER[1])
    refused(16, "order: 16 before 17", "F{}", room=0)
    refused(4, "order: 4 by the text before 17", 4097 * " ", room=0)
    refused(4, "order: 4 by the text before 16", 4096 * "(" + "F")
    refused(5, "order: 5 and 8 in one term", f"F{{={nested(33, LONG)}}}")
    refused(8, "order: 8 and 9 in one pattern", f"F{{{nested(33, variables(33))}=}}")


def depth_cases():
    """What is open may be as deep as a text is long."""
    for calls, left in ((False, "("), (True, "<G")):
        right = ">" if calls else ")"
        what = "calls" if calls else "brackets"
        deep = 1300 if calls else 2000
        refused(1, f"depth: {deep} {what}", "F{=" + nested(deep, "", left, right) + "}")
        refused(16, f"depth: {deep} {what}, none closed", "F{=" + deep * left + "}")
        refused(16, f"depth: {deep} {what}, one not closed", "F{=" + deep * left + (deep - 1) * right + "}")
        refused(16, f"depth: {deep} {what}, one closed twice", "F{=" + deep * left + (deep + 1) * right + "}")
        refused(16, f"depth: {deep} {what}, the text ends", "F{=" + deep * left)
        refused(8, f"depth: 500 {what}", "F{=" + nested(500, "", left, right) + "}")
        refused(16, f"depth: 500 {what}, one not closed", "F{=" + 500 * left + 499 * right + "}")
        refused(8, f"depth: 34 {what}", "F{=" + nested(34, "", left, right) + "}")
        taken(f"depth: 33 {what}", "F{=" + nested(33, "", left, right) + "}")
    refused(8, "depth: 500 brackets in a pattern", "F{" + nested(500) + "=}")
    refused(16, "depth: 500 brackets in a pattern around a call", "F{" + nested(500, "<G>") + "=}")
    refused(8, "depth: 250 of each in turn", "F{=" + nested(250, "", "(<G", ">)") + "}")
    refused(16, "depth: 250 of each in turn, closed in the wrong order", "F{=" + nested(250, "", "(<G", ")>") + "}")
    refused(16, "depth: 250 of each in turn, the innermost in the wrong order",
            "F{=" + 249 * "(<G" + "(<G)>" + 249 * ">)" + "}")
    refused(16, "depth: 250 of each in turn, the outermost in the wrong order", "F{=" + 250 * "(<G" + 249 * ">)" + ")>" + "}")
    refused(1, "depth: 800 of each in turn", "F{=" + nested(800, "", "(<G", ">)") + "}")
    refused(16, "depth: 4093 brackets that are left open", "F{=" + 4093 * "(")
    refused(16, "depth: 4093 brackets closed that were not open", "F{=" + 4093 * ")")
    refused(16, "depth: 2046 pairs outside a function", 2046 * "()")
    refused(1, "depth: 2044 pairs side by side", "F{=" + 2044 * "()" + "}")


def buffer_cases():
    small = "F{s.A=<F 1>}"  # 20 bytes of counts, 12 of text, 20 of a function, 20 of a sentence, 24 of each of three terms
    size = 20 + 12 + 20 + 20 + 3 * 24
    for room in (0, 1, 20, size - 1):
        refused(17, f"buffer: {room} bytes", small, room=room)
    for room in (size, size + 1, size + 123, 16384, 16400):
        taken(f"buffer: {room} bytes", small, room=room, sentences="1,0,2@2-11", terms="s.A@2-5 <F:1>@6-11 1@9-10")
    refused(17, "buffer: none, an empty text", "", room=0)
    refused(17, "buffer: 19 bytes, an empty text", "", room=19)
    taken("buffer: 20 bytes, an empty text", "", room=20, functions="")
    taken("buffer: 21 bytes, an empty text", "", room=21, functions="")
    full = ("F{'" + 512 * "a" + "'=}").ljust(16384 - 60 - 512 * 24)
    taken("buffer: exactly full with 16384 bytes", full, room=16384)
    refused(17, "buffer: 16383 bytes", full, room=16383)
    taken("buffer: 16400 bytes, a file of 16384", full, room=16400)
    for room in (0, 5, 16400):
        refused(16, f"buffer: {room} bytes, outside the grammar", "F{=", room=room)
        refused(4, f"buffer: {room} bytes, a text too long", 4097 * "a", room=room)
        refused(8, f"buffer: {room} bytes, too deep", OVER[8], room=room)


# Random texts: the tokens of a phrase of the grammar, with something or nothing between them

BETWEEN = ["", "", "", " ", " ", "\n", "\t", "\r\n", "/**/", "/*a*/", "/*\u00e9*/", "  "]
NAMES = ["F", "g", "H-1", "s", "e", "t_", "Long-Name_2"]
ATOMS = ["'a'", "'b c'", "'\u00e9\u20ac'", "'\U0001f600'", "1", "007", "12", "Name", "s", "s.A", "t.b", "e.X-1", "e.2", "s._",
"e.a"]


def pick(numbers, those):
    return those[numbers.below(len(those))]


def random_terms(numbers, calls, depth):
    found = []
    for _ in range(numbers.below(4)):
        kind = numbers.below(8)
        if kind == 0 and depth < 4:
            found += ["(", *random_terms(numbers, calls, depth + 1), ")"]
        elif kind < 3 and calls and depth < 4:
            found += ["<", pick(numbers, NAMES), *random_terms(numbers, calls, depth + 1), ">"]
        else:
            found.append(pick(numbers, ATOMS))
    return found


def random_sentence(numbers):
    found = random_terms(numbers, False, 0)
    while numbers.below(4) == 0:
        found += [",", *random_terms(numbers, True, 0), ":", *random_terms(numbers, False, 0)]
    return found + ["=", *random_terms(numbers, True, 0)]


def random_tokens(numbers):
    found = []
    for _ in range(1 + numbers.below(3)):
        if numbers.below(5) == 0:
            found += ["$EXTERN", pick(numbers, NAMES)]
            while numbers.below(2):
                found += [",", pick(numbers, NAMES)]
            found.append(";")
        else:
            found += ["$ENTRY"] * (numbers.below(4) == 0) + [pick(numbers, NAMES), "{", *random_sentence(numbers)]
            while numbers.below(2):
                found += [";", *random_sentence(numbers)]
            found += [";"] * numbers.below(2) + ["}"]
    return found


def random_text(numbers):
    return "".join(token + pick(numbers, BETWEEN) for token in random_tokens(numbers)).encode("utf-8")


def damaged(numbers, text):
    """The text with some bytes left out or twice, with a token more, or with a byte changed."""
    kind = numbers.below(4)
    at = numbers.below(len(text))
    end = at + 1 + numbers.below(3)
    if kind == 0:
        return text[:at] + text[end:]
    if kind == 1:
        return text[:at] + text[at:end] + text[at:]
    if kind == 2:
        return text[:at] + pick(numbers, [b"(", b")", b"<", b">", b"=", b",", b":", b";", b"{", b"}", b"'", b"/*", b"*/", b".",
        b"$ENTRY", b"1"]) + text[at:]
    return text[:at] + bytes([numbers.below(256)]) + text[at + 1:]


def random_cases(count):
    numbers = Numbers()
    for k in range(count):
        text = random_text(numbers)
        case(f"random: {k}", text)
        case(f"random: {k}, damaged", damaged(numbers, text))


def main():
    document_cases()
    grammar_cases()
    token_cases()
    quote_cases()
    comment_cases()
    character_cases()
    text_limit_cases()
    spelling_limit_cases()
    depth_limit_cases()
    variable_limit_cases()
    count_limit_cases()
    file_limit_cases()
    order_cases()
    depth_cases()
    buffer_cases()
    random_cases(60)
    folder = Path(__file__).resolve().parent.parent / "crates" / "test_texts"
    with open(folder / "stdin", "wb") as asked, open(folder / "stdout", "wb") as expected:
        for data, lines in cases:
            asked.write(data)
            expected.write(lines.encode("ascii"))
    print(f"{len(cases)} cases")


if __name__ == "__main__":
    main()
