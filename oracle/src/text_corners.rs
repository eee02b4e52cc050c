//! Texts by which the readings of document 02's R-1 were settled, each with its answer.
use crate::random::Random;
use crate::read_program::program;
use crate::reader::{Reading, read};
use crate::refal::notation;
use crate::texts::Tried;

/// A text and the law that it spells, in the notation of `refal.rs`.
const READ: [(&str, &str); 30] = [
    ("", ""),
    (" \t\r\n/* nothing */", ""),
    ("$EXTERN A, B ;", ""),
    ("$EXTERNF;", ""),
    ("$ENTRYGo{=}", "Go { = ; }"),
    ("$EXTERNF,G;$ENTRY Go{=<F>}", "Go { = <F >; }"),
    ("F{=}", "F { = ; }"),
    ("F { = ; }", "F { = ; }"),
    ("F { = ; = }", "F { = ; = ; }"),
    ("F { , : = }", "F { , : = ; }"),
    ("F { 12ab = }", "F { 12 ab = ; }"),
    ("F { 1e.X = }", "F { 1 e.X = ; }"),
    ("F { 1e = }", "F { 1 e = ; }"),
    ("F { e.1'a' = }", "F { e.1 'a' = ; }"),
    ("F { 'a''b' = }", "F { 'a' 'b' = ; }"),
    ("F { 'ab' = }", "F { 'a' 'b' = ; }"),
    ("F { e.X-1 e._ e.- e.0 = }", "F { e.X-1 e._ e.- e.0 = ; }"),
    ("F { s e.e = s.s tt e }", "F { s e.e = s.s tt e; }"),
    ("s{=<s>}", "s { = <s >; }"),
    ("F { 007 = 7 }", "F { 007 = 7; }"),
    ("F { a/**/b = 1/**/2 }", "F { a b = 1 2; }"),
    ("F/**/{/***/=/*/*/}/* // /* **/", "F { = ; }"),
    ("F { '/**/' = }", "F { '/' '*' '*' '/' = ; }"),
    ("F { /*'*/ = /*\\*/ }", "F { = ; }"),
    ("F { 'a\nb' = }", "F { 'a' '\\n' 'b' = ; }"),
    ("F { '\0\t' = }", "F { '\\0' '\\t' = ; }"),
    ("F { 'é€𐍈' = }", "F { 'é' '€' '𐍈' = ; }"),
    (
        "F { ( ( ) ) = < F < G > ( < H 1 > ) > }",
        "F { (()) = <F <G > (<H 1>)>; }",
    ),
    (
        "F { e.X , <G e.X> : s.A , s.A : (1) = ; = }",
        "F { e.X, <G e.X> : s.A, s.A : (1) = ; = ; }",
    ),
    ("F{=}F{=}$EXTERN F;f{=}", "F { = ; } F { = ; } f { = ; }"),
];

/// A text and the records of its file, section by section.
const RECORDS: [(&str, &str); 4] = [
    ("F { = }", "0 1 1 0 7; 0 0 0 4 5;"),
    ("F { , : = }", "0 1 1 0 11; 0 1 0 4 9; 0 0 6 7;"),
    (
        " $ENTRY Ab{'é1',< G\te.X-> :() = 12;}",
        "8 2 1 8 37; 2 1 1 11 35; 2 1 17 30; 0 233 0 0 12 14, 0 49 0 0 14 15, 7 19 1 1 17 26, 5 23 2 0 21 25, \
         6 0 0 0 28 30, 2 33 2 0 33 35;",
    ),
    (
        "F { s.1 = (t.2) } G { = ; (x) = }",
        "0 1 1 0 17, 18 1 2 18 33; 1 0 2 4 15, 0 0 0 22 23, 2 0 0 26 31; 3 6 1 0 4 7, 6 0 0 1 10 15, 4 13 1 0 11 14, \
         6 0 0 1 26 29, 1 27 1 0 27 28;",
    ),
];

/// Texts outside the grammar.
const OUTSIDE: [&str; 83] = [
    "F",
    "F {",
    "F { }",
    "F { ; }",
    "F { = ; ; }",
    "F { ; = }",
    "F { = ; };",
    "F { = }}",
    "{ = }",
    "F = ;",
    "= ;",
    ";",
    "F { = } G",
    "F G { = }",
    "$ENTRY",
    "$ENTRY $ENTRY F { = }",
    "$ENTRY { = }",
    "$ENTRY $EXTERN F;",
    "$EXTERN ;",
    "$EXTERN",
    "$EXTERN F",
    "$EXTERN F G;",
    "$EXTERN F,;",
    "$EXTERN ,F;",
    "$EXTERN 1;",
    "$EXTRN F;",
    "$extern F;",
    "$entry F { = }",
    "$ ENTRY F { = }",
    "$EXTERN F; ;",
    "F { e.1e.2 = }",
    "F { E.X = }",
    "F { e. X = }",
    "F { e.X.Y = }",
    "F { e . X = }",
    "F { e./**/X = }",
    "F { .X = }",
    "F { ee.X = }",
    "F { <F> = }",
    "F { (<F>) = }",
    "F { , <F> : <F> = }",
    "F { , : (<F>) = }",
    "F { = <> }",
    "F { = <1> }",
    "F { = <'F'> }",
    "F { = <e.X> }",
    "F { = <(F)> }",
    "F { = <F }",
    "F { = F> }",
    "F { = ( }",
    "F { = ) }",
    "F { = (<F)> }",
    "F { = <F(>) }",
    "F { '' = }",
    "F { 'a = }",
    "F { '\\' = }",
    "F { 'a\\'b' = }",
    "F { \"a\" = }",
    "F { [ ] = }",
    "F { e.X : = }",
    "F { , = }",
    "F { , : }",
    "F { = , : }",
    "F { = = }",
    "F { 1 ; }",
    "F { , e.X : { = } = }",
    "F { = } /*",
    "F { = /*/ }",
    "F { = } /* /* */ */",
    "F { = } //",
    "F { = } */",
    "F { = } * c",
    "1 { = }",
    "s.F { = }",
    "-F { = }",
    "_F { = }",
    "F { -1 = }",
    "F { 1.5 = }",
    "\u{feff}F { = }",
    "F { é = }",
    "F\u{b}{ = }",
    "F\u{a0}{ = }",
    "F\0{=}",
];

/// A sentence with brackets in each other.
fn nested(times: usize, inside: &str) -> String {
    format!(
        "F {{ = {}{inside}{} }}",
        "(".repeat(times),
        ")".repeat(times)
    )
}

/// A sentence whose pattern has so many variables.
fn with_variables(count: usize, rest: &str) -> String {
    let all: String = (0..count).map(|number| format!("e.{number} ")).collect();
    format!("F {{ {all}{rest} }}")
}

/// A text where `#` stands for so many of another part.
fn filled(text: &str, times: usize, part: &str) -> String {
    text.replace('#', &part.repeat(times))
}

/// Texts of some length, and their refusals.
fn refused() -> Vec<(String, u32)> {
    let deep = nested(34, "");
    vec![
        (filled("#", 4_097, " "), 4),
        (filled("#", 4_097, "\\"), 4),
        (filled("#", 4_096, "\\"), 16),
        (filled("#", 4_096, "("), 16),
        (filled("F { = # }", 2_000, "("), 16),
        (nested(2_000, "<"), 16),
        (nested(2_000, ""), 1),
        (nested(500, ""), 8),
        (nested(33, "1"), 8),
        (filled("F { '#' = }", 4_000, "a"), 1),
        (filled("F { '#' = }", 700, "a"), 1),
        (filled("F { '#' = }", 513, "a"), 4),
        (filled("F { # = }", 65, "a"), 5),
        (filled("F { e.# = }", 65, "a"), 5),
        (filled("F { = # }", 65, "1"), 5),
        (filled("F { = <#> }", 65, "F"), 5),
        (filled("# { = }", 65, "F"), 5),
        (filled("# { = } ", 65, "F") + &deep, 5),
        (filled("# { = } ", 65, "F") + &"F{=}".repeat(64), 4),
        (
            filled("# { = } ", 65, "F") + &filled("F { '#' = }", 700, "a"),
            1,
        ),
        (with_variables(31, "e.a_b e.a-b ="), 9),
        (with_variables(33, "="), 9),
        (with_variables(33, "=") + &deep, 8),
        (filled("#", 65, "F{=}"), 4),
        (filled("F{=#}", 128, ";="), 4),
        (filled("F{#=}", 129, ",:"), 4),
    ]
}

/// Texts that are only just allowed.
fn allowed() -> Vec<String> {
    vec![
        filled("#", 4_096, " "),
        nested(32, "1"),
        nested(33, ""),
        filled("F { '#' = }", 512, "a"),
        filled("# { e.# = # <#> }", 64, "a"),
        filled("F { = # }", 64, "1"),
        filled("$EXTERN #;", 4_000, "F"),
        with_variables(30, "e.x e.X s.1 ="),
        with_variables(32, ", : e.x ="),
        filled("#", 64, "F{=}"),
        filled("F{=#}", 127, ";="),
        filled("F{#=}", 128, ",:"),
    ]
}

/// What differs from these answers, by the library or by the reader here.
pub fn differences(tried: &mut Tried) -> Vec<String> {
    let mut all = Vec::new();
    let mut compare = |text: &str, expected: &str, found: String| {
        let tried = tried.one(text.as_bytes(), &mut Random::of(0, text.len() as u64));
        let same = match found == expected {
            true => Ok(()),
            false => Err(format!("{found:?} and not {expected:?}")),
        };
        let differs = same.and(tried).err();
        all.extend(differs.map(|reason| format!("corner {text:?}: {reason}")));
    };
    for (text, expected) in READ {
        compare(text, expected, law(text));
    }
    for (text, expected) in RECORDS {
        compare(text, expected, records(text));
    }
    for text in OUTSIDE {
        compare(text, "refused 16", answer(text));
    }
    for (text, number) in refused() {
        compare(&text, &format!("refused {number}"), answer(&text));
    }
    for text in allowed() {
        compare(&text, "read", answer(&text));
    }
    all
}

fn answer(text: &str) -> String {
    match read(text.as_bytes()).answer(usize::MAX) {
        Ok(_) => "read".into(),
        Err(number) => format!("refused {number}"),
    }
}

fn law(text: &str) -> String {
    let Reading::Within(within) = read(text.as_bytes()) else {
        return answer(text);
    };
    let spelled = notation(&program(text, &within.phrase));
    spelled.split_whitespace().collect::<Vec<_>>().join(" ")
}

fn records(text: &str) -> String {
    let Reading::Within(within) = read(text.as_bytes()) else {
        return answer(text);
    };
    let records = &within.records;
    let all = [
        section(&records.functions),
        section(&records.sentences),
        section(&records.conditions),
        section(&records.terms),
    ];
    all.iter()
        .filter(|one| !one.is_empty())
        .cloned()
        .collect::<Vec<_>>()
        .join(" ")
}

fn section<const WORDS: usize>(records: &[[u32; WORDS]]) -> String {
    let words = |record: &[u32; WORDS]| record.map(|word| word.to_string()).join(" ");
    let all: Vec<String> = records.iter().map(words).collect();
    if all.is_empty() {
        String::new()
    } else {
        all.join(", ") + ";"
    }
}
