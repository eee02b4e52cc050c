//! Calls of the linked library: document 01's example, and a refusal of each part of its table.
mod laws;

use std::error::Error;

use bilzarko::{
    decode, findings, list, page, text, Count, Finding, Lint, Listed, Listing, Mode, Override,
    Refusal, Settings, Severity, PAGE_BYTES, STORE_WORDS, TEXT_FINDINGS,
};
use laws::section;

/// What a buffer holds before a call.
const OLD: u32 = 0x5a5a_5a5a;
const STRICT: Settings = Settings::new(Mode::Strict);

/// `F { e.X = 'a'; s.A = <F 1>; } H { 'q' = <H 2>; }`, with two of its spans.
fn example() -> Vec<u8> {
    let spelled = b"FXA1H2";
    let mut law = (spelled.len() as u32).to_le_bytes().to_vec();
    law.extend(spelled);
    section(&mut law, &[[0, 1, 2, 0, 0], [4, 1, 1, 0, 0]]);
    section(
        &mut law,
        &[[1, 0, 1, 0, 0], [1, 0, 2, 15, 26], [1, 0, 2, 0, 0]],
    );
    section::<4>(&mut law, &[]);
    let character = |a: char| [0, a as u32, 0, 0, 0, 0];
    section(
        &mut law,
        &[
            [5, 1, 1, 0, 0, 0],
            character('a'),
            [3, 2, 1, 0, 0, 0],
            [7, 0, 1, 1, 0, 0],
            [2, 3, 1, 0, 0, 0],
            character('q'),
            [7, 4, 1, 1, 40, 45],
            [2, 5, 1, 0, 0, 0],
        ],
    );
    law
}

#[test]
fn example_is_listed() {
    let mut store = [OLD; STORE_WORDS + 1];
    let mut words = [OLD; 17];
    let listed = findings(&STRICT, &example(), &mut store, &mut words);
    assert_eq!(
        listed,
        Ok(Count {
            findings: 2,
            rounds: 2,
            settled: true
        })
    );
    assert_eq!(
        words,
        [1, 1, 15, 26, 2, 1, 0, 1, 2, 1, 40, 45, 1, 0, 1, 6, OLD]
    );
    assert_eq!(store[STORE_WORDS], OLD);
    assert!(store[..STORE_WORDS].iter().all(|word| *word != OLD));
    let lints: Vec<Lint> = decode(&words[..16]).map(|finding| finding.lint).collect();
    assert_eq!(lints, [Lint::DeadSentence, Lint::RecognitionImpossible]);
}

const TEXTS: [&str; 2] = [
    "sentence 2 of `F` is unreachable: sentence 1 has no conditions and already matches every argument this one matches",
    "`<H ...>` always fails: `H` accepts [C], but this call passes [N]",
];

#[test]
fn texts_are_written() {
    let mut store = [OLD; STORE_WORDS];
    for (position, wanted) in TEXTS.iter().enumerate() {
        let mut bytes = vec![b'?'; wanted.len() + 1];
        assert_eq!(
            text(&STRICT, &example(), &mut store, position, &mut bytes),
            Ok(wanted.len())
        );
        assert_eq!(std::str::from_utf8(&bytes).unwrap(), format!("{wanted}?"));
        let mut short = vec![b'?'; wanted.len() - 1];
        assert_eq!(
            text(&STRICT, &example(), &mut store, position, &mut short),
            Err(Refusal::Text)
        );
        assert!(short.iter().all(|byte| *byte == b'?'));
    }
    let mut bytes = [b'?'; 1];
    assert_eq!(
        text(&STRICT, &example(), &mut store, 2, &mut bytes),
        Err(Refusal::NoFinding)
    );
    assert_eq!(
        text(&STRICT, &example(), &mut store, usize::MAX, &mut bytes),
        Err(Refusal::NoFinding)
    );
    assert_eq!(bytes, [b'?']);
}

/// A line of a page: 72 columns and a line feed.
const LINE: usize = 73;

/// The heading of a page in a law with two functions.
fn heading(number: usize) -> String {
    format!("2{number:71}\n")
}

/// The page of a law in a buffer of [`PAGE_BYTES`], whose other bytes must be kept.
fn printed(settings: &Settings, law: &[u8]) -> Result<String, Refusal> {
    let mut bytes = vec![b'?'; PAGE_BYTES];
    let length = page(settings, law, &mut [OLD; STORE_WORDS], &mut bytes)?;
    let rest = bytes.split_off(length);
    assert!(rest.iter().all(|byte| *byte == b'?'));
    Ok(String::from_utf8(bytes).unwrap())
}

#[test]
fn page_is_written() {
    let wanted = [
        "2                                                                      1\n",
        "F                        dead     deny          15         26          2\n",
        "H                        no match deny          40         45          1\n",
    ]
    .concat();
    let mut filled = [OLD; STORE_WORDS];
    findings(&STRICT, &example(), &mut filled, &mut [OLD; 16]).unwrap();
    for room in [0, 1, LINE, wanted.len() - 1] {
        let mut store = [OLD; STORE_WORDS + 1];
        let mut short = vec![b'?'; room];
        assert_eq!(
            page(&STRICT, &example(), &mut store, &mut short),
            Err(Refusal::Page)
        );
        assert!(short.iter().all(|byte| *byte == b'?'));
        assert_eq!(store[..STORE_WORDS], filled);
        assert_eq!(store[STORE_WORDS], OLD);
    }
    for more in ["", "?", "?????"] {
        let mut store = [OLD; STORE_WORDS + 1];
        let mut bytes = vec![b'?'; wanted.len() + more.len()];
        assert_eq!(
            page(&STRICT, &example(), &mut store, &mut bytes),
            Ok(wanted.len())
        );
        assert_eq!(String::from_utf8(bytes).unwrap(), format!("{wanted}{more}"));
        assert_eq!(store[..STORE_WORDS], filled);
        assert_eq!(store[STORE_WORDS], OLD);
    }
}

/// The settings decide which lines there are, and the severity's word.
#[test]
fn page_has_the_settings() {
    let of = |lint, severity| Override { lint, severity };
    let settings = STRICT
        .with(of(Lint::DeadSentence, Severity::Error))
        .and_then(|some| some.with(of(Lint::RecognitionImpossible, Severity::Allow)))
        .unwrap();
    let dead = "F                        dead     error         15         26          2\n";
    assert_eq!(
        printed(&settings, &example()),
        Ok(format!("{}{dead}", heading(1)))
    );
}

/// A page has 59 findings; a page that is full is followed by no heading without a line under it.
#[test]
fn pages_have_sixty_lines() {
    let line = "G                        no match deny           0          0          1\n";
    for (findings, lines) in [
        (0, 1),
        (1, 2),
        (58, 59),
        (59, 60),
        (60, 62),
        (118, 120),
        (119, 122),
        (TEXT_FINDINGS, 261),
    ] {
        let mut wanted = if findings == 0 {
            heading(1)
        } else {
            String::new()
        };
        for finding in 0..findings {
            if finding % 59 == 0 {
                wanted += &heading(finding / 59 + 1);
            }
            wanted += line;
        }
        assert_eq!(wanted.len(), lines * LINE);
        assert_eq!(printed(&STRICT, &many(findings)), Ok(wanted));
    }
    let longest = many(TEXT_FINDINGS);
    let mut store = [OLD; STORE_WORDS];
    assert_eq!(
        page(&STRICT, &longest, &mut store, &mut [b'?'; PAGE_BYTES - 1]),
        Err(Refusal::Page)
    );
}

/// Names of 23, 24 and 25 bytes, with a sentence each that has two e. variables and the greatest span.
#[test]
fn names_are_cut_to_their_columns() {
    let spelled = b"ABCDEFGHIJKLMNOPQRSTUVWXYZ";
    let mut law = (spelled.len() as u32).to_le_bytes().to_vec();
    law.extend(spelled);
    section(
        &mut law,
        &[[0, 23, 1, 0, 0], [0, 24, 1, 0, 0], [0, 25, 1, 0, 0]],
    );
    section(&mut law, &[[2, 0, 0, u32::MAX, u32::MAX]; 3]);
    section::<4>(&mut law, &[]);
    let pair = [[5, 0, 1, 0, 0, 0], [5, 1, 1, 0, 0, 0]];
    section(&mut law, &[pair, pair, pair].concat());
    let fields = "open     allow 4294967295 4294967295          2\n";
    let wanted = [
        "3                                                                      1\n",
        &format!("ABCDEFGHIJKLMNOPQRSTUVW  {fields}"),
        &format!("ABCDEFGHIJKLMNOPQRSTUVWX {fields}"),
        &format!("ABCDEFGHIJKLMNOPQRSTUVW+ {fields}"),
    ];
    assert_eq!(printed(&STRICT, &law), Ok(wanted.concat()));
}

#[test]
fn refused_files_leave_the_buffers() {
    let mut store = [OLD; STORE_WORDS];
    let mut words = [OLD; 16];
    let mut left_over = example();
    left_over.push(0);
    let mut kind_9 = example();
    let last = kind_9.len() - 24;
    kind_9[last] = 9;
    let cases: [(&[u8], Refusal); 6] = [
        (&[], Refusal::CutOff),
        (&[0xff; 4], Refusal::CountOver),
        (&example()[..100], Refusal::CutOff),
        (&left_over, Refusal::LeftOver),
        (&kind_9, Refusal::Fields),
        (&[0; 16_385], Refusal::FileOver),
    ];
    for (law, wanted) in cases {
        assert_eq!(findings(&STRICT, law, &mut store, &mut words), Err(wanted));
        assert_eq!(text(&STRICT, law, &mut store, 0, &mut []), Err(wanted));
        assert_eq!(page(&STRICT, law, &mut store, &mut []), Err(wanted));
    }
    assert!(store.iter().chain(&words).all(|word| *word == OLD));
}

#[test]
fn buffers_may_be_short_or_empty() {
    let mut short = [OLD; STORE_WORDS - 1];
    let mut words = [OLD; 15];
    assert_eq!(
        findings(&STRICT, &example(), &mut short, &mut words),
        Err(Refusal::Store)
    );
    assert!(short.iter().all(|word| *word == OLD));
    assert_eq!(
        findings(&STRICT, &example(), &mut [], &mut []),
        Err(Refusal::Store)
    );
    assert_eq!(
        text(&STRICT, &example(), &mut [], 0, &mut []),
        Err(Refusal::Store)
    );
    assert_eq!(
        page(&STRICT, &example(), &mut short, &mut []),
        Err(Refusal::Store)
    );
    assert!(short.iter().all(|word| *word == OLD));

    let mut store = [OLD; STORE_WORDS];
    assert_eq!(
        findings(&STRICT, &example(), &mut store, &mut words),
        Err(Refusal::Findings)
    );
    assert!(store.iter().all(|word| *word != OLD));
    assert_eq!(words, [OLD; 15]);
    assert_eq!(
        findings(&STRICT, &example(), &mut store, &mut []),
        Err(Refusal::Findings)
    );
    assert_eq!(
        text(&STRICT, &example(), &mut store, 0, &mut []),
        Err(Refusal::Text)
    );
    assert_eq!(
        page(&STRICT, &example(), &mut store, &mut []),
        Err(Refusal::Page)
    );
}

/// `F { 'a' .. 'a' = ; }` with so many characters.
fn wide(characters: usize) -> Vec<u8> {
    let mut law = 1u32.to_le_bytes().to_vec();
    law.push(b'F');
    section(&mut law, &[[0, 1, 1, 0, 0]]);
    section(&mut law, &[[characters as u32, 0, 0, 0, 0]]);
    section::<4>(&mut law, &[]);
    section(&mut law, &vec![[0, 'a' as u32, 0, 0, 0, 0]; characters]);
    law
}

/// Where several refusals hold, the first in the order of [`Refusal`]'s documentation is answered. That settings come before
/// all others is tried in header.c, since no [`Settings`] are refused.
#[test]
fn first_refusal_is_answered() {
    let mut left_over_and_fields = example();
    let last = left_over_and_fields.len() - 24;
    left_over_and_fields[last] = 9;
    let fields = left_over_and_fields.clone();
    left_over_and_fields.push(0);
    let mut over_and_cut_off = vec![0; 4];
    over_and_cut_off.extend(65u32.to_le_bytes());
    let with_no_buffers: [(&[u8], Refusal); 7] = [
        (&[0xff; 16_385], Refusal::FileOver),
        (&[1, 0, 0, 0], Refusal::CutOff),
        (&over_and_cut_off, Refusal::CountOver),
        (&left_over_and_fields, Refusal::LeftOver),
        (&fields, Refusal::Fields),
        (&wide(65), Refusal::Store),
        (&example(), Refusal::Store),
    ];
    for (law, wanted) in with_no_buffers {
        assert_eq!(findings(&STRICT, law, &mut [], &mut []), Err(wanted));
        assert_eq!(text(&STRICT, law, &mut [], 9, &mut []), Err(wanted));
        assert_eq!(page(&STRICT, law, &mut [], &mut []), Err(wanted));
    }

    // A law with too many shapes and with findings that do not fit.
    let mut store = [OLD; STORE_WORDS];
    let wide_and_open = {
        let mut law = 2u32.to_le_bytes().to_vec();
        law.extend(b"FX");
        section(&mut law, &[[0, 1, 2, 0, 0]]);
        section(&mut law, &[[2, 0, 0, 0, 0], [65, 0, 0, 0, 0]]);
        section::<4>(&mut law, &[]);
        let mut terms = vec![[5, 1, 1, 0, 0, 0]; 2];
        terms.resize(67, [0, 'a' as u32, 0, 0, 0, 0]);
        section(&mut law, &terms);
        law
    };
    assert_eq!(
        findings(&STRICT, &wide_and_open, &mut store, &mut []),
        Err(Refusal::Shapes)
    );
    assert!(store.iter().all(|word| *word == 0));
    assert_eq!(
        text(&STRICT, &wide_and_open, &mut store, 9, &mut []),
        Err(Refusal::Shapes)
    );
    store.fill(OLD);
    assert_eq!(
        page(&STRICT, &wide_and_open, &mut store, &mut []),
        Err(Refusal::Shapes)
    );
    assert!(store.iter().all(|word| *word == 0));
    assert_eq!(
        findings(&STRICT, &wide(64), &mut store, &mut []).map(|count| count.findings),
        Ok(0)
    );

    let more = many(TEXT_FINDINGS + 1);
    assert_eq!(
        text(&STRICT, &more, &mut store, usize::MAX, &mut []),
        Err(Refusal::Findings)
    );
    assert_eq!(
        page(&STRICT, &more, &mut store, &mut []),
        Err(Refusal::Findings)
    );
    assert_eq!(
        text(&STRICT, &example(), &mut store, 2, &mut []),
        Err(Refusal::NoFinding)
    );
}

#[test]
fn overrides_count() {
    let mut store = [0; STORE_WORDS];
    let mut words = [0; 16];
    let hidden = Override {
        lint: Lint::DeadSentence,
        severity: Severity::Allow,
    };
    let warned = Override {
        lint: Lint::RecognitionImpossible,
        severity: Severity::Warn,
    };
    let settings = STRICT.with(hidden).and_then(|s| s.with(warned)).unwrap();
    let listed = findings(&settings, &example(), &mut store, &mut words).unwrap();
    assert_eq!(listed.findings, 1);
    let only = decode(&words[..8]).next().unwrap();
    assert_eq!(
        (only.lint, only.severity, only.subject),
        (Lint::RecognitionImpossible, Severity::Warn, 6)
    );

    let eight = (0..8)
        .try_fold(STRICT, |settings, _| settings.with(warned))
        .unwrap();
    assert_eq!(
        findings(&eight, &example(), &mut store, &mut words).map(|count| count.findings),
        Ok(2)
    );
    assert_eq!(eight.with(warned), Err(Refusal::Settings));
}

#[test]
fn findings_are_listed_with_their_texts() {
    let dead = Finding {
        lint: Lint::DeadSentence,
        severity: Severity::Deny,
        span_start: 15,
        span_end: 26,
        a: 2,
        b: 1,
        function: 0,
        subject: 1,
    };
    let never_matches = Finding {
        lint: Lint::RecognitionImpossible,
        severity: Severity::Deny,
        span_start: 40,
        span_end: 45,
        a: 1,
        b: 0,
        function: 1,
        subject: 6,
    };
    let listed = |finding, text: &str| Listed {
        finding,
        text: text.into(),
    };
    assert_eq!(
        list(&STRICT, &example()),
        Ok(Listing {
            findings: vec![listed(dead, TEXTS[0]), listed(never_matches, TEXTS[1])],
            rounds: 2,
            settled: true
        })
    );
    assert_eq!(list(&STRICT, &[0; 16_385]), Err(Refusal::FileOver));
}

/// `F { 'a' = ; } G { = <F> .. <F>; }` with so many calls, each of which is a finding.
fn many(calls: usize) -> Vec<u8> {
    let mut law = 2u32.to_le_bytes().to_vec();
    law.extend(b"FG");
    section(&mut law, &[[0, 1, 1, 0, 0], [1, 1, 1, 0, 0]]);
    section(&mut law, &[[1, 0, 0, 0, 0], [0, 0, calls as u32, 0, 0]]);
    section::<4>(&mut law, &[]);
    let mut terms = vec![[0, 'a' as u32, 0, 0, 0, 0]];
    terms.resize(1 + calls, [7, 0, 1, 0, 0, 0]);
    section(&mut law, &terms);
    law
}

#[test]
fn list_has_places_for_256_findings() {
    let listing = list(&STRICT, &many(TEXT_FINDINGS)).unwrap();
    assert_eq!(listing.findings.len(), TEXT_FINDINGS);
    let more = many(TEXT_FINDINGS + 1);
    assert_eq!(list(&STRICT, &more), Err(Refusal::Findings));
    let mut words = [OLD; 8 * (TEXT_FINDINGS + 1)];
    let counted = findings(&STRICT, &more, &mut [OLD; STORE_WORDS], &mut words);
    assert_eq!(counted.map(|count| count.findings), Ok(TEXT_FINDINGS + 1));
}

#[test]
fn unknown_numbers_are_kept() {
    let words = [9, 7, 0, 0, 0, 0, 0, 0, 1, 1, 0, 0, 2, 1, 0, 1, OLD];
    let found: Vec<Finding> = decode(&words).collect();
    let kinds: Vec<(Lint, Severity)> = found.iter().map(|one| (one.lint, one.severity)).collect();
    assert_eq!(
        kinds,
        [
            (Lint::Other(9), Severity::Other(7)),
            (Lint::DeadSentence, Severity::Deny)
        ]
    );
    assert_eq!(kinds[0].0.to_string(), "lint 9");
    assert_eq!(kinds[0].1.to_string(), "severity 7");

    // None of these numbers may reach the library, or overflow on the way to a word.
    for number in [0, 5, 256, 1 << 24, u32::MAX] {
        let (lint, severity) = (Lint::of_number(number), Severity::of_number(number));
        let of_lint = Override {
            lint,
            severity: Severity::Warn,
        };
        assert_eq!(STRICT.with(of_lint), Err(Refusal::Settings), "{lint}");
        let of_severity = Override {
            lint: Lint::DeadSentence,
            severity,
        };
        let allowed = number == 0;
        assert_eq!(STRICT.with(of_severity).is_ok(), allowed, "{severity}");
    }
}

#[test]
fn numbers_go_back_and_forth() {
    assert_eq!(Refusal::of_number(0), None);
    for number in (1..=40).chain([u32::MAX]) {
        let refusal = Refusal::of_number(number).unwrap();
        assert_eq!(refusal.number(), number);
        let unknown = matches!(refusal, Refusal::Other(_));
        assert_eq!(unknown, number > 18);
    }
    for number in (0..=40).chain([u32::MAX]) {
        assert_eq!(Lint::of_number(number).number(), number);
        assert_eq!(Severity::of_number(number).number(), number);
    }
}

#[test]
fn refusals_say_their_meaning() {
    let said: Vec<String> = (1..=19)
        .filter_map(Refusal::of_number)
        .map(|refusal| (Box::new(refusal) as Box<dyn Error>).to_string())
        .collect();
    for (position, one) in said.iter().enumerate() {
        assert!(one.starts_with(&format!("refusal {}: ", position + 1)));
        assert!(!said[..position].contains(one));
    }
    assert_eq!(said[12], "refusal 13: the text does not fit");
    assert_eq!(said[15], "refusal 16: the text is outside the grammar");
    assert_eq!(said[17], "refusal 18: the page does not fit");
    assert_eq!(said[18], "refusal 19: its meaning is not known");
}
