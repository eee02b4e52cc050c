//! Calls of the linked library that read a text: a law file, each refusal, and the lent bytes after them.
use std::thread;

use bilzarko::{law_file, list, read, Mode, Refusal, Settings, LAW_BYTES, LAW_TEXT_BYTES};

/// What a buffer holds before a call.
const OLD: u8 = 0x5a;

/// `F{=}` as a law file: a function of one sentence without terms, with their spans.
fn small() -> Vec<u8> {
    let mut law = 4_u32.to_le_bytes().to_vec();
    law.extend(b"F{=}");
    let words = [1, 0, 1, 1, 0, 4, 1, 0, 0, 0, 2, 3, 0, 0];
    law.extend(words.iter().flat_map(|word: &u32| word.to_le_bytes()));
    law
}

#[test]
fn file_is_written_and_the_rest_kept() {
    let wanted = small();
    for more in [0, 1, 100] {
        let mut law = vec![OLD; wanted.len() + more];
        assert_eq!(read(b"F{=}", &mut law), Ok(wanted.len()));
        assert_eq!(law[..wanted.len()], wanted);
        assert!(law[wanted.len()..].iter().all(|&byte| byte == OLD));
    }
}

#[test]
fn refused_texts_keep_the_buffer() {
    let nest = |deep: usize| format!("F {{ = {}{}; }}", "(".repeat(deep), ")".repeat(deep));
    let variables: Vec<String> = (1..=33).map(|n| format!("e.{n}")).collect();
    let cases = [
        (" ".repeat(LAW_TEXT_BYTES + 1), Refusal::CountOver),
        ("F { }".to_string(), Refusal::Grammar),
        (
            format!("F {{ = '{}'; }}", "a".repeat(700)),
            Refusal::FileOver,
        ),
        (
            format!("F {{ = '{}'; }}", "a".repeat(513)),
            Refusal::CountOver,
        ),
        (format!("{} {{ = }}", "F".repeat(65)), Refusal::Fields),
        (nest(34), Refusal::Depth),
        (
            format!("F {{ {} = }}", variables.join(" ")),
            Refusal::Patterns,
        ),
    ];
    for (text, refusal) in cases {
        let mut law = [OLD; LAW_BYTES];
        assert_eq!(read(text.as_bytes(), &mut law), Err(refusal), "{text}");
        assert!(law.iter().all(|&byte| byte == OLD));
    }
    let mut short = vec![OLD; small().len() - 1];
    assert_eq!(read(b"F{=}", &mut short), Err(Refusal::Law));
    assert!(short.iter().all(|&byte| byte == OLD));
    assert_eq!(read(b"", &mut []), Err(Refusal::Law));
}

#[test]
fn no_text_is_too_deep_for_the_stack() {
    // The file of 512 brackets is looked at whole, that of 2,000 is too long.
    for (brackets, refusal) in [(512, Refusal::Depth), (2_000, Refusal::FileOver)] {
        let deep = "(".repeat(brackets) + &")".repeat(brackets);
        let read_deep = thread::Builder::new()
            .stack_size(bilzarko::STACK_BYTES)
            .spawn(move || law_file(format!("F{{={deep}}}").as_bytes()))
            .unwrap();
        assert_eq!(read_deep.join().unwrap(), Err(refusal));
    }
}

#[test]
fn findings_have_spans_in_the_text() {
    let text = "F { e.X = 'ä'; s.A = <F 1>; /* dead */ }";
    let law = law_file(text.as_bytes()).unwrap();
    let listing = list(&Settings::new(Mode::Classic), &law).unwrap();
    let dead = listing.findings[0].finding;
    let span = dead.span_start as usize..dead.span_end as usize;
    assert_eq!(&text[span], "s.A = <F 1>");
}
