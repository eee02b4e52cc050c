//! That `include/bilzarko.h` and this crate have the same version and the same numbers.
use std::collections::BTreeMap;

use bilzarko::{formats, Digits, Finding, Lint, Mode, Refusal, Severity, Tested};

const HEADER: &str = include_str!("../../include/bilzarko.h");

/// The header's constants that are numbers. The include guard and macros with parameters are none.
fn constants() -> BTreeMap<&'static str, u32> {
    let mut found = BTreeMap::new();
    for line in HEADER.lines() {
        let Some(rest) = line.strip_prefix("#define BILZARKO_") else {
            continue;
        };
        let mut words = rest.split_whitespace();
        let (Some(name), Some(value)) = (words.next(), words.next()) else {
            continue;
        };
        if name.contains('(') {
            continue;
        }
        let digits = value.trim_start_matches("UINT32_C(").trim_end_matches(')');
        let number = digits.parse().unwrap_or_else(|_| panic!("{line}"));
        assert_eq!(found.insert(name, number), None, "{name} stands twice");
    }
    found
}

#[test]
fn numbers_are_the_same() {
    let mut header = constants();
    let mut same = |name: &str, number: u32| {
        assert_eq!(header.remove(name), Some(number), "{name}");
    };
    let version = |part: &str| part.parse().expect("a number");
    same("VERSION_MAJOR", version(env!("CARGO_PKG_VERSION_MAJOR")));
    same("VERSION_MINOR", version(env!("CARGO_PKG_VERSION_MINOR")));
    same("VERSION_PATCH", version(env!("CARGO_PKG_VERSION_PATCH")));

    let sizes = [
        ("LAW_BYTES", bilzarko::LAW_BYTES),
        ("LAW_TEXT_BYTES", bilzarko::LAW_TEXT_BYTES),
        ("OVERRIDES", bilzarko::OVERRIDES),
        ("STORE_WORDS", bilzarko::STORE_WORDS),
        ("FINDING_WORDS", bilzarko::FINDING_WORDS),
        ("TEXT_FINDINGS", bilzarko::TEXT_FINDINGS),
        ("TEXT_BYTES", bilzarko::TEXT_BYTES),
        ("PAGE_BYTES", bilzarko::PAGE_BYTES),
        ("STACK_BYTES", bilzarko::STACK_BYTES),
        ("FORMATS", formats::FORMATS),
        ("FORMAT_WORDS", formats::FORMAT_WORDS),
        ("FORMAT_SHAPES", formats::FORMAT_SHAPES),
    ];
    for (name, size) in sizes {
        same(name, size as u32);
    }

    same("MODE_CLASSIC", Mode::Classic.number());
    same("MODE_STRICT", Mode::Strict.number());

    same("LINT_DEAD_SENTENCE", Lint::DeadSentence.number());
    same(
        "LINT_RECOGNITION_IMPOSSIBLE",
        Lint::RecognitionImpossible.number(),
    );
    same("LINT_BUILTIN_DOMAIN", Lint::BuiltinDomain.number());
    same("LINT_OPEN_EXPRESSIONS", Lint::OpenExpressions.number());

    same("SEVERITY_ERROR", Severity::Error.number());
    same("SEVERITY_DENY", Severity::Deny.number());
    same("SEVERITY_WARN", Severity::Warn.number());
    same("SEVERITY_ALLOW", Severity::Allow.number());

    let places = Finding::of_words(&[0, 1, 2, 3, 4, 5, 6, 7]);
    same("FINDING_LINT", places.lint.number());
    same("FINDING_SEVERITY", places.severity.number());
    same("FINDING_SPAN_START", places.span_start);
    same("FINDING_SPAN_END", places.span_end);
    same("FINDING_A", places.a);
    same("FINDING_B", places.b);
    same("FINDING_FUNCTION", places.function);
    same("FINDING_SUBJECT", places.subject);

    // `findings` takes its answer apart in this order.
    same("ANSWER_FINDINGS", 0);
    same("ANSWER_ROUNDS", 1);
    same("ANSWER_SETTLED", 2);
    same("ANSWER_WORDS", 3);

    same("FORMAT_OPEN", formats::OPEN);
    same("FORMAT_NEVER", formats::NEVER);
    same("SHAPE_CHARACTER", formats::CHARACTER);
    same("SHAPE_NUMBER", formats::NUMBER);
    same("SHAPE_IDENTIFIER", formats::IDENTIFIER);
    same("SHAPE_SYMBOL", formats::SYMBOL);
    same("SHAPE_UNKNOWN", formats::UNKNOWN);
    same("SHAPE_BRACKET", formats::BRACKET);
    same("SHAPE_BRACKET_OPEN", formats::BRACKET_OPEN);

    let refusals = [
        ("REFUSAL_FILE_OVER", Refusal::FileOver),
        ("REFUSAL_CUT_OFF", Refusal::CutOff),
        ("REFUSAL_LEFT_OVER", Refusal::LeftOver),
        ("REFUSAL_COUNT_OVER", Refusal::CountOver),
        ("REFUSAL_FIELDS", Refusal::Fields),
        ("REFUSAL_RUNS", Refusal::Runs),
        ("REFUSAL_BLOCKS", Refusal::Blocks),
        ("REFUSAL_DEPTH", Refusal::Depth),
        ("REFUSAL_PATTERNS", Refusal::Patterns),
        ("REFUSAL_SHAPES", Refusal::Shapes),
        ("REFUSAL_FINDINGS", Refusal::Findings),
        ("REFUSAL_NO_FINDING", Refusal::NoFinding),
        ("REFUSAL_TEXT", Refusal::Text),
        ("REFUSAL_SETTINGS", Refusal::Settings),
        ("REFUSAL_STORE", Refusal::Store),
        ("REFUSAL_GRAMMAR", Refusal::Grammar),
        ("REFUSAL_LAW", Refusal::Law),
        ("REFUSAL_PAGE", Refusal::Page),
    ];
    for (name, refusal) in refusals {
        same(name, refusal.number());
    }
    same("DIGIT_PAST", Tested::Past.number());
    same("DIGIT_AT_MOST", Tested::AtMost.number());
    same("DIGIT_NONE", Tested::NoDigit.number());
    same("DIGIT_START", Digits::new().value().expect("no digits yet"));
    assert!(header.is_empty(), "only in the header: {header:?}");
}
