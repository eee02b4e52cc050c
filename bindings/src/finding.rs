//! A finding, from its eight words.
use crate::{Lint, Severity, FINDING_WORDS};

/// A finding, as its eight words say it. Functions and records count from 0.
#[derive(Clone, Copy, Debug, PartialEq, Eq, Hash)]
pub struct Finding {
    /// What it is about.
    pub lint: Lint,
    /// How grave it is.
    pub severity: Severity,
    /// Where its subject starts, by the law file's span.
    pub span_start: u32,
    /// Where its subject ends.
    pub span_end: u32,
    /// Dead sentence: its number, from 1, within its function or within the block that it stands in. Recognition
    /// impossible: 1 by formats, 2 by literals. Builtin domain: 1 two integers wanted, 2 division by zero, 3 digits wanted.
    /// Open expressions: the number of e. variables.
    pub a: u32,
    /// Dead sentence: the number of the earliest sentence that shadows it, counted as `a` is. Else 0.
    pub b: u32,
    /// The function in whose sentence its subject stands.
    pub function: u32,
    /// The sentence record of a dead sentence or an open expression; else the call's term record.
    pub subject: u32,
}

impl Finding {
    /// The finding of eight words. Unknown numbers are kept: every eight words are a finding.
    pub const fn of_words(words: &[u32; FINDING_WORDS]) -> Finding {
        let [lint, severity, span_start, span_end, a, b, function, subject] = *words;
        Finding {
            lint: Lint::of_number(lint),
            severity: Severity::of_number(severity),
            span_start,
            span_end,
            a,
            b,
            function,
            subject,
        }
    }
}

/// The findings that words hold, eight words each. Fewer than eight at the end are left out; [`findings`](crate::findings)
/// writes none such.
///
/// ```
/// use bilzarko::{decode, Lint};
///
/// let words = [1, 1, 15, 26, 2, 1, 0, 1, 9, 1, 40, 45, 1, 0, 1, 6];
/// let lints: Vec<Lint> = decode(&words).map(|finding| finding.lint).collect();
/// assert_eq!(lints, [Lint::DeadSentence, Lint::Other(9)]);
/// ```
pub fn decode(words: &[u32]) -> impl Iterator<Item = Finding> + '_ {
    words
        .chunks_exact(FINDING_WORDS)
        .filter_map(|eight| Some(Finding::of_words(eight.try_into().ok()?)))
}
