//! Why a call is refused.
use std::fmt;

/// Why a call is refused.
///
/// Where several hold, the first in this order is answered: [`Settings`](Refusal::Settings);
/// [`FileOver`](Refusal::FileOver); of the sections text, functions, sentences, conditions and terms, one after the other,
/// [`CutOff`](Refusal::CutOff) for the count, [`CountOver`](Refusal::CountOver), [`CutOff`](Refusal::CutOff) for the
/// records; [`LeftOver`](Refusal::LeftOver); [`Fields`](Refusal::Fields) to [`Patterns`](Refusal::Patterns) by their
/// numbers; [`Store`](Refusal::Store); [`Shapes`](Refusal::Shapes); [`Findings`](Refusal::Findings); and of a text
/// [`NoFinding`](Refusal::NoFinding), then [`Text`](Refusal::Text), of a page [`Page`](Refusal::Page). Of a law typed as text it is
/// [`CountOver`](Refusal::CountOver) over 4,096 bytes; [`Grammar`](Refusal::Grammar); of its law file
/// [`FileOver`](Refusal::FileOver), [`CountOver`](Refusal::CountOver), [`Fields`](Refusal::Fields), [`Depth`](Refusal::Depth) and
/// [`Patterns`](Refusal::Patterns); and [`Law`](Refusal::Law).
///
/// The buffers keep their values, but for the store: after [`Refusal::Shapes`] its first 8,320 words are 0, and after
/// [`Refusal::Findings`], [`Refusal::NoFinding`], [`Refusal::Text`] and [`Refusal::Page`] they hold the formats of the law.
///
/// ```
/// use bilzarko::{list, Mode, Refusal, Settings};
///
/// let refusal = list(&Settings::new(Mode::Strict), &[]).unwrap_err();
/// assert_eq!(refusal, Refusal::CutOff);
/// assert_eq!(refusal.to_string(), "refusal 2: a section's count or records are cut off");
/// ```
#[derive(Clone, Copy, Debug, PartialEq, Eq, Hash)]
#[non_exhaustive]
pub enum Refusal {
    /// 1: the law has over 16,384 bytes.
    FileOver,
    /// 2: a section's count or records are cut off.
    CutOff,
    /// 3: bytes are left over after the sections.
    LeftOver,
    /// 4: a section's count is over its limit: 4,096 bytes of text, 64 functions, 128 sentences, 128 conditions, 512 terms.
    CountOver,
    /// 5: a field's value is not allowed, or outside the text.
    Fields,
    /// 6: a record holds more records than its run has, or the sentences, the conditions or the terms are not used up
    /// exactly.
    Runs,
    /// 7: a block's first sentence is not later than the one that the block stands in.
    Blocks,
    /// 8: over 32 brackets, calls and blocks are around a term.
    Depth,
    /// 9: a sentence's pattern has over 32 distinct variables.
    Patterns,
    /// 10: over 64 shapes are in the format of a sentence's pattern, of its result in a round, or of an argument compared by
    /// formats.
    Shapes,
    /// 11: the findings do not fit.
    Findings,
    /// 12: there is no finding at this position.
    NoFinding,
    /// 13: the text does not fit.
    Text,
    /// 14: the settings are not allowed. Only [`Settings::with`](crate::Settings::with) answers this: there are no
    /// [`Settings`](crate::Settings) that a call refuses.
    Settings,
    /// 15: the store has under 8,320 words.
    Store,
    /// 16: the text is outside the grammar, or not UTF-8.
    Grammar,
    /// 17: the law file does not fit.
    Law,
    /// 18: the page does not fit.
    Page,
    /// A number that this crate has no name for. The library of this version returns none such.
    Other(u32),
}

impl Refusal {
    /// The refusal's number.
    pub const fn number(self) -> u32 {
        match self {
            Refusal::FileOver => 1,
            Refusal::CutOff => 2,
            Refusal::LeftOver => 3,
            Refusal::CountOver => 4,
            Refusal::Fields => 5,
            Refusal::Runs => 6,
            Refusal::Blocks => 7,
            Refusal::Depth => 8,
            Refusal::Patterns => 9,
            Refusal::Shapes => 10,
            Refusal::Findings => 11,
            Refusal::NoFinding => 12,
            Refusal::Text => 13,
            Refusal::Settings => 14,
            Refusal::Store => 15,
            Refusal::Grammar => 16,
            Refusal::Law => 17,
            Refusal::Page => 18,
            Refusal::Other(number) => number,
        }
    }

    /// The refusal of a number that a call returns: none for 0.
    ///
    /// ```
    /// use bilzarko::Refusal;
    ///
    /// assert_eq!(Refusal::of_number(0), None);
    /// assert_eq!(Refusal::of_number(15), Some(Refusal::Store));
    /// assert_eq!(Refusal::of_number(19), Some(Refusal::Other(19)));
    /// ```
    pub const fn of_number(number: u32) -> Option<Refusal> {
        Some(match number {
            0 => return None,
            1 => Refusal::FileOver,
            2 => Refusal::CutOff,
            3 => Refusal::LeftOver,
            4 => Refusal::CountOver,
            5 => Refusal::Fields,
            6 => Refusal::Runs,
            7 => Refusal::Blocks,
            8 => Refusal::Depth,
            9 => Refusal::Patterns,
            10 => Refusal::Shapes,
            11 => Refusal::Findings,
            12 => Refusal::NoFinding,
            13 => Refusal::Text,
            14 => Refusal::Settings,
            15 => Refusal::Store,
            16 => Refusal::Grammar,
            17 => Refusal::Law,
            18 => Refusal::Page,
            _ => Refusal::Other(number),
        })
    }

    /// What it means, in words.
    const fn meaning(self) -> &'static str {
        match self {
            Refusal::FileOver => "the law has over 16,384 bytes",
            Refusal::CutOff => "a section's count or records are cut off",
            Refusal::LeftOver => "bytes are left over after the sections",
            Refusal::CountOver => "a section's count is over its limit",
            Refusal::Fields => "a field's value is not allowed, or outside the text",
            Refusal::Runs => {
                "a record holds more records than its run has, or a section is not used up exactly"
            }
            Refusal::Blocks => {
                "a block's first sentence is not later than the one that the block stands in"
            }
            Refusal::Depth => "over 32 brackets, calls and blocks are around a term",
            Refusal::Patterns => "a sentence's pattern has over 32 distinct variables",
            Refusal::Shapes => "a format has over 64 shapes",
            Refusal::Findings => "the findings do not fit",
            Refusal::NoFinding => "there is no finding at this position",
            Refusal::Text => "the text does not fit",
            Refusal::Settings => {
                "there are over 8 overrides, or one has an unknown lint or severity"
            }
            Refusal::Store => "the store has under 8,320 words",
            Refusal::Grammar => "the text is outside the grammar",
            Refusal::Law => "the law file does not fit",
            Refusal::Page => "the page does not fit",
            Refusal::Other(_) => "its meaning is not known",
        }
    }
}

impl fmt::Display for Refusal {
    fn fmt(&self, f: &mut fmt::Formatter<'_>) -> fmt::Result {
        write!(f, "refusal {}: {}", self.number(), self.meaning())
    }
}

impl std::error::Error for Refusal {}
