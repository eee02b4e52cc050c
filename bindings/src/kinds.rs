//! Modes, lints and severities, which are numbers of a call's words.
use std::fmt;

/// Whether findings of severity allow are shown.
#[derive(Clone, Copy, Debug, PartialEq, Eq, Hash)]
#[non_exhaustive]
#[repr(u32)]
pub enum Mode {
    /// They are hidden.
    Classic = 0,
    /// They are shown.
    Strict = 1,
}

impl Mode {
    /// The mode's number.
    pub const fn number(self) -> u32 {
        self as u32
    }
}

/// What a finding is about.
#[derive(Clone, Copy, Debug, PartialEq, Eq, Hash)]
#[non_exhaustive]
pub enum Lint {
    /// 1: a sentence that an earlier one without conditions shadows.
    DeadSentence,
    /// 2: a call that no sentence of its function matches.
    RecognitionImpossible,
    /// 3: a call of a builtin function that always fails.
    BuiltinDomain,
    /// 4: a pattern with several e. variables.
    OpenExpressions,
    /// A number that this crate has no name for. The library of this version writes none such.
    Other(u32),
}

impl Lint {
    /// The lint's number.
    pub const fn number(self) -> u32 {
        match self {
            Lint::DeadSentence => 1,
            Lint::RecognitionImpossible => 2,
            Lint::BuiltinDomain => 3,
            Lint::OpenExpressions => 4,
            Lint::Other(number) => number,
        }
    }

    /// The lint of a number.
    ///
    /// ```
    /// use bilzarko::Lint;
    ///
    /// assert_eq!(Lint::of_number(1), Lint::DeadSentence);
    /// assert_eq!(Lint::of_number(9), Lint::Other(9));
    /// ```
    pub const fn of_number(number: u32) -> Lint {
        match number {
            1 => Lint::DeadSentence,
            2 => Lint::RecognitionImpossible,
            3 => Lint::BuiltinDomain,
            4 => Lint::OpenExpressions,
            _ => Lint::Other(number),
        }
    }
}

impl fmt::Display for Lint {
    fn fmt(&self, f: &mut fmt::Formatter<'_>) -> fmt::Result {
        f.write_str(match self {
            Lint::DeadSentence => "dead sentence",
            Lint::RecognitionImpossible => "recognition impossible",
            Lint::BuiltinDomain => "builtin domain",
            Lint::OpenExpressions => "open expressions",
            Lint::Other(number) => return write!(f, "lint {number}"),
        })
    }
}

/// How grave a finding is.
#[derive(Clone, Copy, Debug, PartialEq, Eq, Hash)]
#[non_exhaustive]
pub enum Severity {
    /// 0: graver than all others.
    Error,
    /// 1: what a lint has by itself, open expressions left out.
    Deny,
    /// 2: less grave.
    Warn,
    /// 3: what open expressions have by themselves. As an override it hides the lint's findings in both modes.
    Allow,
    /// A number that this crate has no name for. The library of this version writes none such.
    Other(u32),
}

impl Severity {
    /// The severity's number.
    pub const fn number(self) -> u32 {
        match self {
            Severity::Error => 0,
            Severity::Deny => 1,
            Severity::Warn => 2,
            Severity::Allow => 3,
            Severity::Other(number) => number,
        }
    }

    /// The severity of a number.
    ///
    /// ```
    /// use bilzarko::Severity;
    ///
    /// assert_eq!(Severity::of_number(2), Severity::Warn);
    /// assert_eq!(Severity::of_number(4), Severity::Other(4));
    /// ```
    pub const fn of_number(number: u32) -> Severity {
        match number {
            0 => Severity::Error,
            1 => Severity::Deny,
            2 => Severity::Warn,
            3 => Severity::Allow,
            _ => Severity::Other(number),
        }
    }
}

impl fmt::Display for Severity {
    fn fmt(&self, f: &mut fmt::Formatter<'_>) -> fmt::Result {
        f.write_str(match self {
            Severity::Error => "error",
            Severity::Deny => "deny",
            Severity::Warn => "warn",
            Severity::Allow => "allow",
            Severity::Other(number) => return write!(f, "severity {number}"),
        })
    }
}
