//! A call's settings: a mode and overrides.
use crate::{Lint, Mode, Refusal, Severity, OVERRIDES};

/// The severity of a lint's findings, in place of what the lint has by itself.
#[derive(Clone, Copy, Debug, PartialEq, Eq, Hash)]
pub struct Override {
    /// The lint.
    pub lint: Lint,
    /// The severity of its findings.
    pub severity: Severity,
}

impl Override {
    /// The word that stands for it, where both numbers are known to the library.
    const fn word(self) -> Option<u32> {
        match (self.lint.number(), self.severity.number()) {
            (lint @ 1..=4, severity @ 0..=3) => Some(256 * lint + severity),
            _ => None,
        }
    }
}

/// A mode, and up to eight overrides. A call refuses none of these settings.
///
/// ```
/// use bilzarko::{list, Lint, Mode, Override, Settings, Severity};
///
/// let law = std::fs::read("../samples/bearing.law")?;
/// let hidden = Override { lint: Lint::DeadSentence, severity: Severity::Allow };
/// let settings = Settings::new(Mode::Strict).with(hidden)?;
/// let listing = list(&settings, &law)?;
/// assert!(listing.findings.iter().all(|listed| listed.finding.lint != Lint::DeadSentence));
/// # Ok::<(), Box<dyn std::error::Error>>(())
/// ```
#[derive(Clone, Copy, Debug, PartialEq, Eq, Hash)]
pub struct Settings {
    mode: Mode,
    words: [u32; OVERRIDES],
    count: usize,
}

impl Settings {
    /// A mode and no override.
    pub const fn new(mode: Mode) -> Settings {
        Settings {
            mode,
            words: [0; OVERRIDES],
            count: 0,
        }
    }

    /// The same with one more override. The first override of a lint wins. A ninth is [`Refusal::Settings`], and so is one
    /// of a lint or a severity that has no name here.
    pub fn with(mut self, wanted: Override) -> Result<Settings, Refusal> {
        let word = wanted.word().ok_or(Refusal::Settings)?;
        let place = self.words.get_mut(self.count).ok_or(Refusal::Settings)?;
        *place = word;
        self.count += 1;
        Ok(self)
    }

    pub(crate) const fn mode(&self) -> Mode {
        self.mode
    }

    pub(crate) fn overrides(&self) -> &[u32] {
        &self.words[..self.count]
    }
}
