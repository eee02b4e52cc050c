//! Mode and overrides, for both parties.
use refal_semantics::{Lint, LintLevels, Mode, Severity};

use crate::random::Random;

const ALLOW: u32 = 3;
const OPEN_EXPRESSIONS: u32 = 4;

#[derive(Clone, Debug)]
pub struct Settings {
    pub strict: bool,
    /// Lints, 1 to 4, with severities, 0 to 3. The first of a lint wins.
    pub overrides: Vec<(u32, u32)>,
}

impl Settings {
    /// Strict mode, no overrides.
    pub fn strict() -> Settings {
        Settings {
            strict: true,
            overrides: Vec::new(),
        }
    }

    pub fn random(random: &mut Random) -> Settings {
        let strict = random.chance(80);
        let count = if random.chance(50) {
            0
        } else {
            random.within(1, bilzarko::OVERRIDES)
        };
        let mut overrides: Vec<(u32, u32)> = Vec::new();
        for _ in 0..count {
            // Hidden findings compare nothing, so most overrides show them.
            let severity = if random.chance(20) {
                ALLOW
            } else {
                random.below(3) as u32
            };
            overrides.push((random.within(1, 4) as u32, severity));
        }
        Settings { strict, overrides }
    }

    /// The severity of a lint's findings, where they are shown.
    pub fn severity(&self, lint: u32) -> Option<u32> {
        match self.overrides.iter().find(|(named, _)| *named == lint) {
            Some((_, ALLOW)) => None,
            Some((_, severity)) => Some(*severity),
            None if lint != OPEN_EXPRESSIONS => Some(1),
            None => self.strict.then_some(ALLOW),
        }
    }

    pub fn mode(&self) -> Mode {
        if self.strict {
            Mode::Strict
        } else {
            Mode::Classic
        }
    }

    /// In the Rust a later `set` replaces an earlier one, so they are set from the last to the first.
    pub fn levels(&self) -> LintLevels {
        let mut levels = LintLevels::new();
        for (lint, severity) in self.overrides.iter().rev() {
            let severities = [
                Severity::Error,
                Severity::Deny,
                Severity::Warn,
                Severity::Allow,
            ];
            levels.set(
                Lint::all()[*lint as usize - 1],
                severities[*severity as usize],
            );
        }
        levels
    }

    pub fn ours(&self) -> bilzarko::Settings {
        let mode = if self.strict {
            bilzarko::Mode::Strict
        } else {
            bilzarko::Mode::Classic
        };
        let mut settings = bilzarko::Settings::new(mode);
        for (lint, severity) in &self.overrides {
            let wanted = bilzarko::Override {
                lint: bilzarko::Lint::of_number(*lint),
                severity: bilzarko::Severity::of_number(*severity),
            };
            settings = settings
                .with(wanted)
                .expect("at most eight overrides, of known numbers");
        }
        settings
    }
}

pub fn lint_number(lint: Lint) -> u32 {
    match lint {
        Lint::DeadSentence => 1,
        Lint::RecognitionImpossible => 2,
        Lint::BuiltinDomain => 3,
        Lint::OpenExpressionComplexity => 4,
    }
}

pub fn severity_number(severity: Severity) -> u32 {
    match severity {
        Severity::Error => 0,
        Severity::Deny => 1,
        Severity::Warn => 2,
        Severity::Allow => 3,
    }
}
