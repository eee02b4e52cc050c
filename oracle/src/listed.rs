//! What a party lists under lints 1 and 2, by records: `Lists` and `OfFunction` of `crates/runs/specs/Claim.antt`.
use std::collections::{HashMap, HashSet};

use refal_ast::{Function, Program, Sentence, Term, TermKind};
use refal_semantics::{Lint, LintLevels, Mode, check_program_with_levels};

use crate::differences::is_literal;
use crate::machine::{State, definition, recognises};
use crate::matching::{SingleTerm, Steps, TooLong, shadows};
use crate::ours::Words;
use crate::refal::functions;

const DEAD: u32 = 1;
const RECOGNITION: u32 = 2;

/// By what a call is listed under the recognition lint. The first is promised of settled formats, the second always.
#[derive(Clone, Copy, Debug, PartialEq)]
pub enum By {
    Formats,
    Literals,
}

/// A listed call finds a sentence whose left side matches, or a listed sentence is chosen.
#[derive(Clone, Copy, Debug, PartialEq)]
pub enum Broken {
    Recognised(usize, By),
    Chosen(usize),
}

impl Broken {
    pub fn told(self) -> String {
        match self {
            Broken::Recognised(record, by) => {
                format!("the call of term record {record}, listed by {by:?}, is recognised")
            }
            Broken::Chosen(record) => {
                format!("the sentence of record {record}, listed as dead, is chosen")
            }
        }
    }
}

#[derive(Default)]
pub struct Listed {
    /// By term record.
    pub calls: HashMap<usize, By>,
    /// Records of functions' sentences.
    pub sentences: HashSet<usize>,
    /// Of blocks' sentences nothing is promised.
    pub in_blocks: HashSet<usize>,
}

impl Listed {
    /// By the words of findings.
    pub fn by_words(found: &[Words], law: &Program) -> Listed {
        let mut listed = Listed::default();
        for words in found {
            let [lint, .., subject] = *words;
            listed.add(lint, words[4] == 1, subject as usize);
        }
        listed.of_functions(law)
    }

    /// What the Rust lists. The law's spans start with records, its numbers have no needless zeros.
    pub fn by_rust(law: &Program) -> Listed {
        let mut listed = Listed::default();
        for one in check_program_with_levels(law, Mode::Strict, &LintLevels::new()) {
            let lint = match one.lint {
                Some(Lint::DeadSentence) => DEAD,
                Some(Lint::RecognitionImpossible) => RECOGNITION,
                _ => continue,
            };
            listed.add(lint, one.message.contains("` accepts "), one.span.start);
        }
        listed.of_functions(law)
    }

    /// A slip that document 01 names: literal arguments are matched without going back into brackets. The law is folded,
    /// its numbers have no needless zeros.
    pub fn by_slip(law: &Program, steps: &mut Steps) -> Result<Listed, TooLong> {
        let all: Vec<&Function> = functions(law).collect();
        let mut calls = Vec::new();
        for function in &all {
            calls_in(&function.sentences, &mut calls);
        }
        let mut listed = Listed::default();
        for (record, name, args) in calls {
            let Some(sentences) = definition(&all, name).filter(|_| is_literal(args)) else {
                continue;
            };
            let mut matched = false;
            for sentence in sentences {
                matched |= shadows(&sentence.pattern, args, SingleTerm::Never, steps)?;
            }
            if !matched {
                listed.calls.insert(record, By::Literals);
            }
        }
        Ok(listed)
    }

    fn add(&mut self, lint: u32, by_formats: bool, record: usize) {
        let by = if by_formats {
            By::Formats
        } else {
            By::Literals
        };
        match lint {
            DEAD => {
                self.sentences.insert(record);
            }
            RECOGNITION => {
                self.calls.insert(record, by);
            }
            _ => {}
        }
    }

    fn of_functions(mut self, law: &Program) -> Listed {
        let own: HashSet<usize> = functions(law)
            .flat_map(|function| &function.sentences)
            .map(|sentence| sentence.span.start)
            .collect();
        let listed = std::mem::take(&mut self.sentences);
        (self.sentences, self.in_blocks) =
            listed.into_iter().partition(|record| own.contains(record));
        self
    }

    pub fn told(&self) -> String {
        let mut sentences: Vec<_> = self.sentences.iter().collect();
        let mut calls: Vec<_> = self.calls.keys().collect();
        sentences.sort();
        calls.sort();
        format!("sentences {sentences:?}, calls {calls:?}")
    }

    /// Whether the claim is broken in a state, its premises aside: `NeverRecognised` and `NeverChosen`.
    pub fn broken<'l>(
        &self,
        law: &[&'l Function],
        state: &State<'l>,
        steps: &mut Steps,
    ) -> Result<Option<Broken>, TooLong> {
        match state {
            State::Called(record, name, argument) => {
                let (Some(by), Some(sentences)) = (self.calls.get(record), definition(law, name))
                else {
                    return Ok(None);
                };
                let recognised = recognises(sentences, argument, steps)?;
                Ok(recognised.then_some(Broken::Recognised(*record, *by)))
            }
            State::Chosen(record, ..) if self.sentences.contains(record) => {
                Ok(Some(Broken::Chosen(*record)))
            }
            _ => Ok(None),
        }
    }

    /// Whether a sentence is listed or holds a listed call.
    pub fn concerns(&self, sentence: &Sentence) -> bool {
        self.sentences.contains(&sentence.span.start) || self.has_call(sentence)
    }

    fn has_call(&self, sentence: &Sentence) -> bool {
        let mut calls = Vec::new();
        calls_in(std::slice::from_ref(sentence), &mut calls);
        calls
            .iter()
            .any(|(record, ..)| self.calls.contains_key(record))
    }
}

/// A call: its record, its name, its argument.
type Call<'l> = (usize, &'l str, &'l [Term]);

/// The calls that a run may reach: those of results and of conditions' results, blocks' too.
fn calls_in<'l>(sentences: &'l [Sentence], calls: &mut Vec<Call<'l>>) {
    for sentence in sentences {
        for condition in &sentence.conditions {
            calls_among(&condition.result, calls);
        }
        calls_among(&sentence.result, calls);
    }
}

fn calls_among<'l>(terms: &'l [Term], calls: &mut Vec<Call<'l>>) {
    for term in terms {
        match &term.kind {
            TermKind::Symbol(_) | TermKind::Variable(_) => {}
            TermKind::Bracket(inside) => calls_among(inside, calls),
            TermKind::Call { name, args } => {
                calls.push((term.span.start, name, args));
                calls_among(args, calls);
            }
            TermKind::Block {
                argument,
                sentences,
            } => {
                calls_among(argument, calls);
                calls_in(sentences, calls);
            }
        }
    }
}
