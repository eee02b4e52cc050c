//! The refusals of document 01's table that the law file of a text can meet, each asked of the phrase and its records.
use std::collections::HashSet;

use crate::read_file::{Records, functions, index};
use crate::read_phrase::{Item, Sentence, Term, TermKind};

/// What document 01 allows at most.
const BYTES: usize = 16_384;
const FUNCTIONS: usize = 64;
const SENTENCES: usize = 128;
const CONDITIONS: usize = 128;
const TERMS: usize = 512;
const NAME: u32 = 64;
const AROUND: usize = 32;
const VARIABLES: usize = 32;

/// The first refusal of a file, in the table's order. The others ask for a file that was not written from a phrase.
pub fn refusal(text: &str, phrase: &[Item], records: &Records, bytes: usize) -> Option<u32> {
    let counts = records.functions.len() > FUNCTIONS
        || records.sentences.len() > SENTENCES
        || records.conditions.len() > CONDITIONS
        || records.terms.len() > TERMS;
    let names = records.functions.iter().any(|record| record[1] > NAME)
        || records.terms.iter().any(|record| record[2] > NAME);
    match () {
        () if bytes > BYTES => Some(1),
        () if counts => Some(4),
        () if names => Some(5),
        () if most_around(phrase) > AROUND => Some(8),
        () if most_variables(text, phrase) > VARIABLES => Some(9),
        () => None,
    }
}

fn sentences(phrase: &[Item]) -> impl Iterator<Item = &Sentence> {
    functions(phrase).flat_map(|function| &function.sentences)
}

/// The most brackets and calls around a term.
pub fn most_around(phrase: &[Item]) -> usize {
    sentences(phrase)
        .flat_map(runs)
        .map(|run| around(run, 0))
        .max()
        .unwrap_or(0)
}

fn runs(sentence: &Sentence) -> Vec<&[Term]> {
    let mut all: Vec<&[Term]> = vec![&sentence.pattern, &sentence.result];
    for condition in &sentence.conditions {
        all.extend([condition.result.as_slice(), &condition.pattern]);
    }
    all
}

fn around(terms: &[Term], outside: usize) -> usize {
    terms
        .iter()
        .map(|term| around(inside(term), outside + 1).max(outside))
        .max()
        .unwrap_or(0)
}

fn inside(term: &Term) -> &[Term] {
    match &term.kind {
        TermKind::Bracket(inside) => inside,
        TermKind::Call { argument, .. } => argument,
        _ => &[],
    }
}

/// The most brackets and calls in each other, the innermost of which may have nothing inside.
pub fn most_nested(phrase: &[Item]) -> usize {
    let runs = sentences(phrase).flat_map(runs);
    runs.map(nested).max().unwrap_or(0)
}

fn nested(terms: &[Term]) -> usize {
    let holds = |term: &&Term| matches!(term.kind, TermKind::Bracket(_) | TermKind::Call { .. });
    let inner = terms
        .iter()
        .filter(holds)
        .map(|term| 1 + nested(inside(term)));
    inner.max().unwrap_or(0)
}

/// The most distinct variables in a sentence's pattern.
pub fn most_variables(text: &str, phrase: &[Item]) -> usize {
    let patterns = sentences(phrase).map(|sentence| &sentence.pattern);
    patterns.map(|one| variables(text, one)).max().unwrap_or(0)
}

/// The most in the pattern of a condition, which no refusal asks for.
pub fn most_in_conditions(text: &str, phrase: &[Item]) -> usize {
    let conditions = sentences(phrase).flat_map(|sentence| &sentence.conditions);
    let patterns = conditions.map(|condition| &condition.pattern);
    patterns.map(|one| variables(text, one)).max().unwrap_or(0)
}

fn variables(text: &str, pattern: &[Term]) -> usize {
    let mut met = HashSet::new();
    gather(text, pattern, &mut met);
    met.len()
}

/// Two variables are the same where their letters and their indices in upper case are.
fn gather(text: &str, terms: &[Term], met: &mut HashSet<(char, String)>) {
    for term in terms {
        if let TermKind::Variable(letter) = term.kind {
            met.insert((letter, text[index(term)].to_ascii_uppercase()));
        }
        gather(text, inside(term), met);
    }
}
