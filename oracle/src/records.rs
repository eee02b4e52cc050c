//! Laws made ready for runs: spans that say records, folded names, and changes all through a law.
use refal_ast::{
    Item, Program, Sentence, Symbol, Term, TermKind, Variable, canonical_identifier,
    canonical_variable_index,
};

use crate::decode::{WORDS, decode, sections};
use crate::encode::key;
use crate::random::Random;

const SENTENCES: usize = 2;
const TERMS: usize = 4;

/// The law of a file that is accepted. The span of each sentence and each term starts with the number of its record, so
/// that what the Rust lists names records too.
pub fn numbered(bytes: &[u8]) -> Program {
    let mut bytes = bytes.to_vec();
    let all = sections(&bytes).expect("an accepted file");
    for (section, span) in [(SENTENCES, 3), (TERMS, 4)] {
        let records = bytes[all[section].clone()].chunks_exact_mut(4 * WORDS[section]);
        for (number, record) in records.enumerate() {
            record[4 * span..4 * span + 4].copy_from_slice(&(number as u32).to_le_bytes());
        }
    }
    decode(&bytes).expect("an accepted file")
}

/// Folds names, identifiers and indices.
pub fn fold(program: &mut Program) {
    for item in &mut program.items {
        if let Item::Function(function) = item {
            function.name = canonical_identifier(&function.name);
        }
    }
    each_term(program, &mut |term| match &mut term.kind {
        TermKind::Symbol(Symbol::Identifier(text)) | TermKind::Call { name: text, .. } => {
            *text = canonical_identifier(text)
        }
        TermKind::Variable(variable) => variable.name = canonical_variable_index(&variable.name),
        _ => {}
    });
}

/// All terms of a law, at all depths.
pub fn each_term(program: &mut Program, change: &mut dyn FnMut(&mut Term)) {
    for item in &mut program.items {
        if let Item::Function(function) = item {
            in_sentences(&mut function.sentences, change);
        }
    }
}

/// All terms of sentences, at all depths.
pub fn in_sentences(sentences: &mut [Sentence], change: &mut dyn FnMut(&mut Term)) {
    for sentence in sentences {
        in_terms(&mut sentence.pattern, change);
        for condition in &mut sentence.conditions {
            in_terms(&mut condition.result, change);
            in_terms(&mut condition.pattern, change);
        }
        in_terms(&mut sentence.result, change);
    }
}

fn in_terms(terms: &mut [Term], change: &mut dyn FnMut(&mut Term)) {
    for term in terms {
        change(term);
        match &mut term.kind {
            TermKind::Symbol(_) | TermKind::Variable(_) => {}
            TermKind::Bracket(inside) | TermKind::Call { args: inside, .. } => {
                in_terms(inside, change)
            }
            TermKind::Block {
                argument,
                sentences,
            } => {
                in_terms(argument, change);
                in_sentences(sentences, change);
            }
        }
    }
}

/// Puts variables that have a value for those that have none, so that runs go on.
pub fn bind_results(program: &mut Program, random: &mut Random) {
    for item in &mut program.items {
        if let Item::Function(function) = item {
            bind_sentences(&mut function.sentences, &[], random);
        }
    }
}

fn bind_sentences(sentences: &mut [Sentence], around: &[Variable], random: &mut Random) {
    for sentence in sentences {
        let mut known = around.to_vec();
        variables(&sentence.pattern, &mut known);
        for condition in &mut sentence.conditions {
            bind_terms(&mut condition.result, &known, random);
            variables(&condition.pattern, &mut known);
        }
        bind_terms(&mut sentence.result, &known, random);
    }
}

fn bind_terms(terms: &mut [Term], known: &[Variable], random: &mut Random) {
    for term in terms {
        match &mut term.kind {
            TermKind::Symbol(_) => {}
            TermKind::Variable(variable) => {
                if !known.iter().any(|one| key(one) == key(variable)) {
                    term.kind = some_known(known, random);
                }
            }
            TermKind::Bracket(inside) | TermKind::Call { args: inside, .. } => {
                bind_terms(inside, known, random)
            }
            TermKind::Block {
                argument,
                sentences,
            } => {
                bind_terms(argument, known, random);
                bind_sentences(sentences, known, random);
            }
        }
    }
}

fn some_known(known: &[Variable], random: &mut Random) -> TermKind {
    match known.is_empty() {
        true => TermKind::Symbol(Symbol::Char('a')),
        false => TermKind::Variable(random.pick(known).clone()),
    }
}

/// The variables that a match gives values to.
fn variables(pattern: &[Term], known: &mut Vec<Variable>) {
    for term in pattern {
        match &term.kind {
            TermKind::Variable(variable) => known.push(variable.clone()),
            TermKind::Bracket(inside) => variables(inside, known),
            _ => {}
        }
    }
}
