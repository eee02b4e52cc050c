//! What the sentences of a function or a block show, two by two.
use std::collections::HashSet;

use refal_ast::{Sentence, Symbol, Term, TermKind, Variable, VariableKind, canonical_identifier};

use crate::encode::key;
use crate::features::{Features, number};
use crate::matching::{SingleTerm, Steps, matches, shadows};
use crate::places::Group;

/// Laws of the sample are compared, so that their matching takes fewer steps.
const STEPS: u64 = 1_000_000;

pub fn features(group: &Group, all: &mut Features) {
    for (place, later) in group.sentences.iter().enumerate() {
        let earlier = &group.sentences[..place];
        let shadowing = earlier
            .iter()
            .find(|one| one.conditions.is_empty() && is_shadowed(one, later));
        match shadowing {
            Some(one) => dead(group, one, later, all),
            None => earlier.iter().for_each(|one| alive(one, later, all)),
        }
    }
}

/// Whether a sentence of a function matches an argument of symbols.
pub fn some_matches(sentences: &[Sentence], args: &[Term]) -> bool {
    sentences.iter().any(|one| is_match(&one.pattern, args))
}

fn is_match(pattern: &[Term], row: &[Term]) -> bool {
    matches(pattern, row, &mut Steps(STEPS)).expect("few steps")
}

fn is_shadowed(earlier: &Sentence, later: &Sentence) -> bool {
    let mut steps = Steps(STEPS);
    shadows(
        &earlier.pattern,
        &later.pattern,
        SingleTerm::Never,
        &mut steps,
    )
    .expect("few steps")
}

/// A dead sentence and the earliest that shadows it.
fn dead(group: &Group, earlier: &Sentence, later: &Sentence, all: &mut Features) {
    if let Some((wide, narrow)) = form(&earlier.pattern).zip(form(&later.pattern)) {
        all.insert(format!("sentence: {wide} shadows {narrow}"));
    }
    if !later.conditions.is_empty() {
        all.insert("sentence: a dead one has conditions".into());
    }
    let variables = variables(&earlier.pattern);
    for kind in repeated(&variables) {
        all.insert(format!(
            "sentence: repeated {}. shadows",
            kind.refal_prefix()
        ));
    }
    all.insert(format!(
        "sentence: brackets {} deep shadow",
        number(depth(&earlier.pattern))
    ));
    if spelled_otherwise(&earlier.pattern, &later.pattern) {
        all.insert("sentence: identifiers spelled otherwise are the same".into());
    }
    let outer: HashSet<_> = group.outer.iter().flat_map(|one| keys(one)).collect();
    if variables.iter().any(|one| outer.contains(&key(one))) {
        all.insert("difference 6: a variable around the block is free".into());
    }
}

/// A sentence that is not dead, and one before it.
fn alive(earlier: &Sentence, later: &Sentence, all: &mut Features) {
    if !earlier.conditions.is_empty() {
        if is_shadowed(earlier, later) {
            all.insert("sentence: conditions keep it from shadowing".into());
        }
        return;
    }
    if let Some((wide, narrow)) = form(&earlier.pattern).zip(form(&later.pattern)) {
        all.insert(format!("sentence: {wide} does not shadow {narrow}"));
    }
    let literal = keys(&later.pattern).is_empty() && !has_call(&later.pattern);
    if literal && is_match(&earlier.pattern, &later.pattern) {
        all.insert("difference 3: shadowing does not go back".into());
    }
}

/// A pattern of at most one record, or with one bracket around such a pattern.
fn form(pattern: &[Term]) -> Option<String> {
    match pattern {
        [] => Some("nothing".into()),
        [term] => match &term.kind {
            TermKind::Bracket(inside) if inside.is_empty() => Some("()".into()),
            TermKind::Bracket(_) => Some("(..)".into()),
            _ => Some(one(term).into()),
        },
        _ => None,
    }
}

fn one(term: &Term) -> &'static str {
    match &term.kind {
        TermKind::Symbol(Symbol::Char(_)) => "character",
        TermKind::Symbol(Symbol::Identifier(_)) => "identifier",
        TermKind::Symbol(Symbol::Number(_)) => "number",
        TermKind::Variable(variable) => match variable.kind {
            VariableKind::Symbol => "s.",
            VariableKind::Term => "t.",
            VariableKind::Expression => "e.",
        },
        TermKind::Bracket(_) => "bracket",
        TermKind::Call { .. } | TermKind::Block { .. } => "call or block",
    }
}

/// The variables of a pattern, brackets included.
fn variables(terms: &[Term]) -> Vec<&Variable> {
    let mut all = Vec::new();
    for term in terms {
        match &term.kind {
            TermKind::Variable(variable) => all.push(variable),
            TermKind::Bracket(inside) => all.extend(variables(inside)),
            TermKind::Symbol(_) | TermKind::Call { .. } | TermKind::Block { .. } => {}
        }
    }
    all
}

pub fn e_variables(pattern: &[Term]) -> usize {
    let is_e = |one: &&Variable| one.kind == VariableKind::Expression;
    variables(pattern).into_iter().filter(is_e).count()
}

fn keys(terms: &[Term]) -> HashSet<(VariableKind, String)> {
    variables(terms).into_iter().map(key).collect()
}

fn repeated(all: &[&Variable]) -> Vec<VariableKind> {
    let mut met = HashSet::new();
    let again = all.iter().filter(|one| !met.insert(key(one)));
    again.map(|one| one.kind).collect()
}

fn depth(terms: &[Term]) -> usize {
    let own = |term: &Term| match &term.kind {
        TermKind::Bracket(inside) => 1 + depth(inside),
        _ => 0,
    };
    terms.iter().map(own).max().unwrap_or(0)
}

fn has_call(terms: &[Term]) -> bool {
    terms.iter().any(|term| match &term.kind {
        TermKind::Bracket(inside) => has_call(inside),
        TermKind::Call { .. } | TermKind::Block { .. } => true,
        TermKind::Symbol(_) | TermKind::Variable(_) => false,
    })
}

fn spelled_otherwise(earlier: &[Term], later: &[Term]) -> bool {
    let (wide, narrow) = (identifiers(earlier), identifiers(later));
    let same = |one: &str, other: &str| canonical_identifier(one) == canonical_identifier(other);
    wide.iter()
        .any(|one| !narrow.contains(one) && narrow.iter().any(|other| same(one, other)))
}

fn identifiers(terms: &[Term]) -> Vec<&str> {
    let mut all = Vec::new();
    for term in terms {
        match &term.kind {
            TermKind::Symbol(Symbol::Identifier(text)) => all.push(text.as_str()),
            TermKind::Bracket(inside) => all.extend(identifiers(inside)),
            _ => {}
        }
    }
    all
}
