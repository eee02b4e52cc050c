//! What a law is like, apart from what is listed of it.
use std::collections::{BTreeMap, BTreeSet};

use refal_ast::{Program, Sentence, Symbol, Term, TermKind, canonical_identifier};

use crate::features::{Features, number};
use crate::places::Places;
use crate::refal::functions;

/// The longest name, index or number.
const LONGEST: usize = 64;

pub fn features(program: &Program, places: &Places, all: &mut Features) {
    let count = number(functions(program).count());
    all.insert(format!("law: {count} functions"));
    names(program, all);
    calls(program, places, all);
    for group in &places.groups {
        let owner = if group.block { "block" } else { "function" };
        let count = number(group.sentences.len());
        all.insert(format!("law: a {owner} of {count} sentences"));
        for place in group.around.iter().filter(|_| group.block) {
            all.insert(format!("law: a block in {place}"));
        }
        for sentence in group.sentences {
            let conditions = number(sentence.conditions.len());
            all.insert(format!("law: {conditions} conditions in a {owner}"));
            let deep = number(runs(sentence).map(depth).max().unwrap_or(0));
            all.insert(format!("law: brackets {deep} deep"));
            runs(sentence).for_each(|run| symbols(run, all));
        }
    }
}

fn names(program: &Program, all: &mut Features) {
    let mut met: BTreeMap<String, BTreeSet<&str>> = BTreeMap::new();
    let mut defined: BTreeMap<String, usize> = BTreeMap::new();
    for function in functions(program) {
        let folded = canonical_identifier(&function.name);
        *defined.entry(folded.clone()).or_default() += 1;
        met.entry(folded).or_default().insert(&function.name);
        if function.name.len() == LONGEST {
            all.insert("law: a name of 64 bytes".into());
        }
    }
    for (folded, times) in defined.into_iter().filter(|(_, times)| *times > 1) {
        all.insert(format!("law: a name defined {times} times"));
        if met[&folded].len() > 1 {
            all.insert("law: a name defined in two spellings".into());
        }
    }
}

fn calls(program: &Program, places: &Places, all: &mut Features) {
    let defined: BTreeSet<String> = functions(program)
        .map(|one| canonical_identifier(&one.name))
        .collect();
    for site in &places.sites {
        let known = match defined.contains(&canonical_identifier(site.name)) {
            true => "a call of a function",
            false => "a call of no function",
        };
        for place in &site.around {
            all.insert(format!("law: {known} in {place}"));
        }
    }
}

fn runs(sentence: &Sentence) -> impl Iterator<Item = &[Term]> {
    let conditions = sentence.conditions.iter();
    let inner = conditions.flat_map(|one| [one.result.as_slice(), one.pattern.as_slice()]);
    [sentence.pattern.as_slice(), sentence.result.as_slice()]
        .into_iter()
        .chain(inner)
}

fn depth(terms: &[Term]) -> usize {
    let own = |term: &Term| match &term.kind {
        TermKind::Bracket(inside) => 1 + depth(inside),
        TermKind::Call { args: inside, .. } => depth(inside),
        TermKind::Block { argument, .. } => depth(argument),
        TermKind::Symbol(_) | TermKind::Variable(_) => 0,
    };
    terms.iter().map(own).max().unwrap_or(0)
}

fn symbols(terms: &[Term], all: &mut Features) {
    for term in terms {
        match &term.kind {
            TermKind::Symbol(Symbol::Char(ch)) => {
                all.insert(format!("law: a character of {} bytes", ch.len_utf8()));
            }
            TermKind::Symbol(Symbol::Number(text) | Symbol::Identifier(text))
                if text.len() == LONGEST =>
            {
                all.insert("law: a symbol of 64 bytes".into());
            }
            TermKind::Variable(variable) if variable.name.contains(['-', '_']) => {
                all.insert("law: an index with `-` or `_`".into());
            }
            TermKind::Bracket(inside) | TermKind::Call { args: inside, .. } => symbols(inside, all),
            _ => {}
        }
    }
}
