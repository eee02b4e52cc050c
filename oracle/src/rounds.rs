//! Rounds, settled and refusal 10, which have no counterpart in the Rust: worked out here by document 01, with the Rust's
//! type of formats and its join.
use std::collections::BTreeMap;

use refal_ast::{Function, Program, Symbol, Term, TermKind, VariableKind, canonical_identifier};
use refal_semantics::{Format, Shape};

use crate::refal::functions;

const SHAPE_LIMIT: usize = 64;
const ROUNDS_PAST_NAMES: usize = 4;

type Results = BTreeMap<String, Format>;

#[derive(Debug, PartialEq)]
pub struct Rounds {
    pub ran: usize,
    pub settled: bool,
}

/// A format has over 64 shapes.
pub struct TooWide;

/// Ends at the first format that is too wide, before formats can grow beyond all measure.
pub fn infer(program: &Program) -> Result<Rounds, TooWide> {
    let mut results = Results::new();
    for function in functions(program) {
        results.insert(canonical_identifier(&function.name), Format::never());
        for sentence in &function.sentences {
            narrow(format_of(&sentence.pattern, None))?;
        }
    }
    let limit = results.len() + ROUNDS_PAST_NAMES;
    for ran in 1..=limit {
        if !round(program, &mut results)? {
            return Ok(Rounds { ran, settled: true });
        }
    }
    Ok(Rounds {
        ran: limit,
        settled: false,
    })
}

/// Answers whether anything changed.
fn round(program: &Program, results: &mut Results) -> Result<bool, TooWide> {
    let mut changed = false;
    for function in functions(program) {
        let inferred = result_of(function, results)?;
        let entry = results
            .get_mut(&canonical_identifier(&function.name))
            .expect("each name has an entry");
        let joined = entry.join(&inferred);
        changed |= joined != *entry;
        *entry = joined;
    }
    Ok(changed)
}

fn result_of(function: &Function, results: &Results) -> Result<Format, TooWide> {
    let mut joined = Format::never();
    for sentence in &function.sentences {
        joined = joined.join(&narrow(format_of(&sentence.result, Some(results)))?);
    }
    Ok(joined)
}

pub fn narrow(format: Format) -> Result<Format, TooWide> {
    if shapes(&format) > SHAPE_LIMIT {
        Err(TooWide)
    } else {
        Ok(format)
    }
}

fn shapes(format: &Format) -> usize {
    let inside = |shape: &Shape| match shape {
        Shape::Bracket(contents) => shapes(contents),
        _ => 0,
    };
    format.items.iter().map(|shape| 1 + inside(shape)).sum()
}

/// The format of a result, or of a pattern, where there are no results of calls.
fn format_of(terms: &[Term], results: Option<&Results>) -> Format {
    let mut format = Format::empty();
    for term in terms {
        let added = format_of_term(term, results);
        // Never adds no items and no tail.
        format.items.extend(added.items);
        if added.open {
            format.open = true;
            break;
        }
    }
    format
}

fn format_of_term(term: &Term, results: Option<&Results>) -> Format {
    let shape = match &term.kind {
        TermKind::Symbol(Symbol::Char(_)) => Shape::Char,
        TermKind::Symbol(Symbol::Number(_)) => Shape::Number,
        TermKind::Symbol(Symbol::Identifier(_)) => Shape::Identifier,
        TermKind::Variable(variable) => match variable.kind {
            VariableKind::Symbol => Shape::Symbol,
            VariableKind::Term => Shape::Unknown,
            VariableKind::Expression => return Format::any(),
        },
        TermKind::Bracket(inside) => Shape::Bracket(Box::new(format_of(inside, results))),
        TermKind::Block { .. } => return Format::any(),
        TermKind::Call { name, .. } => {
            let known = results.and_then(|results| results.get(&canonical_identifier(name)));
            return known.cloned().unwrap_or_else(Format::any);
        }
    };
    Format {
        items: vec![shape],
        open: false,
        never: false,
    }
}
