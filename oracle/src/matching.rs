//! The searches for which differences from the Rust are named, with a limit on their steps.
//!
//! `shadows` is the Rust's `pattern_subsumes`, with the named rule on single terms or the Rust's own; `matches` is the
//! manual's matching, which goes back into brackets. The steps say beforehand whether a law takes too long: all three
//! parties search alike. Numbers compare by text, as in the Rust: laws come without needless zeros, or as they are
//! spelled where it is asked what the Rust lists of that.
use refal_ast::{Symbol, Term, TermKind, VariableKind, canonical_identifier};

use crate::encode::key;

/// What a search may still cost.
pub struct Steps(pub u64);

/// The steps are used up.
#[derive(Debug)]
pub struct TooLong;

impl Steps {
    pub fn take(&mut self) -> Result<(), TooLong> {
        self.0 = self.0.checked_sub(1).ok_or(TooLong)?;
        Ok(())
    }
}

/// When an e. variable of the later pattern is a single term.
#[derive(Clone, Copy, PartialEq)]
pub enum SingleTerm {
    /// As in the Rust: where the earlier pattern's variable of that spelling has one term.
    LookedUp,
    /// As document 01 has it.
    Never,
}

type Bound<'a> = Vec<((VariableKind, String), &'a [Term])>;

pub fn shadows(
    earlier: &[Term],
    later: &[Term],
    rule: SingleTerm,
    steps: &mut Steps,
) -> Result<bool, TooLong> {
    shadow_run(earlier, later, rule, &mut Vec::new(), steps)
}

/// On failure `bound` is as before, on success it has what was bound on the way.
fn shadow_run<'a>(
    earlier: &[Term],
    later: &'a [Term],
    rule: SingleTerm,
    bound: &mut Bound<'a>,
    steps: &mut Steps,
) -> Result<bool, TooLong> {
    steps.take()?;
    let Some((head, rest)) = earlier.split_first() else {
        return Ok(later.is_empty());
    };
    if let (TermKind::Bracket(inside), Some(TermKind::Bracket(row))) =
        (&head.kind, later.first().map(|term| &term.kind))
    {
        let before = bound.len();
        let matched = shadow_run(inside, row, rule, bound, steps)?
            && shadow_run(rest, &later[1..], rule, bound, steps)?;
        return Ok(kept(matched, bound, before));
    }
    for length in lengths(head, later, bound, |term, bound| {
        is_single(term, rule, bound)
    }) {
        let before = bound.len();
        bind(head, &later[..length], bound);
        let matched = shadow_run(rest, &later[length..], rule, bound, steps)?;
        if kept(matched, bound, before) {
            return Ok(true);
        }
    }
    Ok(false)
}

/// What is left to match around a bracket.
struct Around<'a, 'b> {
    pattern: &'a [Term],
    row: &'a [Term],
    outer: Option<&'b Around<'a, 'b>>,
}

/// Whether a pattern matches a row without variables, calls and blocks.
pub fn matches(pattern: &[Term], row: &[Term], steps: &mut Steps) -> Result<bool, TooLong> {
    match_run(pattern, row, None, &mut Vec::new(), steps)
}

fn match_run<'a>(
    pattern: &'a [Term],
    row: &'a [Term],
    around: Option<&Around<'a, '_>>,
    bound: &mut Bound<'a>,
    steps: &mut Steps,
) -> Result<bool, TooLong> {
    steps.take()?;
    let Some((head, rest)) = pattern.split_first() else {
        return match around {
            _ if !row.is_empty() => Ok(false),
            None => Ok(true),
            Some(level) => match_run(level.pattern, level.row, level.outer, bound, steps),
        };
    };
    if let (TermKind::Bracket(inside), Some(TermKind::Bracket(contents))) =
        (&head.kind, row.first().map(|term| &term.kind))
    {
        let level = Around {
            pattern: rest,
            row: &row[1..],
            outer: around,
        };
        return match_run(inside, contents, Some(&level), bound, steps);
    }
    for length in lengths(head, row, bound, |_, _| true) {
        let before = bound.len();
        bind(head, &row[..length], bound);
        if match_run(rest, &row[length..], around, bound, steps)? {
            return Ok(true);
        }
        bound.truncate(before);
    }
    Ok(false)
}

/// The numbers of terms that a pattern's first term, no bracket against a bracket, may take, shortest first.
fn lengths<'a>(
    head: &Term,
    row: &[Term],
    bound: &Bound<'a>,
    is_single: impl Fn(&Term, &Bound<'a>) -> bool,
) -> std::ops::Range<usize> {
    let one = |fits: bool| if fits { 1..2 } else { 0..0 };
    match &head.kind {
        TermKind::Symbol(symbol) => one(row.first().is_some_and(|term| is_symbol(term, symbol))),
        TermKind::Bracket(_) | TermKind::Call { .. } | TermKind::Block { .. } => 0..0,
        TermKind::Variable(variable) => match (value(&key(variable), bound), variable.kind) {
            (Some(value), _) if starts_with(row, value) => value.len()..value.len() + 1,
            (Some(_), _) => 0..0,
            (None, VariableKind::Symbol) => one(row.first().is_some_and(is_symbol_like)),
            (None, VariableKind::Term) => {
                one(row.first().is_some_and(|term| is_single(term, bound)))
            }
            (None, VariableKind::Expression) => 0..row.len() + 1,
        },
    }
}

fn kept(matched: bool, bound: &mut Bound, before: usize) -> bool {
    if !matched {
        bound.truncate(before);
    }
    matched
}

fn bind<'a>(head: &Term, taken: &'a [Term], bound: &mut Bound<'a>) {
    if let TermKind::Variable(variable) = &head.kind {
        let key = key(variable);
        if value(&key, bound).is_none() {
            bound.push((key, taken));
        }
    }
}

fn value<'a>(key: &(VariableKind, String), bound: &Bound<'a>) -> Option<&'a [Term]> {
    bound
        .iter()
        .find(|(known, _)| known == key)
        .map(|(_, value)| *value)
}

fn is_symbol_like(term: &Term) -> bool {
    match &term.kind {
        TermKind::Symbol(_) => true,
        TermKind::Variable(variable) => variable.kind == VariableKind::Symbol,
        _ => false,
    }
}

fn is_single(term: &Term, rule: SingleTerm, bound: &Bound) -> bool {
    match &term.kind {
        TermKind::Symbol(_) | TermKind::Bracket(_) => true,
        TermKind::Call { .. } | TermKind::Block { .. } => false,
        TermKind::Variable(variable) if variable.kind != VariableKind::Expression => true,
        TermKind::Variable(variable) => {
            rule == SingleTerm::LookedUp
                && value(&key(variable), bound).is_some_and(|value| value.len() == 1)
        }
    }
}

fn starts_with(row: &[Term], value: &[Term]) -> bool {
    row.len() >= value.len() && same_run(&row[..value.len()], value)
}

fn same_run(left: &[Term], right: &[Term]) -> bool {
    left.len() == right.len()
        && left
            .iter()
            .zip(right)
            .all(|(left, right)| same_term(left, right))
}

fn same_term(left: &Term, right: &Term) -> bool {
    match (&left.kind, &right.kind) {
        (TermKind::Symbol(symbol), _) => is_symbol(right, symbol),
        (TermKind::Variable(left), TermKind::Variable(right)) => key(left) == key(right),
        (TermKind::Bracket(left), TermKind::Bracket(right)) => same_run(left, right),
        _ => false,
    }
}

fn is_symbol(term: &Term, symbol: &Symbol) -> bool {
    match (&term.kind, symbol) {
        (TermKind::Symbol(Symbol::Char(left)), Symbol::Char(right)) => left == right,
        (TermKind::Symbol(Symbol::Number(left)), Symbol::Number(right)) => left == right,
        (TermKind::Symbol(Symbol::Identifier(left)), Symbol::Identifier(right)) => {
            canonical_identifier(left) == canonical_identifier(right)
        }
        _ => false,
    }
}
