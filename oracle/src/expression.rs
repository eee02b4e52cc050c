//! Expressions, and the manual's matching of them: `crates/law/specs/Expression.antt`, and what `run_matches` of
//! `crates/matching/specs/Match.antt` is made of. Functions have the names of the definitions. A row of terms is a
//! slice, a list of matches a vector in the same order.
//!
//! Laws are folded beforehand (`records.rs`), so that names, identifiers and indices are the same exactly when their
//! texts are. A run of the law stands for its pattern: `pattern_of` would only rename its cases.
use std::rc::Rc;

use refal_ast::{Symbol, Term, TermKind, Variable, VariableKind};

use crate::matching::{Steps, TooLong};

#[derive(Clone, Copy, Debug, PartialEq)]
pub enum Literal<'l> {
    Character(char),
    Identifier(&'l str),
    /// Digits without leading zeros: they are the same exactly when the values are.
    Number(&'l str),
}

#[derive(Clone, Debug)]
pub enum Item<'l> {
    Symbol(Literal<'l>),
    Brackets(Rc<Expression<'l>>),
}

pub type Expression<'l> = Vec<Item<'l>>;

/// A kind and a folded index.
pub type Named<'l> = (VariableKind, &'l str);

/// Variables' values, the last bound first.
pub enum Values<'l> {
    NoneBound,
    Bound(Named<'l>, Expression<'l>, Env<'l>),
}

pub type Env<'l> = Rc<Values<'l>>;

/// A row cut in two.
type Cut<'x, 'l> = (&'x [Item<'l>], &'x [Item<'l>]);

pub fn literal_of(symbol: &Symbol) -> Literal<'_> {
    match symbol {
        Symbol::Char(ch) => Literal::Character(*ch),
        Symbol::Identifier(text) => Literal::Identifier(text),
        Symbol::Number(digits) => Literal::Number(digits.trim_start_matches('0')),
    }
}

pub fn named(variable: &Variable) -> Named<'_> {
    (variable.kind, &variable.name)
}

pub fn none_bound<'l>() -> Env<'l> {
    Rc::new(Values::NoneBound)
}

pub fn value_in<'v, 'l>(values: &'v Values<'l>, wanted: Named) -> Option<&'v Expression<'l>> {
    match values {
        Values::NoneBound => None,
        Values::Bound(name, value, _) if *name == wanted => Some(value),
        Values::Bound(_, _, before) => value_in(before, wanted),
    }
}

/// A row cut in two at every place, the first part from nothing to all.
fn splits<'x, 'l>(row: &'x [Item<'l>]) -> Vec<Cut<'x, 'l>> {
    (0..=row.len()).map(|length| row.split_at(length)).collect()
}

/// A variable that had no value gets one.
fn noted<'l>(had: bool, name: Named<'l>, taken: &[Item<'l>], values: &Env<'l>) -> Env<'l> {
    match had {
        true => values.clone(),
        false => Rc::new(Values::Bound(name, taken.to_vec(), values.clone())),
    }
}

fn same_terms(left: &[Item], right: &[Item], steps: &mut Steps) -> Result<bool, TooLong> {
    if left.len() != right.len() {
        return Ok(false);
    }
    for (one, other) in left.iter().zip(right) {
        steps.take()?;
        let same = match (one, other) {
            (Item::Symbol(one), Item::Symbol(other)) => one == other,
            (Item::Brackets(one), Item::Brackets(other)) => same_terms(one, other, steps)?,
            _ => false,
        };
        if !same {
            return Ok(false);
        }
    }
    Ok(true)
}

/// A row cut after a value at its front, if the row begins with it.
fn after<'x, 'l>(
    value: &[Item],
    row: &'x [Item<'l>],
    steps: &mut Steps,
) -> Result<Option<Cut<'x, 'l>>, TooLong> {
    match row.split_at_checked(value.len()) {
        Some(cut) if same_terms(value, cut.0, steps)? => Ok(Some(cut)),
        _ => Ok(None),
    }
}

/// What a variable may stand for at the front of a row, with what follows.
fn choices<'x, 'l>(
    value: Option<&Expression<'l>>,
    kind: VariableKind,
    row: &'x [Item<'l>],
    steps: &mut Steps,
) -> Result<Vec<Cut<'x, 'l>>, TooLong> {
    Ok(match (value, kind, row.first()) {
        (Some(value), ..) => after(value, row, steps)?.into_iter().collect(),
        (None, VariableKind::Expression, _) => splits(row),
        (None, VariableKind::Symbol, Some(Item::Symbol(_)))
        | (None, VariableKind::Term, Some(_)) => vec![row.split_at(1)],
        (None, VariableKind::Symbol | VariableKind::Term, _) => Vec::new(),
    })
}

/// The ordered list of all matches of a pattern with a row, from given values: `run_matches`.
pub fn run_matches<'l>(
    pattern: &'l [Term],
    row: &[Item<'l>],
    values: &Env<'l>,
    steps: &mut Steps,
) -> Result<Vec<Env<'l>>, TooLong> {
    steps.take()?;
    let Some((head, rest)) = pattern.split_first() else {
        return Ok(match row.is_empty() {
            true => vec![values.clone()],
            false => Vec::new(),
        });
    };
    match (&head.kind, row.split_first()) {
        (TermKind::Symbol(own), Some((Item::Symbol(other), row))) if literal_of(own) == *other => {
            run_matches(rest, row, values, steps)
        }
        (TermKind::Variable(variable), _) => {
            variable_matches(named(variable), rest, row, values, steps)
        }
        (TermKind::Bracket(inside), Some((Item::Brackets(contents), row))) => {
            let mut all = Vec::new();
            for values in run_matches(inside, contents, values, steps)? {
                all.extend(run_matches(rest, row, &values, steps)?);
            }
            Ok(all)
        }
        // A pattern that holds a call or block matches nothing.
        (TermKind::Call { .. } | TermKind::Block { .. }, _) => Ok(Vec::new()),
        (TermKind::Symbol(_) | TermKind::Bracket(_), _) => Ok(Vec::new()),
    }
}

/// The case of a variable in front.
fn variable_matches<'l>(
    name: Named<'l>,
    rest: &'l [Term],
    row: &[Item<'l>],
    values: &Env<'l>,
    steps: &mut Steps,
) -> Result<Vec<Env<'l>>, TooLong> {
    let value = value_in(values, name);
    let mut all = Vec::new();
    for (taken, after) in choices(value, name.0, row, steps)? {
        let values = noted(value.is_some(), name, taken, values);
        all.extend(run_matches(rest, after, &values, steps)?);
    }
    Ok(all)
}

/// In Refal notation.
pub fn shown(row: &[Item]) -> String {
    let item = |item: &Item| match item {
        Item::Symbol(Literal::Character(ch)) => format!("{ch:?}"),
        Item::Symbol(Literal::Identifier(text)) => text.to_string(),
        Item::Symbol(Literal::Number("")) => "0".into(),
        Item::Symbol(Literal::Number(digits)) => digits.to_string(),
        Item::Brackets(inside) => format!("({})", shown(inside)),
    };
    row.iter().map(item).collect::<Vec<_>>().join(" ")
}
