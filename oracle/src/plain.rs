//! The plain search: `matches` of `crates/matching/specs/Match.antt`, case by case and with every length, and what `shadows`
//! (`Shadow.antt`) and `literal_matches` (`Literal.antt`) make of it. Functions have the names of the definitions. A row of
//! terms is a slice; a list of matches is gone through in its order, each handed on as it is found.
use std::rc::Rc;

use refal_ast::{
    Symbol, Term, TermKind, VariableKind, canonical_identifier, canonical_variable_index,
};

use crate::zeros::significant;

/// A term that is no bracket. Names are folded, numbers have no needless zeros.
pub enum Atom {
    Literal(Symbol),
    Variable(VariableKind, String),
    /// A call or a block, with which a pattern matches nothing.
    Other,
}

pub enum Item {
    Symbol(Atom),
    Brackets(Vec<Item>),
}

type Named<'t> = (VariableKind, &'t str);

/// Variables' values, the last bound first.
enum Values<'t> {
    NoneBound,
    Bound(Named<'t>, &'t [Item], Rc<Values<'t>>),
}

type Env<'t> = Rc<Values<'t>>;
/// A row cut in two.
type Cut<'t> = (&'t [Item], &'t [Item]);

pub fn pattern_of(terms: &[Term]) -> Vec<Item> {
    terms.iter().map(item_of).collect()
}

fn item_of(term: &Term) -> Item {
    match &term.kind {
        TermKind::Bracket(inside) => Item::Brackets(pattern_of(inside)),
        TermKind::Call { .. } | TermKind::Block { .. } => Item::Symbol(Atom::Other),
        TermKind::Symbol(Symbol::Identifier(name)) => Item::Symbol(Atom::Literal(
            Symbol::Identifier(canonical_identifier(name)),
        )),
        TermKind::Symbol(Symbol::Number(digits)) => {
            Item::Symbol(Atom::Literal(Symbol::Number(significant(digits).into())))
        }
        TermKind::Symbol(symbol) => Item::Symbol(Atom::Literal(symbol.clone())),
        TermKind::Variable(variable) => Item::Symbol(Atom::Variable(
            variable.kind,
            canonical_variable_index(&variable.name),
        )),
    }
}

pub fn shadows(earlier: &[Item], later: &[Item]) -> bool {
    some_in(false, earlier, later)
}

/// Of literal rows alone: on these, `same_atom`, `symbol_like` and `single_term` say what `same_symbol` and `any_symbol` say.
pub fn literal_matches(pattern: &[Item], row: &[Item]) -> bool {
    some_in(true, pattern, row)
}

fn some_in(back: bool, pattern: &[Item], row: &[Item]) -> bool {
    matches(back, pattern, row, &Rc::new(Values::NoneBound), &mut |_| {
        true
    })
}

/// Hands on each match, until one is wanted; answers whether one was. `back`: whether a bracket is gone back into.
fn matches<'t>(
    back: bool,
    pattern: &'t [Item],
    row: &'t [Item],
    values: &Env<'t>,
    wanted: &mut dyn FnMut(&Env<'t>) -> bool,
) -> bool {
    let Some((head, rest)) = pattern.split_first() else {
        return row.is_empty() && wanted(values);
    };
    match (head, row.split_first()) {
        (Item::Symbol(Atom::Variable(kind, index)), _) => {
            let named = (*kind, index.as_str());
            let value = value_in(values, named);
            let mut cuts = choices(value, *kind, row).into_iter();
            cuts.any(|(taken, after)| {
                let values = noted(value, named, taken, values);
                matches(back, rest, after, &values, wanted)
            })
        }
        (Item::Symbol(Atom::Other), _) => false,
        (Item::Symbol(own), Some((Item::Symbol(other), row))) => {
            same_atom(own, other) && matches(back, rest, row, values, wanted)
        }
        (Item::Brackets(inside), Some((Item::Brackets(contents), row))) => {
            let mut answer = false;
            matches(back, inside, contents, values, &mut |values| {
                answer = matches(back, rest, row, values, wanted);
                answer || !back
            });
            answer
        }
        (Item::Symbol(_) | Item::Brackets(_), _) => false,
    }
}

fn value_in<'t>(values: &Values<'t>, wanted: Named) -> Option<&'t [Item]> {
    match values {
        Values::NoneBound => None,
        Values::Bound(named, value, _) if *named == wanted => Some(value),
        Values::Bound(_, _, before) => value_in(before, wanted),
    }
}

/// A variable that had no value gets one.
fn noted<'t>(
    had: Option<&[Item]>,
    named: Named<'t>,
    taken: &'t [Item],
    values: &Env<'t>,
) -> Env<'t> {
    match had {
        Some(_) => values.clone(),
        None => Rc::new(Values::Bound(named, taken, values.clone())),
    }
}

/// What a variable may stand for at the front of a row, with what follows.
fn choices<'t>(value: Option<&[Item]>, kind: VariableKind, row: &'t [Item]) -> Vec<Cut<'t>> {
    let first = |fits: bool| {
        if fits {
            vec![row.split_at(1)]
        } else {
            Vec::new()
        }
    };
    match (value, kind) {
        (Some(value), _) => after(value, row).into_iter().collect(),
        (None, VariableKind::Symbol) => first(row.first().is_some_and(symbol_like)),
        (None, VariableKind::Term) => first(row.first().is_some_and(single_term)),
        (None, VariableKind::Expression) => {
            (0..=row.len()).map(|length| row.split_at(length)).collect()
        }
    }
}

/// A row cut after a value at its front, if the row begins with it.
fn after<'t>(value: &[Item], row: &'t [Item]) -> Option<Cut<'t>> {
    let cut = row.split_at_checked(value.len())?;
    same_terms(value, cut.0).then_some(cut)
}

fn same_terms(left: &[Item], right: &[Item]) -> bool {
    let same = |pair: (&Item, &Item)| match pair {
        (Item::Symbol(one), Item::Symbol(other)) => same_atom(one, other),
        (Item::Brackets(one), Item::Brackets(other)) => same_terms(one, other),
        _ => false,
    };
    left.len() == right.len() && left.iter().zip(right).all(same)
}

/// Calls and blocks are the same as nothing.
fn same_atom(left: &Atom, right: &Atom) -> bool {
    match (left, right) {
        (Atom::Literal(one), Atom::Literal(other)) => one == other,
        (Atom::Variable(kind, index), Atom::Variable(other, name)) => {
            kind == other && index == name
        }
        _ => false,
    }
}

fn symbol_like(item: &Item) -> bool {
    match item {
        Item::Symbol(Atom::Literal(_)) => true,
        Item::Symbol(Atom::Variable(kind, _)) => *kind == VariableKind::Symbol,
        Item::Symbol(Atom::Other) | Item::Brackets(_) => false,
    }
}

fn single_term(item: &Item) -> bool {
    match item {
        Item::Symbol(Atom::Literal(_)) | Item::Brackets(_) => true,
        Item::Symbol(Atom::Variable(kind, _)) => *kind != VariableKind::Expression,
        Item::Symbol(Atom::Other) => false,
    }
}

/// Whether a pattern matches a row, each occurrence of a variable taken for a variable of its own: without values, so that a
/// place in the row tells all. For counting alone.
pub fn loosely(pattern: &[Item], row: &[Item]) -> bool {
    let fits = |head: &Item, item: &Item| match (head, item) {
        (Item::Brackets(inside), Item::Brackets(contents)) => loosely(inside, contents),
        (Item::Symbol(Atom::Variable(VariableKind::Symbol, _)), _) => symbol_like(item),
        (Item::Symbol(Atom::Variable(..)), _) => single_term(item),
        (Item::Symbol(own), Item::Symbol(other)) => same_atom(own, other),
        _ => false,
    };
    let mut ends: Vec<bool> = vec![false; row.len()];
    ends.push(true);
    for head in pattern.iter().rev() {
        let open = matches!(
            head,
            Item::Symbol(Atom::Variable(VariableKind::Expression, _))
        );
        let from = |place: usize| match open {
            true => ends[place..].contains(&true),
            false => row.get(place).is_some_and(|item| fits(head, item)) && ends[place + 1],
        };
        ends = (0..=row.len()).map(from).collect();
    }
    ends[0]
}

/// Whether a variable stands twice in a pattern, brackets included.
pub fn has_repeat(pattern: &[Item]) -> bool {
    fn gather<'t>(pattern: &'t [Item], met: &mut Vec<Named<'t>>) {
        for item in pattern {
            match item {
                Item::Symbol(Atom::Variable(kind, index)) => met.push((*kind, index)),
                Item::Symbol(_) => {}
                Item::Brackets(inside) => gather(inside, met),
            }
        }
    }
    let mut met = Vec::new();
    gather(pattern, &mut met);
    (1..met.len()).any(|place| met[..place].contains(&met[place]))
}
