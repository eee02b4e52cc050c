//! The Rust's `Program` of a phrase, with its spans. Declarations and visibility are kept: the Rust's lints pass over them.
use refal_ast::{
    Condition, Declaration, DeclarationKind, Function, Item, Program, Sentence, Span, Symbol, Term,
    TermKind, Variable, VariableKind, Visibility,
};

use crate::read_file::index;
use crate::read_phrase::{self as phrase, Place};

pub fn program(text: &str, items: &[phrase::Item]) -> Program {
    let maker = Maker(text);
    Program {
        items: items.iter().map(|item| maker.item(item)).collect(),
    }
}

/// The same as a law file has it.
pub fn without_declarations(program: &Program) -> Program {
    let kept = |item: &Item| match item {
        Item::Declaration(_) => None,
        Item::Function(function) => Some(Item::Function(Function {
            visibility: Visibility::Local,
            ..function.clone()
        })),
    };
    Program {
        items: program.items.iter().filter_map(kept).collect(),
    }
}

/// Holds the text.
struct Maker<'t>(&'t str);

impl Maker<'_> {
    fn spelled(&self, place: &Place) -> String {
        self.0[place.clone()].to_string()
    }

    fn item(&self, item: &phrase::Item) -> Item {
        match item {
            phrase::Item::Function(function) => Item::Function(self.function(function)),
            phrase::Item::Extern(names) => Item::Declaration(Declaration {
                kind: DeclarationKind::Extern,
                names: names.iter().map(|name| self.spelled(name)).collect(),
                span: Span { start: 0, end: 0 },
            }),
        }
    }

    fn function(&self, function: &phrase::Function) -> Function {
        let sentences = function.sentences.iter();
        Function {
            name: self.spelled(&function.name),
            visibility: match function.entry {
                true => Visibility::Entry,
                false => Visibility::Local,
            },
            sentences: sentences.map(|one| self.sentence(one)).collect(),
            span: span(&function.span),
        }
    }

    fn sentence(&self, sentence: &phrase::Sentence) -> Sentence {
        let condition = |one: &phrase::Condition| Condition {
            result: self.terms(&one.result),
            pattern: self.terms(&one.pattern),
            span: span(&one.span),
        };
        Sentence {
            pattern: self.terms(&sentence.pattern),
            conditions: sentence.conditions.iter().map(condition).collect(),
            result: self.terms(&sentence.result),
            span: span(&sentence.span),
        }
    }

    fn terms(&self, terms: &[phrase::Term]) -> Vec<Term> {
        let term = |one: &phrase::Term| Term {
            kind: self.kind(one),
            span: span(&one.span),
        };
        terms.iter().map(term).collect()
    }

    fn kind(&self, term: &phrase::Term) -> TermKind {
        let symbol = match &term.kind {
            phrase::TermKind::Variable(letter) => return self.variable(*letter, term),
            phrase::TermKind::Bracket(inside) => return TermKind::Bracket(self.terms(inside)),
            phrase::TermKind::Call { name, argument } => {
                return TermKind::Call {
                    name: self.spelled(name),
                    args: self.terms(argument),
                };
            }
            phrase::TermKind::Character(ch) => Symbol::Char(*ch),
            phrase::TermKind::Identifier => Symbol::Identifier(self.spelled(&term.span)),
            phrase::TermKind::Number => Symbol::Number(self.spelled(&term.span)),
        };
        TermKind::Symbol(symbol)
    }

    fn variable(&self, letter: char, term: &phrase::Term) -> TermKind {
        let kind = match letter {
            's' => VariableKind::Symbol,
            't' => VariableKind::Term,
            _ => VariableKind::Expression,
        };
        TermKind::Variable(Variable {
            kind,
            name: self.spelled(&index(term)),
        })
    }
}

fn span(place: &Place) -> Span {
    Span {
        start: place.start,
        end: place.end,
    }
}
