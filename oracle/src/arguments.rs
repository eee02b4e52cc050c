//! Random expressions for runs: mostly what a pattern of the law matches, made of the law's symbols.
use std::collections::HashMap;
use std::rc::Rc;

use refal_ast::{Function, Sentence, Term, TermKind, VariableKind};

use crate::expression::{Expression, Item, Literal, Named, literal_of, named};
use crate::random::Random;

/// Symbols that a law need not have.
const OTHERS: [Literal; 3] = [
    Literal::Character('z'),
    Literal::Identifier("OTHER"),
    Literal::Number("9"),
];
const ANSWERS: usize = 12;

/// What a law's expressions are made of.
pub struct Source<'l> {
    symbols: Vec<Literal<'l>>,
    /// The left sides of all sentences and conditions, blocks' too.
    patterns: Vec<&'l [Term]>,
}

impl<'l> Source<'l> {
    pub fn of(law: &[&'l Function]) -> Source<'l> {
        let mut source = Source {
            symbols: OTHERS.to_vec(),
            patterns: Vec::new(),
        };
        for function in law {
            source.sentences(&function.sentences);
        }
        source
    }

    fn sentences(&mut self, sentences: &'l [Sentence]) {
        for sentence in sentences {
            self.patterns.push(&sentence.pattern);
            self.terms(&sentence.pattern);
            for condition in &sentence.conditions {
                self.patterns.push(&condition.pattern);
                self.terms(&condition.result);
                self.terms(&condition.pattern);
            }
            self.terms(&sentence.result);
        }
    }

    fn terms(&mut self, terms: &'l [Term]) {
        for term in terms {
            match &term.kind {
                TermKind::Symbol(symbol) => self.symbols.push(literal_of(symbol)),
                TermKind::Variable(_) => {}
                TermKind::Bracket(inside) | TermKind::Call { args: inside, .. } => {
                    self.terms(inside)
                }
                TermKind::Block {
                    argument,
                    sentences,
                } => {
                    self.terms(argument);
                    self.sentences(sentences);
                }
            }
        }
    }

    /// Answers of functions that are not defined.
    pub fn answers(&self, random: &mut Random) -> Vec<Expression<'l>> {
        (0..random.below(ANSWERS))
            .map(|_| self.expression(random))
            .collect()
    }

    /// Any expression, or what some pattern of the law matches.
    pub fn expression(&self, random: &mut Random) -> Expression<'l> {
        match self.patterns.is_empty() || random.chance(50) {
            true => self.row(random, 3, 0),
            false => {
                let pattern = *random.pick(&self.patterns);
                self.instance(pattern, random)
            }
        }
    }

    /// What a pattern matches, but for a slip now and then.
    pub fn instance(&self, pattern: &'l [Term], random: &mut Random) -> Expression<'l> {
        self.filled(pattern, random, &mut HashMap::new())
    }

    fn filled(
        &self,
        pattern: &'l [Term],
        random: &mut Random,
        values: &mut HashMap<Named<'l>, Expression<'l>>,
    ) -> Expression<'l> {
        let mut row = Vec::new();
        for term in pattern {
            match &term.kind {
                _ if random.chance(2) => row.push(self.item(random, 0)),
                TermKind::Symbol(symbol) => row.push(Item::Symbol(literal_of(symbol))),
                TermKind::Variable(variable) => {
                    let value = values
                        .entry(named(variable))
                        .or_insert_with(|| self.value(variable.kind, random));
                    row.extend(value.iter().cloned());
                }
                TermKind::Bracket(inside) => {
                    let contents = self.filled(inside, random, values);
                    row.push(Item::Brackets(Rc::new(contents)));
                }
                TermKind::Call { .. } | TermKind::Block { .. } => {}
            }
        }
        row
    }

    fn value(&self, kind: VariableKind, random: &mut Random) -> Expression<'l> {
        match kind {
            VariableKind::Symbol => vec![self.symbol(random)],
            VariableKind::Term => vec![self.item(random, 0)],
            VariableKind::Expression => self.row(random, 3, 0),
        }
    }

    fn row(&self, random: &mut Random, most: usize, depth: usize) -> Expression<'l> {
        (0..random.within(0, most))
            .map(|_| self.item(random, depth))
            .collect()
    }

    fn item(&self, random: &mut Random, depth: usize) -> Item<'l> {
        match depth < 3 && random.chance(30) {
            true => Item::Brackets(Rc::new(self.row(random, 2, depth + 1))),
            false => self.symbol(random),
        }
    }

    fn symbol(&self, random: &mut Random) -> Item<'l> {
        Item::Symbol(*random.pick(&self.symbols))
    }
}
