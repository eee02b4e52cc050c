//! Random laws for runs: those of `generate.rs`, laws with few variables and symbols, in which sentences nearly shadow
//! one another and calls nearly match, and laws whose formats do not settle.
use std::collections::HashMap;

use refal_ast::{
    Condition, Function, Item, Program, Sentence, Span, Symbol, Term, TermKind, Variable,
    VariableKind, Visibility,
};

use crate::encode::{Layout, key};
use crate::generate::{self, Law};
use crate::random::Random;
use crate::records::bind_results;
use crate::zeros::respell;

const NAMES: [&str; 3] = ["F", "G", "H"];
const TERMS: usize = 150;

pub fn law(random: &mut Random) -> Law {
    let mut law = match random.below(100) {
        0..=14 => respelled(generate::law(random), random),
        15..=39 => respelled(generate::small(random), random),
        40..=94 => plain(Few::of(random).functions()),
        _ => plain(growing(random)),
    };
    if random.chance(80) {
        bind_results(&mut law.program, random);
    }
    law
}

fn respelled(mut law: Law, random: &mut Random) -> Law {
    respell(&mut law.program, random);
    law
}

fn plain(functions: Vec<Function>) -> Law {
    Law {
        program: Program {
            items: functions.into_iter().map(Item::Function).collect(),
        },
        layout: Layout {
            share: true,
            junk: false,
            bytes: None,
        },
    }
}

/// Spans are of no use in a run: they are replaced by records.
const NO_SPAN: Span = Span { start: 0, end: 0 };

fn term(kind: TermKind) -> Term {
    Term {
        kind,
        span: NO_SPAN,
    }
}

fn character(ch: char) -> Term {
    term(TermKind::Symbol(Symbol::Char(ch)))
}

fn number(digits: &str) -> Term {
    term(TermKind::Symbol(Symbol::Number(digits.into())))
}

fn variable(kind: VariableKind, name: &str) -> Term {
    let name = name.into();
    term(TermKind::Variable(Variable { kind, name }))
}

fn call_kind(name: &str, args: Vec<Term>) -> TermKind {
    let name = name.into();
    TermKind::Call { name, args }
}

fn call(name: &str, args: Vec<Term>) -> Term {
    term(call_kind(name, args))
}

fn sentence(pattern: Vec<Term>, result: Vec<Term>) -> Sentence {
    Sentence {
        pattern,
        conditions: Vec::new(),
        result,
        span: NO_SPAN,
    }
}

fn function(name: &str, sentences: Vec<Sentence>) -> Function {
    Function {
        name: name.into(),
        visibility: Visibility::Local,
        sentences,
        span: NO_SPAN,
    }
}

/// `F` gives characters, then numbers, one character more for each term of its argument; each round finds one of them.
/// `G` wants a character where the rounds, when they end, still have a number.
fn growing(random: &mut Random) -> Vec<Function> {
    let numbers = random.within(4, 8);
    let (wanted, given) = (random.within(3, 8), random.within(3, 8));
    let rest = || variable(VariableKind::Expression, "X");
    let ones = || (0..numbers).map(|_| number("1"));

    let shortest: Vec<Term> = [character('a')].into_iter().chain(ones()).collect();
    let inner = call("F", vec![rest()]);
    let longer = [character('a'), inner].into_iter().chain(ones()).collect();
    let mut pattern: Vec<Term> = (0..wanted)
        .map(|index| variable(VariableKind::Symbol, &index.to_string()))
        .collect();
    pattern.extend([character('a'), rest()]);
    let argument = (0..given).map(|_| character('x')).collect();
    let result = vec![call("G", vec![call("F", argument)])];
    vec![
        function(
            "F",
            vec![
                sentence(Vec::new(), shortest),
                sentence(vec![character('x'), rest()], longer),
            ],
        ),
        function("G", vec![sentence(pattern, result)]),
    ]
}

/// Laws with few variables and symbols.
struct Few<'r> {
    random: &'r mut Random,
    terms_left: usize,
    /// The left sides of functions' sentences, by name: calls are made from them.
    patterns: Vec<(&'static str, Vec<Term>)>,
}

impl Few<'_> {
    fn of(random: &mut Random) -> Few<'_> {
        Few {
            random,
            terms_left: TERMS,
            patterns: Vec::new(),
        }
    }

    fn functions(mut self) -> Vec<Function> {
        let mut all = Vec::new();
        for place in 0..self.random.within(1, NAMES.len()) {
            // At times a name is defined twice.
            let name = NAMES[if self.random.chance(4) { 0 } else { place }];
            let count = self.random.within(1, 4);
            let sentences = self.left_sides(count);
            let own = sentences.iter().map(|one| (name, one.pattern.clone()));
            self.patterns.extend(own);
            all.push(function(name, sentences));
        }
        for function in &mut all {
            self.complete(&mut function.sentences, 0);
        }
        all
    }

    /// Sentences that have patterns alone. Some of them vary an earlier one.
    fn left_sides(&mut self, count: usize) -> Vec<Sentence> {
        let mut all: Vec<Sentence> = Vec::new();
        for _ in 0..count {
            let pattern = match self.random.below(10) {
                0..=4 if !all.is_empty() => {
                    let earlier = self.random.pick(&all).pattern.clone();
                    self.variant(&earlier)
                }
                0..=1 => self.split_pattern(),
                _ => self.terms(4, |few| few.pattern_kind(0)),
            };
            all.push(sentence(pattern, Vec::new()));
        }
        all
    }

    /// A bracket of e. variables, and what may depend on how it is divided: `(e.A e.B) e.A`, `(e.A) t.B` and so on.
    fn split_pattern(&mut self) -> Vec<Term> {
        let e_variable = |few: &mut Self| variable(VariableKind::Expression, few.index());
        let count = self.random.within(1, 2);
        let inside = (0..count).map(|_| e_variable(self)).collect();
        let mut all = vec![term(TermKind::Bracket(inside))];
        all.push(match self.random.chance(50) {
            true => e_variable(self),
            false => term(self.variable()),
        });
        all
    }

    /// Adds conditions and results.
    fn complete(&mut self, sentences: &mut [Sentence], depth: usize) {
        for sentence in sentences {
            while self.random.chance(10) {
                sentence.conditions.push(Condition {
                    result: self.terms(2, |few| few.result_kind(2)),
                    pattern: self.terms(2, |few| few.pattern_kind(1)),
                    span: NO_SPAN,
                });
            }
            sentence.result = self.terms(4, |few| few.result_kind(depth));
        }
    }

    fn terms(&mut self, most: usize, mut kind: impl FnMut(&mut Self) -> TermKind) -> Vec<Term> {
        let count = self.random.within(0, most).min(self.terms_left);
        self.terms_left -= count;
        (0..count).map(|_| term(kind(self))).collect()
    }

    fn pattern_kind(&mut self, depth: usize) -> TermKind {
        match self.random.below(100) {
            0..=24 if depth < 2 => {
                TermKind::Bracket(self.terms(2, |few| few.pattern_kind(depth + 1)))
            }
            0..=79 => self.variable(),
            _ => self.symbol(),
        }
    }

    fn variant(&mut self, pattern: &[Term]) -> Vec<Term> {
        let mut all = Vec::new();
        for one in pattern {
            let kind = match &one.kind {
                _ if self.random.chance(20) => self.pattern_kind(1),
                TermKind::Bracket(inside) => TermKind::Bracket(self.variant(inside)),
                kind => kind.clone(),
            };
            all.push(term(kind));
        }
        all
    }

    fn result_kind(&mut self, depth: usize) -> TermKind {
        match self.random.below(100) {
            0..=29 if depth < 4 => self.call(depth),
            30..=37 if depth < 2 => {
                let mut sentences = self.left_sides(2);
                self.complete(&mut sentences, depth + 2);
                TermKind::Block {
                    argument: self.terms(2, |few| few.result_kind(depth + 2)),
                    sentences,
                }
            }
            38..=49 if depth < 4 => {
                TermKind::Bracket(self.terms(2, |few| few.result_kind(depth + 1)))
            }
            50..=74 => self.variable(),
            _ => self.symbol(),
        }
    }

    /// With an argument that a pattern of its function nearly matches, or with any other. Not all names are defined.
    fn call(&mut self, depth: usize) -> TermKind {
        let (name, pattern) = self.random.pick(&self.patterns).clone();
        let (name, args) = match self.random.below(10) {
            0..=3 => (name, self.instance(&pattern, &mut HashMap::new())),
            4..=5 => (name, self.terms(3, |few| few.literal_kind(0))),
            _ => {
                let args = self.terms(3, |few| few.result_kind(depth + 1));
                (*self.random.pick(&NAMES), args)
            }
        };
        call_kind(name, args)
    }

    fn literal_kind(&mut self, depth: usize) -> TermKind {
        match depth < 2 && self.random.chance(35) {
            true => TermKind::Bracket(self.terms(2, |few| few.literal_kind(depth + 1))),
            false => self.symbol(),
        }
    }

    /// Terms without variables.
    fn instance(
        &mut self,
        pattern: &[Term],
        values: &mut HashMap<(VariableKind, String), Vec<Term>>,
    ) -> Vec<Term> {
        let mut row = Vec::new();
        for one in pattern {
            match &one.kind {
                _ if self.random.chance(7) => row.push(term(self.symbol())),
                TermKind::Bracket(inside) => {
                    row.push(term(TermKind::Bracket(self.instance(inside, values))))
                }
                TermKind::Variable(variable) => {
                    let value = match values.get(&key(variable)) {
                        Some(value) => value.clone(),
                        None => self.value(variable.kind),
                    };
                    row.extend(value.clone());
                    values.insert(key(variable), value);
                }
                TermKind::Symbol(Symbol::Number(_)) => row.push(number(self.digits())),
                kind => row.push(term(kind.clone())),
            }
        }
        row
    }

    fn value(&mut self, kind: VariableKind) -> Vec<Term> {
        match kind {
            VariableKind::Symbol => vec![term(self.symbol())],
            VariableKind::Term => vec![term(self.literal_kind(1))],
            VariableKind::Expression => self.terms(2, |few| few.literal_kind(1)),
        }
    }

    fn variable(&mut self) -> TermKind {
        let kind = match self.random.below(10) {
            0..=3 => VariableKind::Expression,
            4..=6 => VariableKind::Term,
            _ => VariableKind::Symbol,
        };
        let name = self.index().into();
        TermKind::Variable(Variable { kind, name })
    }

    fn index(&mut self) -> &'static str {
        ["A", "B"][self.random.below(2)]
    }

    fn symbol(&mut self) -> TermKind {
        TermKind::Symbol(match self.random.below(10) {
            0..=5 => Symbol::Char(*self.random.pick(&['x', 'y'])),
            6..=8 => Symbol::Number(self.digits().into()),
            _ => Symbol::Identifier("Q".into()),
        })
    }

    /// Two of these have one value, and one begins as another.
    fn digits(&mut self) -> &'static str {
        ["1", "1", "01", "10"][self.random.below(4)]
    }
}
