//! Laws at and next to document 01's limits, on both sides of them.
use refal_ast::{
    Condition, Function, Item, Program, Sentence, Symbol, Term, TermKind, Variable, VariableKind,
    Visibility,
};

use crate::encode::{Layout, TEXT_LIMIT};
use crate::generate::{Law, Maker};
use crate::random::Random;

/// Terms are not counted here: some laws shall have too many.
const ENOUGH: usize = 5_000;

pub fn law(random: &mut Random, mut layout: Layout) -> Law {
    let near = random.below(4);
    let kind = random.below(26);
    let mut make = Make(Maker::new(random, ENOUGH, ENOUGH));
    let functions = match kind {
        0 | 1 => make.functions(62 + near),
        2 | 3 => make.sentences(126 + near),
        4 | 5 => make.terms(510 + near),
        6 | 7 => make.depth(30 + near),
        8 | 9 => make.variables(30 + near),
        10 | 11 => {
            layout.bytes = Some(bilzarko::LAW_BYTES - 2 + near);
            make.bytes()
        }
        12 | 13 => make.conditions(126 + near),
        14 | 15 => make.wide_pattern(62 + near),
        16 => make.wide_result(62 + near),
        17 => make.wide_argument(62 + near),
        18 => make.findings(127 + near),
        19 | 20 => make.long_patterns(),
        21 | 22 => make.late_rounds(),
        23 | 24 => make.slow_match(),
        _ => {
            layout.share = false;
            layout.junk = false;
            make.text(near)
        }
    };
    Law {
        program: Program {
            items: functions.into_iter().map(Item::Function).collect(),
        },
        layout,
    }
}

struct Make<'r>(Maker<'r>);

impl Make<'_> {
    fn one(&mut self, kind: TermKind) -> Term {
        Term {
            kind,
            span: self.0.span(),
        }
    }

    fn symbol(&mut self) -> Term {
        let kind = match self.0.random.below(3) {
            0 => Symbol::Char('a'),
            1 => Symbol::Number("1".into()),
            _ => Symbol::Identifier("x".into()),
        };
        self.one(TermKind::Symbol(kind))
    }

    fn symbols(&mut self, count: usize) -> Vec<Term> {
        (0..count).map(|_| self.symbol()).collect()
    }

    fn call(&mut self, name: &str, args: Vec<Term>) -> Term {
        self.one(TermKind::Call {
            name: name.into(),
            args,
        })
    }

    fn sentence(&mut self, pattern: Vec<Term>, result: Vec<Term>) -> Sentence {
        Sentence {
            pattern,
            conditions: Vec::new(),
            result,
            span: self.0.span(),
        }
    }

    fn function(&mut self, name: &str, sentences: Vec<Sentence>) -> Function {
        Function {
            name: name.into(),
            visibility: Visibility::Local,
            sentences,
            span: self.0.span(),
        }
    }

    /// Each calls the next, so that rounds go through many.
    fn functions(&mut self, count: usize) -> Vec<Function> {
        let backwards = self.0.random.chance(50);
        let mut all = Vec::new();
        for number in 0..count {
            let next = if backwards {
                (number + 1) % count
            } else {
                (number + count - 1) % count
            };
            let mut result = self.symbols(1);
            result.push(self.call(&format!("f_{next}"), Vec::new()));
            let argument = self.0.random.below(2);
            let pattern = self.symbols(argument);
            let sentence = self.sentence(pattern, result);
            all.push(self.function(&format!("F-{number}"), vec![sentence]));
        }
        all
    }

    /// Half of them in a block.
    fn sentences(&mut self, count: usize) -> Vec<Function> {
        let inner = self.0.random.below(count);
        let mut own = self.short_sentences(count - 1 - inner);
        let sentences = self.short_sentences(inner);
        let argument = self.symbols(1);
        let block = self.one(TermKind::Block {
            argument,
            sentences,
        });
        let last = self.sentence(Vec::new(), vec![block]);
        own.push(last);
        vec![self.function("Many", own)]
    }

    fn short_sentences(&mut self, count: usize) -> Vec<Sentence> {
        let mut all = Vec::new();
        for _ in 0..count {
            let length = self.0.random.below(3);
            let pattern = self.symbols(length);
            all.push(self.sentence(pattern, Vec::new()));
        }
        all
    }

    fn terms(&mut self, count: usize) -> Vec<Function> {
        let mut own = Vec::new();
        let mut left = count;
        while left > 0 {
            let pattern = left.min(self.0.random.within(0, 30));
            let result = (left - pattern).min(self.0.random.within(1, 30));
            left -= pattern + result;
            let (pattern, result) = (self.symbols(pattern), self.symbols(result));
            own.push(self.sentence(pattern, result));
        }
        vec![self.function("Long", own)]
    }

    fn depth(&mut self, count: usize) -> Vec<Function> {
        let mut inside = self.symbols(1);
        for _ in 0..count {
            inside = vec![self.around(inside)];
        }
        let sentence = match self.0.random.chance(50) {
            true => self.sentence(inside, Vec::new()),
            false => self.sentence(Vec::new(), inside),
        };
        let own = vec![sentence.clone(), sentence];
        vec![self.function("Deep", own)]
    }

    fn around(&mut self, inside: Vec<Term>) -> Term {
        let kind = match self.0.random.below(8) {
            0 => TermKind::Call {
                name: "Deep".into(),
                args: inside,
            },
            1 => TermKind::Block {
                argument: inside,
                sentences: Vec::new(),
            },
            2 => {
                let sentences = vec![self.sentence(Vec::new(), inside)];
                TermKind::Block {
                    argument: Vec::new(),
                    sentences,
                }
            }
            _ => TermKind::Bracket(inside),
        };
        self.one(kind)
    }

    fn variables(&mut self, count: usize) -> Vec<Function> {
        let repeated = self.0.random.chance(50);
        let mut pattern = Vec::new();
        for number in 0..count {
            let kind = *self
                .0
                .random
                .pick(&[VariableKind::Symbol, VariableKind::Term]);
            let name = format!("v{number}");
            pattern.push(self.one(TermKind::Variable(Variable {
                kind,
                name: name.clone(),
            })));
            if repeated && self.0.random.chance(30) {
                pattern.push(self.one(TermKind::Variable(Variable {
                    kind,
                    name: name.to_uppercase(),
                })));
            }
        }
        let row = self.symbols(pattern.len());
        let own = vec![
            self.sentence(pattern.clone(), row.clone()),
            self.sentence(pattern, Vec::new()),
        ];
        let call = self.call("vars", row);
        let caller = self.sentence(Vec::new(), vec![call]);
        vec![
            self.function("Vars", own),
            self.function("Go", vec![caller]),
        ]
    }

    /// Near the most terms, and some sentences: the text fills the rest.
    fn bytes(&mut self) -> Vec<Function> {
        let terms = self.0.random.within(480, 512);
        self.terms(terms)
    }

    fn conditions(&mut self, count: usize) -> Vec<Function> {
        let mut left = count;
        let mut own = Vec::new();
        while left > 0 {
            let some = left.min(self.0.random.within(1, 40));
            left -= some;
            let mut sentence = self.sentence(Vec::new(), Vec::new());
            for _ in 0..some {
                let result = vec![self.call("Cond", Vec::new())];
                sentence.conditions.push(Condition {
                    result,
                    pattern: Vec::new(),
                    span: self.0.span(),
                });
            }
            own.push(sentence);
        }
        vec![self.function("cond", own)]
    }

    /// As many shapes, some of them in brackets.
    fn wide(&mut self, shapes: usize) -> Vec<Term> {
        let mut all = Vec::new();
        let mut left = shapes;
        while left > 0 {
            let inside = self.0.random.below(left.min(6));
            left -= inside + 1;
            let contents = self.symbols(inside);
            all.push(if inside > 0 {
                self.one(TermKind::Bracket(contents))
            } else {
                self.symbol()
            });
        }
        all
    }

    fn wide_pattern(&mut self, shapes: usize) -> Vec<Function> {
        let pattern = self.wide(shapes);
        let own = vec![self.sentence(pattern, Vec::new())];
        vec![self.function("Wide", own)]
    }

    /// A callee's shapes count where it is called.
    fn wide_result(&mut self, shapes: usize) -> Vec<Function> {
        let half = self.wide(31);
        let callee = self.sentence(Vec::new(), half);
        let mut result = self.wide(shapes - 62);
        result.push(self.call("half", Vec::new()));
        result.push(self.call("HALF", Vec::new()));
        let caller = self.sentence(Vec::new(), result);
        vec![
            self.function("Go", vec![caller]),
            self.function("Half", vec![callee]),
        ]
    }

    fn wide_argument(&mut self, shapes: usize) -> Vec<Function> {
        let row = self.wide(shapes);
        let kind = VariableKind::Expression;
        let pattern = match self.0.random.chance(50) {
            true => vec![self.one(TermKind::Variable(Variable {
                kind,
                name: "X".into(),
            }))],
            false => self.symbols(1),
        };
        let own = vec![self.sentence(pattern, Vec::new())];
        let call = self.call("Callee", row);
        let caller = self.sentence(Vec::new(), vec![call]);
        vec![
            self.function("Callee", own),
            self.function("Go", vec![caller]),
        ]
    }

    /// The matchers go one call deeper for each record. The e. variable in front keeps formats short.
    fn long_patterns(&mut self) -> Vec<Function> {
        let count = self.0.random.within(100, 165);
        let e_variable = |name: &str| {
            TermKind::Variable(Variable {
                kind: VariableKind::Expression,
                name: name.into(),
            })
        };
        let (repeated, value) = match self.0.random.below(3) {
            0 => (e_variable("X"), None),
            1 => (
                TermKind::Bracket(Vec::new()),
                Some(TermKind::Bracket(Vec::new())),
            ),
            _ => (
                TermKind::Symbol(Symbol::Char('a')),
                Some(TermKind::Symbol(Symbol::Char('a'))),
            ),
        };
        let mut own = Vec::new();
        for _ in 0..2 {
            let mut pattern = vec![self.one(e_variable("A"))];
            pattern.extend((0..count).map(|_| self.one(repeated.clone())));
            own.push(self.sentence(pattern, Vec::new()));
        }
        own.push(self.sentence(Vec::new(), Vec::new()));
        let row = value
            .iter()
            .flat_map(|kind| vec![kind.clone(); count])
            .map(|kind| self.one(kind))
            .collect();
        let call = self.call("long", row);
        let caller = self.sentence(Vec::new(), vec![call]);
        vec![
            self.function("Long", own),
            self.function("Go", vec![caller]),
        ]
    }

    /// Results that grow by a shape each round, until the rounds end.
    fn late_rounds(&mut self) -> Vec<Function> {
        let count = self.0.random.within(1, 3);
        let mut all = Vec::new();
        for number in 0..count {
            let mut result = self.symbols(1);
            result.push(self.call(&format!("R{}", (number + 1) % count), Vec::new()));
            let after = self.0.random.within(1, 12);
            result.extend(self.symbols(after));
            let sentence = self.sentence(Vec::new(), result);
            all.push(self.function(&format!("r{number}"), vec![sentence]));
        }
        all
    }

    /// Many ways to divide a row, all of which fail at the end.
    fn slow_match(&mut self) -> Vec<Function> {
        let (variables, length) = (self.0.random.within(2, 7), self.0.random.within(2, 12));
        let mut pattern = Vec::new();
        for number in 0..variables {
            let name = format!("v{number}");
            pattern.push(self.one(TermKind::Variable(Variable {
                kind: VariableKind::Expression,
                name,
            })));
        }
        pattern.push(self.one(TermKind::Symbol(Symbol::Char('b'))));
        let row = self.symbols(length);
        let own = vec![
            self.sentence(pattern, Vec::new()),
            self.sentence(row.clone(), Vec::new()),
        ];
        let inside = self.one(TermKind::Bracket(row));
        let call = self.call("slow", vec![inside]);
        let caller = self.sentence(Vec::new(), vec![call]);
        vec![
            self.function("Slow", own),
            self.function("Go", vec![caller]),
        ]
    }

    /// Two findings to a call: around the 256 that the text call has places for, or far more.
    fn findings(&mut self, calls: usize) -> Vec<Function> {
        let calls = if self.0.random.chance(20) {
            self.0.random.within(calls, 510)
        } else {
            calls
        };
        let pattern = self.symbols(1);
        let own = vec![self.sentence(pattern, Vec::new())];
        let result = (0..calls).map(|_| self.call("Add", Vec::new())).collect();
        let caller = self.sentence(Vec::new(), result);
        vec![self.function("add", own), self.function("Go", vec![caller])]
    }

    /// Names that fill the text but for a few bytes, or pass it.
    fn text(&mut self, near: usize) -> Vec<Function> {
        let mut all = Vec::new();
        for number in 0..TEXT_LIMIT / 64 - 1 {
            all.push(self.function(&format!("{number:-<64}"), Vec::new()));
        }
        let last = "Z".repeat(62);
        let identifier = self.one(TermKind::Symbol(Symbol::Identifier("Q".repeat(near + 1))));
        let own = vec![self.sentence(vec![identifier], Vec::new())];
        all.push(self.function(&last, own));
        all
    }
}
