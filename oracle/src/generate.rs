//! Random laws. Vocabularies are small, later patterns are made from earlier ones and arguments from patterns, so that
//! sentences shadow one another and calls nearly match.
use std::collections::HashMap;

use refal_ast::{
    Condition, Function, Item, Program, Sentence, Span, Symbol, Term, TermKind, Variable,
    VariableKind, Visibility,
};

use crate::encode::{Layout, key};
use crate::random::Random;

const BUILTINS: [&str; 8] = [
    "Add", "Sub", "Mul", "Div", "Mod", "Divmod", "Compare", "Numb",
];
const NUMBERS: [&str; 12] = [
    "0",
    "1",
    "2",
    "7",
    "00",
    "007",
    "4294967295",
    "4294967296",
    "004294967295",
    "18446744073709551615",
    "18446744073709551616",
    "0000000000000000000000000000000000000000000000000000000000000000",
];
const CHARACTERS: [char; 12] = [
    'a',
    'b',
    'x',
    '-',
    '+',
    '0',
    '9',
    ' ',
    '\u{0}',
    '\'',
    'é',
    '\u{10ffff}',
];
const NAME_BYTES: &[u8] = b"abcxyzABCXYZ019-_";

pub struct Law {
    pub program: Program,
    pub layout: Layout,
}

/// A law of any kind.
pub fn law(random: &mut Random) -> Law {
    let layout = Layout {
        share: random.chance(70),
        junk: random.chance(30),
        bytes: None,
    };
    match random.below(100) {
        0..=91 => ordinary(random, layout),
        92..=94 => large(random, layout),
        _ => crate::limits::law(random, layout),
    }
}

/// A law with few terms.
pub fn small(random: &mut Random) -> Law {
    let layout = Layout {
        share: true,
        junk: random.chance(30),
        bytes: None,
    };
    let size = Size {
        functions: random.below(4),
        sentences: 3,
        terms: random.within(1, 30),
    };
    Law {
        program: Maker::new(random, size.terms, 20).program(size),
        layout,
    }
}

fn ordinary(random: &mut Random, layout: Layout) -> Law {
    let size = Size {
        functions: random.below(7),
        sentences: random.within(1, 5),
        terms: random.within(4, 120),
    };
    Law {
        program: Maker::new(random, size.terms, 60).program(size),
        layout,
    }
}

fn large(random: &mut Random, layout: Layout) -> Law {
    let functions = random.within(4, 64);
    let size = Size {
        functions,
        sentences: (128 / functions).max(1),
        terms: random.within(200, 512),
    };
    Law {
        program: Maker::new(random, size.terms, 128).program(size),
        layout,
    }
}

/// What a law has at most.
pub struct Size {
    pub functions: usize,
    /// Sentences of one function.
    pub sentences: usize,
    pub terms: usize,
}

/// How a law's spans are: a finding's subject can be told by spans that differ.
#[derive(Clone, Copy)]
enum Spans {
    Rising(usize),
    Wild,
    Zero,
}

pub struct Maker<'r> {
    pub random: &'r mut Random,
    terms_left: usize,
    sentences_left: usize,
    conditions_left: usize,
    spans: Spans,
    names: Vec<String>,
    identifiers: Vec<String>,
    indices: Vec<String>,
    characters: Vec<char>,
    numbers: Vec<String>,
    /// The patterns of each name's sentences, which calls are made from.
    patterns: Vec<(String, Vec<Term>)>,
    e_percent: usize,
    growing_percent: usize,
}

impl<'r> Maker<'r> {
    pub fn new(random: &'r mut Random, terms: usize, sentences: usize) -> Self {
        let spans = match random.below(20) {
            0 => Spans::Wild,
            1 => Spans::Zero,
            _ => Spans::Rising(random.below(50)),
        };
        let e_percent = *random.pick(&[5, 15, 15, 30, 45]);
        let growing_percent = *random.pick(&[2, 5, 5, 10, 80]);
        let mut maker = Maker {
            random,
            terms_left: terms,
            sentences_left: sentences,
            conditions_left: 100,
            spans,
            names: Vec::new(),
            identifiers: Vec::new(),
            indices: Vec::new(),
            characters: Vec::new(),
            numbers: Vec::new(),
            patterns: Vec::new(),
            e_percent,
            growing_percent,
        };
        maker.vocabulary();
        maker
    }

    fn vocabulary(&mut self) {
        let most = if self.terms_left > 150 { 40 } else { 6 };
        for _ in 0..self.random.within(1, most) {
            let name = self.new_name();
            self.names.push(name);
        }
        if self.random.chance(15) {
            let builtin = *self.random.pick(&BUILTINS);
            self.names.push(builtin.into());
        }
        for _ in 0..self.random.within(1, 3) {
            let (identifier, index) = (self.new_name(), self.new_name());
            self.identifiers.push(identifier);
            self.indices.push(index);
        }
        for _ in 0..self.random.within(1, 3) {
            let (character, number) = (self.new_character(), self.new_number());
            self.characters.push(character);
            self.numbers.push(number);
        }
    }

    fn new_name(&mut self) -> String {
        let length = match self.random.below(40) {
            0 => 64,
            1 => self.random.within(5, 63),
            _ => self.random.within(1, 3),
        };
        (0..length)
            .map(|_| *self.random.pick(NAME_BYTES) as char)
            .collect()
    }

    fn new_character(&mut self) -> char {
        if self.random.chance(90) {
            return *self.random.pick(&CHARACTERS);
        }
        char::from_u32(self.random.below(0x11_0000) as u32).unwrap_or('s')
    }

    fn new_number(&mut self) -> String {
        if self.random.chance(80) {
            return (*self.random.pick(&NUMBERS)).into();
        }
        let length = if self.random.chance(5) {
            64
        } else {
            self.random.within(1, 20)
        };
        (0..length)
            .map(|_| (b'0' + self.random.below(10) as u8) as char)
            .collect()
    }

    /// A known number, at times with one more leading zero: the same value, another text.
    fn number(&mut self) -> String {
        let known = self.random.pick(&self.numbers).clone();
        match known.len() < 64 && self.random.chance(15) {
            true => format!("0{known}"),
            false => known,
        }
    }

    pub fn span(&mut self) -> Span {
        match &mut self.spans {
            Spans::Zero => Span { start: 0, end: 0 },
            Spans::Wild => {
                let (start, end) = (self.random.next() as u32, self.random.next() as u32);
                Span {
                    start: start as usize,
                    end: end as usize,
                }
            }
            Spans::Rising(last) => {
                let start = *last + 1;
                *last += 1 + self.random.below(3);
                Span {
                    start,
                    end: *last + self.random.below(9),
                }
            }
        }
    }

    /// The same name for Refal: other cases, and `-` for `_`.
    fn respelled(&mut self, name: &str) -> String {
        if self.random.chance(60) {
            return name.into();
        }
        name.chars()
            .map(|ch| {
                if self.random.chance(50) {
                    other_spelling(ch)
                } else {
                    ch
                }
            })
            .collect()
    }

    /// The same index for Refal but for `-` and `_`, which are two here.
    fn respelled_index(&mut self, index: &str) -> String {
        let hyphens = self.random.chance(10);
        index
            .chars()
            .map(|ch| match ch {
                '-' | '_' if !hyphens => ch,
                _ if self.random.chance(20) => other_spelling(ch),
                _ => ch,
            })
            .collect()
    }

    pub fn program(mut self, size: Size) -> Program {
        let mut all: Vec<Function> = Vec::new();
        for _ in 0..size.functions {
            let one = self.function_with_patterns(size.sentences);
            all.push(one);
        }
        for function in &mut all {
            for sentence in &mut function.sentences {
                self.complete(sentence, &function.name);
            }
        }
        Program {
            items: all.into_iter().map(Item::Function).collect(),
        }
    }

    /// Patterns come first, so that all calls can be made from them.
    fn function_with_patterns(&mut self, sentences: usize) -> Function {
        let known = self.random.pick(&self.names.clone()).clone();
        let name = self.respelled(&known);
        let count = if self.random.chance(6) {
            0
        } else {
            self.random.within(1, sentences)
        };
        let sentences = self.sentences(count, &name);
        for sentence in &sentences {
            self.patterns
                .push((known.clone(), sentence.pattern.clone()));
        }
        let span = self.span();
        Function {
            name,
            visibility: Visibility::Local,
            sentences,
            span,
        }
    }

    fn sentences(&mut self, wanted: usize, owner: &str) -> Vec<Sentence> {
        let mut all: Vec<Sentence> = Vec::new();
        for _ in 0..wanted.min(self.sentences_left) {
            self.sentences_left -= 1;
            let pattern = match self.random.below(100) {
                0..=4 => self.split_pattern(),
                5..=59 if !all.is_empty() => {
                    let earlier = self.random.pick(&all).pattern.clone();
                    self.variant(&earlier, owner)
                }
                _ => self.pattern(0, owner),
            };
            let span = self.span();
            all.push(Sentence {
                pattern,
                conditions: Vec::new(),
                result: Vec::new(),
                span,
            });
        }
        all
    }

    /// A bracket that is divided in several ways, which a later term decides: `(e.A e.B) e.A` and its like.
    fn split_pattern(&mut self) -> Vec<Term> {
        let own = |maker: &mut Self| {
            let count = maker.random.within(2, 3);
            let e_variable = |maker: &mut Self| maker.variable(VariableKind::Expression);
            TermKind::Bracket((0..count).filter_map(|_| maker.term(e_variable)).collect())
        };
        let mut all: Vec<Term> = self.term(own).into_iter().collect();
        all.extend(self.symbols(0, 1));
        all.extend(self.term(|maker| maker.variable(VariableKind::Expression)));
        all
    }

    /// Adds conditions and result.
    fn complete(&mut self, sentence: &mut Sentence, owner: &str) {
        while self.conditions_left > 0 && self.random.chance(15) {
            self.conditions_left -= 1;
            let result = self.result(1, owner);
            let pattern = match self.random.chance(25) {
                true => self
                    .term(|maker| maker.block(1, owner))
                    .into_iter()
                    .collect(),
                false => self.pattern(1, owner),
            };
            let span = self.span();
            sentence.conditions.push(Condition {
                result,
                pattern,
                span,
            });
        }
        sentence.result = match self.random.chance(self.growing_percent) {
            true => self.growing(owner),
            false => self.result(0, owner),
        };
    }

    /// A result that grows from round to round: formats settle late or not at all.
    fn growing(&mut self, owner: &str) -> Vec<Term> {
        let mut terms = self.symbols(0, 3);
        let name = if self.random.chance(70) {
            owner.to_string()
        } else {
            self.random.pick(&self.names.clone()).clone()
        };
        let name = self.respelled(&name);
        terms.extend(self.term(|_| TermKind::Call {
            name,
            args: Vec::new(),
        }));
        terms.extend(self.symbols(0, 6));
        terms
    }

    fn symbols(&mut self, least: usize, most: usize) -> Vec<Term> {
        (0..self.random.within(least, most))
            .filter_map(|_| self.term(Maker::symbol))
            .collect()
    }

    /// One more term, where there may be one.
    pub fn term(&mut self, kind: impl FnOnce(&mut Self) -> TermKind) -> Option<Term> {
        self.terms_left = self.terms_left.checked_sub(1)?;
        let span = self.span();
        Some(Term {
            kind: kind(self),
            span,
        })
    }

    fn count(&mut self, depth: usize) -> usize {
        let most = [5, 3, 2, 2][depth.min(3)];
        if self.random.chance(3) {
            self.random.within(0, 12)
        } else {
            self.random.within(0, most)
        }
    }

    fn pattern(&mut self, depth: usize, owner: &str) -> Vec<Term> {
        (0..self.count(depth))
            .filter_map(|_| self.term(|maker| maker.pattern_kind(depth, owner)))
            .collect()
    }

    fn pattern_kind(&mut self, depth: usize, owner: &str) -> TermKind {
        if self.random.chance(self.e_percent) {
            return self.variable(VariableKind::Expression);
        }
        match self.random.below(100) {
            0..=34 => self.symbol(),
            35..=54 => self.variable(VariableKind::Symbol),
            55..=69 => self.variable(VariableKind::Term),
            70..=96 if depth < 6 => TermKind::Bracket(self.pattern(depth + 1, owner)),
            97 if depth < 4 => self.call(depth + 1, owner),
            98 if depth < 4 => self.block(depth + 1, owner),
            _ => self.symbol(),
        }
    }

    fn result(&mut self, depth: usize, owner: &str) -> Vec<Term> {
        (0..self.count(depth))
            .filter_map(|_| self.term(|maker| maker.result_kind(depth, owner)))
            .collect()
    }

    fn result_kind(&mut self, depth: usize, owner: &str) -> TermKind {
        match self.random.below(100) {
            0..=24 => self.symbol(),
            25..=29 => self.variable(VariableKind::Symbol),
            30..=34 => self.variable(VariableKind::Term),
            35..=42 => self.variable(VariableKind::Expression),
            43..=55 if depth < 6 => TermKind::Bracket(self.result(depth + 1, owner)),
            56..=91 if depth < 5 => self.call(depth + 1, owner),
            92..=99 if depth < 4 => self.block(depth + 1, owner),
            _ => self.symbol(),
        }
    }

    fn symbol(&mut self) -> TermKind {
        TermKind::Symbol(match self.random.below(10) {
            0..=4 => Symbol::Char(*self.random.pick(&self.characters)),
            5..=7 => Symbol::Number(self.number()),
            _ => {
                let known = self.random.pick(&self.identifiers).clone();
                Symbol::Identifier(self.respelled(&known))
            }
        })
    }

    fn variable(&mut self, kind: VariableKind) -> TermKind {
        let known = self.random.pick(&self.indices).clone();
        TermKind::Variable(Variable {
            kind,
            name: self.respelled_index(&known),
        })
    }

    fn block(&mut self, depth: usize, owner: &str) -> TermKind {
        let argument = self.result(depth, owner);
        let count = self.random.below(4);
        let mut sentences = self.sentences(count, owner);
        for sentence in &mut sentences {
            self.complete(sentence, owner);
        }
        TermKind::Block {
            argument,
            sentences,
        }
    }

    fn call(&mut self, depth: usize, owner: &str) -> TermKind {
        match self.random.below(100) {
            0..=29 => self.builtin_call(depth, owner),
            30..=37 => TermKind::Call {
                name: self.new_name(),
                args: self.result(depth, owner),
            },
            38..=79 if !self.patterns.is_empty() => self.fitting_call(),
            _ => {
                let known = self.random.pick(&self.names).clone();
                TermKind::Call {
                    name: self.respelled(&known),
                    args: self.result(depth, owner),
                }
            }
        }
    }

    /// A call whose argument is made from a pattern of its function.
    fn fitting_call(&mut self) -> TermKind {
        let (known, pattern) = self.random.pick(&self.patterns).clone();
        let literal = self.random.chance(70);
        let args = self.instance(&pattern, literal, &mut HashMap::new());
        TermKind::Call {
            name: self.respelled(&known),
            args,
        }
    }

    fn builtin_call(&mut self, depth: usize, owner: &str) -> TermKind {
        let known = *self.random.pick(&BUILTINS);
        let name = self.respelled(known);
        let args = match self.random.below(10) {
            0..=6 if known == "Numb" => self.digits(),
            0..=7 => self.operands(),
            _ => self.result(depth, owner),
        };
        TermKind::Call { name, args }
    }

    fn digits(&mut self) -> Vec<Term> {
        let other = self.random.chance(30);
        let digit = |maker: &mut Self| {
            let digit = (b'0' + maker.random.below(10) as u8) as char;
            let ch = if other && maker.random.chance(30) {
                *maker.random.pick(&['-', 'a', '٣', '.'])
            } else {
                digit
            };
            TermKind::Symbol(Symbol::Char(ch))
        };
        (0..self.random.below(4))
            .filter_map(|_| self.term(digit))
            .collect()
    }

    /// Signs and numbers, and at times something else.
    fn operands(&mut self) -> Vec<Term> {
        let operand = |maker: &mut Self| match maker.random.below(20) {
            0..=3 => TermKind::Symbol(Symbol::Char(*maker.random.pick(&['-', '+']))),
            4..=15 => TermKind::Symbol(Symbol::Number(maker.new_number())),
            16 => TermKind::Bracket(maker.symbols(0, 2)),
            17 => maker.variable(VariableKind::Symbol),
            _ => maker.symbol(),
        };
        (0..self.random.below(5))
            .filter_map(|_| self.term(operand))
            .collect()
    }

    /// A pattern that is wider or narrower than another in some places.
    fn variant(&mut self, pattern: &[Term], owner: &str) -> Vec<Term> {
        let mut all = Vec::new();
        for term in pattern {
            match self.random.below(12) {
                0 => all.extend(self.term(|maker| maker.pattern_kind(3, owner))),
                1 => all.extend(self.symbols(0, 2)),
                2 => all.extend(self.term(|maker| maker.variable(VariableKind::Expression))),
                _ => all.extend(self.copy(term, owner)),
            }
        }
        if self.random.chance(10) {
            all.extend(self.term(|maker| maker.pattern_kind(3, owner)));
        }
        all
    }

    fn copy(&mut self, term: &Term, owner: &str) -> Option<Term> {
        let kind = match &term.kind {
            TermKind::Bracket(inside) => {
                return self.term(|maker| TermKind::Bracket(maker.variant(inside, owner)));
            }
            TermKind::Symbol(symbol) => TermKind::Symbol(symbol.clone()),
            TermKind::Variable(variable) if self.random.chance(15) => self.variable(variable.kind),
            TermKind::Variable(variable) => TermKind::Variable(variable.clone()),
            TermKind::Call { .. } | TermKind::Block { .. } => self.symbol(),
        };
        self.term(|_| kind)
    }

    /// A row that a pattern would match, but for a slip now and then.
    fn instance(
        &mut self,
        pattern: &[Term],
        literal: bool,
        values: &mut HashMap<(VariableKind, String), Vec<Term>>,
    ) -> Vec<Term> {
        let mut row = Vec::new();
        for term in pattern {
            match &term.kind {
                _ if self.random.chance(6) => row.extend(self.term(Maker::symbol)),
                TermKind::Symbol(symbol) => {
                    row.extend(self.term(|_| TermKind::Symbol(symbol.clone())))
                }
                TermKind::Bracket(inside) => row.extend(
                    self.term(|maker| TermKind::Bracket(maker.instance(inside, literal, values))),
                ),
                TermKind::Variable(variable) => {
                    let value = match values.get(&key(variable)) {
                        Some(value) if self.random.chance(90) => value.clone(),
                        _ => self.value(variable.kind, literal),
                    };
                    row.extend(value.iter().filter_map(|term| self.repeated(term)));
                    values.insert(key(variable), value);
                }
                TermKind::Call { .. } | TermKind::Block { .. } => {}
            }
        }
        row
    }

    /// A term again, with a span of its own.
    fn repeated(&mut self, term: &Term) -> Option<Term> {
        let kind = match &term.kind {
            TermKind::Bracket(inside) => {
                let inside = inside.clone();
                return self.term(|maker| {
                    TermKind::Bracket(
                        inside
                            .iter()
                            .filter_map(|one| maker.repeated(one))
                            .collect(),
                    )
                });
            }
            kind => kind.clone(),
        };
        self.term(|_| kind)
    }

    /// The value of a variable. Its terms are counted where they are put.
    fn value(&mut self, kind: VariableKind, literal: bool) -> Vec<Term> {
        let open = !literal && self.random.chance(50);
        let count = match kind {
            _ if open => 1,
            VariableKind::Symbol | VariableKind::Term => 1,
            VariableKind::Expression => self.random.below(4),
        };
        (0..count).map(|_| self.value_term(kind, open, 0)).collect()
    }

    fn value_term(&mut self, kind: VariableKind, open: bool, depth: usize) -> Term {
        let span = self.span();
        let kind = match kind {
            _ if open => self.variable(kind),
            VariableKind::Term | VariableKind::Expression
                if depth < 3 && self.random.chance(30) =>
            {
                let count = self.random.below(3);
                TermKind::Bracket(
                    (0..count)
                        .map(|_| self.value_term(kind, false, depth + 1))
                        .collect(),
                )
            }
            _ => self.symbol(),
        };
        Term { kind, span }
    }
}

fn other_spelling(ch: char) -> char {
    match ch {
        '-' => '_',
        '_' => '-',
        _ if ch.is_ascii_uppercase() => ch.to_ascii_lowercase(),
        _ => ch.to_ascii_uppercase(),
    }
}
