//! Random small patterns and rows: few symbols and few names, so that variables are often repeated and rows often match.
//! Numbers are spelled with more or fewer zeros each time.
use refal_ast::{Span, Symbol, Term, TermKind, Variable, VariableKind};

use crate::encode::key;
use crate::random::Random;
use crate::zeros::{DIGITS, significant};

const DEPTH: usize = 3;
const LONGEST: usize = 8;
/// The most variables of a kind in a pattern made of repeats.
const GROUPS: usize = 4;
/// The values of numbers: one is the beginning of another, and two are the same modulo 2^64.
const VALUES: [&str; 5] = ["0", "1", "10", "2", "18446744073709551617"];
/// No finding of a pair has this span.
pub const NOWHERE: Span = Span {
    start: 1_000_000,
    end: 1_000_000,
};

/// The values that a row has in the place of a pattern's variables.
type Values = Vec<((VariableKind, String), Vec<Term>)>;

pub struct Maker<'r> {
    pub random: &'r mut Random,
    /// Whether what is made has no variables, calls and blocks.
    literal: bool,
    /// Whether nearly all symbols are the same, so that rows divide in many ways.
    alike: bool,
    /// Whether the symbol that most are is a number.
    numbers: bool,
}

impl Maker<'_> {
    pub fn new(random: &mut Random) -> Maker<'_> {
        Maker {
            random,
            literal: false,
            alike: false,
            numbers: false,
        }
    }

    pub fn pattern(&mut self) -> Vec<Term> {
        self.literal = false;
        self.alike = self.random.chance(40);
        self.numbers = self.random.chance(30);
        match self.random.below(10) {
            0..=3 => self.terms(LONGEST, 0),
            4..=5 => self.crossed(),
            _ => self.groups(0),
        }
    }

    /// A row for a pattern: most are the pattern with values for its variables.
    pub fn row(&mut self, pattern: &[Term], literal: bool) -> Vec<Term> {
        self.literal = literal;
        if self.random.chance(25) {
            return self.terms(LONGEST, 0);
        }
        let kept = *self.random.pick(&[100, 80, 0]);
        let mut row = self.filled(pattern, kept, &mut Values::new());
        if self.random.chance(30) {
            self.changed(&mut row);
        }
        row
    }

    fn terms(&mut self, longest: usize, depth: usize) -> Vec<Term> {
        let count = self.random.within(0, longest);
        (0..count).map(|_| self.term(depth)).collect()
    }

    fn term(&mut self, depth: usize) -> Term {
        match self.random.below(100) {
            0..=14 if depth < DEPTH => self.bracket(depth),
            15..=16 if !self.literal => self.call_or_block(),
            17..=59 if !self.literal => {
                let name = *self.random.pick(&["A", "A", "a", "B", "b", "c"]);
                let kinds = [
                    VariableKind::Symbol,
                    VariableKind::Term,
                    VariableKind::Expression,
                    VariableKind::Expression,
                ];
                let kind = *self.random.pick(&kinds);
                variable(kind, name)
            }
            _ => self.symbol(),
        }
    }

    fn bracket(&mut self, depth: usize) -> Term {
        term(TermKind::Bracket(self.terms(3, depth + 1)))
    }

    fn symbol(&mut self) -> Term {
        let symbol = match self.random.below(20) {
            0..=17 if self.alike => self.most(),
            0..=10 => self.most(),
            11..=14 => Symbol::Char('b'),
            15..=17 => {
                let value = *self.random.pick(&VALUES);
                self.number(value)
            }
            18 => Symbol::Identifier("x_y".into()),
            _ => Symbol::Identifier("X-Y".into()),
        };
        term(TermKind::Symbol(symbol))
    }

    /// The symbol that most are.
    fn most(&mut self) -> Symbol {
        match self.numbers {
            true => self.number("1"),
            false => Symbol::Char('a'),
        }
    }

    /// A number in one of its spellings.
    fn number(&mut self, value: &str) -> Symbol {
        let zeros = match self.random.below(10) {
            0..=4 => 0,
            5..=8 => self.random.within(1, 3),
            _ => DIGITS - value.len(),
        };
        Symbol::Number("0".repeat(zeros) + value)
    }

    /// A term once more, its numbers spelled anew.
    fn again(&mut self, one: &Term) -> Term {
        match &one.kind {
            TermKind::Symbol(Symbol::Number(digits)) => {
                term(TermKind::Symbol(self.number(significant(digits))))
            }
            TermKind::Bracket(inside) => {
                let inside = inside.iter().map(|one| self.again(one)).collect();
                term(TermKind::Bracket(inside))
            }
            _ => one.clone(),
        }
    }

    fn call_or_block(&mut self) -> Term {
        let inside = vec![self.symbol(), variable(VariableKind::Expression, "A")];
        term(match self.random.chance(50) {
            true => TermKind::Call {
                name: "Q".into(),
                args: inside,
            },
            false => TermKind::Block {
                argument: inside,
                sentences: Vec::new(),
            },
        })
    }

    /// e. variables, and the same once more in another order, with terms between them.
    fn crossed(&mut self) -> Vec<Term> {
        let names = &["1", "2", "3"][..self.random.within(1, 3)];
        let mut all = Vec::new();
        for name in names.iter().chain(names.iter().rev()) {
            all.push(variable(VariableKind::Expression, name));
            if self.random.chance(30) {
                all.push(self.term(1));
            }
        }
        if self.random.chance(30) {
            let place = self.random.below(all.len());
            let inside = all.split_off(place);
            all.push(term(TermKind::Bracket(inside)));
        }
        all
    }

    /// Groups of repeated variables, each with names of its own: what follows a group does not depend on its values.
    fn groups(&mut self, depth: usize) -> Vec<Term> {
        let mut all = Vec::new();
        for group in 0..self.random.within(1, GROUPS - depth) {
            let name = format!("{depth}{group}");
            if self.random.chance(35) {
                all.push(variable(VariableKind::Expression, &format!("{name}open")));
            }
            all.extend(self.group(&name, depth));
        }
        if self.random.chance(20) {
            all.push(variable(VariableKind::Expression, "z"));
        }
        all
    }

    fn group(&mut self, name: &str, depth: usize) -> Vec<Term> {
        let (s, t, e) = (
            variable(VariableKind::Symbol, name),
            variable(VariableKind::Term, name),
            variable(VariableKind::Expression, name),
        );
        let free = variable(VariableKind::Expression, &format!("{name}free"));
        let inside = |terms: Vec<Term>| term(TermKind::Bracket(terms));
        match self.random.below(14) {
            0..=2 => vec![e.clone(), e],
            3 => vec![e.clone(), self.symbol(), e],
            4 => vec![s.clone(), s],
            5 => vec![s.clone(), e, s],
            6 => vec![t.clone(), t],
            7 => vec![inside(vec![e.clone()]), e],
            8 => vec![e.clone(), inside(vec![e])],
            9 => vec![inside(vec![s.clone(), e]), s],
            // These match at times only where the bracket is gone back into.
            10 => vec![inside(vec![e.clone(), free]), e],
            11 => vec![inside(vec![free, s.clone(), e]), s],
            12 if depth + 1 < DEPTH => vec![inside(self.groups(depth + 1))],
            _ => vec![self.symbol()],
        }
    }

    /// The pattern with a value for each variable. At an occurrence after the first the value is the same so many times in
    /// a hundred; where it never is, the row passes the loose test all the same.
    fn filled(&mut self, pattern: &[Term], kept: usize, values: &mut Values) -> Vec<Term> {
        let mut row = Vec::new();
        for one in pattern {
            match &one.kind {
                TermKind::Symbol(_) => row.push(self.again(one)),
                TermKind::Bracket(inside) => {
                    let contents = self.filled(inside, kept, values);
                    row.push(term(TermKind::Bracket(contents)));
                }
                TermKind::Call { .. } | TermKind::Block { .. } => row.push(self.symbol()),
                TermKind::Variable(own) => {
                    let key = key(own);
                    let known = values.iter().find(|(name, _)| *name == key);
                    let known = known.map(|(_, value)| value.clone());
                    match known.filter(|_| self.random.chance(kept)) {
                        Some(value) => row.extend(value.iter().map(|one| self.again(one))),
                        None => {
                            let value = self.value(own.kind);
                            row.extend(value.iter().cloned());
                            values.push((key, value));
                        }
                    }
                }
            }
        }
        row
    }

    fn value(&mut self, kind: VariableKind) -> Vec<Term> {
        match kind {
            VariableKind::Symbol if !self.literal && self.random.chance(20) => {
                vec![variable(VariableKind::Symbol, "B")]
            }
            VariableKind::Symbol => vec![self.symbol()],
            VariableKind::Term if !self.literal && self.random.chance(20) => {
                vec![variable(VariableKind::Term, "B")]
            }
            VariableKind::Term if self.random.chance(30) => vec![self.bracket(DEPTH - 1)],
            VariableKind::Term => vec![self.symbol()],
            VariableKind::Expression => {
                let count = *self.random.pick(&[0, 0, 0, 1, 1, 1, 1, 2, 2, 3, 5]);
                (0..count).map(|_| self.term(DEPTH - 1)).collect()
            }
        }
    }

    /// One term, at any depth, is another, is gone or is new.
    fn changed(&mut self, row: &mut Vec<Term>) {
        let place = self.random.within(0, row.len());
        let inside = row.get_mut(place).map(|one| &mut one.kind);
        if let Some(TermKind::Bracket(inside)) = inside
            && self.random.chance(70)
        {
            return self.changed(inside);
        }
        match self.random.below(3) {
            0 if place < row.len() => row[place] = self.term(DEPTH - 1),
            1 if place < row.len() => drop(row.remove(place)),
            _ => row.insert(place, self.symbol()),
        }
    }
}

pub fn term(kind: TermKind) -> Term {
    Term {
        kind,
        span: NOWHERE,
    }
}

fn variable(kind: VariableKind, name: &str) -> Term {
    term(TermKind::Variable(Variable {
        kind,
        name: name.into(),
    }))
}
