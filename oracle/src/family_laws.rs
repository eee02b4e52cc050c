//! Families of patterns and rows that do not match, each for a reason of its own, and on which a search that tries every length
//! takes ever longer.
use refal_ast::Program;

use crate::parse::parse;

/// Document 01's limits, as far as they bound a family.
const TERMS: usize = 512;
const VARIABLES: usize = 32;
const SHAPES: usize = 64;
/// The numbers of the families that stay slow.
const SLOW: usize = 16;

/// Terms in Refal notation, and how many records they are.
#[derive(Clone, Default)]
struct Part {
    text: String,
    records: usize,
}

impl Part {
    fn one(text: &str) -> Part {
        Part {
            text: format!("{text} "),
            records: 1,
        }
    }

    fn times(&self, count: usize) -> Part {
        Part {
            text: self.text.repeat(count),
            records: self.records * count,
        }
    }

    fn then(mut self, next: &Part) -> Part {
        self.text += &next.text;
        self.records += next.records;
        self
    }

    fn inside(self) -> Part {
        Part {
            text: format!("({}) ", self.text),
            records: self.records + 1,
        }
    }
}

/// What is asked of a pattern and a row.
#[derive(Clone, Copy, Debug, PartialEq)]
pub enum Asked {
    Shadowing,
    Literals,
}

/// A pattern and a row that it does not match.
pub struct Pair {
    /// The numbers that make it one of its family; the first grows.
    pub parameters: String,
    pattern: Part,
    row: Part,
}

impl Pair {
    fn new(parameters: String, pattern: Part, row: Part) -> Pair {
        Pair {
            parameters,
            pattern,
            row,
        }
    }

    /// Whether formats of the row are too large: in a function's pattern or a call's argument they are refused.
    pub fn is_wide(&self) -> bool {
        self.row.records > SHAPES
    }

    /// The law that asks. Of a block's sentences there are no formats.
    pub fn law(&self, asked: Asked) -> Program {
        let (pattern, row) = (&self.pattern.text, &self.row.text);
        let notation = match asked {
            Asked::Literals => format!("F {{ {pattern} = ; }} G {{ = <F {row}>; }}"),
            Asked::Shadowing if self.is_wide() => {
                format!("F {{ = [ : {pattern} = ; {row} = ;]; }}")
            }
            Asked::Shadowing => format!("F {{ {pattern} = ; {row} = ; }}"),
        };
        parse(&notation).expect("the notation is right")
    }
}

pub struct Family {
    pub name: &'static str,
    pub pairs: Vec<Pair>,
    /// Whether the time of each law is printed.
    pub each: bool,
}

pub fn families() -> Vec<Family> {
    let [less, equal, greater] = odd(VARIABLES, 0, |pattern, row| (pattern, row));
    let [_, equal_inside, greater_inside] = odd(VARIABLES, 2, |pattern, row| {
        (pattern.inside(), row.inside())
    });
    let [_, equal_after, greater_after] = odd(VARIABLES - 1, 6, after_bracket);
    let plain = [
        ("a: e.1 .. e.k 'b', 'a' n times", open()),
        ("b: (e.1 e.2) .. 'b', m brackets of 'a' n times", beside()),
        ("b: m brackets in each other, then 'b'", nested(false)),
        ("b: m brackets in each other, 'b' innermost", nested(true)),
        ("c: e.1 e.1 .. e.k e.k, 'a' n times, n = 2k + 1", equal),
        ("c: the same, n greater", greater),
        ("c: the same, n less", less),
        (
            "d: e.1 .. e.k s.A s.A e.Z, 'a' 'b' n times",
            alternating(0, |part| part),
        ),
        ("e: c in a bracket, n = 2k + 1", equal_inside),
        ("e: c in a bracket, n greater", greater_inside),
        ("e: d in a bracket", alternating(2, Part::inside)),
        ("e: (s.A) s.A and c, n = 2k + 1", equal_after),
        ("e: (s.A) s.A and c, n greater", greater_after),
    ];
    let mut all: Vec<Family> = plain
        .into_iter()
        .map(|(name, pairs)| Family {
            name,
            pairs,
            each: false,
        })
        .collect();
    let by_law = [
        (
            "f: e.1 .. e.k 'c' e.k .. e.1, 'a' k times, 'c', 'a' k + 2 times",
            crossed(),
        ),
        ("g: s.A e.1 .. e.k s.A, 'a', 'b' k times", around()),
        (
            "h: (e.1 .. e.k s.A) s.A, ('b' k times) 'a'",
            out_of_bracket(),
        ),
        (
            "i: (.. (e.1 e.2 s.A) e.3 e.4 s.A ..) s.A, (.. ('b' 'b' 'b') 'b' 'b' 'b' ..) 'a'",
            out_of_brackets(),
        ),
        (
            "j: e.1 .. e.k 'c' e.2 e.4 .., 'c', 'a' k + 2 times",
            every_second(),
        ),
    ];
    all.extend(by_law.into_iter().map(|(name, pairs)| Family {
        name,
        pairs,
        each: true,
    }));
    all
}

/// e. variables by number.
fn e(numbers: impl Iterator<Item = usize>) -> Part {
    numbers
        .map(|number| Part::one(&format!("e.{number}")))
        .fold(Part::default(), |all, one| all.then(&one))
}

/// `'a'` so many times.
fn a(count: usize) -> Part {
    Part::one("'a'").times(count)
}

/// 0, 1, 2, 3, 5, 8 and so on, each the sum of the two before it, and the most.
fn grid(most: usize) -> Vec<usize> {
    let (mut all, mut next) = (vec![0], (1, 2));
    while next.0 < most {
        all.push(next.0);
        next = (next.1, next.0 + next.1);
    }
    all.push(most);
    all.dedup();
    all
}

/// The records that are left for a row beside so many, and beside the call or block around it.
fn room(records: usize) -> usize {
    TERMS - 1 - records
}

fn open() -> Vec<Pair> {
    let mut all = Vec::new();
    for k in 1..=VARIABLES {
        let pattern = e(1..=k).then(&Part::one("'b'"));
        for n in grid(room(pattern.records)) {
            all.push(Pair::new(
                format!("k = {k}, n = {n}"),
                pattern.clone(),
                a(n),
            ));
        }
    }
    all
}

fn beside() -> Vec<Pair> {
    let mut all = Vec::new();
    for m in 1..=VARIABLES / 2 {
        let brackets = (0..m).map(|number| e(2 * number + 1..=2 * number + 2).inside());
        let pattern = brackets.fold(Part::default(), |all, one| all.then(&one));
        let pattern = pattern.then(&Part::one("'b'"));
        for n in grid((room(pattern.records) - 1) / m - 1) {
            let row = a(n).inside().times(m).then(&a(1));
            all.push(Pair::new(format!("m = {m}, n = {n}"), pattern.clone(), row));
        }
    }
    all
}

/// The symbol that differs stands behind the outermost bracket, or innermost.
fn nested(innermost: bool) -> Vec<Pair> {
    let mut all = Vec::new();
    for m in 1..=VARIABLES / 2 {
        let around = |last: &str, level: &dyn Fn(usize) -> Part| {
            let (inner, behind) = match innermost {
                true => (Part::one(last), Part::default()),
                false => (Part::default(), Part::one(last)),
            };
            let wrapped = |inside: Part, number| level(number).then(&inside).inside();
            (0..m).rev().fold(inner, wrapped).then(&behind)
        };
        let pattern = around("'b'", &|number| e(2 * number + 1..=2 * number + 2));
        for n in grid((room(pattern.records) - 1) / m - 1) {
            let row = around("'a'", &|_| a(n));
            all.push(Pair::new(format!("m = {m}, n = {n}"), pattern.clone(), row));
        }
    }
    all
}

/// Each of k variables twice and an odd number of symbols: fewer than 2k + 1, as many, more. `placed` puts both in their place,
/// for which it takes so many records.
fn odd(most: usize, records: usize, placed: fn(Part, Part) -> (Part, Part)) -> [Vec<Pair>; 3] {
    let mut all = [Vec::new(), Vec::new(), Vec::new()];
    for k in 1..=most {
        let twice = (1..=k).flat_map(|number| [number, number]);
        let pattern = e(twice);
        let mut lengths = grid(room(pattern.records + records) - 1);
        lengths.push(2 * k);
        lengths.iter_mut().for_each(|length| *length |= 1);
        lengths.sort_unstable();
        lengths.dedup();
        for n in lengths {
            let (pattern, row) = placed(pattern.clone(), a(n));
            let pair = Pair::new(format!("k = {k}, n = {n}"), pattern, row);
            all[1 + usize::from(n > 2 * k + 1) - usize::from(n < 2 * k + 1)].push(pair);
        }
    }
    all
}

fn after_bracket(pattern: Part, row: Part) -> (Part, Part) {
    let (variable, symbol) = (Part::one("s.A"), a(1));
    let before = |one: Part| one.clone().inside().then(&one);
    (before(variable).then(&pattern), before(symbol).then(&row))
}

/// No symbol stands beside itself. `placed` puts both in their place, for which it takes so many records.
fn alternating(records: usize, placed: fn(Part) -> Part) -> Vec<Pair> {
    let mut all = Vec::new();
    for k in 1..=VARIABLES - 2 {
        let last = Part::one("s.A").times(2).then(&Part::one("e.Z"));
        let pattern = e(1..=k).then(&last);
        for n in grid(room(pattern.records + records) / 2) {
            let row = a(1).then(&Part::one("'b'")).times(n);
            let parameters = format!("k = {k}, n = {n}");
            all.push(Pair::new(parameters, placed(pattern.clone()), placed(row)));
        }
    }
    all
}

/// What the variables before `'c'` take they must take again behind it, where two symbols more are: were it one, the numbers of
/// terms would decide.
fn crossed() -> Vec<Pair> {
    let pair = |k: usize| {
        let middle = Part::one("'c'");
        let pattern = e(1..=k).then(&middle).then(&e((1..=k).rev()));
        let row = a(k).then(&middle).then(&a(k + 2));
        Pair::new(format!("k = {k}"), pattern, row)
    };
    (1..=SLOW).map(pair).collect()
}

/// The first and the last symbol differ: every rest between them holds a variable that has a value, the same each time.
fn around() -> Vec<Pair> {
    let pair = |k: usize| {
        let symbol = Part::one("s.A");
        let pattern = symbol.clone().then(&e(1..=k)).then(&symbol);
        let row = a(1).then(&Part::one("'b'").times(k));
        Pair::new(format!("k = {k}"), pattern, row)
    };
    (1..VARIABLES).map(pair).collect()
}

/// The variable in the bracket has another value than behind it: literal matching goes back into the bracket.
fn out_of_bracket() -> Vec<Pair> {
    let pair = |k: usize| {
        let symbol = Part::one("s.A");
        let pattern = e(1..=k).then(&symbol).inside().then(&symbol);
        let row = Part::one("'b'").times(k).inside().then(&a(1));
        Pair::new(format!("k = {k}"), pattern, row)
    };
    (1..VARIABLES).map(pair).collect()
}

/// Each bracket can be matched in three ways, and what is around it fails behind each of them.
fn out_of_brackets() -> Vec<Pair> {
    let symbol = Part::one("s.A");
    let level =
        |pattern: Part, m: usize| pattern.then(&e(2 * m - 1..=2 * m)).then(&symbol).inside();
    let pair = |m: usize| {
        let pattern = (1..=m).fold(Part::default(), level).then(&symbol);
        let b = Part::one("'b'").times(3);
        let row = (0..m).fold(Part::default(), |row, _| row.then(&b).inside());
        Pair::new(format!("m = {m}"), pattern, row.then(&a(1)))
    };
    (1..=(VARIABLES - 1) / 2).map(pair).collect()
}

/// The smallest laws known to take long: a rest depends on every second value before it, and the values between them are never
/// met twice.
fn every_second() -> Vec<Pair> {
    let pair = |k: usize| {
        let middle = Part::one("'c'");
        let pattern = e(1..=k).then(&middle).then(&e((2..k).step_by(2)));
        let row = middle.then(&a(k + 2));
        Pair::new(format!("k = {k}"), pattern, row)
    };
    (1..=SLOW).map(pair).collect()
}
