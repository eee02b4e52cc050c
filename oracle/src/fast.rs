//! Random small pairs of a pattern and a row, many to a law, through the findings call and through the plain search.
use std::process::ExitCode;

use refal_ast::{Function, Item, Program, Sentence, Span, Symbol, Term, TermKind, Visibility};

use crate::encode::{Layout, encode};
use crate::ours::{Buffers, Words};
use crate::pair_terms::{Maker, NOWHERE, term};
use crate::plain::{self, has_repeat, literal_matches, loosely, pattern_of, shadows};
use crate::random::Random;
use crate::refal::notation;
use crate::settings::Settings;
use crate::zeros::significant;

/// A law has so many term records and functions at most, one of which is kept for the calls.
const TERMS: usize = 512;
const FUNCTIONS: usize = 63;
/// Larger patterns and rows are left out: their formats may be refused.
const RECORDS: usize = 48;

#[derive(Default)]
struct Counts {
    laws: usize,
    pairs: usize,
    literals: usize,
    matched: usize,
    repeats: usize,
    brackets: usize,
    with_zeros: usize,
    /// A variable is repeated and the loose test is passed: these are searched.
    searched: usize,
    searched_in_vain: usize,
    by_formats: usize,
    differences: usize,
}

/// What is asked: by the plain search here, by the listing there.
struct Pair {
    pattern: Vec<Term>,
    row: Vec<Term>,
    literal: bool,
}

pub fn run(pairs: u64, seed: u64) -> ExitCode {
    let mut counts = Counts::default();
    let mut buffers = Buffers::new();
    while (counts.pairs as u64) < pairs {
        let number = counts.laws as u64;
        let mut all = law(&mut Random::of(seed, number));
        all.truncate((pairs - counts.pairs as u64) as usize);
        counts.laws += 1;
        compare(&all, &mut counts, &mut buffers);
    }
    println!("{}", counts.summary(seed));
    match counts.differences {
        0 => ExitCode::SUCCESS,
        _ => ExitCode::FAILURE,
    }
}

impl Counts {
    fn summary(&self, seed: u64) -> String {
        format!(
            "seed {seed}: {} pairs in {} laws, {} shadowing and {} literals; {} matched, {} with repeated variables, {} \
             with brackets, {} with needless zeros; {} searched, {} of them without a match; {} listed by formats; {} \
             differ",
            self.pairs,
            self.laws,
            self.pairs - self.literals,
            self.literals,
            self.matched,
            self.repeats,
            self.brackets,
            self.with_zeros,
            self.searched,
            self.searched_in_vain,
            self.by_formats,
            self.differences
        )
    }

    fn note(&mut self, pair: &Pair, pattern: &[plain::Item], row: &[plain::Item], matched: bool) {
        let repeats = has_repeat(pattern);
        let searched = repeats && loosely(pattern, row);
        self.pairs += 1;
        self.literals += usize::from(pair.literal);
        self.matched += usize::from(matched);
        self.repeats += usize::from(repeats);
        self.brackets += usize::from(has_bracket(&pair.pattern) || has_bracket(&pair.row));
        self.with_zeros += usize::from(has_zeros(&pair.pattern) || has_zeros(&pair.row));
        self.searched += usize::from(searched);
        self.searched_in_vain += usize::from(searched && !matched);
    }
}

fn has_bracket(terms: &[Term]) -> bool {
    terms
        .iter()
        .any(|one| matches!(one.kind, TermKind::Bracket(_)))
}

/// Whether a number that may be matched has needless zeros.
fn has_zeros(terms: &[Term]) -> bool {
    terms.iter().any(|one| match &one.kind {
        TermKind::Symbol(Symbol::Number(digits)) => significant(digits) != digits,
        TermKind::Bracket(inside) => has_zeros(inside),
        _ => false,
    })
}

fn records(terms: &[Term]) -> usize {
    let inside = |one: &Term| match &one.kind {
        TermKind::Symbol(_) | TermKind::Variable(_) => 0,
        TermKind::Bracket(inside)
        | TermKind::Call { args: inside, .. }
        | TermKind::Block {
            argument: inside, ..
        } => records(inside),
    };
    terms.iter().map(|one| 1 + inside(one)).sum()
}

/// As many pairs as a law has room for.
fn law(random: &mut Random) -> Vec<Pair> {
    let mut maker = Maker::new(random);
    let (mut all, mut terms) = (Vec::new(), 0);
    while all.len() < FUNCTIONS {
        let literal = maker.random.chance(50);
        let pattern = maker.pattern();
        let row = maker.row(&pattern, literal);
        let sizes = [records(&pattern), records(&row)];
        if sizes.iter().any(|size| *size > RECORDS) {
            continue;
        }
        terms += 1 + sizes.iter().sum::<usize>();
        if terms > TERMS {
            break;
        }
        all.push(Pair {
            pattern,
            row,
            literal,
        });
    }
    all
}

/// Each pair has a function; where its row is literal, a call of it stands in one function more. The span of what a finding
/// would be about is the pair's number.
fn program(pairs: &[Pair]) -> Program {
    let (mut items, mut calls) = (Vec::new(), Vec::new());
    for (number, pair) in pairs.iter().enumerate() {
        let span = Span {
            start: number,
            end: number,
        };
        let name = format!("F{number}");
        let mut own = vec![sentence(pair.pattern.clone(), Vec::new(), NOWHERE)];
        if pair.literal {
            let mut call = term(TermKind::Call {
                name: name.clone(),
                args: pair.row.clone(),
            });
            call.span = span;
            calls.push(call);
        } else {
            own.push(sentence(pair.row.clone(), Vec::new(), span));
        }
        items.push(function(&name, own));
    }
    items.push(function("G", vec![sentence(Vec::new(), calls, NOWHERE)]));
    Program { items }
}

fn sentence(pattern: Vec<Term>, result: Vec<Term>, span: Span) -> Sentence {
    Sentence {
        pattern,
        conditions: Vec::new(),
        result,
        span,
    }
}

fn function(name: &str, sentences: Vec<Sentence>) -> Item {
    Item::Function(Function {
        name: name.into(),
        visibility: Visibility::Local,
        sentences,
        span: NOWHERE,
    })
}

/// What lints 1 and 2 list of a law of pairs.
fn listed(pairs: &[Pair], buffers: &mut Buffers) -> Vec<Words> {
    let layout = Layout {
        share: true,
        junk: false,
        bytes: None,
    };
    let encoded = encode(&program(pairs), layout, &mut Random::of(0, 0));
    let settings = Settings::strict().ours();
    let (_, found) = buffers
        .findings(&settings, &encoded.bytes)
        .expect("a law of pairs is within the limits");
    found.into_iter().filter(|words| words[0] <= 2).collect()
}

fn compare(pairs: &[Pair], counts: &mut Counts, buffers: &mut Buffers) {
    let found = listed(pairs, buffers);
    for (number, pair) in pairs.iter().enumerate() {
        let (pattern, row) = (pattern_of(&pair.pattern), pattern_of(&pair.row));
        let matched = match pair.literal {
            true => literal_matches(&pattern, &row),
            false => shadows(&pattern, &row),
        };
        counts.note(pair, &pattern, &row, matched);
        let own = of_pair(&found, number);
        counts.by_formats += usize::from(own.iter().any(|words| words[0] == 2 && words[4] == 1));
        if !is_right(pair, matched, &own) {
            counts.differences += 1;
            println!("{}", differs(pairs, number, matched, buffers));
        }
    }
}

/// The findings about a pair.
fn of_pair(found: &[Words], number: usize) -> Vec<Words> {
    let own = found.iter().filter(|words| words[2] as usize == number);
    own.copied().collect()
}

/// A literal argument that matches is not compared by formats, so that its call is listed exactly where it does not match:
/// by formats or by literals.
fn is_right(pair: &Pair, matched: bool, own: &[Words]) -> bool {
    match own {
        [] => matched == pair.literal,
        [words] if pair.literal => !matched && words[0] == 2,
        [words] => matched && words[0] == 1 && words[4..6] == [2, 1],
        _ => false,
    }
}

/// The law of the pair alone, or the whole law where it takes that to differ.
fn differs(pairs: &[Pair], number: usize, matched: bool, buffers: &mut Buffers) -> String {
    let said = if matched { "match" } else { "no match" };
    let alone = &pairs[number..=number];
    let own = of_pair(&listed(alone, buffers), 0);
    match is_right(&alone[0], matched, &own) {
        false => format!(
            "plain search: {said}; listed {own:?}: {}",
            notation(&program(alone))
        ),
        true => format!(
            "plain search: {said}; the listing differs at F{number} of the whole law alone: {}",
            notation(&program(pairs))
        ),
    }
}
