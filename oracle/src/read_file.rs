//! The law file of a phrase, written from document 01's first section.
use crate::read_phrase::{Condition, Function, Item, Place, Sentence, Term, TermKind};

/// The records of sections 2 to 5.
#[derive(Default)]
pub struct Records {
    pub functions: Vec<[u32; 5]>,
    pub sentences: Vec<[u32; 5]>,
    pub conditions: Vec<[u32; 4]>,
    pub terms: Vec<[u32; 6]>,
}

impl Records {
    pub fn of(phrase: &[Item]) -> Records {
        let mut records = Records::default();
        for function in functions(phrase) {
            let [start, length] = spelled(&function.name);
            let [from, to] = ends(&function.span);
            let count = function.sentences.len() as u32;
            records.functions.push([start, length, count, from, to]);
            for sentence in &function.sentences {
                records.sentence(sentence);
            }
        }
        records
    }

    fn sentence(&mut self, sentence: &Sentence) {
        let pattern = self.run(&sentence.pattern);
        for condition in &sentence.conditions {
            self.condition(condition);
        }
        let result = self.run(&sentence.result);
        let [from, to] = ends(&sentence.span);
        let count = sentence.conditions.len() as u32;
        self.sentences.push([pattern, count, result, from, to]);
    }

    fn condition(&mut self, condition: &Condition) {
        let result = self.run(&condition.result);
        let pattern = self.run(&condition.pattern);
        let [from, to] = ends(&condition.span);
        self.conditions.push([result, pattern, from, to]);
    }

    /// The number of records that the terms have, at all depths.
    fn run(&mut self, terms: &[Term]) -> u32 {
        let before = self.terms.len();
        for term in terms {
            self.term(term);
        }
        (self.terms.len() - before) as u32
    }

    fn term(&mut self, term: &Term) {
        let ([kind, a, b], inside): ([u32; 3], &[Term]) = match &term.kind {
            TermKind::Character(ch) => ([0, *ch as u32, 0], &[]),
            TermKind::Identifier => (named(1, &term.span), &[]),
            TermKind::Number => (named(2, &term.span), &[]),
            TermKind::Variable('s') => (named(3, &index(term)), &[]),
            TermKind::Variable('t') => (named(4, &index(term)), &[]),
            TermKind::Variable(_) => (named(5, &index(term)), &[]),
            TermKind::Bracket(inside) => ([6, 0, 0], inside),
            TermKind::Call { name, argument } => (named(7, name), argument),
        };
        let [from, to] = ends(&term.span);
        let own = self.terms.len();
        self.terms.push([kind, a, b, 0, from, to]);
        self.terms[own][3] = self.run(inside);
    }

    pub fn file(&self, text: &str) -> Vec<u8> {
        let mut bytes = (text.len() as u32).to_le_bytes().to_vec();
        bytes.extend_from_slice(text.as_bytes());
        section(&self.functions, &mut bytes);
        section(&self.sentences, &mut bytes);
        section(&self.conditions, &mut bytes);
        section(&self.terms, &mut bytes);
        bytes
    }
}

pub fn functions(phrase: &[Item]) -> impl Iterator<Item = &Function> {
    phrase.iter().filter_map(|item| match item {
        Item::Function(function) => Some(function),
        Item::Extern(_) => None,
    })
}

/// The part of a variable behind the point.
pub fn index(variable: &Term) -> Place {
    variable.span.start + 2..variable.span.end
}

fn spelled(place: &Place) -> [u32; 2] {
    [place.start as u32, (place.end - place.start) as u32]
}

fn named(kind: u32, place: &Place) -> [u32; 3] {
    let [start, length] = spelled(place);
    [kind, start, length]
}

fn ends(span: &Place) -> [u32; 2] {
    [span.start as u32, span.end as u32]
}

fn section<const WORDS: usize>(records: &[[u32; WORDS]], bytes: &mut Vec<u8>) {
    bytes.extend((records.len() as u32).to_le_bytes());
    bytes.extend(records.iter().flatten().flat_map(|word| word.to_le_bytes()));
}
