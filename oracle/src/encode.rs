//! A `Program` as a law file, with what the comparison asks of its records.
use std::collections::{HashSet, VecDeque};

use refal_ast::{
    Program, Sentence, Span, Symbol, Term, TermKind, Variable, VariableKind,
    canonical_variable_index,
};

use crate::random::Random;
use crate::refal::functions;

pub const TEXT_LIMIT: usize = 4_096;
const FUNCTION_LIMIT: usize = 64;
const SENTENCE_LIMIT: usize = 128;
const CONDITION_LIMIT: usize = 128;
const TERM_LIMIT: usize = 512;
const DEPTH_LIMIT: usize = 32;
const VARIABLE_LIMIT: usize = 32;

/// Where a record belongs: findings name records, the Rust only spans.
#[derive(Clone, Copy)]
pub struct Record {
    pub span: Span,
    pub function: u32,
    pub call: bool,
}

pub struct Encoded {
    pub bytes: Vec<u8>,
    pub sentences: Vec<Record>,
    pub terms: Vec<Record>,
    /// The refusal, 1 to 9, that document 01 has for a law of this size.
    pub refusal: Option<u32>,
}

/// How the text section is laid out: it is free around names, and names may overlap.
#[derive(Clone, Copy)]
pub struct Layout {
    pub share: bool,
    pub junk: bool,
    /// The bytes that the file shall have, where the text has room to make it so.
    pub bytes: Option<usize>,
}

pub fn encode(program: &Program, layout: Layout, random: &mut Random) -> Encoded {
    let mut writer = Writer::new(layout, random);
    writer.functions(program);
    writer.sentences();
    writer.finish(program)
}

struct Writer<'a> {
    layout: Layout,
    random: &'a mut Random,
    text: Vec<u8>,
    function_words: Vec<[u32; 5]>,
    sentence_words: Vec<[u32; 5]>,
    condition_words: Vec<[u32; 4]>,
    term_words: Vec<[u32; 6]>,
    sentence_records: Vec<Record>,
    term_records: Vec<Record>,
    /// Blocks' sentences stand after all that were met before them: record order is the order of a queue.
    waiting: VecDeque<(&'a Sentence, u32)>,
}

impl<'a> Writer<'a> {
    fn new(layout: Layout, random: &'a mut Random) -> Self {
        Writer {
            layout,
            random,
            text: Vec::new(),
            function_words: Vec::new(),
            sentence_words: Vec::new(),
            condition_words: Vec::new(),
            term_words: Vec::new(),
            sentence_records: Vec::new(),
            term_records: Vec::new(),
            waiting: VecDeque::new(),
        }
    }

    fn functions(&mut self, program: &'a Program) {
        for (position, function) in functions(program).enumerate() {
            let (start, length) = self.spelled(&function.name);
            let (from, to) = ends(function.span);
            self.function_words
                .push([start, length, function.sentences.len() as u32, from, to]);
            self.waiting
                .extend(function.sentences.iter().map(|own| (own, position as u32)));
        }
    }

    fn sentences(&mut self) {
        while let Some((sentence, function)) = self.waiting.pop_front() {
            let pattern = self.run(&sentence.pattern, function);
            for condition in &sentence.conditions {
                let result = self.run(&condition.result, function);
                let pattern = self.run(&condition.pattern, function);
                let (from, to) = ends(condition.span);
                self.condition_words.push([result, pattern, from, to]);
            }
            let result = self.run(&sentence.result, function);
            let (from, to) = ends(sentence.span);
            self.sentence_words
                .push([pattern, sentence.conditions.len() as u32, result, from, to]);
            self.sentence_records.push(Record {
                span: sentence.span,
                function,
                call: false,
            });
        }
    }

    /// Writes the records of terms, at all depths, and answers how many there are.
    fn run(&mut self, terms: &'a [Term], function: u32) -> u32 {
        let before = self.term_words.len();
        for term in terms {
            self.term(term, function);
        }
        (self.term_words.len() - before) as u32
    }

    fn term(&mut self, term: &'a Term, function: u32) {
        let place = self.term_words.len();
        let call = matches!(term.kind, TermKind::Call { .. });
        let (from, to) = ends(term.span);
        let (kind, a, b) = self.fields(&term.kind);
        self.term_words.push([kind, a, b, 0, from, to]);
        self.term_records.push(Record {
            span: term.span,
            function,
            call,
        });
        let inside: &'a [Term] = match &term.kind {
            TermKind::Bracket(inside) | TermKind::Call { args: inside, .. } => inside,
            TermKind::Block {
                argument,
                sentences,
            } => {
                self.waiting
                    .extend(sentences.iter().map(|own| (own, function)));
                argument
            }
            TermKind::Symbol(_) | TermKind::Variable(_) => &[],
        };
        self.term_words[place][3] = self.run(inside, function);
    }

    fn fields(&mut self, kind: &TermKind) -> (u32, u32, u32) {
        let (number, spelled) = match kind {
            TermKind::Symbol(Symbol::Char(ch)) => return (0, *ch as u32, 0),
            TermKind::Bracket(_) => return (6, 0, 0),
            TermKind::Block { sentences, .. } => return (8, sentences.len() as u32, 0),
            TermKind::Symbol(Symbol::Identifier(text)) => (1, text),
            TermKind::Symbol(Symbol::Number(text)) => (2, text),
            TermKind::Variable(variable) => (variable_number(variable.kind), &variable.name),
            TermKind::Call { name, .. } => (7, name),
        };
        let (start, length) = self.spelled(spelled);
        (number, start, length)
    }

    /// A place in the text where the name is spelled.
    fn spelled(&mut self, name: &str) -> (u32, u32) {
        let full = self.text.len() + name.len() + 4 > TEXT_LIMIT;
        if self.layout.share || full {
            let found = self
                .text
                .windows(name.len())
                .position(|part| part == name.as_bytes());
            if let Some(start) = found {
                return (start as u32, name.len() as u32);
            }
        }
        if self.layout.junk && !full {
            for _ in 0..self.random.below(4) {
                self.text.push(self.random.next() as u8);
            }
        }
        let start = self.text.len();
        self.text.extend_from_slice(name.as_bytes());
        (start as u32, name.len() as u32)
    }

    fn finish(mut self, program: &Program) -> Encoded {
        self.pad();
        let mut bytes = Vec::with_capacity(self.size());
        put(&mut bytes, self.text.len() as u32);
        bytes.extend_from_slice(&self.text);
        put_section(&mut bytes, &self.function_words);
        put_section(&mut bytes, &self.sentence_words);
        put_section(&mut bytes, &self.condition_words);
        put_section(&mut bytes, &self.term_words);
        let refusal = self.refusal(bytes.len(), program);
        Encoded {
            bytes,
            sentences: self.sentence_records,
            terms: self.term_records,
            refusal,
        }
    }

    fn pad(&mut self) {
        let Some(wanted) = self.layout.bytes else {
            return;
        };
        let missing = wanted.saturating_sub(self.size());
        for _ in 0..missing.min(TEXT_LIMIT.saturating_sub(self.text.len())) {
            self.text.push(self.random.next() as u8);
        }
    }

    fn size(&self) -> usize {
        20 + self.text.len()
            + 20 * self.function_words.len()
            + 20 * self.sentence_words.len()
            + 16 * self.condition_words.len()
            + 24 * self.term_words.len()
    }

    /// In the order of document 01's table. 2, 3, 5, 6 and 7 cannot be met by a file that is written here.
    fn refusal(&self, bytes: usize, program: &Program) -> Option<u32> {
        let over = self.text.len() > TEXT_LIMIT
            || self.function_words.len() > FUNCTION_LIMIT
            || self.sentence_words.len() > SENTENCE_LIMIT
            || self.condition_words.len() > CONDITION_LIMIT
            || self.term_words.len() > TERM_LIMIT;
        match bytes > bilzarko::LAW_BYTES {
            true => Some(1),
            false if over => Some(4),
            false => limit_refusal(program),
        }
    }
}

/// Refusals 8 and 9.
pub fn limit_refusal(program: &Program) -> Option<u32> {
    if deepest(program) > DEPTH_LIMIT {
        return Some(8);
    }
    (most_variables(program) > VARIABLE_LIMIT).then_some(9)
}

fn variable_number(kind: VariableKind) -> u32 {
    match kind {
        VariableKind::Symbol => 3,
        VariableKind::Term => 4,
        VariableKind::Expression => 5,
    }
}

fn ends(span: Span) -> (u32, u32) {
    (span.start as u32, span.end as u32)
}

fn put(bytes: &mut Vec<u8>, word: u32) {
    bytes.extend_from_slice(&word.to_le_bytes());
}

fn put_section<const WORDS: usize>(bytes: &mut Vec<u8>, records: &[[u32; WORDS]]) {
    put(bytes, records.len() as u32);
    for record in records {
        for word in record {
            put(bytes, *word);
        }
    }
}

/// The most brackets, calls and blocks around a term. A block is around its sentences too.
fn deepest(program: &Program) -> usize {
    functions(program)
        .map(|function| sentences_depth(&function.sentences, 0))
        .max()
        .unwrap_or(0)
}

fn sentences_depth(all: &[Sentence], around: usize) -> usize {
    all.iter()
        .flat_map(runs)
        .map(|run| run_depth(run, around))
        .max()
        .unwrap_or(0)
}

fn run_depth(terms: &[Term], around: usize) -> usize {
    terms
        .iter()
        .map(|term| term_depth(term, around))
        .max()
        .unwrap_or(0)
}

fn term_depth(term: &Term, around: usize) -> usize {
    match &term.kind {
        TermKind::Symbol(_) | TermKind::Variable(_) => around,
        TermKind::Bracket(inside) | TermKind::Call { args: inside, .. } => {
            around.max(run_depth(inside, around + 1))
        }
        TermKind::Block {
            argument,
            sentences,
        } => around
            .max(run_depth(argument, around + 1))
            .max(sentences_depth(sentences, around + 1)),
    }
}

/// The runs of terms of a sentence.
fn runs(sentence: &Sentence) -> impl Iterator<Item = &[Term]> {
    let conditions = sentence
        .conditions
        .iter()
        .flat_map(|condition| [condition.result.as_slice(), condition.pattern.as_slice()]);
    [sentence.pattern.as_slice(), sentence.result.as_slice()]
        .into_iter()
        .chain(conditions)
}

/// The most distinct variables in the pattern of a sentence, a block's too.
fn most_variables(program: &Program) -> usize {
    functions(program)
        .map(|function| sentences_variables(&function.sentences))
        .max()
        .unwrap_or(0)
}

fn sentences_variables(all: &[Sentence]) -> usize {
    all.iter().map(sentence_variables).max().unwrap_or(0)
}

fn sentence_variables(sentence: &Sentence) -> usize {
    let mut met = HashSet::new();
    collect_variables(&sentence.pattern, &mut met);
    let inner = runs(sentence).map(inner_variables).max().unwrap_or(0);
    met.len().max(inner)
}

fn inner_variables(terms: &[Term]) -> usize {
    let inner = |term: &Term| match &term.kind {
        TermKind::Symbol(_) | TermKind::Variable(_) => 0,
        TermKind::Bracket(inside) | TermKind::Call { args: inside, .. } => inner_variables(inside),
        TermKind::Block {
            argument,
            sentences,
        } => inner_variables(argument).max(sentences_variables(sentences)),
    };
    terms.iter().map(inner).max().unwrap_or(0)
}

/// Variables in calls and in blocks' arguments count, those of blocks' sentences do not.
fn collect_variables(terms: &[Term], met: &mut HashSet<(VariableKind, String)>) {
    for term in terms {
        match &term.kind {
            TermKind::Symbol(_) => {}
            TermKind::Variable(variable) => {
                met.insert(key(variable));
            }
            TermKind::Bracket(inside)
            | TermKind::Call { args: inside, .. }
            | TermKind::Block {
                argument: inside, ..
            } => collect_variables(inside, met),
        }
    }
}

/// Two variables are the same when these are.
pub fn key(variable: &Variable) -> (VariableKind, String) {
    (variable.kind, canonical_variable_index(&variable.name))
}
