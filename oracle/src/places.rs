//! The calls of a law and its sentences side by side, each with what is around it.
use refal_ast::{Program, Sentence, Span, Term, TermKind};

use crate::refal::functions;

/// The parts of a sentence: its pattern, a condition's result and pattern, its result.
type Parts = [&'static str; 4];
const OF_FUNCTION: Parts = [
    "a pattern",
    "a condition",
    "a condition's pattern",
    "a result",
];
const OF_BLOCK: Parts = [
    "a block's pattern",
    "a block's condition",
    "a block's condition's pattern",
    "a block's result",
];

/// What is around a call or a block, from the outside in.
pub type Around = Vec<&'static str>;

pub struct Site<'a> {
    pub name: &'a str,
    pub args: &'a [Term],
    pub span: Span,
    pub around: Around,
}

impl Site<'_> {
    /// Lints 2 and 3 look at no pattern.
    pub fn is_looked_at(&self) -> bool {
        !self.around.iter().any(|place| place.ends_with("pattern"))
    }
}

/// The sentences of a function or a block.
pub struct Group<'a> {
    pub sentences: &'a [Sentence],
    pub block: bool,
    pub around: Around,
    /// The patterns of the sentences that a block stands in.
    pub outer: Vec<&'a [Term]>,
}

#[derive(Default)]
pub struct Places<'a> {
    pub sites: Vec<Site<'a>>,
    pub groups: Vec<Group<'a>>,
}

impl<'a> Places<'a> {
    pub fn of(program: &'a Program) -> Places<'a> {
        let mut places = Places::default();
        for function in functions(program) {
            places.group(&function.sentences, false, &Around::new(), &[]);
        }
        places
    }

    /// Whether a span tells which call or sentence is meant.
    pub fn spans_differ(&self) -> bool {
        let sentences = self.groups.iter().flat_map(|group| group.sentences);
        let mut spans: Vec<(usize, usize)> = sentences
            .map(|sentence| sentence.span)
            .chain(self.sites.iter().map(|site| site.span))
            .map(|span| (span.start, span.end))
            .collect();
        let all = spans.len();
        spans.sort_unstable();
        spans.dedup();
        spans.len() == all
    }

    fn group(
        &mut self,
        sentences: &'a [Sentence],
        block: bool,
        around: &Around,
        outer: &[&'a [Term]],
    ) {
        self.groups.push(Group {
            sentences,
            block,
            around: around.clone(),
            outer: outer.to_vec(),
        });
        let [pattern, condition, matched, result] = if block { OF_BLOCK } else { OF_FUNCTION };
        for sentence in sentences {
            let inner = [outer, &[sentence.pattern.as_slice()]].concat();
            self.terms(&sentence.pattern, with(around, pattern), &inner);
            for one in &sentence.conditions {
                self.terms(&one.result, with(around, condition), &inner);
                self.terms(&one.pattern, with(around, matched), &inner);
            }
            self.terms(&sentence.result, with(around, result), &inner);
        }
    }

    fn terms(&mut self, terms: &'a [Term], around: Around, outer: &[&'a [Term]]) {
        for term in terms {
            match &term.kind {
                TermKind::Symbol(_) | TermKind::Variable(_) => {}
                TermKind::Bracket(inside) => self.terms(inside, with(&around, "a bracket"), outer),
                TermKind::Call { name, args } => {
                    self.sites.push(Site {
                        name,
                        args,
                        span: term.span,
                        around: around.clone(),
                    });
                    self.terms(args, with(&around, "a call's argument"), outer);
                }
                TermKind::Block {
                    argument,
                    sentences,
                } => {
                    self.terms(argument, with(&around, "a block's argument"), outer);
                    self.group(sentences, true, &around, outer);
                }
            }
        }
    }
}

fn with(around: &Around, inner: &'static str) -> Around {
    let mut all = around.clone();
    if !all.contains(&inner) {
        all.push(inner);
    }
    all
}
