//! The phrase of a text: what its tokens spell by the grammar of document 02's R-1, with places in the text.
use std::mem::take;
use std::ops::Range;

use crate::read_tokens::{Kind, Token};

/// Where something stands in the text, end excluded.
pub type Place = Range<usize>;

pub enum Item {
    Extern(Vec<Place>),
    Function(Function),
}

pub struct Function {
    pub entry: bool,
    pub name: Place,
    pub sentences: Vec<Sentence>,
    pub span: Place,
}

pub struct Sentence {
    pub pattern: Vec<Term>,
    pub conditions: Vec<Condition>,
    pub result: Vec<Term>,
    pub span: Place,
}

pub struct Condition {
    pub result: Vec<Term>,
    pub pattern: Vec<Term>,
    pub span: Place,
}

pub struct Term {
    pub kind: TermKind,
    pub span: Place,
}

pub enum TermKind {
    Character(char),
    Identifier,
    Number,
    /// By its letter: s, t or e.
    Variable(char),
    Bracket(Vec<Term>),
    Call {
        name: Place,
        argument: Vec<Term>,
    },
}

/// A bracket or a call whose end was not met yet.
struct Open {
    start: usize,
    /// Of a call.
    name: Option<Place>,
    /// The terms before it, in the run that it stands in.
    before: Vec<Term>,
}

/// The phrase that the tokens spell; none where they spell none.
pub fn phrase(text: &str, tokens: &[Token]) -> Option<Vec<Item>> {
    let mut reader = Reader {
        text,
        tokens,
        at: 0,
    };
    let mut all = Vec::new();
    while let Some(first) = reader.peek() {
        all.push(match first {
            Kind::Extern => Item::Extern(reader.names()?),
            _ => Item::Function(reader.function()?),
        });
    }
    Some(all)
}

struct Reader<'t> {
    text: &'t str,
    tokens: &'t [Token],
    at: usize,
}

impl Reader<'_> {
    fn peek(&self) -> Option<Kind> {
        self.tokens.get(self.at).map(|token| token.kind)
    }

    /// The place of the next token, where it is of this kind.
    fn take(&mut self, kind: Kind) -> Option<Place> {
        let token = self.tokens.get(self.at)?;
        self.at += usize::from(token.kind == kind);
        (token.kind == kind).then_some(token.start..token.end)
    }

    fn takes(&mut self, mark: char) -> bool {
        self.take(Kind::Mark(mark)).is_some()
    }

    /// From the first byte of a token to the last of the one before the next.
    fn since(&self, first: usize) -> Place {
        self.tokens[first].start..self.tokens[self.at - 1].end
    }

    fn names(&mut self) -> Option<Vec<Place>> {
        self.take(Kind::Extern)?;
        let mut all = vec![self.take(Kind::Identifier)?];
        while self.takes(',') {
            all.push(self.take(Kind::Identifier)?);
        }
        self.takes(';').then_some(all)
    }

    fn function(&mut self) -> Option<Function> {
        let entry = self.take(Kind::Entry).is_some();
        let first = self.at;
        let name = self.take(Kind::Identifier)?;
        self.take(Kind::Mark('{'))?;
        let mut sentences = vec![self.sentence()?];
        while self.takes(';') && self.peek() != Some(Kind::Mark('}')) {
            sentences.push(self.sentence()?);
        }
        self.take(Kind::Mark('}'))?;
        Some(Function {
            entry,
            name,
            sentences,
            span: self.since(first),
        })
    }

    fn sentence(&mut self) -> Option<Sentence> {
        let first = self.at;
        let pattern = self.terms(false)?;
        let mut conditions = Vec::new();
        while self.takes(',') {
            conditions.push(self.condition()?);
        }
        self.take(Kind::Mark('='))?;
        Some(Sentence {
            pattern,
            conditions,
            result: self.terms(true)?,
            span: self.since(first),
        })
    }

    fn condition(&mut self) -> Option<Condition> {
        let first = self.at;
        let result = self.terms(true)?;
        self.take(Kind::Mark(':'))?;
        Some(Condition {
            result,
            pattern: self.terms(false)?,
            span: self.since(first),
        })
    }

    /// The next token, where it is of a term.
    fn of_term(&mut self) -> Option<Token> {
        let token = *self.tokens.get(self.at)?;
        let other = matches!(token.kind, Kind::Entry | Kind::Extern)
            || matches!(token.kind, Kind::Mark(mark) if !"()<>".contains(mark));
        self.at += usize::from(!other);
        (!other).then_some(token)
    }

    /// Terms up to a token of none. What is open waits in a list, since a text may open thousands.
    fn terms(&mut self, calls: bool) -> Option<Vec<Term>> {
        let (mut run, mut open) = (Vec::new(), Vec::new());
        while let Some(token) = self.of_term() {
            match token.kind {
                Kind::Mark('(') => open.push(opened(token, None, &mut run)),
                Kind::Mark('<') if calls => {
                    let name = self.take(Kind::Identifier)?;
                    open.push(opened(token, Some(name), &mut run));
                }
                Kind::Mark(mark) => run = closed(open.pop()?, mark, token.end, run)?,
                Kind::Quoted => self.characters(token, &mut run),
                kind => run.push(word(kind, token)),
            }
        }
        open.is_empty().then_some(run)
    }

    /// "Each character between quotes is one term", with the span of its own bytes.
    fn characters(&self, token: Token, run: &mut Vec<Term>) {
        let start = token.start + 1;
        for (at, ch) in self.text[start..token.end - 1].char_indices() {
            run.push(Term {
                kind: TermKind::Character(ch),
                span: start + at..start + at + ch.len_utf8(),
            });
        }
    }
}

fn opened(token: Token, name: Option<Place>, run: &mut Vec<Term>) -> Open {
    Open {
        start: token.start,
        name,
        before: take(run),
    }
}

fn word(kind: Kind, token: Token) -> Term {
    Term {
        kind: match kind {
            Kind::Number => TermKind::Number,
            Kind::Variable(letter) => TermKind::Variable(letter),
            _ => TermKind::Identifier,
        },
        span: token.start..token.end,
    }
}

/// The run around what was opened last, where this mark ends it.
fn closed(open: Open, mark: char, end: usize, inside: Vec<Term>) -> Option<Vec<Term>> {
    let kind = match (open.name, mark) {
        (None, ')') => TermKind::Bracket(inside),
        (Some(name), '>') => TermKind::Call {
            name,
            argument: inside,
        },
        _ => return None,
    };
    let mut run = open.before;
    run.push(Term {
        kind,
        span: open.start..end,
    });
    Some(run)
}
