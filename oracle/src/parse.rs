//! Laws from Refal notation, as `refal.rs` writes it, for laws that are given by hand. Spans are places in the notation;
//! a sentence's ends before its semicolon.
use refal_ast::{
    Condition, Function, Item, Program, Sentence, Span, Symbol, Term, TermKind, Variable,
    VariableKind, Visibility,
};

pub fn parse(notation: &str) -> Result<Program, String> {
    let mut reader = Reader {
        all: notation.chars().collect(),
        at: 0,
    };
    let mut items = Vec::new();
    while reader.peek().is_some() {
        items.push(Item::Function(reader.function()?));
    }
    Ok(Program { items })
}

struct Reader {
    all: Vec<char>,
    at: usize,
}

impl Reader {
    /// The next character that is no space.
    fn peek(&mut self) -> Option<char> {
        while self.all.get(self.at).is_some_and(|ch| ch.is_whitespace()) {
            self.at += 1;
        }
        self.all.get(self.at).copied()
    }

    fn take(&mut self, wanted: char) -> Result<(), String> {
        if self.peek() != Some(wanted) {
            return Err(format!("{wanted:?} is wanted at {}", self.at));
        }
        self.at += 1;
        Ok(())
    }

    fn takes(&mut self, wanted: char) -> bool {
        self.take(wanted).is_ok()
    }

    fn name(&mut self) -> Result<String, String> {
        self.peek();
        let is_name = |ch: &&char| ch.is_ascii_alphanumeric() || matches!(ch, '-' | '_');
        let name: String = self.all[self.at..].iter().take_while(is_name).collect();
        self.at += name.len();
        if name.is_empty() {
            Err(format!("a name is wanted at {}", self.at))
        } else {
            Ok(name)
        }
    }

    fn function(&mut self) -> Result<Function, String> {
        let start = self.at;
        let name = self.name()?;
        self.take('{')?;
        let sentences = self.sentences('}')?;
        let span = Span {
            start,
            end: self.at,
        };
        Ok(Function {
            name,
            visibility: Visibility::Local,
            sentences,
            span,
        })
    }

    fn sentences(&mut self, end: char) -> Result<Vec<Sentence>, String> {
        let mut all = Vec::new();
        while !self.takes(end) {
            all.push(self.sentence()?);
        }
        Ok(all)
    }

    fn sentence(&mut self) -> Result<Sentence, String> {
        self.peek();
        let start = self.at;
        let pattern = self.terms()?;
        let mut conditions = Vec::new();
        while self.takes(',') {
            conditions.push(self.condition()?);
        }
        self.take('=')?;
        let result = self.terms()?;
        let span = Span {
            start,
            end: self.at,
        };
        self.take(';')?;
        Ok(Sentence {
            pattern,
            conditions,
            result,
            span,
        })
    }

    fn condition(&mut self) -> Result<Condition, String> {
        let start = self.at;
        let result = self.terms()?;
        self.take(':')?;
        let pattern = self.terms()?;
        Ok(Condition {
            result,
            pattern,
            span: Span {
                start,
                end: self.at,
            },
        })
    }

    fn terms(&mut self) -> Result<Vec<Term>, String> {
        let mut all = Vec::new();
        while self.peek().is_some_and(|ch| !")>]:,=;}".contains(ch)) {
            let start = self.at;
            let kind = self.kind()?;
            all.push(Term {
                kind,
                span: Span {
                    start,
                    end: self.at,
                },
            });
        }
        Ok(all)
    }

    fn kind(&mut self) -> Result<TermKind, String> {
        match self.peek() {
            Some('(') => {
                self.at += 1;
                let inside = self.terms()?;
                self.take(')').map(|()| TermKind::Bracket(inside))
            }
            Some('<') => {
                self.at += 1;
                let (name, args) = (self.name()?, self.terms()?);
                self.take('>').map(|()| TermKind::Call { name, args })
            }
            Some('[') => {
                self.at += 1;
                let argument = self.terms()?;
                self.take(':')?;
                let sentences = self.sentences(']')?;
                Ok(TermKind::Block {
                    argument,
                    sentences,
                })
            }
            Some('\'') => {
                let ch = *self
                    .all
                    .get(self.at + 1)
                    .ok_or("a character is wanted at the end")?;
                self.at += 2;
                self.take('\'').map(|()| TermKind::Symbol(Symbol::Char(ch)))
            }
            _ => self.named(),
        }
    }

    /// A variable, a number or an identifier.
    fn named(&mut self) -> Result<TermKind, String> {
        let name = self.name()?;
        let kind = match name.as_str() {
            "s" => Some(VariableKind::Symbol),
            "t" => Some(VariableKind::Term),
            "e" => Some(VariableKind::Expression),
            _ => None,
        };
        if let (Some(kind), Some('.')) = (kind, self.all.get(self.at)) {
            self.at += 1;
            return Ok(TermKind::Variable(Variable {
                kind,
                name: self.name()?,
            }));
        }
        let number = name.bytes().all(|byte| byte.is_ascii_digit());
        Ok(TermKind::Symbol(if number {
            Symbol::Number(name)
        } else {
            Symbol::Identifier(name)
        }))
    }
}
