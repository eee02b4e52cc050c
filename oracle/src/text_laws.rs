//! Random laws as the tokens of a text. The laws are those of `generate.rs`; what the grammar has no words for is left out:
//! blocks, calls in patterns, functions without sentences.
use refal_ast::{Function, Program, Sentence, Symbol, Term, TermKind};

use crate::generate;
use crate::random::Random;
use crate::refal::functions;
use crate::text_pieces::{Piece, Sort, mark};
use crate::zeros::respell;

/// Characters that a byte's place, a comment or another token might be taken from.
const CHARACTERS: [char; 16] = [
    '\n',
    '\r',
    '\t',
    '\u{0}',
    '"',
    '/',
    '*',
    '(',
    ';',
    '\u{7f}',
    '\u{80}',
    '\u{7ff}',
    '\u{800}',
    '\u{d7ff}',
    '\u{e000}',
    '\u{10000}',
];
/// Names may be this long, which is more than a law file allows.
const NAME: usize = 70;

/// The tokens of a random law.
pub fn law(random: &mut Random) -> Vec<Piece> {
    let mut law = match random.below(100) {
        0..=84 => generate::small(random),
        _ => generate::law(random),
    };
    respell(&mut law.program, random);
    pieces(&law.program, random)
}

pub fn pieces(program: &Program, random: &mut Random) -> Vec<Piece> {
    let mut speller = Speller {
        strange: random.chance(15),
        parted: random.chance(40),
        random,
        all: Vec::new(),
    };
    for function in functions(program) {
        speller.externs();
        speller.function(function);
    }
    speller.externs();
    let Speller { mut all, .. } = speller;
    if random.chance(4) {
        lengthen(&mut all, random);
    }
    all
}

struct Speller<'r> {
    random: &'r mut Random,
    /// Characters are at times some of `CHARACTERS`.
    strange: bool,
    /// Characters side by side are at times in two runs.
    parted: bool,
    all: Vec<Piece>,
}

impl Speller<'_> {
    fn mark(&mut self, spelled: &str) {
        self.all.push(mark(spelled));
    }

    fn name(&mut self, name: &str) {
        self.all.push(Piece::new(Sort::Name, lettered(name)));
    }

    fn externs(&mut self) {
        while self.random.chance(8) {
            self.mark("$EXTERN");
            for place in 0..self.random.within(1, 3) {
                if place > 0 {
                    self.mark(",");
                }
                let length = match self.random.chance(10) {
                    true => self.random.within(60, NAME),
                    false => self.random.within(1, 4),
                };
                self.name(&"Xy".repeat(NAME)[..length]);
            }
            self.mark(";");
        }
    }

    fn function(&mut self, function: &Function) {
        if self.random.chance(20) {
            self.mark("$ENTRY");
        }
        self.name(&function.name);
        self.mark("{");
        if function.sentences.is_empty() {
            self.mark("=");
        }
        for (place, sentence) in function.sentences.iter().enumerate() {
            if place > 0 {
                self.mark(";");
            }
            self.sentence(sentence);
        }
        if self.random.chance(60) {
            self.mark(";");
        }
        self.mark("}");
    }

    fn sentence(&mut self, sentence: &Sentence) {
        self.terms(&sentence.pattern, false);
        for condition in &sentence.conditions {
            self.mark(",");
            self.terms(&condition.result, true);
            self.mark(":");
            self.terms(&condition.pattern, false);
        }
        self.mark("=");
        self.terms(&sentence.result, true);
    }

    fn terms(&mut self, terms: &[Term], calls: bool) {
        for term in terms {
            match &term.kind {
                TermKind::Symbol(Symbol::Char(ch)) => self.character(*ch),
                TermKind::Symbol(Symbol::Identifier(text)) => self.name(text),
                TermKind::Symbol(Symbol::Number(text)) => {
                    self.all.push(Piece::new(Sort::Number, text.as_str()));
                }
                TermKind::Variable(variable) => {
                    let spelled = format!("{}.{}", variable.kind.refal_prefix(), variable.name);
                    self.all.push(Piece::new(Sort::Variable, spelled));
                }
                TermKind::Call { name, args } if calls => {
                    self.mark("<");
                    self.name(name);
                    self.terms(args, calls);
                    self.mark(">");
                }
                TermKind::Bracket(inside)
                | TermKind::Call { args: inside, .. }
                | TermKind::Block {
                    argument: inside, ..
                } => {
                    self.mark("(");
                    self.terms(inside, calls);
                    self.mark(")");
                }
            }
        }
    }

    /// Characters side by side stand mostly in one run.
    fn character(&mut self, ch: char) {
        let ch = match ch {
            _ if self.strange && self.random.chance(30) => *self.random.pick(&CHARACTERS),
            '\'' | '\\' => 'q',
            _ => ch,
        };
        let parted = self.parted && self.random.chance(50);
        match self.all.last_mut() {
            Some(last) if last.sort == Sort::Quoted && !parted => {
                last.spelled.insert(last.spelled.len() - 1, ch);
            }
            _ => self.all.push(Piece::new(Sort::Quoted, format!("'{ch}'"))),
        }
    }
}

/// Identifiers begin with a letter. Names that Refal takes for one stay one.
fn lettered(name: &str) -> String {
    let first = name.chars().next().map(|ch| match ch {
        '-' | '_' => 'm',
        '0'..='9' => 'n',
        _ => ch,
    });
    first.into_iter().chain(name.chars().skip(1)).collect()
}

/// One of the names, indices and numbers gets about as many bytes as they may have.
fn lengthen(pieces: &mut [Piece], random: &mut Random) {
    if pieces.is_empty() {
        return;
    }
    let length = random.within(62, NAME);
    let place = random.below(pieces.len());
    let piece = &mut pieces[place];
    let grown = match piece.sort {
        Sort::Name | Sort::Number => length,
        Sort::Variable => length + 2,
        Sort::Quoted | Sort::Mark => return,
    };
    while piece.spelled.len() < grown {
        piece.spelled.push('1');
    }
}
