//! Tokens as they are spelled, and how they are laid out as a text.
use crate::random::Random;

#[derive(Clone, Copy, PartialEq)]
pub enum Sort {
    Name,
    Number,
    Variable,
    Quoted,
    Mark,
}

#[derive(Clone)]
pub struct Piece {
    pub sort: Sort,
    pub spelled: String,
}

impl Piece {
    pub fn new(sort: Sort, spelled: impl Into<String>) -> Piece {
        Piece {
            sort,
            spelled: spelled.into(),
        }
    }

    /// Whether the two would be read as another token with nothing between them.
    fn joins(&self, next: &Piece) -> bool {
        let grows = matches!(next.sort, Sort::Name | Sort::Number | Sort::Variable);
        match self.sort {
            Sort::Name | Sort::Variable => grows,
            Sort::Number => next.sort == Sort::Number,
            Sort::Quoted | Sort::Mark => false,
        }
    }
}

/// Marks and words by themselves.
pub fn mark(spelled: &str) -> Piece {
    Piece::new(Sort::Mark, spelled)
}

/// Tokens that are written with blanks between them, and without blanks in quotes.
pub fn pieces_of(tokens: &str) -> Vec<Piece> {
    tokens.split_whitespace().map(piece).collect()
}

fn piece(spelled: &str) -> Piece {
    let sort = match spelled.chars().next() {
        Some('\'') => Sort::Quoted,
        Some(first) if first.is_ascii_digit() => Sort::Number,
        Some(first) if first.is_ascii_alphabetic() && spelled.contains('.') => Sort::Variable,
        Some(first) if first.is_ascii_alphabetic() => Sort::Name,
        _ => Sort::Mark,
    };
    Piece::new(sort, spelled)
}

const BLANKS: [&str; 4] = [" ", "\t", "\n", "\r"];
const COMMENTS: [&str; 10] = [
    "/**/",
    "/***/",
    "/* */",
    "/*/*/",
    "/* a ; } ' \\ */",
    "/* /* **/",
    "/*\n*\n/*/",
    "/* é€𐍈 */",
    "/*F{=}*/",
    "/* \u{0}\u{7f} */",
];

/// What stands between tokens.
#[derive(Clone, Copy)]
pub enum Layout {
    /// Nothing, but where two tokens would join.
    Tight,
    /// One space.
    Spaced,
    /// A line for each sentence.
    Lines,
    /// Blanks of any sort.
    Blanks,
    /// Comments in so many of a hundred places.
    Comments(usize),
}

impl Layout {
    pub fn random(random: &mut Random) -> Layout {
        *random.pick(&[
            Layout::Tight,
            Layout::Tight,
            Layout::Spaced,
            Layout::Lines,
            Layout::Blanks,
            Layout::Blanks,
            Layout::Comments(10),
            Layout::Comments(60),
        ])
    }

    fn between(self, before: &str, random: &mut Random) -> String {
        match self {
            Layout::Tight => String::new(),
            Layout::Spaced => " ".into(),
            Layout::Lines if ["{", ";", "}"].contains(&before) => "\n    ".into(),
            Layout::Lines => " ".into(),
            Layout::Blanks => blanks(random),
            Layout::Comments(percent) => match random.chance(percent) {
                true => format!(
                    "{}{}{}",
                    blanks(random),
                    random.pick(&COMMENTS),
                    blanks(random)
                ),
                false => blanks(random),
            },
        }
    }
}

fn blanks(random: &mut Random) -> String {
    (0..random.below(3))
        .map(|_| *random.pick(&BLANKS))
        .collect()
}

/// A text that has these tokens, in order.
pub fn laid_out(pieces: &[Piece], layout: Layout, random: &mut Random) -> Vec<u8> {
    let mut text = layout.between("", random);
    for (place, piece) in pieces.iter().enumerate() {
        text.push_str(&piece.spelled);
        let between = layout.between(&piece.spelled, random);
        let joins = |next: &Piece| between.is_empty() && piece.joins(next);
        if pieces.get(place + 1).is_some_and(joins) {
            text.push_str(*random.pick(&[" ", "\n", "/**/"]));
        }
        text.push_str(&between);
    }
    text.into_bytes()
}
