//! The tokens of a text, by the grammar of document 02's R-1. The library's reader has no part in this one.

#[derive(Clone, Copy, Debug, PartialEq, Eq)]
pub enum Kind {
    Entry,
    Extern,
    /// One of `MARKS`.
    Mark(char),
    Quoted,
    Identifier,
    Number,
    /// By its letter: s, t or e.
    Variable(char),
}

/// A token and where it stands in the text, end excluded.
#[derive(Clone, Copy, Debug)]
pub struct Token {
    pub kind: Kind,
    pub start: usize,
    pub end: usize,
}

const MARKS: [char; 10] = ['{', '}', ';', ',', ':', '=', '(', ')', '<', '>'];
const BLANKS: [char; 4] = [' ', '\t', '\n', '\r'];

/// A token at the start of what is left of a text: its kind and its bytes.
type Fits = Option<(Kind, usize)>;

/// The tokens of a text; none where something else stands in it.
pub fn tokens(text: &str) -> Option<Vec<Token>> {
    let mut all = Vec::new();
    let mut rest = after_blanks(text)?;
    while !rest.is_empty() {
        let (kind, bytes) = longest(rest)?;
        let start = text.len() - rest.len();
        let end = start + bytes;
        all.push(Token { kind, start, end });
        rest = after_blanks(&text[end..])?;
    }
    Some(all)
}

/// What is left after blanks and comments; none where a comment does not end.
fn after_blanks(text: &str) -> Option<&str> {
    let mut rest = text;
    loop {
        rest = rest.trim_start_matches(BLANKS);
        let Some(comment) = rest.strip_prefix("/*") else {
            return Some(rest);
        };
        rest = &comment[comment.find("*/")? + 2..];
    }
}

/// "a token is the longest that fits"
fn longest(rest: &str) -> Fits {
    let all = [word, mark, quoted, identifier, number, variable];
    all.iter()
        .filter_map(|one| one(rest))
        .max_by_key(|(_, bytes)| *bytes)
}

fn word(rest: &str) -> Fits {
    [("$ENTRY", Kind::Entry), ("$EXTERN", Kind::Extern)]
        .into_iter()
        .find(|(spelled, _)| rest.starts_with(spelled))
        .map(|(spelled, kind)| (kind, spelled.len()))
}

fn mark(rest: &str) -> Fits {
    let first = rest.chars().next()?;
    MARKS.contains(&first).then_some((Kind::Mark(first), 1))
}

fn quoted(rest: &str) -> Fits {
    let inside = rest.strip_prefix('\'')?;
    let bytes = inside.find(['\'', '\\'])?;
    let ends = bytes > 0 && inside[bytes..].starts_with('\'');
    ends.then_some((Kind::Quoted, bytes + 2))
}

fn identifier(rest: &str) -> Fits {
    rest.starts_with(|ch: char| ch.is_ascii_alphabetic())
        .then(|| (Kind::Identifier, leading(rest, in_name)))
}

fn number(rest: &str) -> Fits {
    let bytes = leading(rest, |ch| ch.is_ascii_digit());
    (bytes > 0).then_some((Kind::Number, bytes))
}

fn variable(rest: &str) -> Fits {
    let letter = rest.chars().next().filter(|ch| "ste".contains(*ch))?;
    let index = leading(rest[1..].strip_prefix('.')?, in_name);
    (index > 0).then_some((Kind::Variable(letter), index + 2))
}

fn in_name(ch: char) -> bool {
    ch.is_ascii_alphanumeric() || ch == '-' || ch == '_'
}

/// The bytes of the characters at the front that are such.
fn leading(text: &str, such: fn(char) -> bool) -> usize {
    text.find(|ch| !such(ch)).unwrap_or(text.len())
}
