//! Damage to texts, byte by byte and token by token.
use crate::random::Random;
use crate::text_pieces::{Piece, Sort, pieces_of};

/// Bytes that begin, end or join tokens, and some of each other sort.
const BYTES: &[u8] = b"'\\/*.-_$<>(){}[];:,= \t\n\r\x00\x0b\x0c\x7f\"steSTExyAZ019@`!+#&|~^%?";
/// What is no UTF-8: bytes cut off, bytes too many, overlong forms, surrogates and values past 10FFFF.
const INVALID: [&[u8]; 18] = [
    b"\x80",
    b"\xbf",
    b"\xc2",
    b"\xe2\x82",
    b"\xf0\x9f\x98",
    b"\xc0\x80",
    b"\xc1\xbf",
    b"\xe0\x80\x80",
    b"\xe0\x9f\xbf",
    b"\xf0\x80\x80\x80",
    b"\xf0\x8f\xbf\xbf",
    b"\xed\xa0\x80",
    b"\xed\xbf\xbf",
    b"\xf4\x90\x80\x80",
    b"\xf5\x80\x80\x80",
    b"\xf8\x88\x80\x80\x80",
    b"\xfe",
    b"\xff",
];
/// The least and greatest characters of each length, and others.
const VALID: [&str; 12] = [
    "\u{7f}",
    "\u{80}",
    "\u{7ff}",
    "\u{800}",
    "\u{d7ff}",
    "\u{e000}",
    "\u{fffd}",
    "\u{ffff}",
    "\u{10000}",
    "\u{10ffff}",
    "\u{feff}",
    "é",
];
/// Parts of texts that a reader may take for something else.
const PARTS: [&str; 26] = [
    "/*", "*/", "/*/", "/**/", "//", "''", "'a'", "'\\'", "e.", "s.X", "e.1e.2", ".", "$ENTRY",
    "$EXTERN", "$EXTRN", "$entry", "$", "<F>", "<1>", "()", "= ;", ", :", "12ab", "1.5", "-1",
    "[e.X]",
];
/// A token of each sort, and such that look like another.
pub const TOKENS: &str =
    "F Go s e.X s.1 t.A-b 0 12 'a' 'bc' ( ) < > { } ; , : = = = $ENTRY $EXTERN";

/// Tokens that belong together, in some places.
const PHRASES: [&str; 9] = [
    "< F >",
    "( < G 1 > )",
    "( )",
    ", :",
    ", : ( < G > )",
    "; =",
    "$EXTERN F ;",
    "F { = }",
    ", e.X : { = }",
];

/// Damages some bytes.
pub fn bytes(text: &mut Vec<u8>, random: &mut Random) {
    for _ in 0..*random.pick(&[1, 1, 1, 2, 3]) {
        one(text, random);
    }
}

fn one(text: &mut Vec<u8>, random: &mut Random) {
    let place = random.below(text.len() + 1);
    match random.below(14) {
        0 | 1 => text.insert(place, *random.pick(BYTES)),
        2 => text.insert(place, random.next() as u8),
        3 | 4 => put(text, place, *random.pick(&INVALID)),
        5 => put(text, place, random.pick(&VALID).as_bytes()),
        6 => put(text, place, random.pick(&PARTS).as_bytes()),
        7 => text.truncate(place),
        8 => drop(text.drain(..place)),
        9 => remove(text, place, random.within(1, 4)),
        10 => double(text, place, random.within(1, 12)),
        11 => swap(text, random),
        _ => replace(text, place, random),
    }
}

fn put(text: &mut Vec<u8>, place: usize, part: &[u8]) {
    text.splice(place..place, part.iter().copied())
        .for_each(drop);
}

fn remove(text: &mut Vec<u8>, place: usize, count: usize) {
    let end = (place + count).min(text.len());
    text.drain(place..end).for_each(drop);
}

fn double(text: &mut Vec<u8>, place: usize, count: usize) {
    let end = (place + count).min(text.len());
    let again = text[place..end].to_vec();
    put(text, place, &again);
}

fn swap(text: &mut [u8], random: &mut Random) {
    if text.is_empty() {
        return;
    }
    let one = random.below(text.len());
    let other = match random.chance(50) {
        true => (one + 1) % text.len(),
        false => random.below(text.len()),
    };
    text.swap(one, other);
}

fn replace(text: &mut [u8], place: usize, random: &mut Random) {
    let new = match random.chance(80) {
        true => *random.pick(BYTES),
        false => random.next() as u8,
    };
    if let Some(byte) = text.get_mut(place) {
        *byte = new;
    }
}

/// Damages some tokens.
pub fn tokens(pieces: &mut Vec<Piece>, random: &mut Random) {
    for _ in 0..*random.pick(&[1, 1, 1, 2]) {
        one_token(pieces, random);
    }
}

fn one_token(pieces: &mut Vec<Piece>, random: &mut Random) {
    let place = random.below(pieces.len() + 1);
    let other = random.pick(&pieces_of(TOKENS)).clone();
    match random.below(7) {
        0 => pieces.insert(place, other),
        1 => {
            let some = pieces_of(*random.pick(&PHRASES));
            pieces.splice(place..place, some).for_each(drop);
        }
        _ if place == pieces.len() => {}
        2 => drop(pieces.remove(place)),
        3 => pieces.insert(place, pieces[place].clone()),
        4 => {
            let next = random.below(pieces.len());
            pieces.swap(place, next);
        }
        5 => pieces[place] = other,
        _ => in_quotes(pieces, place, random),
    }
}

/// The first run of characters from a place on gets another character first, or has none.
fn in_quotes(pieces: &mut [Piece], place: usize, random: &mut Random) {
    let quoted = |piece: &&mut Piece| piece.sort == Sort::Quoted;
    let Some(run) = pieces[place..].iter_mut().find(quoted) else {
        return;
    };
    match *random.pick(&["", "\\", "'", "\n", "\u{0}", "/*", "é"]) {
        "" => run.spelled = "''".into(),
        first => run.spelled.insert_str(1, first),
    }
}
