//! Random texts of every kind.
use crate::random::Random;
use crate::reader::TEXT_BYTES;
use crate::text_damage::{self as damage, TOKENS};
use crate::text_laws;
use crate::text_limits;
use crate::text_pieces::{Layout, Piece, laid_out, pieces_of};

pub const KINDS: [&str; 8] = [
    "laws",
    "limits",
    "damaged bytes",
    "damaged tokens",
    "tokens",
    "tokens in a function",
    "bytes",
    "near 4,096 bytes",
];

/// How often each comes, in a hundred.
const PERCENT: [usize; 8] = [35, 5, 24, 14, 7, 8, 5, 2];

/// A text, and the place of its kind in `KINDS`.
pub fn text(random: &mut Random) -> (usize, Vec<u8>) {
    let mut at = random.below(PERCENT.iter().sum());
    let mut kind = 0;
    while at >= PERCENT[kind] {
        at -= PERCENT[kind];
        kind += 1;
    }
    (kind, of_kind(kind, random))
}

fn of_kind(kind: usize, random: &mut Random) -> Vec<u8> {
    match kind {
        0 => law(random),
        1 => limit(random),
        2 => damaged(random),
        3 => damaged_tokens(random),
        4 => spread(&some_tokens(random), random),
        5 => in_function(random),
        6 => bytes(random),
        _ => near_limit(random),
    }
}

fn law(random: &mut Random) -> Vec<u8> {
    spread(&text_laws::law(random), random)
}

/// In any layout. One too long is mostly laid out again, tightly.
fn spread(pieces: &[Piece], random: &mut Random) -> Vec<u8> {
    let layout = Layout::random(random);
    let text = laid_out(pieces, layout, random);
    match text.len() > TEXT_BYTES && random.chance(90) {
        true => laid_out(pieces, Layout::Tight, random),
        false => text,
    }
}

fn limit(random: &mut Random) -> Vec<u8> {
    match random.chance(10) {
        true => text_limits::file_limit(random),
        false => text_limits::text(random),
    }
}

fn damaged(random: &mut Random) -> Vec<u8> {
    let mut text = match random.chance(5) {
        true => text_limits::text(random),
        false => law(random),
    };
    damage::bytes(&mut text, random);
    text
}

fn damaged_tokens(random: &mut Random) -> Vec<u8> {
    let mut pieces = text_laws::law(random);
    damage::tokens(&mut pieces, random);
    spread(&pieces, random)
}

fn some_tokens(random: &mut Random) -> Vec<Piece> {
    let all = pieces_of(TOKENS);
    let most = *random.pick(&[3, 6, 12, 40]);
    (0..random.within(0, most))
        .map(|_| random.pick(&all).clone())
        .collect()
}

fn in_function(random: &mut Random) -> Vec<u8> {
    let mut pieces = pieces_of("F {");
    pieces.extend(some_tokens(random));
    pieces.extend(pieces_of(*random.pick(&["}", "= }", "= ; }", "; }"])));
    spread(&pieces, random)
}

/// Any bytes, or bytes of the grammar.
fn bytes(random: &mut Random) -> Vec<u8> {
    let most = *random.pick(&[4, 16, 16, 200, 5_000]);
    let any = random.chance(30);
    (0..random.within(0, most))
        .map(|_| match any {
            true => random.next() as u8,
            false => *random.pick(b"Fe.X1'a(<>){=;},:/* \n$ENTRY"),
        })
        .collect()
}

/// A text with about as many bytes as a text may have, filled up with blanks, a comment, a run or a name.
fn near_limit(random: &mut Random) -> Vec<u8> {
    let mut text = law(random);
    let wanted = TEXT_BYTES - 2 + random.below(4);
    let missing = wanted.saturating_sub(text.len());
    let (before, fill, after) = *random.pick(&[
        ("", " ", ""),
        ("/*", "*", "*/"),
        ("F{='", "c", "'}"),
        ("F{=", "7", "}"),
        ("$EXTERN ", "X", ";"),
        ("F{=", "()", "}"),
        ("", "\u{e9}", ""),
    ]);
    let room = missing.saturating_sub(before.len() + after.len());
    let times = room / fill.len();
    text.extend_from_slice(format!("{before}{}{after}", fill.repeat(times)).as_bytes());
    text.resize(wanted, b' ');
    if random.chance(10) {
        damage::bytes(&mut text, random);
    }
    text
}
