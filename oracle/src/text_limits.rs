//! Texts at and next to the limits, on both sides of them.
use crate::random::Random;
use crate::reader::{Reading, TEXT_BYTES, read};
use crate::text_pieces::{Layout, laid_out, pieces_of};

/// The limits of document 01 on records, on what is around a term, on variables, on a name's bytes and on a file's.
const FUNCTIONS: usize = 64;
const RECORDS: usize = 128;
const TERMS: usize = 512;
const AROUND: usize = 32;
const VARIABLES: usize = 32;
const NAME: usize = 64;
const FILE_BYTES: usize = 16_384;
/// Characters in one run past which the file is too long, about.
const FILE_CHARACTERS: usize = 652;

/// A text near a limit of the file, or near two. It is laid out tightly where it would be too long a text otherwise.
pub fn text(random: &mut Random) -> Vec<u8> {
    let mut all = tokens(random);
    if random.chance(50) {
        all = format!("{all} {}", tokens(random));
    }
    let tokens = pieces_of(&all);
    let layout = Layout::random(random);
    let text = laid_out(&tokens, layout, random);
    match text.len() > TEXT_BYTES {
        true => laid_out(&tokens, Layout::Tight, random),
        false => text,
    }
}

/// Tokens with blanks between them.
fn tokens(random: &mut Random) -> String {
    let near = random.below(4);
    match random.below(12) {
        0 => functions(FUNCTIONS - 2 + near),
        1 => sentences(RECORDS - 2 + near, random),
        2 => conditions(RECORDS - 2 + near, random),
        3 => terms(TERMS - 2 + near, random),
        4 => characters(TERMS - 2 + near, random),
        5 => characters(FILE_CHARACTERS - 8 + random.below(16), random),
        6 => characters(random.within(TERMS, 4_080), random),
        7 => nested(AROUND - 1 + near, random),
        8 => nested(random.within(AROUND, 2_040), random),
        9 => variables(VARIABLES - 2 + near, random),
        10 => condition_variables(VARIABLES - 2 + near, random),
        _ => names(NAME - 2 + near, random),
    }
}

fn functions(count: usize) -> String {
    (0..count)
        .map(|number| format!("F{number} {{ = 1 < F{} > ; }} ", (number + 1) % count))
        .collect()
}

/// Some begin another function.
fn sentences(count: usize, random: &mut Random) -> String {
    let mut all = String::from("F { = 1 ");
    for _ in 1..count {
        all += *random.pick(&["; = ", "; s.A = ", "; ( e.1 ) = s.B ", "; = ", "} G { = 2 "]);
    }
    all + "}"
}

/// Some begin another sentence.
fn conditions(count: usize, random: &mut Random) -> String {
    let mut all = String::from("F { e.1 ");
    for _ in 0..count {
        all += *random.pick(&[", : ", ", e.1 : ", ", < F > : e.2 ", "= ; , 1 : "]);
    }
    all + "= }"
}

fn terms(count: usize, random: &mut Random) -> String {
    let mut all = String::from("F { ");
    for _ in 0..count {
        all += match random.chance(2) {
            true => "= ; 1 ",
            false => *random.pick(&["1 ", "x ", "'b' ", "s.A ", "( ) "]),
        };
    }
    all + "= }"
}

/// A run of characters, and a term or two beside it.
fn characters(count: usize, random: &mut Random) -> String {
    let run = format!("'{}'", "c".repeat(count - 1));
    match random.below(4) {
        0 => format!("F {{ {run} = 1 }}"),
        1 => format!("F {{ = 1 {run} ; }}"),
        2 => format!("F {{ ( {run} ) = }}"),
        _ => format!("F {{ , < F {run} > : = }}"),
    }
}

/// Brackets and calls in each other, with a symbol inside the last or nothing.
fn nested(count: usize, random: &mut Random) -> String {
    let calls = if count > 600 { 0 } else { random.below(60) };
    let (mut before, mut after) = (String::new(), String::new());
    for _ in 0..count {
        let call = random.chance(calls);
        before += if call { "< F " } else { "( " };
        after.insert_str(0, if call { "> " } else { ") " });
    }
    let inside = *random.pick(&["", "1 ", "'a' "]);
    match calls == 0 && random.chance(50) {
        true => format!("F {{ {before}{inside}{after} = }}"),
        false => format!("F {{ = {before}{inside}{after} }}"),
    }
}

/// Distinct variables, some of which stand there twice, in another case. Two at a time differ in `-` and `_` alone.
fn several(count: usize, random: &mut Random) -> String {
    let mut all = String::new();
    for number in 0..count {
        let (letter, sign) = (['s', 't', 'e'][number / 2 % 3], ['-', '_'][number % 2]);
        let index = format!("v{sign}{}", number / 2);
        all += &format!("{letter}.{index} ");
        if random.chance(10) {
            all += &format!("( {letter}.{} ) ", index.to_uppercase());
        }
    }
    all
}

fn variables(count: usize, random: &mut Random) -> String {
    format!("F {{ {} = 1 }}", several(count, random))
}

/// Patterns of conditions have no limit.
fn condition_variables(count: usize, random: &mut Random) -> String {
    let many = several(count + 10, random);
    let few = several(count, random);
    format!("F {{ {few}, < F {many} > : {many} = {many} }}")
}

/// A name, an index or a number with so many bytes.
fn names(length: usize, random: &mut Random) -> String {
    let (name, number) = ("N-".repeat(length), "70".repeat(length));
    let (name, number) = (&name[..length], &number[..length]);
    match random.below(7) {
        0 => format!("{name} {{ = }}"),
        1 => format!("F {{ {name} = }}"),
        2 => format!("F {{ = < {name} > }}"),
        3 => format!("F {{ e.{name} = }}"),
        4 => format!("F {{ = ( {number} ) }}"),
        5 => format!("$EXTERN {name} ; F {{ = }}"),
        _ => format!("F {{ = 1 }} {name} {{ = {number} }} "),
    }
}

/// A text whose file has about as many bytes as a file may have.
pub fn file_limit(random: &mut Random) -> Vec<u8> {
    let count = random.within(TERMS - 8, TERMS);
    let tokens = pieces_of(&terms(count, random));
    let mut text = laid_out(&tokens, Layout::Tight, random);
    let wanted = FILE_BYTES - 2 + random.below(4);
    let bytes = match read(&text) {
        Reading::Within(within) => within.file.len(),
        _ => wanted,
    };
    let missing = wanted.saturating_sub(bytes);
    let fill = " ".repeat(missing.min(TEXT_BYTES.saturating_sub(text.len())));
    text.extend_from_slice(fill.as_bytes());
    text
}
