//! Needless leading zeros. Numbers are the same where their values are, but the Rust compares them by text: it gets each
//! law without these zeros. Digits are compared, since 64 of them fit no machine word.
use refal_ast::{Program, Symbol, TermKind};

use crate::decode::{WORDS, sections};
use crate::random::Random;
use crate::records::each_term;

/// The most digits of a number.
pub const DIGITS: usize = 64;
const TERMS: usize = 4;
/// The kind of a number's record.
const NUMBER: u32 = 2;

/// A number of zeros alone keeps one.
fn needless(digits: &[u8]) -> usize {
    let zeros = digits.iter().take_while(|digit| **digit == b'0').count();
    zeros.min(digits.len() - 1)
}

/// The digits of a number without needless zeros: they are the same exactly when the values are.
pub fn significant(digits: &str) -> &str {
    &digits[needless(digits.as_bytes())..]
}

/// The law without needless zeros, where it has some. Its spans stay.
pub fn without_zeros(program: &Program) -> Option<Program> {
    let mut changed = program.clone();
    let mut some = false;
    each_term(&mut changed, &mut |term| {
        if let TermKind::Symbol(Symbol::Number(digits)) = &mut term.kind {
            let zeros = needless(digits.as_bytes());
            digits.drain(..zeros);
            some |= zeros > 0;
        }
    });
    some.then_some(changed)
}

/// The file of that law: the place of each number starts after its needless zeros, and all else stays.
pub fn file_without_zeros(file: &[u8]) -> Vec<u8> {
    let all = sections(file).expect("an accepted file");
    let text = &file[all[0].clone()];
    let mut changed = file.to_vec();
    for record in changed[all[TERMS].clone()].chunks_exact_mut(4 * WORDS[TERMS]) {
        let word = |place: usize| {
            u32::from_le_bytes(record[4 * place..][..4].try_into().expect("four bytes"))
        };
        let (kind, start, length) = (word(0), word(1), word(2));
        if kind == NUMBER {
            let zeros = needless(&text[start as usize..][..length as usize]) as u32;
            record[4..8].copy_from_slice(&(start + zeros).to_le_bytes());
            record[8..12].copy_from_slice(&(length - zeros).to_le_bytes());
        }
    }
    changed
}

/// Spells a law's numbers anew: those of one text then have one value and several texts. Half of the laws have no
/// needless zeros.
pub fn respell(program: &mut Program, random: &mut Random) {
    let zeros = random.chance(50);
    each_term(program, &mut |term| {
        let TermKind::Symbol(Symbol::Number(digits)) = &mut term.kind else {
            return;
        };
        match random.below(10) {
            0..=1 if zeros && digits.len() < DIGITS => digits.insert(0, '0'),
            2 => *digits = significant(digits).into(),
            _ if !zeros => *digits = significant(digits).into(),
            _ => {}
        }
    });
}
