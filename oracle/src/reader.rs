//! A reader of texts that is written apart from the library's: document 02's R-1 by its grammar, `read_tokens.rs` and
//! `read_phrase.rs`; the file by document 01, `read_file.rs` and `read_limits.rs`.
use std::str::from_utf8;

use crate::read_file::Records;
use crate::read_limits::refusal;
use crate::read_phrase::{Item, phrase};
use crate::read_tokens::{Token, tokens};

pub const TEXT_BYTES: usize = 4_096;

/// What a text is, as far as it is read.
pub enum Reading<'t> {
    /// Refusal 4: it has over 4,096 bytes.
    TooLong,
    /// Refusal 16: it is outside the grammar.
    Outside,
    Within(Box<Within<'t>>),
}

/// A text of the grammar.
pub struct Within<'t> {
    pub text: &'t str,
    pub tokens: Vec<Token>,
    pub phrase: Vec<Item>,
    pub records: Records,
    pub file: Vec<u8>,
    /// The refusal of the file.
    pub refusal: Option<u32>,
}

impl Reading<'_> {
    /// The file, or the number of a refusal, where the buffer has so many bytes.
    pub fn answer(&self, room: usize) -> Result<&[u8], u32> {
        match self {
            Reading::TooLong => Err(4),
            Reading::Outside => Err(16),
            Reading::Within(within) => match within.refusal {
                Some(number) => Err(number),
                None if within.file.len() > room => Err(17),
                None => Ok(&within.file),
            },
        }
    }
}

pub fn read(text: &[u8]) -> Reading<'_> {
    match text.len() > TEXT_BYTES {
        true => Reading::TooLong,
        false => within(text).map_or(Reading::Outside, |text| Reading::Within(Box::new(text))),
    }
}

fn within(text: &[u8]) -> Option<Within<'_>> {
    let text = from_utf8(text).ok()?;
    let tokens = tokens(text)?;
    let phrase = phrase(text, &tokens)?;
    let records = Records::of(&phrase);
    let file = records.file(text);
    Some(Within {
        refusal: refusal(text, &phrase, &records, file.len()),
        text,
        tokens,
        phrase,
        records,
        file,
    })
}
