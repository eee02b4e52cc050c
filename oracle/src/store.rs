//! The store's words, as the Rust's formats have them.
use bilzarko::STORE_WORDS;
use refal_semantics::{Format, Formats, Shape};

use crate::compare::same;

/// The words of a format in the store.
const FORMAT_WORDS: usize = 65;

pub fn compare_store(formats: &Formats, store: &[u32]) -> Result<(), String> {
    let mut expected = vec![0; STORE_WORDS];
    let both = formats
        .functions
        .iter()
        .flat_map(|(_, argument, result)| [argument, result]);
    for (place, format) in both.enumerate() {
        let words = format_words(format);
        expected[FORMAT_WORDS * place..][..words.len()].copy_from_slice(&words);
    }
    match store == expected {
        true => Ok(()),
        false => {
            let place = store
                .iter()
                .zip(&expected)
                .position(|(ours, wanted)| ours != wanted)
                .expect("a word differs");
            let format = place / FORMAT_WORDS;
            let part = |words: &[u32]| words[FORMAT_WORDS * format..][..FORMAT_WORDS].to_vec();
            same(
                &format!("words of format {format}"),
                &part(store),
                &part(&expected),
            )
        }
    }
}

fn format_words(format: &Format) -> Vec<u32> {
    let mut words = vec![0];
    put_shapes(&format.items, &mut words);
    words[0] =
        (words.len() - 1) as u32 + 256 * u32::from(format.open) + 512 * u32::from(format.never);
    words
}

fn put_shapes(shapes: &[Shape], words: &mut Vec<u32>) {
    for shape in shapes {
        let place = words.len();
        words.push(match shape {
            Shape::Char => 0,
            Shape::Number => 1,
            Shape::Identifier => 2,
            Shape::Symbol => 3,
            Shape::Unknown => 4,
            Shape::Bracket(contents) => 5 + 1_024 * u32::from(contents.open),
        });
        if let Shape::Bracket(contents) = shape {
            put_shapes(&contents.items, words);
            words[place] += 8 * (words.len() - place - 1) as u32;
        }
    }
}
