//! The words of a store: 128 formats of 65 words each, two for each name of a function.
//!
//! Names count from 0, each once, sorted by the bytes of their folded form: letters in upper case, `_` read as `-`. Name
//! number n has the format of its function's arguments first ([`argument`]), then that of its results ([`result`]);
//! functions of one name share them. There are at most 64 names, and the words of formats past the last name are 0.
//!
//! A format's first word is its header: the number of its shapes at all depths, [`OPEN`] more where it is open (more terms
//! may follow), or [`NEVER`] alone where it admits nothing. A word for each shape follows, depth first: a bracket's word
//! stands before those of the shapes inside it. Words past the last shape are 0.
//!
//! ```
//! use bilzarko::{findings, formats, Mode, Settings, STORE_WORDS};
//!
//! // F { e.X = 'a'; s.A = <F 1>; } H { 'q' = <H 2>; }
//! let law = std::fs::read("../samples/example.law")?;
//! let mut store = vec![0; STORE_WORDS];
//! findings(&Settings::new(Mode::Strict), &law, &mut store, &mut [0; 16])?;
//! let words = |start: usize| &store[start..start + 2];
//! assert_eq!(words(formats::argument(0)), [formats::OPEN, 0]);
//! assert_eq!(words(formats::argument(1)), [1, formats::CHARACTER]);
//! assert_eq!(words(formats::result(1)), [0, 0]);
//! # Ok::<(), Box<dyn std::error::Error>>(())
//! ```

/// The formats of a store.
pub const FORMATS: usize = 128;
/// The words of a format: its header, and a word for each shape.
pub const FORMAT_WORDS: usize = 1 + FORMAT_SHAPES;
/// The shapes of a format, at most.
pub const FORMAT_SHAPES: usize = 64;

/// In a header: the format is open. The number of shapes is the header % 256.
pub const OPEN: u32 = 256;
/// The header of a format that admits nothing.
pub const NEVER: u32 = 512;

/// A shape: a character.
pub const CHARACTER: u32 = 0;
/// A shape: a number.
pub const NUMBER: u32 = 1;
/// A shape: an identifier.
pub const IDENTIFIER: u32 = 2;
/// A shape: a character, a number or an identifier.
pub const SYMBOL: u32 = 3;
/// A shape: any term.
pub const UNKNOWN: u32 = 4;
/// A shape whose word % 8 is this: a bracket, with word / 8 % 128 shapes inside.
pub const BRACKET: u32 = 5;
/// The contents of a bracket are open where its word is at least this.
pub const BRACKET_OPEN: u32 = 1_024;

/// Where in the store the format of the arguments of a name begins, by the name's number.
pub const fn argument(name: usize) -> usize {
    FORMAT_WORDS * (2 * name)
}

/// Where in the store the format of the results of a name begins, by the name's number.
pub const fn result(name: usize) -> usize {
    FORMAT_WORDS * (2 * name + 1)
}
