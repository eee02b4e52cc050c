//! The findings of a law file, the text of each of them, all of them on a printed page, the law file of a law typed as text, and
//! the test of a number's digits as they are typed, for Rust.
//!
//! The work is done by `libbilzarko.a`, whose functions are proved to meet their contracts; `include/bilzarko.h`
//! says what they answer. This crate declares them again and gives each a safe function, [`findings`], [`text`], [`page`],
//! [`read`] and [`Digits::push`]: any arguments that its types allow may be passed. [`list`] and [`law_file`] make the buffers
//! themselves and give owned values.
//!
//! ```
//! use bilzarko::{list, Lint, Mode, Settings};
//!
//! let law = std::fs::read("../samples/bearing.law")?;
//! let listing = list(&Settings::new(Mode::Classic), &law)?;
//! assert!(listing.settled);
//! let dead: Vec<&str> = listing
//!     .findings
//!     .iter()
//!     .filter(|listed| listed.finding.lint == Lint::DeadSentence)
//!     .map(|listed| listed.text.as_str())
//!     .collect();
//! assert!(dead[1].starts_with("sentence 2 of `Stiffness` is unreachable: "));
//! # Ok::<(), Box<dyn std::error::Error>>(())
//! ```
//!
//! # Toolchain
//!
//! `tools/staticlib.sh` at the repository's root writes the archive, which is for x86-64 Linux, to `target/staticlib`;
//! the environment variable `BILZARKO_LIB_DIR` names another folder when the crate is built. The crate is built and tested
//! with Rust 1.95, has no dependencies and needs no nightly feature.
//!
//! # Stack
//!
//! A call needs up to [`STACK_BYTES`] of stack. Where a thread has less, the system may end the process at the stack's
//! guard page. Rust gives a thread 2 MiB by itself.
//!
//! # Time
//!
//! [`findings`], [`text`] and [`page`] return, but they can take for ever: matching with repeated variables is NP-complete.
//! The smallest law known to do so has a sentence with the pattern `e.1 .. e.k 'c' e.2 e.4 ..`, every second variable before
//! `e.k`, and after it one with `'c'` and `'a'` k + 2 times; it takes some 2 seconds at k = 12, in 33 terms, and about four
//! times as long for each step of k. Where laws come from strangers, make the call in a process of its own and end that
//! process: a call keeps nothing, and holds nothing but what it is lent.
#![deny(missing_docs)]
#![deny(unsafe_code)]

mod calls;
mod digits;
mod finding;
pub mod formats;
mod kinds;
mod listing;
mod refusal;
mod settings;

pub use calls::{findings, law_file, page, read, text, Count};
pub use digits::{Digits, Tested};
pub use finding::{decode, Finding};
pub use kinds::{Lint, Mode, Severity};
pub use listing::{list, Listed, Listing};
pub use refusal::Refusal;
pub use settings::{Override, Settings};

/// The bytes of a law file, at most.
pub const LAW_BYTES: usize = 16_384;
/// The bytes of a law typed as text, at most.
pub const LAW_TEXT_BYTES: usize = 4_096;
/// The words of a store, at least. [`formats`] says what they are.
pub const STORE_WORDS: usize = formats::FORMATS * formats::FORMAT_WORDS;
/// The words of a finding.
pub const FINDING_WORDS: usize = 8;
/// The findings that [`text`] and [`page`] have places for. More is [`Refusal::Findings`] there.
pub const TEXT_FINDINGS: usize = 256;
/// The bytes of the longest text. `tests/longest_text.rs` computes it, and has the library write a text of this length.
pub const TEXT_BYTES: usize = 1_087;
/// The bytes of the longest page: 256 findings and 5 headings, 73 bytes each.
pub const PAGE_BYTES: usize = 19_053;
/// The overrides of [`Settings`], at most.
pub const OVERRIDES: usize = 8;
/// The stack to give to a call: 1 MiB. The laws known to need most take 0.82 MiB.
///
/// ```
/// use bilzarko::{list, Mode, Settings, STACK_BYTES};
///
/// let law = std::fs::read("../samples/bearing.law")?;
/// let listing = std::thread::Builder::new()
///     .stack_size(STACK_BYTES)
///     .spawn(move || list(&Settings::new(Mode::Strict), &law))?
///     .join()
///     .expect("the thread ends by itself")?;
/// assert_eq!(listing.findings.len(), 6);
/// # Ok::<(), Box<dyn std::error::Error>>(())
/// ```
pub const STACK_BYTES: usize = 1 << 20;
