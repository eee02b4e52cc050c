//! The calls. They are declared once, and each is called in one place.
use crate::{Refusal, Settings, LAW_BYTES};

/// As `include/bilzarko.h` declares them: a slice crosses as a pointer and a number of elements, an array as a pointer to
/// its first.
mod library {
    extern "C" {
        pub fn bilzarko_findings(
            mode: u32,
            overrides: *const u32,
            overrides_length: usize,
            law: *const u8,
            law_length: usize,
            store: *mut u32,
            store_length: usize,
            words: *mut u32,
            words_length: usize,
            answer: *mut [u64; 3],
        ) -> u32;

        pub fn bilzarko_text(
            mode: u32,
            overrides: *const u32,
            overrides_length: usize,
            law: *const u8,
            law_length: usize,
            store: *mut u32,
            store_length: usize,
            position: usize,
            text: *mut u8,
            text_length: usize,
            answer: *mut u64,
        ) -> u32;

        pub fn bilzarko_page(
            mode: u32,
            overrides: *const u32,
            overrides_length: usize,
            law: *const u8,
            law_length: usize,
            store: *mut u32,
            store_length: usize,
            page: *mut u8,
            page_length: usize,
            answer: *mut u64,
        ) -> u32;

        pub fn bilzarko_read(
            text: *const u8,
            text_length: usize,
            law: *mut u8,
            law_length: usize,
            answer: *mut u64,
        ) -> u32;

        pub fn bilzarko_digit(state: *mut u64, digit: u8) -> u32;
    }
}

/// What [`findings`] answers.
#[derive(Clone, Copy, Debug, PartialEq, Eq, Hash)]
pub struct Count {
    /// The number of findings.
    pub findings: usize,
    /// The number of rounds in which formats were inferred.
    pub rounds: usize,
    /// Whether the last of them changed nothing.
    pub settled: bool,
}

/// What a call answers by the number that it returned.
fn answered<T>(number: u32, answer: T) -> Result<T, Refusal> {
    match Refusal::of_number(number) {
        None => Ok(answer),
        Some(refusal) => Err(refusal),
    }
}

/// Lists the findings of a law: eight words each in `words`, which [`decode`](crate::decode) reads, and the inferred formats in
/// the first 8,320 words of the store. Words past the last finding keep their values.
///
/// Where the count is settled, this is proved of the listing: there is no run of the law in which a call listed under
/// [`Lint::RecognitionImpossible`](crate::Lint::RecognitionImpossible) finds a sentence of its function whose left side
/// matches, or in which a function's sentence listed as [`Lint::DeadSentence`](crate::Lint::DeadSentence) is chosen.
/// Numbers are the same where their values are: `007` is `7`.
///
/// ```
/// use bilzarko::{decode, findings, Mode, Settings, FINDING_WORDS, STORE_WORDS};
///
/// let law = std::fs::read("../samples/bearing.law")?;
/// let mut store = vec![0; STORE_WORDS];
/// let mut words = vec![0; FINDING_WORDS * 100];
/// let count = findings(&Settings::new(Mode::Strict), &law, &mut store, &mut words)?;
/// assert_eq!((count.findings, count.rounds, count.settled), (6, 3, true));
/// let first = decode(&words).next().expect("there are six");
/// assert_eq!((first.span_start, first.span_end), (661, 677));
/// # Ok::<(), Box<dyn std::error::Error>>(())
/// ```
pub fn findings(
    settings: &Settings,
    law: &[u8],
    store: &mut [u32],
    words: &mut [u32],
) -> Result<Count, Refusal> {
    let overrides = settings.overrides();
    let mut answer = [0; 3];
    // SAFETY: each pointer and number are those of one slice, so that all elements are there, aligned and with values, and
    // where there are none the pointer is not used. `answer` is a local array. `store`, `words` and `answer` are borrowed
    // for writing until the call returns, so that they overlap nothing else that is lent and no other thread reads them;
    // `overrides` and `law` are borrowed, so that nothing writes them. The function is proved to touch nothing beyond
    // these, whatever their values, and every value that it leaves is one of its type: all are plain numbers.
    #[allow(unsafe_code)]
    let number = unsafe {
        library::bilzarko_findings(
            settings.mode().number(),
            overrides.as_ptr(),
            overrides.len(),
            law.as_ptr(),
            law.len(),
            store.as_mut_ptr(),
            store.len(),
            words.as_mut_ptr(),
            words.len(),
            &mut answer,
        )
    };
    let [count, rounds, settled] = answer;
    answered(
        number,
        Count {
            findings: count as usize,
            rounds: rounds as usize,
            settled: settled == 1,
        },
    )
}

/// Writes the text of the finding at a position among those that [`findings`] lists under the same settings, and answers
/// the number of bytes written. The text is ASCII, and [`TEXT_BYTES`](crate::TEXT_BYTES) hold any text. Bytes past it keep
/// their values. The store is filled as by [`findings`].
///
/// ```
/// use bilzarko::{text, Mode, Settings, STORE_WORDS, TEXT_BYTES};
///
/// let law = std::fs::read("../samples/bearing.law")?;
/// let mut store = vec![0; STORE_WORDS];
/// let mut line = vec![0; TEXT_BYTES];
/// let bytes = text(&Settings::new(Mode::Strict), &law, &mut store, 3, &mut line)?;
/// let wanted = "`<Layers ...>` always fails: no sentence of `Layers` matches this argument";
/// assert_eq!(&line[..bytes], wanted.as_bytes());
/// # Ok::<(), Box<dyn std::error::Error>>(())
/// ```
pub fn text(
    settings: &Settings,
    law: &[u8],
    store: &mut [u32],
    position: usize,
    text: &mut [u8],
) -> Result<usize, Refusal> {
    let overrides = settings.overrides();
    let mut answer = 0;
    // SAFETY: as in `findings`, with `text` borrowed for writing in place of `words`, and `answer` a local number. Any
    // position may be passed: one without a finding is refused.
    #[allow(unsafe_code)]
    let number = unsafe {
        library::bilzarko_text(
            settings.mode().number(),
            overrides.as_ptr(),
            overrides.len(),
            law.as_ptr(),
            law.len(),
            store.as_mut_ptr(),
            store.len(),
            position,
            text.as_mut_ptr(),
            text.len(),
            &mut answer,
        )
    };
    answered(number, answer as usize)
}

/// Writes the findings that [`findings`] lists under the same settings as printed pages, and answers the number of bytes
/// written. They are ASCII, and [`PAGE_BYTES`](crate::PAGE_BYTES) hold those of any law. Bytes past them keep their values. The
/// store is filled as by [`findings`].
///
/// A line has 72 columns, filled up with spaces, and a line feed. A page has 60 lines at most. The first is a heading: the
/// number of the law's functions at the left, the page's number ending in column 72. Each further line is a finding, with a
/// space between its fields: the function's name in 24 columns, or its first 23 bytes and `+` where it is longer; `dead`,
/// `no match`, `builtin` or `open` in 8; `error`, `deny`, `warn` or `allow` in 5; span start, span end and a in 10 each, at the
/// right. A law without findings has one heading.
///
/// ```
/// use bilzarko::{page, Mode, Settings, PAGE_BYTES, STORE_WORDS};
///
/// let law = std::fs::read("../samples/bearing.law")?;
/// let mut store = vec![0; STORE_WORDS];
/// let mut lines = vec![0; PAGE_BYTES];
/// let bytes = page(&Settings::new(Mode::Strict), &law, &mut store, &mut lines)?;
/// assert_eq!(bytes, 7 * 73);
/// let first = "Limit                    dead     deny         661        677          3\n";
/// assert_eq!(&lines[73..146], first.as_bytes());
/// # Ok::<(), Box<dyn std::error::Error>>(())
/// ```
pub fn page(
    settings: &Settings,
    law: &[u8],
    store: &mut [u32],
    page: &mut [u8],
) -> Result<usize, Refusal> {
    let overrides = settings.overrides();
    let mut answer = 0;
    // SAFETY: as in `text`, with `page` borrowed for writing in place of `text`.
    #[allow(unsafe_code)]
    let number = unsafe {
        library::bilzarko_page(
            settings.mode().number(),
            overrides.as_ptr(),
            overrides.len(),
            law.as_ptr(),
            law.len(),
            store.as_mut_ptr(),
            store.len(),
            page.as_mut_ptr(),
            page.len(),
            &mut answer,
        )
    };
    answered(number, answer as usize)
}

/// Writes the law file of a law typed as Refal-5 text, and answers the number of bytes written. [`LAW_BYTES`] hold any law file.
/// Bytes past it keep their values. `docs/GRAMMAR.md` has the grammar.
///
/// ```
/// use bilzarko::{read, Refusal};
///
/// let mut law = [0xff; 100];
/// assert_eq!(read(b"F { e.X = ; }", &mut law), Ok(97));
/// assert_eq!(law[..4], 13_u32.to_le_bytes());
/// assert_eq!(law[97..], [0xff; 3]);
/// assert_eq!(read(b"F { e.X = }}", &mut law), Err(Refusal::Grammar));
/// ```
pub fn read(text: &[u8], law: &mut [u8]) -> Result<usize, Refusal> {
    let mut answer = 0;
    // SAFETY: as in `findings`, with `text` borrowed, `law` borrowed for writing, and `answer` a local number.
    #[allow(unsafe_code)]
    let number = unsafe {
        library::bilzarko_read(
            text.as_ptr(),
            text.len(),
            law.as_mut_ptr(),
            law.len(),
            &mut answer,
        )
    };
    answered(number, answer as usize)
}

/// The law file of a law typed as Refal-5 text.
///
/// ```
/// use bilzarko::{law_file, list, Mode, Settings};
///
/// let law = law_file(b"F { e.X = 'a'; s.A = 'b'; }")?;
/// let listing = list(&Settings::new(Mode::Strict), &law)?;
/// let dead = listing.findings[0].finding;
/// assert_eq!((dead.span_start, dead.span_end), (15, 24));
/// # Ok::<(), bilzarko::Refusal>(())
/// ```
pub fn law_file(text: &[u8]) -> Result<Vec<u8>, Refusal> {
    let mut law = vec![0; LAW_BYTES];
    let bytes = read(text, &mut law)?;
    law.truncate(bytes);
    Ok(law)
}

/// Takes one more digit, and answers 0 past the macrodigits, 1 at most, 2 no digit.
pub(crate) fn digit(state: &mut u64, digit: u8) -> u32 {
    // SAFETY: `state` is borrowed for writing until the call returns, so that no one else reads or writes it. The function is
    // proved to touch nothing beyond it, for every state and every byte.
    #[allow(unsafe_code)]
    unsafe {
        library::bilzarko_digit(state, digit)
    }
}

#[cfg(test)]
mod tests {
    use super::answered;
    use crate::Refusal;

    #[test]
    fn unknown_numbers_are_refusals() {
        assert_eq!(answered(0, 7), Ok(7));
        assert_eq!(answered(13, 7), Err(Refusal::Text));
        for number in [19, 255, u32::MAX] {
            assert_eq!(answered(number, 7), Err(Refusal::Other(number)));
        }
    }
}
