//! The test of a number's digits, one by one as they are typed.
use crate::calls;

/// What [`Digits::push`] answers.
#[derive(Clone, Copy, Debug, PartialEq, Eq, Hash)]
pub enum Tested {
    /// The value of the digits so far is past 4294967295, the greatest macrodigit.
    Past,
    /// The value of the digits so far is at most 4294967295.
    AtMost,
    /// The byte is no digit. The digits so far stay as they were.
    NoDigit,
}

impl Tested {
    /// The number that the library returns for it.
    pub const fn number(self) -> u32 {
        match self {
            Tested::Past => 0,
            Tested::AtMost => 1,
            Tested::NoDigit => 2,
        }
    }

    /// The library returns no number but these three.
    const fn of_number(number: u32) -> Tested {
        match number {
            0 => Tested::Past,
            1 => Tested::AtMost,
            _ => Tested::NoDigit,
        }
    }
}

/// The digits of a number, however many, handed over one by one from the left. After each it is known whether the number so far
/// is a macrodigit, which is what the builtin lint asks of a number.
///
/// ```
/// use bilzarko::{Digits, Tested};
///
/// let mut number = Digits::new();
/// let answers: Vec<Tested> = b"4294967296".iter().map(|&byte| number.push(byte)).collect();
/// assert!(answers[..9].iter().all(|&answer| answer == Tested::AtMost));
/// assert_eq!(answers[9], Tested::Past);
/// assert_eq!(number.push(b'x'), Tested::NoDigit);
/// ```
#[derive(Clone, Copy, Debug, Default, PartialEq, Eq, Hash)]
pub struct Digits {
    state: u64,
}

impl Digits {
    /// No digits.
    pub const fn new() -> Digits {
        Digits { state: 0 }
    }

    /// Takes one more byte.
    pub fn push(&mut self, digit: u8) -> Tested {
        Tested::of_number(calls::digit(&mut self.state, digit))
    }

    /// The value of the digits so far, where it is that of a macrodigit. Without digits it is 0.
    ///
    /// ```
    /// let mut number = bilzarko::Digits::new();
    /// number.push(b'4');
    /// number.push(b'2');
    /// assert_eq!(number.value(), Some(42));
    /// ```
    pub fn value(&self) -> Option<u32> {
        u32::try_from(self.state).ok()
    }
}
