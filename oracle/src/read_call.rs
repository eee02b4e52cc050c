//! The library's read call, with a buffer that is filled beforehand and looked at afterwards, byte by byte.

unsafe extern "C" {
    fn bilzarko_read(
        text: *const u8,
        text_length: usize,
        law: *mut u8,
        law_length: usize,
        answer: *mut u64,
    ) -> u32;
}

/// More bytes than any call is lent: those past the lent ones must stay too.
const BYTES: usize = 20_000;
/// The most bytes that a call is lent.
pub const ROOM: usize = 18_000;
/// No call answers this.
const ANSWER: u64 = 0xa5a5_5a5a_c3c3_3c3c;

/// A buffer, what it must be after a call, and what it is before one.
pub struct Lent {
    bytes: Vec<u8>,
    expected: Vec<u8>,
    before: Vec<u8>,
}

impl Lent {
    pub fn new() -> Lent {
        // No two bytes near each other are the same.
        let before: Vec<u8> = (0..BYTES).map(|place| (place * 167 + 13) as u8).collect();
        Lent {
            bytes: before.clone(),
            expected: before.clone(),
            before,
        }
    }

    /// Compares the call's number, its answer and all bytes with what is expected: a file, or a refusal.
    pub fn compare(
        &mut self,
        text: &[u8],
        room: usize,
        expected: Result<&[u8], u32>,
    ) -> Result<(), String> {
        let file = expected.unwrap_or(&[]);
        self.expected[..file.len()].copy_from_slice(file);
        let mut answer = ANSWER;
        let number = read(text, &mut self.bytes[..room], &mut answer);
        let wanted = match expected {
            Ok(file) => (0, file.len() as u64),
            Err(number) => (number, ANSWER),
        };
        let differs = match (number, answer) == wanted {
            false => Some(format!("number and answer {:?}", (number, answer))),
            true => self.difference(),
        };
        self.bytes.copy_from_slice(&self.before);
        self.expected.copy_from_slice(&self.before);
        match differs {
            None => Ok(()),
            Some(what) => Err(format!("{what}, with room for {room}; expected {wanted:?}")),
        }
    }

    fn difference(&self) -> Option<String> {
        if self.bytes == self.expected {
            return None;
        }
        let place = (0..BYTES).find(|place| self.bytes[*place] != self.expected[*place])?;
        Some(format!(
            "byte {place} is {}, and {} is expected",
            self.bytes[place], self.expected[place]
        ))
    }
}

/// The call itself. The answer keeps its value where it is refused.
pub fn read(text: &[u8], law: &mut [u8], answer: &mut u64) -> u32 {
    // SAFETY: each pointer and number are those of one slice, and the slices are apart.
    unsafe {
        bilzarko_read(
            text.as_ptr(),
            text.len(),
            law.as_mut_ptr(),
            law.len(),
            answer,
        )
    }
}
