//! Marks a number as it is typed: `mark NUMBER`.
//!
//! It prints the number, and under each byte `.` where the number so far is a macrodigit, `^` where it is past the macrodigits, and
//! `?` where the byte is no digit.
use std::env;
use std::io::{self, Write};
use std::process::ExitCode;

use bilzarko::{Digits, Tested};

fn marks(number: &[u8]) -> Vec<u8> {
    let mut digits = Digits::new();
    let mark = |&byte| match digits.push(byte) {
        Tested::AtMost => b'.',
        Tested::Past => b'^',
        Tested::NoDigit => b'?',
    };
    number.iter().map(mark).collect()
}

fn main() -> ExitCode {
    let arguments: Vec<_> = env::args_os().skip(1).collect();
    let [number] = arguments.as_slice() else {
        eprintln!("usage: mark NUMBER");
        return ExitCode::from(2);
    };
    let number = number.as_encoded_bytes();
    let out = [number, b"\n", &marks(number), b"\n"].concat();
    if io::stdout().write_all(&out).is_err() {
        return ExitCode::from(2);
    }
    ExitCode::SUCCESS
}
