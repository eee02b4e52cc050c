//! Prints the findings of a law file as pages: `page LAW`.
//!
//! `bilzarko::page` says what a page is. A refused law gives the line `refused N` and the exit status 1.
use std::env;
use std::fs;
use std::io::{self, Write};
use std::process::ExitCode;

use bilzarko::{page, Mode, Settings, PAGE_BYTES, STORE_WORDS};

fn main() -> ExitCode {
    let Some(name) = env::args_os().nth(1) else {
        eprintln!("usage: page LAW");
        return ExitCode::from(2);
    };
    let law = match fs::read(&name) {
        Ok(law) => law,
        Err(error) => {
            eprintln!("{}: {error}", name.to_string_lossy());
            return ExitCode::from(2);
        }
    };
    let mut store = vec![0; STORE_WORDS];
    let mut out = vec![0; PAGE_BYTES];
    let written = page(&Settings::new(Mode::Strict), &law, &mut store, &mut out);
    match &written {
        Ok(bytes) => out.truncate(*bytes),
        Err(refusal) => out = format!("refused {}\n", refusal.number()).into_bytes(),
    }
    if io::stdout().write_all(&out).is_err() {
        return ExitCode::from(2);
    }
    ExitCode::from(u8::from(written.is_err()))
}
