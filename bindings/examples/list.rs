//! Prints the findings of a law file: `list LAW`.
//!
//! The first line has the number of findings, the rounds, and 1 for settled or 0. A line for each finding follows: its
//! span, its severity and its text. A refused law gives the line `refused N` and the exit status 1.
use std::env;
use std::fs;
use std::io::{self, Write};
use std::process::ExitCode;

use bilzarko::{list, Listing, Mode, Settings};

fn lines(listing: &Listing) -> String {
    let mut out = format!(
        "{} {} {}\n",
        listing.findings.len(),
        listing.rounds,
        u32::from(listing.settled)
    );
    for listed in &listing.findings {
        let finding = listed.finding;
        out += &format!(
            "{}-{} {}: {}\n",
            finding.span_start, finding.span_end, finding.severity, listed.text
        );
    }
    out
}

fn main() -> ExitCode {
    let Some(name) = env::args_os().nth(1) else {
        eprintln!("usage: list LAW");
        return ExitCode::from(2);
    };
    let law = match fs::read(&name) {
        Ok(law) => law,
        Err(error) => {
            eprintln!("{}: {error}", name.to_string_lossy());
            return ExitCode::from(2);
        }
    };
    let listed = list(&Settings::new(Mode::Strict), &law);
    let out = match &listed {
        Ok(listing) => lines(listing),
        Err(refusal) => format!("refused {}\n", refusal.number()),
    };
    if io::stdout().write_all(out.as_bytes()).is_err() {
        return ExitCode::from(2);
    }
    ExitCode::from(u8::from(listed.is_err()))
}
