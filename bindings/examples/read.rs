//! Writes the law file of a law typed as Refal-5 text: `read TEXT LAW`.
//!
//! It prints a line with the number of bytes written. A text that is refused gives the line `refused N` and the exit status 1;
//! no law file is written then.
use std::env;
use std::fs;
use std::io::{self, Write};
use std::process::ExitCode;

use bilzarko::law_file;

fn main() -> ExitCode {
    let names: Vec<_> = env::args_os().skip(1).collect();
    let [text_name, law_name] = names.as_slice() else {
        eprintln!("usage: read TEXT LAW");
        return ExitCode::from(2);
    };
    let text = match fs::read(text_name) {
        Ok(text) => text,
        Err(error) => {
            eprintln!("{}: {error}", text_name.to_string_lossy());
            return ExitCode::from(2);
        }
    };
    let read = law_file(&text);
    let out = match &read {
        Ok(law) => format!("{}\n", law.len()),
        Err(refusal) => format!("refused {}\n", refusal.number()),
    };
    if let Ok(law) = &read {
        if let Err(error) = fs::write(law_name, law) {
            eprintln!("{}: {error}", law_name.to_string_lossy());
            return ExitCode::from(2);
        }
    }
    if io::stdout().write_all(out.as_bytes()).is_err() {
        return ExitCode::from(2);
    }
    ExitCode::from(u8::from(read.is_err()))
}
