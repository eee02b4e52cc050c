//! How long both take for laws whose rows are as long as the file's limits let them be.
use std::process::ExitCode;

use crate::bench::ratio;
use crate::encode::{Layout, encode};
use crate::ours::Buffers;
use crate::parse::parse;
use crate::random::Random;

/// A law is timed so often, each time for so many seconds; the least and the greatest ratio are written.
const TIMES: usize = 9;
const SECONDS: f64 = 0.05;
const LAYOUT: Layout = Layout {
    share: true,
    junk: false,
    bytes: None,
};

/// Results begin with an e. variable: without one they have over 64 shapes, which is refusal 10.
fn laws() -> [(&'static str, String); 8] {
    let again = |term: &str, times| format!("{term} ").repeat(times);
    let result = |term, times| format!("F {{ e.A = e.A {}; }}", again(term, times));
    let long = "Stretch_".repeat(8);
    [
        ("a result of 100 characters", result("'a'", 100)),
        ("a result of 250 characters", result("'a'", 250)),
        ("a result of 509 characters", result("'a'", 509)),
        ("a result of 509 numbers", result("12", 509)),
        ("a result of 509 identifiers", result("Abc", 509)),
        (
            "a result of 509 identifiers of 62 bytes",
            result(&long[..62], 509),
        ),
        ("a result of 250 brackets", result("()", 250)),
        (
            "a pattern of 60 characters",
            format!("F {{ {} = ; }}", again("'a'", 60)),
        ),
    ]
}

pub fn run() -> ExitCode {
    let mut buffers = Buffers::new();
    for (name, notation) in laws() {
        let Ok(program) = parse(&notation) else {
            println!("{name}: not read");
            return ExitCode::FAILURE;
        };
        let encoded = encode(&program, LAYOUT, &mut Random::of(0, 0));
        let mut ratios: Vec<f64> = (0..TIMES)
            .filter_map(|_| ratio(&program, &encoded.bytes, SECONDS, &mut buffers))
            .collect();
        ratios.sort_by(f64::total_cmp);
        match (ratios.first(), ratios.get(TIMES / 2), ratios.last()) {
            (Some(least), Some(middle), Some(most)) => println!(
                "{name}: ours over the Rust {least:.2} to {most:.2}, the middle {middle:.2}"
            ),
            _ => {
                println!("{name}: refused");
                return ExitCode::FAILURE;
            }
        }
    }
    ExitCode::SUCCESS
}
