//! How long the findings call takes, over how long the Rust takes for the same law, in one process.
//!
//! Neither parses. Ours reads the law file, and fills all words of the store itself; the caller clears nothing between
//! calls. The Rust gets the `Program`, and its time has `Checker`'s errors, which ours has no counterpart of, and the
//! freeing of what it answers.
use std::hint::black_box;
use std::process::ExitCode;
use std::time::Instant;

use refal_ast::Program;
use refal_semantics::check_program_with_levels;

use crate::compare::{compared, made};
use crate::ours::Buffers;
use crate::settings::Settings;
use crate::zeros::without_zeros;

/// Each time is the least of those taken in turns: so many turns at least, and more until both together took so many seconds,
/// since one interruption is longer than a small law takes.
pub const TURNS: usize = 9;
pub const SECONDS: f64 = 2e-4;
/// All laws are gone through so many times, and the middle ratio of a law counts: both sides of a ratio are then of one state of
/// the machine, and a short disturbance meets a law in one pass alone.
pub const PASSES: usize = 5;
const CLEARINGS: usize = 999;
/// The ratios that the median, and that any law, shall not pass.
const WISHED: [f64; 2] = [1.0, 2.0];
/// The sizes, in term records, that are told apart: from each up to the next. Of a law without terms nearly all time goes to
/// the store.
const SIZES: [usize; 7] = [0, 1, 16, 48, 96, 192, 384];

struct Time {
    /// The law, for `oracle show`.
    number: u64,
    terms: usize,
    /// It has a literal argument with brackets, which is matched here and not in the Rust.
    bracketed: bool,
    /// One for each pass, in order of size.
    ratios: Vec<f64>,
}

impl Time {
    fn ratio(&self) -> f64 {
        self.ratios[self.ratios.len() / 2]
    }
}

pub fn run(laws: u64, seed: u64) -> ExitCode {
    let mut buffers = Buffers::new();
    let mut times: Vec<Time> = (0..laws)
        .filter_map(|number| time(seed, number, &mut buffers))
        .collect();
    for _ in 1..PASSES {
        for known in &mut times {
            if let Some(again) = time(seed, known.number, &mut buffers) {
                known.ratios.extend(again.ratios);
            }
        }
    }
    for known in &mut times {
        known.ratios.sort_by(f64::total_cmp);
    }
    println!("{}", row("all", times.iter().collect()));
    let (more, same): (Vec<&Time>, Vec<&Time>) = times.iter().partition(|time| time.bracketed);
    println!("{}", row("bracketed literals", more));
    println!("{}", row("the others", same.clone()));
    for (place, start) in SIZES.iter().enumerate() {
        let end = SIZES.get(place + 1).copied().unwrap_or(usize::MAX);
        let some = same.iter().copied();
        let some = some.filter(|time| (*start..end).contains(&time.terms));
        println!("{}", row(&class(*start, end), some.collect()));
    }
    println!("{}", clearing(&mut buffers));
    ExitCode::SUCCESS
}

/// The name of a class of sizes.
fn class(start: usize, end: usize) -> String {
    match end {
        usize::MAX => format!("from {start} terms"),
        _ if start + 1 == end => format!("{start} terms"),
        _ => format!("{start} to {} terms", end - 1),
    }
}

/// What writing all words of a store takes, of the findings call of a law without functions.
fn clearing(buffers: &mut Buffers) -> String {
    let (settings, law) = (Settings::strict().ours(), [0; 20]);
    let (mut call, mut store) = (f64::MAX, f64::MAX);
    for _ in 0..CLEARINGS {
        let start = Instant::now();
        black_box(bilzarko::findings(
            &settings,
            black_box(&law),
            &mut buffers.store,
            &mut buffers.words,
        ))
        .ok();
        call = call.min(start.elapsed().as_secs_f64());
        let start = Instant::now();
        black_box(&mut buffers.store[..bilzarko::STORE_WORDS]).fill(0);
        store = store.min(start.elapsed().as_secs_f64());
    }
    format!(
        "writing the {} words of a store alone takes {:.2} of the findings call of a law without functions",
        bilzarko::STORE_WORDS,
        store / call
    )
}

/// Only laws that are compared are timed: refused ones have no time in the Rust.
fn time(seed: u64, number: u64, buffers: &mut Buffers) -> Option<Time> {
    let (law, encoded, _) = made(seed, number);
    let remarks = compared(&law.program, &encoded)?;
    // The Rust gets the law of which it is known that it does not take too long.
    let stripped = without_zeros(&law.program).unwrap_or(law.program);
    Some(Time {
        number,
        terms: encoded.terms.len(),
        bracketed: remarks.bracketed > 0,
        ratios: vec![ratio(&stripped, &encoded.bytes, SECONDS, buffers)?],
    })
}

/// The least time of the findings call over the least of the Rust, in turns of both that take so many seconds.
pub fn ratio(program: &Program, bytes: &[u8], seconds: f64, buffers: &mut Buffers) -> Option<f64> {
    let settings = Settings::strict();
    let (ours, levels) = (settings.ours(), settings.levels());
    let (mut least_ours, mut least_rust) = (f64::MAX, f64::MAX);
    let (mut turns, began) = (0, Instant::now());
    while turns < TURNS || began.elapsed().as_secs_f64() < seconds {
        turns += 1;
        let start = Instant::now();
        let answer = bilzarko::findings(
            &ours,
            black_box(bytes),
            &mut buffers.store,
            &mut buffers.words,
        );
        least_ours = least_ours.min(start.elapsed().as_secs_f64());
        black_box(&answer).as_ref().ok()?;
        let start = Instant::now();
        drop(black_box(check_program_with_levels(
            black_box(program),
            settings.mode(),
            &levels,
        )));
        least_rust = least_rust.min(start.elapsed().as_secs_f64());
    }
    Some(least_ours / least_rust)
}

fn row(name: &str, times: Vec<&Time>) -> String {
    let ratio = sorted(times.iter().map(|time| time.ratio()));
    let Some(worst) = times
        .iter()
        .max_by(|left, right| left.ratio().total_cmp(&right.ratio()))
    else {
        return format!("{name:>18}: no laws");
    };
    let over = WISHED.map(|wished| ratio.iter().filter(|ratio| **ratio > wished).count());
    format!(
        "{name:>18}: {:5} laws, ours over the Rust: median {:.2}, worst {:.2} (law {}), {} laws over {:.1}, {} over {:.1}",
        ratio.len(),
        ratio[ratio.len() / 2],
        worst.ratio(),
        worst.number,
        over[0],
        WISHED[0],
        over[1],
        WISHED[1]
    )
}

fn sorted(all: impl Iterator<Item = f64>) -> Vec<f64> {
    let mut all: Vec<f64> = all.collect();
    all.sort_by(f64::total_cmp);
    all
}
