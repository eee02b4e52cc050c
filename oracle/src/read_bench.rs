//! How long the read call takes, over how long the check of the law file that it writes takes; and how its time grows.
//!
//! The library exports no call that checks a law file alone. A findings call with no store is refused with 15 once all of 1 to 9
//! were looked for, so that its time is that of the check.
use std::hint::black_box;
use std::process::ExitCode;
use std::time::Instant;

use bilzarko::Refusal;

use crate::read_call::{ROOM, read};
use crate::settings::Settings;
use crate::worst_texts::{FAMILIES, Family, ordinary};

/// Each time is the least of so many turns at least, and of as many as so many seconds have room for.
const TURNS: usize = 9;
const SECONDS: f64 = 0.02;
/// The C library's number for the time that a thread had a processor.
const THREAD_CLOCK: i32 = 3;
/// The ratio that an ordinary law shall not pass, and the seconds of any text.
const RATIO: f64 = 10.0;
const LONGEST: f64 = 5e-3;
/// Twice the tokens and twice the records shall not take longer than their product, and what disturbs a measure.
const GROWTH: f64 = 4.0 * 1.25;

/// What the read call answers, and how long it takes.
struct Timed {
    answer: Result<Vec<u8>, u32>,
    seconds: f64,
}

pub fn run() -> ExitCode {
    let mut slow = 0;
    let timed = time(ordinary().as_bytes());
    let ratio = timed.ratio();
    println!("an ordinary law of 4,096 bytes: {}", timed.shown());
    slow += usize::from(ratio.is_none_or(|ratio| ratio > RATIO));
    let mut longest = timed.seconds;
    for family in &FAMILIES {
        let timed = time(&family.text(family.most));
        let growth = growth(family, timed.seconds);
        println!(
            "{} {}: {}; at most {growth:.1} times that of half as many",
            family.most,
            family.what,
            timed.shown()
        );
        longest = longest.max(timed.seconds);
        slow += usize::from(growth > GROWTH);
    }
    slow += usize::from(longest > LONGEST);
    println!(
        "the longest takes {:.1} µs; {slow} over what is wished",
        1e6 * longest
    );
    match slow {
        0 => ExitCode::SUCCESS,
        _ => ExitCode::FAILURE,
    }
}

/// The greater of two doublings, the last ones.
fn growth(family: &Family, all: f64) -> f64 {
    let half = time(&family.text(family.most / 2)).seconds;
    let quarter = time(&family.text(family.most / 4)).seconds;
    (all / half).max(half / quarter)
}

fn time(text: &[u8]) -> Timed {
    let mut law = vec![0; ROOM];
    let mut answer = 0;
    let mut number = 0;
    let seconds = least(|| number = read(black_box(text), &mut law, &mut answer));
    law.truncate(answer as usize);
    Timed {
        answer: if number == 0 { Ok(law) } else { Err(number) },
        seconds,
    }
}

/// A long call is interrupted in each turn where the machine is busy: the processor's time tells then.
fn least(mut call: impl FnMut()) -> f64 {
    let (mut least, mut turns, began) = (f64::MAX, 0, Instant::now());
    while turns < TURNS || began.elapsed().as_secs_f64() < SECONDS {
        turns += 1;
        let (busy, start) = (processor_seconds(), Instant::now());
        call();
        let passed = start.elapsed().as_secs_f64();
        least = least.min(passed).min(processor_seconds() - busy);
    }
    least
}

unsafe extern "C" {
    fn clock_gettime(clock: i32, time: *mut [i64; 2]) -> i32;
}

/// How long this thread had a processor.
fn processor_seconds() -> f64 {
    let mut time = [0; 2];
    // SAFETY: a time is two 64-bit numbers on x86-64 Linux, which the library is for.
    unsafe { clock_gettime(THREAD_CLOCK, &mut time) };
    time[0] as f64 + 1e-9 * time[1] as f64
}

impl Timed {
    /// Over the time of the check.
    fn ratio(&self) -> Option<f64> {
        Some(self.seconds / check(self.answer.as_ref().ok()?))
    }

    fn shown(&self) -> String {
        let micros = 1e6 * self.seconds;
        match &self.answer {
            Err(number) => format!("refused with {number}, {micros:.1} µs"),
            Ok(law) => format!(
                "a file of {} bytes, {micros:.1} µs, {:.1} times its check",
                law.len(),
                self.ratio().unwrap_or(f64::NAN)
            ),
        }
    }
}

/// How long the check of a law file takes.
fn check(law: &[u8]) -> f64 {
    let settings = Settings::strict().ours();
    let mut answer = None;
    let seconds = least(|| {
        answer = bilzarko::findings(&settings, black_box(law), &mut [], &mut []).err();
    });
    assert_eq!(answer, Some(Refusal::Store), "the law is accepted");
    seconds
}
