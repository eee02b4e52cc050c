//! How long the page call takes, over how long the findings call takes for the same law, in one process. Laws with few
//! findings alone are timed: the more lines are written, the less it says of what goes before them.
use std::hint::black_box;
use std::process::ExitCode;
use std::time::Instant;

use crate::bench::{PASSES, SECONDS, TURNS};
use crate::compare::{is_compared, made};
use crate::ours::Buffers;
use crate::refal::functions;
use crate::settings::Settings;

const FINDINGS: usize = 3;
/// What the ratio of a law shall not pass.
const WISHED: f64 = 1.3;

struct Time {
    /// The law, for `oracle show`.
    number: u64,
    file: Vec<u8>,
    /// Of a law without functions the findings call knows at once that there is nothing to list.
    functions: bool,
    findings: usize,
    /// One for each pass, in order of size.
    ratios: Vec<f64>,
}

impl Time {
    fn ratio(&self) -> f64 {
        self.ratios[self.ratios.len() / 2]
    }
}

pub fn run(laws: u64, seed: u64) -> ExitCode {
    let mut buffers = Buffers::new();
    let mut times: Vec<Time> = (0..laws)
        .filter_map(|number| timed(seed, number, &mut buffers))
        .collect();
    for _ in 0..PASSES {
        for time in &mut times {
            time.ratios.push(ratio(&time.file, &mut buffers));
        }
    }
    for time in &mut times {
        time.ratios.sort_by(f64::total_cmp);
    }
    println!("{}", row("all", times.iter().collect()));
    let (some, none): (Vec<&Time>, Vec<&Time>) = times.iter().partition(|time| time.functions);
    println!("{}", row("no functions", none));
    for findings in 0..=FINDINGS {
        let some = some.iter().copied();
        let some = some.filter(|time| time.findings == findings);
        println!("{}", row(&format!("{findings} findings"), some.collect()));
    }
    match times.iter().all(|time| time.ratio() <= WISHED) {
        true => ExitCode::SUCCESS,
        false => ExitCode::FAILURE,
    }
}

/// A law that is compared, with few findings in strict mode. It has no time yet.
fn timed(seed: u64, number: u64, buffers: &mut Buffers) -> Option<Time> {
    let (law, encoded, _) = made(seed, number);
    let settings = Settings::strict().ours();
    let file = is_compared(&law.program, &encoded).then_some(encoded.bytes)?;
    let (_, found) = buffers.findings(&settings, &file).ok()?;
    (found.len() <= FINDINGS).then(|| Time {
        number,
        file,
        functions: functions(&law.program).next().is_some(),
        findings: found.len(),
        ratios: Vec::new(),
    })
}

/// The least time of the page call over the least of the findings call, in turns of both.
fn ratio(law: &[u8], buffers: &mut Buffers) -> f64 {
    let settings = Settings::strict().ours();
    let Buffers {
        store, words, page, ..
    } = buffers;
    let (mut findings, mut pages) = (f64::MAX, f64::MAX);
    let (mut turns, began) = (0, Instant::now());
    while turns < TURNS || began.elapsed().as_secs_f64() < SECONDS {
        turns += 1;
        let start = Instant::now();
        black_box(bilzarko::findings(&settings, black_box(law), store, words)).ok();
        findings = findings.min(start.elapsed().as_secs_f64());
        let start = Instant::now();
        black_box(bilzarko::page(&settings, black_box(law), store, page)).ok();
        pages = pages.min(start.elapsed().as_secs_f64());
    }
    pages / findings
}

fn row(name: &str, mut times: Vec<&Time>) -> String {
    times.sort_by(|left, right| left.ratio().total_cmp(&right.ratio()));
    let Some(worst) = times.last() else {
        return format!("{name:>12}: no laws");
    };
    format!(
        "{name:>12}: {:5} laws, page call over findings call: median {:.2}, worst {:.2} (law {}), {} laws over {WISHED:.1}",
        times.len(),
        times[times.len() / 2].ratio(),
        worst.ratio(),
        worst.number,
        times.iter().filter(|time| time.ratio() > WISHED).count()
    )
}
