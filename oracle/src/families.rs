//! How long the findings call takes for families of laws on which a search that tries every length takes ever longer, and
//! whether it lists them rightly: none of their patterns matches its row.
use std::process::ExitCode;
use std::time::Duration;

use bilzarko::Refusal;

use crate::encode::{Layout, encode};
use crate::family_laws::{Asked, Family, Pair, families};
use crate::random::Random;
use crate::refal::notation;
use crate::worker::{DEADLINE, Listed, Worker};

#[derive(Default)]
struct Counts {
    rows: usize,
    laws: usize,
    /// Rows that ended at a law that took too long, and the laws that were left out for it.
    ended: usize,
    left_out: usize,
    wrong: usize,
    worst: Duration,
}

pub fn run() -> ExitCode {
    let mut counts = Counts::default();
    let mut worker = Worker::new();
    for family in families() {
        for asked in [Asked::Shadowing, Asked::Literals] {
            row(&family, asked, &mut worker, &mut counts);
        }
    }
    println!(
        "{} laws in {} rows, the worst {} us; {} rows end over {DEADLINE} s, where {} laws are left out; {} wrong listings",
        counts.laws,
        counts.rows,
        microseconds(counts.worst),
        counts.ended,
        counts.left_out,
        counts.wrong
    );
    match counts.wrong {
        0 => ExitCode::SUCCESS,
        _ => ExitCode::FAILURE,
    }
}

/// The laws of a family in their order, up to one that takes too long.
fn row(family: &Family, asked: Asked, worker: &mut Worker, counts: &mut Counts) {
    let (mut done, mut times) = (0, Vec::new());
    let mut worst: Option<(Duration, &Pair)> = None;
    let mut end = String::new();
    for pair in &family.pairs {
        let Some(time) = time(pair, asked, worker, counts) else {
            let left = family.pairs.len() - done - 1;
            end = format!(
                "; over {} s: {}, {left} left out",
                DEADLINE, pair.parameters
            );
            counts.ended += 1;
            counts.left_out += left;
            break;
        };
        done += 1;
        times.push(format!("{}: {}", pair.parameters, microseconds(time)));
        if worst.is_none_or(|(most, _)| time > most) {
            worst = Some((time, pair));
        }
    }
    let most = worst.map_or("none".into(), |(time, pair)| {
        format!("worst {} us ({})", microseconds(time), pair.parameters)
    });
    println!("{}, {asked:?}: {done} laws, {most}{end}", family.name);
    if family.each {
        println!("  us by law: {}", times.join("; "));
    }
    counts.rows += 1;
    counts.laws += done;
    counts.worst = counts
        .worst
        .max(worst.map_or(Duration::ZERO, |(time, _)| time));
}

/// The time of one law, where it does not take too long. What is listed is looked at.
fn time(pair: &Pair, asked: Asked, worker: &mut Worker, counts: &mut Counts) -> Option<Duration> {
    let layout = Layout {
        share: true,
        junk: false,
        bytes: None,
    };
    let law = pair.law(asked);
    let encoded = encode(&law, layout, &mut Random::of(0, 0));
    assert_eq!(encoded.refusal, None, "{} is past a limit", pair.parameters);
    let (time, listed) = worker.call(&encoded.bytes)?;
    let right = expected(pair, asked);
    if listed != right {
        counts.wrong += 1;
        println!("{listed:?}, and not {right:?}: {}", notation(&law));
    }
    Some(time)
}

/// Refusal 10 tells as much as a finding: an argument that a sentence matches is not compared by formats.
fn expected(pair: &Pair, asked: Asked) -> Listed {
    let mut right = Listed::default();
    match asked {
        Asked::Shadowing => {}
        Asked::Literals if pair.is_wide() => right.refusal = Refusal::Shapes.number(),
        Asked::Literals => right.by_literals = 1,
    }
    right
}

fn microseconds(time: Duration) -> String {
    format!("{:.1}", time.as_secs_f64() * 1e6)
}
