//! Random laws run on random arguments: no listed call is recognised and no listed sentence is chosen. The machine is
//! the definition's (`machine.rs`). The same watch goes over two listings that are at times false, and must catch them:
//! the Rust's, by named difference 1, and one that does not go back into brackets.
use std::collections::HashSet;
use std::process::ExitCode;

use refal_ast::{Function, Program, Sentence};

use crate::arguments::Source;
use crate::compare::is_compared;
use crate::encode::{Encoded, encode};
use crate::examples;
use crate::expression::{Expression, shown};
use crate::listed::{Broken, By, Listed};
use crate::matching::Steps;
use crate::ours::Buffers;
use crate::random::Random;
use crate::records::{fold, numbered};
use crate::refal::{functions, notation};
use crate::rounds;
use crate::run_counts::RunCounts;
use crate::run_laws;
use crate::settings::Settings;
use crate::watch::Watch;
use crate::zeros::without_zeros;

/// Runs of one law.
const RUNS: usize = 8;
/// What the listing that does not go back may cost.
const SLIP_STEPS: u64 = 20_000;
/// In so many laws each of the two other listings must be caught, or the watch sees nothing.
const ENOUGH: u64 = 5_000;

pub fn run(laws: u64, seed: u64) -> ExitCode {
    let mut counts = RunCounts::default();
    let mut buffers = Buffers::new();
    let all = examples::check().and_then(|()| {
        (0..laws).try_for_each(|number| one(seed, number, &mut counts, &mut buffers))
    });
    if let Err(reason) = all {
        println!("{reason}");
        return ExitCode::FAILURE;
    }
    println!("{}", counts.summary(seed));
    if laws >= ENOUGH && (counts.rust.chosen == 0 || counts.slip.recognised == 0) {
        println!("a listing that is at times false was never caught");
        return ExitCode::FAILURE;
    }
    ExitCode::SUCCESS
}

/// Shows one law of a seed again, with what is listed and its runs.
pub fn show(seed: u64, number: u64) -> ExitCode {
    let (program, encoded) = made(seed, number);
    print!("{}", notation(&program));
    if why_left_out(&program, &encoded).is_some() {
        println!("left out");
        return ExitCode::SUCCESS;
    }
    match show_runs(seed, number, &encoded) {
        Ok(()) => ExitCode::SUCCESS,
        Err(reason) => {
            println!("{reason}");
            ExitCode::FAILURE
        }
    }
}

fn show_runs(seed: u64, number: u64, encoded: &Encoded) -> Result<(), String> {
    let subject = Subject::of(encoded, &mut Buffers::new())?;
    println!("listed: {}", subject.ours.told());
    println!("listed by the Rust: {}", subject.rust.told());
    println!("listed without going back: {}", subject.slip.told());
    subject.each_run(seed, number, |start, law| {
        let mut counts = RunCounts::default();
        let followed = Watch::over(&subject, law, number, &mut counts).follow(start);
        println!("{}: {}", start.told(), counts.one_run());
        followed
    })
}

fn made(seed: u64, number: u64) -> (Program, Encoded) {
    let mut random = Random::of(seed, number);
    let law = run_laws::law(&mut random);
    let encoded = encode(&law.program, law.layout, &mut random);
    (law.program, encoded)
}

enum LeftOut {
    Empty,
    Refused,
    TooLong,
}

fn why_left_out(program: &Program, encoded: &Encoded) -> Option<LeftOut> {
    if functions(program).next().is_none() {
        return Some(LeftOut::Empty);
    }
    if is_compared(program, encoded) {
        return None;
    }
    let refused = encoded.refusal.is_some() || rounds::infer(program).is_err();
    Some(if refused {
        LeftOut::Refused
    } else {
        LeftOut::TooLong
    })
}

fn one(
    seed: u64,
    number: u64,
    counts: &mut RunCounts,
    buffers: &mut Buffers,
) -> Result<(), String> {
    let (program, encoded) = made(seed, number);
    if let Some(why) = why_left_out(&program, &encoded) {
        *match why {
            LeftOut::Empty => &mut counts.empty,
            LeftOut::Refused => &mut counts.refused,
            LeftOut::TooLong => &mut counts.too_long,
        } += 1;
        return Ok(());
    }
    runs_of(seed, number, &encoded, counts, buffers).map_err(|reason| {
        format!(
            "law {number} of seed {seed}: {reason}\n{}",
            notation(&program)
        )
    })
}

fn runs_of(
    seed: u64,
    number: u64,
    encoded: &Encoded,
    counts: &mut RunCounts,
    buffers: &mut Buffers,
) -> Result<(), String> {
    let subject = Subject::of(encoded, buffers)?;
    subject.count(counts);
    subject.each_run(seed, number, |start, law| {
        Watch::over(&subject, law, number, counts)
            .follow(start)
            .map_err(|reason| format!("{reason} in a {}", start.told()))
    })
}

/// A law that is run, with what is listed.
pub struct Subject {
    /// Its spans start with records, its names are folded.
    law: Program,
    pub ours: Listed,
    pub rust: Listed,
    pub slip: Listed,
    settled: bool,
    with_zeros: bool,
}

/// A function, its argument, and the answers of functions that are not defined.
pub struct Start<'l> {
    pub function: &'l Function,
    pub argument: Expression<'l>,
    pub answers: Vec<Expression<'l>>,
}

impl<'l> Start<'l> {
    /// Mostly on what the left side of one of its sentences matches.
    fn any(law: &[&'l Function], source: &Source<'l>, random: &mut Random) -> Start<'l> {
        let function = *random.pick(law);
        if !function.sentences.is_empty() && random.chance(85) {
            let sentence = random.pick(&function.sentences);
            return Start::at((function, sentence), source, random);
        }
        Start {
            function,
            argument: source.expression(random),
            answers: source.answers(random),
        }
    }

    /// On what the left side of a sentence matches.
    fn at(
        (function, sentence): (&'l Function, &'l Sentence),
        source: &Source<'l>,
        random: &mut Random,
    ) -> Start<'l> {
        Start {
            function,
            argument: source.instance(&sentence.pattern, random),
            answers: source.answers(random),
        }
    }

    fn told(&self) -> String {
        let answers: Vec<String> = self.answers.iter().map(|one| shown(one)).collect();
        let (name, argument) = (&self.function.name, shown(&self.argument));
        format!("run of {name} on {argument}; answers {answers:?}")
    }
}

impl Subject {
    fn of(encoded: &Encoded, buffers: &mut Buffers) -> Result<Subject, String> {
        let strict = Settings {
            strict: true,
            overrides: Vec::new(),
        };
        let (count, found) = buffers
            .findings(&strict.ours(), &encoded.bytes)
            .map_err(|refusal| format!("the findings call answers {refusal}"))?;
        let mut law = numbered(&encoded.bytes);
        let ours = Listed::by_words(&found, &law);
        let stripped = without_zeros(&law);
        let with_zeros = stripped.is_some();
        let mut stripped = stripped.unwrap_or_else(|| law.clone());
        let rust = Listed::by_rust(&stripped);
        fold(&mut law);
        fold(&mut stripped);
        let slip = Listed::by_slip(&stripped, &mut Steps(SLIP_STEPS)).unwrap_or_default();
        Ok(Subject {
            law,
            ours,
            rust,
            slip,
            settled: count.settled,
            with_zeros,
        })
    }

    fn count(&self, counts: &mut RunCounts) {
        let names: HashSet<&str> = functions(&self.law).map(|one| one.name.as_str()).collect();
        counts.laws += 1;
        counts.unsettled += usize::from(!self.settled);
        counts.with_zeros += usize::from(self.with_zeros);
        counts.defined_twice += usize::from(names.len() < functions(&self.law).count());
    }

    /// Whether the premise is met by which this must not happen: `formats_hold`, `literals_hold` and `dead_holds` of
    /// `crates/runs/proofs/FindingsHold.antt`.
    pub fn promised(&self, broken: Broken) -> bool {
        match broken {
            Broken::Recognised(_, By::Formats) => self.settled,
            Broken::Recognised(_, By::Literals) | Broken::Chosen(_) => true,
        }
    }

    fn each_run<'l>(
        &'l self,
        seed: u64,
        number: u64,
        mut follow: impl FnMut(&Start<'l>, &[&'l Function]) -> Result<(), String>,
    ) -> Result<(), String> {
        // Other numbers than those that the law was made from.
        let mut random = Random::of(!seed, number);
        let law: Vec<&Function> = functions(&self.law).collect();
        let source = Source::of(&law);
        let telling = self.telling(&law);
        (0..RUNS).try_for_each(|_| {
            let start = match telling.is_empty() || random.chance(30) {
                true => Start::any(&law, &source, &mut random),
                false => Start::at(*random.pick(&telling), &source, &mut random),
            };
            follow(&start, &law)
        })
    }

    /// The sentences that some listing concerns: runs shall reach them.
    fn telling<'l>(&self, law: &[&'l Function]) -> Vec<(&'l Function, &'l Sentence)> {
        let listings = [&self.ours, &self.rust, &self.slip];
        law.iter()
            .flat_map(|function| function.sentences.iter().map(move |own| (*function, own)))
            .filter(|(_, own)| listings.iter().any(|listed| listed.concerns(own)))
            .collect()
    }
}
