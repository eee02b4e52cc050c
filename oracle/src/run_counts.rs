//! What the last line of `runs` counts.
use crate::listed::Broken;

#[derive(Default)]
pub struct RunCounts {
    pub laws: usize,
    pub runs: usize,
    pub steps: usize,
    pub chosen: usize,
    /// Listed calls that were reached, and found nothing.
    pub calls_reached: usize,
    /// Calls of functions with a listed sentence, and those whose argument its left side matches.
    pub functions_entered: usize,
    pub left_sides_matched: usize,
    /// Runs by how they ended.
    pub ends: Ends,
    pub rust: Caught,
    pub slip: Caught,
    /// Laws outside the premise, and findings that are false there.
    pub unsettled: usize,
    pub unsettled_recognised: usize,
    /// Blocks' sentences that are listed and were chosen.
    pub block_chosen: usize,
    /// That no number has a needless zero and no name is defined twice is no premise of the theorem.
    pub with_zeros: usize,
    pub defined_twice: usize,
    /// Laws without functions have no runs.
    pub empty: usize,
    pub refused: usize,
    pub too_long: usize,
}

#[derive(Default)]
pub struct Ends {
    pub finished: usize,
    pub nothing_matched: usize,
    pub no_value: usize,
    pub no_answer: usize,
    pub cut_off: usize,
}

/// How often a listing that is not ours was found false.
#[derive(Default)]
pub struct Caught {
    pub laws: usize,
    pub chosen: usize,
    pub recognised: usize,
    /// The last law that was counted, and the first.
    pub last: Option<u64>,
    pub first: Option<u64>,
}

impl Caught {
    pub fn add(&mut self, law: u64, broken: Broken) {
        match broken {
            Broken::Chosen(_) => self.chosen += 1,
            Broken::Recognised(..) => self.recognised += 1,
        }
        self.laws += usize::from(self.last != Some(law));
        self.last = Some(law);
        self.first.get_or_insert(law);
    }

    fn summary(&self) -> String {
        let first = match self.first {
            Some(number) => format!(", first in law {number}"),
            None => String::new(),
        };
        format!(
            "in {} laws, {} listed sentences chosen, {} listed calls recognised{first}",
            self.laws, self.chosen, self.recognised
        )
    }
}

impl RunCounts {
    pub fn summary(&self, seed: u64) -> String {
        format!(
            "seed {seed}: {} laws, {} runs, {} steps, {} sentences chosen; no finding false: {} listed calls reached \
             that found nothing, {} calls of functions with a listed sentence, of which {} with an argument that its \
             left side matches; runs ended: {}; caught of the Rust's listing: {}; of one that does not go back into \
             brackets: {}; outside the premise: {}; {} laws with needless zeros, {} with a name defined twice; left \
             out: {} without functions, {} refused, {} matching too long",
            self.laws,
            self.runs,
            self.steps,
            self.chosen,
            self.calls_reached,
            self.functions_entered,
            self.left_sides_matched,
            self.ends.summary(),
            self.rust.summary(),
            self.slip.summary(),
            self.outside(),
            self.with_zeros,
            self.defined_twice,
            self.empty,
            self.refused,
            self.too_long
        )
    }

    /// The same of one run alone.
    pub fn one_run(&self) -> String {
        format!(
            "{} steps, {} sentences chosen, {} listed calls reached that found nothing; caught of the Rust's listing: \
             {} sentences; of one that does not go back into brackets: {} calls",
            self.steps, self.chosen, self.calls_reached, self.rust.chosen, self.slip.recognised
        )
    }

    fn outside(&self) -> String {
        format!(
            "{} laws unsettled, {} calls listed by formats recognised, {} listed sentences of blocks chosen",
            self.unsettled, self.unsettled_recognised, self.block_chosen
        )
    }
}

impl Ends {
    fn summary(&self) -> String {
        format!(
            "{} with an expression, {} since nothing matched, {} at a variable without a value, {} without an answer, \
             {} cut off",
            self.finished, self.nothing_matched, self.no_value, self.no_answer, self.cut_off
        )
    }
}
