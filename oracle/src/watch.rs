//! One run of a law, looked at before each step.
use refal_ast::{Function, Sentence};

use crate::expression::{Item, none_bound, run_matches};
use crate::listed::Broken;
use crate::machine::{Machine, State, Trial, definition};
use crate::matching::{Steps, TooLong};
use crate::run_counts::RunCounts;
use crate::runs::{Start, Subject};

/// Where a run is cut off: after so many steps, when its matching took so long, or a value has so many terms.
const STEPS: usize = 400;
const MATCHING: u64 = 20_000;
const LENGTH: usize = 400;

/// Why a run is not followed to its end.
enum End {
    CutOff,
    False(String),
}

impl From<TooLong> for End {
    fn from(_: TooLong) -> End {
        End::CutOff
    }
}

pub struct Watch<'l, 'w> {
    subject: &'l Subject,
    law: &'w [&'l Function],
    /// The law's number, for the counts.
    number: u64,
    counts: &'w mut RunCounts,
}

impl<'l, 'w> Watch<'l, 'w> {
    pub fn over(
        subject: &'l Subject,
        law: &'w [&'l Function],
        number: u64,
        counts: &'w mut RunCounts,
    ) -> Watch<'l, 'w> {
        Watch {
            subject,
            law,
            number,
            counts,
        }
    }

    /// Fails where a finding is false.
    pub fn follow(mut self, start: &Start<'l>) -> Result<(), String> {
        self.counts.runs += 1;
        let (argument, answers) = (start.argument.clone(), start.answers.clone());
        let (mut machine, state) =
            Machine::run(self.law, start.function, argument, answers, Steps(MATCHING));
        match self.whole(&mut machine, state) {
            Ok(()) => Ok(()),
            Err(End::CutOff) => {
                self.counts.ends.cut_off += 1;
                Ok(())
            }
            Err(End::False(reason)) => Err(reason),
        }
    }

    fn whole(&mut self, machine: &mut Machine<'l, '_>, mut state: State<'l>) -> Result<(), End> {
        if let State::Trying(Trial::Sentences(_, argument, sentences)) = &state {
            self.enter(sentences, argument, &mut machine.steps)?;
        }
        for _ in 0..STEPS {
            self.look(&state, &mut machine.steps)?;
            let why = stop(&state);
            state = machine.step(state)?;
            self.counts.steps += 1;
            match (&state, why) {
                (State::Finished(_), _) => self.counts.ends.finished += 1,
                (State::Stopped, Stop::NothingMatched) => self.counts.ends.nothing_matched += 1,
                (State::Stopped, Stop::NoValue) => self.counts.ends.no_value += 1,
                (State::Stopped, Stop::NoAnswer) => self.counts.ends.no_answer += 1,
                (State::Working(_, _, so_far), _) if so_far.len() > LENGTH => break,
                _ => continue,
            }
            return Ok(());
        }
        Err(End::CutOff)
    }

    fn look(&mut self, state: &State<'l>, steps: &mut Steps) -> Result<(), End> {
        match state {
            State::Called(_, name, argument) => {
                if let Some(sentences) = definition(self.law, name) {
                    self.enter(sentences, argument, steps)?;
                }
            }
            State::Chosen(record, ..) => {
                let in_block = self.subject.ours.in_blocks.contains(record);
                self.counts.chosen += 1;
                self.counts.block_chosen += usize::from(in_block);
            }
            _ => return Ok(()),
        }
        match (self.subject.ours.broken(self.law, state, steps)?, state) {
            (Some(broken), _) => self.judge(broken)?,
            (None, State::Called(record, ..)) => {
                let listed = self.subject.ours.calls.contains_key(record);
                self.counts.calls_reached += usize::from(listed);
            }
            (None, _) => {}
        }
        Ok(self.look_at_others(state, steps)?)
    }

    /// The other listings, by the same premises.
    fn look_at_others(&mut self, state: &State<'l>, steps: &mut Steps) -> Result<(), TooLong> {
        let subject = self.subject;
        for (listed, caught) in [
            (&subject.rust, &mut self.counts.rust),
            (&subject.slip, &mut self.counts.slip),
        ] {
            match listed.broken(self.law, state, steps)? {
                Some(broken) if subject.promised(broken) => caught.add(self.number, broken),
                _ => {}
            }
        }
        Ok(())
    }

    /// A function's sentences are going to be tried.
    fn enter(
        &mut self,
        sentences: &'l [Sentence],
        argument: &[Item<'l>],
        steps: &mut Steps,
    ) -> Result<(), TooLong> {
        let listed = sentences
            .iter()
            .filter(|one| self.subject.ours.sentences.contains(&one.span.start));
        let (mut any, mut matched) = (false, false);
        for sentence in listed {
            any = true;
            matched |= !run_matches(&sentence.pattern, argument, &none_bound(), steps)?.is_empty();
        }
        self.counts.functions_entered += usize::from(any);
        self.counts.left_sides_matched += usize::from(matched);
        Ok(())
    }

    /// A finding is false: outside its premise, which is that formats settle, it is counted.
    fn judge(&mut self, broken: Broken) -> Result<(), End> {
        match self.subject.promised(broken) {
            true => Err(End::False(broken.told())),
            false => {
                self.counts.unsettled_recognised += 1;
                Ok(())
            }
        }
    }
}

/// Why the machine stops, if it does so at its next step.
enum Stop {
    NothingMatched,
    NoValue,
    NoAnswer,
}

fn stop(state: &State) -> Stop {
    match state {
        State::Trying(_) => Stop::NothingMatched,
        State::Called(..) => Stop::NoAnswer,
        _ => Stop::NoValue,
    }
}
