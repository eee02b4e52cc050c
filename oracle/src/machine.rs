//! A run of a law as a machine with one step: `crates/runs/specs/Machine.antt`, and `Recognises` of `Claim.antt`.
//! Functions and cases have the names of the definitions, and each step there is one step here. What waits and the
//! answers left are kept beside the state.
use std::rc::Rc;
use std::vec::IntoIter;

use refal_ast::{Condition, Function, Sentence, Term, TermKind};

use crate::expression::{
    Env, Expression, Item, literal_of, named, none_bound, run_matches, value_in,
};
use crate::matching::{Steps, TooLong};

/// What is left to try: sentences, for an argument and from the values around them; or the matches of one sentence's
/// left side or condition, with the sentence's record, the conditions and the result that follow, and what is tried
/// afterwards.
pub enum Trial<'l> {
    Sentences(Env<'l>, Expression<'l>, &'l [Sentence]),
    Ways(
        IntoIter<Env<'l>>,
        usize,
        &'l [Condition],
        &'l [Term],
        Box<Trial<'l>>,
    ),
}

/// What was worked out before, what comes after, and the values there.
struct Around<'l> {
    before: Expression<'l>,
    rest: &'l [Term],
    env: Env<'l>,
}

/// What waits for an expression to be worked out. The names are the definition's.
#[allow(clippy::enum_variant_names)]
enum Waiting<'l> {
    InBracket(Around<'l>),
    InCall(usize, &'l str, Around<'l>),
    InBlock(usize, &'l [Sentence], Around<'l>),
    InPlace(Around<'l>),
    InCondition(
        &'l [Term],
        Env<'l>,
        usize,
        &'l [Condition],
        &'l [Term],
        Box<Trial<'l>>,
    ),
}

pub enum State<'l> {
    /// A result is worked out: what is left of it, and what it came to so far.
    Working(&'l [Term], Env<'l>, Expression<'l>),
    /// A call is reached: its term record, its folded name, its argument.
    Called(usize, &'l str, Expression<'l>),
    /// A block is reached: its term record, its sentences, the values around it, its argument.
    Entered(usize, &'l [Sentence], Env<'l>, Expression<'l>),
    Trying(Trial<'l>),
    /// A sentence is chosen: its record, its result, its values.
    Chosen(usize, &'l [Term], Env<'l>),
    Finished(Expression<'l>),
    Stopped,
}

/// The sentences of the last function of a folded name.
pub fn definition<'l>(law: &[&'l Function], name: &str) -> Option<&'l [Sentence]> {
    let found = law.iter().rev().find(|function| function.name == name)?;
    Some(&found.sentences)
}

/// Some sentence's left side matches, conditions aside.
pub fn recognises<'l>(
    sentences: &'l [Sentence],
    argument: &[Item<'l>],
    steps: &mut Steps,
) -> Result<bool, TooLong> {
    for sentence in sentences {
        if !run_matches(&sentence.pattern, argument, &none_bound(), steps)?.is_empty() {
            return Ok(true);
        }
    }
    Ok(false)
}

pub struct Machine<'l, 'm> {
    law: &'m [&'l Function],
    stack: Vec<Waiting<'l>>,
    answers: IntoIter<Expression<'l>>,
    /// What matching may still cost.
    pub steps: Steps,
}

impl<'l, 'm> Machine<'l, 'm> {
    /// A run starts by reaching a call of this function, which has no record: `run` after no step.
    pub fn run(
        law: &'m [&'l Function],
        function: &'l Function,
        argument: Expression<'l>,
        answers: Vec<Expression<'l>>,
        steps: Steps,
    ) -> (Self, State<'l>) {
        let machine = Machine {
            law,
            stack: Vec::new(),
            answers: answers.into_iter(),
            steps,
        };
        let trial = Trial::Sentences(none_bound(), argument, &function.sentences);
        (machine, State::Trying(trial))
    }

    pub fn step(&mut self, state: State<'l>) -> Result<State<'l>, TooLong> {
        match state {
            State::Working(run, env, so_far) => self.work(run, env, so_far),
            State::Called(_, name, argument) => match definition(self.law, name) {
                Some(sentences) => Ok(State::Trying(Trial::Sentences(
                    none_bound(),
                    argument,
                    sentences,
                ))),
                None => self.answered(),
            },
            State::Entered(_, sentences, env, argument) => {
                Ok(State::Trying(Trial::Sentences(env, argument, sentences)))
            }
            State::Trying(trial) => self.attempt(trial),
            State::Chosen(_, result, env) => Ok(State::Working(result, env, Vec::new())),
            State::Finished(value) => Ok(State::Finished(value)),
            State::Stopped => Ok(State::Stopped),
        }
    }

    /// The step of `working`.
    fn work(
        &mut self,
        run: &'l [Term],
        env: Env<'l>,
        mut so_far: Expression<'l>,
    ) -> Result<State<'l>, TooLong> {
        let Some((head, rest)) = run.split_first() else {
            return self.give(so_far);
        };
        let inside = match &head.kind {
            TermKind::Symbol(symbol) => {
                so_far.push(Item::Symbol(literal_of(symbol)));
                return Ok(State::Working(rest, env, so_far));
            }
            TermKind::Variable(variable) => {
                let Some(value) = value_in(&env, named(variable)) else {
                    return Ok(State::Stopped);
                };
                so_far.extend(value.iter().cloned());
                return Ok(State::Working(rest, env, so_far));
            }
            TermKind::Bracket(inside) => inside,
            TermKind::Call { args, .. } => args,
            TermKind::Block { argument, .. } => argument,
        };
        let around = Around {
            before: so_far,
            rest,
            env: env.clone(),
        };
        self.stack.push(waiting(head, around));
        Ok(State::Working(inside, env, Vec::new()))
    }

    /// An expression is worked out.
    fn give(&mut self, value: Expression<'l>) -> Result<State<'l>, TooLong> {
        Ok(match self.stack.pop() {
            None => State::Finished(value),
            Some(Waiting::InBracket(mut around)) => {
                around.before.push(Item::Brackets(Rc::new(value)));
                State::Working(around.rest, around.env, around.before)
            }
            Some(Waiting::InCall(record, name, around)) => {
                self.stack.push(Waiting::InPlace(around));
                State::Called(record, name, value)
            }
            Some(Waiting::InBlock(record, sentences, around)) => {
                let env = around.env.clone();
                self.stack.push(Waiting::InPlace(around));
                State::Entered(record, sentences, env, value)
            }
            Some(Waiting::InPlace(mut around)) => {
                around.before.extend(value);
                State::Working(around.rest, around.env, around.before)
            }
            Some(Waiting::InCondition(pattern, env, record, conditions, result, trial)) => {
                let ways = run_matches(pattern, &value, &env, &mut self.steps)?.into_iter();
                State::Trying(Trial::Ways(ways, record, conditions, result, trial))
            }
        })
    }

    /// The answer of a function that is not defined.
    fn answered(&mut self) -> Result<State<'l>, TooLong> {
        match self.answers.next() {
            Some(answer) => self.give(answer),
            None => Ok(State::Stopped),
        }
    }

    /// The step of `trying`.
    fn attempt(&mut self, trial: Trial<'l>) -> Result<State<'l>, TooLong> {
        Ok(match trial {
            Trial::Sentences(_, _, []) => State::Stopped,
            Trial::Sentences(env, argument, [sentence, rest @ ..]) => {
                let ways = run_matches(&sentence.pattern, &argument, &env, &mut self.steps)?;
                State::Trying(Trial::Ways(
                    ways.into_iter(),
                    sentence.span.start,
                    &sentence.conditions,
                    &sentence.result,
                    Box::new(Trial::Sentences(env, argument, rest)),
                ))
            }
            Trial::Ways(mut ways, record, conditions, result, trial) => match ways.next() {
                None => State::Trying(*trial),
                Some(env) => {
                    let others = Trial::Ways(ways, record, conditions, result, trial);
                    self.hold(env, record, conditions, result, others)
                }
            },
        })
    }

    /// A match is tried: its first condition is worked out, or the sentence is chosen. Where it fails, others follow.
    fn hold(
        &mut self,
        env: Env<'l>,
        record: usize,
        conditions: &'l [Condition],
        result: &'l [Term],
        others: Trial<'l>,
    ) -> State<'l> {
        let [first, rest @ ..] = conditions else {
            return State::Chosen(record, result, env);
        };
        self.stack.push(Waiting::InCondition(
            &first.pattern,
            env.clone(),
            record,
            rest,
            result,
            Box::new(others),
        ));
        State::Working(&first.result, env, Vec::new())
    }
}

/// What waits for the contents of a bracket or for an argument.
fn waiting<'l>(head: &'l Term, around: Around<'l>) -> Waiting<'l> {
    let record = head.span.start;
    match &head.kind {
        TermKind::Call { name, .. } => Waiting::InCall(record, name, around),
        TermKind::Block { sentences, .. } => Waiting::InBlock(record, sentences, around),
        _ => Waiting::InBracket(around),
    }
}
