//! The runs that `crates/runs/specs/Examples.antt` and `Premises.antt` have by computation, again with `machine.rs`:
//! the same states after as many steps. Further runs, worked out by hand from the definitions, say what those leave
//! open.
use refal_ast::Function;

use crate::compare::same;
use crate::encode::{Layout, encode};
use crate::expression::{Expression, Item, Literal, shown};
use crate::machine::{Machine, State};
use crate::matching::Steps;
use crate::parse::parse;
use crate::random::Random;
use crate::records::{fold, numbered};
use crate::refal::functions;

const MATCHING: u64 = 10_000;

/// A law, the position of a function, an argument and answers in characters, a number of steps, the state after them.
type Example = (
    &'static str,
    usize,
    &'static str,
    &'static [&'static str],
    usize,
    &'static str,
);

const CONDITIONS: &str = "F { 'a' = 'b'; s.X, 'c' : s.X = 'd'; e.X = <G e.X> 'e'; }";
const GOES_BACK: &str = "F { e.X s.Y e.Z, s.Y : 'b' = e.Z; }";
const ASKS_TWICE: &str = "F { e.X, <G> : 'a' = ; e.X = <G>; }";
const INNER: &str = "F { = <G <H>>; }";
const BLOCK: &str = "F { s.A e.X = [e.X : s.A = 's'; s.B = 't';] s.A; }";
const BLOCK_BEHIND: &str = "F { s.A e.X = [e.X : s.A = 's'; s.B = 't';] s.B; }";
const CALL_IN_PATTERN: &str = "F { <G> = 'a'; (<G>) = 'b'; e.X = 'c'; }";
const TWICE: &str = "F { = 'a' <F 'x'>; } f { = 'b'; 'x' = 'c'; }";
const LISTED: &str = "F { e.X = 'a'; s.A = <F 1>; } H { 'q' = <H 2>; }";
const ZEROS: &str = "F { 7 = ; } G { = [ : = <F 007>;]; }";
const UNSETTLED: &str = "F { = 'a' 1 1 1 1 1 1; 'x' e.X = 'a' <F e.X> 1 1 1 1 1 1; } \
    G { s.1 s.2 s.3 s.4 s.5 s.6 'a' e.X = <G <F 'x' 'x' 'x' 'x' 'x' 'x'>>; }";
const BLOCK_DEAD: &str = "F { s.A e.X, <G s.A> : s.C = [e.X : s.A = 1; s.B = 2;]; }";

const EXAMPLES: [Example; 25] = [
    (CONDITIONS, 0, "a", &[], 20, "finished 'b'"),
    (CONDITIONS, 0, "c", &[], 30, "finished 'd'"),
    (CONDITIONS, 0, "z", &["q"], 30, "finished 'q' 'e'"),
    (CONDITIONS, 0, "z", &[], 30, "stopped"),
    (CONDITIONS, 0, "zz", &["q"], 10, "called 7 G 'z' 'z'"),
    (CONDITIONS, 0, "a", &[], 2, "chosen 0"),
    (GOES_BACK, 0, "abc", &[], 40, "finished 'c'"),
    (GOES_BACK, 0, "acc", &[], 60, "stopped"),
    (ASKS_TWICE, 0, "", &["b", "c"], 30, "finished 'c'"),
    (ASKS_TWICE, 0, "", &["b"], 30, "stopped"),
    (INNER, 0, "", &["h", "g"], 30, "finished 'g'"),
    (INNER, 0, "", &["h"], 30, "stopped"),
    (BLOCK, 0, "aa", &[], 30, "finished 's' 'a'"),
    (BLOCK, 0, "ab", &[], 30, "finished 't' 'a'"),
    (BLOCK_BEHIND, 0, "ab", &[], 30, "stopped"),
    ("F { = s.X; }", 0, "", &[], 30, "stopped"),
    (BLOCK, 0, "a", &[], 30, "stopped"),
    (CALL_IN_PATTERN, 0, "", &[], 30, "finished 'c'"),
    (TWICE, 0, "", &[], 30, "finished 'a' 'c'"),
    (TWICE, 1, "", &[], 30, "finished 'b'"),
    (LISTED, 1, "q", &[], 6, "called 6 H 2"),
    (LISTED, 1, "q", &[], 10, "stopped"),
    (ZEROS, 1, "", &[], 12, "called 2 F 7"),
    (
        UNSETTLED,
        1,
        "aaaaaaa",
        &[],
        127,
        "called 26 G 'a' 'a' 'a' 'a' 'a' 'a' 'a' \
         1 1 1 1 1 1 1 1 1 1 1 1 1 1 1 1 1 1 1 1 1 1 1 1 1 1 1 1 1 1 1 1 1 1 1 1 1 1 1 1 1 1",
    ),
    (BLOCK_DEAD, 0, "ab", &["c"], 17, "chosen 2"),
];

/// Order of matches, going back into brackets, values of conditions, numbers by value, folding.
const BY_HAND: [Example; 9] = [
    (
        "F { e.A e.B = (e.A) (e.B); }",
        0,
        "ab",
        &[],
        30,
        "finished () ('a' 'b')",
    ),
    (
        "F { e.A s.B e.C, s.B : 'b' = (e.A) (e.C); }",
        0,
        "abb",
        &[],
        40,
        "finished ('a') ('b')",
    ),
    (
        "G { = <F ('x' 'y') 'x'>; } F { (e.A e.B) e.A = e.B; }",
        0,
        "",
        &[],
        40,
        "finished 'y'",
    ),
    (
        "F { s.A, 'p' 'q' : s.B e.C = e.C s.B s.A; }",
        0,
        "z",
        &[],
        40,
        "finished 'q' 'p' 'z'",
    ),
    (
        "G { = <F 007>; } F { 7 = 'y'; }",
        0,
        "",
        &[],
        30,
        "finished 'y'",
    ),
    (
        "G { = <f A_B>; } F { a-b = 'y'; }",
        0,
        "",
        &[],
        30,
        "finished 'y'",
    ),
    ("F { s.a-b s.A-B = 'y'; }", 0, "xz", &[], 30, "stopped"),
    (
        "F { s.a-b s.A_B = s.A-B; }",
        0,
        "xz",
        &[],
        30,
        "finished 'x'",
    ),
    (
        "F { s.A t.A e.A = (e.A) t.A s.A; }",
        0,
        "xyz",
        &[],
        30,
        "finished ('z') 'y' 'x'",
    ),
];

pub fn check() -> Result<(), String> {
    EXAMPLES.iter().chain(&BY_HAND).try_for_each(one)
}

fn one(&(notation, position, argument, answers, steps, expected): &Example) -> Result<(), String> {
    let program = parse(notation)?;
    let layout = Layout {
        share: true,
        junk: false,
        bytes: None,
    };
    let mut law = numbered(&encode(&program, layout, &mut Random::of(0, 0)).bytes);
    fold(&mut law);
    let all: Vec<&Function> = functions(&law).collect();
    let answers = answers.iter().map(|answer| said(answer)).collect();
    let (mut machine, mut state) = Machine::run(
        &all,
        all[position],
        said(argument),
        answers,
        Steps(MATCHING),
    );
    for _ in 0..steps {
        let next = machine.step(state);
        state = next.map_err(|_| format!("{notation}: matching takes too long"))?;
    }
    same("state", &told(&state).as_str(), &expected)
        .map_err(|reason| format!("{notation} on {argument:?} after {steps} steps: {reason}"))
}

/// Characters as an expression.
fn said(text: &str) -> Expression<'static> {
    let symbol = |ch: char| Item::Symbol(Literal::Character(ch));
    text.chars().map(symbol).collect()
}

fn told(state: &State) -> String {
    match state {
        State::Working(_, _, so_far) => format!("working {}", shown(so_far)),
        State::Called(record, name, argument) => {
            format!("called {record} {name} {}", shown(argument))
        }
        State::Entered(record, ..) => format!("entered {record}"),
        State::Trying(_) => "trying".into(),
        State::Chosen(record, ..) => format!("chosen {record}"),
        State::Finished(value) => format!("finished {}", shown(value)),
        State::Stopped => "stopped".into(),
    }
}
