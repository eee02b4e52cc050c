//! Compares libbilzarko.a with the Rust that it is a rewriting of, over random laws.
extern crate refal_ast;
extern crate refal_semantics;

mod arguments;
mod bench;
mod compare;
mod counts;
mod damage;
mod decode;
mod differences;
mod encode;
mod examples;
mod expression;
mod families;
mod family_laws;
mod fast;
mod features;
mod generate;
mod limits;
mod listed;
mod machine;
mod matching;
mod ours;
mod page_bench;
mod pages;
mod pair_terms;
mod pairs;
mod parse;
mod places;
mod plain;
mod random;
mod read_bench;
mod read_call;
mod read_file;
mod read_limits;
mod read_phrase;
mod read_program;
mod read_tokens;
mod reader;
mod records;
mod reduce;
mod refal;
mod rounds;
mod rows;
mod run_counts;
mod run_laws;
mod runs;
mod sample;
mod settings;
mod shape;
mod small;
mod stack;
mod store;
mod text_corners;
mod text_counts;
mod text_damage;
mod text_features;
mod text_kinds;
mod text_laws;
mod text_limits;
mod text_pieces;
mod texts;
mod watch;
mod worker;
mod worst_texts;
mod zeros;

use std::env;
use std::process::ExitCode;

const QUICK_LAWS: u64 = 8_000;
const QUICK_FILES: u64 = 8_000;
const QUICK_RUN_LAWS: u64 = 6_000;
const QUICK_PAIRS: u64 = 80_000;
const QUICK_TEXTS: u64 = 20_000;

const USAGE: &str = "usage:
  oracle compare LAWS SEED    random laws through both
  oracle show SEED LAW        one of these laws again, with its file
  oracle damage FILES SEED    damaged law files
  oracle runs LAWS SEED       random laws run on random arguments: no finding is false
  oracle rerun SEED LAW       one of these laws again, with what is listed and its runs
  oracle pairs PAIRS SEED     random small patterns and rows through the library and through a plain search
  oracle texts TEXTS SEED     random texts through the read call and through the reader here
  oracle read FILE            one text: its law, or its refusal
  oracle small                document 01's small laws
  oracle law NOTATION         one law, such as 'F { s.A = <F 1>; }'
  oracle quick                a few seconds of all these
  oracle bench LAWS SEED      how long both take
  oracle rows                 how long both take for rows as long as the limits allow
  oracle families             how long the findings call takes where a plain search takes for ever
  oracle read-bench           how long the read call takes, over the check of what it writes
  oracle pages LAWS SEED      how long the page call takes, over the findings call, for laws with few findings
  oracle stack LAWS SEED      how much stack the calls take
  oracle sample               writes the stored sample of the Rust's answers
  oracle sample --check       whether the stored sample is what would be written
  oracle sample --show        its laws in Refal notation";

fn main() -> ExitCode {
    let arguments: Vec<String> = env::args().skip(1).collect();
    let numbers: Vec<u64> = arguments
        .iter()
        .skip(1)
        .filter_map(|one| one.parse().ok())
        .collect();
    match (arguments.first().map(String::as_str), numbers.as_slice()) {
        (Some("compare"), [laws, seed]) => compare::run(*laws, *seed),
        (Some("show"), [seed, law]) => compare::show(*seed, *law),
        (Some("damage"), [files, seed]) => damage::run(*files, *seed),
        (Some("runs"), [laws, seed]) => runs::run(*laws, *seed),
        (Some("rerun"), [seed, law]) => runs::show(*seed, *law),
        (Some("pairs"), [pairs, seed]) => fast::run(*pairs, *seed),
        (Some("texts"), [texts, seed]) => texts::run(*texts, *seed),
        (Some("bench"), [laws, seed]) => bench::run(*laws, *seed),
        (Some("pages"), [laws, seed]) => page_bench::run(*laws, *seed),
        (Some("stack"), [laws, seed]) => stack::run(*laws, *seed),
        (Some("quick"), []) => quick(),
        (Some("small"), []) => small::run(),
        (Some("law"), []) if arguments.len() == 2 => small::show(&arguments[1]),
        (Some("read-bench"), []) if arguments.len() == 1 => read_bench::run(),
        (Some("read"), []) if arguments.len() == 2 => texts::show(&arguments[1]),
        (Some("rows"), []) if arguments.len() == 1 => rows::run(),
        (Some("families"), []) if arguments.len() == 1 => families::run(),
        (Some("families"), []) if arguments[1] == worker::SERVES => worker::serve(),
        (Some("sample"), []) if arguments.len() < 3 => sample(arguments.get(1)),
        _ => usage(),
    }
}

fn usage() -> ExitCode {
    eprintln!("{USAGE}");
    ExitCode::from(2)
}

fn sample(what: Option<&String>) -> ExitCode {
    match what.map(String::as_str) {
        None => sample::write(),
        Some("--check") => sample::check(),
        Some("--show") => sample::show(),
        Some(_) => usage(),
    }
}

/// For the gate: all of them, the first that fails ends it.
fn quick() -> ExitCode {
    let all: [fn() -> ExitCode; 6] = [
        small::run,
        || compare::run(QUICK_LAWS, 1),
        || damage::run(QUICK_FILES, 1),
        || runs::run(QUICK_RUN_LAWS, 1),
        || fast::run(QUICK_PAIRS, 1),
        || texts::run(QUICK_TEXTS, 1),
    ];
    all.iter()
        .map(|one| one())
        .find(|code| *code != ExitCode::SUCCESS)
        .unwrap_or(ExitCode::SUCCESS)
}
