//! How much stack each of the four calls takes, at most, over random laws, laws at the limits and texts at the limits.
//!
//! The memory below the caller's frame is given a value before a call; the deepest byte that has another value after it
//! tells how far the call went. This goes past what the language promises of memory below a frame, and serves to measure
//! alone.
use std::hint::black_box;
use std::process::ExitCode;
use std::ptr::{read_volatile, write_volatile};
use std::thread;

use crate::compare::made;
use crate::encode::{Layout, encode};
use crate::ours::Buffers;
use crate::parse::parse;
use crate::random::Random;
use crate::read_call::{ROOM, read};
use crate::settings::Settings;
use crate::worst_texts::{FAMILIES, ordinary};

/// The stack of the measuring thread, and how much of it is looked at.
const THREAD: usize = 4 << 20;
const DEPTH: usize = 2 << 20;
/// Nearer bytes may be the measuring function's own.
const NEAR: usize = 4 << 10;
const MARK: u8 = 0x5c;

/// The calls that list.
const CALLS: [&str; 3] = ["findings", "text", "page"];
/// What each of them took.
type Taken = [usize; CALLS.len()];
/// A law in Refal notation, and what it has.
type Named = (&'static str, String);

pub fn run(laws: u64, seed: u64) -> ExitCode {
    let measured = thread::Builder::new()
        .stack_size(THREAD)
        .spawn(move || {
            let [hand, random] = [by_hand(), at_random(laws, seed)];
            println!("the most of all: {}", said(more(hand, random)));
            reading();
        })
        .map(|thread| thread.join());
    match measured {
        Ok(Ok(())) => ExitCode::SUCCESS,
        _ => ExitCode::FAILURE,
    }
}

fn more(one: Taken, other: Taken) -> Taken {
    std::array::from_fn(|call| one[call].max(other[call]))
}

fn said(taken: Taken) -> String {
    let each = |(call, bytes)| format!("{call} call {bytes} bytes");
    let all: Vec<String> = CALLS.iter().zip(taken).map(each).collect();
    all.join(", ")
}

/// The most of laws that go deep.
fn by_hand() -> Taken {
    let layout = Layout {
        share: true,
        junk: false,
        bytes: None,
    };
    let mut buffers = Buffers::new();
    let mut most: Taken = [0; CALLS.len()];
    for (name, notation) in deep_laws() {
        let program = parse(&notation).expect("the notation is right");
        let encoded = encode(&program, layout, &mut Random::of(0, 0));
        let settings = Settings::strict().ours();
        let answer = bilzarko::findings(
            &settings,
            &encoded.bytes,
            &mut buffers.store,
            &mut buffers.words,
        );
        assert!(answer.is_ok(), "{name}: {answer:?}");
        let taken = taken(&encoded.bytes, &mut buffers);
        println!("{name}: {}", said(taken));
        most = more(most, taken);
    }
    most
}

fn again(term: &str, times: usize) -> String {
    format!("{term} ").repeat(times)
}

/// Terms inside so many brackets.
fn bracketed(times: usize, inside: &str) -> String {
    format!("{}{inside}{}", "(".repeat(times), ")".repeat(times))
}

/// Terms in the results of so many blocks, one in the other.
fn blocks(times: usize, inside: &str) -> String {
    format!("{}{inside}{}", "[ : = ".repeat(times), ";]".repeat(times))
}

/// A law with two sentences in a block. Of their patterns there are no formats, so that none is too large.
fn in_block(around: fn(usize, &str) -> String, times: usize, earlier: &str, later: &str) -> String {
    let block = format!("[ : {earlier} = ; {later} = ;]");
    format!("F {{ = {}; }}", around(times, &block))
}

/// A law with a call of a literal argument. It matches, so that its format is not asked for.
fn in_call(around: fn(usize, &str) -> String, times: usize, pattern: &str, row: &str) -> String {
    let call = format!("<F {row}>");
    format!("F {{ {pattern} = ; }} G {{ = {}; }}", around(times, &call))
}

/// 32 e. variables, and the first so many times more.
fn repeated(times: usize) -> String {
    let all: String = (1..=32).map(|index| format!("e.{index} ")).collect();
    format!("{all}{}", again("e.1", times))
}

/// A pattern is searched only where it repeats a variable and passes the loose test. Each record of it is then matched inside
/// the match of the one before; the terms around it go deeper before that.
fn deep_laws() -> Vec<Named> {
    let result = (
        "a result of an e. variable and 510 symbols",
        format!("F {{ e.A = e.A {}; }}", again("1", 510)),
    );
    let matched = deep_shadows().into_iter().chain(deep_literals());
    matched.chain([result]).collect()
}

fn deep_shadows() -> [Named; 7] {
    let empty = |times: usize| again("()", times);
    let nested = again(&bracketed(31, ""), 7);
    [
        (
            "lint 1: 32 e. variables and one of them 480 times more, and an empty pattern",
            format!("F {{ {} = ; = ; }}", repeated(480)),
        ),
        (
            "lint 1 in a block inside 31 brackets: 32 e. variables and one of them 448 times more, and an empty pattern",
            in_block(bracketed, 31, &repeated(448), ""),
        ),
        (
            "lint 1 in a block inside 31 blocks: the same",
            in_block(blocks, 31, &repeated(448), ""),
        ),
        (
            "lint 1 in a block inside 31 blocks: 32 e. variables, one of them again and () 223 times, and as many",
            in_block(
                blocks,
                31,
                &format!("{}{}", repeated(1), empty(223)),
                &empty(223),
            ),
        ),
        (
            "lint 1 in a block inside 31 blocks: 32 e. variables, () 207 times and each variable again, and as many",
            in_block(
                blocks,
                31,
                &format!("{}{}{}", repeated(0), empty(207), repeated(0)),
                &empty(207),
            ),
        ),
        (
            "lint 1: an e. variable twice and () 254 times, and the same",
            format!("F {{ {0} = ; {0} = ; }}", format!("e.A e.A {}", empty(254))),
        ),
        (
            "lint 1 in a block: 32 e. variables, one of them again and 7 times 31 brackets in each other, and as many",
            in_block(bracketed, 0, &format!("{}{nested}", repeated(1)), &nested),
        ),
    ]
}

fn deep_literals() -> [Named; 10] {
    let empty = |times: usize| again("()", times);
    let brackets = |times: usize| format!("{}{}", repeated(1), empty(times));
    let inside = format!("{}{}", repeated(0), again("(e.1)", 159));
    let nested = again(&bracketed(31, ""), 7);
    let each = format!("{}{}{}", repeated(0), again("(e.1)", 127), repeated(0));
    let own: String = (2..=32).map(|number| format!("(e.{number}) ")).collect();
    let in_one = format!("(e.1 {own}{}) e.1", again("(e.1)", 117));
    [
        (
            "lint 2: an e. variable 511 times, and a call with nothing",
            in_call(bracketed, 0, &again("e.X", 511), ""),
        ),
        (
            "lint 2: 32 e. variables and one of them 479 times more, and a call with nothing",
            in_call(bracketed, 0, &repeated(479), ""),
        ),
        (
            "lint 2 inside 31 blocks: 32 e. variables and one of them 448 times more, and a call with nothing",
            in_call(blocks, 31, &repeated(448), ""),
        ),
        (
            "lint 2: 32 e. variables, one of them again and () 239 times, and a call with as many",
            in_call(bracketed, 0, &brackets(239), &empty(239)),
        ),
        (
            "lint 2 inside 31 blocks: 32 e. variables, one of them again and () 223 times, and a call with as many",
            in_call(blocks, 31, &brackets(223), &empty(223)),
        ),
        (
            "lint 2 inside 31 blocks: 32 e. variables, one of them in 127 brackets and each again, and a call with () 127 times",
            in_call(blocks, 31, &each, &empty(127)),
        ),
        (
            "lint 2: 32 e. variables and one of them in 159 brackets, and a call with () 159 times",
            in_call(bracketed, 0, &inside, &empty(159)),
        ),
        (
            "lint 2: 32 e. variables, one of them again and 7 times 31 brackets in each other, and a call with as many",
            in_call(bracketed, 0, &format!("{}{nested}", repeated(1)), &nested),
        ),
        (
            "lint 2 inside 30 blocks: 32 e. variables and () 223 times in a bracket, one of them again, and a call with ()",
            in_call(
                blocks,
                30,
                &format!("({}{}) e.1", repeated(0), empty(223)),
                &format!("({})", empty(223)),
            ),
        ),
        (
            "lint 2 inside 30 blocks: a bracket of an e. variable, 31 brackets with one each and 117 with the first, then the first again, and a call with () 148 times in a bracket",
            in_call(blocks, 30, &in_one, &format!("({})", empty(148))),
        ),
    ]
}

/// The most of random laws.
fn at_random(laws: u64, seed: u64) -> Taken {
    let mut buffers = Buffers::new();
    let all: Vec<Taken> = (0..laws)
        .map(|number| {
            let (_, encoded, _) = made(seed, number);
            taken(&encoded.bytes, &mut buffers)
        })
        .collect();
    let mut most: Taken = [0; CALLS.len()];
    for (call, name) in CALLS.iter().enumerate() {
        if let Some((law, deepest)) = all.iter().enumerate().max_by_key(|(_, taken)| taken[call]) {
            most[call] = deepest[call];
            println!(
                "{laws} laws of seed {seed}: {name} call {} bytes at most (law {law})",
                most[call]
            );
        }
    }
    most
}

/// The most of texts that may go deep.
fn reading() {
    let mut all = vec![("bytes of an ordinary law", ordinary().into_bytes())];
    all.extend(FAMILIES.map(|family| (family.what, family.text(family.most))));
    let (texts, mut law) = (all.len(), vec![0; ROOM]);
    let mut taken = |text: &[u8]| {
        depth(&mut || {
            black_box(read(text, &mut law, &mut 0));
        })
    };
    let deepest = all.iter().map(|(what, text)| (taken(text), what)).max();
    if let Some((bytes, what)) = deepest {
        println!("{texts} texts: read call {bytes} bytes at most ({what})");
    }
}

fn taken(law: &[u8], buffers: &mut Buffers) -> Taken {
    let settings = Settings::strict().ours();
    let Buffers {
        store,
        words,
        text,
        page,
    } = buffers;
    let findings = depth(&mut || {
        black_box(bilzarko::findings(&settings, law, store, words)).ok();
    });
    let told = depth(&mut || {
        black_box(bilzarko::text(&settings, law, store, 0, text)).ok();
    });
    let printed = depth(&mut || {
        black_box(bilzarko::page(&settings, law, store, page)).ok();
    });
    [findings, told, printed]
}

/// How many bytes below this function's frame a call changes.
#[inline(never)]
fn depth(call: &mut dyn FnMut()) -> usize {
    let here = 0u8;
    let top = black_box(&raw const here) as usize;
    let (end, start) = (top - NEAR, top - DEPTH);
    for address in start..end {
        // SAFETY: the thread's stack reaches further down, and no frame is there yet.
        unsafe { write_volatile(address as *mut u8, MARK) };
    }
    call();
    // SAFETY: as above; the call's frames are gone.
    let deepest =
        (start..end).find(|address| unsafe { read_volatile(*address as *const u8) } != MARK);
    top - deepest.unwrap_or(end)
}
