//! Random texts through the library's read call and through the reader of `reader.rs`, and the files that are written through
//! the findings call and the Rust.
use std::fs;
use std::process::ExitCode;

use crate::compare::{compare, guarded, same};
use crate::counts::Counts;
use crate::decode::{WORDS, decode, sections};
use crate::encode::{Encoded, Layout, encode};
use crate::ours::Buffers;
use crate::random::Random;
use crate::read_call::{self, Lent, ROOM};
use crate::read_program::{program, without_declarations};
use crate::reader::{Reading, Within, read};
use crate::refal::notation;
use crate::settings::Settings;
use crate::text_corners;
use crate::text_counts::TextCounts;
use crate::text_kinds;

/// Places of sections in a file.
const FUNCTIONS: usize = 1;
const TERMS: usize = 4;
/// After so many differences the run ends.
const SHOWN: usize = 10;
/// A run of so many texts must meet everything that is counted.
const MEETS_ALL: u64 = 100_000;

pub fn run(texts: u64, seed: u64) -> ExitCode {
    // What the corners show is not counted: the random texts must meet it.
    let mut differences = text_corners::differences(&mut Tried::new());
    let mut tried = Tried::new();
    for number in 0..texts {
        if differences.len() >= SHOWN {
            break;
        }
        let mut random = Random::of(seed, number);
        let (kind, text) = text_kinds::text(&mut random);
        tried.counts.kinds[kind] += 1;
        if let Err(reason) = tried.one(&text, &mut random) {
            let shown = text.escape_ascii();
            differences.push(format!("text {number} of seed {seed}: {reason}\n  {shown}"));
        }
    }
    for difference in &differences {
        println!("{difference}");
    }
    let missing = tried.counts.missing();
    println!("{}", tried.counts.summary(texts, seed));
    println!("files listed: {}", tried.listed.summary(seed));
    if texts >= MEETS_ALL && !missing.is_empty() {
        println!("never met: {}", missing.join(", "));
    }
    match differences.is_empty() && (texts < MEETS_ALL || missing.is_empty()) {
        true => ExitCode::SUCCESS,
        false => ExitCode::FAILURE,
    }
}

/// One text of a file: what the library answers, for a person to look at.
pub fn show(file: &str) -> ExitCode {
    let text = match fs::read(file) {
        Ok(text) => text,
        Err(reason) => {
            println!("{file}: {reason}");
            return ExitCode::FAILURE;
        }
    };
    let (mut law, mut answer) = (vec![0; ROOM], 0);
    let number = read_call::read(&text, &mut law, &mut answer);
    let law = &law[..answer as usize];
    match (number, decode(law)) {
        (0, Ok(program)) => println!("{}{} bytes", notation(&program), law.len()),
        (0, Err(refusal)) => println!(
            "a file of {} bytes that is refused with {refusal}",
            law.len()
        ),
        _ => println!("refused {number}"),
    }
    match Tried::new().one(&text, &mut Random::of(0, 0)) {
        Ok(()) => ExitCode::SUCCESS,
        Err(reason) => {
            println!("{reason}");
            ExitCode::FAILURE
        }
    }
}

/// What all texts of a run go through.
pub struct Tried {
    counts: TextCounts,
    listed: Counts,
    lent: Lent,
    buffers: Buffers,
}

impl Tried {
    fn new() -> Tried {
        Tried {
            counts: TextCounts::default(),
            listed: Counts::default(),
            lent: Lent::new(),
            buffers: Buffers::new(),
        }
    }

    /// One text, with a buffer of random room.
    pub fn one(&mut self, text: &[u8], random: &mut Random) -> Result<(), String> {
        let reading = read(text);
        let room = self.room(&reading, random);
        let expected = reading.answer(room);
        self.counts.note(text, &reading, expected);
        guarded(|| {
            self.lent.compare(text, room, expected)?;
            match &reading {
                Reading::Within(within) => self.within(within, random),
                _ => Ok(()),
            }
        })
    }

    /// Nothing, one byte short, exact, more or anything.
    fn room(&mut self, reading: &Reading, random: &mut Random) -> usize {
        let exact = match reading {
            Reading::Within(within) => within.file.len().min(ROOM),
            _ => 20,
        };
        let choice = *random.pick(&[0, 1, 2, 2, 2, 3, 3, 3, 3, 4]);
        self.counts.rooms[choice] += 1;
        match choice {
            0 => 0,
            1 => exact - 1,
            2 => exact,
            3 => (exact + random.within(1, 40)).min(ROOM),
            _ => random.within(0, ROOM),
        }
    }

    /// The file means what the text spells, and is listed as the Rust lists that.
    fn within(&mut self, within: &Within, random: &mut Random) -> Result<(), String> {
        if within.refusal.is_some() {
            let refused = decode(&within.file).err();
            return same("refusals of the file", &refused, &within.refusal);
        }
        let program = program(within.text, &within.phrase);
        let meant = Ok(without_declarations(&program));
        same("the file read back", &decode(&within.file), &meant)?;
        let layout = Layout {
            share: true,
            junk: false,
            bytes: None,
        };
        let written = encode(&program, layout, random);
        let records = [&within.file, &written.bytes].map(|file| without_places(file));
        same("records", &records[0], &records[1])?;
        let encoded = Encoded {
            bytes: within.file.clone(),
            refusal: None,
            ..written
        };
        let (settings, buffers) = (Settings::strict(), &mut self.buffers);
        compare(&program, &encoded, &settings, &mut self.listed, buffers)
    }
}

/// The records of a file but for where names are spelled: `encode.rs` has another text.
fn without_places(file: &[u8]) -> Result<Vec<Vec<u32>>, u32> {
    let mut all = Vec::new();
    for (section, range) in sections(file)?.into_iter().enumerate().skip(1) {
        let word = |four: &[u8]| u32::from_le_bytes(four.try_into().expect("four bytes"));
        for record in file[range].chunks_exact(4 * WORDS[section]) {
            let mut words: Vec<u32> = record.chunks_exact(4).map(word).collect();
            match (section, words[0]) {
                (FUNCTIONS, _) => words[0] = 0,
                (TERMS, 1..=5 | 7) => words[1] = 0,
                _ => {}
            }
            all.push(words);
        }
    }
    Ok(all)
}
