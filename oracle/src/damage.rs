//! Damaged law files. One that cannot be read must be refused with document 01's number, and one that can still be read
//! is compared with the Rust as any law. Every buffer is filled beforehand and looked at afterwards.
use std::process::ExitCode;

use bilzarko::{FINDING_WORDS, LAW_BYTES, Refusal};

use crate::compare::{compare, guarded, hex, same};
use crate::counts::Counts;
use crate::decode::{WORDS, decode, sections};
use crate::encode::{Encoded, Layout, encode};
use crate::generate;
use crate::ours::Buffers;
use crate::random::Random;
use crate::settings::Settings;
use crate::zeros::respell;

pub fn run(files: u64, seed: u64) -> ExitCode {
    let mut counts = Counts::default();
    let mut buffers = Buffers::new();
    for number in 0..files {
        let mut random = Random::of(seed, number);
        let bytes = damaged(&mut random);
        if let Err(reason) = guarded(|| one(&bytes, &mut random, &mut counts, &mut buffers)) {
            println!("file {number} of seed {seed}: {reason}\n{}", hex(&bytes));
            return ExitCode::FAILURE;
        }
    }
    println!("{files} damaged files, {}", counts.summary(seed));
    ExitCode::SUCCESS
}

fn one(
    bytes: &[u8],
    random: &mut Random,
    counts: &mut Counts,
    buffers: &mut Buffers,
) -> Result<(), String> {
    let settings = Settings::random(random);
    let program = match decode(bytes) {
        Ok(program) => program,
        Err(number) => {
            counts.refused[number as usize] += 1;
            turned_back(bytes, &settings, number, random, buffers)?;
            return with_words(bytes, number, random, counts, buffers);
        }
    };
    // Records are in the file's order, whatever its text; the limit on the text was looked at in the file.
    let layout = Layout {
        share: true,
        junk: false,
        bytes: None,
    };
    let written = encode(&program, layout, random);
    let encoded = Encoded {
        bytes: bytes.to_vec(),
        refusal: None,
        ..written
    };
    let before = counts.laws;
    compare(&program, &encoded, &settings, counts, buffers)?;
    match counts.laws > before {
        true => edges(bytes, &settings, counts, buffers),
        false => Ok(()),
    }
}

fn turned_back(
    bytes: &[u8],
    settings: &Settings,
    number: u32,
    random: &mut Random,
    buffers: &mut Buffers,
) -> Result<(), String> {
    let found = buffers
        .findings(&settings.ours(), bytes)
        .err()
        .map(Refusal::number);
    same("refusal of the findings call", &found, &Some(number))?;
    let told = buffers
        .text(&settings.ours(), bytes, random.below(3))
        .err()
        .map(Refusal::number);
    same("refusal of the text call", &told, &Some(number))?;
    let printed = buffers
        .page(&settings.ours(), bytes)
        .err()
        .map(Refusal::number);
    same("refusal of the page call", &printed, &Some(number))
}

/// Settings as any words: refusal 14 comes before all others.
fn with_words(
    bytes: &[u8],
    number: u32,
    random: &mut Random,
    counts: &mut Counts,
    buffers: &mut Buffers,
) -> Result<(), String> {
    let mode = *random.pick(&[0, 0, 1, 1, 2, u32::MAX]);
    let mut overrides: Vec<u32> = Vec::new();
    for _ in 0..random.below(10) {
        let lint = if random.chance(3) {
            *random.pick(&[0, 5, 255])
        } else {
            random.within(1, 4)
        };
        let severity = if random.chance(3) {
            *random.pick(&[4, 255])
        } else {
            random.below(4)
        };
        overrides.push((256 * lint + severity) as u32);
    }
    let allowed = |word: &u32| (1..=4).contains(&(word / 256)) && word % 256 <= 3;
    let settings =
        mode <= 1 && overrides.len() <= bilzarko::OVERRIDES && overrides.iter().all(allowed);
    counts.refused[14] += usize::from(!settings);
    let expected = if settings { number } else { 14 };
    let answers = buffers.refused_with_words(mode, &overrides, bytes);
    same(
        &format!("answers with mode {mode} and overrides {overrides:?}"),
        &answers,
        &[expected; 3],
    )
}

/// Refusals 11, 13 and 15, of a law that is listed: each buffer with room for one element less than it takes.
fn edges(
    bytes: &[u8],
    settings: &Settings,
    counts: &mut Counts,
    buffers: &mut Buffers,
) -> Result<(), String> {
    let ours = settings.ours();
    let listed = buffers.findings(&ours, bytes);
    let found = listed.map_err(|refusal| refusal.to_string())?.1.len();
    let filled = buffers.store.clone();

    let expected = [Some(Refusal::Store); 3];
    same(
        "answers without a store",
        &buffers.without_store(&ours, bytes),
        &expected,
    )?;
    counts.refused[15] += 1;
    if found > 0 {
        let short = buffers.findings_within(&ours, bytes, FINDING_WORDS * found - 1);
        same(
            "answer where findings do not fit",
            &short.err(),
            &Some(Refusal::Findings),
        )?;
        same("store where findings do not fit", &buffers.store, &filled)?;
        counts.refused[11] += 1;
    }
    if (1..=bilzarko::TEXT_FINDINGS).contains(&found) {
        text_edges(bytes, &ours, &filled, buffers)?;
        counts.refused[13] += 1;
    }
    Ok(())
}

fn text_edges(
    bytes: &[u8],
    ours: &bilzarko::Settings,
    filled: &[u32],
    buffers: &mut Buffers,
) -> Result<(), String> {
    let text = buffers
        .text(ours, bytes, 0)
        .map_err(|refusal| refusal.to_string())?;
    let short = buffers.text_within(ours, bytes, 0, text.len() - 1);
    same(
        "answer where the text does not fit",
        &short,
        &Err(Refusal::Text),
    )?;
    same(
        "store where the text does not fit",
        &buffers.store.as_slice(),
        &filled,
    )?;
    let exact = buffers.text_within(ours, bytes, 0, text.len());
    same("text that just fits", &exact, &Ok(text))
}

fn damaged(random: &mut Random) -> Vec<u8> {
    if random.chance(3) {
        let most = if random.chance(10) { 20_000 } else { 200 };
        let length = random.below(most);
        return (0..length).map(|_| random.next() as u8).collect();
    }
    let mut law = if random.chance(70) {
        generate::small(random)
    } else {
        generate::law(random)
    };
    respell(&mut law.program, random);
    let mut bytes = encode(&law.program, law.layout, random).bytes;
    for _ in 0..random.within(1, 3) {
        damage(&mut bytes, random);
    }
    bytes
}

fn damage(bytes: &mut Vec<u8>, random: &mut Random) {
    let place = random.below(bytes.len() + 1);
    match random.below(16) {
        0 => bytes.truncate(place),
        1 => bytes.insert(place, random.next() as u8),
        2 => drop(bytes.drain(place..(place + random.within(1, 24)).min(bytes.len()))),
        3 => bytes
            .splice(place..place, (0..random.within(1, 24)).map(|_| 0))
            .for_each(drop),
        4 if random.chance(10) => bytes.resize(LAW_BYTES + random.below(3), 0),
        4..=6 => {
            if let Some(byte) = bytes.get_mut(place) {
                *byte = random.next() as u8;
            }
        }
        7 => swap_records(bytes, random),
        _ => change_field(bytes, random),
    }
}

/// The place of a word of a record, and what it is.
fn some_word(bytes: &[u8], random: &mut Random) -> Option<(usize, usize, usize)> {
    let all = sections(bytes).ok()?;
    let section = *random.pick(&[1, 2, 2, 3, 4, 4, 4, 4, 4]);
    let size = 4 * WORDS[section];
    let count = all[section].len() / size;
    let record = (count > 0).then(|| random.below(count))?;
    let word = random.below(WORDS[section]);
    Some((all[section].start + size * record + 4 * word, section, word))
}

/// Small values are often allowed: such a file may still be a law.
fn change_field(bytes: &mut [u8], random: &mut Random) {
    let Some((place, section, word)) = some_word(bytes, random) else {
        return;
    };
    let four = &mut bytes[place..place + 4];
    let old = u32::from_le_bytes(four.try_into().expect("four bytes"));
    let new = match random.below(10) {
        0..=2 if section == 4 && word == 0 => random.below(9) as u32,
        0..=2 => random.below(8) as u32,
        3..=5 => old.wrapping_add(1),
        6..=8 => old.wrapping_sub(1),
        _ => *random.pick(&[
            u32::MAX,
            u32::MAX - 2,
            1 << 31,
            0xd800,
            0xdfff,
            0x11_0000,
            65,
            64,
        ]),
    };
    four.copy_from_slice(&new.to_le_bytes());
}

fn swap_records(bytes: &mut [u8], random: &mut Random) {
    let Ok(all) = sections(bytes) else { return };
    let section = random.within(1, 4);
    let size = 4 * WORDS[section];
    let count = all[section].len() / size;
    if count == 0 {
        return;
    }
    let (one, other) = (random.below(count), random.below(count));
    for byte in 0..size {
        bytes.swap(
            all[section].start + size * one + byte,
            all[section].start + size * other + byte,
        );
    }
}
