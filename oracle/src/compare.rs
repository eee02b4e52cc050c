//! Random laws through both parties, and what may differ between them. The Rust gets a law without needless zeros; the
//! library gets the law's file as it is and, where it has such zeros, the file without them too.
use std::panic::{AssertUnwindSafe, catch_unwind};
use std::process::ExitCode;

use bilzarko::Refusal;
use refal_ast::Program;
use refal_semantics::{Formats, check_program_with_levels, infer_formats};

use crate::counts::Counts;
use crate::decode::decode;
use crate::differences::{Remark, Remarks, remarks};
use crate::encode::{Encoded, Record, encode};
use crate::generate::{self, Law};
use crate::matching::{Steps, TooLong};
use crate::ours::{Buffers, Words};
use crate::pages::{UNDER, compare_pages, cut_names, owners, pages};
use crate::random::Random;
use crate::read_program::without_declarations;
use crate::refal::notation;
use crate::rounds::{self, Rounds};
use crate::settings::{Settings, lint_number, severity_number};
use crate::store::compare_store;
use crate::zeros::{file_without_zeros, respell, without_zeros};

/// The steps that all searches of a law may take.
const STEPS: u64 = 30_000;
/// A finding, as far as the Rust has it.
#[derive(Clone, Debug, PartialEq)]
pub struct Line {
    pub lint: u32,
    pub severity: u32,
    pub start: u32,
    pub end: u32,
    pub text: String,
}

pub fn run(laws: u64, seed: u64) -> ExitCode {
    let mut counts = Counts::default();
    let mut buffers = Buffers::new();
    for number in 0..laws {
        if let Err(mismatch) = one(seed, number, &mut counts, &mut buffers) {
            println!("{mismatch}");
            return ExitCode::FAILURE;
        }
    }
    println!("{}", counts.summary(seed));
    ExitCode::SUCCESS
}

/// Makes one law of a seed again, shows it and compares it.
pub fn show(seed: u64, number: u64) -> ExitCode {
    let (law, encoded, _) = made(seed, number);
    println!("{}", described(&law, &encoded));
    let mut counts = Counts::default();
    match one(seed, number, &mut counts, &mut Buffers::new()) {
        Ok(()) => {
            println!("{}", counts.summary(seed));
            ExitCode::SUCCESS
        }
        Err(mismatch) => {
            println!("{mismatch}");
            ExitCode::FAILURE
        }
    }
}

/// A law of a seed, with its file.
pub fn made(seed: u64, number: u64) -> (Law, Encoded, Random) {
    let mut random = Random::of(seed, number);
    let mut law = generate::law(&mut random);
    respell(&mut law.program, &mut random);
    let encoded = encode(&law.program, law.layout, &mut random);
    (law, encoded, random)
}

fn one(seed: u64, number: u64, counts: &mut Counts, buffers: &mut Buffers) -> Result<(), String> {
    let (law, encoded, mut random) = made(seed, number);
    let settings = Settings::random(&mut random);
    guarded(|| {
        let expected = encoded.refusal.map_or(Ok(law.program.clone()), Err);
        same("the file read back", &decode(&encoded.bytes), &expected)?;
        compare(&law.program, &encoded, &settings, counts, buffers)
    })
    .map_err(|reason| {
        format!(
            "law {number} of seed {seed}, {settings:?}: {reason}\n{}",
            described(&law, &encoded)
        )
    })
}

/// What is promised of buffers is asserted; where it is broken, the law must still be shown.
pub fn guarded(work: impl FnOnce() -> Result<(), String>) -> Result<(), String> {
    catch_unwind(AssertUnwindSafe(work))
        .unwrap_or_else(|_| Err("an assertion does not hold".into()))
}

fn described(law: &Law, encoded: &Encoded) -> String {
    format!("{}{}", notation(&law.program), hex(&encoded.bytes))
}

pub fn hex(bytes: &[u8]) -> String {
    bytes.iter().map(|byte| format!("{byte:02x}")).collect()
}

/// What a law must be answered.
enum Answer {
    Refused(u32),
    /// Its matching takes too long.
    LeftOut,
    Listed(Listed),
}

struct Listed {
    rounds: Rounds,
    formats: Formats,
    remarks: Remarks,
}

/// The law comes without needless zeros. Findings are left to the comparison, since settings decide which are shown.
fn answer(program: &Program, encoded: &Encoded) -> Answer {
    if let Some(number) = encoded.refusal {
        return Answer::Refused(number);
    }
    let Ok(rounds) = rounds::infer(program) else {
        return Answer::Refused(Refusal::Shapes.number());
    };
    let formats = infer_formats(program);
    match remarks(program, &formats, &mut Steps(STEPS)) {
        Err(TooLong) => Answer::LeftOut,
        Ok(remarks) if remarks.too_wide => Answer::Refused(Refusal::Shapes.number()),
        Ok(remarks) => Answer::Listed(Listed {
            rounds,
            formats,
            remarks,
        }),
    }
}

/// A law's listings, worked out without a call of the library.
pub struct Listings {
    /// The law without needless zeros.
    pub law: Program,
    /// What the Rust lists of the law as it is spelled.
    pub spelled: Vec<Line>,
    /// What it lists without the zeros.
    pub rust: Vec<Line>,
    /// What it lists so, but for the named differences.
    pub named: Vec<Line>,
    /// Without the zeros.
    pub remarks: Remarks,
    /// What the Rust says at each remark of the law as it is spelled.
    pub spelled_texts: Vec<Option<String>>,
    pub formats: Formats,
    pub settled: bool,
}

/// The listings of a law that is compared; of others there are none.
pub fn listings(
    program: &Program,
    encoded: &Encoded,
    settings: &Settings,
) -> Result<Option<Listings>, String> {
    let law = without_zeros(program).unwrap_or_else(|| program.clone());
    let Answer::Listed(listed) = answer(&law, encoded) else {
        return Ok(None);
    };
    let Ok(as_spelled) = remarks(program, &listed.formats, &mut Steps(STEPS)) else {
        return Ok(None);
    };
    let (spelled, rust) = (rust_lines(program, settings), rust_lines(&law, settings));
    is_said(&spelled, &as_spelled.all, settings)?;
    Ok(Some(Listings {
        named: with_differences(&rust, &listed.remarks.all, settings)?,
        law,
        spelled,
        rust,
        remarks: listed.remarks,
        spelled_texts: as_spelled.all.into_iter().map(|one| one.rust).collect(),
        formats: listed.formats,
        settled: listed.rounds.settled,
    }))
}

/// What lints 1 and 2 say of a law, where it is within the limits and does not take too long.
pub fn compared(program: &Program, encoded: &Encoded) -> Option<Remarks> {
    let stripped = without_zeros(program);
    match answer(stripped.as_ref().unwrap_or(program), encoded) {
        Answer::Listed(listed) => Some(listed.remarks),
        Answer::Refused(_) | Answer::LeftOut => None,
    }
}

/// Whether a law is within the limits and does not take too long.
pub fn is_compared(program: &Program, encoded: &Encoded) -> bool {
    compared(program, encoded).is_some()
}

pub fn compare(
    program: &Program,
    encoded: &Encoded,
    settings: &Settings,
    counts: &mut Counts,
    buffers: &mut Buffers,
) -> Result<(), String> {
    let stripped = without_zeros(program);
    let law = stripped.as_ref().unwrap_or(program);
    let files = files(encoded, stripped.as_ref())?;
    match answer(law, encoded) {
        Answer::LeftOut => counts.too_long += 1,
        Answer::Refused(number) => {
            counts.refused[number as usize] += 1;
            for file in &files {
                refused(settings, file, number, buffers)?;
            }
        }
        Answer::Listed(listed) => {
            let rust = rust_lines(law, settings);
            let lines = with_differences(&rust, &listed.remarks.all, settings)?;
            let owners = owners(law, &rust, &listed.remarks.all, settings)?;
            let expected = Expected {
                pages: pages(law, &lines, &owners),
                lines,
                listed,
                encoded,
                settings,
            };
            expected.compare_files(&files, buffers)?;
            expected.count(counts);
            counts.with_zeros += usize::from(stripped.is_some());
        }
    }
    Ok(())
}

/// The law's file, and the file without needless zeros where there are some: zeros change no word and no text. A file
/// that is itself refused may be accepted without them, so that it stands alone.
fn files(encoded: &Encoded, stripped: Option<&Program>) -> Result<Vec<Vec<u8>>, String> {
    let mut files = vec![encoded.bytes.clone()];
    if let Some(law) = stripped.filter(|_| encoded.refusal.is_none()) {
        let file = file_without_zeros(&encoded.bytes);
        same(
            "the file without needless zeros read back",
            &decode(&file),
            &Ok(without_declarations(law)),
        )?;
        files.push(file);
    }
    Ok(files)
}

/// What the files of a law must be answered.
struct Expected<'a> {
    listed: Listed,
    lines: Vec<Line>,
    pages: String,
    /// Its records are those of all files.
    encoded: &'a Encoded,
    settings: &'a Settings,
}

impl Expected<'_> {
    fn compare_files(&self, files: &[Vec<u8>], buffers: &mut Buffers) -> Result<(), String> {
        let mut found = Vec::new();
        for (place, file) in files.iter().enumerate() {
            let words = self.compare(file, buffers).map_err(|reason| match place {
                0 => reason,
                _ => format!("without needless zeros: {reason}"),
            })?;
            found.push(words);
        }
        same(
            "words with needless zeros and without",
            &found.first(),
            &found.last(),
        )
    }

    /// Answers the words of the findings.
    fn compare(&self, file: &[u8], buffers: &mut Buffers) -> Result<Vec<Words>, String> {
        let (count, found) = buffers
            .findings(&self.settings.ours(), file)
            .map_err(|refusal| format!("the findings call answers {refusal}"))?;
        compare_store(&self.listed.formats, buffers.store())?;
        let rounds = Rounds {
            ran: count.rounds,
            settled: count.settled,
        };
        same("rounds", &rounds, &self.listed.rounds)?;
        compare_words(&self.lines, &found, self.encoded)?;
        compare_texts(&self.lines, self.settings, file, buffers)?;
        compare_store(&self.listed.formats, buffers.store())?;
        compare_pages(
            &self.pages,
            self.lines.len(),
            &self.listed.formats,
            self.settings,
            file,
            buffers,
        )?;
        Ok(found)
    }

    fn count(&self, counts: &mut Counts) {
        counts.laws += 1;
        for line in &self.lines {
            counts.findings[line.lint as usize - 1] += 1;
        }
        match self.lines.len() <= bilzarko::TEXT_FINDINGS {
            true => {
                counts.texts += self.lines.len();
                counts.pages += self.lines.len().div_ceil(UNDER).max(1);
                counts.cut_names += cut_names(&self.pages);
                counts.refused[18] += 1;
            }
            false => counts.without_texts += 1,
        }
        counts.formats += 2 * self.listed.formats.functions.len();
        counts.unsettled += usize::from(!self.listed.rounds.settled);
        counts.went_back += self.listed.remarks.went_back;
        for remark in &self.listed.remarks.all {
            let shown = self.settings.severity(remark.lint).is_some();
            if let Some(kind) = remark.difference().filter(|_| shown) {
                counts.differences[kind] += 1;
            }
        }
    }
}

/// Refusals have no counterpart in the Rust: the number is document 01's.
fn refused(
    settings: &Settings,
    file: &[u8],
    expected: u32,
    buffers: &mut Buffers,
) -> Result<(), String> {
    let answer = buffers.findings(&settings.ours(), file);
    let number = answer.err().map(Refusal::number);
    same("refusal", &number, &Some(expected))?;
    let printed = buffers.page(&settings.ours(), file);
    let number = printed.err().map(Refusal::number);
    same("refusal of the page call", &number, &Some(expected))
}

pub fn same<T: PartialEq + std::fmt::Debug>(
    what: &str,
    ours: &T,
    expected: &T,
) -> Result<(), String> {
    match ours == expected {
        true => Ok(()),
        false => Err(format!(
            "{what} differ\n  ours:     {ours:?}\n  expected: {expected:?}"
        )),
    }
}

/// What the Rust lists, `Checker`'s errors left out: they are of no lint.
pub fn rust_lines(program: &Program, settings: &Settings) -> Vec<Line> {
    check_program_with_levels(program, settings.mode(), &settings.levels())
        .into_iter()
        .filter_map(|one| {
            Some(Line {
                lint: lint_number(one.lint?),
                severity: severity_number(one.severity),
                start: one.span.start as u32,
                end: one.span.end as u32,
                text: one.message,
            })
        })
        .collect()
}

/// Whether a line is of a lint that remarks are about.
fn is_remarked(line: &&Line) -> bool {
    line.lint <= 2
}

/// What is said for the Rust here must be what it lists.
fn is_said(rust: &[Line], remarks: &[Remark], settings: &Settings) -> Result<(), String> {
    let said: Vec<Line> = remarks
        .iter()
        .filter_map(|one| line(one, &one.rust, settings))
        .collect();
    let listed: Vec<Line> = rust.iter().filter(is_remarked).cloned().collect();
    same(
        "the Rust's lines and what is said for it here",
        &said,
        &listed,
    )
}

/// The Rust's lines with those of lints 1 and 2 that the named differences change. Where they change none, these are the
/// Rust's very lines.
fn with_differences(
    rust: &[Line],
    remarks: &[Remark],
    settings: &Settings,
) -> Result<Vec<Line>, String> {
    is_said(rust, remarks, settings)?;
    let mut expected: Vec<Line> = remarks
        .iter()
        .filter_map(|one| line(one, &one.named, settings))
        .collect();
    expected.extend(rust.iter().filter(|line| !is_remarked(line)).cloned());
    Ok(expected)
}

pub fn line(remark: &Remark, text: &Option<String>, settings: &Settings) -> Option<Line> {
    Some(Line {
        lint: remark.lint,
        severity: settings.severity(remark.lint)?,
        start: remark.span.start as u32,
        end: remark.span.end as u32,
        text: text.clone()?,
    })
}

fn compare_words(expected: &[Line], found: &[Words], encoded: &Encoded) -> Result<(), String> {
    let wanted: Vec<[u32; 6]> = expected.iter().map(six_words).collect();
    let ours: Vec<[u32; 6]> = found
        .iter()
        .map(|words| words[..6].try_into().expect("six words"))
        .collect();
    same("findings", &ours, &wanted)?;
    found
        .iter()
        .try_for_each(|words| compare_subject(words, encoded))
}

/// Lint, severity, span, a and b. The Rust has a and b in its text alone.
pub fn six_words(line: &Line) -> [u32; 6] {
    let number_after = |mark: &str| -> u32 {
        let rest = line.text.split_once(mark).expect("the text has its mark").1;
        rest.split(' ')
            .next()
            .and_then(|word| word.parse().ok())
            .expect("a number follows")
    };
    let (a, b) = match line.lint {
        1 => (
            number_after("sentence "),
            number_after("unreachable: sentence "),
        ),
        2 if line.text.contains("` accepts ") => (1, 0),
        2 => (2, 0),
        3 if line.text.ends_with("expected exactly two integer numbers") => (1, 0),
        3 if line.text.ends_with("division by zero") => (2, 0),
        3 => (3, 0),
        _ => (number_after("` has "), 0),
    };
    [line.lint, line.severity, line.start, line.end, a, b]
}

/// The Rust has no records: the subject must be a record of the finding's span, in the function that is named.
fn compare_subject(words: &Words, encoded: &Encoded) -> Result<(), String> {
    let [lint, _, start, end, _, _, function, subject] = *words;
    let of_call = lint == 2 || lint == 3;
    let records = if of_call {
        &encoded.terms
    } else {
        &encoded.sentences
    };
    let fits = |record: &Record| {
        record.span.start as u32 == start
            && record.span.end as u32 == end
            && record.function == function
            && record.call == of_call
    };
    match records.get(subject as usize).is_some_and(fits) {
        true => Ok(()),
        false => Err(format!("the subject of {words:?} is another record")),
    }
}

/// The text call has places for 256 findings, and refuses more.
fn compare_texts(
    expected: &[Line],
    settings: &Settings,
    file: &[u8],
    buffers: &mut Buffers,
) -> Result<(), String> {
    let mut text = |position: usize| buffers.text(&settings.ours(), file, position);
    if expected.len() > bilzarko::TEXT_FINDINGS {
        return same(
            "text of too many findings",
            &text(0),
            &Err(Refusal::Findings),
        );
    }
    for (position, line) in expected.iter().enumerate() {
        same("text", &text(position), &Ok(line.text.clone()))?;
    }
    same(
        "text past the last finding",
        &text(expected.len()),
        &Err(Refusal::NoFinding),
    )
}
