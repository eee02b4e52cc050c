//! The stored sample of the Rust's answers, which the program crates/test_replay goes through.
//!
//! Laws are taken for what they show (`features.rs`): document 01's small laws and a few by hand first, then for each
//! feature that too few of these have, rarest first, the smallest random laws that have it, with the parts taken away
//! that are not needed for it, and at the end document 02's small laws.
//!
//! No call of the library is made: what is stored is what the Rust lists of the law without needless zeros. The file that
//! is stored has them. Where a named difference shows, the stored findings are those with the one changed rule. The label
//! tells what the Rust lists otherwise of the law as it is spelled.
use std::collections::{BTreeMap, BTreeSet};
use std::fs;
use std::path::{Path, PathBuf};
use std::process::ExitCode;

use refal_ast::Program;

use crate::compare::{Line, Listings, line, listings, same, six_words};
use crate::differences::Remark;
use crate::encode::{Layout, encode};
use crate::features::{Features, Shown, features};
use crate::generate;
use crate::parse::parse;
use crate::random::Random;
use crate::reduce::without;
use crate::refal::notation;
use crate::settings::Settings;
use crate::small;

const SEED: u64 = 2026;
/// Random laws that are looked at, small and of any size.
const SMALL_LAWS: u64 = 120_000;
const ANY_LAWS: u64 = 40_000;
/// The bytes of a law file and of its listing that are not too many.
const MOST_BYTES: usize = 2_500;
/// The laws that shall show each form of a difference from the Rust; other features have one.
const DIFFERENCE_LAWS: usize = 8;
/// The number of the difference that numbers compare by value.
const BY_VALUE: usize = 4;
/// The longest label that the program reads.
const LABEL_BYTES: usize = 1_023;
const PLAIN: Layout = Layout {
    share: true,
    junk: false,
    bytes: None,
};
/// Laws of what random laws seldom show: differences 1 to 3, and formats that the last of the rounds changed, in a text.
const BY_HAND: &[&str] = &[
    "F { (e.A e.B) 1 e.A = ; ('x') 1 'x' = ; }",
    "F { ((e.A e.B)) e.A = ; (('x')) 'x' = ; }",
    "F { (e.A 1 e.B) e.B = ; (1 1) = ; }",
    "F { e.X = [e.X : (e.A e.B) e.A = ; (Id) Id = ;]; }",
    "F { (e.A e.B) (e.A) = ; } G { = <F ('x' 1) ('x')> <F ('x' 1) (1)>; }",
    "F { ((e.A e.B) e.C) e.B = ; } G { = <F (('x') 'y')> <F (('x') 'y') 'y'>; }",
    "F { e.A 1 (e.B t.C e.D) e.B = ; 'x' 1 (e.A 'y') e.A = ; }",
    "F { = 'a' <F> 1 1 1 1 1 1 1 1 1; } G { 'b' 'c' = <G <F>>; }",
];

/// A law that may be taken.
struct Case {
    /// What it was taken for.
    title: String,
    program: Program,
    layout: Layout,
    settings: Settings,
    bytes: Vec<u8>,
    listings: Listings,
    features: Features,
}

pub fn write() -> ExitCode {
    ended(sample().and_then(|cases| {
        for (path, stored) in files(&cases)? {
            fs::write(&path, stored).map_err(|reason| format!("{}: {reason}", path.display()))?;
        }
        Ok(summary(&cases))
    }))
}

/// Whether the stored files are those that would be written.
pub fn check() -> ExitCode {
    ended(sample().and_then(|cases| {
        for (path, expected) in files(&cases)? {
            let stored =
                fs::read(&path).map_err(|reason| format!("{}: {reason}", path.display()))?;
            if stored != expected {
                return Err(format!("{} is not what would be written", path.display()));
            }
        }
        Ok(format!(
            "the stored sample is what the Rust lists: {}",
            summary(&cases)
        ))
    }))
}

/// The laws in Refal notation, with all that they show.
pub fn show() -> ExitCode {
    ended(sample().map(|cases| cases.iter().map(shown).collect::<Vec<_>>().join("\n")))
}

fn shown(case: &Case) -> String {
    let Settings { strict, overrides } = &case.settings;
    let mode = if *strict { "strict" } else { "classic" };
    let features: String = case
        .features
        .iter()
        .map(|one| format!("  {one}\n"))
        .collect();
    format!(
        "{}\n{mode} {overrides:?}\n{}{features}",
        case.title,
        notation(&case.program)
    )
}

fn ended(result: Result<String, String>) -> ExitCode {
    match result {
        Ok(told) => {
            println!("{told}");
            ExitCode::SUCCESS
        }
        Err(reason) => {
            println!("{reason}");
            ExitCode::FAILURE
        }
    }
}

fn sample() -> Result<Vec<Case>, String> {
    let mut taken = Taken::default();
    taken.put_all("document 01", &small::notations(&small::LAWS))?;
    taken.put_all("by hand", BY_HAND)?;
    for (feature, known) in known()? {
        for (_, number) in known.smallest {
            if taken.has(&feature) < laws_wanted(&feature) && taken.numbers.insert(number) {
                let found = made(number, feature.clone())?;
                let found = found.ok_or("a law is not the same again")?;
                let reduced = taken.reduced(found)?;
                taken.put(reduced);
            }
        }
    }
    taken.put_all("document 02", &small::notations(&small::NUMBERS))?;
    Ok(taken.cases)
}

/// How many laws shall have a feature.
fn laws_wanted(feature: &str) -> usize {
    match feature.starts_with("difference") {
        true => DIFFERENCE_LAWS,
        false => 1,
    }
}

#[derive(Default)]
struct Taken {
    cases: Vec<Case>,
    /// The random laws among them.
    numbers: BTreeSet<Number>,
    /// How many have a feature.
    met: BTreeMap<String, usize>,
}

impl Taken {
    fn has(&self, feature: &str) -> usize {
        self.met.get(feature).copied().unwrap_or(0)
    }

    /// A law with as few parts as show what it is taken for and what too few others show. Those at a difference from the
    /// Rust stay as they are, since several would become one.
    fn reduced(&self, mut case: Case) -> Result<Case, String> {
        if laws_wanted(&case.title) > 1 {
            return Ok(case);
        }
        let missing = |feature: &&String| self.has(feature) < laws_wanted(feature);
        let kept: Features = case.features.iter().filter(missing).cloned().collect();
        let mut part = 0;
        while let Some(program) = without(&case.program, part) {
            match case.with(program)? {
                Some(smaller) if kept.is_subset(&smaller.features) => case = smaller,
                _ => part += 1,
            }
        }
        Ok(case)
    }

    /// Laws in Refal notation.
    fn put_all(&mut self, title: &str, laws: &[&str]) -> Result<(), String> {
        for notation in laws {
            let shown = match *notation {
                "" => "no functions",
                _ => notation,
            };
            let title = format!("{title}: {shown}");
            let found = case(title, parse(notation)?, PLAIN, Settings::strict())?;
            self.put(found.ok_or("a law is not compared")?);
        }
        Ok(())
    }

    fn put(&mut self, mut case: Case) {
        case.title = format!("{}: {}", self.cases.len() + 1, case.title);
        for feature in &case.features {
            *self.met.entry(feature.clone()).or_default() += 1;
        }
        self.cases.push(case);
    }
}

/// A random law, by its number.
#[derive(Clone, Copy, PartialEq, Eq, PartialOrd, Ord)]
struct Number {
    small: bool,
    number: u64,
}

/// What is known of a feature.
#[derive(Default)]
struct Known {
    /// How many laws have it.
    laws: usize,
    /// The sizes and numbers of the smallest, ascending.
    smallest: Vec<(usize, Number)>,
}

impl Known {
    fn add(&mut self, size: usize, number: Number, most: usize) {
        self.laws += 1;
        let place = self.smallest.partition_point(|one| *one < (size, number));
        self.smallest.insert(place, (size, number));
        self.smallest.truncate(most);
    }
}

/// The features of the random laws, rarest first.
fn known() -> Result<Vec<(String, Known)>, String> {
    let mut known: BTreeMap<String, Known> = BTreeMap::new();
    let numbers = |small: bool, laws: u64| (0..laws).map(move |number| Number { small, number });
    for number in numbers(true, SMALL_LAWS).chain(numbers(false, ANY_LAWS)) {
        let Some(found) = made(number, String::new())? else {
            continue;
        };
        let size = found.size();
        for feature in found.features {
            let most = laws_wanted(&feature);
            known.entry(feature).or_default().add(size, number, most);
        }
    }
    let mut all: Vec<(String, Known)> = known.into_iter().collect();
    all.sort_by_key(|(_, one)| one.laws);
    Ok(all)
}

/// A random law, where it is compared and of moderate size.
fn made(number: Number, title: String) -> Result<Option<Case>, String> {
    let mut random = Random::of(SEED + u64::from(number.small), number.number);
    let law = match number.small {
        true => generate::small(&mut random),
        false => generate::law(&mut random),
    };
    let settings = Settings::random(&mut random);
    let found = case(title, law.program, law.layout, settings)?;
    Ok(found.filter(|one| one.size() <= MOST_BYTES))
}

fn case(
    title: String,
    program: Program,
    layout: Layout,
    settings: Settings,
) -> Result<Option<Case>, String> {
    let encoded = encode(&program, layout, &mut Random::of(SEED, 0));
    if encoded.bytes.len() > MOST_BYTES {
        return Ok(None);
    }
    let Some(listings) = listings(&program, &encoded, &settings)? else {
        return Ok(None);
    };
    let features = features(&Shown {
        program: &program,
        settings: &settings,
        listings: &listings,
    });
    Ok(Some(Case {
        title,
        program,
        layout,
        settings,
        bytes: encoded.bytes,
        listings,
        features,
    }))
}

impl Case {
    /// What it adds to the two files, labels put aside.
    fn size(&self) -> usize {
        let texts = self.listings.named.iter().map(|line| 20 + line.text.len());
        self.bytes.len() + texts.sum::<usize>()
    }

    /// The same with another law.
    fn with(&self, program: Program) -> Result<Option<Case>, String> {
        let (title, settings) = (self.title.clone(), self.settings.clone());
        case(title, program, self.layout, settings)
    }

    /// The title, and for each difference what the Rust lists of the law as it is spelled.
    fn label(&self) -> Result<String, String> {
        let notes = self.notes();
        same(
            "the Rust's findings told by the label",
            &restored(&self.listings.named, &notes),
            &self.listings.spelled,
        )?;
        let told: String = notes.iter().map(Note::told).collect();
        let label = format!("{}{told}", self.title);
        match label.len() <= LABEL_BYTES {
            true => Ok(label),
            false => Err(format!("a label has too many bytes: {label}")),
        }
    }

    fn notes(&self) -> Vec<Note> {
        let (mut here, mut there) = (0, 0);
        let mut notes = Vec::new();
        let texts = &self.listings.spelled_texts;
        for (remark, spelled) in self.listings.remarks.all.iter().zip(texts) {
            let named = line(remark, &remark.named, &self.settings);
            let rust = line(remark, spelled, &self.settings);
            here += usize::from(named.is_some());
            there += usize::from(rust.is_some());
            if named != rust {
                notes.push(Note {
                    differences: differences(remark, spelled),
                    here: named.map(|_| here),
                    there: rust.map(|line| (there, line)),
                });
            }
        }
        notes
    }

    fn input(&self, label: &str) -> Vec<u8> {
        let Settings { strict, overrides } = &self.settings;
        let mut words = vec![u32::from(*strict), overrides.len() as u32];
        words.extend(
            overrides
                .iter()
                .map(|(lint, severity)| 256 * lint + severity),
        );
        words.push(self.bytes.len() as u32);
        let mut all = format!("{label}\n").into_bytes();
        all.extend(words.iter().flat_map(|word| word.to_le_bytes()));
        all.extend(&self.bytes);
        all
    }

    fn output(&self, label: &str) -> String {
        let lines = self.listings.named.iter();
        let told: String = lines.map(|line| format!("  {}\n", printed(line))).collect();
        format!("{label}\n{told}")
    }
}

/// The numbers of the differences that show at a subject, where the Rust says this of the law as it is spelled.
fn differences(remark: &Remark, spelled: &Option<String>) -> Vec<String> {
    let named = remark.difference().map(|kind| kind + 1);
    let numbers = (*spelled != remark.rust).then_some(BY_VALUE);
    let both = named.into_iter().chain(numbers);
    both.map(|number| number.to_string()).collect()
}

/// A difference: the finding that is stored and the Rust's, both with their numbers from 1.
struct Note {
    differences: Vec<String>,
    here: Option<usize>,
    there: Option<(usize, Line)>,
}

impl Note {
    fn told(&self) -> String {
        let here = self
            .here
            .map(|number| format!("finding {number} is not the Rust's"));
        let there = self
            .there
            .as_ref()
            .map(|(number, line)| format!("the Rust's finding {number} is {}", printed(line)));
        let both: Vec<String> = here.into_iter().chain(there).collect();
        let differences = self.differences.join(" and ");
        format!(" # difference {differences}: {}", both.join(", "))
    }
}

/// The Rust's findings again, from the stored ones and the notes.
fn restored(stored: &[Line], notes: &[Note]) -> Vec<Line> {
    let ours: BTreeSet<usize> = notes.iter().filter_map(|note| note.here).collect();
    let mut all: Vec<Line> = stored
        .iter()
        .enumerate()
        .filter(|(place, _)| !ours.contains(&(place + 1)))
        .map(|(_, line)| line.clone())
        .collect();
    for (number, line) in notes.iter().filter_map(|note| note.there.as_ref()) {
        all.insert(number - 1, line.clone());
    }
    all
}

/// Lint, severity, span, a, b and the text.
fn printed(line: &Line) -> String {
    let words = six_words(line).map(|word| word.to_string());
    format!("{} {}", words.join(" "), line.text)
}

/// The files with what they shall have.
fn files(cases: &[Case]) -> Result<[(PathBuf, Vec<u8>); 2], String> {
    let folder = Path::new(env!("CARGO_MANIFEST_DIR")).join("../crates/test_replay");
    let (mut input, mut output) = (Vec::new(), Vec::new());
    for case in cases {
        let label = case.label()?;
        input.extend(case.input(&label));
        output.extend(case.output(&label).into_bytes());
    }
    Ok([
        (folder.join("stdin"), input),
        (folder.join("stdout"), output),
    ])
}

fn summary(cases: &[Case]) -> String {
    let lines = || cases.iter().flat_map(|case| &case.listings.named);
    let by_lint = [1, 2, 3, 4].map(|lint| lines().filter(|line| line.lint == lint).count());
    let texts: BTreeSet<&str> = lines().map(|line| line.text.as_str()).collect();
    let features: BTreeSet<&String> = cases.iter().flat_map(|case| &case.features).collect();
    let differences = (1..=7).map(|number| {
        let start = format!("difference {number}:");
        let shows = |case: &&Case| case.features.iter().any(|one| one.starts_with(&start));
        format!("{number}: {}", cases.iter().filter(shows).count())
    });
    format!(
        "{} laws, {} features, {} findings {by_lint:?}, {} distinct texts, {} laws without findings; \
         laws at each difference {{{}}}",
        cases.len(),
        features.len(),
        lines().count(),
        texts.len(),
        cases
            .iter()
            .filter(|case| case.listings.named.is_empty())
            .count(),
        differences.collect::<Vec<_>>().join(", ")
    )
}
