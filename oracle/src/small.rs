//! The documents' small laws, and those by which their readings were settled, through both parties.
use std::process::ExitCode;

use crate::compare::{compare, hex, same};
use crate::counts::Counts;
use crate::encode::{Layout, encode};
use crate::ours::{Buffers, Words};
use crate::parse::parse;
use crate::random::Random;
use crate::settings::Settings;

/// A law and its listing: findings, rounds and settled, then lint, a and b of each finding.
type Small = (&'static str, &'static str);

/// Of document 01.
pub const LAWS: [Small; 27] = [
    ("", "0 1 1"),
    ("F { = 'a' <F> 1 1 1; }", "0 5 1"),
    ("F { = 'a' <F> 1 1 1 1; }", "0 5 0"),
    ("F { = 'a' <F> 1 1 1 1 1; }", "0 5 0"),
    ("F { = <Add 1>; }", "1 2 1, 3 1 0"),
    ("F { = <Div 1 '-' 0>; }", "1 2 1, 3 2 0"),
    ("F { = <Add 1 2 3>; }", "0 2 1"),
    ("F { = <Numb>; }", "1 2 1, 3 3 0"),
    ("Add { e.X = ; } F { = <add 1>; }", "1 2 1, 3 1 0"),
    ("F { = <Div 4294967296 0>; }", "0 2 1"),
    ("F { = <Div 1 00>; }", "1 2 1, 3 2 0"),
    (
        "F { e.X = 'a'; s.A = <F 1>; } H { 'q' = <H 2>; }",
        "2 2 1, 1 2 1, 2 1 0",
    ),
    ("F { e.X = ; (t.A) = ; }", "1 2 1, 1 2 1"),
    ("F { (t.X) = ; (e.A) = ; }", "0 2 1"),
    ("F { s.A s.A = ; 'x' 'x' = ; s.B s.C = ; }", "1 2 1, 1 2 1"),
    // Document 02's R-3 changed this one: it had no finding.
    ("F { s.A s.A = ; 7 007 = ; }", "1 2 1, 1 2 1"),
    (
        "F { s.a-b s.a_b = ; s.A s.B = ; s.A s.A = ; }",
        "2 2 1, 1 2 1, 1 3 1",
    ),
    ("F { a-b = ; A_B = ; }", "1 2 1, 1 2 1"),
    ("F { (e.A) t.B = ; (s.Q) e.A = ; }", "0 2 1"),
    ("F { (e.A e.B) e.A = ; ('x') 'x' = ; }", "1 2 1, 4 3 0"),
    (
        "F { (e.A e.B) e.A = ; } G { = <F ('x') 'x'>; }",
        "1 2 1, 4 3 0",
    ),
    ("F { ('a') = ; } G { = <F ('b')>; }", "1 2 1, 2 2 0"),
    ("F { ('a') = ; } G { = <F (1)>; }", "1 2 1, 2 1 0"),
    ("F { } G { = 'a' <F>; }", "1 2 1, 2 1 0"),
    (
        "F { 'a' = ; } f { 'b' = ; } G { = <F 'a'> <F 'b'>; }",
        "1 2 1, 2 2 0",
    ),
    ("F { s.A e.X = [e.X : s.A = 1; s.B = 2;]; }", "1 2 1, 1 2 1"),
    (
        "F { e.X = [[e.X : e.Y = ; e.Z = ;] : e.V = ; s.W = ;]; }",
        "2 2 1, 1 2 1, 1 2 1",
    ),
];

/// Of document 02's R-3: numbers are the same where their values are. 2^64 + 1 and 1 are two.
pub const NUMBERS: [Small; 14] = [
    ("F { 007 = ; 7 = ; }", "1 2 1, 1 2 1"),
    ("F { 000 = ; 0 = ; }", "1 2 1, 1 2 1"),
    ("F { 10 = ; 1 = ; 100 = ; 0 = ; }", "0 2 1"),
    ("F { 18446744073709551617 = ; 1 = ; }", "0 2 1"),
    (
        "F { 0000000000000000000000000000000000000000000000000000000000000000 = ; 00 = ; \
         0000000000000000000000000000000000000000000000000000000000000001 = ; }",
        "1 2 1, 1 2 1",
    ),
    (
        "F { 9999999999999999999999999999999999999999999999999999999999999999 = ; \
         9999999999999999999999999999999999999999999999999999999999999998 = ; }",
        "0 2 1",
    ),
    ("F { '7' = ; 7 = ; 07 = ; }", "1 2 1, 1 3 2"),
    (
        "F { (e.A) e.A = ; (1 (02)) 01 (2) = ; }",
        "2 2 1, 1 2 1, 4 2 0",
    ),
    ("F { e.X = [e.X : (07) = ; (7) = ;]; }", "1 2 1, 1 2 1"),
    ("F { 7 = 'a'; } G { = <F 007>; }", "0 2 1"),
    ("F { 007 = ; } G { = <F 7> <F 70>; }", "1 2 1, 2 2 0"),
    (
        "F { s.A s.A = ; } G { = <F 1 01> <F 1 10>; }",
        "1 2 1, 2 2 0",
    ),
    (
        "F { (e.A e.B) e.A = ; } G { = <F (01 2) 1> <F (01 2) 2>; }",
        "2 2 1, 2 2 0, 4 3 0",
    ),
    (
        "F { = <Div 1 0 00> <Div 01 '-' 000>; }",
        "2 2 1, 3 2 0, 3 2 0",
    ),
];

/// Document 01's example, with all words of its listing.
const EXAMPLE: (&str, &str) = (
    "F { e.X = 'a'; s.A = <F 1>; } H { 'q' = <H 2>; }",
    "2 2 1\n1 1 15 26 2 1 0 1\n2 1 40 45 1 0 1 6\n",
);

/// Laws in Refal notation. The example is among document 01's.
pub fn notations(laws: &[Small]) -> Vec<&'static str> {
    laws.iter().map(|(law, _)| *law).collect()
}

pub fn run() -> ExitCode {
    let short = LAWS
        .iter()
        .chain(&NUMBERS)
        .try_for_each(|(law, expected)| agrees(law, expected, Listing::short));
    match short.and_then(|()| agrees(EXAMPLE.0, EXAMPLE.1, Listing::full)) {
        Ok(()) => {
            println!(
                "{} small laws of document 01, its example and {} small laws of document 02 are listed as these say",
                LAWS.len(),
                NUMBERS.len()
            );
            ExitCode::SUCCESS
        }
        Err(reason) => {
            println!("{reason}");
            ExitCode::FAILURE
        }
    }
}

fn agrees(notation: &str, expected: &str, shown: fn(&Listing) -> String) -> Result<(), String> {
    let listing = Listing::of(notation)?;
    same("listing", &shown(&listing).as_str(), &expected)
        .map_err(|reason| format!("{notation}: {reason}"))
}

/// One law that is given by hand: its listing, and its file in hex.
pub fn show(notation: &str) -> ExitCode {
    match Listing::of(notation) {
        Ok(listing) => {
            println!("{}{}", listing.full(), hex(&listing.file));
            ExitCode::SUCCESS
        }
        Err(reason) => {
            println!("{reason}");
            ExitCode::FAILURE
        }
    }
}

struct Listing {
    count: String,
    found: Vec<Words>,
    file: Vec<u8>,
}

impl Listing {
    /// What both list, in strict mode.
    fn of(notation: &str) -> Result<Listing, String> {
        let program = parse(notation)?;
        let layout = Layout {
            share: true,
            junk: false,
            bytes: None,
        };
        let encoded = encode(&program, layout, &mut Random::of(0, 0));
        let settings = Settings::strict();
        let mut buffers = Buffers::new();
        compare(
            &program,
            &encoded,
            &settings,
            &mut Counts::default(),
            &mut buffers,
        )?;
        let answer = buffers.findings(&settings.ours(), &encoded.bytes);
        let (count, found) = answer.map_err(|refusal| refusal.to_string())?;
        let count = format!(
            "{} {} {}",
            count.findings,
            count.rounds,
            u32::from(count.settled)
        );
        Ok(Listing {
            count,
            found,
            file: encoded.bytes,
        })
    }

    fn short(&self) -> String {
        let lines = self
            .found
            .iter()
            .map(|words| format!(", {} {} {}", words[0], words[4], words[5]));
        format!("{}{}", self.count, lines.collect::<String>())
    }

    /// As the listing program prints it.
    fn full(&self) -> String {
        let line = |words: &Words| words.map(|word| word.to_string()).join(" ") + "\n";
        format!(
            "{}\n{}",
            self.count,
            self.found.iter().map(line).collect::<String>()
        )
    }
}
