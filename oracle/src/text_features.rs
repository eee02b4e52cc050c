//! What a text shows, in words. A long run must meet each of these.
use crate::read_limits::{most_around, most_in_conditions, most_nested, most_variables};
use crate::read_phrase::{Item, Place, phrase};
use crate::read_tokens::{Kind, Token, tokens};
use crate::reader::{Reading, TEXT_BYTES, Within, read};

/// A text of the grammar, with what stands between its tokens.
struct Seen<'t> {
    within: &'t Within<'t>,
    between: String,
}

type OfRead = (&'static str, fn(&Seen<'_>) -> bool);
type OfWithin = (&'static str, fn(&Within<'_>) -> bool);
type OfBytes = (&'static str, fn(&[u8]) -> bool);

/// Of texts that are read where there is room.
const READ: [OfRead; 46] = [
    ("no bytes", |seen| seen.within.text.is_empty()),
    ("blanks alone", |seen| seen.only(' ')),
    ("a comment alone", |seen| seen.only('*')),
    ("externs alone", |seen| {
        seen.records()[0] == 0 && seen.has(Kind::Extern)
    }),
    ("nothing between", |seen| {
        seen.between.is_empty() && seen.tokens().len() > 9
    }),
    ("a space between", |seen| seen.between.contains(' ')),
    ("a tab between", |seen| seen.between.contains('\t')),
    ("a line feed between", |seen| seen.between.contains('\n')),
    ("a carriage return between", |seen| {
        seen.between.contains('\r')
    }),
    ("a comment of nothing", |seen| seen.between.contains("/**/")),
    ("a comment of a star", |seen| seen.between.contains("/***/")),
    ("a comment of a slash", |seen| {
        seen.between.contains("/*/*/")
    }),
    ("a comment with a quote", |seen| seen.between.contains('\'')),
    ("a comment past ASCII", |seen| !seen.between.is_ascii()),
    ("$ENTRY", |seen| seen.has(Kind::Entry)),
    ("$ENTRY beside a name", |seen| {
        seen.beside(Kind::Entry, Kind::Identifier)
    }),
    ("$EXTERN beside a name", |seen| {
        seen.beside(Kind::Extern, Kind::Identifier)
    }),
    ("two externs", |seen| seen.externs(|names| names.len() == 2)),
    ("an extern over 64 bytes", |seen| {
        seen.externs(|names| names[0].len() > 64)
    }),
    ("a last semicolon", |seen| {
        seen.follow(Kind::Mark(';'), Kind::Mark('}'))
    }),
    ("no last semicolon", |seen| {
        seen.follow(Kind::Mark('='), Kind::Mark('}'))
    }),
    ("a character of 2 bytes", |seen| {
        seen.character(|ch| ch.len_utf8() == 2)
    }),
    ("a character of 3 bytes", |seen| {
        seen.character(|ch| ch.len_utf8() == 3)
    }),
    ("a character of 4 bytes", |seen| {
        seen.character(|ch| ch.len_utf8() == 4)
    }),
    ("a line feed in quotes", |seen| {
        seen.character(|ch| ch == '\n')
    }),
    ("a zero byte in quotes", |seen| {
        seen.character(|ch| ch == '\0')
    }),
    ("a slash in quotes", |seen| seen.character(|ch| ch == '/')),
    ("a run beside a run", |seen| {
        seen.beside(Kind::Quoted, Kind::Quoted)
    }),
    ("a number beside a name", |seen| {
        seen.beside(Kind::Number, Kind::Identifier)
    }),
    ("a number beside a variable", |seen| {
        seen.beside(Kind::Number, Kind::Variable('e'))
    }),
    ("an index that begins with -", |seen| {
        seen.within.text.contains("e.-")
    }),
    ("the identifier s", |seen| {
        seen.spelled(Kind::Identifier, |word| word == "s")
    }),
    ("a call's name apart", |seen| {
        seen.within.text.contains("< ")
    }),
    ("a call in a call", |seen| seen.nests(7, 7)),
    ("a call in a bracket", |seen| seen.nests(6, 7)),
    ("a bracket in a call", |seen| seen.nests(7, 6)),
    ("two conditions", |seen| {
        seen.within.records.sentences.iter().any(|one| one[1] == 2)
    }),
    ("a condition of a colon", |seen| {
        seen.follow(Kind::Mark(','), Kind::Mark(':'))
    }),
    ("an identifier of 64 bytes", |seen| {
        seen.spelled(Kind::Identifier, |word| word.len() == 64)
    }),
    ("a number of 64 bytes", |seen| {
        seen.spelled(Kind::Number, |word| word.len() == 64)
    }),
    ("64 functions", |seen| seen.records()[0] == 64),
    ("128 sentences", |seen| seen.records()[1] == 128),
    ("128 conditions", |seen| seen.records()[2] == 128),
    ("512 terms", |seen| seen.records()[3] == 512),
    ("a file of 16,384 bytes", |seen| {
        seen.within.file.len() == 16_384
    }),
    ("a text of 4,096 bytes", |seen| {
        seen.within.text.len() == TEXT_BYTES
    }),
];

/// Of texts that are read and have what is only just allowed, in the phrase.
const ALLOWED: [OfWithin; 4] = [
    ("32 around a term", |one| most_around(&one.phrase) == 32),
    ("33 brackets around nothing", |one| {
        most_nested(&one.phrase) == 33
    }),
    ("32 variables", |one| {
        most_variables(one.text, &one.phrase) == 32
    }),
    ("33 variables in a condition", |one| {
        most_in_conditions(one.text, &one.phrase) > 32
    }),
];

/// Of texts whose file is refused.
const REFUSED: [OfWithin; 14] = [
    ("a file of 16,385 bytes", |one| one.file.len() == 16_385),
    ("over 1,000 brackets in each other", |one| {
        most_nested(&one.phrase) > 1_000
    }),
    ("65 functions", |one| {
        over(one, 4) && one.records.functions.len() == 65
    }),
    ("129 sentences", |one| {
        over(one, 4) && one.records.sentences.len() == 129
    }),
    ("129 conditions", |one| {
        over(one, 4) && one.records.conditions.len() == 129
    }),
    ("513 terms", |one| {
        over(one, 4) && one.records.terms.len() == 513
    }),
    ("a function's name of 65 bytes", |one| {
        over(one, 5) && one.records.functions[0][1] == 65
    }),
    ("an identifier of 65 bytes", |one| {
        over(one, 5) && long(one, 1)
    }),
    ("a number of 65 bytes", |one| over(one, 5) && long(one, 2)),
    ("an index of 65 bytes", |one| over(one, 5) && long(one, 5)),
    ("a called name of 65 bytes", |one| {
        over(one, 5) && long(one, 7)
    }),
    ("33 around a term", |one| {
        over(one, 8) && most_around(&one.phrase) == 33
    }),
    ("33 variables", |one| {
        over(one, 9) && most_variables(one.text, &one.phrase) == 33
    }),
    ("terms too many for 1 and 4", |one| {
        over(one, 1) && one.records.terms.len() > 512
    }),
];

/// Of texts outside the grammar. A small change brings these into it.
const OUTSIDE: [OfBytes; 7] = [
    ("outside by UTF-8 alone", |text| {
        std::str::from_utf8(text).is_err() && reads(String::from_utf8_lossy(text).as_bytes())
    }),
    ("a comment that does not end", |text| {
        reads(&[text, b"*/"].concat())
    }),
    ("a function that does not end", |text| {
        reads(&[text, b"}"].concat())
    }),
    ("a byte too many at the end", |text| {
        text.split_last().is_some_and(|(_, before)| reads(before))
    }),
    ("a byte too many at the start", |text| {
        text.split_first().is_some_and(|(_, after)| reads(after))
    }),
    ("calls where brackets would be taken", |text| {
        let text = std::str::from_utf8(text).unwrap_or("/*");
        tokens(text).is_some_and(|all| phrase(text, &calls_as_brackets(&all)).is_some())
    }),
    ("outside, over 1,000 brackets", |text| {
        text.iter().filter(|byte| **byte == b'(').count() > 1_000
    }),
];

/// Of texts over 4,096 bytes.
const TOO_LONG: [OfBytes; 2] = [
    ("a text of 4,097 bytes", |text| text.len() == TEXT_BYTES + 1),
    ("a text of over 4,096 bytes outside the grammar", |text| {
        std::str::from_utf8(text).is_err()
    }),
];

/// All that a text may show.
pub fn names() -> impl Iterator<Item = &'static str> {
    let read = READ.iter().map(|one| one.0);
    let within = ALLOWED.iter().chain(&REFUSED).map(|one| one.0);
    let bytes = OUTSIDE.iter().chain(&TOO_LONG).map(|one| one.0);
    read.chain(within).chain(bytes)
}

/// What a text shows.
pub fn features(text: &[u8], reading: &Reading) -> Vec<&'static str> {
    match reading {
        Reading::TooLong => met(&TOO_LONG, |shows| shows(text)),
        Reading::Outside => met(&OUTSIDE, |shows| shows(text)),
        Reading::Within(within) if within.refusal.is_some() => met(&REFUSED, |shows| shows(within)),
        Reading::Within(within) => {
            let seen = Seen::of(within);
            let mut all = met(&READ, |shows| shows(&seen));
            all.extend(met(&ALLOWED, |shows| shows(within)));
            all
        }
    }
}

fn met<F: Copy>(all: &[(&'static str, F)], holds: impl Fn(F) -> bool) -> Vec<&'static str> {
    let met = all.iter().filter(|(_, shows)| holds(*shows));
    met.map(|(name, _)| *name).collect()
}

fn reads(text: &[u8]) -> bool {
    matches!(read(text), Reading::Within(_))
}

/// The tokens without the names of calls, and with brackets in place of calls.
fn calls_as_brackets(tokens: &[Token]) -> Vec<Token> {
    let mut all = Vec::new();
    let mut called = false;
    for token in tokens {
        let kind = match token.kind {
            Kind::Mark('<') => Kind::Mark('('),
            Kind::Mark('>') => Kind::Mark(')'),
            kind => kind,
        };
        if !(called && kind == Kind::Identifier) {
            all.push(Token { kind, ..*token });
        }
        called = token.kind == Kind::Mark('<');
    }
    all
}

fn over(within: &Within, number: u32) -> bool {
    within.refusal == Some(number)
}

/// Whether a term of a kind is spelled by 65 bytes.
fn long(within: &Within, kind: u32) -> bool {
    let mut terms = within.records.terms.iter();
    terms.any(|record| record[0] == kind && record[2] == 65)
}

impl<'t> Seen<'t> {
    fn of(within: &'t Within<'t>) -> Seen<'t> {
        let mut between = String::new();
        let mut at = 0;
        for token in &within.tokens {
            between.push_str(&within.text[at..token.start]);
            at = token.end;
        }
        between.push_str(&within.text[at..]);
        Seen { within, between }
    }

    fn tokens(&self) -> &[Token] {
        &self.within.tokens
    }

    /// How many functions, sentences, conditions and terms there are.
    fn records(&self) -> [usize; 4] {
        let records = &self.within.records;
        [
            records.functions.len(),
            records.sentences.len(),
            records.conditions.len(),
            records.terms.len(),
        ]
    }

    /// There are no tokens, and this stands between them.
    fn only(&self, ch: char) -> bool {
        self.tokens().is_empty() && self.between.contains(ch)
    }

    fn has(&self, kind: Kind) -> bool {
        self.tokens().iter().any(|token| token.kind == kind)
    }

    /// Two tokens one after the other.
    fn follow(&self, one: Kind, next: Kind) -> bool {
        let mut pairs = self.tokens().windows(2);
        pairs.any(|pair| pair[0].kind == one && pair[1].kind == next)
    }

    /// The same with nothing between them.
    fn beside(&self, one: Kind, next: Kind) -> bool {
        let mut pairs = self.tokens().windows(2);
        pairs
            .any(|pair| pair[0].kind == one && pair[1].kind == next && pair[0].end == pair[1].start)
    }

    fn externs(&self, such: fn(&[Place]) -> bool) -> bool {
        let mut items = self.within.phrase.iter();
        items.any(|item| matches!(item, Item::Extern(names) if such(names)))
    }

    fn character(&self, such: fn(char) -> bool) -> bool {
        let mut terms = self.within.records.terms.iter();
        terms.any(|record| record[0] == 0 && char::from_u32(record[1]).is_some_and(such))
    }

    fn spelled(&self, kind: Kind, such: fn(&str) -> bool) -> bool {
        let mut tokens = self.tokens().iter();
        tokens.any(|token| token.kind == kind && such(&self.within.text[token.start..token.end]))
    }

    /// Whether a term of one kind is inside one of another.
    fn nests(&self, outer: u32, inner: u32) -> bool {
        let terms = &self.within.records.terms;
        let mut places = terms.iter().enumerate();
        places.any(|(place, record)| {
            let inside = &terms[place + 1..][..record[3] as usize];
            record[0] == outer && inside.iter().any(|record| record[0] == inner)
        })
    }
}
