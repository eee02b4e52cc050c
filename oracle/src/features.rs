//! What a law shows, in words. The stored sample has a law for each of these.
use std::collections::{BTreeMap, BTreeSet};

use refal_ast::{Program, Sentence, Span, Symbol, Term, TermKind, canonical_identifier};
use refal_semantics::{Formats, Shape};

use crate::compare::{Line, Listings, rust_lines, six_words};
use crate::pairs;
use crate::places::{Places, Site};
use crate::refal::functions;
use crate::settings::Settings;
use crate::shape;

pub type Features = BTreeSet<String>;
type Spellings<'a> = BTreeMap<String, Vec<&'a str>>;

const LINTS: [&str; 4] = [
    "dead sentence",
    "recognition",
    "builtin",
    "open expressions",
];
const SEVERITIES: [&str; 4] = ["error", "deny", "warn", "allow"];
/// Features name small numbers, and the larger ones together.
const NAMED_NUMBERS: usize = 6;

/// A law as it is spelled, with its settings and what is listed of it.
pub struct Shown<'a> {
    pub program: &'a Program,
    pub settings: &'a Settings,
    pub listings: &'a Listings,
}

impl Shown<'_> {
    /// The finding of a lint at a span.
    fn at(&self, lint: u32, span: Span) -> Option<&Line> {
        let is_there = |line: &&Line| {
            line.lint == lint && (line.start, line.end) == (span.start as u32, span.end as u32)
        };
        self.listings.named.iter().find(is_there)
    }

    fn shows(&self, lint: u32) -> bool {
        self.settings.severity(lint).is_some()
    }

    /// What is listed is told by this law: it is without needless zeros.
    fn law(&self) -> &Program {
        &self.listings.law
    }
}

pub fn features(shown: &Shown) -> Features {
    let mut all = Features::new();
    let places = Places::of(shown.law());
    settings(shown, &mut all);
    for line in &shown.listings.named {
        text(line, &mut all);
    }
    order(&shown.listings.named, &mut all);
    differences(shown, &mut all);
    if places.spans_differ() {
        calls(shown, &places, &mut all);
        blocks(shown, &places, &mut all);
        open(shown, &places, &mut all);
    }
    if shown.shows(1) {
        for group in &places.groups {
            pairs::features(group, &mut all);
        }
    }
    if shown.shows(2) {
        defined_twice(shown, &places, &mut all);
        if shown.listings.remarks.went_back > 0 {
            all.insert("difference 2: matches by going back".into());
        }
    }
    if shown.listings.spelled != shown.listings.rust {
        all.insert("difference 4: numbers compare by value".into());
    }
    shape::features(shown.program, &Places::of(shown.program), &mut all);
    if !shown.listings.settled {
        all.insert("law: its rounds do not settle".into());
    }
    all
}

/// What mode and overrides do with each lint that has a finding.
fn settings(shown: &Shown, all: &mut Features) {
    let Settings { strict, overrides } = shown.settings;
    let mode = if *strict { "strict" } else { "classic" };
    let present: BTreeSet<u32> = rust_lines(shown.law(), &Settings::strict())
        .iter()
        .map(|line| line.lint)
        .collect();
    for lint in present {
        let name = LINTS[lint as usize - 1];
        let own: Vec<&str> = overrides
            .iter()
            .filter(|(named, _)| *named == lint)
            .map(|(_, severity)| SEVERITIES[*severity as usize])
            .collect();
        let level = own.first().copied().unwrap_or("none");
        all.insert(format!("settings: {name}, {mode}, override {level}"));
        if let [first, then, ..] = own[..]
            && first != then
        {
            all.insert(format!("settings: override {first} before {then}"));
            all.insert(format!("settings: {name}, first override {first}"));
        }
    }
    all.insert(format!("settings: {} overrides", overrides.len()));
}

/// The forms of texts, with what stands between their fixed pieces.
fn text(line: &Line, all: &mut Features) {
    let [_, _, _, _, a, b] = six_words(line).map(|word| word as usize);
    let owner = match line.text.contains("of `a block in `") {
        true => "a block",
        false => "a function",
    };
    all.insert(match (line.lint, a) {
        (1, _) => format!("text: sentence {} by {} of {owner}", number(a), number(b)),
        (2, 1) => return formats(&line.text, all),
        (2, _) => "text: no sentence matches".into(),
        (3, _) => builtin_text(&line.text),
        _ => format!("text: {} e. variables", number(a)),
    });
}

/// A count as features name it.
pub fn number(count: usize) -> String {
    match count {
        0..=NAMED_NUMBERS => count.to_string(),
        7..=9 => "7 to 9".into(),
        _ => "10 and more".into(),
    }
}

fn builtin_text(text: &str) -> String {
    let name = text.trim_start_matches("`<").split(' ').next();
    let reason = text.rsplit(": ").next();
    let (name, reason) = name.zip(reason).expect("the text has its pieces");
    format!("text: {}, {reason}", canonical_identifier(name))
}

/// Formats of one or two shapes are features.
fn formats(text: &str, all: &mut Features) {
    let (before, passed) = text
        .split_once(", but this call passes ")
        .expect("the text has its pieces");
    let accepted = before.rsplit_once("` accepts ").expect("and this one").1;
    for (verb, format) in [("accepts", accepted), ("passes", passed)] {
        let shapes = format.chars().filter(|ch| "CNIS?(".contains(*ch)).count();
        if shapes < 2 || (shapes == 2 && format.starts_with("[(") && format.ends_with(")]")) {
            all.insert(format!("text: {verb} {format}"));
        }
        if shapes > 9 {
            all.insert(format!("text: {verb} 10 shapes and more"));
        }
    }
    all.insert(format!("text: {} by formats", closed(accepted, passed)));
}

fn closed(accepted: &str, passed: &str) -> String {
    let kind = |format: &str| match format {
        "never" => "never",
        _ if format.ends_with("..]") => "open",
        _ => "closed",
    };
    format!("{} and {}", kind(accepted), kind(passed))
}

/// How many findings there are, and which lints follow one another.
fn order(lines: &[Line], all: &mut Features) {
    all.insert(format!("listing: {} findings", number(lines.len())));
    for pair in lines.windows(2) {
        let (first, then) = (pair[0].lint, pair[1].lint);
        all.insert(format!("listing: lint {first}, then {then}"));
    }
    let lints: BTreeSet<u32> = lines.iter().map(|line| line.lint).collect();
    if lints.len() == LINTS.len() {
        all.insert("listing: all four lints".into());
    }
}

/// How each subject is listed otherwise: by the named differences, and by the values of numbers.
fn differences(shown: &Shown, all: &mut Features) {
    let texts = &shown.listings.spelled_texts;
    for (remark, spelled) in shown.listings.remarks.all.iter().zip(texts) {
        if !shown.shows(remark.lint) {
            continue;
        }
        if let Some(kind) = remark.difference() {
            let who = who(&remark.rust, &remark.named);
            all.insert(format!("difference {}: {who}", kind + 1));
        }
        if *spelled != remark.rust {
            let lint = LINTS[remark.lint as usize - 1];
            let who = who(spelled, &remark.rust);
            all.insert(format!("difference 4: {lint}, {who}"));
        }
    }
}

/// Of two texts that differ, the first the Rust's.
fn who(rust: &Option<String>, here: &Option<String>) -> &'static str {
    match (rust, here) {
        (Some(_), None) => "listed by the Rust alone",
        (None, Some(_)) => "not listed by the Rust",
        _ => "listed otherwise by the Rust",
    }
}

fn calls(shown: &Shown, places: &Places, all: &mut Features) {
    let names = spellings(shown.law());
    for site in &places.sites {
        call(shown, site, &names, all);
    }
}

fn call(shown: &Shown, site: &Site, names: &Spellings, all: &mut Features) {
    let folded = canonical_identifier(site.name);
    let recognised = shown.at(2, site.span);
    let builtin = shown.at(3, site.span).is_some();
    if let Some(line) = recognised {
        let by_formats = six_words(line)[4] == 1;
        let lint = if by_formats { "formats" } else { "literals" };
        listed_call(site, lint, all);
        spelling(site.name, &names[&folded], all);
    }
    if builtin {
        listed_call(site, "builtin", all);
    }
    if builtin && names.contains_key(&folded) {
        all.insert("difference 5: a builtin that the law defines".into());
    }
    if builtin && recognised.is_some() {
        all.insert("call: recognition and builtin".into());
    }
    if shown.shows(3) && site.is_looked_at() {
        builtin_argument(site, &folded, builtin, all);
    }
    if shown.shows(2) && site.is_looked_at() && recognised.is_none() {
        overlap(&shown.listings.formats, site, all);
    }
}

fn listed_call(site: &Site, lint: &str, all: &mut Features) {
    for place in &site.around {
        all.insert(format!("call: {lint}, in {place}"));
    }
}

/// Formats of one shape that do not make a call fail.
fn overlap(formats: &Formats, site: &Site, all: &mut Features) {
    let Some(accepted) = formats.arguments_of(site.name) else {
        return;
    };
    let passed = formats.format_of(site.args);
    if let ([one], [other]) = (accepted.items.as_slice(), passed.items.as_slice()) {
        let (one, other) = (shape_name(one), shape_name(other));
        all.insert(format!("call: {one} accepts {other}"));
    }
}

fn shape_name(shape: &Shape) -> String {
    match shape {
        Shape::Bracket(_) => "(..)".into(),
        _ => shape.to_string(),
    }
}

/// The spellings of each folded name's definitions.
fn spellings(program: &Program) -> Spellings<'_> {
    let mut names = Spellings::new();
    for function in functions(program) {
        let folded = canonical_identifier(&function.name);
        names.entry(folded).or_default().push(&function.name);
    }
    names
}

fn spelling(name: &str, defined: &[&str], all: &mut Features) {
    if defined.contains(&name) {
        return;
    }
    let upper = name.to_ascii_uppercase();
    let by_case = defined.iter().any(|one| one.to_ascii_uppercase() == upper);
    let how = if by_case { "case" } else { "`-` and `_`" };
    all.insert(format!("call: spelled otherwise by {how}"));
}

fn builtin_argument(site: &Site, folded: &str, listed: bool, all: &mut Features) {
    let kind = match folded {
        "ADD" | "SUB" | "MUL" | "COMPARE" => "arithmetic",
        "DIV" | "MOD" | "DIVMOD" => "division",
        "NUMB" => "Numb",
        _ => return,
    };
    let operands: Vec<&str> = site.args.iter().map(operand).collect();
    let named = match operands.as_slice() {
        [] | [_] => true,
        [first, second] => kind != "Numb" && is_integer(first) && is_integer(second),
        [_, _, _] => operands.iter().all(|one| ["0", "1"].contains(one)),
        _ => false,
    };
    let verdict = if listed { "listed" } else { "not listed" };
    if named {
        let shown = operands.join(" ");
        all.insert(format!("builtin: {kind} of <{shown}>, {verdict}"));
    } else {
        let count = match operands.len() {
            few @ 0..=3 => few.to_string(),
            _ => "4 and more".into(),
        };
        all.insert(format!("builtin: {kind} of {count} terms, {verdict}"));
    }
}

fn is_integer(operand: &str) -> bool {
    ["sign", "0", "1", "4294967296"].contains(&operand)
}

/// A term as it matters to a builtin.
fn operand(term: &Term) -> &'static str {
    match &term.kind {
        TermKind::Symbol(Symbol::Char('-' | '+')) => "sign",
        TermKind::Symbol(Symbol::Char(ch)) if ch.is_ascii_digit() => "digit",
        TermKind::Symbol(Symbol::Char(ch)) if ch.is_numeric() => "digit not ASCII",
        TermKind::Symbol(Symbol::Char(_)) => "character",
        TermKind::Symbol(Symbol::Identifier(_)) => "identifier",
        TermKind::Symbol(Symbol::Number(text)) => match text.parse::<u64>() {
            Ok(0) => "0",
            Ok(value) if value <= u64::from(u32::MAX) => "1",
            _ => "4294967296",
        },
        TermKind::Variable(_) => "variable",
        TermKind::Bracket(_) => "bracket",
        TermKind::Call { .. } | TermKind::Block { .. } => "call or block",
    }
}

fn blocks(shown: &Shown, places: &Places, all: &mut Features) {
    for group in places.groups.iter().filter(|group| group.block) {
        let dead = |sentence: &Sentence| shown.at(1, sentence.span).is_some();
        if group.sentences.iter().any(dead) {
            for place in &group.around {
                all.insert(format!("block: dead sentence, in {place}"));
            }
        }
    }
}

/// Which sentences with several e. variables are listed: blocks' are not.
fn open(shown: &Shown, places: &Places, all: &mut Features) {
    for group in places.groups.iter().filter(|_| shown.shows(4)) {
        let several = |one: &&Sentence| pairs::e_variables(&one.pattern) > 1;
        for sentence in group.sentences.iter().filter(several) {
            let owner = if group.block { "block" } else { "function" };
            let listed = shown.at(4, sentence.span).is_some();
            let verdict = if listed { "listed" } else { "not listed" };
            let kind = match sentence.conditions.is_empty() {
                true => "without conditions",
                false => "with conditions",
            };
            all.insert(format!("open: {kind} in a {owner}, {verdict}"));
        }
    }
}

/// Difference 7: a symbol argument that one definition of a name matches and another does not.
fn defined_twice(shown: &Shown, places: &Places, all: &mut Features) {
    for site in places.sites.iter().filter(|site| site.is_looked_at()) {
        let folded = canonical_identifier(site.name);
        let symbols = |term: &Term| matches!(term.kind, TermKind::Symbol(_));
        let matched: Vec<bool> = functions(shown.law())
            .filter(|one| canonical_identifier(&one.name) == folded)
            .map(|one| pairs::some_matches(&one.sentences, site.args))
            .collect();
        if let [first @ .., last] = matched.as_slice()
            && site.args.iter().all(symbols)
            && first.contains(&!last)
        {
            let which = if *last { "last" } else { "first" };
            all.insert(format!("difference 7: the {which} definition matches"));
        }
    }
}
