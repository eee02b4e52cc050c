//! The pages of a law, made here of the lines that are expected of its listing, by document 02's R-4, and compared with what
//! the page call writes.
use bilzarko::{PAGE_BYTES, Refusal, TEXT_FINDINGS};
use refal_ast::{Item, Program, Span, TermKind};
use refal_semantics::Formats;

use crate::compare::{Line, line, rust_lines, same, six_words};
use crate::differences::Remark;
use crate::ours::{Buffers, PAGE_ROOM};
use crate::records::in_sentences;
use crate::refal::functions;
use crate::settings::Settings;
use crate::store::compare_store;

/// The findings of a page, at most.
pub const UNDER: usize = 59;
const LINTS: [&str; 4] = ["dead", "no match", "builtin", "open"];
const SEVERITIES: [&str; 4] = ["error", "deny", "warn", "allow"];

/// The pages of a law that lists these lines, each of the function at its position.
pub fn pages(program: &Program, lines: &[Line], owners: &[usize]) -> String {
    assert_eq!(lines.len(), owners.len(), "a line without its function");
    let names: Vec<&str> = functions(program).map(|one| one.name.as_str()).collect();
    let heading = |number: usize| format!("{:<62}{number:>10}\n", names.len());
    let all: Vec<String> = lines
        .iter()
        .zip(owners)
        .map(|(line, owner)| printed(line, names[*owner]))
        .collect();
    match all.is_empty() {
        true => heading(1),
        false => all
            .chunks(UNDER)
            .enumerate()
            .map(|(before, some)| heading(before + 1) + &some.concat())
            .collect(),
    }
}

fn printed(line: &Line, name: &str) -> String {
    let [lint, severity, start, end, a, _] = six_words(line);
    let name = match name.len() > 24 {
        true => format!("{}+", &name[..23]),
        false => name.into(),
    };
    format!(
        "{:<24} {:<8} {:<5} {:>10} {:>10} {:>10}\n",
        name,
        LINTS[lint as usize - 1],
        SEVERITIES[severity as usize],
        start,
        end,
        a
    )
}

/// No name has a `+` of its own.
pub fn cut_names(pages: &str) -> usize {
    pages.lines().filter(|line| &line[23..24] == "+").count()
}

/// The position of the function that each line stands in, first those of remarks, then the Rust's others. The Rust tells
/// lines by their spans, and these may be alike: it gets the law again, with the position of the function for each span.
pub fn owners(
    program: &Program,
    rust: &[Line],
    remarks: &[Remark],
    settings: &Settings,
) -> Result<Vec<usize>, String> {
    let again = rust_lines(&with_positions(program), settings);
    let said = |lines: &[Line]| -> Vec<(u32, u32, String)> {
        let three = |line: &Line| (line.lint, line.severity, line.text.clone());
        lines.iter().map(three).collect()
    };
    same(
        "the Rust's lines with other spans",
        &said(&again),
        &said(rust),
    )?;
    let of_remarks = |text: fn(&Remark) -> &Option<String>| -> Vec<usize> {
        let listed = |one: &&Remark| line(one, text(one), settings).is_some();
        remarks
            .iter()
            .filter(listed)
            .map(|one| one.function)
            .collect()
    };
    let of_rust = |remarked: bool| -> Vec<usize> {
        let some = again.iter().filter(|line| (line.lint <= 2) == remarked);
        some.map(|line| line.start as usize).collect()
    };
    same(
        "functions of the Rust's lines and those said for it here",
        &of_remarks(|one| &one.rust),
        &of_rust(true),
    )?;
    let mut all = of_remarks(|one| &one.named);
    all.extend(of_rust(false));
    Ok(all)
}

fn with_positions(program: &Program) -> Program {
    let mut changed = program.clone();
    let all = changed.items.iter_mut().filter_map(|item| match item {
        Item::Function(function) => Some(function),
        Item::Declaration(_) => None,
    });
    for (position, function) in all.enumerate() {
        let span = Span {
            start: position,
            end: position,
        };
        for sentence in &mut function.sentences {
            sentence.span = span;
        }
        in_sentences(&mut function.sentences, &mut |term| {
            term.span = span;
            if let TermKind::Block { sentences, .. } = &mut term.kind {
                sentences.iter_mut().for_each(|one| one.span = span);
            }
        });
    }
    changed
}

/// The page call has places for 256 findings, and refuses more. Fewer are asked for with a byte too few, with just enough
/// bytes and with more.
pub fn compare_pages(
    expected: &str,
    findings: usize,
    formats: &Formats,
    settings: &Settings,
    file: &[u8],
    buffers: &mut Buffers,
) -> Result<(), String> {
    let ours = settings.ours();
    let length = expected.len();
    let written = Ok(expected.to_string());
    let asked = match findings > TEXT_FINDINGS {
        true => vec![(PAGE_ROOM, Err(Refusal::Findings))],
        false => vec![
            (length - 1, Err(Refusal::Page)),
            (length, written.clone()),
            (PAGE_ROOM, written),
        ],
    };
    assert!(
        findings > TEXT_FINDINGS || length <= PAGE_BYTES,
        "a page that is too long"
    );
    for (room, answer) in asked {
        let what = format!("pages in {room} bytes");
        same(&what, &buffers.page_within(&ours, file, room), &answer)?;
        compare_store(formats, buffers.store())?;
    }
    Ok(())
}
