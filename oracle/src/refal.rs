//! A law in Refal notation, for reports. A block reads `[argument : sentences]`.
use refal_ast::{Function, Item, Program, Sentence, Symbol, Term, TermKind};

pub fn notation(program: &Program) -> String {
    functions(program)
        .map(|function| {
            format!(
                "{} {{ {} }}\n",
                function.name,
                sentences(&function.sentences)
            )
        })
        .collect()
}

pub fn functions(program: &Program) -> impl Iterator<Item = &Function> {
    program.items.iter().filter_map(|item| match item {
        Item::Function(function) => Some(function),
        Item::Declaration(_) => None,
    })
}

fn sentences(all: &[Sentence]) -> String {
    all.iter().map(sentence).collect::<Vec<_>>().join(" ")
}

fn sentence(one: &Sentence) -> String {
    let conditions: String = one
        .conditions
        .iter()
        .map(|condition| {
            format!(
                ", {} : {}",
                terms(&condition.result),
                terms(&condition.pattern)
            )
        })
        .collect();
    format!(
        "{}{} = {};",
        terms(&one.pattern),
        conditions,
        terms(&one.result)
    )
}

pub fn terms(all: &[Term]) -> String {
    all.iter().map(term).collect::<Vec<_>>().join(" ")
}

fn term(one: &Term) -> String {
    match &one.kind {
        TermKind::Symbol(Symbol::Char(ch)) => format!("{ch:?}"),
        TermKind::Symbol(Symbol::Identifier(text) | Symbol::Number(text)) => text.clone(),
        TermKind::Variable(variable) => {
            format!("{}.{}", variable.kind.refal_prefix(), variable.name)
        }
        TermKind::Bracket(inside) => format!("({})", terms(inside)),
        TermKind::Call { name, args } => format!("<{name} {}>", terms(args)),
        TermKind::Block {
            argument,
            sentences: own,
        } => format!("[{} : {}]", terms(argument), sentences(own)),
    }
}
