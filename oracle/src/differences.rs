//! What lints 1 and 2 say of each sentence and call, in the Rust and with the named differences from it.
//!
//! The walk is the Rust's. At each subject both verdicts are worked out anew, so that a mismatch is allowed only where
//! the one changed rule makes it. What is said here for the Rust is itself compared with what the Rust lists.
use std::collections::{HashMap, HashSet};

use refal_ast::{
    Function, Program, Sentence, Span, Term, TermKind, VariableKind, canonical_identifier,
};
use refal_semantics::Formats;

use crate::encode::key;
use crate::matching::{SingleTerm, Steps, TooLong, matches, shadows};
use crate::refal::functions;
use crate::rounds::narrow;

pub const KINDS: [&str; 2] = ["single term", "bracketed literal"];

/// What is said of one subject: the text, where it is listed.
pub struct Remark {
    pub lint: u32,
    /// The position of the function that the subject stands in.
    pub function: usize,
    pub span: Span,
    pub rust: Option<String>,
    pub named: Option<String>,
}

impl Remark {
    /// The place in `KINDS` of the difference, where there is one.
    pub fn difference(&self) -> Option<usize> {
        (self.rust != self.named).then_some(self.lint as usize - 1)
    }
}

pub struct Remarks {
    /// Of each sentence, and of each call of a function that the law defines.
    pub all: Vec<Remark>,
    /// Literal arguments that match only by going back into a bracket.
    pub went_back: usize,
    /// Literal arguments with brackets, which the Rust does not match at all.
    pub bracketed: usize,
    /// Refusal 10: an argument that is compared by formats has over 64 shapes.
    pub too_wide: bool,
}

/// The remarks of a law in the order of the listing. `formats` are the Rust's.
pub fn remarks(
    program: &Program,
    formats: &Formats,
    steps: &mut Steps,
) -> Result<Remarks, TooLong> {
    let mut walk = Walk {
        defined: functions(program)
            .map(|one| (canonical_identifier(&one.name), one))
            .collect(),
        formats,
        steps,
        function: 0,
        remarks: Remarks {
            all: Vec::new(),
            went_back: 0,
            bracketed: 0,
            too_wide: false,
        },
    };
    for (position, function) in functions(program).enumerate() {
        walk.function = position;
        walk.dead(&function.name, &function.sentences)?;
        walk.dead_inside(&function.name, &function.sentences)?;
    }
    for (position, function) in functions(program).enumerate() {
        walk.function = position;
        walk.calls_of(&function.sentences)?;
    }
    Ok(walk.remarks)
}

struct Walk<'a> {
    /// Where a name is defined twice, the last definition.
    defined: HashMap<String, &'a Function>,
    formats: &'a Formats,
    steps: &'a mut Steps,
    /// The position of the function that is walked through.
    function: usize,
    remarks: Remarks,
}

impl Walk<'_> {
    fn note(&mut self, lint: u32, span: Span, rust: Option<String>, named: Option<String>) {
        self.remarks.all.push(Remark {
            lint,
            function: self.function,
            span,
            rust,
            named,
        });
    }

    fn dead(&mut self, owner: &str, sentences: &[Sentence]) -> Result<(), TooLong> {
        for (index, sentence) in sentences.iter().enumerate() {
            let earlier = &sentences[..index];
            let looked_up = self.earliest(earlier, sentence, SingleTerm::LookedUp)?;
            let never = self.earliest(earlier, sentence, SingleTerm::Never)?;
            if looked_up != never {
                // With the look-up a bracket's contents may match otherwise, so that either rule can find more.
                let mut found = [looked_up, never].into_iter().flatten();
                assert!(
                    found.any(|by| share_e_variable(&earlier[by].pattern, &sentence.pattern)),
                    "a difference without a shared e. variable"
                );
            }
            let text = |by: usize| {
                format!(
                    "sentence {} of `{owner}` is unreachable: sentence {} has no conditions and already matches every \
                     argument this one matches",
                    index + 1,
                    by + 1
                )
            };
            self.note(1, sentence.span, looked_up.map(text), never.map(text));
        }
        Ok(())
    }

    fn earliest(
        &mut self,
        earlier: &[Sentence],
        later: &Sentence,
        rule: SingleTerm,
    ) -> Result<Option<usize>, TooLong> {
        for (index, one) in earlier.iter().enumerate() {
            if one.conditions.is_empty() && shadows(&one.pattern, &later.pattern, rule, self.steps)?
            {
                return Ok(Some(index));
            }
        }
        Ok(None)
    }

    fn dead_inside(&mut self, owner: &str, sentences: &[Sentence]) -> Result<(), TooLong> {
        for sentence in sentences {
            self.dead_terms(owner, &sentence.pattern)?;
            for condition in &sentence.conditions {
                self.dead_terms(owner, &condition.result)?;
                self.dead_terms(owner, &condition.pattern)?;
            }
            self.dead_terms(owner, &sentence.result)?;
        }
        Ok(())
    }

    fn dead_terms(&mut self, owner: &str, terms: &[Term]) -> Result<(), TooLong> {
        for term in terms {
            match &term.kind {
                TermKind::Symbol(_) | TermKind::Variable(_) => {}
                TermKind::Bracket(inside) | TermKind::Call { args: inside, .. } => {
                    self.dead_terms(owner, inside)?
                }
                TermKind::Block {
                    argument,
                    sentences,
                } => {
                    self.dead_terms(owner, argument)?;
                    self.dead(&format!("a block in `{owner}`"), sentences)?;
                    self.dead_inside(owner, sentences)?;
                }
            }
        }
        Ok(())
    }

    fn calls_of(&mut self, sentences: &[Sentence]) -> Result<(), TooLong> {
        for sentence in sentences {
            for condition in &sentence.conditions {
                self.calls(&condition.result)?;
            }
            self.calls(&sentence.result)?;
        }
        Ok(())
    }

    fn calls(&mut self, terms: &[Term]) -> Result<(), TooLong> {
        for term in terms {
            match &term.kind {
                TermKind::Symbol(_) | TermKind::Variable(_) => {}
                TermKind::Bracket(inside) => self.calls(inside)?,
                TermKind::Call { name, args } => {
                    self.recognition(name, args, term.span)?;
                    self.calls(args)?;
                }
                TermKind::Block {
                    argument,
                    sentences,
                } => {
                    self.calls(argument)?;
                    self.calls_of(sentences)?;
                }
            }
        }
        Ok(())
    }

    fn recognition(&mut self, name: &str, args: &[Term], span: Span) -> Result<(), TooLong> {
        let Some(callee) = self.defined.get(&canonical_identifier(name)).copied() else {
            return Ok(());
        };
        let symbols = args
            .iter()
            .all(|term| matches!(term.kind, TermKind::Symbol(_)));
        let literal = is_literal(args);
        let matched_rust = self.some_sentence(callee, symbols, |pattern, steps| {
            shadows(pattern, args, SingleTerm::LookedUp, steps)
        })?;
        let matched = self.some_sentence(callee, literal, |pattern, steps| {
            matches(pattern, args, steps)
        })?;
        let without_back = self.some_sentence(callee, literal, |pattern, steps| {
            shadows(pattern, args, SingleTerm::Never, steps)
        })?;
        self.remarks.went_back += usize::from(matched && !without_back);
        self.remarks.bracketed += usize::from(literal && !symbols);
        self.remarks.too_wide |= !matched && narrow(self.formats.format_of(args)).is_err();

        let rust = self.verdict(name, args, symbols, matched_rust);
        let named = self.verdict(name, args, literal, matched);
        assert!(
            rust == named || (literal && !symbols),
            "a difference without a bracketed literal"
        );
        self.note(2, span, rust, named);
        Ok(())
    }

    fn some_sentence(
        &mut self,
        callee: &Function,
        asked: bool,
        test: impl Fn(&[Term], &mut Steps) -> Result<bool, TooLong>,
    ) -> Result<bool, TooLong> {
        for sentence in callee.sentences.iter().filter(|_| asked) {
            if test(&sentence.pattern, self.steps)? {
                return Ok(true);
            }
        }
        Ok(false)
    }

    fn verdict(&self, name: &str, args: &[Term], literal: bool, matched: bool) -> Option<String> {
        if matched {
            return None;
        }
        let argument = self.formats.format_of(args);
        let accepted = self
            .formats
            .arguments_of(name)
            .expect("a defined function has formats");
        if argument.disjoint(accepted) {
            return Some(format!(
                "`<{name} ...>` always fails: `{name}` accepts {accepted}, but this call passes {argument}"
            ));
        }
        literal.then(|| {
            format!("`<{name} ...>` always fails: no sentence of `{name}` matches this argument")
        })
    }
}

/// No variable, call or block at any depth.
pub fn is_literal(terms: &[Term]) -> bool {
    terms.iter().all(|term| match &term.kind {
        TermKind::Symbol(_) => true,
        TermKind::Bracket(inside) => is_literal(inside),
        TermKind::Variable(_) | TermKind::Call { .. } | TermKind::Block { .. } => false,
    })
}

fn share_e_variable(left: &[Term], right: &[Term]) -> bool {
    let (mut first, mut second) = (HashSet::new(), HashSet::new());
    e_variables(left, &mut first);
    e_variables(right, &mut second);
    !first.is_disjoint(&second)
}

fn e_variables(terms: &[Term], met: &mut HashSet<String>) {
    for term in terms {
        match &term.kind {
            TermKind::Variable(variable) if variable.kind == VariableKind::Expression => {
                met.insert(key(variable).1);
            }
            TermKind::Bracket(inside) => e_variables(inside, met),
            _ => {}
        }
    }
}
