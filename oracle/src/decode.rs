//! A law file read back, or its refusal, 1 to 9, by document 01: what a damaged file must be answered.
use std::ops::Range;

use refal_ast::{
    Condition, Function, Item, Program, Sentence, Span, Symbol, Term, TermKind, Variable,
    VariableKind, Visibility,
};

use crate::encode::limit_refusal;

/// Most records of each section, and their words. The text's records are bytes.
const LIMITS: [usize; 5] = [4_096, 64, 128, 128, 512];
pub const WORDS: [usize; 5] = [0, 5, 5, 4, 6];

/// The program that a law file means.
pub fn decode(bytes: &[u8]) -> Result<Program, u32> {
    if bytes.len() > bilzarko::LAW_BYTES {
        return Err(1);
    }
    let file = File::of(bytes)?;
    file.fields()?;
    let places = Places::of(&file)?;
    let reader = Reader {
        file: &file,
        places,
    };
    reader.blocks()?;
    let program = reader.program();
    limit_refusal(&program).map_or(Ok(program), Err)
}

/// Where the records of each section stand in a file.
pub fn sections(bytes: &[u8]) -> Result<[Range<usize>; 5], u32> {
    let mut all = [0..0, 0..0, 0..0, 0..0, 0..0];
    let mut at = 0;
    for (section, range) in all.iter_mut().enumerate() {
        let count = bytes.get(at..at + 4).ok_or(2u32)?;
        let count = u32::from_le_bytes(count.try_into().expect("four bytes")) as usize;
        if count > LIMITS[section] {
            return Err(4);
        }
        let size = count * if section == 0 { 1 } else { 4 * WORDS[section] };
        if bytes.len() - (at + 4) < size {
            return Err(2);
        }
        *range = at + 4..at + 4 + size;
        at += 4 + size;
    }
    if at == bytes.len() { Ok(all) } else { Err(3) }
}

struct File<'a> {
    text: &'a [u8],
    functions: Vec<[u32; 5]>,
    sentences: Vec<[u32; 5]>,
    conditions: Vec<[u32; 4]>,
    terms: Vec<[u32; 6]>,
}

fn records<const COUNT: usize>(bytes: &[u8]) -> Vec<[u32; COUNT]> {
    let word = |four: &[u8]| u32::from_le_bytes(four.try_into().expect("four bytes"));
    bytes
        .chunks_exact(4 * COUNT)
        .map(|record| std::array::from_fn(|place| word(&record[4 * place..4 * place + 4])))
        .collect()
}

fn is_name(text: &[u8]) -> bool {
    text.iter()
        .all(|byte| byte.is_ascii_alphanumeric() || *byte == b'-' || *byte == b'_')
}

impl<'a> File<'a> {
    fn of(bytes: &'a [u8]) -> Result<File<'a>, u32> {
        let [text, functions, sentences, conditions, terms] = sections(bytes)?;
        Ok(File {
            text: &bytes[text],
            functions: records(&bytes[functions]),
            sentences: records(&bytes[sentences]),
            conditions: records(&bytes[conditions]),
            terms: records(&bytes[terms]),
        })
    }

    fn fields(&self) -> Result<(), u32> {
        let named = |start: u32, length: u32| self.spelled(start, length).is_some_and(is_name);
        let functions = self
            .functions
            .iter()
            .all(|record| named(record[0], record[1]));
        let terms = self.terms.iter().all(|&[kind, a, b, n, ..]| match kind {
            0 => char::from_u32(a).is_some() && b == 0 && n == 0,
            2 => {
                n == 0
                    && self
                        .spelled(a, b)
                        .is_some_and(|text| text.iter().all(u8::is_ascii_digit))
            }
            1 | 3..=5 => n == 0 && named(a, b),
            6 => a == 0 && b == 0,
            7 => named(a, b),
            8 => b == 0,
            _ => false,
        });
        if functions && terms { Ok(()) } else { Err(5) }
    }

    /// The part of the text from a start, where it has 1 to 64 bytes.
    fn spelled(&self, start: u32, length: u32) -> Option<&'a [u8]> {
        let start = start as usize;
        let length = Some(length as usize).filter(|length| (1..=64).contains(length))?;
        self.text.get(start..start + length)
    }

    fn name(&self, start: u32, length: u32) -> String {
        let text = self
            .spelled(start, length)
            .expect("the fields were looked at");
        String::from_utf8(text.to_vec()).expect("names are ASCII")
    }
}

/// Where each record's records start, by the counts before it.
struct Places {
    function_sentences: Vec<usize>,
    /// By term record; of blocks alone.
    block_sentences: Vec<usize>,
    sentence_conditions: Vec<usize>,
    sentence_terms: Vec<usize>,
}

impl Places {
    fn of(file: &File) -> Result<Places, u32> {
        let mut sentences = 0u64;
        let function_sentences = file
            .functions
            .iter()
            .map(|record| passed(&mut sentences, record[2]))
            .collect();
        let block_sentences = file
            .terms
            .iter()
            .map(|record| passed(&mut sentences, if record[0] == 8 { record[1] } else { 0 }))
            .collect();
        let mut conditions = 0u64;
        let sentence_conditions = file
            .sentences
            .iter()
            .map(|record| passed(&mut conditions, record[1]))
            .collect();
        if sentences != file.sentences.len() as u64 || conditions != file.conditions.len() as u64 {
            return Err(6);
        }
        let mut places = Places {
            function_sentences,
            block_sentences,
            sentence_conditions,
            sentence_terms: Vec::new(),
        };
        places.place_terms(file)?;
        Ok(places)
    }

    fn place_terms(&mut self, file: &File) -> Result<(), u32> {
        let mut runs = Vec::new();
        let mut terms = 0u64;
        for (number, record) in file.sentences.iter().enumerate() {
            self.sentence_terms.push(terms as usize);
            let first = self.sentence_conditions[number];
            let conditions = &file.conditions[first..first + record[1] as usize];
            let inner = conditions
                .iter()
                .flat_map(|condition| [condition[0], condition[1]]);
            for length in [record[0]].into_iter().chain(inner).chain([record[2]]) {
                let start = passed(&mut terms, length);
                runs.push(start..terms as usize);
            }
        }
        let used_up = terms == file.terms.len() as u64;
        let fit = used_up && runs.into_iter().all(|run| run_fits(file, run));
        if fit { Ok(()) } else { Err(6) }
    }
}

/// The sum so far, to which the next is then added.
fn passed(sum: &mut u64, next: u32) -> usize {
    let before = *sum as usize;
    *sum += u64::from(next);
    before
}

fn run_fits(file: &File, run: Range<usize>) -> bool {
    let mut at = run.start;
    while at < run.end {
        let after = at + 1 + file.terms[at][3] as usize;
        if after > run.end || !run_fits(file, at + 1..after) {
            return false;
        }
        at = after;
    }
    true
}

struct Reader<'a> {
    file: &'a File<'a>,
    places: Places,
}

impl Reader<'_> {
    /// Sentences of blocks stand after the sentence that the block stands in.
    fn blocks(&self) -> Result<(), u32> {
        let mut sentence = 0;
        for (number, record) in self.file.terms.iter().enumerate() {
            while self
                .places
                .sentence_terms
                .get(sentence + 1)
                .is_some_and(|start| *start <= number)
            {
                sentence += 1;
            }
            if record[0] == 8 && record[1] > 0 && self.places.block_sentences[number] <= sentence {
                return Err(7);
            }
        }
        Ok(())
    }

    fn program(&self) -> Program {
        let function = |(number, record): (usize, &[u32; 5])| {
            let first = self.places.function_sentences[number];
            Item::Function(Function {
                name: self.file.name(record[0], record[1]),
                visibility: Visibility::Local,
                sentences: self.sentences(first, record[2]),
                span: span(record[3], record[4]),
            })
        };
        Program {
            items: self
                .file
                .functions
                .iter()
                .enumerate()
                .map(function)
                .collect(),
        }
    }

    fn sentences(&self, first: usize, count: u32) -> Vec<Sentence> {
        (first..first + count as usize)
            .map(|number| self.sentence(number))
            .collect()
    }

    fn sentence(&self, number: usize) -> Sentence {
        let [pattern, conditions, result, start, end] = self.file.sentences[number];
        let mut at = self.places.sentence_terms[number];
        let mut run = |length: u32| {
            at += length as usize;
            self.terms(at - length as usize..at)
        };
        let first = self.places.sentence_conditions[number];
        let pattern = run(pattern);
        let conditions = self.file.conditions[first..first + conditions as usize]
            .iter()
            .map(|&[result, pattern, start, end]| Condition {
                result: run(result),
                pattern: run(pattern),
                span: span(start, end),
            })
            .collect();
        Sentence {
            pattern,
            conditions,
            result: run(result),
            span: span(start, end),
        }
    }

    fn terms(&self, run: Range<usize>) -> Vec<Term> {
        let mut all = Vec::new();
        let mut at = run.start;
        while at < run.end {
            let [.., n, start, end] = self.file.terms[at];
            all.push(Term {
                kind: self.kind(at),
                span: span(start, end),
            });
            at += 1 + n as usize;
        }
        all
    }

    fn kind(&self, at: usize) -> TermKind {
        let [kind, a, b, n, ..] = self.file.terms[at];
        let inside = || self.terms(at + 1..at + 1 + n as usize);
        let name = || self.file.name(a, b);
        let variable = |kind: VariableKind| TermKind::Variable(Variable { kind, name: name() });
        match kind {
            0 => TermKind::Symbol(Symbol::Char(
                char::from_u32(a).expect("the fields were looked at"),
            )),
            1 => TermKind::Symbol(Symbol::Identifier(name())),
            2 => TermKind::Symbol(Symbol::Number(name())),
            3 => variable(VariableKind::Symbol),
            4 => variable(VariableKind::Term),
            5 => variable(VariableKind::Expression),
            6 => TermKind::Bracket(inside()),
            7 => TermKind::Call {
                name: name(),
                args: inside(),
            },
            _ => {
                let sentences = self.sentences(self.places.block_sentences[at], a);
                TermKind::Block {
                    argument: inside(),
                    sentences,
                }
            }
        }
    }
}

fn span(start: u32, end: u32) -> Span {
    Span {
        start: start as usize,
        end: end as usize,
    }
}
