//! A law with one part less: a function, a sentence, a condition or a term, with all that is inside it.
use refal_ast::{Condition, Item, Program, Sentence, Term, TermKind};

/// The law without its part of this number, where it has so many.
pub fn without(program: &Program, part: usize) -> Option<Program> {
    let mut reduced = program.clone();
    let mut cut = Cut {
        left: part,
        done: false,
    };
    cut.parts(&mut reduced.items, Cut::item);
    cut.done.then_some(reduced)
}

struct Cut {
    /// The parts before the one that is taken away.
    left: usize,
    done: bool,
}

impl Cut {
    fn parts<T>(&mut self, all: &mut Vec<T>, inner: impl Fn(&mut Cut, &mut T)) {
        let mut place = 0;
        while place < all.len() && !self.done {
            if self.left == 0 {
                all.remove(place);
                self.done = true;
                return;
            }
            self.left -= 1;
            inner(self, &mut all[place]);
            place += 1;
        }
    }

    fn item(&mut self, item: &mut Item) {
        if let Item::Function(function) = item {
            self.parts(&mut function.sentences, Cut::sentence);
        }
    }

    fn sentence(&mut self, sentence: &mut Sentence) {
        self.parts(&mut sentence.pattern, Cut::term);
        self.parts(&mut sentence.conditions, Cut::condition);
        self.parts(&mut sentence.result, Cut::term);
    }

    fn condition(&mut self, condition: &mut Condition) {
        self.parts(&mut condition.result, Cut::term);
        self.parts(&mut condition.pattern, Cut::term);
    }

    fn term(&mut self, term: &mut Term) {
        match &mut term.kind {
            TermKind::Symbol(_) | TermKind::Variable(_) => {}
            TermKind::Bracket(inside) | TermKind::Call { args: inside, .. } => {
                self.parts(inside, Cut::term);
            }
            TermKind::Block {
                argument,
                sentences,
            } => {
                self.parts(argument, Cut::term);
                self.parts(sentences, Cut::sentence);
            }
        }
    }
}
