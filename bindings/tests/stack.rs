//! That a thread with [`STACK_BYTES`] of stack lists the law that is known to need most (docs/ARCHITECTURE.md, "Stack"), and
//! writes its page.
mod laws;

use std::thread;

use bilzarko::{list, page, Mode, Settings, PAGE_BYTES, STACK_BYTES, STORE_WORDS};
use laws::section;

/// `()` so many times in the pattern and in the argument.
const EMPTY: usize = 223;

/// `F { (e.A .. e.5 ()..()) e.A = ; } G { = <F (()..())>; }`, the call inside 30 blocks: 32 variables, and 512 terms.
fn deepest() -> Vec<u8> {
    let spelled = b"ABCDEFGHIJKLMNOPQRSTUVWXYZ012345";
    let mut law = (spelled.len() as u32).to_le_bytes().to_vec();
    law.extend(spelled);
    section(&mut law, &[[5, 1, 1, 0, 0], [6, 1, 1, 0, 0]]);

    let pattern = 32 + EMPTY as u32;
    let argument = 1 + EMPTY as u32;
    let mut sentences = vec![[0, 0, 1, 0, 0]; 31];
    sentences.insert(0, [pattern + 2, 0, 0, 0, 0]);
    sentences[31] = [0, 0, argument + 1, 0, 0];
    section(&mut law, &sentences);
    section::<4>(&mut law, &[]);

    let mut terms = vec![[6, 0, 0, pattern, 0, 0]];
    terms.extend((0..32).map(|variable| [5, variable, 1, 0, 0, 0]));
    terms.resize(terms.len() + EMPTY, [6, 0, 0, 0, 0, 0]);
    terms.push([5, 0, 1, 0, 0, 0]);
    terms.resize(terms.len() + 30, [8, 1, 0, 0, 0, 0]);
    terms.push([7, 5, 1, argument, 0, 0]);
    terms.push([6, 0, 0, EMPTY as u32, 0, 0]);
    terms.resize(terms.len() + EMPTY, [6, 0, 0, 0, 0, 0]);
    section(&mut law, &terms);
    law
}

#[test]
fn deepest_law_is_listed() {
    let listing = thread::Builder::new()
        .stack_size(STACK_BYTES)
        .spawn(|| list(&Settings::new(Mode::Strict), &deepest()))
        .unwrap()
        .join()
        .unwrap()
        .unwrap();
    let texts: Vec<&str> = listing
        .findings
        .iter()
        .map(|one| one.text.as_str())
        .collect();
    let open = "sentence of `F` has 33 `e.`-variables in its pattern; matching may backtrack proportionally to the argument \
                length to the power 33";
    assert_eq!(texts, [open]);
}

#[test]
fn page_of_the_deepest_law_is_written() {
    let written = thread::Builder::new()
        .stack_size(STACK_BYTES)
        .spawn(|| {
            let mut bytes = vec![0; PAGE_BYTES];
            let mut store = vec![0; STORE_WORDS];
            let length = page(
                &Settings::new(Mode::Strict),
                &deepest(),
                &mut store,
                &mut bytes,
            )?;
            bytes.truncate(length);
            Ok::<_, bilzarko::Refusal>(bytes)
        })
        .unwrap()
        .join()
        .unwrap()
        .unwrap();
    let wanted = [
        "2                                                                      1\n",
        "F                        open     allow          0          0         33\n",
    ];
    assert_eq!(String::from_utf8(written).unwrap(), wanted.concat());
}
