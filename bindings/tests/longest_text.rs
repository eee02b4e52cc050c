//! That no text is longer than [`TEXT_BYTES`], and that one has as many bytes.
//!
//! A text is one of seven kinds (`crates/lints/specs/Message.antt`). Six of them hold names of at most 64 bytes, numbers
//! and fixed pieces. The seventh, of a call that fails by formats, also displays what the function accepts and what the
//! call passes: two formats of at most 64 shapes each (refusal 10) that share no expression, since the lint asks for that.
//! How long two such formats can be is computed by recursion over all of them (`Longest`), and the recursion is compared
//! with an enumeration of all small formats. `samples/longest_text.law` has a text of that length.
use bilzarko::formats::FORMAT_SHAPES;
use bilzarko::{list, text, Mode, Refusal, Settings, STORE_WORDS, TEXT_BYTES};

const STRICT: Settings = Settings::new(Mode::Strict);
const LONGEST: &[u8] = include_bytes!("../../samples/longest_text.law");
const BEARING: &[u8] = include_bytes!("../../samples/bearing.law");
const BLOCK: &[u8] = include_bytes!("../../samples/block.law");

// ---- the seven kinds of texts

fn dead(owner: &str, later: u32, earlier: u32) -> String {
    format!(
        "sentence {later} of `{owner}` is unreachable: sentence {earlier} has no conditions and already matches every \
         argument this one matches"
    )
}

fn in_block(function: &str) -> String {
    format!("a block in `{function}`")
}

fn fails(callee: &str, why: &str) -> String {
    format!("`<{callee} ...>` always fails: {why}")
}

fn by_formats(callee: &str, accepted: &str, passed: &str) -> String {
    let why = format!("`{callee}` accepts {accepted}, but this call passes {passed}");
    fails(callee, &why)
}

fn by_literals(callee: &str) -> String {
    fails(
        callee,
        &format!("no sentence of `{callee}` matches this argument"),
    )
}

const BUILTIN: [&str; 3] = [
    "expected exactly two integer numbers",
    "division by zero",
    "expected a non-empty character string of decimal digits",
];

fn open(owner: &str, count: u32) -> String {
    format!(
        "sentence of `{owner}` has {count} `e.`-variables in its pattern; matching may backtrack proportionally to the \
         argument length to the power {count}"
    )
}

fn texts(law: &[u8]) -> Vec<String> {
    let listing = list(&STRICT, law).unwrap();
    listing.findings.into_iter().map(|one| one.text).collect()
}

/// The wording above is the library's. Of the three builtin failures the samples have one.
#[test]
fn kinds_are_worded_so() {
    let wanted = [
        dead("Limit", 3, 2),
        dead("Stiffness", 2, 1),
        by_formats("Stress", "[([S]) S ..]", "[I N]"),
        by_literals("Layers"),
        fails("Numb", BUILTIN[2]),
        open("Find", 2),
    ];
    assert_eq!(texts(BEARING), wanted);
    assert_eq!(texts(BLOCK), [dead(&in_block("Clamp"), 3, 2)]);
}

// ---- formats

/// The shapes of a format that is not never: its items, and whether it is open.
#[derive(Clone)]
struct Row {
    items: Vec<Item>,
    open: bool,
}

/// A leaf by its letter, or a bracket around a row.
#[derive(Clone)]
enum Item {
    Leaf(char),
    Bracket(Row),
}

/// Character, number, identifier, symbol, unknown.
const LEAVES: [char; 5] = ['C', 'N', 'I', 'S', '?'];

/// A format as the texts have it (`crates/shapes/specs/Display.antt`).
fn display(row: &Row) -> String {
    let items = row.items.iter().map(|item| match item {
        Item::Leaf(letter) => letter.to_string(),
        Item::Bracket(inside) => format!("({})", display(inside)),
    });
    let all: Vec<String> = items.chain(row.open.then(|| "..".to_string())).collect();
    format!("[{}]", all.join(" "))
}

/// No expression is in both (`crates/shapes/specs/Disjoint.antt`).
fn disjoint(f: &Row, g: &Row) -> bool {
    let too_short = |short: &Row, long: &Row| !short.open && short.items.len() < long.items.len();
    let apart = |pair: (&Item, &Item)| match pair {
        (Item::Leaf(a), Item::Leaf(b)) => {
            a != b && ![a, b].iter().any(|leaf| "S?".contains(**leaf))
        }
        (Item::Leaf(a), Item::Bracket(_)) | (Item::Bracket(_), Item::Leaf(a)) => *a != '?',
        (Item::Bracket(c), Item::Bracket(d)) => disjoint(c, d),
    };
    too_short(f, g) || too_short(g, f) || f.items.iter().zip(&g.items).any(apart)
}

/// All rows with so many shapes: a first item, and a row of the shapes that are left.
fn rows(shapes: usize) -> Vec<Row> {
    if shapes == 0 {
        return [false, true]
            .map(|open| Row {
                items: vec![],
                open,
            })
            .into();
    }
    let mut all = Vec::new();
    for inside in 0..shapes {
        let mut firsts: Vec<Item> = rows(inside).into_iter().map(Item::Bracket).collect();
        if inside == 0 {
            firsts.extend(LEAVES.map(Item::Leaf));
        }
        for rest in rows(shapes - 1 - inside) {
            for first in &firsts {
                let mut row = rest.clone();
                row.items.insert(0, first.clone());
                all.push(row);
            }
        }
    }
    all
}

// ---- the recursion

/// The greatest lengths, by numbers of shapes. The length of a row is that of its items and its `..` with a space before each
/// of them; displayed, it stands between `[` and `]` without its first space.
struct Longest {
    /// Of a row.
    one: Vec<usize>,
    /// Of two rows that share no expression, together. There are none where both are empty.
    two: Vec<Vec<Option<usize>>>,
}

/// The bytes of a leaf, of a bracket but for its contents, and of `..`, with the space before.
const LEAF: usize = 2;
const BRACKET: usize = 5;
const DOTS: usize = 3;

impl Longest {
    fn new(most: usize) -> Longest {
        let mut longest = Longest {
            one: Vec::new(),
            two: vec![vec![None; most + 1]; most + 1],
        };
        for n in 0..=most {
            longest.one.push(longest.row(n));
        }
        for n in 0..=most {
            for m in 0..=most {
                longest.two[n][m] = longest.pair(n, m);
            }
        }
        longest
    }

    /// An empty row is longest where it is open. Any other begins with a leaf or a bracket.
    fn row(&self, n: usize) -> usize {
        let Some(left) = n.checked_sub(1) else {
            return DOTS;
        };
        let brackets = (0..=left).map(|k| BRACKET + self.inside(k) + self.one[left - k]);
        brackets.chain([LEAF + self.one[left]]).max().unwrap()
    }

    /// Two rows share nothing where one is closed and has no item left for one of the other, where their first items share
    /// nothing, or where the rows after these do.
    fn pair(&self, n: usize, m: usize) -> Option<usize> {
        if n == 0 || m == 0 {
            // An empty row that is closed has no bytes. An open one shares something with every row.
            return (n != m).then(|| self.one[n + m]);
        }
        let mut lengths = Vec::new();
        for (first, left) in self.firsts(n) {
            for (second, right) in self.firsts(m) {
                let rests = self.one[left] + self.one[right];
                if let (Some(j), Some(k)) = (first, second) {
                    let rests_apart = self.two[left][right]
                        .map(|apart| 2 * BRACKET + self.inside(j) + self.inside(k) + apart);
                    let inside_apart = self
                        .inside_both(j, k)
                        .map(|apart| 2 * BRACKET + apart + rests);
                    lengths.extend(rests_apart.into_iter().chain(inside_apart));
                } else {
                    // There are leaves that share nothing with each other, and such that share nothing with a bracket.
                    let item = |inside: Option<usize>| match inside {
                        Some(k) => BRACKET + self.inside(k),
                        None => LEAF,
                    };
                    lengths.push(item(first) + item(second) + rests);
                }
            }
        }
        lengths.into_iter().max()
    }

    /// The first item of a row of n shapes, which is a leaf or a bracket with so many shapes inside, and the shapes after it.
    fn firsts(&self, n: usize) -> impl Iterator<Item = (Option<usize>, usize)> {
        let brackets = (0..n).map(move |k| (Some(k), n - 1 - k));
        brackets.chain([(None, n - 1)])
    }

    /// A row between brackets.
    fn inside(&self, n: usize) -> usize {
        self.one[n] - 1
    }

    /// Two rows that share no expression, each between brackets. An empty one is closed, and has no space to lose.
    fn inside_both(&self, n: usize, m: usize) -> Option<usize> {
        self.two[n][m].map(|apart| apart - usize::from(n > 0) - usize::from(m > 0))
    }

    /// Two formats that share no expression, displayed.
    fn displayed(&self, n: usize, m: usize) -> Option<usize> {
        self.inside_both(n, m).map(|inside| inside + "[][]".len())
    }
}

// ---- the tests

#[test]
fn recursion_is_right_of_small_formats() {
    const SMALL: usize = 3;
    let longest = Longest::new(SMALL);
    let all: Vec<Vec<(Row, usize)>> = (0..=SMALL)
        .map(|n| {
            let displayed = |row: Row| {
                let length = display(&row).len();
                (row, length)
            };
            rows(n).into_iter().map(displayed).collect()
        })
        .collect();
    for (n, firsts) in all.iter().enumerate() {
        for (m, seconds) in all.iter().enumerate() {
            let pairs = firsts
                .iter()
                .flat_map(|f| seconds.iter().map(move |g| (f, g)));
            let apart = pairs.filter(|(f, g)| disjoint(&f.0, &g.0));
            let greatest = apart.map(|(f, g)| f.1 + g.1).max();
            assert_eq!(longest.displayed(n, m), greatest, "{n} and {m} shapes");
        }
    }
}

#[test]
fn no_text_is_longer() {
    let longest = Longest::new(FORMAT_SHAPES);
    let sizes = 0..=FORMAT_SHAPES;
    let both = sizes
        .clone()
        .flat_map(|n| sizes.clone().map(move |m| (n, m)))
        .filter_map(|(n, m)| longest.displayed(n, m))
        .max()
        .unwrap();
    let name = "N".repeat(64);
    assert_eq!(by_formats(&name, "", "").len() + both, TEXT_BYTES);

    // A function without sentences accepts never, and any format shares nothing with it.
    let passed = "?".repeat("[]".len() + longest.inside(FORMAT_SHAPES));
    assert!(by_formats(&name, "never", &passed).len() < TEXT_BYTES);

    // A finding's numbers are words of 32 bits.
    let most = u32::MAX;
    let others = [
        dead(&in_block(&name), most, most),
        by_literals(&name),
        fails(&name, BUILTIN[0]),
        fails(&name, BUILTIN[1]),
        fails(&name, BUILTIN[2]),
        open(&name, most),
    ];
    assert!(others.iter().all(|text| text.len() < TEXT_BYTES));
}

#[test]
fn a_text_is_as_long() {
    let name = "Compression-stiffness-of-a-bonded-pad-by-hardness-and-shape-at-T";
    let accepted = format!("[([]) {}..]", "([..]) ".repeat(63));
    let passed = format!("[([([..]) ..]) {}..]", "([..]) ".repeat(62));
    let wanted = by_formats(name, &accepted, &passed);
    assert_eq!(wanted.len(), TEXT_BYTES);

    let listing = list(&STRICT, LONGEST).unwrap();
    assert_eq!(listing.findings[0].text, wanted);

    let mut store = vec![0; STORE_WORDS];
    let mut bytes = vec![0; TEXT_BYTES];
    assert_eq!(
        text(&STRICT, LONGEST, &mut store, 0, &mut bytes),
        Ok(TEXT_BYTES)
    );
    assert_eq!(
        text(&STRICT, LONGEST, &mut store, 0, &mut bytes[1..]),
        Err(Refusal::Text)
    );
}
