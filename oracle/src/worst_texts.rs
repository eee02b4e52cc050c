//! Texts that may take a reader long or deep: an ordinary law of 4,096 bytes, and families that grow with a number.

/// Texts with so many of something, at most as many as a text has room for or a file allows.
pub struct Family {
    pub what: &'static str,
    pub most: usize,
    /// The beginning, what is repeated, what stands between, what is then repeated as often, and the end.
    parts: [&'static [u8]; 5],
}

impl Family {
    pub fn text(&self, times: usize) -> Vec<u8> {
        let [beginning, first, between, second, end] = self.parts;
        let mut text = beginning.to_vec();
        text.extend((0..times).flat_map(|number| numbered(first, number)));
        text.extend_from_slice(between);
        text.extend(second.repeat(times));
        text.extend_from_slice(end);
        text
    }
}

/// In what is repeated a `#` stands for the number of the time.
fn numbered(part: &[u8], number: usize) -> Vec<u8> {
    let one = |byte: &u8| match byte {
        b'#' => number.to_string().into_bytes(),
        _ => vec![*byte],
    };
    part.iter().flat_map(one).collect()
}

const TEXT: usize = 4_096;
/// A law as an author may write it.
const FUNCTION: &str = "\
/* The stiffness of pad NN by its class and its load, in kN/mm. */
$ENTRY Stiffness-of-pad-NN {
  (e.Layers) s.Class, <Class-of s.Class> : Rubber s.Modulus
    = <Sum-of-layers (e.Layers) <Mul s.Modulus 100>>;
  (e.Layers 'steel') s.Class /* a plate has no shear */
    = <Stiffness-of-pad-NN (e.Layers) s.Class>;
  (e.Layers) = Unknown (Pad NN) e.Layers;
}

";

/// An ordinary law of 4,096 bytes.
pub fn ordinary() -> String {
    let function = |number: usize| FUNCTION.replace("NN", &number.to_string());
    let fitting = (TEXT - 4) / FUNCTION.len();
    let all: String = (10..10 + fitting).map(function).collect();
    let rest = TEXT - 4 - all.len();
    format!("{all}/*{}*/", "-".repeat(rest))
}

const NAME: &[u8] = b"Compression-stiffness-of-a-bonded-pad-by-hardness-and-shape-at-T ";
const BRACKETS: &[u8] = b"(((((((((((((((((((((((((((((((())))))))))))))))))))))))))))))))";
const CALLS: &[u8] =
    b"<F<F<F<F<F<F<F<F<F<F<F<F<F<F<F<F<F<F<F<F<F<F<F<F<F<F<F<F<F<F<F<F>>>>>>>>>>>>>>>>>>>>>>>>>>>>>>>>";
const PATTERN: &[u8] =
    b"s.0 s.1 s.2 s.3 s.4 s.5 s.6 s.7 s.8 s.9 t.0 t.1 t.2 t.3 t.4 t.5 t.6 t.7 t.8 t.9 \
    e.0 e.1 e.2 e.3 e.4 e.5 e.6 e.7 e.8 e.9 e.a e.b=;";

const fn family(what: &'static str, most: usize, parts: [&'static [u8]; 5]) -> Family {
    Family { what, most, parts }
}

/// The first are read, the others refused.
pub const FAMILIES: [Family; 44] = [
    family("spaces", TEXT, [b"", b" ", b"", b"", b""]),
    family("stars in a comment", 4_092, [b"/*", b"*", b"", b"", b"*/"]),
    family("comments", 1_024, [b"", b"/**/", b"", b"", b""]),
    family("characters in a run", 512, [b"F{='", b"c", b"", b"", b"'}"]),
    family(
        "characters of 4 bytes in a run",
        512,
        [b"F{='", "\u{10000}".as_bytes(), b"", b"", b"'}"],
    ),
    family("runs of a character", 512, [b"F{=", b"'c'", b"", b"", b"}"]),
    family("numbers", 512, [b"F{=", b"7 ", b"", b"", b"}"]),
    family(
        "variables in a result",
        512,
        [b"F{=", b"e.# ", b"", b"", b"}"],
    ),
    family("empty brackets", 512, [b"F{=", b"()", b"", b"", b"}"]),
    family(
        "times 32 brackets in each other",
        16,
        [b"F{=", BRACKETS, b"", b"", b"}"],
    ),
    family(
        "times 32 calls in each other",
        16,
        [b"F{=", CALLS, b"", b"", b"}"],
    ),
    family(
        "identifiers of 64 bytes",
        60,
        [b"F{=", NAME, b"", b"", b"}"],
    ),
    family("functions", 64, [b"", b"F{=<F>1}", b"", b"", b""]),
    family("sentences", 128, [b"F{", b"(e.1)=2;", b"", b"", b"}"]),
    family("empty conditions", 128, [b"F{", b",:", b"", b"", b"=}"]),
    family(
        "conditions of four terms",
        128,
        [b"F{", b",<F e.1>:(e.2)", b"", b"", b"=}"],
    ),
    family(
        "patterns of 32 variables",
        16,
        [b"F{", PATTERN, b"", b"", b"}"],
    ),
    family(
        "externs in a list",
        2_043,
        [b"$EXTERN ", b"F,", b"", b"", b"F;"],
    ),
    family(
        "lists of an extern",
        372,
        [b"", b"$EXTERN F; ", b"", b"", b""],
    ),
    family(
        "bytes of an extern",
        4_087,
        [b"$EXTERN ", b"F", b"", b"", b";"],
    ),
    family(
        "brackets in each other",
        2_046,
        [b"F{=", b"(", b"", b")", b"}"],
    ),
    family(
        "brackets in each other, one left open",
        2_045,
        [b"F{=(", b"(", b"", b")", b"}"],
    ),
    family(
        "calls in each other",
        1_364,
        [b"F{=", b"<F", b"", b">", b"}"],
    ),
    family(
        "brackets side by side",
        2_046,
        [b"F{=", b"()", b"", b"", b"}"],
    ),
    family("left brackets", TEXT, [b"", b"(", b"", b"", b""]),
    family(
        "left brackets in a result",
        4_093,
        [b"F{=", b"(", b"", b"", b""],
    ),
    family("equality signs", TEXT, [b"", b"=", b"", b"", b""]),
    family(
        "characters in a run, too many",
        4_090,
        [b"F{='", b"c", b"", b"", b"'}"],
    ),
    family(
        "characters in a run without an end",
        4_092,
        [b"F{='", b"c", b"", b"", b""],
    ),
    family(
        "stars in a comment without an end",
        4_094,
        [b"/*", b"*", b"", b"", b""],
    ),
    family(
        "beginnings of a comment",
        2_048,
        [b"", b"/*", b"", b"", b""],
    ),
    family(
        "bytes of an identifier",
        4_092,
        [b"F{=", b"N", b"", b"", b"}"],
    ),
    family("digits of a number", 4_092, [b"F{=", b"7", b"", b"", b"}"]),
    family("numbers, too many", 2_046, [b"F{=", b"7 ", b"", b"", b"}"]),
    family(
        "variables in a pattern",
        700,
        [b"F{", b"e.# ", b"", b"", b"=}"],
    ),
    family(
        "variables in a pattern of a file",
        512,
        [b"F{", b"e.# ", b"", b"", b"=}"],
    ),
    family(
        "variables in a pattern of a file that begin alike",
        380,
        [b"F{", b"e.Class# ", b"", b"", b"=}"],
    ),
    family(
        "brackets in each other in a file",
        512,
        [b"F{=", b"(", b"", b")", b"}"],
    ),
    family(
        "calls in each other in a file",
        512,
        [b"F{=", b"<F", b"", b">", b"}"],
    ),
    family("functions, too many", 1_024, [b"", b"F{=}", b"", b"", b""]),
    family("sentences, too many", 2_046, [b"F{", b"=;", b"", b"", b"}"]),
    family(
        "conditions, too many",
        2_046,
        [b"F{", b",:", b"", b"", b"=}"],
    ),
    family("spaces and no UTF-8", 4_095, [b"", b" ", b"", b"", b"\x80"]),
    family(
        "characters past ASCII",
        2_048,
        [b"", "é".as_bytes(), b"", b"", b""],
    ),
];
