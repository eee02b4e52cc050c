"""Makes the law files of the samples, and what the programs read_law, list_law and page_law have to write of one of them.

Run at the repository's root: python3 tests/sample_laws.py
It reads the texts samples/*.ref and writes the law file of each. It writes samples/block.law, a law with a block, which no text
has; crates/read_law/stdin and stdout, which are samples/bearing.ref and samples/bearing.law; and crates/list_law/stdin and
crates/page_law/stdin, which are samples/bearing.law, with their stdout.

python3 tests/sample_laws.py --check writes nothing and says whether the files are as they would be written.

Texts are read by the model in tests/text_model.py, and what is listed is computed by the model in tests/listing_model.py; for
samples/example.ref document 01 gives the lines, and the model has to give them. The page is made as in tests/page_laws.py.
That no finding's text is longer than that of samples/longest_text.law is computed by bindings/tests/longest_text.rs.
"""
import sys
from pathlib import Path

from edge_laws import Reader, encoded, records
from listing_model import Listing
from page_laws import page_of
from text_model import TextReader, file_of

ROOT = Path(__file__).resolve().parent.parent
SAMPLES = ROOT / "samples"

# Document 01, "Small laws".
EXAMPLE_LINES = "2 2 1\n1 1 15 26 2 1 0 1\n2 1 40 45 1 0 1 6\n"

# In the notation of tests/edge_laws.py; spans are its places here.
BLOCK = "Clamp { s.Strain = [<Compare s.Strain 250> : '+' = 250; s.Order = s.Strain; '-' = 0;]; }"


def lines(text):
    return Listing(TextReader(text).functions()).lines()


def page(text):
    functions = TextReader(text).functions()
    return page_of(functions, Listing(functions))


def files():
    """The files that are written, with their bytes."""
    texts = {path.stem: path.read_bytes() for path in sorted(SAMPLES.glob("*.ref"))}
    assert lines(texts["example"]) == EXAMPLE_LINES, lines(texts["example"])
    found = {SAMPLES / f"{name}.law": file_of(text) for name, text in texts.items()}
    found[SAMPLES / "block.law"] = encoded(records(Reader(BLOCK).functions(), spans=True))
    text, law = texts["bearing"], found[SAMPLES / "bearing.law"]
    programs = {"read_law": (text, law), "list_law": (law, lines(text).encode("ascii")), "page_law": (law, page(text).encode("ascii"))}
    for name, (given, expected) in programs.items():
        found[ROOT / "crates" / name / "stdin"], found[ROOT / "crates" / name / "stdout"] = given, expected
    return found


def main():
    if sys.argv[1:] == ["--check"]:
        wrong = [path for path, data in files().items() if not path.exists() or path.read_bytes() != data]
        for path in wrong:
            print(f"{path.relative_to(ROOT)} is not as it would be written")
        sys.exit(1 if wrong else 0)
    for path, data in files().items():
        path.write_bytes(data)
        print(f"{path.relative_to(ROOT)}: {len(data)} bytes")


if __name__ == "__main__":
    main()
