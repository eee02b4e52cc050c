#!/bin/sh
# Builds the static library, the Rust crate over it and the examples, tests the crate and the header, runs the examples on texts,
# on law files and on numbers and compares what they write. The texts are those of samples/, whose law files are there too, an
# empty one, one outside the grammar and one that is too long. Law files may be named; else they are those of samples/, an empty
# file and one that is too long. Where BILZARKO_LIB_DIR is set the library is not built: the one in that folder is used.
# It needs rt, cargo, gcc and g++, and no network. Its last line is 'N texts, N law files, N numbers: the examples agree'.
set -eu
here=$(cd "$(dirname "$0")" && pwd)
root=$(dirname "$here")
made=$here/target/check
manifest=$here/Cargo.toml

mkdir -p "$made"
if [ -n "${BILZARKO_LIB_DIR:-}" ]; then
    BILZARKO_LIB_DIR=$(cd "$BILZARKO_LIB_DIR" && pwd)
    export BILZARKO_LIB_DIR
    library=$BILZARKO_LIB_DIR/libbilzarko.a
    cd "$root"
else
    unset BILZARKO_LIB_DIR
    library=$root/target/staticlib/libbilzarko.a
    cd "$root"
    if ! tools/staticlib.sh >"$made/staticlib.out" 2>&1; then
        tail -n 20 "$made/staticlib.out"
        exit 1
    fi
    tail -n 1 "$made/staticlib.out"
fi
cargo test --offline --locked --quiet --manifest-path "$manifest"
cargo build --offline --locked --quiet --release --examples --manifest-path "$manifest"

warned='-O2 -Wall -Wextra -pedantic -Werror -I include'
gcc -std=c99 $warned -o "$made/header_c" bindings/tests/header.c "$library"
g++ -std=c++11 $warned -o "$made/header_cpp" -x c++ bindings/tests/header.c -x none "$library"
gcc -std=c99 $warned -o "$made/list" bindings/examples/list.c "$library"
gcc -std=c99 $warned -o "$made/page" bindings/examples/page.c "$library"
gcc -std=c99 $warned -o "$made/read" bindings/examples/read.c "$library"
gcc -std=c99 $warned -o "$made/mark" bindings/examples/mark.c "$library"
"$made/header_c"
"$made/header_cpp"

# Both examples on one file or number, by Rust and by C: same output, and the same exit status, 0 or 1. What is written is shown.
both() { # EXAMPLE FILE_OR_NUMBER [OUT_BY_RUST OUT_BY_C]
    by_rust=0
    by_c=0
    "$here/target/release/examples/$1" "$2" ${3+"$3"} >"$made/by_rust" || by_rust=$?
    "$made/$1" "$2" ${4+"$4"} >"$made/by_c" || by_c=$?
    echo "$2:"
    cat "$made/by_c"
    cmp "$made/by_rust" "$made/by_c"
    if [ "$by_rust" -ne "$by_c" ] || [ "$by_c" -gt 1 ]; then
        echo "$2: exit status $by_rust by Rust, $by_c by C"
        exit 1
    fi
}

: >"$made/empty.ref"
printf 'F { = ; ; }' >"$made/outside.ref"
head -c 4097 /dev/zero | tr '\0' ' ' >"$made/long.ref"
texts=0
for text in samples/*.ref "$made/empty.ref" "$made/outside.ref" "$made/long.ref"; do
    rm -f "$made/law_by_rust" "$made/law_by_c"
    both read "$text" "$made/law_by_rust" "$made/law_by_c"
    if [ "$by_c" -eq 0 ]; then
        cmp "$made/law_by_rust" "$made/law_by_c"
    fi
    case $text in
    samples/*) cmp "${text%.ref}.law" "$made/law_by_c" ;;
    esac
    texts=$((texts + 1))
done

if [ $# -eq 0 ]; then
    : >"$made/empty.law"
    head -c 16385 /dev/zero >"$made/long.law"
    set -- samples/*.law "$made/empty.law" "$made/long.law"
fi
compared=0
for law in "$@"; do
    both list "$law"
    both page "$law"
    compared=$((compared + 1))
done

numbers=0
for number in 4294967295 4294967296 0004294967295 42949672950 42949x67295 007 99999999999999999999 ''; do
    both mark "$number"
    numbers=$((numbers + 1))
done
echo "$texts texts, $compared law files, $numbers numbers: the examples agree"
