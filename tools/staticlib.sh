#!/usr/bin/env bash
# Proves the library, as far as that is still to do, and writes the static library for C and Rust programs: target/staticlib/libbilzarko.a,
# for x86-64 Linux. Its exports are those of the crate bilzarko_c.
set -euo pipefail
cd "$(dirname "$0")/.."
(cd crates/bilzarko_c && rt lib)
mkdir -p target/staticlib
cp crates/bilzarko_c/out/libbilzarko_c.a target/staticlib/libbilzarko.a
echo "target/staticlib/libbilzarko.a has $(wc -c <target/staticlib/libbilzarko.a) bytes"
