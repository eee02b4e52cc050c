#!/usr/bin/env bash
# Proves a program and every crate below it, as far as that is still to do, and writes it to target/bin: tools/program.sh NAME
set -euo pipefail
cd "$(dirname "$0")/.."
(cd "crates/$1" && rt run </dev/null >/dev/null)
mkdir -p target/bin
cp "crates/$1/out/$1" "target/bin/$1"
