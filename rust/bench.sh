#!/usr/bin/env bash
# The speed of the proved library, of the second program and of plain Rust, all in one program:
# bench.sh [finding | drawing]. With a word, of that alone. docs/BENCHMARKS.md says how to read what it prints.
set -eu
cd "$(dirname "$0")/.."
. rust/proved.sh
run_comparison bench "$@"
