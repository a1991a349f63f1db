#!/usr/bin/env bash
# The paper program against the proved library and the printing program: compare.sh [SEED COUNT].
# Has rt prove and make what is not there, runs every Rust test, then compares COUNT random cases. Where none are given,
# the seed is 1 and COUNT 200,000.
# Ends with an exit status other than 0 at the first mismatch, which it prints as small as it could be made.
set -eu
cd "$(dirname "$0")/.."
. rust/proved.sh
make_archive
make_program
renew_for_cargo
cargo test --quiet --release --manifest-path rust/Cargo.toml --workspace
run_comparison compare "${1:-1}" "${2:-200000}"
