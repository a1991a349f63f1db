#!/usr/bin/env bash
# Two archives of the proved library against each other, call by call, in one run: archives.sh BEFORE.a [AFTER.a].
# Where one is given, the other is that of this folder. docs/BENCHMARKS.md says how to read what it prints.
set -eu -o pipefail
cd "$(dirname "$0")/.."
if [ $# -lt 1 ] || [ $# -gt 2 ]; then
    echo "usage: $0 BEFORE.a [AFTER.a]" >&2
    exit 2
fi
. rust/proved.sh
made=target/bench
mkdir -p "$made"
[ $# -eq 2 ] || make_archive
shared() { cc -shared -Wl,--whole-archive "$1" -Wl,--no-whole-archive -o "$2"; }
shared "$1" "$made/before.so"
shared "${2:-$archive}" "$made/after.so"
floors=()
for floor in cathedral corridor largest splitting; do
    run_comparison floor "$floor" "$made/$floor.plan" "$made/$floor.csv"
    floors+=("$floor" "$made/$floor.plan" "$made/$floor.csv")
done
cc -std=c11 -O2 -Wall -Wextra -D_POSIX_C_SOURCE=200809L bench/archives.c -ldl -o "$made/archives"
"$made/archives" "$made/before.so" "$made/after.so" "${floors[@]}"
