#!/usr/bin/env bash
# The proved library against CGAL's triangular expansion, on the four floors of rust/bench.sh: bench/cgal.sh.
# docs/BENCHMARKS.md says how to read what it prints. Installs nothing; where CGAL is not there it says so and ends with
# 2, as nothing was measured.
set -eu -o pipefail
cd "$(dirname "$0")/.."
made=target/bench
mkdir -p "$made"

# As CGAL's own CMake files have it: its intervals need -frounding-math, and its exact numbers are GMP's C++ classes.
# NDEBUG, which CGAL takes for CGAL_NDEBUG, turns its own checks off, as in every release build: a precondition that is
# broken is not reported then. One warning is off: GCC has it about CGAL's segments, which are copied before a line in
# them is worked out.
compiler=(c++ -std=c++17 -O2 -DNDEBUG -DCGAL_USE_GMPXX=1 -frounding-math -Wall -Wextra -Wno-maybe-uninitialized)
linked=(-lgmpxx -lmpfr -lgmp)

if ! "${compiler[@]}" -O0 -x c++ - -o "$made/probe" "${linked[@]}" >"$made/probe.log" 2>&1 <<'END'
#include <CGAL/Triangular_expansion_visibility_2.h>
int main() {}
END
then
    echo "$0: CGAL is not there, so nothing was measured: Debian has it in the package libcgal-dev" \
        "(what c++ said is in $made/probe.log)" >&2
    exit 2
fi

. rust/proved.sh
floors=()
for floor in cathedral corridor largest splitting; do
    run_comparison floor "$floor" "$made/$floor.plan" "$made/$floor.csv"
    floors+=("$floor" "$made/$floor.plan" "$made/$floor.csv")
done
"${compiler[@]}" -Iinclude bench/cgal.cpp "$archive" "${linked[@]}" -o "$made/cgal"
"$made/cgal" "${floors[@]}"
