#!/usr/bin/env bash
# Compiles the examples with the header, and runs them: each prints what the printing program prints for the same plan
# and stands.
set -eu -o pipefail
cd "$(dirname "$0")/.."
. rust/proved.sh
make_archive
made=target/examples
mkdir -p "$made"
strict=(-Wall -Wextra -pedantic -Werror -Iinclude)
for example in client morning; do
    cc -std=c99 "${strict[@]}" -c "examples/$example.c" -o "$made/$example-c99.o"
    c++ -std=c++17 "${strict[@]}" -x c++ -c "examples/$example.c" -o "$made/$example-c++17.o"
done
prints() { # FILE COMMAND..
    expected=$1
    shift
    "$@" | diff - "$expected" || { echo "$0: $* does not print what $expected has" >&2; exit 1; }
}
printed=crates/print/stdout
cp "$printed" "$made/client.out"
# The stand of the stored query, one outside, and that of the stored query as an offset.
{ cat "$printed"; echo refused 10 0; cat "$printed"; } >"$made/morning.out"
for example in client morning; do
    cc "$made/$example-c99.o" "$archive" -o "$made/$example-c99"
    c++ "$made/$example-c++17.o" "$archive" -o "$made/$example-c++17"
    prints "$made/$example.out" "$made/$example-c99"
    prints "$made/$example.out" "$made/$example-c++17"
done
shared=$(bash python/build.sh)
prints "$printed" python3 examples/client.py "$shared"
python3 examples/empty_lists.py "$shared"
echo "examples: C99, C++17 and Python print what the printing program prints; every function takes null for no numbers"
