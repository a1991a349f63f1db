#!/usr/bin/env bash
# Makes the shared object that the Python package loads, manopluea/libmanopluea.so, from the archive of the proved
# library. Has rt prove and make the archive first, which takes some minutes the first time.
set -eu
cd "$(dirname "$0")/.."
. rust/proved.sh
if ! command -v cc >/dev/null; then
    echo "$0: cc is not there: a C compiler links the shared object" >&2
    exit 2
fi
make_archive
made=python/manopluea/libmanopluea.so
# Linked under another name and moved: a program that has the old one loaded keeps it whole.
cc -shared -Wl,--whole-archive "$archive" -Wl,--no-whole-archive -o "$made.new"
mv "$made.new" "$made"
echo "$made"
