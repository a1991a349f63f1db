#!/usr/bin/env bash
# The tests of the Python package and of the command, with the shared object and the printing program made first, and
# with plans from the comparison's generator: test.sh [PYTHON..]. Each interpreter that is named runs them; without one
# it is python3.
set -eu
cd "$(dirname "$0")/.."
. rust/proved.sh
bash python/build.sh
make_program
made=$PWD/target/python
mkdir -p "$made"
run_comparison inputs 1 3000 "$made/inputs"
run_comparison floor cathedral "$made/cathedral.plan" "$made/cathedral.csv"
export MANOPLUEA_INPUTS=$made/inputs MANOPLUEA_CATHEDRAL=$made/cathedral.plan MANOPLUEA_PRINT=${program@Q}
export PYTHONPATH=..
unset MANOPLUEA_LIBRARY
cd python/tests
for interpreter in "${@:-python3}"; do
    "$interpreter" -W error -m unittest --quiet
done
