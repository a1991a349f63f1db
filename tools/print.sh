#!/usr/bin/env bash
# The printing program: a query and a plan on standard input, the answer on standard output (document 01, "Printing
# program"). Has rt prove and build it first.
set -eu
cd "$(dirname "$0")/.."
. rust/proved.sh
make_program
exec 9<&- # the program may wait for its input as long as it likes, and the lock is for what is made
exec "$program"
