#!/bin/sh
# Writes the table of operators and conversions anew, from what the C compiler here gives.
set -e
here=$(dirname "$0")
program=$(mktemp)
gcc -fwrapv -o "$program" "$here/arith.c"
"$program" > "$here/operators.txt"
rm "$program"
