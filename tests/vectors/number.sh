#!/bin/sh
# Writes the tables of printf's numbers and of the classes of characters anew, from what the C library here gives.
set -e
here=$(dirname "$0")
program=$(mktemp)
gcc -w -o "$program" "$here/number.c"
"$program" > "$here/numbers.txt"
"$program" classes > "$here/classes.txt"
rm "$program"
