#!/bin/sh
# Prints the sum of the sources that the program is built from: the toolchain's line, crates.txt, and what `rt` reads in
# the folders of sc_cli and of all crates below it: *.rt and *.antt, without what is built and without wrong bodies.
# Other files there, as an editor's swap files and backups, change nothing.
# usage: release/sum.sh 'LINE OF rt version'
LC_ALL=C
export LC_ALL
cd "$(dirname "$(readlink -f "$0")")/.." || exit 1
folders=$(awk -F: '
    { sub(/#.*/, "") }
    NF > 1 { split($1, first, " "); below[first[1]] = $2 }
    END {
        todo[1] = "sc_cli"; known["sc_cli"] = 1; last = 1
        for (at = 1; at <= last; at++) {
            print "crates/" todo[at]
            count = split(below[todo[at]], names, " ")
            for (i = 1; i <= count; i++)
                if (names[i] in below && !(names[i] in known)) {
                    known[names[i]] = 1
                    todo[++last] = names[i]
                }
        }
    }' crates.txt)
# (the names of crates have no blanks)
# shellcheck disable=SC2086
{
    printf '%s\n' "$1"
    sha256sum crates.txt
    find $folders \( -name out -o -name must-fail -o -name '.*' \) -prune -o -type f \( -name '*.rt' -o -name '*.antt' \) -print0 |
        sort -z | xargs -0 sha256sum
} | sha256sum | cut -d ' ' -f 1
