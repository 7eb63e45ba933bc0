#!/bin/sh
# What preprocessing, parsing and checking cost: host instructions for units of growing numbers of like parts.
# usage: bench/check.sh [PROGRAM]
# Needs valgrind. The program is the built crates/sc_tool_dump (rt run in its folder builds it).
here=$(dirname "$(readlink -f "$0")")
program=$(readlink -f "${1:-$here/../crates/sc_tool_dump/out/sc_tool_dump}")
work=$(mktemp -d) || exit 1
trap 'rm -rf "$work"' EXIT
cd "$work" || exit 1

# repeat COUNT TEXT: the text so many times, the number from 0 on in the place of each @
repeat() {
    awk -v n="$1" -v text="$2" 'BEGIN { for (k = 0; k < n; k++) { t = text; gsub(/@/, k, t); print t } }'
}

# parts NAME BEFORE TEXT BEHIND COUNT..: what units of so many of these parts cost
parts() {
    name=$1 before=$2 text=$3 behind=$4
    shift 4
    last=0 size=0
    for count in "$@"; do
        { echo "$before"; repeat "$count" "$text"; echo "$behind"; } > m.c
        cost=$(valgrind --tool=callgrind --callgrind-out-file=/dev/null "$program" core m.c 2>&1 >answer | sed -n 's/.*Collected : *//p')
        bytes=$(wc -c < m.c)
        echo "$name $count, $bytes bytes, $(head -c 40 answer | head -n 1): $cost instructions, $(((cost - last) / (bytes - size))) for each byte more"
        last=$cost size=$bytes
    done
}

function='static int f@(int a, const char *s) {
    struct node here, *next = &here;
    int sum = 0, i;
    here.value = a;
    for (i = 0; s[i]; i++) {
        switch (s[i]) {
        case 48: sum += i * a; break;
        case 49: case 50: sum -= next->value >> 2; continue;
        default: if (sum > 100 && i) { int x = sum % 7; sum = x ? x : -x; }
        }
    }
    return sum + (int)sizeof(struct node) + "0123456789"[a & 7];
}'
parts functions 'struct node { int value; struct node *next; };' "$function" '' 200 400 800
parts declarations '' 'int a@;' '' 2500 5000 10000
parts 'functions declared' '' 'int f@(int a, char *s);' '' 2500 5000 10000
parts 'objects of a block' 'void f(void) {' 'int a@;' '}' 2500 5000 10000
parts typedefs '' 'typedef int t@; t@ a@;' '' 1250 2500 5000
parts tags '' 'struct s@ { int m; } a@;' '' 1250 2500 5000
parts members 'struct s {' 'int m@;' '} x;' 2500 5000 10000
parts enumerators 'enum {' 'e@,' '};' 2500 5000 10000
parts literals 'char *a[] = {' '"@",' '};' 2500 5000 10000
parts labels 'void f(int i) { switch (i) {' 'case @: ;' '} }' 255 511 1023
parts items 'char a[] = {' '1,' '};' 16384 32768 65536
parts 'items with braces' 'struct s { int m, n; } a[] = {' '{ @, 1 },' '};' 4096 8192 16384
parts statements 'void f(int i) {' 'i = i + @;' '}' 2500 5000 10000
