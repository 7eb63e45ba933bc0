#!/bin/sh
# What sessions cost: host instructions of callgrind for runs that print, for runs beside many stops, and for modules of 1,000 lines.
# usage: bench/sessions.sh PROGRAM
program=$(readlink -f "$1")
work=$(mktemp -d) || exit 1
trap 'rm -rf "$work"' EXIT
cd "$work" || exit 1
cost() {
    valgrind --tool=callgrind --callgrind-out-file=/dev/null "$program" "$@" 2>&1 >/dev/null | sed -n 's/.*Collected : *//p'
}
for lines in 1000 2000 4000 8000; do
    cat > print.c <<TEXT
#include <stdio.h>
int main(void) { int i; for (i = 0; i < $lines; i++) puts("forty bytes are printed by each of these"); return 0; }
TEXT
    echo "$lines lines of 41 bytes printed: $(printf 'load print\nrun\n' | cost)"
done
printf 'void f(void) { }\nint main(void) { int i; for (i = 0; i < 1000; i++) f(); return 0; }\nint g(void) { return 1; }\n' > calls.c
for stops in 0 100 1000 10000; do
    {
        echo load calls
        n=0
        while [ $n -lt $stops ]; do
            echo stop in g
            n=$((n + 1))
        done
    } > commands
    before=$(cost < commands)
    echo run >> commands
    echo "1,000 calls beside $stops stops: $(($(cost < commands) - before))"
done
{
    n=0
    while [ $n -lt 250 ]; do
        printf 'static int f%d(int n)\n{\n    return n + %d;\n}\n' $n $n
        n=$((n + 1))
    done
} > text
: > commands
for modules in 8 16 32 64; do
    : > commands
    n=0
    while [ $n -lt $modules ]; do
        cp text "part$n.c"
        echo "load part$n" >> commands
        n=$((n + 1))
    done
    echo "$modules modules of 1,000 lines: $(cost < commands)"
done
