#!/bin/sh
# What compiled modules cost beside interpreted ones: user time of three programs in each form, host instructions of callgrind for one
# instruction more, and for one call more over the bridge. Needs valgrind.
# usage: bench/forms.sh PROGRAM
here=$(dirname "$(readlink -f "$0")")
program=$(readlink -f "$1")
work=$(mktemp -d) || exit 1
trap 'rm -rf "$work"' EXIT
cp "$here"/sort.c "$here"/matrix.c "$here"/list.c "$work"
printf 'int f(int n)\n{\n    return n + 1;\n}\n' > "$work/f.c"
for k in 10000 30000; do
    printf 'int f(int n);\n\nint main(void)\n{\n    int i, s = 0;\n\n    for (i = 0; i < %s; i++)\n        s = f(s);\n    return s == %s;\n}\n' $k $k > "$work/m$k.c"
done
compiled() { for m in "$@"; do printf 'compile %s\nswap %s object\n' "$m" "$m"; done; }
seconds() { ( cd "$work" && /usr/bin/time -f %U "$program" --turns 900000000 < commands 2>&1 >/dev/null | tail -n 1 ); }
instructions() { ( cd "$work" && valgrind --tool=callgrind --callgrind-out-file=/dev/null "$program" --turns "$1" < commands 2>&1 >/dev/null | sed -n 's/.*Collected : *//p' ); }
for name in sort matrix list; do
    printf 'load %s\nrun\n' $name > "$work/commands"
    source=$(seconds)
    { echo "load $name"; compiled $name; echo run; } > "$work/commands"
    object=$(seconds)
    few=$(instructions 20000)
    many=$(instructions 60000)
    echo "$name: $source s interpreted, $object s compiled; $(((many - few) / 40000)) host instructions for one of the machine"
done
each_call() { # the modules that are compiled: host instructions for one call more and its loop
    for k in 10000 30000; do
        { printf 'load f\nload m%s\n' $k; compiled $(echo "$1" | sed "s/m/m$k/"); echo run; } > "$work/commands"
        instructions 900000000
    done | { read -r few; read -r many; echo $(((many - few) / 20000)); }
}
echo "a call in a loop: both interpreted $(each_call ''), the callee compiled $(each_call f), the caller compiled $(each_call m), both $(each_call 'f m')"
