#!/bin/sh
# What a turn of a run costs: host instructions of callgrind for each turn more, on three programs, and the time of whole runs
# beside the same program as a compiler makes it, alone and under valgrind, and beside another interpreter where one is given.
# usage: bench/turns.sh PROGRAM [OTHER INTERPRETER..]
here=$(dirname "$(readlink -f "$0")")
program=$(readlink -f "$1")
shift
work=$(mktemp -d) || exit 1
trap 'rm -rf "$work"' EXIT
cost() {
    printf 'load %s\nrun\nquit\n' "$1" | valgrind --tool=callgrind --callgrind-out-file=/dev/null "$program" --dir "$here" --turns "$2" 2>&1 >/dev/null | sed -n 's/.*Collected : *//p'
}
seconds() {
    begin=$(date +%s%N)
    "$@" > /dev/null 2>&1
    end=$(date +%s%N)
    echo $(((end - begin) / 1000000))
}
for name in sort matrix list; do
    few=$(cost $name 20000)
    many=$(cost $name 60000)
    printf 'load %s\nrun\nquit\n' $name > "$work/commands"
    gcc -w -O0 -o "$work/$name" "$here/$name.c"
    ours=$(seconds sh -c "'$program' --dir '$here' < '$work/commands'")
    native=$(seconds "$work/$name")
    checked=$(seconds valgrind -q "$work/$name")
    line="$name: $(((many - few) / 40000)) instructions a turn; milliseconds: $ours, native $native, native under valgrind $checked"
    if [ $# -gt 0 ]; then
        other=$(cd "$here" && seconds sh -c "$* --dir . < '$work/commands'")
        line="$line, the other interpreter $other"
    fi
    echo "$line"
done
