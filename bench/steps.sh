#!/bin/sh
# What one step of memory or of the image costs: host instructions of callgrind for 20,000 steps more, by the number of
# live objects, of functions or of texts. Needs valgrind, and the program built (`rt run` in crates/sc_tool_machine).
here=$(dirname "$(readlink -f "$0")")
program=$here/../crates/sc_tool_machine/out/sc_tool_machine
cost() {
    valgrind --tool=callgrind --callgrind-out-file=/dev/null "$program" "$@" 2>&1 >/dev/null | sed -n 's/.*Collected : *//p'
}
for count in 10 100 1000 10000; do
    line="$count:"
    for what in load store at births value word; do
        few=$(cost $what $count 20000)
        many=$(cost $what $count 40000)
        line="$line $what $(((many - few) / 20000))"
    done
    echo "$line"
done
