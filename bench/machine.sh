#!/bin/sh
# What one instruction of the machine costs: host instructions of callgrind for 40,000 steps more, in loops of seven instructions and a
# branch back. Needs valgrind, and the program built (`rt run` in crates/sc_tool_machine), or another one given.
here=$(dirname "$(readlink -f "$0")")
program=${1:-$here/../crates/sc_tool_machine/out/sc_tool_machine}
cost() {
    for word in $1; do echo "$word"; done |
        valgrind --tool=callgrind --callgrind-out-file=/dev/null "$program" "$2" 2>&1 >/dev/null | sed -n 's/.*Collected : *//p'
}
each() {
    few=$(cost "$2" 20000)
    many=$(cost "$2" 60000)
    echo "$1: $(((many - few) / 40000))"
}
# addi, add, xor, slli, sub, andi, sltu
each "sums" "1fff8137 06400613 00150513 00a585b3 00b54533 00351693 40b685b3 0ff6f693 00b6b733 fe0112e3"
# lw
each "words loaded" "1fff8137 06400613 00c12823 01012503 01012503 01012503 01012503 01012503 01012503 01012503 fe0112e3"
# sw
each "words stored" "1fff8137 06400613 00c12823 00c12823 00c12823 00c12823 00c12823 00c12823 00c12823 fe0112e3"
# lw, lw, add, sw, addi, slt, sw
each "a mix" "1fff8137 06400613 00c12823 00c12a23 01012503 01412583 00b50533 00a12823 00158593 00a5a6b3 00b12a23 fe0112e3"
# lb
each "bytes loaded" "1fff8137 06400613 00c12823 01010503 01010503 01010503 01010503 01010503 01010503 01010503 fe0112e3"
# sb
each "bytes stored" "1fff8137 06400613 00c12823 00c10823 00c10823 00c10823 00c10823 00c10823 00c10823 00c10823 fe0112e3"
