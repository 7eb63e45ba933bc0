#!/bin/sh
# What a line of commands costs: host instructions and peak memory for 100,000, 200,000 and 400,000 comment lines.
# Needs valgrind. The program must be built (./saber --build builds it).
here=$(dirname "$(readlink -f "$0")")
program=$here/../crates/sc_cli/out/sc_cli
work=$(mktemp -d) || exit 1
trap 'rm -rf "$work"' EXIT
last=0
for count in 100000 200000 400000; do
    yes '# a line without an answer' | head -n "$count" > "$work/commands"
    cost=$(valgrind --tool=callgrind --callgrind-out-file=/dev/null "$program" < "$work/commands" 2>&1 >/dev/null |
        sed -n 's/.*Collected : *//p')
    peak=$(sh -c 'ulimit -v unlimited; python3 - "$1" "$2"' sh "$program" "$work/commands" <<'PY'
import resource, subprocess, sys
subprocess.run([sys.argv[1]], stdin=open(sys.argv[2]), stdout=subprocess.DEVNULL, check=True)
print(resource.getrusage(resource.RUSAGE_CHILDREN).ru_maxrss)
PY
)
    echo "$count lines: $cost instructions ($((cost - last)) more), peak $peak kB"
    last=$cost
done
