# Read by tokens.sh and parse.sh: runs a stage of a program under callgrind on about 64, 128 and 256 KiB of C text, made of copies of a
# C file, and prints what each cost. usage: copies FILE.c PROGRAM STAGE WHAT, where WHAT is a command that reads the program's
# output from its standard input and prints what to say of it.
copies() {
    file=$(readlink -f "$1")
    program=$(readlink -f "$2")
    stage=$3
    what=$4
    work=$(mktemp -d) || exit 1
    trap 'rm -rf "$work"' EXIT
    cp "$(dirname "$file")"/*.h "$work" 2>/dev/null
    size=$(wc -c < "$file")
    cd "$work" || exit 1
    last=0
    for kib in 64 128 256; do
        : > m.c
        for _ in $(seq $((kib * 1024 / size))); do cat "$file" >> m.c; done
        cost=$(valgrind --tool=callgrind --callgrind-out-file=/dev/null "$program" "$stage" m.c 2>&1 >answer | sed -n 's/.*Collected : *//p')
        echo "$(wc -c < m.c) bytes, $($what < answer): $cost instructions, $((cost - last)) more"
        last=$cost
    done
}
