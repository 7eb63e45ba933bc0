#!/bin/sh
# Checks the built program as a user meets it: words, exit status, faults of the real streams and files.
# usage: tests/program.sh [PROGRAM]
here=$(dirname "$(readlink -f "$0")")
program=${1:-$here/../saber}
case $program in /*) ;; *) program=$(pwd)/$program ;; esac
work=$(mktemp -d) || exit 1
trap 'rm -rf "$work"' EXIT
cd "$work" || exit 1
printf 'int main(void) { return 7; }\n' > m.c
mkdir d.c
passed=0
failed=0

# expect NAME STATUS OUTPUT: the last run ended with this status and wrote this
expect() {
    if [ "$code" = "$2" ] && [ "$(cat out)" = "$3" ]; then
        passed=$((passed + 1))
    else
        failed=$((failed + 1))
        echo "FAIL $1: status $code, wanted $2"
        diff out - <<TEXT | head -n 5
$3
TEXT
    fi
}

run() {
    "$program" "$@" > out 2> err
    code=$?
}

printf 'load m\nrun\nquit\nrun\n' | { run; echo "$code" > code; }
code=$(cat code)
expect session 0 '> loaded m
> exit 7
> bye'
printf 'load d\nload absent\n\0\nload m\r\n' | { run; echo "$code" > code; }
code=$(cat code)
expect 'a directory, a missing file, a NUL byte and CR LF' 0 '> refused C15 d.c
> refused C8 absent.c
> refused C1
> loaded m'
run --version < /dev/null
expect version 0 'saber 0.1.0'
run --nothing < /dev/null
expect 'bad words' 2 ''
mkdir folder
printf 'int main(void) { for (;;) ; }\n' > folder/loop.c
printf 'load loop\nrun\ncont\n' | { run --turns 1000 --dir folder; echo "$code" > code; }
code=$(cat code)
expect 'a folder and turns' 0 '> loaded loop
> paused after 1000 turns
> paused after 1000 turns'
run --help --version < /dev/null
expect 'two words' 2 ''
printf 'run\n' | { "$program" > /dev/full 2> err; echo $? > code; }
code=$(cat code)
: > out
expect 'a full disk' 4 ''
yes run | head -n 200000 | { "$program" 2> err; echo $? > code; } | head -n 1 > out
code=$(cat code)
expect 'a closed pipe' 4 '> refused C13'
printf 'load m\n' | { run --make 4 --dir nowhere; echo "$code" > code; }
code=$(cat code)
expect 'made modules' 0 '> made 4 modules 6 runs 27 lines 266 bytes'
printf '' | { "$program" --make 1 > /dev/full 2> err; echo $? > code; }
code=$(cat code)
: > out
expect 'made modules and a full disk' 4 ''
for words in '--turns 0' '--turns 1000000001' '--heap=32' '--heap=32 --' '--heap 33' '--heap 00000000032' \
    '--stack -4096' '--stack +4096' '--stack 4080' '--stack 4097' '--stack' '--turns' '--stack 4096 --stack 4096' \
    '--dir' '--dir -' '--dir --trace' '--make' '--make 0' '--make 65' '--make -1' '--make 4 --make 4' \
    '--trace --trace' '--trace 5' '--trace=5' '--trace=' '--trac' '--coverage --' '--count --turns 7 --count' \
    '--stack --count 4096' '-- --stack 4096'; do
    # shellcheck disable=SC2086
    run $words < /dev/null
    expect "bad words: $words" 2 ''
done
for words in '--turns 1000' '--dir folder --heap 0032 --stack 4096' '--heap 67108864 --turns 1000000000 --stack 16777216' \
    '--trace' '--count --coverage --trace' '--coverage --turns 7 --count' '--dir count --count' '--heap 16'; do
    # shellcheck disable=SC2086
    run $words < /dev/null
    expect "good words: $words" 0 ''
done
run --dir '' < /dev/null
expect 'bad words: an empty folder' 2 ''
yes '' | head -n 1000001 | { run; echo "$code" > code; }
code=$(cat code)
expect 'the limit of lines' 5 ''
head -c 1048577 /dev/zero | { run; echo "$code" > code; }
code=$(cat code)
expect 'a long line' 5 ''
run --help < /dev/null
cp out help
grep -c '^Usage: saber' help > out
expect 'help' 0 1
for word in C1 C2 C3 C4 C5 C6 C7 C8 C9 C10 C11 C12 C13 C14 C15 C16 C18 C19 X1 X2 X3 X4 X5 X6 X7 X8 X9 X10 \
    U1 U2 U3 U4 U5 U6 U7 U8 U9 U10 U11 U12 U13 U14 U15 U16 U17 U18; do
    grep "^  $word  " help || echo "no line for $word"
done | grep '^no line' > out
expect 'help has a line for each short word' 0 ''
echo "$passed passed, $failed failed"
[ "$failed" = 0 ]
