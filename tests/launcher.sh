#!/bin/sh
# Checks the script `saber` in a small tree of its own, with a stand-in for `rt`: the released program is run if it is
# whole, with a line of warning if the sources are others; a proof is begun by --build alone. Ctrl-C ends what was started.
# usage: tests/launcher.sh PROGRAM
here=$(dirname "$(readlink -f "$0")")
program=$(readlink -f "$1")
work=$(mktemp -d) || exit 1
trap 'chmod -R u+w "$work"; rm -rf "$work"' EXIT
cd "$work" || exit 1
passed=0
failed=0

mkdir -p bin docs release crates/sc_cli/src crates/sc_base/src folder
cp "$here/../saber" .
cp "$here"/../release/*.sh "$here/../release/build.py" release
cp "$program" release/saber
echo 'sc_base:' > crates.txt
echo 'sc_cli: sc_base clap' >> crates.txt
echo text > crates/sc_base/src/lib.rt
echo text > crates/sc_cli/src/main.rt
printf '| \140sc_base\140 | 1.5 |\n' > docs/PERFORMANCE.md
echo 'int main(void) { return 7; }' > folder/m.c
# what is built here tells so and ends with 5; each call is noted
cat > bin/rt <<'RT'
#!/bin/sh
echo called >> "$WORK/calls"
[ "$(basename "$(pwd)")" != "$FAILS" ] || exit 1
[ -z "$SLEEPS" ] || { echo $$ > "$SLEEPS"; exec sleep 60; }
[ "$1" != run ] || { printf '#!/bin/sh\necho built here\nexit 5\n' > out/sc_cli; chmod +x out/sc_cli; }
RT
cat > bin/sha256sum <<SUM
#!/bin/sh
echo sum >> "$work/sums"
exec $(command -v sha256sum) "\$@"
SUM
chmod +x bin/rt bin/sha256sum
WORK=$work
XDG_CACHE_HOME=$work/kept
PATH=$work/bin:$PATH
export WORK XDG_CACHE_HOME PATH
{
    echo 'toolchain none'
    echo "sources $(release/sum.sh none)"
    echo "program $(sha256sum < release/saber | cut -d ' ' -f 1)"
} > release/SOURCES
cp -r release whole

# count NAME CONDITION..: notes whether a check holds
count() {
    name=$1
    shift
    if "$@"; then
        passed=$((passed + 1))
    else
        failed=$((failed + 1))
        echo "FAIL $name: status $code"
        cat out err
    fi
}

# is STATUS OUTPUT LINE: how the last session ended, what it wrote, and all that stands on standard error
is() {
    [ "$code" = "$1" ] && [ "$(cat out)" = "$2" ] && [ "$(cat err)" = "$3" ] && ! [ -e calls ]
}

session() {
    rm -f calls sums
    printf 'load m\nrun\n' | (cd folder && ../saber > ../out 2> ../err)
    code=$?
}

# expect NAME STATUS OUTPUT LINE: a session without a proof; the release is whole again behind it
expect() {
    session
    count "$1" is "$2" "$3" "$4"
    rm -rf release
    cp -r whole release
}

answers='> loaded m
> exit 7'
asks="and the program is not built; 'saber --build' proves and builds it"
others="saber: release/saber runs, and the sources here are others; 'saber --build' proves and builds them"
expect 'the released program' 0 "$answers" ''
printf x >> release/saber
expect 'damaged' 1 '' "saber: release/saber is damaged, $asks"
rm release/saber
expect 'missing' 1 '' "saber: release/saber is missing, $asks"
rm release/SOURCES
expect 'no sum' 1 '' "saber: release/SOURCES is missing, $asks"
chmod -x release/saber
expect 'not to be run' 1 '' "saber: release/saber may not be run, $asks"
mkdir crates/sc_base/out crates/sc_base/must-fail
echo more > crates/sc_base/out/file.rt
echo more > crates/sc_base/must-fail/x.rt
echo more > crates/sc_base/src/.lib.rt.swp
echo more > crates/sc_base/src/.lib.rt
echo more > crates/sc_base/src/lib.rt~
echo more > 'crates/sc_base/src/my notes.txt'
ln -s nowhere 'crates/sc_base/src/.#lib.rt'
expect 'what is built, wrong bodies and files of editors do not count' 0 "$answers" ''
rm -r crates/sc_base/out

# what was seen is kept until something changes, whatever its time stamp says
session
session
count 'a second start takes no sums' is 0 "$answers" ''
count 'a second start takes no sums at all' [ ! -e sums ]
touch -r crates/sc_base/src/lib.rt stamp
echo more >> crates/sc_base/src/lib.rt
touch -r stamp crates/sc_base/src/lib.rt
expect 'other sources' 0 "$answers" "$others"
echo text > crates/sc_base/src/lib.rt
echo more > crates/sc_base/src/more.antt
expect 'one file more' 0 "$answers" "$others"
rm crates/sc_base/src/more.antt
expect 'one file less' 0 "$answers" ''
echo 'sc_more:' >> crates.txt
expect 'another list of crates' 0 "$answers" "$others"
chmod -R a-w crates release saber crates.txt
session
count 'a tree that cannot be written' is 0 "$answers" "$others"
chmod -R u+w crates release saber crates.txt
XDG_CACHE_HOME=/dev/null/nowhere
expect 'nothing can be kept' 0 "$answers" "$others"
XDG_CACHE_HOME=$work/kept

# build NAME STATUS: what --build ends with
build() {
    ./saber --build < /dev/null > out 2> err
    code=$?
    count "$1" [ "$code" = "$2" ]
}

FAILS=sc_base
export FAILS
build 'a library that is not proved' 1
session
count 'and the release runs on' is 0 "$answers" "$others"
FAILS=
build 'built' 0
session
count 'what was built is of these sources' is 5 'built here' ''
sleep 1
echo even more >> crates/sc_base/src/lib.rt
session
count 'and then it is not' is 0 "$answers" "$others"
./saber --build more < /dev/null > out 2> err
code=$?
rm -f calls
count 'a word behind --build' is 2 '' 'saber: --build stands alone'

SLEEPS=$work/pid
export SLEEPS
(exec ./saber --build < /dev/null > out 2> err) &
saber=$!
waited=0
while ! [ -s pid ] && [ "$waited" -lt 60 ]; do
    sleep 1
    waited=$((waited + 1))
done
kill -INT "$saber"
wait "$saber"
code=$?
ended() {
    [ "$code" = 130 ] && grep -q '^saber: ended' err && ! kill -0 "$(cat pid)" 2> /dev/null
}
count 'Ctrl-C while a library is built' ended
(cd folder && ../saber help < /dev/null > ../out 2> ../err)
code=$?
bad_words() {
    [ "$code" = 2 ] && [ "$(tail -n 1 err)" = 'saber: bad words' ]
}
count 'bad words' bad_words

# a start of the true tree without sums: ten take below a second of processor time
"$here/../saber" --version > out 2> err
took=$(bash -c 'TIMEFORMAT="%U %S"; time (for i in 1 2 3 4 5 6 7 8 9 10; do "$1" --version > /dev/null 2>&1; done)' - "$here/../saber" 2>&1)
code=$took
fast() {
    echo "$took" | awk '{ exit !($1 + $2 < 1) }'
}
count 'ten starts' fast
echo "$passed passed, $failed failed"
[ "$failed" = 0 ]
