#!/bin/sh
# Makes release/saber and release/SOURCES from a program that the gate has just built from the sources of this tree.
# usage: release/renew.sh [PROGRAM]      (crates/sc_cli/out/sc_cli if none is named)
here=$(dirname "$(readlink -f "$0")")
program=${1:-$here/../crates/sc_cli/out/sc_cli}
most=4194304
[ -r "$program" ] || { echo "release: there is no $program" >&2; exit 1; }
"$here/strip.sh" "$program" "$here/saber.new" || exit 1
size=$(wc -c < "$here/saber.new")
if [ "$size" -ge "$most" ]; then
    rm -f "$here/saber.new"
    echo "release: the stripped program has $size bytes, and $most are too many" >&2
    exit 1
fi
chmod 755 "$here/saber.new"
mv "$here/saber.new" "$here/saber"
toolchain=$(rt version)
{
    echo "toolchain $toolchain"
    echo "sources $("$here/sum.sh" "$toolchain")"
    echo "program $(sha256sum < "$here/saber" | cut -d ' ' -f 1)"
} > "$here/SOURCES"
echo "release: $size bytes"
cat "$here/SOURCES"
