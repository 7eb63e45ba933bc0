#!/bin/sh
# What preprocessing costs: host instructions for about 64, 128 and 256 KiB of C text, made of copies of a C file.
# usage: bench/tokens.sh FILE.c [PROGRAM]
# Needs valgrind. The program is the built crates/sc_tool_dump (rt run in its folder builds it).
here=$(dirname "$(readlink -f "$0")")
. "$here/copies.sh"
tokens() { echo "$(wc -l) tokens"; }
copies "$1" "${2:-$here/../crates/sc_tool_dump/out/sc_tool_dump}" tokens tokens
