#!/bin/bash
# Writes a program without its symbols, by the toolchain's own tool, so that the same program gives the same bytes.
# usage: release/strip.sh PROGRAM OUT
kit=$(dirname "$(rt doc)")
(exec -a llvm-strip "$kit/toolchain/bin/clang" --strip-all -o "$2" "$1")
