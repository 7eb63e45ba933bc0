#!/bin/sh
# Reads the cost of `rt ci`: writes the minutes of each crate and the line `whole gate: N processor minutes` into
# docs/PERFORMANCE.md, section "The gate". It runs the gate, or reads runs of it beside (--watch FILE, then --read FILE).
exec python3 "$(dirname "$(readlink -f "$0")")/gate.py" "$@"
