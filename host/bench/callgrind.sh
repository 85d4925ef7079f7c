#!/usr/bin/env bash
# Instructions of each call of the library, counted by callgrind, on the average over random inputs of the largest size:
# callgrind.sh [NAME [SIZE]], for the calls whose name contains NAME, on inputs of SIZE, one of those that the bench prints.
# Two runs are subtracted: one makes the calls, the other only what they need. Each call's share of the loop is left in:
# `nothing` is that share, `bank` the same with a fresh bank, as it is in the calls that change one.
# The calls of frames have four of these; those named by_runs are the same by tb_run and tb_continue.
set -euo pipefail
cd "$(dirname "$0")/.."

name=${1-}
size=("${@:2:1}")
calls=512
cargo build --release --offline --quiet --package bench
bench=${CARGO_TARGET_DIR:-target}/release/bench

# The instructions of a run that makes call $1 $2 times.
instructions() {
    valgrind --tool=callgrind --callgrind-out-file=/dev/null "$bench" count "$1" "$2" "${size[@]}" 2>&1 |
        awk '/Collected/ { print $NF }'
}

printf '%-24s %17s\n' call instructions/call
for call in $("$bench" count | grep -F -- "$name"); do
    printf '%-24s %17d\n' "$call" $((($(instructions "$call" "$calls") - $(instructions "$call" 0)) / calls))
done
