#!/bin/sh
# Random endings of 6, 5, 4 and 3 cards a hand by `solve`, without and with a cache, beside the same endings by
# `SolveBoard` of libdds (Debian's libdds-dev; mode 1, one thread).
#
#     bench/endings.sh [ROUNDS] [ENDINGS]     (20 and 500 when left out)
#
# Prints for each size the means, the ratios of means, medians and 99th percentiles, and how many answers differ. Each
# round has its own endings, which both programs solve in a process each, every other round in the other order.
# The goals are a ratio of means of at most 0.35 and one of 99th percentiles of at most 1.0, at six cards.
set -eu
here=$(cd "$(dirname "$0")" && pwd)
top=$(cd "$here/.." && pwd)

# The program is built in a repository of its own, so that the gate does not prove it.
work=$(mktemp -d "$here/endings_bench.XXXXXX")
trap 'rm -rf "$work"' EXIT
. "$top/bench/build.sh"
own_repository endings_bench "anyhow bridge_cards bridge_endings" "line_text bridge_cards bridge_endings"
cp "$here/endings/program.txt" "$crates/endings_bench/src/main.rt"
build "$crates/endings_bench" 3 1 1 0
g++ -O2 -o "$work/peer" "$here/endings/peer.cpp" -ldds
python3 "$here/endings/compare.py" "$crates/endings_bench/out/endings_bench" "$work/peer" "${1:-20}" "${2:-500}"
