#!/bin/sh
# The twenty numbers of random deals by `DealSolver`, beside those by `CalcDDtable` of libdds (Debian's libdds-dev; one thread).
#
#     bench/deals.sh [DEALS] [SEED]     (10 and 1 when left out)
#
# Prints the means of processor time, the ratios of the means and of the worst deals, and how many of the numbers differ. Each
# deal is one of its own seed, from SEED on, and both programs solve it in turn.
set -eu
here=$(cd "$(dirname "$0")" && pwd)
top=$(cd "$here/.." && pwd)

# The program is built in a repository of its own, so that the gate does not prove it.
work=$(mktemp -d "$here/deals_bench.XXXXXX")
trap 'rm -rf "$work"' EXIT
. "$top/bench/build.sh"
own_repository deals_bench "anyhow bridge_cards bridge_endings" "line_text bridge_cards bridge_endings"
cp "$here/deals/program.txt" "$crates/deals_bench/src/main.rt"
build "$crates/deals_bench" 0 1
g++ -O2 -o "$work/peer" "$here/deals/peer.cpp" -ldds
python3 "$here/deals/compare.py" "$crates/deals_bench/out/deals_bench" "$work/peer" "${1:-10}" "${2:-1}"
