#!/bin/sh
# The par of random tables of tricks by `par`, beside `DealerParBin` of libdds (Debian's libdds-dev).
#
#     checks/par.sh [TABLES] [SEED]     (3000 and 1 when left out)
#
# Prints how many scores differ, how many contracts that libdds names are not among ours, and how many of ours it does not name.
# The status is 1 where a score differs or a contract is missing.
set -eu
here=$(cd "$(dirname "$0")" && pwd)
top=$(cd "$here/.." && pwd)

# The program is built in a repository of its own, so that the gate does not prove it.
work=$(mktemp -d "$here/par_check.XXXXXX")
trap 'rm -rf "$work"' EXIT
. "$top/bench/build.sh"
own_repository par_check "anyhow bridge_cards bridge_par" \
    "line_text bridge_cards bridge_auction bridge_score bridge_par"
cp "$here/par/program.txt" "$crates/par_check/src/main.rt"
build "$crates/par_check" 1 1
g++ -O2 -o "$work/peer" "$here/par/peer.cpp" -ldds
"$crates/par_check/out/par_check" "${1:-3000}" "${2:-1}" > "$work/ours"
"$work/peer" "${1:-3000}" "${2:-1}" > "$work/theirs"
python3 "$here/par/compare.py" "$work/ours" "$work/theirs"
