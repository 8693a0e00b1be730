#!/bin/sh
# A store on a disk in a file, beside the same calls of that disk alone, by one program.
#
#     bench/store.sh [ROUNDS] [BATCHES]     (20 and 300 when left out)
#
# Taking actions: 64 submitted and confirmed, 300 times, of a counter of 9 parts; every 16th batch fills the journal, and the
# next action makes a checkpoint. Beside it 64 sectors written and a sync, 300 times. The goal is 0.8 of that pace.
# Opening: a disk of 494 parts and 1,024 records. Beside it the same sectors read and written, and synced as often. The goal
# is at most twice its time.
# Prints the middle of the rounds. In each round all four run, every other round in the other order, so that what else the
# machine does falls on all. The files lie in the folder BENCH_DIR, or else in a new one beside this script; it should be
# on a real device. The program is proved before it is built, from nothing where its crates have not been checked; PROGRAM
# names one that was built before.
set -eu
here=$(cd "$(dirname "$0")" && pwd)
top=$(cd "$here/.." && pwd)
rounds=${1:-20}
batches=${2:-300}
work=$(mktemp -d "$here/store_bench.XXXXXX")
trap 'rm -rf "$work"' EXIT

# The program is built in a repository of its own, so that the gate does not prove it. Its counter is that of the tests.
from_tests() { # FILE, TO
    sed 's/store_tests\.proofs\.tests/store_bench.proofs/; s/store_tests/store_bench/' "$top/crates/store_tests/$1" \
        > "$crates/store_bench/$2"
}

. "$top/bench/build.sh"
program=${PROGRAM:-$work/repo/crates/store_bench/out/store_bench}
if [ -z "${PROGRAM:-}" ]; then
    own_repository store_bench "anyhow arrayvec thiserror sector_disk session_store" "sector_disk session_store"
    mkdir -p "$crates/store_bench/specs" "$crates/store_bench/proofs/counter/read_counter"
    cp "$here/store/program.txt" "$crates/store_bench/src/main.rt"
    answers=counter/read_counter/Answers.antt
    from_tests specs/Lib.antt specs/Lib.antt
    from_tests specs/Counter.antt specs/Counter.antt
    from_tests specs/CounterLaws.antt specs/CounterLaws.antt
    from_tests src/tests/counter.rt src/counter.rt
    from_tests "proofs/tests/$answers" "proofs/$answers"
    build "$crates/store_bench" "$work/first.disk" submit 1
fi
files=${BENCH_DIR:-$work}

run() {
    "$program" "$files/store.disk" "$1" "$batches" >> "$work/$1"
}

round=0
while [ "$round" -lt "$rounds" ]; do
    round=$((round + 1))
    if [ $((round % 2)) = 0 ]; then order="submit write open scan"; else order="scan open write submit"; fi
    for what in $order; do run "$what"; done
done
rm -f "$files/store.disk"

middle() {
    sort -g "$work/$1" | sed -n "$(((rounds + 1) / 2))p"
}
awk -v n="$batches" -v ours="$(middle submit)" -v bare="$(middle write)" -v open="$(middle open)" -v scan="$(middle scan)" 'BEGIN {
    printf "64 actions submitted and confirmed     %8.1f us a batch\n", ours / n / 1000
    printf "64 sectors written, and a sync         %8.1f us a batch\n", bare / n / 1000
    printf "pace beside it                         %8.2f\n", bare / ours
    printf "opening a full disk                    %8.1f us\n", open / 1000
    printf "its sectors read and written           %8.1f us\n", scan / 1000
    printf "time beside it                         %8.2f\n", open / scan
}'
