#!/bin/sh
# 64 sector writes and a sync through `FileDisk`, many times in one process, beside the same writes and sync by `dd`:
# as `dd` itself, a process for each batch, and as its twin in Python, one process for all.
#
#     bench/disk.sh [ROUNDS] [BATCHES]     (40 and 300 when left out)
#
# Prints microseconds a batch, each the middle of its rounds, and their ratios. In each round both programs run,
# every other round in the other order, so that what else the machine does falls on both.
# The goal is a ratio of at most 1.2 to the twin without its interpreter, which is the time of the same calls alone.
# The files lie in the folder BENCH_DIR, or else in a new one beside this script; it should be on a real device.
# With TRACE=1 it prints which calls of the system a new disk, one batch and no more make (needs strace).
set -eu
here=$(cd "$(dirname "$0")" && pwd)
top=$(cd "$here/.." && pwd)
rounds=${1:-40}
batches=${2:-300}
few=$(((batches + 9) / 10))

# The program is built in a repository of its own, so that the gate does not prove it.
work=$(mktemp -d "$here/disk_bench.XXXXXX")
trap 'rm -rf "$work"' EXIT
. "$top/bench/build.sh"
own_repository disk_bench "anyhow sector_disk" sector_disk
cp "$here/disk/program.txt" "$crates/disk_bench/src/main.rt"
build "$crates/disk_bench" "$work/first.disk" 1
program=$crates/disk_bench/out/disk_bench
files=${BENCH_DIR:-$work}

if [ "${TRACE:-0}" = 1 ]; then
    strace -e trace=file,desc "$program" "$files/trace.disk" 1 2>&1 > /dev/null |
        sed -n '/trace.disk.*O_CREAT/,$p' | sed 's/"[^"]*"\.\.\./BYTES/' | awk '{
            call = $0
            sub(/\(.*/, "", call)
            if (call == last) { n++; line = $0 } else { show(); first = line = $0; n = 1; last = call }
        }
        function show() { if (n == 1) print first; if (n > 1) printf "%s\n    .. %d in all ..\n%s\n", first, n, line }
        END { show() }'
    rm -f "$files/trace.disk"
    exit 0
fi

run_ours() {
    "$program" "$files/ours.disk" "$batches"
}

dd_batches() {
    n=$1
    start=$(date +%s%N)
    while [ "$n" -gt 0 ]; do
        dd if=/dev/zero of="$files/dd.disk" bs=512 count="$2" conv=fdatasync,notrunc 2> /dev/null
        n=$((n - 1))
    done
    echo $(($(date +%s%N) - start))
}

dd if=/dev/zero of="$files/dd.disk" bs=4096 count=256 conv=fsync 2> /dev/null
: > "$work/figures"
round=0
while [ "$round" -lt "$rounds" ]; do
    round=$((round + 1))
    if [ $((round % 2)) = 0 ]; then ours=$(run_ours); fi
    twin=$(python3 "$here/disk/twin.py" "$files/twin.disk" "$batches")
    if [ $((round % 2)) = 1 ]; then ours=$(run_ours); fi
    dd=$(dd_batches "$few" 64)
    none=$(dd_batches "$few" 0)
    echo "$ours $twin $dd $none" | awk -v n="$batches" -v few="$few" '{
        print $1 / n, $2 / n, ($2 - $3) / n, $4 / few, $5 / few
    }' >> "$work/figures"
done
rm -f "$files/ours.disk" "$files/twin.disk" "$files/dd.disk"

middle() {
    cut -d ' ' -f "$1" "$work/figures" | sort -g | sed -n "$(((rounds + 1) / 2))p"
}
awk -v ours="$(middle 1)" -v twin="$(middle 2)" -v calls="$(middle 3)" -v dd="$(middle 4)" -v none="$(middle 5)" 'BEGIN {
    printf "FileDisk                               %8.1f us a batch\n", ours / 1000
    printf "twin of dd                             %8.1f us a batch\n", twin / 1000
    printf "twin without its interpreter           %8.1f us a batch\n", calls / 1000
    printf "dd, a process for each batch           %8.1f us a batch\n", dd / 1000
    printf "dd that writes nothing, likewise       %8.1f us a batch\n", none / 1000
    printf "ratio to the twin                      %8.2f\n", ours / twin
    printf "ratio to it without its interpreter    %8.2f\n", ours / calls
    printf "ratio to dd                            %8.2f\n", ours / dd
}'
