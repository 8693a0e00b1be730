#!/bin/sh
# The results in Portable Bridge Notation of a whole evening of 12 tables, 12 rounds and 3 boards a set, 432 games, written to
# a file, beside `cat` of the same text to another.
#
#     bench/pbn.sh [ROUNDS]     (20 when left out)
#
# Prints the middle of the rounds of both and their ratio; `cat` is timed with its start, the writing without the program's.
# The goal is at most 10 times.
set -eu
here=$(cd "$(dirname "$0")" && pwd)
work=$(mktemp -d "$here/pbn_bench.XXXXXX")
trap 'rm -rf "$work"' EXIT
top=$(cd "$here/.." && pwd)
. "$top/bench/build.sh"
evening_program

rounds=${1:-20}
round=0
while [ "$round" -lt "$rounds" ]; do
    round=$((round + 1))
    "$program" pbn "$work/text.pbn" >> "$work/ours"
    start=$(date +%s%N)
    cat "$work/text.pbn" > "$work/copy.pbn"
    end=$(date +%s%N)
    echo $((end - start)) >> "$work/cat"
done
cmp "$work/text.pbn" "$work/copy.pbn"

middle() {
    sort -g "$work/$1" | sed -n "$(((rounds + 1) / 2))p"
}
awk -v bytes="$(wc -c < "$work/text.pbn")" -v ours="$(middle ours)" -v peer="$(middle cat)" 'BEGIN {
    printf "bytes of text           %10d\n", bytes
    printf "written                 %10.1f us\n", ours / 1000
    printf "cat                     %10.1f us\n", peer / 1000
    printf "times as long           %10.2f\n", ours / peer
}'
