#!/usr/bin/env bash
# Times the auction command beside `cat` and `true` on the same input, in one run, and prints ratios.
# PROGRAM names a program that was built before; else it is proved and built.
set -eu
top=$(cd "$(dirname "$0")/.." && pwd)
runs=${1:-200}
work=$(mktemp -d)
trap 'rm -rf "$work"' EXIT
. "$top/bench/build.sh"
club_program

# 65,536 bytes of calls: an auction that is passed out, then lines that are answered after its end.
yes PASS | head -c 65536 > "$work/passes"
# 65,536 bytes of calls in an auction that stays open: the calls of the longest auction but the last, then insufficient bids.
{
  printf 'PASS\nPASS\nPASS\n'
  for level in 1 2 3 4 5 6 7; do
    for denomination in C D H S NT; do
      printf '%s\nPASS\nPASS\nX\nPASS\nPASS\nXX\nPASS\nPASS\n' "$level$denomination"
    done
  done
} > "$work/open"
{ cat "$work/open"; yes 1C; } | head -c 65536 > "$work/insufficient"
# The longest auction: 319 calls.
{ cat "$work/open"; printf 'PASS\n'; } > "$work/longest"

# Adds the time of one run of a command, in nanoseconds, to the total of that name.
declare -A total
timed() {
  local name=$1 input=$2 start
  shift 2
  start=$(date +%s%N)
  "$@" < "$input" > /dev/null
  total[$name]=$((${total[$name]} + $(date +%s%N) - start))
}

for input in passes insufficient longest; do
  total=([club]=0 [cat]=0 [true]=0)
  # The three take turns, so that each meets the same load of the machine.
  for ((i = 0; i < runs; i++)); do
    timed club "$work/$input" "$program" auction 1
    timed cat "$work/$input" cat
    timed true "$work/$input" /bin/true
  done
  awk -v name="$input" -v b="${total[club]}" -v c="${total[cat]}" -v t="${total[true]}" -v n="$runs" 'BEGIN {
    printf "%-13s bridge_club %.2f ms, cat %.2f ms, true %.2f ms: %.2f times cat, %.2f ms above true\n",
      name, b / n / 1e6, c / n / 1e6, t / n / 1e6, b / c, (b - t) / n / 1e6
  }'
done
