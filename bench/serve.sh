#!/bin/sh
# The lines of a whole evening served by the program's `script` over a disk in a file: 12 tables, 12 rounds and 3 boards a
# set, 24,240 lines.
#
#     bench/serve.sh [ROUNDS]     (10 when left out)
#
# Prints how many lines are served in a second, the share of the time within `fdatasync` (needs strace), and the pace beside
# the same writes and syncs by a program that does nothing else; then the time of SEE, and of RANK of that evening, beside that
# of a SYNC with nothing pending. The goals: a pace of at least 0.7, a SEE at most 10 times a SYNC, a RANK at most 100 times.
# In each round both programs run, every other round in the other order. The files lie in the folder BENCH_DIR, or else in a
# new one beside this script; it should be on a real device. The program is proved before it is built; PROGRAM names one that
# was built before.
set -eu
here=$(cd "$(dirname "$0")" && pwd)
top=$(cd "$here/.." && pwd)
work=$(mktemp -d "$here/serve_bench.XXXXXX")
trap 'rm -rf "$work"' EXIT
. "$top/bench/build.sh"
club_program
PYTHONDONTWRITEBYTECODE=1 python3 "$here/serve/measure.py" "$program" "${BENCH_DIR:-$work}" "${1:-10}"
