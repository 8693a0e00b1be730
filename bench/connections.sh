#!/bin/sh
# Changes over TCP: what one takes over a connection that stays open, over a connection of its own, and with 28 clients at
# once, beside a program that only answers.
#
#     bench/connections.sh [EXCHANGES]     (400 when left out)
#
# An exchange is a change and a SYNC, and its two replies. The peer, bench/connections/echo.py, answers the same bytes and
# does nothing else; beside both stands the time of one write and one sync of a file in the same folder. The goal: an exchange
# takes at most twice the peer's, and the sync. The files lie in the folder BENCH_DIR, or else in a new one beside this
# script; it should be on a real device. The program is proved before it is built; PROGRAM names one that was built before.
set -eu
here=$(cd "$(dirname "$0")" && pwd)
top=$(cd "$here/.." && pwd)
work=$(mktemp -d "$here/connections_bench.XXXXXX")
trap 'rm -rf "$work"' EXIT
. "$top/bench/build.sh"
club_program
PYTHONDONTWRITEBYTECODE=1 python3 "$here/connections/measure.py" "$program" "$top/examples/rows.txt" "${BENCH_DIR:-$work}" "${1:-400}"
