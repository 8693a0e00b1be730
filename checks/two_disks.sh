#!/bin/sh
# A session on two disks, `web --copy`, over faults, power cuts and kills: each device call of either file fails in turn, the power
# goes at any call of a run, with any of the writes that were not synced there or not, and `kill -9` ends a run at any time. After each
# the session is opened on both files, or where their plays differ on that of the greater epoch alone: no action that a reply had
# confirmed is lost.
#
#     checks/two_disks.sh [FAULTS] [CUTS] [KILLS]     (so many at least; 2,000, 10,000 and 500 where none are named)
#
# It needs Debian's strace and Python. PROGRAM names a program that was built before; else it is proved and built. LANES says how many
# runs go side by side, else as many as there are processors; FROM is added to the seeds, so that other runs are made than before.
set -eu
top=$(cd "$(dirname "$0")/.." && pwd)
work=$(mktemp -d)
trap 'rm -rf "$work"' EXIT
. "$top/bench/build.sh"
club_program
PYTHONDONTWRITEBYTECODE=1 python3 "$top/checks/two_disks/runs.py" "$program" "$top/examples" "$work" "${1:-2000}" "${2:-10000}" "${3:-500}"
