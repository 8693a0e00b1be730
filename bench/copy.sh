#!/bin/sh
# The time of a change, posted to `web` over one disk and over two on the same device, in turn: lines that are each accepted and
# synced. It prints the medians and their ratio.
#
#     bench/copy.sh [CHANGES]     (so many over each; 600 where none are named)
#
# PROGRAM names a program that was built before; else it is proved and built.
set -eu
top=$(cd "$(dirname "$0")/.." && pwd)
work=$(mktemp -d)
trap 'rm -rf "$work"' EXIT
. "$top/bench/build.sh"
club_program
PYTHONDONTWRITEBYTECODE=1 python3 "$top/bench/copy/times.py" "$program" "$top/examples" "$work" "${1:-600}"
