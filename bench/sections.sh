#!/bin/sh
# The results of 40 sections of 12 tables and 36 boards, 960 pairs and 17,280 plays, in each form, beside a peer in Python that only
# compares the same scores; and what memory they take, beside that of ten sections.
#
#     bench/sections.sh
#
# PROGRAM names a program that was built before; else it is proved and built.
set -eu
top=$(cd "$(dirname "$0")/.." && pwd)
work=$(mktemp -d)
trap 'rm -rf "$work"' EXIT
. "$top/bench/build.sh"
club_program
PYTHONDONTWRITEBYTECODE=1 python3 "$top/bench/sections/times.py" "$program" "$work"
