#!/bin/sh
# Evenings of 2 to 12 tables, and an event of ten sections of ten tables, played by the program, scored by it and by salliere,
# another scorer (Debian's package salliere, version 0.10): each play's score and gains, and points, percentages and places of
# each pair in each field, by matchpoints and by cross-IMPs.
#
#     checks/salliere.sh [SEED]     (of the deals and plays; 1 when left out)
#
# A line for each evening. The status is 1 where anything differs without a reason. salliere gets its two files from the
# results in Portable Bridge Notation, and scores the contracts itself; a score that is assigned it gets as a plain result.
# - It knows no fields and no pair that sits out: it ranks all pairs in one list, from which each field is taken in its order.
# - It writes points of a board to two decimals, totals and percentages to one, so that is how far percentages are compared;
#   whole points are compared exactly, and so are IMPs: on a board its are the mean over the other scores, ours their sum.
# - Boards with fewer scores than the fullest, and averages, are another rule's there (Neuberg's formula): such evenings are
#   listed with how they differ, and the points of both must be those of their rules, computed from the scores.
#
# PROGRAM names a program that was built before; else it is proved and built.
set -eu
top=$(cd "$(dirname "$0")/.." && pwd)
jar=/usr/share/salliere/salliere-0.10.jar
work=$(mktemp -d)
trap 'rm -rf "$work"' EXIT
[ -f "$jar" ] || {
    echo "there is no $jar: install Debian's package salliere" >&2
    exit 2
}
. "$top/bench/build.sh"
club_program
PYTHONDONTWRITEBYTECODE=1 python3 "$top/checks/salliere/compare.py" "$program" "$jar" "$work" "$top/examples" "${1:-1}"
