#!/bin/sh
# An evening of seven tables that the director runs by clicks in a headless Chromium, over `bridge_club web`: deals, rulings, an
# ending, rounds ended by their button, the ranking, the results, and a server that is killed and started again; the players'
# lines are posted with their keys.
#
#     checks/director.sh [FOLDER [ROUNDS]]     (pictures of the page go to FOLDER, '' for none; 7 rounds when left out)
#
# It needs Debian's chromium and Python. PROGRAM names a program that was built before; else it is proved and built.
set -eu
top=$(cd "$(dirname "$0")/.." && pwd)
work=$(mktemp -d)
trap 'rm -rf "$work"' EXIT
. "$top/bench/build.sh"
club_program
[ -z "${1:-}" ] || mkdir -p "$1"
PYTHONDONTWRITEBYTECODE=1 python3 "$top/checks/browser/director.py" "$program" "${1:-}" "${2:-7}"
