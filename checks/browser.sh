#!/bin/sh
# An evening played by clicks in nine windows of a headless Chromium, over `bridge_club web`: what each player is shown, a
# server that is killed and started again in the middle of a trick, what other sites may try, and that the ranking and the
# results are, byte for byte, those of `script` over the same lines.
#
#     checks/browser.sh [FOLDER]     (pictures of the pages go to FOLDER, at a telephone's and a table's width)
#
# It needs Debian's chromium and Python. PROGRAM names a program that was built before; else it is proved and built.
set -eu
top=$(cd "$(dirname "$0")/.." && pwd)
work=$(mktemp -d)
trap 'rm -rf "$work"' EXIT
. "$top/bench/build.sh"
club_program
[ -z "${1:-}" ] || mkdir -p "$1"
PYTHONDONTWRITEBYTECODE=1 python3 "$top/checks/browser/evening.py" "$program" ${1:+"$1"}
