#!/bin/sh
# Measures the players' pages at the sizes of telephones, tablets and laptops, in a headless Chromium: one screen each, letters and
# controls large enough, and texts that stand out.
#
#     checks/looks.sh [FOLDER]     (pictures of the pages go to FOLDER)
#
# It needs Debian's chromium and Python. PROGRAM names a program that was built before; else it is proved and built.
set -eu
top=$(cd "$(dirname "$0")/.." && pwd)
work=$(mktemp -d)
trap 'rm -rf "$work"' EXIT
. "$top/bench/build.sh"
club_program
PYTHONDONTWRITEBYTECODE=1 python3 "$top/checks/browser/looks.py" "$program" "$top/examples" ${1:+"$1"}
