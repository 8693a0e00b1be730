#!/bin/sh
# Takes the pictures of README anew, docs/table.png and docs/results.png, by a headless Chromium. PROGRAM names a program that
# was built before; else it is proved and built.
set -eu
top=$(cd "$(dirname "$0")/.." && pwd)
work=$(mktemp -d)
trap 'rm -rf "$work"' EXIT
. "$top/bench/build.sh"
club_program
PYTHONDONTWRITEBYTECODE=1 python3 "$top/checks/browser/readme.py" "$program" "$top/examples" "$top/docs"
