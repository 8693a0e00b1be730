#!/bin/sh
# What `export` prints for the worked sessions of examples, read by readers of another make: Python's json and csv, jq, and jsonschema
# where they are installed.
#
#     checks/export.sh
#
# PROGRAM names a program that was built before; else it is proved and built.
set -eu
top=$(cd "$(dirname "$0")/.." && pwd)
work=$(mktemp -d)
trap 'rm -rf "$work"' EXIT
. "$top/bench/build.sh"
club_program
PYTHONDONTWRITEBYTECODE=1 python3 "$top/checks/export/read.py" "$program" "$work" "$top/examples" "$top/docs/export.schema.json"
