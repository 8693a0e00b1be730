#!/bin/sh
# Eight hours of tables compressed into minutes: 28 pages play a whole evening of 12 tables and 432 plays over two disks, each change
# looked at by eight of them, and then only looks come; at least 200,000 lines in all. Memory of `web` grows by no more than the
# session that is played, and then is level, descriptors all the time; no look takes 100 ms; and in the end both disks hold the
# ranking, the results and the games that `script` makes of the same lines.
#
#     checks/long_evening.sh
#
# PROGRAM names a program that was built before; else it is proved and built.
set -eu
top=$(cd "$(dirname "$0")/.." && pwd)
work=$(mktemp -d)
trap 'rm -rf "$work"' EXIT
. "$top/bench/build.sh"
club_program
PYTHONDONTWRITEBYTECODE=1 python3 "$top/checks/long_evening/pages.py" "$program" "$work"
