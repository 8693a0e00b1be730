#!/bin/sh
# Looks by a browser's requests: 28 clients that ask once a second, and 28 without pause, beside a server that only answers. Then how
# soon what one player does is told to the others, by sockets and, where there is Debian's chromium, in pages; 28 that wait; and 28 at the
# end of an evening.
#
#     bench/web.sh [SECONDS]     (10 when left out)
#
# A look is what a player's page asks: his place, and then a line SEE, each a POST over a connection that stays open. The peer,
# bench/web/answers.py, answers the same bytes and does nothing else. PROGRAM names a program that was built before; else it is proved and built.
set -eu
top=$(cd "$(dirname "$0")/.." && pwd)
work=$(mktemp -d)
trap 'rm -rf "$work"' EXIT
. "$top/bench/build.sh"
club_program
PYTHONDONTWRITEBYTECODE=1 python3 "$top/bench/web/measure.py" "$program" "$top/examples/rows.txt" "$work" "${1:-10}"
PYTHONDONTWRITEBYTECODE=1 python3 "$top/bench/web/told.py" "$program" "$top/examples/rows.txt" "$work" "${1:-10}"
PYTHONDONTWRITEBYTECODE=1 python3 "$top/bench/web/closed.py" "$program" "$work"
if command -v chromium > /dev/null; then
    PYTHONDONTWRITEBYTECODE=1 python3 "$top/bench/web/pages.py" "$program" "$top/examples/rows.txt" "$work"
fi
