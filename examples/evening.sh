#!/bin/sh
# An evening of two tables: the lines of two_tables_lines.txt are served over a session that begins by rows.txt, and the replies,
# the rankings of both fields and the results are printed.
#
#     examples/evening.sh
#
# Where .ci/run or rt run has built the program, and it is as new as its source, it plays the evening over a disk in a file;
# PROGRAM names another one. Else crates/play_an_evening does, over a disk in memory: it is compiled first, without any proof.
set -eu
here=$(cd "$(dirname "$0")" && pwd)
crates=$here/../crates
built=$crates/bridge_club/out/bridge_club
if [ -z "${PROGRAM:-}" ] && [ -x "$built" ] && [ -z "$(find "$crates"/*/src -name '*.rt' -newer "$built" | head -n 1)" ]; then
    PROGRAM=$built
fi
work=$(mktemp -d)
trap 'rm -rf "$work"' EXIT
{
    cat "$here/two_tables_lines.txt"
    printf 'RANK 100 1\nRANK 100 2\nPBN 100\n'
} > "$work/lines"

if [ -n "${PROGRAM:-}" ]; then
    "$PROGRAM" format "$work/evening.disk" "$here/rows.txt"
    "$PROGRAM" script "$work/evening.disk" < "$work/lines"
else
    echo "compiling the evening without any proof, which takes half a minute or so, and playing it" >&2
    (cd "$crates/play_an_evening" && rt try --steps 1 < "$work/lines" 2> "$work/errors") || {
        cat "$work/errors" >&2
        exit 1
    }
fi
