#!/bin/sh
# The session core over whole evenings of 12 tables, 12 rounds and 3 boards a set, of 432 plays with 56 calls and cards each.
#
#     bench/session.sh [EVENINGS]     (5 of each scoring when left out: 241,920 actions)
#
# Prints the calls and cards in a second and the share of each, the time of a view (`see`, once in each play after its calls)
# and of the ranking of a whole evening, both in steps of the same run, and the bytes that a session takes: the growth of the
# program's memory from 1 session to 201, a 200th of it. The goals: a view at most 10 steps, a ranking at most 500.
set -eu
here=$(cd "$(dirname "$0")" && pwd)
work=$(mktemp -d "$here/session_bench.XXXXXX")
trap 'rm -rf "$work"' EXIT
top=$(cd "$here/.." && pwd)
. "$top/bench/build.sh"
evening_program

"$program" step "${1:-5}" > "$work/step"
awk '{ count[NR] = $1; time[NR] = $2 } END {
    actions = count[1] + count[2]
    spent = time[1] + time[2]
    step = spent / actions
    printf "calls and cards                %10d\n", actions
    printf "a second                       %10.0f\n", actions / spent * 1e9
    printf "a call                         %10.1f ns, %4.1f %% of the time\n", time[1] / count[1], 100 * time[1] / spent
    printf "a card                         %10.1f ns, %4.1f %% of the time\n", time[2] / count[2], 100 * time[2] / spent
    printf "a view                         %10.1f ns, %6.1f steps\n", time[3] / count[3], time[3] / count[3] / step
    printf "a ranking by matchpoints       %10.1f us, %6.1f steps\n", time[4] / count[4] / 1000, time[4] / count[4] / step
    printf "a ranking by IMPs              %10.1f us, %6.1f steps\n", time[5] / count[5] / 1000, time[5] / count[5] / step
}' "$work/step"

python3 - "$program" <<'PROGRAM'
import os
import subprocess
import sys

def memory(sessions):
    running = subprocess.Popen([sys.argv[1], "hold", str(sessions)], stdout=subprocess.PIPE)
    said = running.stdout.read()
    _, _, usage = os.wait4(running.pid, 0)
    return usage.ru_maxrss * 1024, said.decode().split()[3]

one, size = memory(1)
many, _ = memory(201)
print(f"bytes of a session             {(many - one) // 200:10d}, of which {size} are not on the heap")
PROGRAM
