#!/usr/bin/env bash
# How long a newcomer takes from a list of names to the first board dealt: makes an evening by one command, opens the page that it
# names, finds the director's key on the slips, and deals board 1 as the page does. The time of the machine is printed by steps; a
# person adds that for writing the names and reading the line.
#
#     checks/newcomer.sh PROGRAM [PORT]
set -euo pipefail
program=$(realpath "$1")
port=${2:-27391}
work=$(mktemp -d)
served=
trap '[ -z "$served" ] || kill "$served" 2> /dev/null || true; rm -rf "$work"' EXIT
cd "$work"

fail() {
    echo "newcomer: $*" >&2
    exit 1
}
begun=$(date +%s%N)
step() { # WORDS: how long it took until then
    printf '%7d ms  %s\n' $((($(date +%s%N) - begun) / 1000000)) "$1"
}
posted() { # PATH, BODY
    curl -sS --max-time 10 -H 'Content-Type: application/x-table-lines' --data-binary "$2" "http://127.0.0.1:$port$1"
}

printf '%s & %s\n' 'José García' 'Anna Berger' 'Zoë' '李小龍' 'Mohammed Ali' 'Łukasz Żak' 'Άννα Παππά' "O'Brien" > names.txt
step 'a list of four pairs is written'
"$program" evening names.txt club.disk "$port" 5 > output 2> errors < /dev/null &
served=$!
for _ in $(seq 300); do
    grep -q '^listening at ' output && break
    kill -0 "$served" 2> /dev/null || fail "$(cat errors)"
    sleep 0.02
done
grep -qx "listening at http://127.0.0.1:$port" output || fail "it does not listen: $(cat output errors)"
step 'the evening is made, and its pages are shown'
curl -sS --max-time 10 -o page.html "http://127.0.0.1:$port/"
grep -q '<script src="/table.js"' page.html || fail 'the page is not there'
step 'the page is open'
key=$(grep -o 'Key [0-9 ]*' club.disk.slips.html | head -n 1 | tr -dc 0-9)
[ "$(posted /place "$key" | head -n 1)" = 'ERR 2 NotAllowed' ] || fail 'the first slip is not the director'"'"'s'
posted /names "$key" | grep -q $'\tŁukasz Żak$' || fail 'the names are not shown as they were written'
step 'the director has sat down with the key of his slip'
seed=$(od -An -tx1 -N32 /dev/urandom | tr -d ' \n')
[ "$(posted /lines "SHUFFLE $key 1 $seed
")" = OK ] || fail 'board 1 is not dealt'
posted /tables "$key" | grep -q '^TABLE 1 .* 1 AUCTION N 0 0$' || fail 'nobody calls on board 1'
step 'board 1 is dealt'
