#!/bin/sh
# Tries the wrong bodies that the gate leaves out, in the folders `edits`: the prover must refuse each, as those in `must-fail`.
#
#     checks/edits.sh [CRATE ..]     (all crates that have such a folder, when left out)
#
# What is tried is what was committed. Each crate is proved first, and those below it that this machine has not proved yet.
set -eu
top=$(cd "$(dirname "$0")/.." && pwd)
work=$(mktemp -d)
trap 'rm -rf "$work"' EXIT
git clone -q "$top" "$work/repository"
cd "$work/repository"
[ $# -gt 0 ] || set -- $(ls -d crates/*/edits | cut -d / -f 2)
rm -rf crates/*/must-fail
for crate; do
    mv "crates/$crate/edits" "crates/$crate/must-fail"
done
git add -A
git -c user.name=edits -c user.email=edits@localhost commit -q -m "The edits in the place of the others"
RT_JOBS=$(nproc) rt ci "$@"
