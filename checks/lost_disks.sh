#!/bin/sh
# A session on two disks, `web --copy`, of which one goes away in the middle of an evening: a file system that is full, a block device
# that is taken away, and a mount of another host whose cable is pulled. Each line is confirmed all the same, standard error says at
# once which was lost, the command ends with status 3, and the other disk holds all.
#
#     checks/lost_disks.sh
#
# It is run as root, and needs loop devices, network namespaces, and Debian's e2fsprogs, iproute2, sshfs, openssh-server and Python.
# PROGRAM names a program that was built before; else it is proved and built.
set -eu
top=$(cd "$(dirname "$0")/.." && pwd)
work=$(mktemp -d)
trap 'rm -rf "$work"' EXIT
. "$top/bench/build.sh"
club_program
PYTHONDONTWRITEBYTECODE=1 python3 "$top/checks/two_disks/devices.py" "$program" "$top/examples" "$work"
