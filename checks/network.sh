#!/bin/sh
# Tables over bad networks: four pages while each packet takes 400 milliseconds and one of twenty is lost, and a device that
# vanishes without a word. Server and devices stand in network namespaces of their own, joined by a link that a script makes.
#
#     checks/network.sh
#
# It needs root, Debian's iproute2 and chromium, and Python. PROGRAM names a program that was built before; else it is proved and built.
set -eu
top=$(cd "$(dirname "$0")/.." && pwd)
work=$(mktemp -d)
finish() {
    [ -z "${link:-}" ] || kill "$link" 2> /dev/null || true
    ip netns del bridge_server 2> /dev/null || true
    ip netns del bridge_devices 2> /dev/null || true
    rm -rf "$work"
}
trap finish EXIT
. "$top/bench/build.sh"
club_program
ip netns add bridge_server
ip netns add bridge_devices
mkfifo "$work/orders" "$work/answers"
python3 "$top/checks/network/link.py" bridge_server 10.94.0.1/24 bridge_devices 10.94.0.2/24 < "$work/orders" > "$work/answers" &
link=$!
( # The second address once the link stands.
    while ! ip -n bridge_devices addr add 10.94.0.3/24 dev far 2> /dev/null; do sleep 0.1; done
) &
PYTHONDONTWRITEBYTECODE=1 ip netns exec bridge_devices python3 "$top/checks/network/devices.py" "$program" "$work"
