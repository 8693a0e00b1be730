"""A link between two network namespaces that delays, loses and swallows packets.

    link.py NAMESPACE ADDRESS NAMESPACE ADDRESS     (each address as 10.94.0.1/24)

Each line of standard input changes it from then on: `DELAY MILLISECONDS`, each way; `LOSS PERCENT`; `GONE ADDRESS`, of which no
packet passes any more; `BACK`, and all pass again. Each is answered `OK`."""
import fcntl
import heapq
import os
import random
import select
import struct
import subprocess
import sys
import time

SET_NAME = 0x400454CA
TUN, NO_HEADER = 0x0001, 0x1000


def end_in(namespace, name, address):
    """One end of the link: a device of the system in a namespace, and what is sent there."""
    device = os.open("/dev/net/tun", os.O_RDWR)
    fcntl.ioctl(device, SET_NAME, struct.pack("16sH", name.encode(), TUN | NO_HEADER))
    for words in [["link", "set", name, "netns", namespace], ["-n", namespace, "addr", "add", address, "dev", name],
                  ["-n", namespace, "link", "set", name, "up"], ["-n", namespace, "link", "set", "lo", "up"]]:
        subprocess.run(["ip", *words], check=True)
    return device


def main():
    ends = [end_in(sys.argv[1], "near", sys.argv[2]), end_in(sys.argv[3], "far", sys.argv[4])]
    delay, loss, gone = 0.0, 0.0, set()
    chance = random.Random(1)
    waiting, number = [], 0
    print("OK", flush=True)
    while True:
        now = time.monotonic()
        while waiting and waiting[0][0] <= now:
            _, _, end, packet = heapq.heappop(waiting)
            os.write(end, packet)
        patience = max(0.0, waiting[0][0] - time.monotonic()) if waiting else None
        for ready in select.select([*ends, sys.stdin], [], [], patience)[0]:
            if ready is sys.stdin:
                words = sys.stdin.readline().split()
                if not words:
                    return
                if words[0] == "DELAY":
                    delay = float(words[1]) / 1000
                elif words[0] == "LOSS":
                    loss = float(words[1]) / 100
                elif words[0] == "GONE":
                    gone.add(bytes(map(int, words[1].split("."))))
                else:
                    gone.clear()
                print("OK", flush=True)
                continue
            packet = os.read(ready, 65536)
            # The addresses of an IPv4 packet; what is none is of no use here.
            if packet[0] >> 4 == 4 and not {packet[12:16], packet[16:20]} & gone and chance.random() >= loss:
                other = ends[1] if ready == ends[0] else ends[0]
                number += 1
                heapq.heappush(waiting, (time.monotonic() + delay, number, other, packet))


if __name__ == "__main__":
    main()
