"""The writes and the sync of `dd bs=512 count=64 conv=fdatasync,notrunc`, as often as told, in one process.

Words: the file, and how often. Prints the nanoseconds that it took, and how many of them the interpreter itself took,
outside the calls of the system.
"""
import os
import resource
import sys
import time

path, times = sys.argv[1], int(sys.argv[2])
fd = os.open(path, os.O_RDWR | os.O_CREAT | os.O_TRUNC, 0o666)
for _ in range(256):
    os.write(fd, bytes(4096))
os.fsync(fd)
sector = bytes([0x5A]) * 512
places = range(0, 64 * 512, 512)
pwrite, fdatasync = os.pwrite, os.fdatasync


def user_seconds():
    return resource.getrusage(resource.RUSAGE_SELF).ru_utime


user = user_seconds()
start = time.perf_counter_ns()
for _ in range(times):
    for place in places:
        pwrite(fd, sector, place)
    fdatasync(fd)
took = time.perf_counter_ns() - start
print(took, round((user_seconds() - user) * 1e9))
