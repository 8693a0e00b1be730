"""Times the program's `script` over a whole evening, and the calls of the system that its disk makes alone.

Words: the program, a folder for files, and how many rounds. Prints the middle of the rounds.
"""
import os
import re
import statistics
import subprocess
import sys
import time

import evening

program, folder, rounds = sys.argv[1], sys.argv[2], int(sys.argv[3])
disk = os.path.join(folder, "serve.disk")
twin = os.path.join(folder, "twin.disk")
pieces = evening.write(folder)
count = sum(1 for _ in evening.lines())


def run(*words, given=None):
    """Runs the program, and gives the nanoseconds that it took and what it wrote."""
    with open(given or os.devnull, "rb") as input_:
        start = time.perf_counter_ns()
        done = subprocess.run([program, *words], stdin=input_, stdout=subprocess.PIPE, check=True)
        return time.perf_counter_ns() - start, done.stdout


def make_disk(path=disk):
    if os.path.exists(path):
        os.remove(path)
    run("format", path, os.path.join(folder, "config.txt"))


def play(path=disk, some=pieces):
    """The nanoseconds of the lines of an evening, with the openings of the disk that come before each piece of them."""
    took = 0
    for piece in some:
        nanoseconds, replies = run("script", path, given=piece)
        if replies.count(b"OK\n") * 3 != len(replies):
            sys.exit("a line was not accepted")
        took += nanoseconds
    return took


def traced():
    """Which calls of the disk an evening makes, and the nanoseconds within its syncs."""
    calls, synced = [], 0.0
    for piece in pieces:
        with open(piece, "rb") as input_:
            trace = subprocess.run(["strace", "-T", "-e", "trace=pwrite64,fdatasync", program, "script", disk], stdin=input_,
                                   stdout=subprocess.DEVNULL, stderr=subprocess.PIPE, check=True, text=True).stderr
        for line in trace.splitlines():
            write = re.match(r"pwrite64\(.*, 512, (\d+)\)\s+= 512", line)
            sync = re.match(r"fdatasync\(.*<([0-9.]+)>$", line)
            if write:
                calls.append(int(write.group(1)))
            elif sync:
                calls.append(None)
                synced += float(sync.group(1))
    return calls, synced


def replay(calls):
    """The nanoseconds of the same writes and syncs by a program that does nothing else."""
    sector = bytes([0x5A]) * 512
    fd = os.open(twin, os.O_RDWR | os.O_CREAT, 0o666)
    os.pwrite(fd, bytes(1 << 20), 0)
    os.fsync(fd)
    pwrite, fdatasync = os.pwrite, os.fdatasync
    start = time.perf_counter_ns()
    for at in calls:
        if at is None:
            fdatasync(fd)
        else:
            pwrite(fd, sector, at)
    took = time.perf_counter_ns() - start
    os.close(fd)
    return took


def each(line, times, on=disk):
    """The nanoseconds of one such line, many of which are served at once."""
    path = os.path.join(folder, "question.txt")
    with open(path, "w") as file:
        file.write(f"{line}\n" * times)
    took, replies = run("script", on, given=path)
    if not replies.startswith(b"OK\n"):
        sys.exit(f"no answer to {line}")
    empty, _ = run("script", on)
    return (took - empty) / times


make_disk()
calls, synced = traced()
evenings, twins = [], []
for number in range(rounds):
    make_disk()
    if number % 2:
        twins.append(replay(calls))
        evenings.append(play())
    else:
        evenings.append(play())
        twins.append(replay(calls))
took, alone = statistics.median(evenings), statistics.median(twins)
start = statistics.median(run("script", disk)[0] for _ in range(rounds))
print(f"lines of an evening            {count:10d}, in {len(pieces)} runs")
print(f"lines in a second              {count / took * 1e9:10.0f}")
print(f"writes and syncs               {len(calls):10d}, of which {calls.count(None)} are syncs")
print(f"share of the time in fdatasync {100 * synced * 1e9 / took:10.1f} %, by a traced run")
print(f"pace                           {alone / took:10.2f} of that of the same writes and syncs alone")
sync = statistics.median(each("SYNC", 10000) for _ in range(rounds))
# In the third round, where a board is in play at the first table: a closed session has no view.
playing = os.path.join(folder, "playing.disk")
make_disk(playing)
play(playing, pieces[:1])
see = statistics.median(each("SEE 2", 5000, playing) for _ in range(rounds))
rank = statistics.median(each("RANK 1000 1", 1000) for _ in range(rounds))
print(f"a SYNC with nothing pending    {sync / 1000:10.2f} us")
print(f"a SEE                          {see / 1000:10.2f} us, {see / sync:6.1f} times a SYNC")
print(f"a RANK                         {rank / 1000:10.2f} us, {rank / sync:6.1f} times a SYNC")
print(f"a run with no line             {start / 1000:10.0f} us")
