"""Times the results of several sections, each the same evening of 12 tables, 12 rounds and 3 boards a set, and a peer.

Words: the program, and a folder for files.
"""
import bisect
import collections
import csv
import os
import subprocess
import sys
import time

HERE = os.path.dirname(os.path.abspath(__file__))
sys.path.insert(0, os.path.join(HERE, "..", "serve"))
import evening

FORMS = [["results", "--no-analysis"], ["results", "--html", "--no-analysis"], ["export"], ["export", "--rankings"], ["export", "--json"], ["export", "--pbn", "--no-analysis"]]


def most_memory(pid):
    """The most kilobytes that a process has had, or 0 where it has ended."""
    with open(f"/proc/{pid}/status") as file:
        return next((int(line.split()[1]) for line in file if line.startswith("VmHWM:")), 0)


def run(program, words, disks):
    """Seconds, megabytes at the most while it printed, and what was printed."""
    start = time.perf_counter()
    process = subprocess.Popen([program, words[0], *disks, *words[1:]], stdin=subprocess.DEVNULL, stdout=subprocess.PIPE)
    printed, most = bytearray(), 0
    while piece := process.stdout.read1(65_536):
        printed += piece
        most = most_memory(process.pid) or most
    assert process.wait() == 0, words
    return time.perf_counter() - start, most / 1024, bytes(printed)


def compared(printed):
    """The matchpoints of each pair, from the scores in those values, by sorted lists: what the peer does."""
    start = time.perf_counter()
    scores, rows = collections.defaultdict(list), list(csv.DictReader(printed.decode().splitlines()))
    for row in rows:
        scores[row["board"]].append(int(row["score"]))
    for board in scores.values():
        board.sort()
    totals = collections.defaultdict(int)
    for row in rows:
        board, score = scores[row["board"]], int(row["score"])
        points = bisect.bisect_left(board, score) + bisect.bisect_right(board, score) - 1
        totals[row["section"], row["ns"]] += points
        totals[row["section"], row["ew"]] += 2 * (len(board) - 1) - points
    return time.perf_counter() - start, totals, len(rows)


def main():
    program, folder = sys.argv[1:3]
    disk = os.path.join(folder, "club.disk")
    files = evening.write(folder)
    subprocess.run([program, "format", disk, os.path.join(folder, "config.txt")], check=True, stdout=subprocess.DEVNULL)
    for path in files:
        with open(path, encoding="ascii") as file:
            subprocess.run([program, "script", disk], check=True, stdin=file, stdout=subprocess.DEVNULL)
    _, _, printed = run(program, ["export"], [disk] * 40)
    peer, totals, plays = compared(printed)
    print(f"a peer compares {plays} plays in {peer:.2f} s")
    for words in FORMS:
        (seconds, memory, printed), (_, fewer, _) = run(program, words, [disk] * 40), run(program, words, [disk] * 10)
        print(f"{' '.join(words)}: {seconds:.2f} s, {seconds / peer:.1f} times the peer; {memory:.1f} MB, of ten sections {fewer:.1f} MB")
        if words == ["export", "--rankings"]:
            found = {(row["section"], row["pair"]): row["score"] for row in csv.DictReader(printed.decode().splitlines())}
            assert found.keys() == totals.keys() and all(float(found[pair]) == totals[pair] for pair in totals), "other totals"


main()
