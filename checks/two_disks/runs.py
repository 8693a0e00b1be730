"""Faults, power cuts and kills over a session on two disks.

runs.py PROGRAM EXAMPLES FOLDER FAULTS CUTS KILLS
"""
import collections
import concurrent.futures
import hashlib
import os
import random
import re
import shutil
import sys
import threading
import time

from power import Trace
from web import EXAMPLES, FOLDER, Web, run

FAULTS, CUTS, KILLS = (int(word) for word in sys.argv[4:7])
WORKERS = int(os.environ.get("LANES") or os.cpu_count())
FROM = int(os.environ.get("FROM") or 0)
with open(os.path.join(EXAMPLES, "two_tables_lines.txt")) as file:
    LINES = [line for line in file.read().splitlines() if not line.startswith("SEE")][:24]
QUESTIONS = ["SEE 11", "SEE 12", "SEE 21", "SEE 22", "SEE 31", "SEE 41"]


def answers():
    """What the questions are answered after each number of lines, by one disk alone."""
    disk = os.path.join(FOLDER, "alone")
    assert run("format", disk, os.path.join(EXAMPLES, "rows.txt")).returncode == 0
    found = []
    for count in range(len(LINES) + 1):
        if count:
            assert run("script", disk, text=LINES[count - 1] + "\n").stdout == "OK\n", LINES[count - 1]
        found.append(run("script", disk, text="".join(line + "\n" for line in QUESTIONS)).stdout)
    return found


def fresh(folder, newer=None):
    """Two disks of a new session, of which one may have been opened alone."""
    shutil.rmtree(folder, ignore_errors=True)
    os.makedirs(folder)
    for side in "ab":
        shutil.copyfile(os.path.join(FOLDER, "opened" if side == newer else "formatted"), os.path.join(folder, side))


def begin():
    """The disks with which runs begin: formatted, and opened once."""
    for name in ("formatted", "opened"):
        assert run("format", os.path.join(FOLDER, name), os.path.join(EXAMPLES, "rows.txt")).returncode == 0
    assert run("script", os.path.join(FOLDER, "opened")).returncode == 0


def epoch(path):
    return int((re.findall(r"^epoch (\d+)", run("check", path).stdout, re.M) or ["0"])[0])


def judge(what, folder, port, confirmed, sent):
    """Opens the session again, which holds what was confirmed and no more than was sent. The answer is how it was opened."""
    how = "on both"
    web = Web(folder, port)
    if web.fault is not None:
        assert web.fault.startswith("copy: different plays"), f"{what}: {web.fault}"
        greater = "a" if epoch(os.path.join(folder, "a")) > epoch(os.path.join(folder, "b")) else "b"
        how = "on the greater alone"
        web = Web(folder, port, files=(greater,))
        assert web.fault is None, f"{what}: {greater} alone: {web.fault}"
    told = web.lines(*QUESTIONS)
    web.kill()
    held = [count for count in range(len(ANSWERS)) if ANSWERS[count] == told]
    assert held and max(held) >= confirmed and min(held) <= sent, f"{what}: {confirmed} lines were confirmed, {held} are held"
    return how


def play(web, start=0, many=1):
    """Posts the lines, so many at once, until nothing is told; how many were confirmed, and how many sent."""
    confirmed = sent = start
    while sent < len(LINES):
        lines = LINES[sent:sent + many]
        sent += len(lines)
        if web.lines(*lines) != "OK\n" * len(lines):
            break
        confirmed = sent
    return confirmed, sent


def faulty(number, many, newer, side, call, at, onward, error):
    """A run in which that call of a side fails, and maybe all such calls from it on. What came of it, if there was such a call."""
    folder, port = os.path.join(FOLDER, f"fault{number % WORKERS}"), 21000 + number % 4000
    fresh(folder, newer)
    log = os.path.join(folder, "log")
    trace = ["strace", "-f", "--seccomp-bpf", "-qq", "-o", log, "-P", os.path.join(folder, side), f"--trace={call}",
             f"--inject={call}:error={error}:when={at}{'+' if onward else ''}"]
    web = Web(folder, port, trace=trace)
    if web.fault is not None:
        confirmed = sent = 0
    else:
        confirmed, sent = play(web, many=many)
        web.kill()
    what = f"{many} at once, {newer} newer: {call} {at}{'+' if onward else ''} of {side}, {error}"
    how = judge(what, folder, port, confirmed, sent)
    assert web.fault is not None or confirmed == len(LINES), f"{what}: {confirmed} lines of {len(LINES)} were confirmed"
    with open(log) as file:
        if "(INJECTED)" not in file.read():
            return "no such call"
    return "refused at the start" if web.fault is not None else how


def in_turn(work, arguments):
    """Does these pieces of work in lanes side by side, each in a folder of its own; how often each outcome came."""
    counts = collections.Counter()
    with concurrent.futures.ProcessPoolExecutor(WORKERS) as pool:
        lanes = [arguments[lane::WORKERS] for lane in range(WORKERS)]
        for found in pool.map(lane_of, [work] * WORKERS, lanes):
            counts.update(found)
    return counts


def lane_of(work, arguments):
    found = []
    for one in arguments:
        outcome = work(*one)
        found += outcome if isinstance(outcome, list) else [outcome]
    return found


def faults(turn):
    """Each call of either side in turn, alone or with those after it. From turn to turn other numbers of lines are posted at once, and
    at the start the disks are level or either is the newer one."""
    many, newer = (1, 3, 2, 5)[turn % 4], (None, "a", "b")[turn % 3]
    chosen = []
    for onward in (False, True):
        for call, most, errors in (("pwrite64", 38, ["EIO", "ENOSPC"]), ("fdatasync", 30, ["EIO"]), ("pread64", 24, ["EIO"])):
            chosen += [(side, call, at, onward, error) for side in "ab" for at in range(1, most + 1) for error in errors]
    return [(number, many, newer, *one) for number, one in enumerate(chosen)]


def killed(seed, count):
    """So many runs that `kill -9` ends at any time."""
    pick = random.Random(seed)
    folder, port, outcomes = os.path.join(FOLDER, f"kill{seed % WORKERS}"), 26000 + seed % WORKERS, []
    for number in range(count):
        fresh(folder, pick.choice((None, "a", "b")))
        web = Web(folder, port)
        assert web.fault is None, web.fault
        killer = threading.Timer(pick.random() * LASTS, web.process.kill)
        killer.start()
        confirmed, sent = play(web, many=pick.choice((1, 2, 3, 5)))
        killer.join()
        web.process.wait()
        outcomes.append(judge(f"kill {number} of {seed}", folder, port, confirmed, sent))
    return outcomes


def traced(folder, port, start, many):
    """A run over the files in the folder, from a line on, with so many lines at once: its images before, and its calls."""
    images = {}
    for side in "ab":
        with open(os.path.join(folder, side), "rb") as file:
            images[side] = file.read()
    log = os.path.join(folder, "log")
    web = Web(folder, port, trace=["strace", "-f", "--seccomp-bpf", "-qq", "-xx", "-s", "700", "-o", log, "-e", "trace=openat,pwrite64,fdatasync,write,sendto,send"])
    assert web.fault is None, web.fault
    confirmed, _ = play(web, start, many)
    web.kill()
    assert confirmed == len(LINES)
    with open(log) as file:
        trace = Trace(file.read(), folder)
    assert trace.calls.count("reply") == -(-(confirmed - start) // many), "a reply is missing in the trace"
    return images, trace


def written(folder, images):
    os.makedirs(folder, exist_ok=True)
    for side, image in images.items():
        with open(os.path.join(folder, side), "wb") as file:
            file.write(image)


def cuts_of(seed, count):
    """So many cuts: of a run from the beginning, and of runs over what a cut left."""
    pick = random.Random(seed)
    folder, port = os.path.join(FOLDER, f"cut{seed % WORKERS}"), 25000 + seed % WORKERS
    base, done, outcomes, known = os.path.join(folder, "base"), 0, [], {}
    fresh(base)
    start = 0
    while done < count:
        many = pick.choice((1, 2, 3, 5))
        images, trace = traced(base, port, start, many)
        for _ in range(min(100, count - done)):
            at = pick.randrange(len(trace.calls) + 1)
            disks, replies = trace.cut(at, images, pick)
            confirmed = min(start + replies * many, len(LINES))
            kept = {side: bytes(disks[side]) for side in "ab"}
            done += 1
            # Images that were opened before need not be opened again where no more was confirmed.
            same = hashlib.sha1(kept["a"] + kept["b"]).digest()
            if known.get(same, -1) >= confirmed:
                outcomes.append("with images that were opened before")
                continue
            known[same] = confirmed
            written(os.path.join(folder, "trial"), kept)
            outcomes.append(judge(f"cut {done} of {seed} at call {at}", os.path.join(folder, "trial"), port, confirmed, len(LINES)))
        # The next run begins with what the last cut left, where it may be joined.
        fresh(base, pick.choice((None, "a", "b")))
        start = 0
        if pick.random() < 0.7:
            written(base, kept)
            web = Web(base, port)
            if web.fault is None:
                told = web.lines(*QUESTIONS)
                web.kill()
                start = ANSWERS.index(told)
                written(base, kept)
            else:
                fresh(base)
    return outcomes


def side_by_side(work, count):
    """So many runs, a thousand at a time, a share in each lane."""
    counts = collections.Counter()
    while sum(counts.values()) < count:
        done = sum(counts.values())
        share = -(-min(count - done, 1000) // WORKERS)
        counts += in_turn(work, [(FROM + done + lane, share) for lane in range(WORKERS)])
        print(f"so far: {dict(counts)}", flush=True)
    return counts


def all_faults():
    """At least FAULTS runs with a fault, whole turns of them."""
    counts, turn = collections.Counter(), 0
    while sum(counts.values()) - counts["no such call"] < FAULTS:
        counts += in_turn(faulty, faults(FROM + turn))
        turn += 1
        print(f"turn {turn}: {dict(counts)}", flush=True)
    del counts["no such call"]
    return counts


def lasting():
    """How long a run of the lines takes."""
    folder = os.path.join(FOLDER, "whole")
    fresh(folder)
    web = Web(folder, 26900)
    began = time.time()
    assert play(web) == (len(LINES), len(LINES))
    web.kill()
    return time.time() - began


begin()
ANSWERS = answers()
LASTS = lasting()
parts = [("faults", FAULTS, all_faults), ("cuts", CUTS, lambda: side_by_side(cuts_of, CUTS)), ("kills", KILLS, lambda: side_by_side(killed, KILLS))]
for kind, count, work in parts:
    began = time.time()
    if count:
        counts = work()
        print(f"{sum(counts.values())} {kind}: {dict(counts)}; in {time.time() - began:.0f} seconds", flush=True)
