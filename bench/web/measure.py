"""Times looks at the program's pages and at a peer that only answers, in turn.

Words: the program, a configuration, a folder for files, and how many seconds each part takes.
"""
import os
import subprocess
import sys
import threading
import time

from sockets import PORT, asked, connected, percentiles, processor_time, request

program, config, folder, seconds = sys.argv[1], sys.argv[2], sys.argv[3], float(sys.argv[4])
disk = os.path.join(folder, "web.disk")
peer = os.path.join(os.path.dirname(os.path.abspath(__file__)), "answers.py")
CLIENTS = 28


REQUESTS = [request(b"/place", b"11"), request(b"/lines", b"SEE 11\n")]


def look(connection):
    """The answers to one look: a player's place, and then what he sees."""
    return [asked(connection, request) for request in REQUESTS]


def client(pause, end, took):
    with connected() as connection:
        while time.perf_counter() < end:
            start = time.perf_counter()
            look(connection)
            took.append(time.perf_counter() - start)
            if pause:
                time.sleep(max(0, pause - (time.perf_counter() - start)))


def measured(name, pause, process):
    """Looks of all clients, with the processor time that the server took."""
    took, end = [], time.perf_counter() + seconds
    before = processor_time(process.pid)
    clients = [threading.Thread(target=client, args=(pause, end, took)) for _ in range(CLIENTS)]
    for one in clients:
        one.start()
    for one in clients:
        one.join()
    print(
        f"{name}: {len(took) / seconds:.0f} looks a second, {percentiles(took)}, "
        f"{(processor_time(process.pid) - before) / seconds * 100:.1f} % of a processor"
    )


def rest(name, process):
    before = processor_time(process.pid)
    time.sleep(seconds)
    print(f"{name}: at rest {(processor_time(process.pid) - before) / seconds * 100:.2f} % of a processor")


def run(name, words):
    process = subprocess.Popen(words, stdin=subprocess.DEVNULL, stdout=subprocess.DEVNULL)
    try:
        with connected() as connection:
            first = look(connection)
        rest(name, process)
        measured(f"{name}, once a second", 1, process)
        measured(f"{name}, without pause", 0, process)
        return first
    finally:
        process.kill()
        process.wait()


subprocess.run([program, "format", disk, config], check=True, stdout=subprocess.DEVNULL)
answers = run("bridge_club", [program, "web", disk, str(PORT), "60"])
paths = [os.path.join(folder, name) for name in ("place", "seen")]
for path, answer in zip(paths, answers):
    with open(path, "wb") as file:
        file.write(answer)
run("a server that only answers", [sys.executable, peer, str(PORT), *paths])
