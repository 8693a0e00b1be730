"""Times how soon 28 pages have the ranking and their own score card when all ask at once, at the end of a whole evening of 12 tables,
12 rounds and 3 boards a set; and how long another page's look takes meanwhile.

Words: the program, and a folder for files.
"""
import os
import subprocess
import sys
import threading
import time

sys.path.insert(0, os.path.join(os.path.dirname(os.path.abspath(__file__)), "..", "serve"))
import evening
from sockets import PORT, asked, connected, percentiles, request
from told import body_of

PAGES = 28


def page(key, start, took):
    """What a page asks once the session is closed."""
    connection = connected()
    start.wait()
    begun = time.perf_counter()
    rankings = body_of(asked(connection, request(b"/lines", b"RANK %s 1\nRANK %s 2\n" % (key, key))))
    ranked = time.perf_counter() - begun
    card = body_of(asked(connection, request(b"/boards", key)))
    own = time.perf_counter() - begun
    results = body_of(asked(connection, request(b"/results", key)))
    assert rankings.count(b"OK\n") == 2 and card.count(b"\nRESULT ") == 36 and results.startswith(b"Club-Night\n"), (rankings[:50], card[:50], results[:50])
    took.append((ranked, own, time.perf_counter() - begun))


def main():
    program, folder = sys.argv[1:3]
    disk = os.path.join(folder, "closed.disk")
    lines = evening.write(folder)
    subprocess.run([program, "format", disk, os.path.join(folder, "config.txt")], check=True, stdout=subprocess.DEVNULL)
    for path in lines:
        with open(path, encoding="ascii") as file:
            subprocess.run([program, "script", disk], check=True, stdin=file, stdout=subprocess.DEVNULL)
    process = subprocess.Popen([program, "web", disk, str(PORT), "60"], stdin=subprocess.DEVNULL, stdout=subprocess.DEVNULL)
    try:
        start, took, looks = threading.Event(), [], []
        threads = [threading.Thread(target=page, args=(b"%d" % evening.key(1 + i % 24, i // 24), start, took)) for i in range(PAGES)]
        for one in threads:
            one.start()
        with connected() as connection:
            time.sleep(0.5)
            start.set()
            while len(took) < PAGES:
                begun = time.perf_counter()
                assert asked(connection, request(b"/place", b"%d" % evening.key(24, 1))).endswith(b".\n")
                looks.append(time.perf_counter() - begun)
                time.sleep(0.002)
        last = [max(times) for times in zip(*took)]
        print(f"{PAGES} pages at the end of 432 plays: the last has its ranking after {last[0]:.2f} s, its score card after {last[1]:.2f} s, "
              f"all results after {last[2]:.2f} s; a look meanwhile: {percentiles(looks)}")
    finally:
        process.kill()
        process.wait()


main()
