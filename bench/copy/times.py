"""Times changes over one disk and over two. times.py PROGRAM EXAMPLES FOLDER CHANGES"""
import http.client
import os
import statistics
import subprocess
import sys
import time

PROGRAM, EXAMPLES, FOLDER = sys.argv[1:4]
CHANGES = int(sys.argv[4])
DIRECTOR = "100"
SEED = "000102030405060708090a0b0c0d0e0f101112131415161718191a1b1c1d1e1f"


def run(*words):
    subprocess.run([PROGRAM, *words], check=True, stdout=subprocess.DEVNULL)


class Pages:
    """`web` over a fresh session, on one disk or two, and a connection to it that stays open."""

    def __init__(self, name, port, copied):
        disk = os.path.join(FOLDER, name)
        run("format", disk, os.path.join(EXAMPLES, "rows.txt"))
        words = [PROGRAM, "web", disk, str(port), "60"]
        if copied:
            run("copy", disk, disk + ".copy")
            words += ["--copy", disk + ".copy"]
        self.process = subprocess.Popen(words, stdout=subprocess.PIPE, text=True)
        for line in self.process.stdout:
            if line.startswith("listening"):
                break
        self.connection = http.client.HTTPConnection("127.0.0.1", port, timeout=30)
        self.times = []
        self.count = 0

    def change(self):
        """Deals the board, or takes its deal back."""
        path, line = ("/lines", f"SHUFFLE {DIRECTOR} 1 {SEED}") if self.count % 2 == 0 else ("/correct", f"UNDEAL {DIRECTOR} 1")
        self.count += 1
        began = time.perf_counter()
        self.connection.request("POST", path, line + "\n", {"Content-Type": "application/x-table-lines"})
        reply = self.connection.getresponse().read()
        self.times.append(time.perf_counter() - began)
        assert reply == b"OK\n", reply


one, two = Pages("one", 22101, False), Pages("two", 22102, True)
for _ in range(CHANGES):
    one.change()
    two.change()
for pages in (one, two):
    pages.process.kill()
medians = [1000 * statistics.median(pages.times[20:]) for pages in (one, two)]
means = [1000 * statistics.mean(pages.times[20:]) for pages in (one, two)]
print(f"{CHANGES} changes each: over one disk {medians[0]:.2f} ms in the median, {means[0]:.2f} in the mean; "
      f"over two {medians[1]:.2f} and {means[1]:.2f}: {medians[1] / medians[0]:.2f} and {means[1] / means[0]:.2f} times")
