"""28 pages of one evening over two disks: they send its lines in turn, and after each eight of them look.

Words: the program, and a folder for files.
"""
import concurrent.futures
import os
import subprocess
import sys
import time

HERE = os.path.dirname(os.path.abspath(__file__))
sys.path[:0] = [os.path.join(HERE, "..", "..", "bench", "serve"), os.path.join(HERE, "..", "..", "bench", "web")]
import evening
from sockets import PORT, asked, connected, percentiles, request

PAGES = 28
LOOKS = 8  # how many pages look after each change
MOST = 0.1  # of a look, in seconds
HOUR = 3_600  # rounds of looks, each by eight pages, where nothing changes
SESSION = 1_250  # kilobytes that the largest session takes, by which memory may grow while it is played


def of_process(process):
    """Kilobytes of memory that it has, and how many descriptors."""
    with open(f"/proc/{process.pid}/status") as file:
        memory = next(int(line.split()[1]) for line in file if line.startswith("VmRSS:"))
    return memory, len(os.listdir(f"/proc/{process.pid}/fd"))


def body(answer):
    return answer.split(b"\r\n\r\n", 1)[1]


class Page:
    def __init__(self):
        self.connection = connected()
        self.looks = []

    def sends(self, line):
        start = time.perf_counter()
        answer = body(asked(self.connection, request(b"/lines", line.encode() + b"\n")))
        assert answer == b"OK\n", (line, answer)
        return time.perf_counter() - start

    def looks_at(self, key):
        start = time.perf_counter()
        answer = body(asked(self.connection, request(b"/lines", b"SEE %d\n" % key)))
        self.looks.append(time.perf_counter() - start)
        # A pair whose boards of the round are over, or are not dealt yet, has none to see.
        assert not answer.startswith(b"ERR") or answer in (b"ERR 7 NotCurrent\n", b"ERR 8 NotDealt\n"), answer


def played(process, lines):
    """The lines sent, each by the page of its turn and then looked at, and before the last one as many rounds of looks as an
    hour has seconds, each by eight pages; what was measured of the process meanwhile, and while nothing but looks came."""
    pages = [Page() for _ in range(PAGES)]
    changes, playing, looking, told, begun = [], [], [], 0, time.perf_counter()
    with concurrent.futures.ThreadPoolExecutor(LOOKS) as together:

        def look(at):
            seen = [together.submit(pages[(at + step) % PAGES].looks_at, 2 + (at + step) % 48) for step in range(1, LOOKS + 1)]
            for one in seen:
                one.result()
            return LOOKS

        for at, line in enumerate(lines[:-1]):
            changes.append(pages[at % PAGES].sends(line))
            told += 1 + look(at)
            if at % 500 == 499:
                playing.append(of_process(process))
        for at in range(HOUR):
            told += look(at)
            if at % 100 == 0:
                looking.append(of_process(process))
        changes.append(pages[0].sends(lines[-1]))
    looks = [look for page in pages for look in page.looks]
    print(f"{told} lines by {PAGES} pages in {time.perf_counter() - begun:.0f} s; a look: {percentiles(looks)}, the last {max(looks) * 1000:.1f} ms; "
          f"a change, two syncs with it: {percentiles(changes)}, the last {max(changes) * 1000:.1f} ms")
    return told, looks, playing, looking


def printed(program, *words):
    return subprocess.run([program, *words], check=True, stdin=subprocess.DEVNULL, stdout=subprocess.PIPE).stdout


def main():
    program, folder = sys.argv[1:3]
    disk, copy, other = (os.path.join(folder, name) for name in ("club.disk", "copy.disk", "script.disk"))
    files = evening.write(folder)
    for path in (disk, other):
        printed(program, "format", path, os.path.join(folder, "config.txt"))
    printed(program, "copy", disk, copy)
    lines = []
    for path in files:
        with open(path, encoding="ascii") as file:
            lines += [line for line in file.read().split("\n") if line and not line.startswith("SYNC")]
        with open(path, encoding="ascii") as file:
            subprocess.run([program, "script", other], check=True, stdin=file, stdout=subprocess.DEVNULL)
    process = subprocess.Popen([program, "web", disk, str(PORT), "600", "--copy", copy], stdin=subprocess.DEVNULL, stdout=subprocess.DEVNULL)
    try:
        told, looks, playing, looking = played(process, lines)
    finally:
        process.kill()
        process.wait()
    for measures, what in ((playing, "while it is played"), (looking, "while it is only looked at")):
        memory, descriptors = zip(*measures)
        print(f"memory {min(memory)} to {max(memory)} kB, descriptors {min(descriptors)} to {max(descriptors)}, {what}")
    assert told >= 200_000, told
    assert max(looks) < MOST, max(looks)
    most = [max(memory) - min(memory) for memory in ([one[0] for one in measures] for measures in (playing, looking))]
    assert most[0] <= SESSION and most[1] <= 64 and len({one[1] for one in playing + looking}) == 1, most
    for words in (["rank"], ["results", "--no-analysis"], ["pbn"]):
        due = printed(program, words[0], other, *words[1:])
        for path in (disk, copy):
            assert printed(program, words[0], path, *words[1:]) == due, (words, path)
    print("both disks hold the ranking, the results and the games that script makes of these lines")


main()
