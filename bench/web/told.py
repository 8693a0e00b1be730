"""Times how soon what one player does is told to the three others of the table, who wait for it, by bare sockets; and what 28 pages
that wait cost at rest.

Words: the program, a configuration, a folder for files, and for how many seconds 28 pages wait.
"""
import os
import subprocess
import sys
import threading
import time

from sockets import PORT, asked, connected, percentiles, processor_time, request

ACTIONS = 200
PLAYERS = [b"11", b"31", b"12", b"32"]
DIRECTOR = b"100"
DEAL = b"N:AKQJ.T98.765.432 T98.765.432.AKQJ 765.432.AKQJ.T98 432.AKQJ.T98.765"


def body_of(answer):
    return answer.split(b"\r\n\r\n", 1)[1]


class Page:
    """What a page asks, over two connections: one that waits, and one for the rest."""

    def __init__(self, key):
        self.key = key
        self.waits, self.asks = connected(), connected()
        self.look()

    def look(self):
        """Asks for all that it shows."""
        place, view, desk = [body_of(asked(self.asks, request(path, body))) for path, body in
                             [(b"/place", self.key), (b"/lines", b"SEE %s\n" % self.key), (b"/desk", self.key)]]
        self.told = place + view + b"".join(line + b"\n" for line in desk.split(b"\n")[2:-2])

    def wait(self):
        """Waits for news, and says when there was some and when it was shown."""
        answer = body_of(asked(self.waits, request(b"/wait", self.key + b"\n" + self.told)))
        heard, before = time.perf_counter(), self.told
        assert answer == b"OK\n", answer
        self.look()
        assert self.told != before, "told though nothing is new"
        return heard, time.perf_counter()

    def act(self, line):
        """Does something, and says when the answer came."""
        answer = body_of(asked(self.asks, request(b"/lines", line + b"\nSEE %s\n" % self.key)))
        assert answer.startswith(b"OK\nOK\n"), answer
        return time.perf_counter()


def calls():
    """The longest auction: each bid is doubled and redoubled, after two passes each."""
    bids = [b"%d%s" % (level, strain) for level in range(1, 8) for strain in [b"C", b"D", b"H", b"S", b"NT"]]
    return [call for bid in bids for made in [bid, b"X", b"XX"] for call in [made, b"PASS", b"PASS"]]


def told_times():
    pages = [Page(key) for key in PLAYERS]
    heard, shown = [], []
    for at, call in enumerate(calls()[:ACTIONS]):
        actor = pages[at % 4]
        others = [page for page in pages if page is not actor]
        times = [None] * 3
        threads = [threading.Thread(target=lambda i=i, page=page: times.__setitem__(i, page.wait())) for i, page in enumerate(others)]
        for one in threads:
            one.start()
        time.sleep(0.01)
        answered = actor.act(b"CALL %s 1 %d %s" % (actor.key, at, call))
        for one in threads:
            one.join()
        heard.append(max(time[0] for time in times) - answered)
        shown.append(max(time[1] for time in times) - answered)
        actor.look()
    print(f"the last of the three others hears of it after the answer: {percentiles(heard)}; and has what there is to see: {percentiles(shown)}")


def at_rest(process, seconds):
    """28 pages that wait, each anew once its wait is over."""
    end, asked_for = time.perf_counter() + seconds, []

    def rests(key):
        page = Page(key)
        while time.perf_counter() < end:
            page.waits.settimeout(20)
            asked(page.waits, request(b"/wait", key + b"\n" + page.told))
            asked_for.append(key)
            page.look()

    before = processor_time(process.pid)
    threads = [threading.Thread(target=rests, args=(PLAYERS[i % 4],)) for i in range(28)]
    for one in threads:
        one.start()
    for one in threads:
        one.join()
    took = time.perf_counter() - end + seconds
    print(f"28 pages at rest for {took:.0f} seconds: {4 * len(asked_for) / took:.1f} requests a second, {(processor_time(process.pid) - before) / took * 100:.2f} % of a processor")


def main():
    program, config, folder, seconds = sys.argv[1], sys.argv[2], sys.argv[3], float(sys.argv[4])
    disk = os.path.join(folder, "told.disk")
    subprocess.run([program, "format", disk, config], check=True, stdout=subprocess.DEVNULL)
    process = subprocess.Popen([program, "web", disk, str(PORT), "60"], stdin=subprocess.DEVNULL, stdout=subprocess.DEVNULL)
    try:
        with connected() as connection:
            assert body_of(asked(connection, request(b"/lines", b"DEAL %s 1 %s\n" % (DIRECTOR, DEAL)))) == b"OK\n"
        told_times()
        at_rest(process, seconds)
    finally:
        process.kill()
        process.wait()


if __name__ == "__main__":
    main()
