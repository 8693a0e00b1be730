"""Times in a headless Chromium how soon what one page sends is shown by the three others of its table, and how soon 28 pages are back
once their server was killed and started again.

Words: the program, a configuration, and a folder for files.
"""
import os
import sys
import threading
import time

from told import DEAL, DIRECTOR, PLAYERS, calls
from sockets import percentiles

sys.path.insert(0, os.path.join(os.path.dirname(os.path.abspath(__file__)), "..", "..", "checks", "browser"))
from chromium import Browser, Window
from server import Server

PORT = 47393
ACTIONS = 200
WINDOWS = 28
# When the page shows more calls than so many, in milliseconds.
SHOWN = """new Promise((done) => {
  const look = () => { if (before && Number(before.made.calls) > %d) { watch.disconnect(); done(performance.timeOrigin + performance.now()); } };
  const watch = new MutationObserver(look);
  watch.observe(document.body, { childList: true, subtree: true, characterData: true, attributes: true });
  look();
})"""
# When the answer to a line came that is sent now.
ANSWERED = """(async () => {
  performance.clearResourceTimings();
  const sent = performance.timeOrigin + performance.now();
  await act(%r);
  const answer = performance.getEntriesByType("resource").find((one) => one.name.endsWith("/lines"));
  return [sent, performance.timeOrigin + answer.responseEnd];
})()"""


def seated(browser, key):
    window = Window(browser, f"http://127.0.0.1:{PORT}/")
    window.wait("document.getElementById('key')")
    window.value(f"sessionStorage.setItem('key', '{key.decode()}')")
    window.go(f"http://127.0.0.1:{PORT}/")
    window.wait("document.getElementById('hand')")
    return window


def at_once(windows, expression):
    """What it gives in each window, asked in all at the same time."""
    found = [None] * len(windows)
    threads = [threading.Thread(target=lambda i=i, one=one: found.__setitem__(i, one.value(expression))) for i, one in enumerate(windows)]
    for one in threads:
        one.start()
    return threads, found


def told_times(browser):
    windows = [seated(browser, key) for key in PLAYERS]
    own, others = [], []
    for at, call in enumerate(calls()[:ACTIONS]):
        actor = windows[at % 4]
        threads, shown = at_once(windows, SHOWN % at)
        time.sleep(0.05)
        sent, answered = actor.value(ANSWERED % f"CALL {PLAYERS[at % 4].decode()} 1 {at} {call.decode()}")
        for one in threads:
            one.join()
        own.append((shown[at % 4] - sent) / 1000)
        others.append((max(time for i, time in enumerate(shown) if i != at % 4) - answered) / 1000)
    print(f"in Chromium a page shows its own call {percentiles(own)}; the last of the three others after its answer {percentiles(others)}")


def back_again(browser, server):
    windows = [seated(browser, PLAYERS[i % 4]) for i in range(WINDOWS)]
    server.kill()
    for window in windows:
        window.wait("document.getElementById('status').className === 'lost'")
    server.start()
    started = time.perf_counter()
    for window in windows:
        window.wait("document.getElementById('status').className !== 'lost'")
    print(f"{WINDOWS} pages are back {time.perf_counter() - started:.1f} seconds after their server")


def main():
    program, config, folder = sys.argv[1:4]
    disk = os.path.join(folder, "pages.disk")
    assert os.spawnlp(os.P_WAIT, program, program, "format", disk, config) == 0
    server = Server(program, disk, PORT)
    browser = Browser(os.path.join(folder, "browser"))
    try:
        assert server.posted("/lines", b"DEAL %s 1 %s\n" % (DIRECTOR, DEAL)) == (200, "OK\n")
        told_times(browser)
        back_again(browser, server)
    finally:
        browser.close()
        server.kill()


main()
