"""A table over bad networks, from the namespace of the devices; the server is started in another one.

    devices.py PROGRAM FOLDER      (FOLDER has the fifos `orders` and `answers` of link.py)

First each packet takes 400 milliseconds and one of twenty is lost: four pages in Chromium make forty calls in turn, and show in
the end what the server has. Then a device vanishes without a word, with 60 connections that wait: the others at its table go on,
and the server has its places again."""
import os
import socket
import subprocess
import sys
import threading
import time

sys.path.insert(0, os.path.join(os.path.dirname(os.path.abspath(__file__)), "..", "browser"))
from chromium import Browser, Window

PROGRAM, FOLDER = os.path.abspath(sys.argv[1]), sys.argv[2]
CONFIG = os.path.join(os.path.dirname(os.path.abspath(__file__)), "..", "..", "examples", "rows.txt")
SERVER, DEVICE, VANISHING, PORT = "10.94.0.1", "10.94.0.2", "10.94.0.3", 4000
PLAYERS, DIRECTOR = ["11", "31", "12", "32"], "100"
DEAL = "N:AKQJ.T98.765.432 T98.765.432.AKQJ 765.432.AKQJ.T98 432.AKQJ.T98.765"
CALLS = [call for level in range(1, 8) for strain in ["C", "D", "H", "S", "NT"] for call in [f"{level}{strain}", "PASS", "PASS"]]
SLOW_CALLS, CALLS_ALONE, CONNECTIONS = 40, 8, 60
# When the page shows more calls than so many.
SHOWN = """new Promise((done) => {
  const look = () => { if (before && Number(before.made.calls) > %d) { watch.disconnect(); done(Date.now()); } };
  const watch = new MutationObserver(look);
  watch.observe(document.body, { childList: true, subtree: true, characterData: true, attributes: true });
  look();
})"""


class Link:
    def __init__(self):
        self.orders = open(os.path.join(FOLDER, "orders"), "w", encoding="ascii")
        self.answers = open(os.path.join(FOLDER, "answers"), encoding="ascii")
        assert self.answers.readline() == "OK\n"

    def be(self, order):
        self.orders.write(order + "\n")
        self.orders.flush()
        assert self.answers.readline() == "OK\n"


def connected(address):
    connection = socket.create_connection((SERVER, PORT), timeout=20, source_address=(address, 0))
    connection.setsockopt(socket.IPPROTO_TCP, socket.TCP_NODELAY, 1)
    return connection


def send(connection, path, body):
    connection.sendall((f"POST {path} HTTP/1.1\r\nhost: {SERVER}:{PORT}\r\ncontent-type: application/x-table-lines\r\n"
                        f"content-length: {len(body)}\r\n\r\n{body}").encode())


def answer(connection):
    text = b""
    while b"\r\n\r\n" not in text or len(text.split(b"\r\n\r\n", 1)[1]) < int(text.split(b"content-length: ")[1].split(b"\r\n")[0]):
        piece = connection.recv(65536)
        assert piece, "the server has closed"
        text += piece
    return text.split(b"\r\n\r\n", 1)[1].decode()


def asked(path, body, address=DEVICE):
    with connected(address) as connection:
        send(connection, path, body)
        return answer(connection)


def calls_made(key):
    return int(next(line for line in asked("/lines", f"SEE {key}\n").splitlines() if line.startswith("AT ")).split()[1])


def percentiles(times):
    times = sorted(times)
    return f"half within {times[len(times) // 2]:.0f} ms, the slowest {times[-1]:.0f} ms"


def seated(browser, key):
    window = Window(browser, f"http://{SERVER}:{PORT}/")
    window.wait("document.getElementById('key')", 60)
    window.value(f"sessionStorage.setItem('key', '{key}')")
    window.go(f"http://{SERVER}:{PORT}/")
    window.wait("document.getElementById('hand')", 60)
    return window


def slow_network(link):
    browser = Browser(os.path.join(FOLDER, "profile"))
    windows = [seated(browser, key) for key in PLAYERS]
    link.be("DELAY 400")
    link.be("LOSS 5")
    own, others = [], []
    for at in range(SLOW_CALLS):
        shown = [None] * 4
        threads = [threading.Thread(target=lambda i=i: shown.__setitem__(i, windows[i].value(SHOWN % at))) for i in range(4)]
        for one in threads:
            one.start()
        sent = windows[at % 4].value(f"(act('CALL {PLAYERS[at % 4]} 1 {at} {CALLS[at]}'), Date.now())")
        for one in threads:
            one.join()
        own.append(shown[at % 4] - sent)
        others.append(max(time for i, time in enumerate(shown) if i != at % 4) - sent)
    link.be("DELAY 0")
    link.be("LOSS 0")
    assert calls_made(PLAYERS[0]) == SLOW_CALLS
    for window in windows:
        window.wait(f"Number(before.made.calls) === {SLOW_CALLS} && document.getElementById('status').className !== 'lost'")
    print(f"400 ms each way, 5 % lost: a page shows its own call after {percentiles(own)}; the last of the others after {percentiles(others)}")
    browser.close()


def descriptors(process):
    return len(os.listdir(f"/proc/{process}/fd"))


def vanished_device(link, server):
    time.sleep(25)
    before = descriptors(server)
    gone = [connected(VANISHING) for _ in range(CONNECTIONS)]
    for connection in gone:
        send(connection, "/wait", PLAYERS[3] + "\n" + "what it was told last")
    held = asked("/place", PLAYERS[3], VANISHING)
    assert held.startswith("OK\n")
    assert descriptors(server) >= before + CONNECTIONS
    link.be(f"GONE {VANISHING}")
    since, slowest, made = time.monotonic(), 0.0, calls_made(PLAYERS[0])
    for at in range(made, made + CALLS_ALONE):
        start = time.monotonic()
        assert asked("/lines", f"CALL {PLAYERS[at % 4]} 1 {at} {CALLS[at]}\n") == "OK\n"
        slowest = max(slowest, time.monotonic() - start)
    while descriptors(server) > before:
        assert time.monotonic() - since < 60, "the places of a device that is gone are kept"
        time.sleep(0.2)
    print(f"a device that vanished: the others' calls answered within {slowest * 1000:.0f} ms, "
          f"its {CONNECTIONS} places free after {time.monotonic() - since:.0f} seconds")


def main():
    link = Link()
    disk = os.path.join(FOLDER, "network.disk")
    subprocess.run([PROGRAM, "format", disk, CONFIG], check=True, stdout=subprocess.DEVNULL)
    server = subprocess.Popen(["ip", "netns", "exec", "bridge_server", PROGRAM, "web", disk, str(PORT), "60", "--address", SERVER],
                              stdout=subprocess.PIPE)
    try:
        assert server.stdout.readline() == f"listening at http://{SERVER}:{PORT}\n".encode()
        assert asked("/lines", f"DEAL {DIRECTOR} 1 {DEAL}\n") == "OK\n"
        slow_network(link)
        vanished_device(link, server.pid)
    finally:
        server.kill()
        server.wait()


if __name__ == "__main__":
    main()
