"""Times exchanges with the program's `serve` and with a peer that only answers, in turn, and a sync beside them.

Words: the program, a configuration, a folder for files, and how many exchanges.
"""
import os
import socket
import statistics
import subprocess
import sys
import threading
import time

program, config, folder, count = sys.argv[1], sys.argv[2], sys.argv[3], int(sys.argv[4])
disk = os.path.join(folder, "connections.disk")
peer = os.path.join(os.path.dirname(os.path.abspath(__file__)), "echo.py")
CLIENTS = 28
PORT = 47391
REQUEST = b"VOID 100 1 1 1\nSYNC\n"
REPLY = b"OK\nOK\n"


def connected():
    for _ in range(600):
        try:
            connection = socket.create_connection(("127.0.0.1", PORT))
            connection.setsockopt(socket.IPPROTO_TCP, socket.TCP_NODELAY, 1)
            return connection
        except ConnectionRefusedError:
            time.sleep(0.02)
    sys.exit("nothing listens")


def exchange(connection):
    connection.sendall(REQUEST)
    reply = b""
    while len(reply) < len(REPLY):
        piece = connection.recv(4096)
        if not piece:
            break
        reply += piece
    if reply != REPLY:
        sys.exit(f"answered {reply}")


def open_connection():
    """The times of exchanges over one connection, in microseconds."""
    took = []
    with connected() as connection:
        exchange(connection)
        for _ in range(count):
            start = time.perf_counter_ns()
            exchange(connection)
            took.append((time.perf_counter_ns() - start) / 1000)
    return took


def own_connections():
    """The times of exchanges over a connection each."""
    took = []
    for _ in range(count):
        start = time.perf_counter_ns()
        with connected() as connection:
            exchange(connection)
        took.append((time.perf_counter_ns() - start) / 1000)
    return took


def together():
    """The time of an exchange where 28 clients have one each at once, over a connection each, as the mean of all."""
    begin = threading.Barrier(CLIENTS + 1)

    def client():
        begin.wait()
        for _ in range(count // CLIENTS):
            with connected() as connection:
                exchange(connection)

    threads = [threading.Thread(target=client) for _ in range(CLIENTS)]
    for it in threads:
        it.start()
    begin.wait()
    start = time.perf_counter_ns()
    for it in threads:
        it.join()
    return [(time.perf_counter_ns() - start) / 1000 / (count // CLIENTS * CLIENTS)]


def served(words, connections, times):
    server = subprocess.Popen([*words, str(PORT), str(connections)], stdout=subprocess.DEVNULL)
    took = times()
    if server.wait():
        sys.exit("the server stopped with a fault")
    return statistics.median(took)


def synced():
    """The time of one write of a sector and its sync."""
    took = []
    with open(os.path.join(folder, "connections.sync"), "wb") as file:
        for _ in range(count):
            start = time.perf_counter_ns()
            os.pwrite(file.fileno(), bytes(512), 0)
            os.fdatasync(file.fileno())
            took.append((time.perf_counter_ns() - start) / 1000)
    return statistics.median(took)


if not CLIENTS <= count <= 1000:
    sys.exit("28 to 1000 exchanges")
if os.path.exists(disk):
    os.remove(disk)
subprocess.run([program, "format", disk, config], check=True, stdout=subprocess.DEVNULL)
sync = synced()
print(f"a write and its sync: {sync:.0f} us")
for name, connections, times in (
    ("over an open connection", 1, open_connection),
    ("over a connection each", count, own_connections),
    (f"of {CLIENTS} clients at once", count // CLIENTS * CLIENTS, together),
):
    ours = served([program, "serve", disk], connections, times)
    theirs = served([sys.executable, peer], connections, times)
    print(f"an exchange {name}: {ours:.0f} us, of the peer {theirs:.0f} us; without the sync {(ours - sync) / theirs:.2f} times as long (goal 2)")
