"""Requests over sockets, as a page sends them, and what a process takes."""
import os
import socket
import sys
import time

PORT = 47392


def request(path, body):
    """A request as a page sends it."""
    return (
        b"POST %s HTTP/1.1\r\nhost: 127.0.0.1:%d\r\ncontent-type: application/x-table-lines\r\ncontent-length: %d\r\n\r\n%s"
        % (path, PORT, len(body), body)
    )


def connected():
    for _ in range(600):
        try:
            connection = socket.create_connection(("127.0.0.1", PORT))
            connection.setsockopt(socket.IPPROTO_TCP, socket.TCP_NODELAY, 1)
            return connection
        except ConnectionRefusedError:
            time.sleep(0.02)
    sys.exit("nothing listens")


def asked(connection, request):
    """The answer to one request."""
    connection.sendall(request)
    answer = b""
    while b"\r\n\r\n" not in answer:
        piece = connection.recv(65536)
        if not piece:
            sys.exit("closed")
        answer += piece
    head, body = answer.split(b"\r\n\r\n", 1)
    length = int(head.split(b"content-length: ", 1)[1].split(b"\r\n", 1)[0])
    while len(body) < length:
        body += connection.recv(65536)
    return head + b"\r\n\r\n" + body


def processor_time(process):
    with open(f"/proc/{process}/stat") as file:
        fields = file.read().rsplit(")", 1)[1].split()
    return (int(fields[11]) + int(fields[12])) / os.sysconf("SC_CLK_TCK")


def percentiles(times):
    """The median and the 99th percentile of some seconds, in milliseconds."""
    times = sorted(times)
    return f"half within {times[len(times) // 2] * 1000:.2f} ms, 99 of 100 within {times[len(times) * 99 // 100] * 1000:.2f} ms"
