"""Answers each SYNC of a connection with the replies of an exchange, connection after connection, and does nothing else.

Words: a port, and how many connections.
"""
import socket
import sys

listener = socket.create_server(("127.0.0.1", int(sys.argv[1])), backlog=128)
for _ in range(int(sys.argv[2])):
    connection, _ = listener.accept()
    connection.setsockopt(socket.IPPROTO_TCP, socket.TCP_NODELAY, 1)
    with connection:
        while piece := connection.recv(4096):
            connection.sendall(b"OK\nOK\n" * piece.count(b"SYNC\n"))
