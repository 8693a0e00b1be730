"""Answers each request of a connection with one of two texts, by what it asks, and does nothing else: a server to compare with.

Words: a port, the file that holds the answer to a player's place, and that of the answer to SEE.
"""
import selectors
import socket
import sys

listener = socket.create_server(("127.0.0.1", int(sys.argv[1])), backlog=128)
answers = [open(name, "rb").read() for name in sys.argv[2:4]]
selector = selectors.DefaultSelector()
selector.register(listener, selectors.EVENT_READ)
while True:
    for key, _ in selector.select():
        if key.fileobj is listener:
            client, _ = listener.accept()
            client.setsockopt(socket.IPPROTO_TCP, socket.TCP_NODELAY, 1)
            selector.register(client, selectors.EVENT_READ)
            continue
        piece = key.fileobj.recv(65536)
        if piece:
            key.fileobj.sendall(answers[0] * piece.count(b"/place") + answers[1] * piece.count(b"/lines"))
        else:
            selector.unregister(key.fileobj)
            key.fileobj.close()
