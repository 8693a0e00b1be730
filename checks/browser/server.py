"""The program's pages over a disk, and what is asked of them without a browser."""
import http.client
import os
import subprocess
import time

TYPE = "application/x-table-lines"


class Server:
    """`web` over a disk."""

    def __init__(self, program, disk, port):
        self.program = program
        self.disk = disk
        self.port = port
        self.start()

    def start(self):
        self.process = subprocess.Popen([self.program, "web", self.disk, str(self.port), "60"], stdout=subprocess.PIPE)
        line = self.process.stdout.readline()
        assert line == f"listening at http://127.0.0.1:{self.port}\n".encode(), line

    def kill(self):
        self.process.kill()
        self.process.wait()

    def posted(self, path, body):
        """The status and the body of the answer to a POST."""
        connection = http.client.HTTPConnection("127.0.0.1", self.port, timeout=20)
        connection.request("POST", path, body, {"Content-Type": TYPE})
        response = connection.getresponse()
        text = response.read().decode()
        connection.close()
        return response.status, text


def pictures(window, folder, name):
    """The page at a telephone's and at a table's width, which it does not exceed; nothing where there is no folder."""
    if folder:
        window.value("scrollTo(0, 0)")
        for width, height in [(390, 844), (1024, 900)]:
            window.size(width, height)
            time.sleep(0.3)
            wide = window.value("document.documentElement.scrollWidth")
            assert wide <= width, f"{name} is {wide} pixels wide at {width}"
            window.picture(os.path.join(folder, f"{name}_{width}.png"))


def complaints(windows):
    """What the consoles have said, but for connections that failed while the server was away."""
    return [(name, one) for name, window in windows.items() for one in window.complaints() if one.get("entry", {}).get("source") != "network"]
