"""The program, and `web` over two disks of a folder."""
import http.client
import os
import signal
import subprocess
import sys
import time

PROGRAM, EXAMPLES, FOLDER = (os.path.abspath(word) for word in sys.argv[1:4])
TYPE = "application/x-table-lines"


def run(*words, text=""):
    return subprocess.run([PROGRAM, *words], input=text, text=True, capture_output=True)


class Web:
    """`web` over the disks `a` and `b` of a folder, or over one of them, perhaps traced."""

    def __init__(self, folder, port, files=("a", "b"), trace=()):
        self.port = port
        disk, *copy = [os.path.join(folder, name) for name in files]
        words = [PROGRAM, "web", disk, str(port), "60", *(word for name in copy for word in ("--copy", name))]
        self.process = subprocess.Popen([*trace, *words], stdin=subprocess.DEVNULL, stdout=subprocess.PIPE, stderr=subprocess.PIPE, text=True)
        self.fault = None
        for line in self.process.stdout:
            if line.startswith("listening"):
                return
        self.fault = self.process.stderr.read().strip()
        self.process.wait()

    def lines(self, *lines):
        """The replies, or none where nothing is told."""
        connection = http.client.HTTPConnection("127.0.0.1", self.port, timeout=300)
        try:
            connection.request("POST", "/lines", "".join(line + "\n" for line in lines), {"Content-Type": TYPE})
            response = connection.getresponse()
            return response.read().decode() if response.status == 200 else None
        except OSError:
            return None
        finally:
            connection.close()

    def kill(self):
        """Kills it, and waits until its locks are gone."""
        with open(f"/proc/{self.process.pid}/task/{self.process.pid}/children") as file:
            traced = [int(word) for word in file.read().split()]
        for process in (self.process.pid, *traced):
            os.kill(process, signal.SIGKILL)
        self.process.wait()
        while any(os.path.exists(f"/proc/{process}") for process in traced):
            time.sleep(0.01)
