"""What strace saw of a run over two disks, and the images that a power cut leaves of it."""
import os
import re

SECTOR = 512


class Trace:
    """The calls of a run of both files, in order: (side, sector, bytes), (side,) for a sync that was done, and "reply" for each reply."""

    def __init__(self, text, folder):
        self.calls = []
        names = {}
        for line in text.splitlines():
            opened = re.search(r'openat\(AT_FDCWD, "([^"]*)", O_RDWR.*\) = (\d+)$', line)
            wrote = re.search(r'pwrite64\((\d+), "((?:\\x[0-9a-f]{2})*)", \d+, (\d+)\) = \d+$', line)
            synced = re.search(r"fdatasync\((\d+)\)\s+= 0$", line)
            if opened:
                path = bytes.fromhex(opened.group(1).replace("\\x", "")).decode()
                names[opened.group(2)] = os.path.relpath(path, folder)
            elif wrote:
                self.calls.append((names[wrote.group(1)], int(wrote.group(3)), bytes.fromhex(wrote.group(2).replace("\\x", ""))))
            elif synced:
                self.calls.append((names[synced.group(1)],))
            elif "HTTP/1.1".encode().hex() in line.replace("\\x", ""):
                self.calls.append("reply")

    def cut(self, at, images, pick):
        """The images of both files where the power goes before that call: each write since its file's last sync is there or not."""
        disks = {side: bytearray(images[side]) for side in "ab"}
        unsynced = {"a": [], "b": []}
        replies = 0
        for call in self.calls[:at]:
            if call == "reply":
                replies += 1
            elif len(call) == 1:
                for place, data in unsynced[call[0]]:
                    disks[call[0]][place:place + SECTOR] = data
                unsynced[call[0]] = []
            else:
                unsynced[call[0]].append(call[1:])
        for side, writes in unsynced.items():
            for place, data in writes:
                if pick.random() < 0.5:
                    disks[side][place:place + SECTOR] = data
        return disks, replies
