"""A session on two disks, of which one is on a device that goes away.

devices.py PROGRAM EXAMPLES FOLDER    (as root; sshfs and sshd for the last)
"""
import http.client
import os
import re
import subprocess
import sys
import time

PROGRAM, EXAMPLES, FOLDER = (os.path.abspath(word) for word in sys.argv[1:4])
TYPE = "application/x-table-lines"
with open(os.path.join(EXAMPLES, "two_tables_lines.txt")) as file:
    LINES = [line for line in file.read().splitlines() if not line.startswith("SEE")][:24]
MOUNT = os.path.join(FOLDER, "mounted")
BACKING = os.path.join(FOLDER, "backing")
FAR = os.path.join(FOLDER, "far")
ERRORS = os.path.join(FOLDER, "errors")
SPACE = "bridge_far"


def do(*words, **options):
    return subprocess.run(words, check=True, capture_output=True, text=True, **options).stdout.strip()


def club(*words):
    return subprocess.run([PROGRAM, *words], capture_output=True, text=True, stdin=subprocess.DEVNULL)


def post(port, line):
    """The reply, and how many seconds it took."""
    began = time.time()
    connection = http.client.HTTPConnection("127.0.0.1", port, timeout=120)
    connection.request("POST", "/lines", line + "\n", {"Content-Type": TYPE})
    reply = connection.getresponse().read().decode()
    connection.close()
    return reply, time.time() - began


def said():
    """What standard error has so far."""
    with open(ERRORS) as file:
        return file.read()


class Full:
    """A file system that is filled by others, on which the file has holes: a write to one finds no room."""

    name = "a file system that is full"

    def begin(self):
        do("mount", "-t", "tmpfs", "-o", "size=2m", "tmpfs", MOUNT)

    def copied(self, source, target):
        do("cp", "--sparse=always", source, target)

    def take_away(self):
        subprocess.run(["dd", "if=/dev/zero", f"of={MOUNT}/rest", "bs=4k"], capture_output=True)

    def end(self):
        do("umount", MOUNT)


class Loop:
    """A file system on a block device that goes away."""

    name = "a block device that goes away"

    def begin(self):
        do("truncate", "-s", "16M", BACKING)
        self.device = do("losetup", "--find", "--show", BACKING)
        do("mkfs.ext4", "-q", self.device)
        do("mount", self.device, MOUNT)

    def copied(self, source, target):
        do("cp", source, target)
        do("sync", "-f", MOUNT)

    def take_away(self):
        do("truncate", "-s", "4096", BACKING)
        do("losetup", "-c", self.device)

    def end(self):
        do("umount", "-l", MOUNT)
        do("losetup", "-d", self.device)


class Server:
    """A file system of another host, over a network of its own, whose cable is pulled."""

    name = "a host that goes away"

    def begin(self):
        for words in (["netns", "add", SPACE], ["link", "add", "near0", "type", "veth", "peer", "name", "far0", "netns", SPACE],
                      ["addr", "add", "10.231.7.1/24", "dev", "near0"], ["link", "set", "near0", "up"],
                      ["-n", SPACE, "addr", "add", "10.231.7.2/24", "dev", "far0"], ["-n", SPACE, "link", "set", "far0", "up"]):
            do("ip", *words)
        os.makedirs("/run/sshd", exist_ok=True)
        os.makedirs(FAR, exist_ok=True)
        key = os.path.join(FOLDER, "key")
        for name in (key, key + "_host"):
            if not os.path.exists(name):
                do("ssh-keygen", "-q", "-t", "ed25519", "-N", "", "-f", name)
        self.server = subprocess.Popen(["ip", "netns", "exec", SPACE, "/usr/sbin/sshd", "-D", "-f", "/dev/null", "-h", key + "_host",
            "-o", "ListenAddress=10.231.7.2", "-o", f"AuthorizedKeysFile={key}.pub", "-o", "StrictModes=no", "-o", "PidFile=none",
            "-o", "PermitRootLogin=yes", "-o", "Subsystem=sftp internal-sftp"], stderr=subprocess.DEVNULL)
        time.sleep(2)
        do("sshfs", f"10.231.7.2:{FAR}", MOUNT, "-o", f"IdentityFile={key}", "-o", "StrictHostKeyChecking=no", "-o", "UserKnownHostsFile=/dev/null",
           "-o", "ServerAliveInterval=2", "-o", "ServerAliveCountMax=2")

    def copied(self, source, target):
        do("cp", source, target)

    def take_away(self):
        do("ip", "link", "set", "near0", "down")

    def end(self):
        subprocess.run(["umount", "-l", MOUNT], capture_output=True)
        self.server.terminate()
        self.server.wait()
        subprocess.run(["ip", "link", "del", "near0"], capture_output=True)
        do("ip", "netns", "del", SPACE)


def evening(device, is_copy, port):
    """An evening of a minute with one side on that device, which goes away in the middle; what came of it."""
    here, there = os.path.join(FOLDER, "here"), os.path.join(MOUNT, "there")
    subprocess.run(["rm", "-f", here])
    assert club("format", here, os.path.join(EXAMPLES, "rows.txt")).returncode == 0
    device.copied(here, there)
    disk, copy = (here, there) if is_copy else (there, here)
    with open(ERRORS, "w") as errors:
        web = subprocess.Popen([PROGRAM, "web", disk, str(port), "1", "--copy", copy], stdin=subprocess.DEVNULL, stdout=subprocess.PIPE,
                               stderr=errors, text=True)
    assert web.stdout.readline() == "copy is level\n", said()
    assert web.stdout.readline().startswith("listening")
    slowest = 0
    for number, line in enumerate(LINES):
        if number == len(LINES) // 2:
            device.take_away()
        reply, seconds = post(port, line)
        assert reply == "OK\n", f"{line}: {reply}"
        slowest = max(slowest, seconds)
    lost, kept = ("copy", "disk") if is_copy else ("disk", "copy")
    at_once = f"{lost} lost, session goes on in the {kept}\n"
    assert said() == at_once, said()
    status = web.wait(120)
    assert status == 3 and said() == f"{at_once}{lost} lost\n", f"{status} {said()}"
    held = re.search(r"^plays finished or ruled on (\d+)", club("check", here).stdout, re.M)
    told = subprocess.run([PROGRAM, "script", here], input="SEE 11\n", capture_output=True, text=True).stdout
    assert held and told == EXPECTED, f"{told} in place of {EXPECTED}"
    return f"{len(LINES)} lines confirmed, the slowest in {slowest:.1f} s; said: {said().splitlines()}"


def expected():
    """What is told after all lines on one disk alone."""
    alone = os.path.join(FOLDER, "alone")
    assert club("format", alone, os.path.join(EXAMPLES, "rows.txt")).returncode == 0
    subprocess.run([PROGRAM, "script", alone], input="".join(line + "\n" for line in LINES), capture_output=True, text=True)
    return subprocess.run([PROGRAM, "script", alone], input="SEE 11\n", capture_output=True, text=True).stdout


os.makedirs(MOUNT)
EXPECTED = expected()
port = 29100
for kind in (Full, Loop, Server):
    for is_copy in (True, False):
        port += 1
        device = kind()
        device.begin()
        try:
            print(f"{'copy' if is_copy else 'disk'} on {device.name}: {evening(device, is_copy, port)}", flush=True)
        finally:
            device.end()
