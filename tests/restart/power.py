"""The disk of a name server loses its power at random moments: what a real file system has then must have all that was granted.

The server's folder is on an ext4 of its own, on a loop device over a file. Eight hosts ask for names, renew them and release them all the
while. At a cut the server is stopped, and that file is copied: it has what the file system wrote to its device, and nothing else. The copy
is mounted, and a second server starts over it: it has to tell of each name what the replies before the cut said, but for those about which
a request was under way. Then the first server goes on. With a library, under which no sync does anything, that has to fail.
"""

import os
import random
import signal
import subprocess
import threading
import time
from pathlib import Path

import packets
from machines import LONGEST, Host, Server, is_granted

SERVER, CHECKED = "127.0.0.5", "127.0.0.6"
HOSTS, NAMES = 8, 60
NEAR = 1.0  # for so many seconds around a lease's end nothing is said of it
OWN = (packets.REGISTRATION, packets.REFRESH, packets.RELEASE)


def run(*words):
    return subprocess.run(words, check=True, capture_output=True, text=True).stdout.strip()


class Disk:
    def __init__(self, path, folder):
        self.path, self.folder = path, folder
        os.makedirs(folder, exist_ok=True)
        self.device = run("losetup", "--find", "--show", path)
        run("mount", "-t", "ext4", self.device, folder)

    def end(self):
        run("umount", self.folder)
        run("losetup", "--detach", self.device)


def octets_of(path):
    """What the file has, where it has the same twice in a row: nothing is being written."""
    while (octets := Path(path).read_bytes()) != Path(path).read_bytes():
        pass
    return octets


def serve(nbt, end, folder, library=None):
    around = dict(os.environ, LD_PRELOAD=library, DISK_LIES="1") if library else None
    server = Server(nbt, end, folder, words=["--rows-per-client", "4096"], env=around)
    return server, server.line()


class Book:
    """What hosts ask, and what the replies said: of each name its holder and until when, by the machine's clock."""

    def __init__(self):
        self.lock, self.is_over, self.replies = threading.Lock(), False, 0
        self.open, self.held = {}, {}  # of each host the name that it asks about; of each name its holder
        self.unknown = set()  # names about which a request had no reply: it was taken or not, since a reply that is late is dropped

    def take(self, own, flags, name, sent, octets):
        """A reply came to a host, or none within a second: then nothing is known of its name until another request about it is granted."""
        del self.open[own]
        self.replies += bool(octets)
        if not octets:
            self.unknown.add(name)
        elif is_granted(octets):
            self.unknown.discard(name)
            if flags != packets.RELEASE:
                self.held[name] = (own, sent + LONGEST)
            elif self.held.get(name, (own,))[0] == own:
                self.held.pop(name, None)

    def asks(self, address, draw):
        host = Host(address, SERVER)
        while not self.is_over:
            name, flags, sent = f"N{draw.randrange(NAMES)}", draw.choices(OWN, (5, 3, 2))[0], time.monotonic()
            with self.lock:
                self.open[address] = name
            octets = host.replied(flags, name, LONGEST)
            with self.lock:
                self.take(address, flags, name, sent, octets)

    def wrong(self):
        """What the second server tells otherwise than the replies said, for each name that no request is about."""
        with self.lock:
            asked, held = {*self.open.values(), *self.unknown}, dict(self.held)
        asking = Host("127.0.4.1", CHECKED)
        names = [name for name in (f"N{number}" for number in range(NAMES)) if name not in asked]
        return [name for name in names if not is_told(asking, name, *held.get(name, (None, 0)))]


def is_told(asking, name, holder, end):
    """Whether the server tells the holder, or nobody where there is none."""
    told = asking.holders(name, patience=2)
    return abs(end - time.monotonic()) < NEAR or told == ([holder] if holder and end > time.monotonic() else [])


def cut(nbt, work, image, server, book):
    """The disk loses its power. Returns what was wrong then."""
    server.running.send_signal(signal.SIGSTOP)
    time.sleep(0.05)  # so that what has left comes
    Path(f"{work}/cut.img").write_bytes(octets_of(image))
    disk = Disk(f"{work}/cut.img", f"{work}/cut")
    second, line = serve(nbt, CHECKED, f"{disk.folder}/state")
    try:
        if not line.startswith("serving ") or " leases kept" not in line and " lease kept" not in line:
            return [line]
        return book.wrong()
    finally:
        second.kill()
        disk.end()
        server.running.send_signal(signal.SIGCONT)


def row(nbt, work, cuts, seed, library=None):
    """The row of so many cuts, in this folder."""
    image = f"{work}/disk.img"
    run("truncate", "--size", "16M", image)
    run("mkfs.ext4", "-q", "-F", "-J", "size=4", image)
    disk, wrong, book, draw = Disk(image, f"{work}/disk"), [], Book(), random.Random(seed)
    os.mkdir(f"{disk.folder}/state")
    server, _ = serve(nbt, SERVER, f"{disk.folder}/state", library)
    try:
        time.sleep(LONGEST + 0.5)
        for number in range(HOSTS):
            threading.Thread(target=book.asks, args=(f"127.0.3.{number + 1}", random.Random(f"{seed} {number}")), daemon=True).start()
        time.sleep(1)
        for number in range(cuts):
            time.sleep(draw.uniform(0.01, 0.3))
            wrong += [f"cut {number}: {what}" for what in cut(nbt, work, image, server, book)]
    finally:
        book.is_over = True
        server.kill()
        disk.end()
    what = f"a disk that lost its power at {cuts} moments has what {book.replies} replies said"
    if library:
        return f"where a sync does nothing some of it is missing: {len(wrong)}", "" if wrong else what
    return what, f"{len(wrong)}, as {wrong[0]}" if wrong else ""
