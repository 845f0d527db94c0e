"""Machines with clocks and a boot of their own, name servers on them that keep their leases, and hosts that count by the true clock.

The true clock is the monotonic one of the machine on which all of this runs, which nobody sets. A server's machine has clocks that
differ from it (clocks.c); a host's has not.
"""

import mmap
import os
import re
import struct
import tempfile
import threading
import time
import uuid
from functools import partialmethod
from pathlib import Path

import packets
from packets import Asking, udp
from running import Running

LIFE = "500ms"
LONGEST = 30  # seconds: the least that is accepted
STEADY, DAY, READING, STALL, LATE, SYNC = range(6)  # the numbers of clocks.c
NUMBERS = 8 * 6  # their octets
PACE = 0.02  # seconds between two requests of a rival


def hold(seconds):
    """For how many seconds a node holds a name from its first sending on, where it was granted for so many (`hold` of nbt_lease)."""
    return ((1000 * seconds - 1) * 999 // 1001 - 1) / 1000


def is_granted(octets):
    return bool(octets) and not octets[3] & 0x0F


class Machine:
    def __init__(self, library, folder, uptime):
        self.environment = dict(os.environ, LD_PRELOAD=library, CLOCKS=f"{folder}/clocks", BOOT_ID=f"{folder}/boot_id")
        Path(f"{folder}/clocks").write_bytes(bytes(NUMBERS))
        with open(f"{folder}/clocks", "rb+") as file:
            self.numbers = mmap.mmap(file.fileno(), NUMBERS)
        self.boot(uptime)

    def put(self, number, value):
        struct.pack_into("<q", self.numbers, 8 * number, value)

    def step(self, number, seconds):
        (before,) = struct.unpack_from("<q", self.numbers, 8 * number)
        self.put(number, before + round(1000 * seconds))

    def boot(self, uptime):
        """It is in another boot, in which its steady clock reads so many seconds."""
        self.boot_id = str(uuid.uuid4())
        Path(self.environment["BOOT_ID"]).write_text(f"{self.boot_id}\n")
        self.put(STEADY, round(1000 * (uptime - time.monotonic())))

    def times(self):
        """What its steady clock and its time of day read, in milliseconds."""
        steady, day = struct.unpack_from("<2q", self.numbers)
        return round(1000 * time.monotonic()) + steady, round(1000 * time.time()) + day


class Server(Running):
    """A name server that keeps its leases in a folder, at an address of its own. `around` are the words of a command that starts it."""

    def __init__(self, nbt, address, folder, longest=LONGEST, words=(), around=(), **how):
        kept = ["--life", LIFE, "--longest", f"{longest}s", "--state", folder, "--changes-per-client", "0"]
        super().__init__([*around, nbt, "nbns", "--bind", address, *kept, *words], **how)

    def line(self):
        """Its first line; what there is of it where it doesn't come."""
        return self.says() or self.said()


class Host(Asking):
    def __init__(self, address, server):
        super().__init__(udp(address, 137), (server, 137))
        self.address = address

    def ask(self, flags, name, seconds=LONGEST, patience=0.5):
        """Asks for a name for so many seconds, or to renew it: when its hold ends, if that was granted, else None."""
        begun = time.monotonic()
        octets = self.replied(flags, name, seconds, patience)
        return begun + hold(int.from_bytes(octets[-12:-8], "big")) if is_granted(octets) else None

    register = partialmethod(ask, packets.REGISTRATION)
    refresh = partialmethod(ask, packets.REFRESH)

    def is_refused(self, name, patience=0.5):
        """Whether the server says that another machine has the name (ACT_ERR)."""
        octets = self.replied(packets.REGISTRATION, name, LONGEST, patience)
        return bool(octets) and octets[3] & 0x0F == 6

    def holders(self, name, patience=0.5):
        """Whom the server says the name belongs to: None without any reply."""
        octets = self.told(name, patience)
        return [address for _, address in packets.entries_of(octets)] if octets else None


class Rival(threading.Thread):
    """A host that asks for a name all the while, until it is granted. `granted` says when that was."""

    def __init__(self, host, name, pace=PACE):
        super().__init__(daemon=True)
        self.host, self.name, self.pace, self.granted, self.is_over = host, name, pace, None, False
        self.start()

    def run(self):
        octets = packets.request(1, packets.REGISTRATION, self.name, packets.UNIQUE, self.host.address, LONGEST)
        self.host.number = 1  # each request is the first one, sent again, so that each reply counts, however late
        while not self.granted and not self.is_over:
            until = time.monotonic() + self.pace
            self.host.port.sendto(octets, self.host.server)
            while not self.granted and (reply := self.host.reply(until - time.monotonic())):
                self.granted = time.monotonic() if is_granted(reply) else None

    def waits(self, until):
        """When it was granted the name, which is waited for until that moment; or None."""
        self.join(max(0, until - time.monotonic()))
        self.is_over = True
        self.join()
        return self.granted


class Holder(threading.Thread):
    """A host that holds names for so many seconds each, and refreshes them all the while. `ends` has when each hold ends, and `lost` the
    names whose hold ended before a refresh renewed it."""

    def __init__(self, host, names, seconds):
        super().__init__(daemon=True)
        self.host, self.seconds, self.is_over, self.lost = host, seconds, False, set()
        self.ends = {name: host.register(name, seconds) or 0 for name in names}
        self.start()

    def run(self):
        while not self.is_over:
            for name, end in self.ends.items():
                if time.monotonic() > end:
                    self.lost.add(name)
                self.ends[name] = max(end, self.host.refresh(name, self.seconds, patience=0.4) or 0)
            time.sleep(0.5)

    def stop(self):
        self.is_over = True
        self.join()


class Net:
    """A network of the loopback, which no two scenes share, and a folder for the server at its first address."""

    def __init__(self, lab, number, machine=None):
        self.lab, self.net, self.machine, self.folder = lab, f"127.{1 + number // 250}.{1 + number % 250}", machine, lab.folder()

    def at(self, number):
        return f"{self.net}.{number}"

    def host(self, number, server=1):
        return Host(self.at(number), self.at(server))

    def rival(self, number, name, server=1, **how):
        return Rival(self.host(number, server), name, **how)

    def serve(self, number=1, machine=None, folder=None, **how):
        """A server over the folder, or another one. Without a machine it has the clocks of the one on which all of this runs."""
        machine = machine or self.machine
        server = Server(self.lab.nbt, self.at(number), folder or self.folder, env=machine and machine.environment, **how)
        self.lab.servers.append(server)
        return server

    def speaking(self, **how):
        """A server over an empty folder, whose silence is over."""
        server = self.serve(**how)
        server.line()
        time.sleep(LONGEST + 0.3)
        return server


class Lab:
    def __init__(self, nbt, library, work):
        self.nbt, self.library, self.work = nbt, library, work
        self.lock, self.networks, self.servers = threading.Lock(), 0, []

    def net(self, machine=None):
        with self.lock:
            self.networks += 1
            return Net(self, self.networks, machine)

    def folder(self):
        return tempfile.mkdtemp(dir=self.work)

    def machine(self, uptime=5000):
        return Machine(self.library, self.folder(), uptime)

    def end(self):
        for server in self.servers:
            server.kill()


def kept(leases, more=r"(, silent for 1 s until \S+)?"):
    """The pattern of a first line that says that so many leases were kept, and that it is silent for no longer than a second."""
    return rf"serving \S+, with {leases} lease{'' if leases == 1 else 's'} kept{more}"


def unlike(line, pattern):
    return "" if re.fullmatch(pattern, line) else f"it says {line!r}"
