"""The programs that contend: hosts, a name server, and Samba's nmbd, each started, killed, paused and listened to."""

import os
import random
import re
import selectors
import signal
import time
from pathlib import Path

import network
from judge import Line

# How `nbt nbns` begins where it had its leases still, also within the silence of its first start.
LEASES_KEPT = re.compile(r"^serving \S+, with ([0-9]+) leases? kept(, silent for .*)?$")

# A line of `nbt nbns` about a lease of nmbd's own name.
OWN_LEASE = re.compile(r"^\S+Z (?:granted|renewed) NMBD#20 \S+ unique ([0-9]+) s$")

# A line of `nbt host` about a name, as nbt-host(8) has it. Which suffix the name has plays no part.
ABOUT_A_NAME = re.compile(
    r"^\S+Z (granted|renewed|refused|asks again for|lost|lapsed|given back|give-back denied|give-back unconfirmed|not held)"
    r" ([A-Z0-9]+)#20\b"
)


class Program:
    """A program on a machine, that is started again after it ends. Each kind has its own `words`, which start it, and `read_line`."""

    def __init__(self, machine, book, poll):
        self.machine, self.book, self.poll = machine, book, poll
        self.name, self.running, self.life, self.paused_since, self.rest = machine.name, None, 0, None, b""

    def read_line(self, at, text):
        pass

    def silence(self):
        """For how many seconds after its start it may say nothing."""
        return 0

    def is_up(self):
        return self.running is not None

    def is_awake(self):
        return self.is_up() and self.paused_since is None

    def start(self):
        if self.is_up():
            return
        self.life += 1
        self.rest = b""
        self.running = network.starts(self.machine.name, *self.words())
        self.poll.register(self.running.stdout, selectors.EVENT_READ)
        self.machine.well_from = time.monotonic() + network.SETTLES + self.silence()
        self.book.note(f"{self.name} starts, {self.life}")

    def drain(self):
        """Reads the lines that are there. Returns whether more may come."""
        while self.running:
            try:
                octets = os.read(self.running.stdout.fileno(), 65536)
            except BlockingIOError:
                return True
            if not octets:
                return False
            *lines, self.rest = (self.rest + octets).split(b"\n")
            at = time.monotonic()
            for line in lines:
                text = line.decode(errors="replace")
                self.book.note(f"{self.name}: {text}")
                self.read_line(at, text)
        return False

    def kill(self):
        self.running.kill()
        at = time.monotonic()
        self.running.wait()
        self.drain()
        self.end(at)

    def end(self, at):
        self.end_pause(at)
        status = self.running.wait()
        self.poll.unregister(self.running.stdout)
        self.running.stdout.close()
        self.running = None
        self.book.ends[self.name, self.life] = at
        self.machine.well_from = float("inf")
        self.book.note(f"{self.name} ended with {status}")
        return status

    def pause(self):
        self.machine.disturb()
        self.running.send_signal(signal.SIGSTOP)
        self.paused_since = time.monotonic()
        self.book.note(f"{self.name} is paused")

    def resume(self):
        if self.paused_since is not None:
            self.book.note(f"{self.name} goes on")
            self.running.send_signal(signal.SIGCONT)
            self.end_pause(time.monotonic())

    def end_pause(self, at):
        if self.paused_since is not None:
            self.book.pauses[self.name].append((self.paused_since, at))
            self.paused_since = None
            self.machine.recover()


class Server(Program):
    def __init__(self, machine, book, poll, nbt, limits, longest, state, disk, lies):
        super().__init__(machine, book, poll)
        self.nbt, self.limits, self.longest, self.state, self.disk, self.lies = nbt, limits, longest, state, disk, lies
        self.on_start, self.has_begun, self.begun = None, False, 0.0  # when its last life began

    def words(self):
        kept = ["--state", self.state] if self.state else []
        disk = ["env", f"LD_PRELOAD={self.disk}", f"DISK_FOLDER={self.state}"] if self.disk else []
        disk += ["DISK_LIES=1"] if self.lies else []
        return [*disk, self.nbt, "nbns", "--bind", self.machine.address, *self.limits, "--longest", f"{self.longest}s", *kept]

    def silence(self):
        return 0 if self.state and self.life > 1 else self.longest

    def start(self):
        if not self.is_up():
            self.has_begun, self.begun = False, time.monotonic()
        super().start()

    def end(self, at):
        if not self.has_begun:
            self.book.counts["starts cut short"] += 1
        return super().end(at)

    def read_line(self, at, text):
        if lease := OWN_LEASE.match(text):
            self.book.leases.append((at, int(lease[1])))
        if not self.state or not text.startswith("serving "):
            return
        self.has_begun = True
        if kept := LEASES_KEPT.match(text):
            self.book.counts["starts with leases kept"] += 1
            self.book.starts.append((self.begun, at, int(kept[1])))
        elif self.life > 1:
            self.book.wrong["silent"].append(f"start {self.life}: {text}")
        if self.on_start:
            self.on_start()


class Host(Program):
    """`nbt host`, with names of its own alone and groups. Some starts, drawn by `ending`, give the names back after a while."""

    def __init__(self, machine, book, poll, nbt, limits, server, names, groups, seed, ending):
        super().__init__(machine, book, poll)
        self.nbt, self.limits, self.server = nbt, limits, server
        self.names, self.groups, self.seed, self.ending = names, groups, seed, ending

    def words(self):
        draw = random.Random(f"{self.seed} {self.name} {self.life}")
        ends_after = ["--for", f"{draw.randrange(15, 60)}s"] if draw.random() < self.ending else []
        groups = [word for group in self.groups for word in ("--group", group)]
        ends = ["--server", self.server, "--bind", self.machine.address]
        return [self.nbt, "host", *self.names, *groups, *ends, *self.limits, "--log", *ends_after]

    def read_line(self, at, text):
        if " slept, " in text:
            self.book.lines.append(Line(at, self.name, self.life, "slept", ""))
        elif said := ABOUT_A_NAME.match(text):
            line = Line(at, self.name, self.life, *said.groups())
            self.book.lines.append(line)
            self.book.counts[said[1]] += 1
            self.book.heard(self, line)


class Nmbd(Program):
    """Samba's nmbd, which wants one of the names, and one more that nobody else wants."""

    OWN = "NMBD"

    def __init__(self, machine, book, poll, folder, server, name):
        super().__init__(machine, book, poll)
        self.folder, self.names, self.groups = folder, [name], []
        os.makedirs(f"{folder}/run", exist_ok=True)
        settings = Path(f"{network.TOP}/tests/lib/smb.conf.txt").read_text().replace("FOLDER", folder).replace("NAME", name)
        own = f"netbios aliases = {self.OWN}\nwins server = {server}\nbind interfaces only = yes\ninterfaces = {machine.address}/24\n"
        Path(f"{folder}/smb.conf").write_text(settings + own)

    def words(self):
        # Without --debug-stdout it closes its output, by whose end its own is seen.
        return ["nmbd", "--foreground", "--no-process-group", "--debug-stdout", f"--configfile={self.folder}/smb.conf"]
