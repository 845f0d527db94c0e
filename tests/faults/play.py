"""Plays a run: starts the programs, has the faults come, asks all the while, and writes down what is said."""

import heapq
import random
import selectors
import subprocess
import sys
import time
from collections import Counter, defaultdict
from functools import partial
from itertools import count

import faults
import judge
import line
import network
import packets
from judge import Answer, Told
from programs import Host, Nmbd, Server

LIFE = "500ms"  # the greatest life of a datagram
CONTENDED = ["ALPHA", "BRAVO", "CHARLIE"]  # each host wants each of them for itself
MIXED = "MIXED"  # half of the hosts want it for themselves, half as a group
GROUPS = ["TEAM", "STAFF"]
ASKS_HOSTS, ASKS_GROUPS, ASKS_PAUSED, ASKS_SERVER, CHECKS = 0.2, 2.0, 1.0, 0.5, 1.0  # seconds between questions
PATIENCE = 1.0  # how long a health check waits for its reply
MANY = 64  # how many datagrams are read at once at most
QUIET = 120  # for how many seconds the hosts may take to get all free names once the faults are over


def datagrams(port):
    for _ in range(MANY):
        try:
            yield port.recvfrom(2048)
        except OSError:
            return


class Book:
    """What is written down of a run: lines, answers, pauses, ends and counts, and a log with the seconds of the run."""

    def __init__(self, path):
        self.log = open(path, "w", buffering=1)
        self.begun = time.monotonic()
        self.lines, self.answers, self.told = [], [], []
        self.leases = []  # of a name of nmbd's own: when the server said that one begins, and for how many seconds
        self.starts = []  # of a server that keeps its leases: when it was begun, when it said so, and how many leases it had
        self.ends = {}  # when each life of each program was over
        self.pauses = defaultdict(list)
        self.counts = Counter()
        self.wrong = defaultdict(list)  # what should not have been, under the row that it fails
        self.heard = None  # called with each line of a host

    def note(self, text):
        self.log.write(f"{time.monotonic() - self.begun:10.4f} {text}\n")

    def say(self, text):
        print(text, flush=True)
        self.note(text)


class Play:
    def __init__(self, work, net, nbt, told, hosts, longest, rates, state, disk, lies):
        self.book = Book(f"{work}/log")
        self.nbt, self.seed, self.longest, self.contended = nbt, told.seed, longest, [*CONTENDED, MIXED]
        self.poll, self.heard = selectors.DefaultSelector(), {}
        self.tasks, self.ids, self.turns = [], count(), count()
        self.bad, self.cut = set(), set()
        self.rates, self.begun, self.calm, self.settled = rates, 0, 0, False
        self.armed, self.asked, self.checks = {}, {}, {}
        self.user, self.stranger = network.Machine("user", net, 2), network.Machine("stranger", net, 3)
        for number in range(4, 7):
            network.ip("stranger", f"addr add {net}.{number}/24 dev eth0")
        limits = ["--life", LIFE, "--log"]
        machine = network.Machine("server", net, 1)
        self.server = Server(machine, self.book, self.poll, nbt, limits, longest, state, disk, lies)
        self.server.on_start = self.ask_server
        self.hosts = [self.host(network.Machine(f"h{number}", net, 10 + number)) for number in range(1, hosts + 1)]
        if told.rival:
            last = self.hosts[-1].machine
            self.hosts[-1] = Nmbd(last, self.book, self.poll, f"{work}/nmbd", self.server.machine.address, CONTENDED[0])
            version = subprocess.run(["nmbd", "--version"], capture_output=True, text=True).stdout.strip()
            self.book.say(f"rival {self.hosts[-1].name}: nmbd {version}")
        self.programs = [self.server, *self.hosts]
        self.strangers = [self.stranger.port(137, f"{net}.{number}") for number in range(3, 7)]
        self.book.heard = self.on_line
        self.ports = {host.name: self.listen(host.machine.port(), self.on_answer, host) for host in self.hosts}
        self.checking = self.listen(self.user.port(), self.on_check)

    def host(self, machine):
        names, groups = (CONTENDED, [*GROUPS, MIXED]) if machine.number % 2 else ([*CONTENDED, MIXED], GROUPS)
        limits = ["--life", LIFE, "--longest", f"{self.longest}s"]
        # Where nothing else takes a name from a host, more of them release theirs, so that others get them.
        ending = 0.2 if self.rates.for_each_host else 0.6
        server = self.server.machine.address
        return Host(machine, self.book, self.poll, self.nbt, limits, server, names, groups, self.seed, ending)

    def after(self, seconds, task):
        heapq.heappush(self.tasks, (time.monotonic() + seconds, next(self.ids), task))

    def every(self, seconds, task):
        task()
        self.after(seconds, lambda: self.every(seconds, task))

    def listen(self, source, heard, *more):
        """Calls `heard` when something is there to be read."""
        self.poll.register(source, selectors.EVENT_READ)
        self.heard[source] = lambda: heard(source, *more)
        return source

    def unlisten(self, source):
        self.poll.unregister(source)
        del self.heard[source]
        source.close()

    def play_until(self, until, is_over=lambda: False):
        """Until that moment, or until it is over, does what is due, and reads what is there: the hosts' lines before their answers."""
        while (now := time.monotonic()) < until and not is_over():
            while self.tasks and self.tasks[0][0] <= now:
                heapq.heappop(self.tasks)[2]()
            next_due = min(self.tasks[0][0] if self.tasks else until, until)
            ready = self.poll.select(max(0, next_due - time.monotonic()))
            self.read_programs()
            for key, _ in ready:
                if key.fileobj in self.heard:
                    self.heard[key.fileobj]()

    def read_programs(self):
        """Reads what programs wrote. One that ended by itself is started again."""
        for program in self.programs:
            if program.running and not program.drain() and program.running:
                gave_back = program.running.args[-2:-1] == ["--for"]
                status = program.end(time.monotonic())
                if gave_back and status in (0, 5):
                    self.book.counts["ends"] += 1
                elif isinstance(program, Nmbd):
                    self.book.counts["ends of nmbd"] += 1
                else:
                    self.book.wrong["ended"].append(f"{program.name} ended with {status}")
                self.after(random.Random(f"{self.seed} {program.name} {program.life}").uniform(0.1, 6), program.start)

    def helper(self, namespace, script, words, over):
        self.on_end(network.starts(namespace, sys.executable, script, *map(str, words)), over)

    def on_end(self, running, over):
        """Hands on what a program said, when it ends."""
        said = []

        def heard(source):
            if octets := source.read():
                said.append(octets)
            elif octets == b"":
                self.unlisten(source)
                running.wait()
                over(b"".join(said).decode())

        self.listen(running.stdout, heard)

    def arm(self, host, delay):
        """The host is killed when its next request is seen at the hub."""
        if host.name in self.armed:
            return
        tap = line.link(host.machine.link)
        tap.setblocking(False)
        self.armed[host.name] = tap
        self.listen(tap, self.on_frame, host, delay)
        self.after(25, lambda: self.disarm(host.name, tap))

    def disarm(self, name, tap):
        if self.armed.get(name) is tap:
            del self.armed[name]
            self.unlisten(tap)

    def on_frame(self, tap, host, delay):
        for frame, _ in datagrams(tap):
            seen = packets.payload_of(frame)
            if seen and seen[0] == host.machine.address and packets.is_request_about_a_name(seen[1]) and host.is_up():
                host.kill()
                self.book.counts["kills"] += 1
                self.book.counts["kills at a request"] += 1
                self.disarm(host.name, tap)
                self.after(delay, host.start)
                return

    # Questions to the hosts, on their own machines, so that no fault of the network touches them.

    def on_line(self, host, line):
        """Where a name was granted, all others are asked for it at once."""
        if line.event == judge.GRANTED and line.name in self.contended:
            for other in [other for other in self.hosts if other is not host]:
                self.ask(other, line.name)

    def ask(self, host, name):
        if not host.is_up() or name not in host.names + host.groups:
            return
        number = next(self.ids) & 0xFFFF
        self.asked[host.name, number] = (time.monotonic(), host.life, name)
        try:
            self.ports[host.name].sendto(packets.query(number, name), (host.machine.address, 137))
            self.book.counts["questions"] += 1
        except OSError:
            pass  # its own link is down

    def ask_all(self, names, paused):
        for host in self.hosts:
            if host.is_up() and host.is_awake() != paused:
                for name in names:
                    self.ask(host, name)

    def on_answer(self, port, host):
        """A host answered. What it printed before is read first."""
        for octets, sender in datagrams(port):
            host.drain()
            came = time.monotonic()
            question = self.asked.pop((host.name, packets.number_of(octets)), None)
            if question and sender[0] == host.machine.address and packets.entries_of(octets):
                asked, life, name = question
                self.book.answers.append(Answer(asked, came, host.name, life, name))

    def names(self):
        return [*self.contended, *GROUPS, *(host.OWN for host in self.hosts if isinstance(host, Nmbd))]

    def ask_server_next(self):
        names = self.names()
        self.ask_server([names[next(self.turns) % len(names)]])

    def ask_server(self, names=None):
        """Has `nbt lookup` ask the server who has these names; each at once, as after a start with its leases, where none is given."""
        for name in names or self.names():
            words = ["lookup", name, "--server", self.server.machine.address, "--tries", "1", "--wait", "900ms"]
            self.on_end(network.starts(self.user.name, self.nbt, *words), partial(self.on_told, time.monotonic(), name))

    def on_told(self, asked, name, said):
        lines = said.splitlines()
        if lines and lines[0] != "no reply":
            addresses = tuple(line.split()[0] for line in lines if line[:1].isdigit())
            self.book.told.append(Told(asked, time.monotonic(), name, addresses))

    def check_all(self):
        """Asks each machine that is well something that it has to answer, over the network."""
        now = time.monotonic()
        for program in self.programs:
            if program.is_awake() and program.machine.is_well(now):
                number = next(self.ids) & 0xFFFF
                octets = packets.query(number, "NOBODY") if program is self.server else packets.status_request(number)
                self.checks[number] = (program, program.life, now)
                self.checking.sendto(octets, (program.machine.address, 137))
                self.after(PATIENCE, lambda number=number: self.miss(number))

    def on_check(self, port):
        for octets, sender in datagrams(port):
            check = self.checks.get(packets.number_of(octets))
            if check and sender[0] == check[0].machine.address:
                del self.checks[packets.number_of(octets)]
                self.book.counts["health checks"] += 1

    def miss(self, number):
        """No reply came in time. That counts where the machine was well all the while."""
        check = self.checks.pop(number, None)
        if check and check[0].life == check[1] and check[0].is_awake() and check[0].machine.is_well(check[2]):
            self.book.counts["health checks"] += 1
            self.book.wrong["health"].append(f"{check[0].name} asked at {check[2] - self.book.begun:.1f}")

    def begin(self):
        """Starts all, and the questions. An nmbd that starts while the server is silent gives up, so it waits where that ends."""
        for program in self.programs:
            if isinstance(program, Nmbd) and self.server.state:
                self.after(self.longest + 2, program.start)
            else:
                program.start()
        self.every(ASKS_HOSTS, lambda: self.ask_all(self.contended, False))
        self.every(ASKS_GROUPS, lambda: self.ask_all(GROUPS, False))
        self.every(ASKS_PAUSED, lambda: self.ask_all(self.contended, True))
        self.every(ASKS_SERVER, self.ask_server_next)
        self.every(CHECKS, self.check_all)
        self.after(60, lambda: self.every(60, self.say_progress))

    def run(self, seconds):
        """The faults, for so many seconds, and then a time without any."""
        self.begin()
        if self.server.state:
            # Its first start is silent. From then on it has leases to keep.
            self.play_until(self.book.begun + self.longest + 10)
        self.begun = begun = time.monotonic()
        for event in faults.schedule(self.seed, seconds, len(self.hosts), self.rates):
            self.play_until(begun + event.at)
            event.fault(self, self.hosts[event.target], event.draw)
        self.play_until(begun + seconds)
        for name, tap in list(self.armed.items()):
            self.disarm(name, tap)
        self.calm = time.monotonic()
        self.book.note("no more faults come")
        self.settled = self.settles()

    def settles(self):
        """Waits until the last faults are over, and then until all is held, some time at most. Returns whether it is."""
        self.play_until(self.calm + (self.longest + 25 if self.rates.for_each_host else 5))
        while not self.is_settled():
            if time.monotonic() > self.calm + QUIET:
                return False
            self.play_until(time.monotonic() + 1)
        return True

    def is_settled(self):
        """Whether each name is held now: one that a host wants for itself by anybody, a group by all hosts."""
        now = time.monotonic()
        recent = [answer for answer in self.book.answers[-4000:] if answer.asked > now - ASKS_GROUPS - 1]
        holders = {name: {answer.host for answer in recent if answer.name == name} for name in [*self.contended, *GROUPS]}
        hosts = {host.name for host in self.hosts if isinstance(host, Host)}
        return all(holders[name] for name in self.contended) and all(holders[name] == hosts for name in GROUPS)

    def control(self):
        """Breaks a premise: the server is silent for half as long as it granted names for. The holder is cut off meanwhile."""
        self.begin()
        self.play_until(self.book.begun + self.longest + 40, lambda: self.last_line("renewed", CONTENDED[0]))
        renewed = self.last_line("renewed", CONTENDED[0])
        if not renewed:
            return
        holder = next(host for host in self.hosts if host.name == renewed.host)
        holder.machine.cut(True)
        for program in [self.server, *self.hosts]:
            if program is not holder:
                program.kill()
        self.server.longest //= 2
        for program in self.programs:
            program.start()
        self.play_until(time.monotonic() + self.longest)

    def last_line(self, event, name):
        return next((line for line in reversed(self.book.lines) if (line.event, line.name) == (event, name)), None)

    def say_progress(self):
        counts = self.book.counts
        minutes = (time.monotonic() - self.book.begun) / 60
        doing = ", ".join(f"{counts[word]} {word}" for word in ("kills", "pauses", "cuts", "granted", "lapsed"))
        self.book.say(f"{minutes:4.0f} min: {doing}, {len(self.book.answers)} answers")

    def end(self):
        for program in self.programs:
            if program.is_up():
                program.kill()

