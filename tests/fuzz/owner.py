"""A client whose names and replies are known: it holds names at the server, and asks what has one right reply."""

import itertools
import time

from datagrams import OWN, SHARED
from packets import ACTIVE, GROUP, REFRESH, REGISTERED, REGISTRATION, RELEASE, UNIQUE, Asking, entries_of, flags_of, query, request

FOUND, NOT_FOUND, NOT_ALLOWED = 0x8580, 0x8583, 0xAD85
RELEASED, NOT_RELEASED = 0xB400, 0xB406
TTL = 30
RENEWS = 5.0  # seconds between two refreshes of its names
TRIES = 4


class Owner:
    def __init__(self, machine, stranger, net, draw):
        self.asking = Asking(machine.port(137), (f"{net}.1", 137))
        self.other = Asking(stranger.port(), (f"{net}.1", 137))
        self.neighbour = Asking(machine.port(), (f"{net}.1", 137))
        self.address, self.net, self.draw = machine.address, net, draw
        self.asked, self.renewed, self.cycle, self.cycles = 0, 0.0, None, itertools.count(1)
        self.questions = [*[self.own] * 8, self.group, self.fixed, self.nobody, self.taken, self.not_own, self.not_allowed, self.other_releases, self.come_and_go]

    def said(self, what, asking, octets_of, is_right):
        """Asks, again where a reply is lost, and says what was wrong with it."""
        self.asked += 1
        for _ in range(TRIES):
            asking.send(octets_of)
            octets = asking.reply(0.5)
            if octets:
                return [] if is_right(octets) else [f"{what}: {octets.hex()}"]
        return [f"{what}: no reply"]

    def claim(self, asking, flags, name, kind, wanted, address=None, ttl=TTL):
        octets_of = lambda number: request(number, flags, name, kind, address or self.address, ttl)  # noqa: E731
        return self.said(f"{flags:04x} of {name}", asking, octets_of, lambda octets: flags_of(octets) == wanted)

    def find(self, name, is_right):
        right = lambda octets: flags_of(octets) == FOUND and is_right(entries_of(octets))  # noqa: E731
        return self.said(f"query of {name}", self.neighbour, lambda number: query(number, name), right)

    def lack(self, name):
        return self.said(f"query of {name}", self.neighbour, lambda number: query(number, name), lambda octets: flags_of(octets) == NOT_FOUND)

    def begin(self):
        """Registers its names."""
        self.renewed = time.monotonic()
        wrong = [it for name in OWN for it in self.claim(self.asking, REGISTRATION, name, UNIQUE, REGISTERED)]
        return wrong + self.claim(self.asking, REGISTRATION, SHARED, GROUP, REGISTERED)

    def renew(self):
        self.renewed = time.monotonic()
        wrong = [it for name in OWN for it in self.claim(self.asking, REFRESH, name, UNIQUE, REGISTERED)]
        return wrong + self.claim(self.asking, REFRESH, SHARED, GROUP, REGISTERED)

    def ask(self):
        """One of the questions; and the names are refreshed when it is time."""
        renewed = self.renew() if time.monotonic() - self.renewed > RENEWS else []
        return renewed + self.draw.choice(self.questions)()

    def ask_all(self):
        """What must hold after a restart."""
        return [it for name in OWN for it in self.find(name, self.is_mine)] + self.group()

    def is_mine(self, entries):
        return entries == [(UNIQUE, self.address)]

    def own(self):
        return self.find(self.draw.choice(OWN), self.is_mine)

    def group(self):
        return self.find(SHARED, lambda entries: (GROUP, self.address) in entries)

    def fixed(self):
        if self.draw.random() < 0.5:
            return self.find("PRINTER", lambda entries: entries == [(UNIQUE, f"{self.net}.99")])
        return self.find("PRINTERS", lambda entries: entries == [(GROUP, f"{self.net}.{number}") for number in (98, 99)])

    ask_fixed = fixed

    def nobody(self):
        return self.lack("NOBODY-HAS-IT")

    def taken(self):
        """A fixed name is another machine's, for the owner too."""
        return self.claim(self.asking, REGISTRATION, "PRINTER", UNIQUE, ACTIVE)

    def not_own(self):
        return self.claim(self.asking, REGISTRATION, "NOT-ITS-OWN", UNIQUE, NOT_ALLOWED, address=f"{self.net}.77")

    def not_allowed(self):
        """A machine of another network may register nothing."""
        address = self.other.port.getsockname()[0]
        return self.claim(self.other, REGISTRATION, "FAR-AWAY", UNIQUE, NOT_ALLOWED, address=address)

    def other_releases(self):
        """Nor release what another machine has."""
        address = self.other.port.getsockname()[0]
        return self.claim(self.other, RELEASE, self.draw.choice(OWN), UNIQUE, NOT_RELEASED, address=address, ttl=0)

    def come_and_go(self):
        """A name that nobody else asks for is registered, found, released, and had by nobody."""
        if self.cycle:
            name, self.cycle = self.cycle, None
            return [*self.claim(self.asking, RELEASE, name, UNIQUE, RELEASED, ttl=0), *self.lack(name)]
        self.cycle = f"CYCLE{next(self.cycles)}"
        return [*self.claim(self.asking, REGISTRATION, self.cycle, UNIQUE, REGISTERED), *self.find(self.cycle, self.is_mine)]
