"""Datagrams for a name server, of three kinds: packets of other programs with something changed, octets at random, and packets that a
grammar makes (RFC 1002 section 4.2), with wrong and right parts in each place."""

import binascii
import re
import socket
import struct
from collections import defaultdict
from pathlib import Path

OWN = ("FILER", "DESK", "BOX")  # unique names that the owner holds, which nobody else may get
SHARED = "TEAM"  # a group of the owner, which others may join
NAMES = 100  # how many each sender has to choose from
OPCODES = (0, 5, 5, 5, 5, 6, 6, 8, 8, 9, 15, 15, 7, 1, 2, 3, 4, 10, 14)
RIGHT = (0x0100, 0x2900, 0x2900, 0x2900, 0x2800, 0x3000, 0x3000, 0x4000, 0x4800, 0x7900, 0x7800, 0x0000)  # flags of requests
FLAGS = (0x000, 0x010, 0x100, 0x100, 0x110, 0x080, 0x400, 0x200, 0x180, 0x500)  # of AA, TC, RD, RA, B
TIMES = (0, 1, 30, 300, 0x7FFFFFFF, 0x80000000, 0xFFFFFFFF)
COUNTS = (0, 1, 1, 1, 2, 255, 0xFFFF)
TYPES = (0x20, 0x20, 0x20, 0x21, 1, 2, 10, 255)
# What somebody might want to have written in a line, a list, a file of hosts or a file of statistics.
PIECES = (b"\n", b"\r\n", b"\x00", b"\x1b[2J", b" ", b"\t", b'"', b"}", b"{", b"#", b"%s%n", b"192.0.2.1 A", b"unique", b"\xff", b"a", b"-", b".", b"\\", b"*")


class Fuzz:
    def __init__(self, draw, net, ports, captured):
        self.draw, self.ports, self.net = draw, ports, net
        lines = Path(captured).read_text().splitlines()
        self.captured = [bytes.fromhex(found[1]) for line in lines if (found := re.match(r"(?:name|dgram) ([0-9a-f]+) ", line))]
        for port in ports:
            port.setsockopt(socket.SOL_SOCKET, socket.SO_BROADCAST, 1)
        self.addresses = [port.getsockname()[0] for port in ports]
        self.names = defaultdict(list)
        self.kinds = (self.changed, self.changed, self.made, self.made, self.made, self.made, self.made, self.random)

    def send(self):
        """Sends one. Where the own buffer is full it is sent again."""
        which = self.draw.randrange(len(self.ports))
        octets = self.draw.choice(self.kinds)(self.addresses[which])
        to = self.draw.random()
        place = (f"{self.net}.1", 137) if to < 0.95 else (f"{self.net}.1", 1137) if to < 0.99 else (f"{self.net}.255", 1137)
        while True:
            try:
                return self.ports[which].sendto(octets, place)
            except BlockingIOError:
                pass

    def random(self, address):
        most = 40 if self.draw.random() < 0.3 else 700 if self.draw.random() < 0.98 else 9000
        return self.draw.randbytes(self.draw.randrange(most))

    def changed(self, address):
        """One of other programs: octets are replaced, cut off, put in, or taken from another one; and maybe it speaks for its sender."""
        draw, octets = self.draw, bytearray(self.draw.choice(self.captured))
        if draw.random() < 0.3 and len(octets) >= 68:
            octets[-4:] = socket.inet_aton(address)
        for _ in range(draw.choice((0, 1, 1, 2, 3, 8))):
            place = draw.randrange(len(octets)) if octets else 0
            change = draw.randrange(6)
            if change == 0 and octets:
                octets[place] ^= 1 << draw.randrange(8)
            elif change == 1 and octets:
                octets[place] = draw.choice((0, 1, 0x20, 0x3F, 0xC0, 0xFF, draw.randrange(256)))
            elif change == 2:
                del octets[place:]
            elif change == 3:
                octets[place:place] = draw.choice(PIECES) * draw.choice((1, 1, 2, 40))
            elif change == 4:
                octets[place:] = draw.choice(self.captured)[place:]
            else:
                octets[place : place + 2] = struct.pack(">H", draw.choice(COUNTS))
        return bytes(octets)

    def name(self):
        """Sixteen octets."""
        draw, kind = self.draw, self.draw.random()
        if kind < 0.35:
            front = draw.choice((*OWN, SHARED, "PRINTER", "PRINTERS", "filer", "printer"))
        elif kind < 0.8:
            front = f"{draw.choice('HKXh')}{draw.randrange(60)}"
        else:
            octets = b"".join(draw.choice((*PIECES, b"A", b"Z9", draw.randbytes(1))) for _ in range(draw.randrange(1, 12)))
            return octets[:16].ljust(16, draw.choice((b" ", b"\x00", b"\n")))
        return front.encode().ljust(15)[:15] + bytes([draw.choice((0x20, 0x20, 0x20, 0x00, 0x03, 0x1C, 0x0A, draw.randrange(256)))])

    def wire(self):
        """The name's 32 letters, which may be wrong, and its scope, whose labels may have any octets."""
        draw, letters = self.draw, b"\x20" + binascii.hexlify(self.name()).translate(LETTERS)
        if draw.random() < 0.03:
            place = draw.randrange(len(letters))
            letters = letters[:place] + draw.randbytes(1) + letters[place + 1 :]
        for _ in range(draw.choice((0, 0, 0, 0, 0, 1, 2, 5))):
            label = b"".join(draw.choice((*PIECES, b"SCOPE", draw.randbytes(3))) for _ in range(draw.randrange(1, 6)))[:63]
            letters += bytes([len(label)]) + label
        return letters + (b"\x00" if draw.random() < 0.98 else draw.choice((b"", b"\xc0\x0c", b"\xc0\xff", b"\x40")))

    def spelled(self, address):
        """One of the names of this sender, of which one in fifty is a new one. It may have more than half of them at a time."""
        names, place = self.names[address], self.draw.randrange(NAMES)
        if place >= len(names):
            names.append(self.wire())
        elif self.draw.random() < 0.02:
            names[place] = self.wire()
        return names[min(place, len(names) - 1)]

    def made(self, address):
        """A header, questions and records, of which most fit each other."""
        draw, is_right = self.draw, self.draw.random() < 0.7
        wrong = 0x8000 * (draw.random() < 0.2) | draw.choice(OPCODES) << 11 | draw.choice(FLAGS) | draw.choice((0, 0, 3, 6))
        flags = draw.choice(RIGHT) if is_right else wrong
        has_record = flags >> 11 & 15 if is_right else draw.random() < 0.4
        counts = (1, 0, 0, int(bool(has_record))) if is_right else tuple(draw.choice(COUNTS) for _ in range(4))
        octets = struct.pack(">6H", draw.randrange(65536), flags, *counts)
        octets += self.spelled(address) + struct.pack(">HH", draw.choice(TYPES) if not is_right else 0x20, 1 if is_right else draw.choice((1, 1, 255)))
        if has_record:
            kind = draw.choice((0x2000, 0x2000, 0x2000, 0xA000, 0xA000, 0x0000, 0x6000, 0xFFFF))
            entry = struct.pack(">H", kind) + (socket.inet_aton(address) if draw.random() < 0.9 else draw.randbytes(4))
            named = b"\xc0\x0c" if draw.random() < 0.95 else self.wire()
            length = 6 if is_right else draw.choice((6, 0, 5, 7, 0xFFFF))
            octets += named + struct.pack(">HHLH", 0x20, 1, draw.choice(TIMES), length) + entry
        return octets + (draw.randbytes(draw.randrange(20)) if draw.random() < 0.05 else b"")


LETTERS = bytes.maketrans(b"0123456789abcdef", b"ABCDEFGHIJKLMNOP")
