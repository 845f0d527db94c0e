"""Name service packets (RFC 1002 section 4.2), as far as scripts write and read them, and a host that asks a name server, request by
request."""

import socket
import struct
import time

UNIQUE, GROUP = 0x2000, 0xA000  # NB_FLAGS of a P node (RFC 1002 section 4.2.1.3)
NB, NBSTAT, IN = 0x0020, 0x0021, 0x0001
REGISTRATION, REFRESH, RELEASE = 0x2900, 0x4000, 0x3000  # flags of requests
REGISTERED, ACTIVE, CONFLICT, WAIT = 0xAD80, 0xAD86, 0xAD87, 0xBC00  # flags of replies


def wire(name):
    """The wire form of NAME<20>, or of the name * (RFC 1001 section 14.1)."""
    octets = b"*" + bytes(15) if name == "*" else name.encode().ljust(15) + b"\x20"
    return b"\x20" + bytes(0x41 + half for octet in octets for half in (octet >> 4, octet & 15)) + b"\x00"


def header(number, flags, questions, answers=0, additional=0):
    return struct.pack(">6H", number, flags, questions, answers, 0, additional)


def record(kind, address, ttl):
    """What follows the name of a record with one entry (RFC 1002 section 4.2.1.3)."""
    return struct.pack(">HHLHH", NB, IN, ttl, 6, kind) + socket.inet_aton(address)


def query(number, name):
    """A name query request (RFC 1002 section 4.2.12)."""
    return header(number, 0x0100, 1) + wire(name) + struct.pack(">HH", NB, IN)


def status_request(number):
    """A node status request (RFC 1002 section 4.2.17)."""
    return header(number, 0, 1) + wire("*") + struct.pack(">HH", NBSTAT, IN)


def request(number, flags, name, kind, address, ttl):
    """A registration, refresh or release (RFC 1002 sections 4.2.2, 4.2.4 and 4.2.9)."""
    question = wire(name) + struct.pack(">HH", NB, IN)
    return header(number, flags, 1, 0, 1) + question + b"\xc0\x0c" + record(kind, address, ttl)


def reply(number, flags, name, kind, address, ttl):
    """A response to one of these, or one that demands a name (RFC 1002 sections 4.2.5 to 4.2.8 and 4.2.16)."""
    return header(number, flags, 0, 1) + wire(name) + record(kind, address, ttl)


def number_of(octets):
    """NAME_TRN_ID of a response, or None."""
    return int.from_bytes(octets[:2], "big") if len(octets) >= 12 and octets[2] & 0x80 else None


def flags_of(octets):
    return int.from_bytes(octets[2:4], "big") if len(octets) >= 12 else 0


def entries_of(octets):
    """The kinds and addresses of a positive query response (RFC 1002 section 4.2.13); of another packet none."""
    if len(octets) < 56 or octets[2] & 0xF8 != 0x80 or octets[3] & 0x0F or octets[6:8] != b"\x00\x01":
        return []
    kind, length = octets[46:48], int.from_bytes(octets[54:56], "big")
    if octets[12] != 0x20 or kind != struct.pack(">H", NB):
        return []
    entries = [octets[place : place + 6] for place in range(56, min(56 + length, len(octets)) - 5, 6)]
    return [(GROUP if entry[0] & 0x80 else UNIQUE, socket.inet_ntoa(entry[2:])) for entry in entries]


def is_request_about_a_name(octets):
    """Whether it is a registration, refresh or release."""
    return len(octets) > 12 and not octets[2] & 0x80 and octets[2] >> 3 & 15 in (5, 6, 8, 9)


def payload_of(frame):
    """The sender's address and the octets of a UDP datagram to port 137 in an Ethernet frame, or None."""
    if frame[12:14] != b"\x08\x00" or len(frame) < 42 or frame[23] != 17:
        return None
    data = 14 + (frame[14] & 15) * 4
    return (socket.inet_ntoa(frame[26:30]), frame[data + 8 :]) if frame[data + 2 : data + 4] == b"\x00\x89" else None


class Asking:
    """It asks from a port the server at an endpoint."""

    def __init__(self, port, server):
        self.port, self.server, self.number = port, server, 0

    def send(self, octets_of):
        """Sends a request: its octets are those that belong to its number."""
        self.number = self.number % 65535 + 1
        self.port.sendto(octets_of(self.number), self.server)

    def reply(self, seconds):
        """The reply to the last request, if it comes in so long."""
        until = time.monotonic() + seconds
        while (left := until - time.monotonic()) > 0:
            self.port.settimeout(left)
            try:
                octets = self.port.recv(600)
            except TimeoutError:
                return b""
            if number_of(octets) == self.number:
                return octets
        return b""

    def replied(self, flags, name, seconds, patience=1.0):
        address = self.port.getsockname()[0]
        self.send(lambda number: request(number, flags, name, UNIQUE, address, seconds))
        return self.reply(patience)

    def told(self, name, patience=0.5):
        self.send(lambda number: query(number, name))
        return self.reply(patience)


def udp(address, port=0):
    made = socket.socket(socket.AF_INET, socket.SOCK_DGRAM)
    made.bind((address, port))
    return made
