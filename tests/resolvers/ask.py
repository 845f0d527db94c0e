"""Asks a resolver on this host for the addresses of a name (RFC 1035), and prints them, or `none`.

Usage: ask.py NAME PORT
"""

import socket
import struct
import sys

ID = 7


def question(name):
    labels = b"".join(bytes([len(label)]) + label.encode() for label in name.split("."))
    return struct.pack(">HHHHHH", ID, 0x0100, 1, 0, 0, 0) + labels + struct.pack(">BHH", 0, 1, 1)


def addresses(at, reply):
    """The addresses of a reply, each of whose answers points back to the name that was asked for; they begin at that place."""
    number, _, _, answers = struct.unpack(">HHHH", reply[:8])
    if number != ID:
        sys.exit("another reply")
    for _ in range(answers):
        kind, _, _, size = struct.unpack(">HHIH", reply[at + 2 : at + 12])
        if kind == 1:
            yield socket.inet_ntoa(reply[at + 12 : at + 12 + size])
        at += 12 + size


with socket.socket(socket.AF_INET, socket.SOCK_DGRAM) as port:
    port.settimeout(2)
    port.sendto(question(sys.argv[1]), ("127.0.0.1", int(sys.argv[2])))
    print(" ".join(sorted(addresses(len(question(sys.argv[1])), port.recv(512)))) or "none")
