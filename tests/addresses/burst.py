#!/usr/bin/env python3
"""Sends a name server a burst of requests, from two sockets to all of its addresses in turn, and looks from which address each reply comes.

    tests/addresses/burst.py FLAGS PROCESS PORT ADDRESS..

The server is this process, at this port of these addresses. It is stopped until all requests wait at its sockets: so with a state the
replies to claims wait for a sync, while a front replies at once to what it decides. FLAGS are those of the claims: 2900 is a registration,
7900 one by OPCODE 15. Prints each request without a reply, and each whose reply comes from another address than the one that was asked.
The last line has the RCODEs of the replies to claims by OTHER and of FIXED. The status is 0 where each request has its reply.
"""

import os
import select
import signal
import sys
import time

sys.dont_write_bytecode = True
sys.path.insert(1, f"{os.path.dirname(os.path.realpath(__file__))}/../lib")
import packets  # noqa: E402

OWN, OTHER, FIXED = "10.137.1.9", "10.137.1.10", "PRINTER"
COUNT, PATIENCE = 30, 3.0  # requests, and for how many seconds their replies are waited for


def requests(flags):
    """Each request: its kind, its sender and its octets. What changes a lease comes before what a front decides."""
    for number in range(0, COUNT, 5):
        for place, (kind, sender, name) in enumerate([
            ("claim", OWN, f"FIRST{number}"),
            ("claim", OWN, f"SECOND{number}"),
            ("question", OWN, FIXED),
            (f"claim by {OTHER}", OTHER, f"THIRD{number}"),
            (f"claim of {FIXED}", OWN, FIXED),
        ], number):
            if kind == "question":
                yield kind, sender, packets.query(place, name)
            else:
                yield kind, sender, packets.request(place, flags, name, packets.UNIQUE, sender, 30)


def main(flags, process, port, *addresses):
    sockets, asked, rcodes = {it: packets.udp(it) for it in (OWN, OTHER)}, {}, {}
    os.kill(int(process), signal.SIGSTOP)
    for number, (kind, sender, octets) in enumerate(requests(int(flags, 16))):
        end = (addresses[number % len(addresses)], int(port))
        sockets[sender].sendto(octets, end)
        asked[number] = (kind, end)
    os.kill(int(process), signal.SIGCONT)
    is_right, until = True, time.monotonic() + PATIENCE
    while asked and (left := until - time.monotonic()) > 0:
        for socket in select.select([*sockets.values()], [], [], left)[0]:
            octets, end = socket.recvfrom(600)
            kind, wanted = asked.pop(packets.number_of(octets))
            rcodes.setdefault(kind, set()).add(packets.flags_of(octets) & 15)
            if end != wanted:
                is_right = False
                print(f"{kind} at {wanted[0]}: a reply from {end[0]}")
    for kind, wanted in asked.values():
        print(f"{kind} at {wanted[0]}: no reply")
    print(*(f"{kind}: {sorted(rcodes.get(kind, []))}" for kind in (f"claim by {OTHER}", f"claim of {FIXED}")), sep=", ")
    return 0 if is_right and not asked else 1


if __name__ == "__main__":
    sys.exit(main(*sys.argv[1:]))
