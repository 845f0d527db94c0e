"""Sends many datagrams to port 137 of one address: queries, or garbage.

    flood.py ADDRESS SECONDS RATE queries|garbage SEED NAME..

Garbage is octets at random, and packets of each kind with some octets changed, cut or added. Prints how many were sent.
"""

import random
import socket
import sys
import time

sys.path.insert(1, f"{sys.path[0]}/../lib")
from packets import CONFLICT, GROUP, REFRESH, REGISTERED, REGISTRATION, RELEASE, UNIQUE, WAIT  # noqa: E402
from packets import query, reply, request, status_request  # noqa: E402


def models(name, address):
    """A packet of each kind, from which garbage is made."""
    requests = [(REGISTRATION, UNIQUE, 10), (REFRESH, GROUP, 10), (RELEASE, UNIQUE, 0)]
    replies = [(REGISTERED, 10), (CONFLICT, 0), (WAIT, 60), (0x8580, 10)]
    return [
        query(1, name),
        status_request(1),
        *(request(1, flags, name, kind, address, ttl) for flags, kind, ttl in requests),
        *(reply(1, flags, name, UNIQUE, address, ttl) for flags, ttl in replies),
    ]


def garbage(draw, examples):
    if draw.random() < 0.2:
        return draw.randbytes(draw.randrange(0, 600))
    octets = bytearray(draw.choice(examples))
    for _ in range(draw.randrange(1, 6)):
        octets[draw.randrange(len(octets))] = draw.randrange(256)
    if draw.random() < 0.3:
        del octets[draw.randrange(len(octets)) :]
    if draw.random() < 0.2:
        octets += draw.randbytes(draw.randrange(1, 1200))
    return bytes(octets)


def main(address, seconds, rate, what, seed, *names):
    """Sends as many as the rate and the time say, in bursts of a hundredth of a second."""
    draw, examples = random.Random(seed), models(names[0], address)
    sender = socket.socket(socket.AF_INET, socket.SOCK_DGRAM)
    sender.setblocking(False)
    asks = what == "queries"
    pool = [query(draw.randrange(65536), draw.choice(names)) if asks else garbage(draw, examples) for _ in range(2000)]
    sent, begun = 0, time.monotonic()
    for turn in range(int(float(seconds) * 100)):
        for _ in range(max(1, int(rate) // 100)):
            try:
                sender.sendto(draw.choice(pool), (address, 137))
                sent += 1
            except OSError:
                pass  # the own buffer is full, or the answer to an earlier one was refused
        time.sleep(max(0, begun + (turn + 1) / 100 - time.monotonic()))
    print(sent)


main(*sys.argv[1:])
