"""A bad line: hands frames on between two links of this network, and loses, repeats, delays and reorders them.

    line.py LINK LINK SECONDS LOSS TWICE DELAY SPREAD SEED

LOSS and TWICE are the parts of frames that are lost, and sent twice. Each frame waits DELAY seconds, and up to SPREAD more, so that
later ones overtake it. It does what netem of tc does, for kernels without it. Prints how many frames came, and how many went on.
"""

import heapq
import random
import select
import socket
import sys
import time

ANY_FRAME = 0x0003
PACKETS, IGNORE_OUTGOING = 263, 23  # SOL_PACKET and PACKET_IGNORE_OUTGOING, which Python's socket doesn't name


def link(name):
    """A socket for all frames that come over a link of this network."""
    frames = socket.socket(socket.AF_PACKET, socket.SOCK_RAW, socket.htons(ANY_FRAME))
    frames.setsockopt(PACKETS, IGNORE_OUTGOING, 1)
    frames.bind((name, ANY_FRAME))
    return frames


def send(other, frame):
    """Sends a frame, without the checksum of a UDP datagram, which is 0 then (RFC 768): a veth leaves it unfinished. A link that is down
    loses it."""
    if frame[12:14] == b"\x08\x00" and len(frame) >= 42 and frame[23] == 17:
        place = 14 + (frame[14] & 15) * 4 + 6
        frame = frame[:place] + b"\x00\x00" + frame[place + 2 :]
    try:
        other.send(frame)
    except OSError:
        pass


def main(left, right, seconds, loss, twice, delay, spread, seed):
    draw = random.Random(seed)
    links = [link(left), link(right)]
    waiting, came, went, until = [], 0, 0, time.monotonic() + float(seconds)
    while (now := time.monotonic()) < until:
        while waiting and waiting[0][0] <= now:
            send(*heapq.heappop(waiting)[2:])
            went += 1
        next_due = waiting[0][0] if waiting else until
        for source in select.select(links, [], [], max(0, min(next_due, until) - now))[0]:
            try:
                frame = source.recv(65536)
            except OSError:
                continue  # the link went down
            came += 1
            if draw.random() < float(loss):
                continue
            other = links[1] if source is links[0] else links[0]
            for _ in range(2 if draw.random() < float(twice) else 1):
                due = now + float(delay) + draw.random() * float(spread)
                heapq.heappush(waiting, (due, came + draw.random(), other, frame))
    print(came, went)


if __name__ == "__main__":
    main(*sys.argv[1:])
