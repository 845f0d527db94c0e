#!/usr/bin/env -S python3 -B
"""Whether the ids of 40 requests can't be guessed: ids.py PROGRAM lookup|status|release|scan

It hears the requests, and replies to none. Of 40 random ids two are alike once in 84 runs, three once in 1.4 million, and all lie in less than
three quarters of what there is once in 50,000. The ports have to differ too, but for a release, whose port is that of its host.
"""
import socket
import subprocess
import sys

program, command = sys.argv[1:]
WORDS = {
    "lookup": ["lookup", "FILER", "--server", "127.0.0.1:1137"],
    "status": ["status", "127.0.0.1:1137"],
    "release": ["release", "FILER", "--server", "127.0.0.1:1137", "--bind", "127.0.0.2:1138"],
    "scan": ["scan", "127.0.0.1-127.0.0.40", "--port", "1137"],
}
COUNT = 40

heard = socket.socket(socket.AF_INET, socket.SOCK_DGRAM)
heard.bind(("0.0.0.0", 1137))
heard.settimeout(10)
requests = []
while len(requests) < COUNT:
    waits = [] if command == "release" else ["--tries", "1", "--wait", "20ms"]
    running = subprocess.Popen([program, *WORDS[command], *waits], stdout=subprocess.DEVNULL, stderr=subprocess.DEVNULL)
    for _ in range(COUNT if command == "scan" else 1):
        octets, sender = heard.recvfrom(2048)
        requests.append((int.from_bytes(octets[:2], "big"), sender[1]))
    if command == "release":
        running.kill()
    running.wait()
ids, ports = [it[0] for it in requests], {it[1] for it in requests}
near = sum(abs(one - other) < 16 for one, other in zip(ids, ids[1:], strict=False))
print(f"{len(set(ids))} ids from {min(ids)} to {max(ids)}, {near} near the one before, {len(ports)} ports: {ids}")
one_port = command in ("release", "scan")
sys.exit(not (len(set(ids)) >= COUNT - 2 and near <= 2 and max(ids) - min(ids) > 49152 and (one_port or len(ports) > 20)))
