"""Scenes in which a server starts again while the clocks of its machine aren't as they were: no two hosts may ever hold one name.

A host holds its name from its first request on, by the true clock, for as long as a node would. Its rival asks for the name all the
while. A grant to the rival that comes before the host's hold is over is a second holder. Each scene returns its row, what it
shows, and what was wrong, if anything.
"""

import ast
import time
from collections import namedtuple
from functools import partial
from pathlib import Path

from machines import DAY, LATE, LONGEST, READING, STALL, STEADY, Holder, kept, unlike

LEASE = 9  # seconds of a lease whose end is near at the restart
DAYS = 86_400  # seconds
UPTIME = 8  # seconds for which a machine is up when its server starts after a boot
PATIENCE = 7.0  # seconds after its end, within which a name has to come free: how long the server was down, and two seconds more

# A restart: of which scene it is; how far the day is set while the server runs, and between its end and its start; whether the machine
# booted, and else how far its steady clock jumped; and before which reading of a clock the start stalls for 2 s, if before any.
Restart = namedtuple("Restart", "scene what running between boots jump stall", defaults=[0, 0, True, 0, 0])


def restart_of(line):
    scene, what, changes = line.split(" | ")
    return Restart(scene, what, **{name: ast.literal_eval(number) for name, number in (it.split("=") for it in changes.split())})


RESTARTS = [restart_of(line) for line in (Path(__file__).parent / "restarts.txt").read_text().splitlines()]


def twice(granted, end):
    """What is wrong where the rival got the name before the first one's hold was over, or not soon after it."""
    if granted and granted < end:
        return f"two holders: granted again {end - granted:.2f} s before the first one's hold is over"
    return "" if granted else f"the name isn't free {PATIENCE} s after its end"


def judged(rival, server, line, end):
    """What is wrong where the server of the rival began with this line, and the first one's hold ends then."""
    granted = rival.waits(end + PATIENCE)
    server.kill()
    return twice(granted, end) if granted and granted < end else unlike(line, kept(1)) or twice(granted, end)


def restart(lab, case):
    machine = lab.machine()
    net = lab.net(machine)
    server = net.speaking()
    end = net.host(2).register("FILER", LEASE)
    if not end:
        return case.what, f"no lease: {server.kill()}"
    rival = net.rival(3, "FILER")
    time.sleep(0.5)
    machine.step(DAY, case.running)
    time.sleep(1.5)
    server.kill()
    machine.step(DAY, case.between)
    if case.boots:
        machine.boot(UPTIME)
    machine.step(STEADY, case.jump)
    machine.put(STALL, 2000)
    machine.put(READING, case.stall)
    server = net.serve()
    return case.what, judged(rival, server, server.line(), end)


def late_lock(lab):
    """A second server over one folder whose lock comes 6 s late: the first one grants a lease meanwhile, and ends."""
    what, machine = "a lock that comes 6 s late, while the first server goes on, grants and ends", lab.machine()
    net = lab.net(machine)
    first = net.speaking()
    machine.put(LATE, 6000)
    second = net.serve(4)
    time.sleep(4.5)
    end = net.host(2).register("FILER")
    first.kill()
    if not end:
        return what, f"no lease: {first.said()}"
    rival = net.rival(3, "FILER", server=4)
    return what, judged(rival, second, second.line(), end)


def suspend(lab):
    """A machine is suspended for longer than LONGEST, and goes on. Another server began anew meanwhile, and granted the name again."""
    what, machine = "a suspend for longer than LONGEST, while another server begins anew and grants the name", lab.machine()
    net = lab.net(machine)
    first = net.speaking()
    host = net.host(2)
    if not host.register("FILER"):
        return what, f"no lease: {first.kill()}"
    time.sleep(0.5)
    first.kill()
    suspended = time.monotonic()
    second = net.serve(4, lab.machine(), lab.folder())
    if not net.rival(3, "FILER", server=4).waits(suspended + LONGEST + 2):
        return what, f"the second server grants nothing: {second.kill()}"
    machine.step(STEADY, suspended - time.monotonic())
    first = net.serve()
    line = first.line()
    renewed = host.refresh("FILER") or host.register("FILER")
    told = host.holders("FILER")
    first.kill()
    second.kill()
    if renewed:
        return what, f"two holders: the first server says {line!r} and renews the first one's lease"
    return what, f"the first server says {line!r} and tells of {told}" if told else ""


def move(lab, days, ahead):
    """The row of a folder that is moved to a machine that is up for so many days more, and whose day is so far ahead, and back, twice.
    A host refreshes five names meanwhile, and last it doesn't any more. Another one leases a name before each move, which ends after it."""
    far = f"{abs(days)} days {'further' if days > 0 else 'behind'}, its day {abs(ahead)} s {'ahead' if ahead > 0 else 'behind'}"
    home, there = lab.machine(60 * DAYS), lab.machine((60 + days) * DAYS)
    there.step(DAY, ahead)
    net = lab.net(home)
    server, wrong, short = net.speaking(), [], []
    host, other = Holder(net.host(2), [f"N{number}" for number in range(5)], 12), net.host(3)
    rivals = [net.rival(10 + number, name, pace=0.1) for number, name in enumerate(host.ends)]
    for number, machine in enumerate((there, home, there, home)):
        time.sleep(2)
        end = other.register(f"M{number}", 5) or 0
        short.append((net.rival(20 + number, f"M{number}"), end))
        time.sleep(1.5)
        server.kill()
        server = net.serve(machine=machine)
        line = server.line()
        if unlike(line, kept(number + 6)):  # a name before may just be free
            wrong += [it for it in [unlike(line, kept(number + 5))] if it]
    time.sleep(3)
    host.stop()
    for rival, end in (*short, *((rival, host.ends[rival.name]) for rival in rivals)):
        wrong += [f"{rival.name}: {it}" for it in [twice(rival.waits(end + PATIENCE), end)] if it]
    server.kill()
    wrong += [f"the host lost {name}" for name in host.lost]
    return f"a machine whose uptime is {far}: there and back again, twice", "; ".join(wrong)


SCENES = {
    **{name: [partial(restart, case=case) for case in RESTARTS if case.scene == name] for name in ("steps", "stall", "clone")},
    "late_lock": [late_lock],
    "suspend": [suspend],
    "moves": [partial(move, days=days, ahead=ahead) for days in (30, -30) for ahead in (2, -2)],
}
