"""The faults, which README.md tells of, and when each comes. All is drawn from the seed before the run, but for what a fault waits for."""

import random
import sys
from collections import namedtuple

import line
from packets import ACTIVE, CONFLICT, GROUP, REFRESH, REGISTERED, REGISTRATION, RELEASE, UNIQUE, WAIT, reply, request


# A fault that is to come: when, which, at which host, and what else is drawn for it.
Event = namedtuple("Event", "at fault target draw")


def down_time(play, draw):
    """How long a host is down: half of the time for longer than its leases last, so that another may get its names."""
    return draw.choice([draw.uniform(0.1, 6), draw.uniform(play.longest, play.longest + 6)])


def kill(play, host, draw):
    if host.is_up():
        play.book.counts["kills"] += 1
        host.kill()
    play.after(down_time(play, draw), host.start)


def kill_at_a_request(play, host, draw):
    """The host is killed when its next request is seen; half of the time over a slow line, so that it is still under way then."""
    if draw.random() < 0.5:
        lay_line(play, host, draw, 25, 0, 0, draw.uniform(0.1, 0.4), 0)
    play.arm(host, down_time(play, draw))


def pause(play, host, draw):
    stop(play, host, draw.uniform(0.05, 4))


def long_pause(play, host, draw):
    stop(play, host, draw.uniform(play.longest + 0.5, play.longest + 6))


def stop(play, host, seconds):
    if host.is_awake():
        play.book.counts["pauses"] += 1
        host.pause()
        life = host.life
        play.after(seconds, lambda: host.resume() if host.life == life else None)


def cut(play, host, draw):
    cut_machine(play, host.machine, draw.random() < 0.75, draw.uniform(0.2, play.longest + 5))


def cut_the_server(play, host, draw):
    cut_machine(play, play.server.machine, True, draw.uniform(0.2, 6))


def cut_machine(play, machine, at_the_hub, seconds):

    def mend():
        machine.mend(at_the_hub)
        play.cut.discard(machine.name)

    if machine.name not in play.cut:
        play.book.counts["cuts"] += 1
        play.cut.add(machine.name)
        machine.cut(at_the_hub)
        play.after(seconds, mend)


def bad_line(play, host, draw):
    loss, again = draw.choice([0, 0.1, 0.4]), draw.choice([0, 0.1, 0.5])
    lay_line(play, host, draw, draw.uniform(4, 20), loss, again, draw.choice([0, 0.02, 0.15]), draw.choice([0.02, 0.1, 0.25]))


def lay_line(play, host, draw, seconds, loss, again, delay, spread):
    """A bad line is laid in the host's way, and taken out again. It says how many frames came, and how many went on."""

    def over(said):
        host.machine.straighten()
        play.bad.discard(host.name)
        for word, frames in zip(("frames over bad lines", "frames that went on"), said.split(), strict=True):
            play.book.counts[word] += int(frames)

    if host.name not in play.bad:
        play.book.counts["bad lines"] += 1
        play.bad.add(host.name)
        words = [*host.machine.detour(), seconds, loss, again, delay, spread, draw.getrandbits(32)]
        play.helper(None, line.__file__, words, over)


def kill_the_server(play, host, draw):
    if play.server.is_up():
        play.book.counts["kills of the server"] += 1
        play.server.kill()
    play.after(draw.uniform(0, 0.3) if play.server.state else draw.uniform(0.05, 3), play.server.start)


def flood(play, host, draw):
    target = play.server if draw.random() < 0.5 else host
    what = draw.choice(["queries", "garbage"])
    words = [target.machine.address, draw.uniform(1, 4), draw.choice([500, 2000, 6000]), what, draw.getrandbits(32), *play.contended]

    def over(said):
        target.machine.recover()
        play.book.counts["datagrams"] += int(said)

    target.machine.disturb()
    play.book.counts["floods"] += 1
    play.helper(play.stranger.name, f"{sys.path[0]}/flood.py", words, over)


def stranger(play, host, draw):
    sender = draw.choice(play.strangers)
    name, kind, number = draw.choice(play.contended), draw.choice([UNIQUE, GROUP]), draw.randrange(1, 40)
    if draw.random() < 0.5:
        target, octets = play.server, to_the_server(draw, number, name, kind, host.machine.address, sender.getsockname()[0])
    else:
        target, octets = host, to_a_host(draw, number, name, kind, host.machine.address)
    try:
        sender.sendto(octets, (target.machine.address, 137))
        play.book.counts["datagrams"] += 1
    except OSError:
        pass  # the sender's buffer is full


def to_the_server(draw, number, name, kind, address, own):
    """A request for a host, or, now and then, one for the stranger itself for two seconds, which may be granted."""
    if draw.random() < 0.04:
        return request(number, REGISTRATION, name, UNIQUE, own, 2)
    flags = draw.choice([REGISTRATION, REFRESH, RELEASE])
    return request(number, flags, name, kind, own if flags == RELEASE and draw.random() < 0.5 else address, 10)


def to_a_host(draw, number, name, kind, address):
    """A reply as the server's: granted, refused, demanded, or put off; or the release of its name."""
    if draw.random() < 0.2:
        return request(number, RELEASE, name, kind, address, 0)
    flags, ttl = draw.choice([(REGISTERED, 300), (ACTIVE, 0), (CONFLICT, 0), (WAIT, 60)])
    return reply(number, flags, name, kind, address, ttl)


# How many of each fault come in a minute, for each host, and in all.
Rates = namedtuple("Rates", "for_each_host in_all")
ALL = Rates(
    {kill: 0.5, kill_at_a_request: 0.5, pause: 0.75, long_pause: 0.35, cut: 1.1, bad_line: 0.4},
    {kill_the_server: 0.6, cut_the_server: 0.3, flood: 2.0, stranger: 400.0},
)


def rates_of(state, rate):
    """How many come: a server that keeps its leases is killed so many times a minute, beside all other faults or beside none."""
    if state == "server":
        return Rates({}, {kill_the_server: rate})
    return Rates(ALL.for_each_host, ALL.in_all | {kill_the_server: rate}) if state else ALL


def schedule(seed, seconds, hosts, rates):
    draw, events = random.Random(seed), []
    for fault, rate in ({fault: rate * hosts for fault, rate in rates.for_each_host.items()} | rates.in_all).items():
        at = draw.expovariate(rate / 60)
        while at < seconds:
            events.append(Event(at, fault, draw.randrange(hosts), random.Random(draw.getrandbits(64))))
            at += draw.expovariate(rate / 60)
    return sorted(events, key=lambda event: event.at)
