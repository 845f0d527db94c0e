"""Scenes of a server's folder: what its file says after a change or a time without any, an older form of it, folders that are moved, names
that are fixed to another machine than the one that has them leased, and kills.

Each scene returns its rows, of which each is what it shows, and what was wrong, if anything.
"""

import os
import random
import re
import shutil
import stat
import subprocess
import time
from functools import partial
from pathlib import Path

import files
import packets
from machines import LIFE, LONGEST, SYNC, Rival, kept, unlike
from running import Running

LOOK = LONGEST / 4  # seconds between two looks of a server that is idle
SLACK = 3.0  # seconds within which a server that has to end does, beside a look
SILENT = r"serving \S+, silent for {} s until \S+, since {}"


def copied(lab, folder, octets):
    other = lab.folder()
    shutil.copytree(folder, other, dirs_exist_ok=True)
    Path(f"{other}/leases").write_bytes(octets)
    return other


def file_of(folder):
    return files.lines_of(f"{folder}/leases")


def lines(lab):
    """Each of ten leases' lines is taken out of the file, and one change follows."""
    net = lab.net()
    server, host = net.speaking(), net.host(2)
    granted = [host.register(name) for name in (*(f"N{number}" for number in range(10)), "LATER")]
    server.kill()
    if not all(granted):
        return [("ten leases and one more", f"{granted}")]
    return [without(lab, net.folder, f"N{number}") for number in range(10)]


def without(lab, folder, name):
    """The row of a file without the line of that name's lease."""
    what = f"a file without the line of the lease of {name}, behind which others follow"
    all_lines, net = file_of(folder).splitlines(keepends=True), lab.net()
    (place,) = [place for place, line in enumerate(all_lines) if line.startswith(f"began {name} ".encode())]
    server = net.serve(folder=copied(lab, folder, b"".join(all_lines[:place] + all_lines[place + 1 :])))
    line = server.line()
    again = net.host(3).register(name, patience=2)
    server.kill()
    if again:
        return what, f"two holders: it says {line!r} and grants the name again"
    return what, unlike(line, SILENT.format(LONGEST, f"damaged at line {place + 1}"))


def older_version(lab):
    """A file of version 2 over another boot: the server is silent once, and its file has the new form."""
    machine = lab.machine()
    net, (steady, day) = lab.net(machine), machine.times()
    header = [LIFE.removesuffix("ms"), LONGEST, 4096, machine.boot_id, 0, steady - 40_000, steady, day, 1]
    rows = [["began", name, f"{net.at(2)}:137", "unique", steady + end] for name, end in (("FILER", 20_000), ("LATER", 25_000))]
    Path(f"{net.folder}/leases").write_bytes(files.sealed([header, *rows], version=2))
    machine.boot(8)
    server = net.serve()
    server.line()
    server.kill()
    what, first = "a file of version 2 in another boot: ", file_of(net.folder).split(b"\n")[0].decode()
    yield f"{what}its file has the new form then", "" if first == "nbt leases, version 3" else f"it begins with {first!r}"
    server = net.serve()
    line = server.line()
    yield f"{what}a start within that silence waits for its end", unlike(line, kept(0, r", silent for (\d+) s until \S+"))
    time.sleep(LONGEST)
    server.kill()
    yield f"{what}a start after it isn't silent", unlike(net.serve().line(), kept(0))


def idle(lab):
    """A server that nobody asks for longer than LONGEST after its silence, and that starts again."""
    machine = lab.machine()
    net = lab.net(machine)
    server = net.serve()
    server.line()
    begun = time.monotonic()
    time.sleep(2 * LONGEST + LOOK)
    server.kill()
    octets, waited, (now, _) = file_of(net.folder), time.monotonic() - begun, machine.times()
    changes = files.words_of(octets)[1:]
    looks = [int(words[2]) for words in changes if words[0] == "looked"]
    is_paced = all(later - sooner >= 1000 * LOOK - 50 for sooner, later in zip(looks, looks[1:], strict=False))
    is_late = not looks or now - looks[-1] > 1000 * LOOK + 1000
    wrong = len(changes) > len(looks) or not is_paced or is_late or abs(len(looks) - waited / LOOK) > 1.5
    yield f"an idle server looks each quarter of LONGEST: {len(looks)} times in {waited:.0f} s", f"{octets.decode()!r}" if wrong else ""
    other = copied(lab, net.folder, octets)
    yield "an idle server starts again, and isn't silent", unlike(net.serve().line(), kept(0, ""))
    machine.boot(8)
    yield "an idle server starts again after a boot", unlike(net.serve(4, folder=other).line(), kept(0))


def reached(lab):
    """A server that answers questions, and whose leases nobody changes: no answer leaves more than a second past the file's last time."""
    machine, seconds = lab.machine(), 5
    net = lab.net(machine)
    server, host, answered = net.speaking(), net.host(2), 0
    until = time.monotonic() + seconds
    while time.monotonic() < until:
        if host.holders("FILER") is not None:
            answered, _ = machine.times()
        time.sleep(0.05)
    server.kill()
    octets = file_of(net.folder)
    times = [int(words[-1]) for words in files.words_of(octets)[1:]]
    many = [moment for moment in times if moment > answered - 1000 * seconds]
    wrong = not answered or not times or answered - max(times) > 1100 or len(many) > seconds + 1
    what = f"a server that is asked for {seconds} s writes how far its clock came, {len(many)} times"
    yield what, f"the last answer came at {answered}: {octets.decode()!r}" if wrong else ""


MOVES = {  # what is done with a folder, as a shell does it
    "moved": 'mv "$0" "$0.moved"',
    "replaced by an empty one": 'mv "$0" "$0.moved" && mkdir "$0"',
    "replaced by its copy": 'mv "$0" "$0.moved" && cp -Rp "$0.moved" "$0"',
    "given another lock": ': >"$0/lock.new" && mv "$0/lock.new" "$0/lock"',
    "left without its lock": 'rm "$0/lock"',
}
SAME_FOLDER = ("given another lock", "left without its lock")  # its file may get the lines of changes


def seen(folder):
    """What there is in a folder: each file's octets, its inode and when it was written."""
    if os.path.isdir(folder):
        paths = sorted(os.scandir(folder), key=lambda entry: entry.name)
        return [(path.name, Path(path).read_bytes(), path.inode(), path.stat().st_mtime_ns) for path in paths]


def waits(host):
    time.sleep(0.3)


def asks(host):
    time.sleep(1.2)
    host.holders("FILER", patience=0.1)


def renews(host):
    """The host has its lease renewed. The file gets a line, and is written anew when there are 1,024."""
    host.refresh("FILER", patience=0.1)


WAYS = {  # what a host does, once, and within how many seconds the server has to end
    "asks nothing": (waits, LOOK + SLACK),
    "asks now and then": (asks, 1.2 + SLACK),
    "has its lease renewed all the while": (renews, 90),
}


def move(lab, how, way):
    """The row of a folder that is moved so while its server runs, and while a host does this."""
    what = f"a folder that is {how} while a host {way}: the server ends, and writes nothing there"
    net, (do, within) = lab.net(), WAYS[way]
    server, host = net.speaking(), net.host(2)
    if not host.register("FILER"):
        return what, f"no lease: {server.kill()}"
    subprocess.run(["sh", "-c", MOVES[how], net.folder], check=True)
    there, until = seen(net.folder), time.monotonic() + within
    while server.status(0) is None and time.monotonic() < until:
        do(host)
    status, after, said = server.status(SLACK), seen(net.folder), server.kill()
    if status != 3 or "device" not in said.split("\n"):
        return what, f"status {status}, after {said!r}"
    if how in SAME_FOLDER:
        there, after = ([entry[0] for entry in entries] for entries in (there, after))
    return what, "" if after == there else f"there is {after}, where there was {there}"


def lock(lab):

    def mode_of(net):
        return stat.S_IMODE(os.stat(f"{net.folder}/lock").st_mode)

    for mask in (0o022, 0o000):
        net = lab.net()
        server = net.serve(umask=mask)
        server.line()
        server.kill()
        yield f"the mode of a new lock where umask is {mask:03o}", "" if mode_of(net) == 0o600 else f"{mode_of(net):o}"
    for there, what in (("a line\n", "a file"), ("", "nothing")):
        net, elsewhere = lab.net(), Path(f"{lab.folder()}/elsewhere")
        if there:
            elsewhere.write_text(there)
        os.symlink(elsewhere, f"{net.folder}/lock")
        server = net.serve()
        status, said = server.status(5), server.kill()
        stays = (elsewhere.read_text() if elsewhere.exists() else "") == there
        wrong = "" if status == 3 and stays and "serving" not in said else f"status {status}, after {said!r}"
        yield f"a lock that is a link to {what} isn't followed", wrong
    for text, serves in (("a line\n", False), ("# lock of nbt nbns\n", True)):
        net = lab.net()
        lock_file = Path(f"{net.folder}/lock")
        lock_file.write_text(text)
        lock_file.chmod(0o644)
        server = net.serve()
        line, status = server.line(), server.status(0 if serves else SLACK)
        server.kill()
        is_right = lock_file.read_text() == text and line.startswith("serving ") == serves
        if serves:
            is_right, what = is_right and mode_of(net) == 0o600, "a lock that an older server left is used, and is its owner's alone then"
        else:
            is_right, what = is_right and status == 3, "a file of somebody else in the place of the lock stays"
        yield what, "" if is_right else f"status {status}, mode {mode_of(net):o}, after {line!r}"


def log(lab):
    """A log says that a name is granted once the reply has left: not while a sync lasts, nor of a reply that was dropped after it."""
    machine = lab.machine()
    net = lab.net(machine)
    server, host = net.speaking(words=["--log"]), net.host(2)
    for name, sync, replies in (("FIRST", 0, True), ("FILER", 300, True), ("LATER", 1500, False), ("AGAIN", 0, True)):
        machine.put(SYNC, sync)
        early = host.replied(packets.REGISTRATION, name, LONGEST, sync / 2000)
        before, reply = server.said(), host.reply(3)
        time.sleep(0.3)
        after = server.said()
        is_in_time = not sync or not early and f" granted {name}#20 " not in before
        is_right = is_in_time and bool(early or reply) == replies == (f" granted {name}#20 " in after)
        what = "the reply" if replies else "a reply that is dropped after it"
        yield f"a sync of {sync} ms: the log waits for {what}", "" if is_right else f"replies {early!r} and {reply!r}, a log {after!r}"
    server.kill()


# Names that are fixed to a printer while the server is down. The server starts again in the same boot, and in another one.
LEASE = 9  # seconds of a lease that soon ends
PATIENCE = 7.0  # seconds after its end, within which the fixed name's own machine has to be confirmed: the time that it was down, and more
FIXED = ("LASER", "PLOTTER")  # the first one's lease ends, and the second one's is released
SAYS = r"nbt: fixed name {}#20: leased to {} until \d{{4}}-\d\d-\d\dT\d\d:\d\d:\d\dZ, which stands until it ends"


def finds(host, name, holder):
    words = [host.nbt, "lookup", name, "--server", host.server[0]]
    found = subprocess.run(words, capture_output=True, text=True, timeout=60).stdout.strip()
    return "" if found == f"{holder.address} unique" else f"it prints {found!r}"


def replies(wanted, *requests):
    """What is wrong where the flags of the replies to these requests, each of a host about a name, are others."""
    flags = [packets.flags_of(host.replied(flags, name, LONGEST)) for host, flags, name in requests]
    return "" if flags == wanted else f"the replies are {flags}"


def fixed(lab, boots):
    """Two names that a host has leased are fixed to a printer while the server is down."""
    machine = lab.machine() if boots else None
    net, names = lab.net(machine), f"{lab.folder()}/names"
    server = net.speaking()
    host, printer = net.host(2), net.host(3)
    host.nbt = printer.nbt = lab.nbt
    ends = [host.register(name, seconds) for name, seconds in zip(FIXED, (LEASE, LONGEST), strict=True)]
    server.kill()
    if not all(ends):
        return [("names are leased, and then fixed", f"{ends}, {server.said()}")]
    if boots:
        machine.boot(8)
    Path(names).write_text("".join(f"{name} unique {net.at(3)}\n" for name in FIXED))
    server = net.serve(words=["--fixed", names])
    server.says("^serving ")
    time.sleep(1.5)  # a start that goes on is silent for a second at most
    boot = "another" if boots else "the same"
    return [(f"{what}, in {boot} boot", wrong) for what, wrong in rows_of_fixed(server, host, printer, ends[0])]


def rows_of_fixed(server, host, printer, end):
    """The rows of what a start says, of two leases that stand, and of one that ends and one that is released."""
    lines = server.said().split("\n")
    unsaid = [name for name in FIXED if not any(re.fullmatch(SAYS.format(name, re.escape(host.address)), line) for line in lines)]
    yield "a start says which leases stand in the way of fixed names", f"not of {unsaid}, but {lines}" if unsaid else ""
    for name in FIXED:
        yield f"a lookup finds the holder of a lease that stands: {name}", finds(host, name, host)
        asked = (printer, packets.REGISTRATION, name), (host, packets.REFRESH, name)
        yield f"the name's own machine is refused, and its holder's refresh: {name}", replies([packets.ACTIVE] * 2, *asked)
    granted = Rival(printer, FIXED[0]).waits(end + PATIENCE)
    early = f"two holders: confirmed {end - granted:.2f} s before the hold is over" if granted and granted < end else ""
    yield "the machine of a fixed name is confirmed once the lease is over", early if granted else "it isn't confirmed"
    yield "then a lookup finds that machine", finds(printer, FIXED[0], printer)
    asked = (host, packets.RELEASE, FIXED[1]), (printer, packets.REGISTRATION, FIXED[1])
    yield "it is confirmed once the holder releases the name", replies([0xB400, packets.REGISTERED], *asked)


# A server that is killed again and again, while hosts hold names by it: none of them may lose one. The longest lease is the least that the
# program accepts, where a refresh has the least time to be sent again.
KILLS = 200
HOSTS, EACH = 6, 5
LEAST = (10, 30)  # seconds: what the least longest lease may be
UP = (0.1, 1.5)  # for how many seconds at least, and at most, the server is up before it is killed
DOWN = 0.02  # seconds until it is started again
ALL_KEPT = re.compile(rf"serving \S+, with {HOSTS * EACH} leases kept")


def said(hosts, *events):
    """The lines of these events that hosts have printed, without their times; or all lines."""
    lines = [line.split(maxsplit=1)[-1] for host in hosts for line in host.said().splitlines()]
    return [line for line in lines if not events or line.split()[0] in events]


def killed(net, server, longest, draw):
    """Kills the server so often, and starts it again. Returns the first lines that aren't as they have to be."""
    wrong = []
    for _ in range(KILLS):
        time.sleep(draw.uniform(*UP))
        line, end, _ = server.kill().partition("\n")
        if end and not ALL_KEPT.fullmatch(line):
            wrong.append(line)
        time.sleep(DOWN)
        server = net.serve(longest=longest)
    server.kill()
    return wrong


def kills(lab):
    seed, net = random.randrange(10**6), lab.net()
    tried = [lab.nbt, "nbns", "--bind", net.at(9), "--life", LIFE, "--for", "1ms", "--longest"]
    is_accepted = lambda seconds: subprocess.run([*tried, f"{seconds}s"], capture_output=True).returncode == 0  # noqa: E731
    longest = next(filter(is_accepted, LEAST), LEAST[-1])
    what = f"{KILLS} kills at the least LONGEST, {longest} s, seed {seed}: "
    server = net.serve(longest=longest)
    server.line()
    time.sleep(longest)
    limits = ["--server", net.at(1), "--life", LIFE, "--longest", f"{longest}s"]
    words = [[*(f"H{host}N{name}" for name in range(EACH)), *limits, "--bind", net.at(2 + host)] for host in range(HOSTS)]
    hosts = [Running([lab.nbt, "host", *its]) for its in words]
    time.sleep(5)
    server.kill()
    server = net.serve(longest=longest)
    time.sleep(1)
    try:
        granted = len(said(hosts, "granted"))
        wrong = killed(net, server, longest, random.Random(seed))
        lost = said(hosts, "lapsed", "lost", "refused")
    finally:
        for host in hosts:
            host.kill()
    held = "" if granted == HOSTS * EACH else f"{granted} are granted: {said(hosts)[:3]}"
    return [
        (f"{what}{HOSTS} hosts hold {HOSTS * EACH} names", held),
        (f"{what}no host loses a name", f"{len(lost)} are lost, as {lost[0]!r}" if lost else ""),
        (f"{what}each start goes on with all leases", f"{len(wrong)} don't, as {wrong[0]!r}" if wrong else ""),
    ]


SCENES = {
    **{scene.__name__: [scene] for scene in (lines, lock, idle, reached, older_version, log, kills)},
    "fixed": [partial(fixed, boots=boots) for boots in (False, True)],
    "folders": [partial(move, how=how, way=way) for how in MOVES for way in WAYS],
}
