"""A name server starts over a file that is cut at each of its octets, over one in which each octet in turn is another, and over files of
other limits, times, boots and lines, whose checksums are right. Each server has a folder and a port of its own. After its first line it
gets a request for FILER from a host that doesn't hold it.
"""

import re
import shutil
import tempfile
import time
from concurrent.futures import ThreadPoolExecutor
from pathlib import Path

import packets
from machines import Host, Server

AT_ONCE = 8
HOUR = 3_600_000  # milliseconds
OTHERS = (0x0A, 0x20, 0x00, 0xFF)  # what an octet is changed to, beside one that differs from it in a bit
PATIENCE = 0.03  # for how many seconds a reply is waited for that mustn't come
NOW, LATER = "it goes on", "it goes on after a second"
WAIT = 0.5  # seconds after the first line within which no reply comes then: the second counts from the reading of the clocks
OTHER_BOOT = "01234567-89ab-cdef-0123-456789abcdef"
KEPT = re.compile(r"serving \S+, with ([0-9]+) leases? kept(, silent for 1 s until \S+)?")
SILENT = re.compile(r"serving \S+, silent for .*, since (.*)")
PRIME, BASE = 4_294_967_291, 257  # of a line's checksum (docs/PROTOCOL.md, section 9)
HEADER = ["life", "longest", "rows", "boot", "ahead", "start", "last", "day", "leases"]  # the words of line 2


def lines_of(path):
    """The octets of a file of leases without its room, which is zeros behind its lines."""
    return Path(path).read_bytes().rstrip(b"\0")


def sealed(lines, version=3):
    """The file of these lines, without the first one: each is a list of words, and gets its checksum, which goes on from that of the line
    before. In version 2 none does."""
    out, check = [f"nbt leases, version {version}\n"], 0
    for words in lines:
        body, check = " ".join(map(str, words)), check if version == 3 else 0
        for octet in body.encode():
            check = (check * BASE + octet + 1) % PRIME
        out.append(f"{body} {check:08x}\n")
    return "".join(out).encode()


def words_of(octets):
    """The words of each line that has its end, without the first line, and without checksums."""
    return [line.split()[:-1] for line in octets.decode().split("\n")[1:-1]]


def header_of(octets):
    return dict(zip(HEADER, words_of(octets)[0], strict=True))


class Start:
    """What a server did over a file: its first line, the reply to the request for FILER, when both came, and the files afterwards."""

    def __init__(self, nbt, longest, number, octets):
        self.octets, folder, address = octets, tempfile.mkdtemp(), f"127.0.{10 + number // 250}.{1 + number % 250}"
        Path(f"{folder}/leases").write_bytes(octets)
        server = Server(nbt, address, folder, longest, ["--rows-per-client", "4096"])
        self.line = server.line()
        self.begun = self.came = time.monotonic()
        kept, silent = KEPT.fullmatch(self.line), SILENT.fullmatch(self.line)
        self.kept = (int(kept[1]), LATER if kept[2] else NOW) if kept else None  # how many leases it goes on with, and when
        self.reason = silent[1] if silent else None  # why it is silent, if it is since it has nothing
        self.reply = self.asked(f"127.0.{20 + number // 250}.{1 + number % 250}", address) if kept or silent else b""
        server.kill()
        bad = Path(f"{folder}/leases.bad")
        self.aside = bad.read_bytes() if bad.exists() else None
        shutil.rmtree(folder)

    def asked(self, own, address):
        host = Host(own, address)
        with host.port:
            for _ in range(10 if self.kept else 1):
                if reply := host.replied(packets.REGISTRATION, "FILER", 20, 0.2 if self.kept else PATIENCE):
                    self.came = time.monotonic()
                    return reply
        return b""

    def is_refused(self):
        return bool(self.reply) and self.reply[3] & 0x0F == 6

    def is_silent(self, reason):
        """Whether it is silent for this reason, and nobody was granted anything."""
        return self.reason == reason and not self.reply


def count_of(octets):
    return octets.count(b"\n")


def is_ours(start, _):
    """Whether it goes on at once with all leases of its file: FILER's is one, and the other host is refused the name."""
    return start.kept == (count_of(start.octets) - 2, NOW) and start.is_refused()


def cut_well(start, place):
    """Whether it did as it has to over a file that is cut: it was written with all its leases, so nothing of it stands unless all do."""
    whole = count_of(start.octets)
    if whole == 0:
        return start.is_silent("nothing was kept")
    return start.is_silent(f"damaged at line {whole + 1}") and start.aside == start.octets


def changed_well(start, place):
    """Whether it did as it has to over a file with another octet: it is damaged in that line; at its very end the line has no end. Line 1
    of version 2 is one that is read: then the line of a lease is damaged, since it has another form."""
    line = 3 if start.octets.startswith(b"nbt leases, version 2\n") else count_of(start.octets[:place]) + 1
    return start.is_silent("another version" if line == 1 else f"damaged at line {line}") and start.aside == start.octets


def forged(good, later=0, appended=(), **changes):
    """The file with other words in its header, by their names, or so much more of a number; with leases that end so much later; and with
    these lines of changes behind. The lines of the leases have the time at which the file was written."""
    _, *rows = words_of(good)
    words = header_of(good)
    for name, change in changes.items():
        words[name] = int(words[name]) + change if isinstance(change, int) else change
    rows = [[*line[:5], int(line[5]) + later, words["last"]] for line in rows]
    return sealed([words.values(), *rows, *appended])


def of_version_2(good):
    """The same leases in a file of version 2, whose lines have no room for further addresses, and no times."""
    header, *rows = words_of(good)
    return sealed([header, *([*line[:3], *line[4:6]] for line in rows)], version=2)


def with_many(good, count):
    header, lease, *_ = words_of(good)
    return sealed([[*header[:-1], count], *([lease[0], f"N{number}", *lease[2:]] for number in range(count))])


def files_of(good):
    """Files with right checksums, and what a server does over each: it goes on, at once or after a second, or says why not. Some are made
    here; of the others files.txt has a line each: what it is, what is changed, which lines of changes stand behind, and what is done."""
    words = header_of(good) | dict(zip(("began", "name", "host", "further", "kind", "end", "time"), words_of(good)[1], strict=True))
    words |= {"later": "LATER {host} {further} {kind} {end} {time}".format(**words), "behind": f"damaged at line {count_of(good) + 1}"}
    yield "as it was", good, NOW
    yield "with a space more", good.replace(b" FILER ", b"  FILER "), "damaged at line 3"
    # of which none goes on from that of the line before
    unchained = sealed(words_of(good), version=2).replace(b"version 2", b"version 3")
    yield "with checksums that don't go on", unchained, "damaged at line 3"
    yield "of another version", good.replace(b"version 3", b"version 4"), "another version"
    yield "of version 2", of_version_2(good), NOW
    yield "of version 2 and another boot", of_version_2(forged(good, boot=OTHER_BOOT)), "kept by an older version"
    yield "of one lease more than it says, cut at its end", forged(good, appended=[f"began {words['later']}".split()])[:-1], NOW
    yield "of as many leases as there are rows", with_many(good, 4096), NOW
    yield "of one lease more", with_many(good, 4097), "more leases than rows"
    for line in (Path(__file__).parent / "files.txt").read_text().splitlines():
        what, changes, appended, does = (part.strip() for part in line.format(**words).split("|"))
        made = {name: int(number) for name, number in (change.split("=") for change in changes.split() if "=" in change)}
        boot = {"boot": OTHER_BOOT} if "boot" in changes.split() else {}
        yield what, forged(good, appended=[appended.split()] if appended else [], **made, **boot), does


def reasoned(start, does, rows):
    """Whether it did that: it went on with so many leases, at once or after a second, or was silent for this reason. Of many leases
    none is FILER's."""
    if does not in (NOW, LATER):
        return start.is_silent(does)
    is_late = does == NOW or start.came - start.begun > WAIT
    return start.kept == (rows, does) and is_late and (rows > 3 or start.is_refused())


def wrong(starts, is_well):
    """What was wrong in a row, which passes where each start was as it had to be."""
    texts = [f"octet {place}: {start.line!r}, reply {start.reply.hex()}" for place, start in starts if not is_well(start, place)]
    return f"{len(texts)}, as {texts[0]}" if texts else ""


def rows(nbt, whole, longest):
    """The rows of all files, some at a time. The whole file is what a server with this LONGEST wrote, with one line for each lease, of
    which the first is FILER's, and maybe changes behind, which are left out; the leases live until this is done, as the last row shows."""
    good = b"".join(whole.splitlines(keepends=True)[: 2 + int(header_of(whole)["leases"])])
    cut = [(place, good[:place]) for place in range(len(good))]
    others = ((place, other) for place, octet in enumerate(good) for other in {octet ^ 1, *OTHERS} - {octet})
    changed = [(place, good[:place] + bytes([other]) + good[place + 1 :]) for place, other in others]
    begun = time.monotonic()
    with ThreadPoolExecutor(AT_ONCE) as pool:
        tasks = [(place, pool.submit(Start, nbt, longest, number, octets)) for number, (place, octets) in enumerate([*cut, *changed])]
        starts = [(place, task.result()) for place, task in tasks]
    last = Start(nbt, longest, len(starts), good)
    took = time.monotonic() - begun
    yield f"a file that is cut at each octet, {len(cut)} files", wrong(starts[: len(cut)], cut_well)
    yield f"a file in which each octet in turn is another, {len(changed)} files", wrong(starts[len(cut) :], changed_well)
    for what, octets, does in files_of(good):
        start = Start(nbt, longest, len(starts) + 1, octets)
        many = sum(words[0] == "began" for words in words_of(octets))
        yield f"a file {what}: {does}", wrong([(0, start)], lambda start, _: reasoned(start, does, many))
    yield f"the file as it was, {took:.1f} s later", wrong([(0, last)], is_ours)
