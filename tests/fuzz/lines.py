"""What each line that a name server writes may look like: of its log and standard error, its list, its hosts and its statistics."""

import re
from pathlib import Path

NAME, KIND, TIME = r"[!-~]+", r"(?:unique|group)", r"\d{4}-\d\d-\d\dT\d\d:\d\d:\d\dZ"
ADDRESS = r"\d{1,3}(?:\.\d{1,3}){3}"
REASON = (
    rf"(?:another has it: {ADDRESS} \(6\)|not its own address \(5\)"
    r"|its name begins with \* \(5\)|an overwrite \(5\)|the table is full \(2\)|the group is full \(2\)|the client has too many names \(2\))"
)
EVENTS = (
    rf"(?:granted|renewed) {NAME} {ADDRESS} {KIND} \d+ s",
    rf"(?:refused|release refused) {NAME} {ADDRESS} {KIND} from {ADDRESS}:\d+: {REASON}",
    rf"released {NAME} {ADDRESS} {KIND}",
    rf"unanswered {NAME} from {ADDRESS}:\d+",
    rf"(?:foreign|malformed|broadcast) from {ADDRESS}:\d+: \d+ octets",
)
LOG = re.compile(
    rf"{TIME} (?:{'|'.join(EVENTS)})(?:, \d+ left out before)?"
    rf"|{TIME} \.\. \d+ more (?:granted|renewed|refused|released|release refused|unanswered|foreign|malformed|broadcast)"
    r"|\.\. \d+ lines dropped: the reader of the log was slow, or it could not be written"
    rf"|nbt: refused {NAME} {ADDRESS}: (?:a fixed name|not allowed)(?:, \d+ left out before)?"
    rf"|nbt: requests lost: \d+, the last from {ADDRESS}; a client may make \d+ changes a second"
    rf"|serving {ADDRESS}:\d+(?:, {ADDRESS}:\d+)*(?:, with \d+ leases? kept)?(?:, silent for \d+ s until {TIME}(?:, since nothing was kept)?)?"
)
HELP, VALUE = r"# HELP nbt_nbns_[a-z_]+ [ -~]+|# TYPE nbt_nbns_[a-z_]+ (?:counter|gauge)", r"\d+(?:\.\d+)?"
FORMS = {
    "leases": ("# live leases of nbt nbns", rf"{NAME} {KIND} ADDRESS {TIME}"),
    "hosts": ("# hosts of nbt nbns", r"ADDRESS [A-Za-z0-9](?:[A-Za-z0-9-]*[A-Za-z0-9])?"),
    "stats": ("# statistics of nbt nbns", rf'{HELP}|nbt_nbns_[a-z_]+(?:\{{[a-z]+="[a-z0-9._]+"(?:,[a-z]+="[a-z_]+")*\}})? {VALUE}'),
}

FIXED = ("PRINTER", "PRINTERS")


def senders(net):
    """The addresses that there are."""
    return rf"{re.escape(net)}\.(?:[2-9]|10|200)"


def wrong_files(files, net):
    """The lines of these files, of which each is replaced as a whole, that are none of theirs. One that isn't there yet has none."""
    wrong = []
    for kind, path in files.items():
        first, form = FORMS[kind]
        try:
            lines = Path(path).read_bytes().decode("latin-1").split("\n")
        except FileNotFoundError:
            continue
        right = re.compile(form.replace("ADDRESS", senders(net)))
        wrong += [f"{kind}: {lines[0]!r}"] if lines[0] != first else []
        wrong += [f"{kind}: {lines[-1]!r} at the end"] if lines[-1] else []
        wrong += [f"{kind}: {line!r}" for line in lines[1:-1] if not right.fullmatch(line)]
        wrong += taken_for_others(lines[1:-1]) if kind == "hosts" else []
    return wrong


def taken_for_others(hosts):
    """The hosts that a resolver would take for another one, whose letters they have in another case, or for a fixed name."""
    spelled = {}
    for line in hosts:
        name = line.split(" ")[-1]
        spelled.setdefault(name.upper(), set()).add(name)
    return [f"hosts: {sorted(names)}" for front, names in spelled.items() if len(names) > 1 or front in FIXED]


def wrong_lines(said, net):
    return [repr(line) for line in said if not LOG.fullmatch(line)]


def wrong_senders(said, net):
    """Lines that say of an address which there isn't that it has a name, or that it sent something."""
    speaks = re.compile(rf" (?:granted|renewed|released) {NAME} ({ADDRESS}) | from ({ADDRESS}):\d+: ")
    told = ((line, found[1] or found[2]) for line in said if (found := speaks.search(line)))
    return [repr(line) for line, address in told if not re.fullmatch(senders(net), address)]
