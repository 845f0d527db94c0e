"""What the scripts share that plant wrong bodies: the bodies, which stand in a file a crate, where they may stand in a source, what each
crate uses, and runs."""

import os
import re
import subprocess
from collections import namedtuple

TOP = os.path.dirname(os.path.dirname(os.path.dirname(os.path.realpath(__file__))))

# A wrong body: its name, its crate, what is said of it beside, and each changed place, as file, old and new.
Edit = namedtuple("Edit", "name crate said changes")

# In a laid out file: the head of a function and of a constant, and of any other item.
FUNCTION = re.compile(r' *(?:pub(?:\([^)]*\))? )?(?P<const>const )?(?:unsafe )?(?:extern "C" )?fn (?P<name>\w+)')
CONSTANT = re.compile(r" *(?:pub(?:\([^)]*\))? )?const (\w+):")
OTHER = re.compile(r" *(?:pub(?:\([^)]*\))? )?(?:static|struct|enum|trait|impl|type|use|mod)\b")


def read(path):
    with open(path, encoding="utf-8") as file:
        return file.read()


def write(path, text):
    os.makedirs(os.path.dirname(path), exist_ok=True)
    with open(path, "w", encoding="utf-8") as file:
        file.write(text)


def read_edits(folder, crate):
    """The edits of a crate: each begins with a line `edit: NAME`. Lines `file: `, `old: ` and `new: ` say what is changed; a file stands
    once above several changes, and each text is one line's rest."""
    edits, path, old = [], "", ""
    for line in read(f"{folder}/{crate}.edits").split("\n"):
        word, _, text = line.partition(":")
        text = text.removeprefix(" ")
        if word == "edit":
            edits.append(Edit(text, crate, {}, []))
        elif word == "file":
            path = text
        elif word == "old":
            old = text
        elif word == "new":
            edits[-1].changes.append((path, old, text))
        elif word:
            edits[-1].said[word] = text
    return edits


def heads_of(lines):
    """Returns the lines at which functions, constants and other items begin, and last how many lines there are."""
    return [at for at, line in enumerate(lines) if any(it.match(line) for it in (FUNCTION, CONSTANT, OTHER))] + [len(lines)]


def brace_of(lines, head, end):
    """Returns the line that opens the body of the function whose head begins the one line, before the other, or None where it has no body
    in braces of its own that may hold a statement."""
    depth = len(lines[head]) - len(lines[head].lstrip())
    own = (at for at in range(head, end) if re.match(rf" {{{depth}}}\S", lines[at]) and lines[at].endswith(("{", "{}", ";")))
    brace = next(own, None)
    return brace if brace is not None and lines[brace].endswith("{") and not FUNCTION.match(lines[head])["const"] else None


def crates_of(folder):
    return sorted(name.removesuffix(".edits") for name in os.listdir(folder) if name.endswith(".edits"))


# What each crate of crates.txt uses, and which of them are libraries for C.
HEADS = re.findall(r"^(\w+)([^:#\n]*):([^#\n]*)", read(f"{TOP}/crates.txt"), flags=re.M)
USES = {name: used.split() for name, _, used in HEADS}
STATIC = {name for name, kinds, _ in HEADS if "staticlib" in kinds.split()}


def all_uses(crate):
    """All crates of the repository that one is made of, without it."""
    found, waiting = [], [*USES[crate]]
    for it in waiting:
        if it in USES and it not in found:
            found.append(it)
            waiting += USES[it]
    return found


def said_by(words, **how):
    streams = {"stdin": subprocess.DEVNULL, "stdout": subprocess.PIPE, "stderr": subprocess.STDOUT}
    return subprocess.run(words, **streams, text=True, errors="replace", **how).stdout


def jobs(gigabytes):
    """Returns how many runs that take so much memory are made at once."""
    return int(os.environ.get("RT_JOBS") or subprocess.check_output([f"{TOP}/tools/jobs", f"{gigabytes}"]))
