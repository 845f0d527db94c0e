"""The program that has all tests, over sources in which mistakes are planted, and how a test of it is run."""

import os
import re
import shutil
import subprocess
import tempfile
from collections import namedtuple

from edits import TOP, USES, all_uses, read, said_by, write
from planting import files_of

HERE = os.path.dirname(os.path.realpath(__file__))
CASES = "nbt_cases"  # the program of cases, whose tests are files
ALL, NUMBER = "nbt_all_tests", "nbt_mistake"  # the crate of all tests, and the one that says which mistake is made
PIECES, SECONDS = 20, 120  # in how many pieces a file of cases is played, and how long a test may take

# A network of its own, in which this machine is there, and files of which those in the folder alone in which it runs can be changed: a
# mistake may put a file in place of any other, and of a device.
APART = [
    *("unshare", "-rnm", "sh", "-c"),
    "ip link set lo up && mount --rbind /dev /dev && mount -o remount,bind,ro /dev && mount --bind . . && mount -o remount,bind,ro / && "
    'cd -- "$PWD" && exec "$@"',
    "sh",
]

# What is run of a test: the test, with its crate, and the piece of a file of cases that it plays, if it does.
Part = namedtuple("Part", "crate test piece")


def parts_of(mistake):
    """What is run for a mistake."""
    crate, test = mistake.said["in"], mistake.said["test"]
    if crate != CASES:
        return [Part(crate, test, "")]
    word = "scenes" if test.startswith("scenes/") else "cases"
    return [Part(crate, word, it) for it in pieces_of(read(f"{TOP}/crates/{CASES}/data/{test}"))]


def pieces_of(text):
    """A file of cases in pieces, each behind the names that stand before it."""
    pieces, names, much = [], [], 0
    for block in text.split("\n\n"):
        if not pieces or much > len(text) / PIECES:
            pieces.append("\n".join(names))
            much = 0
        pieces[-1] += f"\n\n{block}"
        much += len(block)
        names += re.findall(r"^= (?:.*\\\n)*.*$", block, flags=re.M)
    return pieces


def lay_out_tests(src, crates):
    """Lays out the crate of all tests of these crates: each is a module."""
    for crate in crates:
        folder = f"{TOP}/crates/{crate}/src"
        for path in files_of(folder):
            text = read(f"{folder}/{path}")
            if crate == CASES:
                text = re.sub(r"\bcrate::", f"crate::{CASES}::", text)
                path = f"{CASES}/{path}"
            if path == f"{CASES}/main.rt":
                text = re.sub(r"^fn main\(.*\Z|^#!\[tactic\(auto\)\]\n|^use std::process::ExitCode;\n", "", text, flags=re.M | re.S)
                write(f"{src}/{CASES}.rt", text + read(f"{HERE}/cases.txt"))
            elif path != "lib.rt":
                write(f"{src}/{re.sub('^tests', crate, path)}", text)
    write(f"{src}/lib.rt", "//! All tests.\n#![tactic(auto)]\n\n" + "".join(f"#[cfg(test)]\nmod {it};\n" for it in crates))


def lay_out(top, crates, texts):
    """Lays out the crate of all tests of these crates, over sources of which these files have other texts."""
    changed = {crate for crate, _ in texts}
    os.makedirs(f"{top}/crates")
    for crate in {it for crate in crates for it in all_uses(crate)}:
        folder = f"{TOP}/crates/{crate}"
        if crate not in changed:
            os.symlink(folder, f"{top}/crates/{crate}")
            continue
        shutil.copytree(folder, f"{top}/crates/{crate}", ignore=shutil.ignore_patterns("out", "must-fail"))
    for (crate, path), text in texts.items():
        write(f"{top}/crates/{crate}/{path}", text)
    write(f"{top}/crates/{NUMBER}/src/lib.rt", read(f"{HERE}/number.txt"))
    lay_out_tests(f"{top}/crates/{ALL}/src", crates)
    uses = {crate: [*used, NUMBER] if crate in changed else used for crate, used in USES.items()}
    uses |= {NUMBER: [], ALL: sorted({it for crate in crates for it in USES[crate]})}
    write(f"{top}/crates.txt", "".join(f"{crate}: {' '.join(used)}\n" for crate, used in uses.items()))


class Program:
    """The program of all tests of these crates, over sources of which these files have other texts. `said` is what the compiler said, and
    `is_built` whether there is one."""

    def __init__(self, room, crates, texts):
        self.room = tempfile.mkdtemp(dir=room)
        top, work = f"{self.room}/top", f"{self.room}/work"
        lay_out(top, crates, texts)
        os.mkdir(work)
        self.said = said_by([*APART, f"{HERE}/build", top, ALL], cwd=work)
        self.path = f"{work}/program"
        self.is_built = os.path.exists(self.path)
        libraries = f"{work}/toolchain/lib"
        self.words = [f"{libraries}/ld-linux-x86-64.so.2", "--inhibit-cache", "--library-path", libraries, self.path]
        self.tests = re.findall(r"\S*\w::\w+", said_by([*self.words, "--list"])) if self.is_built else []

    def test_of(self, part):
        """The name by which the program calls the test, or None where there is none."""
        return next((it for it in self.tests if re.fullmatch(rf"{part.crate}::(\w+::)*{part.test}", it)), None)

    def passes(self, part, number=0):
        """Whether a test passes where the mistake of this number is made, or None where it doesn't end."""
        folder = tempfile.mkdtemp(dir=self.room)
        if part.piece:
            shutil.copytree(f"{TOP}/crates/{CASES}/data", folder, dirs_exist_ok=True)
            write(f"{folder}/scenes/piece.txt" if part.test == "scenes" else f"{folder}/piece.txt", part.piece)
        words = [*APART, "env", "-i", f"TMPDIR={folder}", f"MISTAKE={number}", *self.words, self.test_of(part)]
        streams = {"stdin": subprocess.DEVNULL, "stdout": subprocess.DEVNULL, "stderr": subprocess.DEVNULL}
        try:
            return subprocess.run(words, cwd=folder, timeout=SECONDS, **streams).returncode == 0
        except subprocess.TimeoutExpired:
            return None
        finally:
            shutil.rmtree(folder)
