"""What the Python scripts below tests/ share beside packets: networks of their own with machines on a hub, links that are cut and mended,
the program, and rows."""

import ctypes
import functools
import os
import shutil
import signal
import socket
import subprocess
import sys
import threading
import time
from contextlib import contextmanager

TOP = os.path.dirname(os.path.dirname(os.path.dirname(os.path.realpath(__file__))))
NEW_NETWORK = 0x40000000
SETTLES = 2.0  # for how many seconds after its last disturbance nothing is said of a machine
libc = ctypes.CDLL(None, use_errno=True)


def complain(text):
    print(f"{os.path.relpath(os.path.realpath(sys.argv[0]), TOP)}: {text}", file=sys.stderr)
    sys.exit(2)


def apart(*wanted):
    """Starts this script once more in networks, mounts and processes of its own, which end with it. Its network is a hub of machines. Ends
    it where it isn't root's, or one of these programs isn't there."""
    wanted = ("ip", "unshare", *wanted)
    if os.geteuid() or not all(map(shutil.which, wanted)):
        complain(f"wants root, {', '.join(wanted)}")
    if "APART" not in os.environ:
        words = ["unshare", "--mount", "--net", "--pid", "--fork", "--kill-child", "--mount-proc", sys.executable, "-B", *sys.argv]
        os.execvpe(words[0], words, dict(os.environ, APART="1"))
    del os.environ["APART"]
    signal.signal(signal.SIGTERM, lambda *_: sys.exit(130))
    os.makedirs("/run/netns", exist_ok=True)
    subprocess.run(["mount", "-t", "tmpfs", "none", "/run/netns"], check=True)
    ip(None, "link set lo up", "link add bridge type bridge", "link set bridge up")


def find_program(given, path):
    """Puts this program, or the one that ./nbt starts, to that path."""
    if given:
        shutil.copy(given, path)
    else:
        script = 'top=$1 self=$0 && source "$top/tools/built" && put_program "$2"'
        if subprocess.run(["bash", "-c", script, sys.argv[0], TOP, path]).returncode:
            sys.exit(2)


def compiled(source, path):
    """Makes a library of this source, to be loaded before libc. Returns its path."""
    subprocess.run([os.environ.get("CC", "cc"), "-shared", "-fPIC", "-O1", "-o", path, source, "-ldl"], check=True)
    return path


class Rows:
    """The rows, of which each is what it shows, and what was wrong, if anything. Each is said."""

    def __init__(self, say=functools.partial(print, flush=True)):
        self.passed = self.failed = 0
        self.lock, self.say = threading.Lock(), say

    def row(self, what, wrong=""):
        with self.lock:
            self.passed, self.failed = self.passed + (not wrong), self.failed + bool(wrong)
            self.say(f"failed: {what}: {wrong}" if wrong else f"passed: {what}")

    def tell(self):
        self.say(f"{self.passed} passed, {self.failed} failed")
        return int(self.failed > 0)


@contextmanager
def inside(namespace):
    """What is done inside is done in that network, by this thread."""
    here, there = (os.open(path, os.O_RDONLY) for path in ("/proc/thread-self/ns/net", f"/run/netns/{namespace}"))
    try:
        if libc.setns(there, NEW_NETWORK):
            raise OSError(ctypes.get_errno(), "setns")
        yield
    finally:
        libc.setns(here, NEW_NETWORK)
        os.close(here)
        os.close(there)


def command(namespace, *words):
    """A command in that network, or in the hub's. `ip netns exec` becomes the command, so that the process is the program's own."""
    return ["ip", "netns", "exec", namespace, *words] if namespace else [*words]


def starts(namespace, *words):
    running = subprocess.Popen(
        command(namespace, *words), stdin=subprocess.DEVNULL, stdout=subprocess.PIPE, stderr=subprocess.STDOUT
    )
    os.set_blocking(running.stdout.fileno(), False)
    return running


def ip(namespace, *lines):
    """Does what lines of `ip` say there, each though one before it fails."""
    words = ["ip", *(["-n", namespace] if namespace else []), "-force", "-batch", "-"]
    subprocess.run(words, input="\n".join(lines) + "\n", text=True, capture_output=True)


class Machine:
    """A machine with one address on the hub."""

    def __init__(self, name, net, number):
        self.name, self.number = name, number
        self.link, self.address = f"v{number}", f"{net}.{number}"
        self.disturbances, self.well_from = 0, time.monotonic() + SETTLES
        ip(None, f"netns add {name}", f"link add {self.link} type veth peer name eth0 netns {name}")
        ip(None, f"link set {self.link} master bridge up")
        ip(name, "link set lo up", f"addr add {self.address}/24 broadcast {net}.255 dev eth0", "link set eth0 up")

    def disturb(self):
        self.disturbances += 1

    def recover(self):
        self.disturbances -= 1
        self.well_from = max(self.well_from, time.monotonic() + SETTLES)

    def is_well(self, since):
        """Whether no fault touches it, and none did since that moment, nor shortly before."""
        return not self.disturbances and since >= self.well_from

    def port(self, port=0, address=None):
        with inside(self.name):
            made = socket.socket(socket.AF_INET, socket.SOCK_DGRAM)
        made.bind((address or self.address, port))
        made.setblocking(False)
        return made

    def cut(self, at_the_hub):
        self.disturb()
        self.set_link(at_the_hub, "down")

    def mend(self, at_the_hub):
        self.set_link(at_the_hub, "up")
        self.recover()

    def set_link(self, at_the_hub, word):
        ip(None if at_the_hub else self.name, f"link set {self.link if at_the_hub else 'eth0'} {word}")

    def detour(self):
        """Its link leaves the hub, and two others are there, over which a bad line goes. Returns the two that the line joins."""
        self.disturb()
        near, far = f"w{self.number}", f"x{self.number}"
        ip(None, f"link add name {near} type veth peer name {far}", f"link set {far} master bridge up")
        ip(None, f"link set {near} up", f"link set {self.link} nomaster")
        return self.link, near

    def straighten(self):
        """Its link is at the hub again."""
        ip(None, f"link set {self.link} master bridge", f"link del w{self.number}")
        self.recover()
