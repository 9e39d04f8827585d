"""What the campaigns share: the second device in Python, a folder for the built program, and shares of cases."""
import importlib.machinery
import importlib.util
import os
import random
import shlex
import shutil
import struct
import subprocess
import sys
import tempfile

sys.dont_write_bytecode = True
TOP = os.path.dirname(os.path.dirname(os.path.dirname(os.path.realpath(__file__))))
sys.path.insert(0, os.path.join(TOP, "tools", "lib"))
# The command that is the program: RSSD may name another one, also with words before the program.
COMMAND = shlex.split(os.environ.get("RSSD") or "") or [os.path.join(TOP, "build", "rssd")]


def load_policy():
    """tests/policy as a module: the device once more."""
    loader = importlib.machinery.SourceFileLoader("policy", os.path.join(TOP, "tests", "policy"))
    module = importlib.util.module_from_spec(importlib.util.spec_from_loader("policy", loader))
    sys.modules["policy"] = module
    loader.exec_module(module)
    return module


policy = load_policy()
from formats import MAGIC, SCHEMES, SOUND_SEQS, VERSION_1_SCHEMES, Head, Header, Refused, lies_below_a_header, read_head  # noqa: E402, F401
from image import Image, digits  # noqa: E402, F401

SMALL = ("plain16", "rs16", "coset16", "flip16", "ham16")
LARGE = ("rs512", "coset512", "flip512", "ham512")


class Differs(Exception):
    """An answer that is not the one that is wanted."""


def image_bytes(head, cells, version=2):
    """An image of these cells."""
    numbers = (head.scheme.number, head.blocks, head.pages, head.sectors, head.reuse)
    slots = struct.pack("<I", head.scheme.generations) if version == 2 else b""
    return MAGIC + struct.pack("<HHIIII", version, *numbers) + slots + cells


def blank_image(head):
    return image_bytes(head, bytes(head.die_bytes))


def text_of(lines):
    return "".join(line + "\n" for line in lines).encode()


class Folder:
    """A folder of its own, in memory where there is one, that the program is called in."""

    def __init__(self, command=COMMAND):
        self.path = tempfile.mkdtemp(prefix="campaign-", dir="/dev/shm" if os.path.isdir("/dev/shm") else None)
        self.command = command
        self.image, self.new = os.path.join(self.path, "die.img"), os.path.join(self.path, "die.new")

    def __enter__(self):
        return self

    def __exit__(self, *_):
        shutil.rmtree(self.path)

    def put(self, image):
        with open(self.image, "wb") as file:
            file.write(image)

    def call(self, words, script=b"", environment=None):
        """The status and what was printed."""
        how = {"stdout": subprocess.PIPE, "stderr": subprocess.DEVNULL, "cwd": self.path, "env": environment, "close_fds": False}
        try:
            done = subprocess.run([*self.command, *words], input=script, timeout=60, **how)
        except subprocess.TimeoutExpired:
            raise Differs(f"{' '.join(words)}: no answer in a minute") from None
        return done.returncode, done.stdout

    def taken(self):
        """The new image, which is removed, or None."""
        try:
            with open(self.new, "rb") as file:
                new = file.read()
        except FileNotFoundError:
            return None
        os.unlink(self.new)
        return new


class On(policy.Session):
    """The replies of the second device on a die of given cells."""

    def __init__(self, head, cells):
        self.head, self.die = head, policy.Die(head)
        size = head.scheme.whole_page
        self.die.pages = [int.from_bytes(cells[at : at + size], "little") for at in range(0, len(cells), size)]
        self.die.form = None
        self.device = policy.Device(head, self.die)
        self.counts, self.moved = {"first": 0, "second": 0, "declined": 0}, 0


class Share:
    """Every `of`-th case, from `shard` on."""

    def __init__(self, shard, of):
        self.shard, self.of = shard, of

    def of_count(self, count):
        return range(self.shard, count, self.of)

    def has(self, number):
        return number % self.of == self.shard


def seeded(*parts):
    return random.Random(" ".join(map(str, parts)))
