"""ends: each allocation refused, once and from then on, in each command; each read, write, open, sync and rename failing, once and
from then on; reads and writes of one byte, and of one to seven bytes at random; scripts and images that come through a FIFO in two
pieces, parted at each place; a full device; a limit on files at each size. The calls fail by a library that is preloaded (fail.c)."""
import os
import resource
import signal
import struct
import subprocess
import threading

from shared import SCHEMES, TOP, Differs, Folder, Head, blank_image, image_bytes, policy, text_of

COUNT, SMALL_COUNT = 2_552, 500
WHAT = "failing ends"
KINDS = ("alloc", "read", "write", "open", "sync", "rename")
LIBRARY = os.path.join(TOP, "build", "fail.so")
SOURCE = os.path.join(TOP, "tests", "campaigns", "fail.c")
LINES = ["write 0 a5", "write 1 5a", "mount", "write 0 01", "trim 1", "read 0", "idle 2", "mount", "read 1", "write 2 ff", "cut 2 none", "write 0 77", "mount", "read 0", "stat"]


def build_library():
    """Compiles fail.c where that is not done yet. None where there is no compiler."""
    if not os.path.exists(LIBRARY) or os.path.getmtime(LIBRARY) < os.path.getmtime(SOURCE):
        own = f"{LIBRARY}.{os.getpid()}"
        os.makedirs(os.path.dirname(LIBRARY), exist_ok=True)
        subprocess.run(["cc", "-O2", "-shared", "-fPIC", "-o", own, SOURCE], check=True)
        os.replace(own, LIBRARY)


class Without(policy.Session):
    """The second device, where some of its mounts find no memory: the m-th after the first, or all from it on."""

    def __init__(self, head, fails):
        super().__init__(head)
        self.fails, self.mounts = fails, 0

    def mount(self):
        self.mounts += 1
        if not self.fails(self.mounts):
            return super().mount()
        if self.device:
            self.moved += self.device.moved
        self.device, self.die.on = None, True
        return "no memory"


def ends_of(head, fails):
    session = Without(head, fails)
    replies = [session.say(line) for line in LINES]
    return text_of(replies), image_bytes(head, session.die.bytes())


def commands():
    """Each command: its words, script and image, and what it may print and write with status 0 where some mount finds no memory."""
    head = Head(SCHEMES["rs16"], 4, 2, 3, 1)
    whole = ends_of(head, lambda mount: False)
    mounts = LINES.count("mount")
    some = [ends_of(head, lambda mount, m=m: mount == m) for m in range(1, mounts + 1)]
    rest = [ends_of(head, lambda mount, m=m: mount >= m) for m in range(1, mounts + 1)]
    with_image = [whole, *some, *rest]
    large = Head(SCHEMES["coset512"], 3, 4, 4, 1)
    old = image_bytes(head, bytes(head.die_bytes), version=1)
    yield ["replay", *head.words], text_of(LINES), None, [(out, None) for out, _ in with_image]
    yield ["run"], text_of(LINES), blank_image(head), with_image
    yield ["format", *head.words], b"", None, [(b"", blank_image(head))]
    yield ["format", *large.words], b"", None, [(b"", blank_image(large))]
    yield ["make", "1", "50", *head.words], b"", None, None
    yield ["make", "7", "40", *large.words], b"", None, None
    yield ["upgrade"], b"", old, [(b"", blank_image(head))]


class Ends(Folder):
    """A folder with an old `die.new`, which may be kept or replaced."""

    OLD = b"as before"

    def play(self, words, script, image, **environment):
        """The status, the output, and the new image or None where the old one was kept."""
        if image is None and os.path.exists(self.image):
            os.unlink(self.image)
        if image is not None:
            self.put(image)
        with open(self.new, "wb") as file:
            file.write(self.OLD)
        status, out = self.call(words, script, {**os.environ, "LD_PRELOAD": LIBRARY, **environment})
        new = self.taken()
        left = [name for name in os.listdir(self.path) if name not in ("die.img", "counts")]
        for name in left:
            os.unlink(os.path.join(self.path, name))
        return status, out, None if new == self.OLD else new, left

    def counts(self, words, script, image):
        """How many calls of each kind the command makes."""
        path = os.path.join(self.path, "counts")
        self.play(words, script, image, COUNTS=path)
        with open(path, "rb") as file:
            return dict(zip(KINDS, struct.unpack("<6Q", file.read())))


def judge_failure(where, kind, got, whole, allowed):
    """Whether an answer is one that the failing call may have."""
    status, out, new, left = got
    if status == 0 and (out, new) == (whole[1], whole[2]):
        return "all done"
    if kind == "alloc":
        if status == 7 and (out, new, left) == (b"", None, []):
            return "status 7"
        if status == 0 and (out, new) in allowed:
            return "no memory"
    elif kind in ("read", "open") and status == 5 and (out, new) == (b"", None):
        return "status 5"
    elif kind in ("write", "open", "sync", "rename") and status == 6 and new is None and whole[1].startswith(out):
        return "status 6"
    raise Differs(f"{where}: status {status}, {out[:80]}, new image {new and len(new)}, left {left}")


def failing_calls(folder, tick, counts):
    """Each call of each kind failing, once and from then on."""
    for words, script, image, allowed in commands():
        whole = folder.play(words, script, image)
        allowed = allowed or [(whole[1], None)]
        if whole[0] or (whole[1], whole[2]) not in allowed:
            raise Differs(f"{' '.join(words)}: {whole}")
        for kind, number in folder.counts(words, script, image).items():
            for n in range(1, number + 1):
                for fail in (f"{kind} {n}", f"{kind} {n}.."):
                    if tick():
                        got = folder.play(words, script, image, FAIL=fail)
                        counts[judge_failure(f"{' '.join(words)}, {fail}", kind, got, whole, allowed)] += 1


def short_calls(folder, tick, counts):
    """Reads and writes that move a byte, or a few."""
    for words, script, image, _ in commands():
        whole = folder.play(words, script, image)
        for short in (1, 2, 3, *range(1001, 1061)):
            if tick():
                got = folder.play(words, script, image, SHORT=str(short))
                if got != whole:
                    raise Differs(f"{' '.join(words)}, pieces {short}: {got} in place of {whole}")
                counts["in pieces"] += 1


def feed(target, parts):
    """Gives parts to a FIFO, each once the one before it is read."""
    import fcntl
    import termios

    file = os.open(target, os.O_WRONLY)
    for part in parts:
        os.write(file, part)
        while struct.unpack("i", fcntl.ioctl(file, termios.FIONREAD, b"\0" * 4))[0]:
            pass
    os.close(file)


def through_fifos(folder, tick, counts):
    """The script and the image of `run` through FIFOs, parted at each place."""
    words, script, image, _ = [it for it in commands()][1]
    whole = folder.play(words, script, image)
    if os.path.exists(folder.image):
        os.unlink(folder.image)
    fifo = os.path.join(folder.path, "fifo")
    for name, data in (("script", script), ("image", image)):
        for at in range(1, len(data)):
            if not tick():
                continue
            target = fifo if name == "script" else folder.image
            if os.path.exists(target):
                os.unlink(target)
            os.mkfifo(target)
            if name == "script":
                folder.put(image)
            writer = threading.Thread(target=feed, args=(target, (data[:at], data[at:])))
            writer.start()
            with open(fifo, "rb") if name == "script" else subprocess.Popen(["printf", "%s", script.decode()], stdout=subprocess.PIPE).stdout as given:
                done = subprocess.run([*folder.command, *words], stdin=given, stdout=subprocess.PIPE, cwd=folder.path)
            writer.join()
            os.unlink(target)
            if (done.returncode, done.stdout, folder.taken()) != whole[:3]:
                raise Differs(f"{name} parted at {at}: status {done.returncode}, {done.stdout[:80]}")
            counts["through a FIFO"] += 1


def limits_on_files(folder, tick, counts):
    """`format` under a limit on files of each size: the new image whole, or status 6 and the old one."""
    head = Head(SCHEMES["rs16"], 4, 2, 3, 1)
    image = blank_image(head)
    for limit in range(len(image) + 2):
        if not tick():
            continue
        with open(folder.new, "wb") as file:
            file.write(Ends.OLD)

        def limited(most=limit):
            signal.signal(signal.SIGXFSZ, signal.SIG_IGN)
            resource.setrlimit(resource.RLIMIT_FSIZE, (most, most))

        status = subprocess.run([*folder.command, "format", *head.words], cwd=folder.path, stdin=subprocess.DEVNULL, preexec_fn=limited).returncode
        new, wanted = folder.taken(), (0, image) if limit >= len(image) else (6, Ends.OLD)
        if (status, new) != wanted or len(os.listdir(folder.path)) > 1:
            raise Differs(f"a limit of {limit} bytes: status {status}, {os.listdir(folder.path)}")
        counts["limits on files"] += 1


def full_device(folder, tick, counts):
    """Outputs that take nothing."""
    for words, script, image, _ in commands():
        if not tick():
            continue
        if image is not None:
            folder.put(image)
        with open("/dev/full", "wb") as full:
            done = subprocess.run([*folder.command, *words], input=script, stdout=full, cwd=folder.path)
        new = folder.taken()
        prints = words[0] in ("replay", "run", "make")
        if done.returncode != (6 if prints else 0) or prints and new is not None:
            raise Differs(f"{' '.join(words)} to a full device: status {done.returncode}")
        counts["full devices"] += 1


def run(share, count, counts):
    """All, or so many that are spread over all."""
    build_library()
    every, number = max(1, COUNT // count), 0

    def tick():
        nonlocal number
        number += 1
        mine = number % every == 0 and share.has(number // every)
        counts["cases"] += mine
        return mine

    with Ends() as folder:
        for part in (failing_calls, short_calls, through_fifos, limits_on_files, full_device):
            part(folder, tick, counts)


def goes_on(self):
    """After a mount without memory the device of before goes on."""
    self.mounts += 1
    return "no memory" if self.fails(self.mounts) else policy.Session.mount(self)


def takes_effect():
    Without.mount = goes_on


def status_six_for_reads():
    global judge_failure
    old = judge_failure

    def judge(where, kind, got, whole, allowed):
        return old(where, "write" if kind == "read" else kind, got, whole, allowed)

    judge_failure = judge


MISTAKES = {"a_mount_without_memory_keeps_the_device": takes_effect, "status_6_for_a_failed_read": status_six_for_reads}
