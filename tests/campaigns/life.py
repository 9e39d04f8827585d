"""life: millions of lines on dies from the smallest to the largest, in calls of 20,000 lines or a script of 1 MiB, each on the image
that the call before it left. A plain array judges every read; the memory at its peak and the time of a line are taken of each call,
and those of the last quarter of the calls are set beside those of the first."""
import os
import subprocess

from shared import SCHEMES, Differs, Folder, Head, blank_image, seeded

COUNT, SMALL_COUNT = 10_000_000, 60_000
WHAT = "lines"
DEVICES = (
    ("plain16", 2, 2, 1, 0), ("rs16", 4, 8, 12, 2), ("ham16", 8, 16, 40, 3), ("flip16", 64, 32, 700, 16),
    ("coset512", 64, 32, 900, 16), ("rs512", 128, 64, 4_000, 32), ("plain16", 1_024, 128, 60_000, 256), ("rs512", 1_024, 80, 40_000, 256),
)
# The two largest dies take fewer lines.
WEIGHTS = (1, 1, 1, 1, 1, 1, 0.2, 0.05)
MOST_LINES, MOST_BYTES = 20_000, 1_000_000


def lines_of(rng, head, array, most):
    """A script like those of `make`, with reads in it, and the replies that the plain array wants: None where it has no say."""
    lines, wanted, size, free = [], [], head.scheme.sector_bytes, MOST_BYTES
    while len(lines) < most and free > 0:
        pick, sector = rng.randrange(16), rng.randrange(head.sectors)
        if pick == 0:
            line, want = f"trim {sector}", "ok"
            array[sector] = "-"
        elif pick == 1:
            line, want = "idle 4", None
        elif pick < 6:
            line, want = f"read {sector}", array.get(sector, "-")
        else:
            row = rng.randbytes(size if size == 16 or pick == 15 else 12)
            line, want = f"write {sector} {row.hex()}", None
            array[sector] = row.rstrip(b"\0").hex() or "-"
        lines.append(line)
        wanted.append(want)
        free -= len(line) + 1
    return "".join(line + "\n" for line in lines).encode(), wanted


def call(folder, script):
    """The replies of one call, its seconds of processor time, and its peak memory in KiB, which `time` tells."""
    path, told = os.path.join(folder.path, "script"), os.path.join(folder.path, "told")
    with open(path, "wb") as file:
        file.write(script)
    with open(path, "rb") as given, open(os.path.join(folder.path, "replies"), "w+b") as out:
        child = subprocess.Popen(["/usr/bin/time", "-f", "%M", "-o", told, *folder.command, "run"], stdin=given, stdout=out, cwd=folder.path)
        _, status, used = os.wait4(child.pid, 0)
        child.returncode = status
        out.seek(0)
        replies = out.read().decode().split("\n")[:-1]
    if status:
        raise Differs(f"status {status}")
    os.replace(folder.new, folder.image)
    with open(told) as file:
        return replies, used.ru_utime, int(file.read())


def judge(where, script, wanted, replies):
    if len(wanted) != len(replies):
        raise Differs(f"{where}: {len(replies)} replies to {len(wanted)} lines")
    for number, (want, got) in enumerate(zip(wanted, replies), 1):
        if want != got and (want is not None or got not in ("first", "second", "declined", "0", "1", "2", "3", "4")):
            line = script.split(b"\n")[number - 1][:40].decode()
            raise Differs(f"{where}, line {number} `{line}`: {want} by the array, {got[:60]} by the program")


def live(device, share, most, counts):
    """One device from a blank die on, for so many lines."""
    head = Head(SCHEMES[device[0]], *device[1:])
    rng, array, done, calls, peak = seeded("life", device, share.shard), {}, 0, [], 0
    with Folder() as folder:
        folder.put(blank_image(head))
        while done < most:
            script, wanted = lines_of(rng, head, array, min(MOST_LINES, most - done))
            replies, seconds, memory = call(folder, script)
            judge(f"{' '.join(head.words)} after {done} lines", script, wanted, replies)
            done, peak = done + len(wanted), max(peak, memory)
            calls.append(1e6 * seconds / len(wanted))
    quarter = max(1, len(calls) // 4)
    early, late = (sum(part) / len(part) for part in (calls[:quarter], calls[-quarter:]))
    print(f"    {' '.join(head.words)}: {done:,} lines in {len(calls)} calls, {early:.2f} us a line at first and {late:.2f} at last, {peak / 1024:.1f} MiB at most", flush=True)
    counts["cases"] += done
    counts["calls"] += len(calls)


def run(share, count, counts):
    """The devices are shared out, and where there are more shares than devices each device lives as often as it has shares."""
    lives = max(1, share.of // len(DEVICES))
    for number, (device, weight) in enumerate(zip(DEVICES, WEIGHTS)):
        if share.has(number) or share.of > len(DEVICES) and share.shard % len(DEVICES) == number:
            live(device, share, max(400, int(count * weight / sum(WEIGHTS) / lives)), counts)


def trims_forgotten():
    """The array does not know that a trim makes zeros."""
    global lines_of
    old = lines_of

    def lines(rng, head, array, most):
        class Keeping(dict):
            def __setitem__(self, sector, row):
                if row != "-":
                    super().__setitem__(sector, row)

        kept = Keeping(array)
        script, wanted = old(rng, head, kept, most)
        array.update(kept)
        return script, wanted

    lines_of = lines


MISTAKES = {"trims_forgotten": trims_forgotten}
