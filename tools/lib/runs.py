"""Runs of a workload on a device, by lab or in as many scripts as it takes, and what was counted."""
import glob
import os
import tempfile
from dataclasses import dataclass
from typing import Optional

from formats import HEAD_BYTES, MOST_SCRIPT_BYTES, Scheme
from lab import counted
from program import Kept, play
from workload import lines_of

STAT_ROOM = len(b"stat\n")


@dataclass(frozen=True)
class Case:
    """One run: a device, a workload or the parts of a trace, and a seed. `wear` is the lines between two looks at the die. By lab
    `writes` are lines, behind `skip` lines that are not counted."""

    scheme: Scheme
    blocks: int
    pages: int
    sectors: int
    reuse: int
    workload: str
    idle: str
    writes: int
    seed: int
    reuse_asked: str = ""
    wear: int = 0
    trace: Optional[str] = None
    by_lab: bool = False
    skip: int = 0

    @property
    def words(self):
        return [self.scheme.name, *map(str, (self.blocks, self.pages, self.sectors, self.reuse))]

    @property
    def workload_name(self):
        return f"trace:{os.path.basename(self.trace)}" if self.trace else self.workload

    def lines(self):
        return trace_lines(self.trace) if self.trace else lines_of(self)


def trace_lines(name):
    """The lines of the parts of a trace, NAME.1.rssd and so on."""
    paths = sorted(glob.glob(f"{glob.escape(name)}.*.rssd"), key=lambda path: int(path.split(".")[-2]))
    if not paths:
        raise FileNotFoundError(f"there is no {name}.1.rssd")
    for path in paths:
        with open(path, "rb") as file:
            yield from file


def parts(lines, most_lines):
    """The lines in scripts that are within the program's limit, with room for a `stat`."""
    part, size = [], 0
    for line in lines:
        if part and (size + len(line) + STAT_ROOM > MOST_SCRIPT_BYTES or most_lines and len(part) >= most_lines):
            yield part
            part, size = [], 0
        part.append(line)
        size += len(line)
    yield part


def counts(reply):
    """The five numbers of a reply to `stat`: first, second, declined, moved, erased."""
    return [int(word) for word in reply.split(" ")[1::2]]


def marks_of(script, replies):
    return [counts(reply) for line, reply in zip(script, replies) if line == b"stat\n"]


class Wear:
    """Erases of each block, as two images show them: a block in which a cell fell was erased."""

    def __init__(self, case, path):
        self.erases, self.block_bytes = [0] * case.blocks, case.pages * case.scheme.whole_page
        self.before = self.blocks(path)

    def blocks(self, path):
        """The cells of each block, as a number."""
        with open(path, "rb") as file:
            file.seek(HEAD_BYTES)
            return [int.from_bytes(file.read(self.block_bytes), "little") for _ in self.erases]

    def look(self, path):
        now = self.blocks(path)
        for block, (old, new) in enumerate(zip(self.before, now)):
            self.erases[block] += old & ~new != 0
        self.before = now


def run_in_one(case, script):
    return marks_of(script, play(["replay", *case.words], b"".join(script))), None


def run_in_parts(case, scripts):
    """A run over an image: each script begins with a mount, and its counts begin at zero."""
    marks, base, wear = [], [0] * 5, None
    with tempfile.TemporaryDirectory() as folder:
        die = Kept(folder, case.words)
        for script in scripts:
            if case.wear and marks and wear is None:
                wear = Wear(case, die.image)
            replies = die.run(b"".join(script) + b"stat\n")
            marks += [[a + b for a, b in zip(base, mark)] for mark in marks_of(script, replies)]
            base = [a + b for a, b in zip(base, counts(replies[-1]))]
            if wear:
                wear.look(die.image)
    return marks, wear


def split_at_stat(lines, most_lines):
    """The parts of a run that looks at wear: the first `stat` ends a part, so that looking begins there."""
    lines = iter(lines)
    front = []
    for line in lines:
        front.append(line)
        if line == b"stat\n":
            break
    yield from parts(front, 0)
    yield from parts(lines, most_lines)


def row_of(case, first, second, declined, moved, erased, parts):
    """The row of a case up to its wear: its numbers, and what was counted."""
    writes = first + second + declined
    return {
        "scheme": case.scheme.name, "blocks": case.blocks, "pages": case.pages, "sectors": case.sectors,
        "load": round(case.sectors / (case.blocks * case.pages), 2), "reuse": case.reuse, "reuse_asked": case.reuse_asked or case.reuse,
        "workload": case.workload_name, "idle": case.idle, "asked": case.writes, "seed": case.seed,
        "writes": writes, "first": first, "second": second, "declined": declined, "moved": moved, "erased": erased,
        "erases_per_1000": per(1000 * erased, writes), "second_percent": per(100 * second, writes), "declined_percent": per(100 * declined, writes),
        "write_amplification": per(writes + moved, writes), "erased_bytes_per_byte": per(erased * case.pages * case.scheme.page_bytes, writes * case.scheme.sector_bytes),
        "main_bytes": case.blocks * case.pages * case.scheme.page_bytes, "die_bytes": case.blocks * case.pages * case.scheme.whole_page, "parts": parts,
    }


def wear_of(seen, erased):
    """The columns of wear: the erases of each block that were seen, if one looked, beside all of them."""
    least, mean, most, missed = (min(seen), round(sum(seen) / len(seen), 1), max(seen), erased - sum(seen)) if seen else ("", "", "", "")
    return {"wear_least": least, "wear_mean": mean, "wear_most": most, "wear_missed": missed}


def run_by_script(case):
    """The row of a case by scripts: what was counted between the first and the last `stat`."""
    scripts = list(split_at_stat(case.lines(), case.wear) if case.wear else parts(case.lines(), 0))
    marks, wear = run_in_one(case, scripts[0]) if len(scripts) == 1 else run_in_parts(case, scripts)
    begin = marks[0] if len(marks) > 1 else [0] * 5
    first, second, declined, moved, erased = (b - a for a, b in zip(begin, marks[-1]))
    seen = wear.erases if wear else None
    row = {**row_of(case, first, second, declined, moved, erased, len(scripts)), **wear_of(seen, erased)}
    if seen:
        row["wear_blocks"] = " ".join(map(str, seen))
    return row


def run_by_lab(case):
    """The row of a case by `lab draw`, with what its tables tell more."""
    told = counted(case)
    run, writes = told.run, sum(told.run[name] for name in ("first", "second", "declined"))
    return {
        **row_of(case, *(run[name] for name in ("first", "second", "declined", "moved", "erases")), 1),
        **wear_of(told.erases, run["erases"]),
        "by": "lab", "skipped": case.skip, "lines": run["lines"],
        **{f"{name}_lines": run[name] for name in ("read", "trim", "idle", "other")},
        **{name: run[name] for name in ("reads", "programs", "charges")},
        "programs_per_1000": per(1000 * run["programs"], writes),
        **told.most,
        "wear_blocks": " ".join(map(str, told.erases)),
    }


def run(case):
    return run_by_lab(case) if case.by_lab else run_by_script(case)


def per(number, whole):
    return round(number / whole, 3) if whole else 0
