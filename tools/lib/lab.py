"""Runs of `lab draw`, and what its tables count. The first lines of a seed are the same however many come, so what a run counts
behind its first lines is the difference of two runs: of all lines, and of those first ones."""
import csv
import os
import subprocess
import sys
from dataclasses import dataclass

from program import TOP, Failed

LAB = os.environ.get("LAB") or os.path.join(TOP, "build", "lab")
WORKLOADS = ("uniform", "hot", "zipf", "sequential", "mixed")
REPLIES = ("first", "second", "declined", "read", "trim", "idle", "other")
MOST_IDLE = 1_000


def is_rate(idle):
    """Whether this is a number of idle lines in a thousand."""
    return idle.isascii() and idle.isdigit() and int(idle) <= MOST_IDLE


def draws(workload, idle):
    """Whether `lab draw` has such a workload, with idle lines at such a rate."""
    return workload in WORKLOADS and is_rate(idle)


def call_lab(words):
    """What one call prints. Raises Failed for another status than 0."""
    try:
        done = subprocess.run([LAB, *words], stdin=subprocess.DEVNULL, stdout=subprocess.PIPE, stderr=subprocess.DEVNULL)
    except OSError as error:
        sys.exit(f"{LAB}: {error.strerror}; `./lab` proves and builds the program, LAB may name another one, and --by-script does without")
    if done.returncode:
        raise Failed(words, done.returncode, done.stdout, "lab")
    return done.stdout.decode()


@dataclass(frozen=True)
class Tables:
    """What was counted up to the last line: over all, for each kind of reply, and for each block."""

    run: dict
    replies: dict
    blocks: list


def tables_of(text):
    """The tables that `lab` printed."""
    run, replies, blocks = (list(csv.DictReader(part.splitlines())) for part in text.split("\n\n"))
    numbers = [{name: int(value) for name, value in row.items()} for row in blocks]
    return Tables({name: int(value) for name, value in run[-1].items()}, {row["reply"]: row for row in replies}, numbers)


def draw(case, count):
    """The tables of the first `count` lines of a case."""
    return tables_of(call_lab(["draw", "quiet", case.workload, str(case.seed), str(count), str(int(case.idle)), str(count), *case.words]))


@dataclass(frozen=True)
class Counted:
    """What a run counted behind its first lines: `run` by the heads of lab's first table, and the erases of each block. The most of
    a line and of a page are those of all lines."""

    run: dict
    erases: list
    most: dict


def counted(case):
    whole = draw(case, case.skip + case.writes)
    run, erases = whole.run, [block["erases"] for block in whole.blocks]
    if case.skip:
        front = draw(case, case.skip)
        run = {name: value - front.run[name] for name, value in run.items()}
        erases = [last - first["erases"] for last, first in zip(erases, front.blocks)]
    most = {f"page_{name}": max(block[name] for block in whole.blocks) for name in ("most_programs", "most_changes")}
    most.update({f"{reply}_{name}": int(whole.replies[reply][name]) for reply in REPLIES for name in ("most_changes", "most_reads")})
    return Counted(run, erases, most)
