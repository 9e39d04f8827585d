"""Workloads: which sector is written next, and the lines of a script that does so."""
import bisect
import itertools
import random


def uniform(sectors, rng):
    return lambda: rng.randrange(sectors)


def hot(sectors, rng, share="90", part="10"):
    """So many percent of the writes go to so many percent of the sectors, the others to all."""
    few = max(1, round(sectors * float(part) / 100))
    return lambda: rng.randrange(few) if rng.random() < float(share) / 100 else rng.randrange(sectors)


def zipf(sectors, rng, exponent="1.0"):
    """The sector of rank k is written k to the minus exponent as often as the first."""
    order = list(range(sectors))
    rng.shuffle(order)
    weights = list(itertools.accumulate(rank ** -float(exponent) for rank in range(1, sectors + 1)))
    return lambda: order[min(sectors - 1, bisect.bisect(weights, rng.random() * weights[-1]))]


def sequential(sectors, _rng):
    numbers = itertools.count()
    return lambda: next(numbers) % sectors


WORKLOADS = {"uniform": uniform, "hot": hot, "zipf": zipf, "sequential": sequential}


def chooser(workload, sectors, rng):
    """The function that names the next sector of a workload such as `hot:90:10`."""
    name, *numbers = workload.split(":")
    if name not in WORKLOADS:
        raise ValueError(f"there is no workload `{workload}`, but {', '.join(WORKLOADS)}")
    return WORKLOADS[name](sectors, rng, *numbers)


def idle_of(word):
    """The numbers of `K:N`: before each K-th write comes `idle N`. 0 is none."""
    if word == "0":
        return 0, 0
    every, colon, moves = word.partition(":")
    if not (colon and every.isdigit() and moves.isdigit() and int(every)):
        raise ValueError(f"idle {word}: by script it is 0 or K:N")
    return int(every), int(moves)


def write_line(sector, sector_bytes, rng):
    return f"write {sector} {rng.randbytes(sector_bytes).hex()}\n".encode()


def lines_of(case):
    """The script of a case: each sector once, `stat`, the writes with their `idle` lines, `stat`."""
    rng = random.Random(f"{case.seed} {case.workload} {case.sectors}")
    choose = chooser(case.workload, case.sectors, rng)
    size = case.scheme.sector_bytes
    every, moves = idle_of(case.idle)
    for sector in range(case.sectors):
        yield write_line(sector, size, rng)
    yield b"stat\n"
    for number in range(case.writes):
        if every and number % every == 0:
            yield b"idle %d\n" % moves
        yield write_line(choose(), size, rng)
    yield b"stat\n"
