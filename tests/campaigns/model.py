"""model: random scripts with cuts and failed reads, on random small dies of all schemes, beside the second device of tests/policy:
every reply, every `stat` and every cell that is left has to be the same."""
from shared import LARGE, SCHEMES, Differs, Folder, Head, blank_image, policy, seeded, text_of

COUNT, SMALL_COUNT = 100_000, 1_500
WHAT = "scripts"


def head_of(rng):
    scheme = rng.choice(list(SCHEMES.values()))
    blocks, pages = rng.randint(2, 6), rng.randint(2, 7)
    most = (blocks - 1) * pages - 1
    sectors = rng.choice([1, most, rng.randint(1, most), rng.randint(1, most)])
    return Head(scheme, blocks, pages, sectors, rng.randint(0, blocks))


def case(seed):
    """A device, and a script of up to 150 lines, or 40 where a sector has 512 bytes."""
    rng = seeded("model", seed)
    head = head_of(rng)
    most = 40 if head.scheme.name in LARGE else 150
    lines = [policy.random_line(rng, head.sectors, head.scheme.sector_bytes) for _ in range(rng.randint(1, most))]
    return head, [*lines, "mount", "stat"]


def answers(head, lines):
    """The replies of the second device, and the cells that it leaves."""
    session = policy.Session(head)
    return [session.say(line) for line in lines], session.die.bytes()


def judge(folder, seed, counts):
    head, lines = case(seed)
    wanted, cells = answers(head, lines)
    folder.put(blank_image(head))
    status, out = folder.call(["run"], text_of(lines))
    got, new = out.decode().split("\n")[:-1], folder.taken()
    counts["lines"] += len(lines)
    counts["cuts"] += sum(line.startswith("cut") for line in lines)
    counts["faults"] += wanted.count("fault")
    where = f"script {seed}, {' '.join(head.words)}"
    if status or len(got) != len(lines):
        raise Differs(f"{where}: status {status}, {len(got)} replies to {len(lines)} lines")
    for number, (line, want, have) in enumerate(zip(lines, wanted, got), 1):
        if want != have:
            raise Differs(f"{where}: line {number} `{line[:40]}`: {want[:60]} by the pages, {have[:60]} by the program")
    if new != blank_image(head)[:32] + cells:
        raise Differs(f"{where}: the cells differ")


def run(share, count, counts):
    with Folder() as folder:
        for seed in share.of_count(count):
            judge(folder, seed, counts)
            counts["cases"] += 1


def export(folder, count):
    """Cases for `rt try --cases`: a script, the words, and what is to be printed."""
    for seed in range(count):
        head, lines = case(seed)
        for name, text in (("", text_of(lines)), (".args", text_of(["replay", *head.words])), (".stdout", text_of(answers(head, lines)[0]))):
            with open(f"{folder}/{seed:04d}{name}", "wb") as file:
                file.write(text)


def victim_youngest(self, fewest):
    blocks = [block for block in reversed(self.order) if self.live[block] >= fewest]
    return min(blocks, key=lambda block: self.live[block], default=None)


def recycle_highest(self):
    for block in reversed(range(self.head.blocks)):
        if self.state.count("recycled") < self.head.reuse and self.head.units and self.state[block] == "used" and not self.live[block]:
            self.state[block], self.level[block], self.unit[block] = "recycled", self.level[block] + 1, 0


def trim_always(self, sector):
    self.put_clean(sector, 3, 0)
    return "ok"


def seal_forgotten(self):
    self.next += 1
    return self.next


MISTAKES = {
    "victim_youngest": lambda: setattr(policy.Device, "least", victim_youngest),
    "recycle_highest": lambda: setattr(policy.Device, "recycle", recycle_highest),
    "trim_always": lambda: setattr(policy.Device, "trim", trim_always),
    "number_one_too_high": lambda: setattr(policy.Device, "draw", seal_forgotten),
}
