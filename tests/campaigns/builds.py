"""builds: the program as LLVM builds it, and as Rattle's own compiler does, on the scripts of `model` and on damaged images: the same
status, the same bytes printed, the same image."""
import os
import shlex

import damage
import model
from shared import TOP, Differs, Folder, blank_image, seeded, text_of

COUNT, SMALL_COUNT = 10_000, 400
WHAT = "scripts and images"
OTHER = shlex.split(os.environ.get("RSSD_OTHER") or "") or [os.path.join(TOP, "build", "rssd.rattle")]
HINT = "cd crates/rssd_cli && rt run --backend rattle; cp out/rssd_cli ../../build/rssd.rattle; rt run"


def twist(answer):
    """What a deliberate mistake makes of the other build's answer."""
    return answer


def answer(folder, words, script, image):
    folder.put(image)
    return (*folder.call(words, script), folder.taken())


def compare(one, other, where, *call):
    if answer(one, *call) != twist(answer(other, *call)):
        raise Differs(f"{where}: the two builds differ")


def run(share, count, counts):
    if not os.access(OTHER[0], os.X_OK):
        print(f"    not tried, since there is no {OTHER[0]}: {HINT}")
        return
    bases = [base for _, base in damage.bases()]
    with Folder() as one, Folder(OTHER) as other:
        for seed in share.of_count(count):
            head, lines = model.case(seed + 1_000_000)
            compare(one, other, f"script {seed}, {' '.join(head.words)}", ["run"], text_of(lines), blank_image(head))
            counts["lines"] += len(lines)
            rng = seeded("builds", seed)
            base = rng.choice(bases)
            damaged = damage.with_bytes(base, (rng.randrange(len(base)), rng.randint(1, 255)))
            for words in (["run"], ["upgrade"]):
                compare(one, other, f"image {seed}", words, b"read 0\nwrite 0 5a\nmount\nread 0\nstat\n", damaged)
            compare(one, other, f"workload {seed}", ["make", str(seed), str(rng.randint(0, 200)), *head.words], b"", base)
            counts["cases"] += 1
            counts["damaged images"] += 1
            counts["workloads"] += 1


def one_erase_more():
    """The other build says eleven erases for ten."""

    def twisted(answer):
        status, out, new = answer
        return status, out.replace(b"erased 10\n", b"erased 11\n"), new

    global twist
    twist = twisted


MISTAKES = {"one_erase_more": one_erase_more}
