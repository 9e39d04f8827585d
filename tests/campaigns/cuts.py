"""cuts: every cut of all short scripts after prefixes that bring small dies into each state, in process: the program
crates/cut_campaign. Its first lines say what it enumerates, and what judges the replies."""
import os
import re
import subprocess

from shared import LARGE, SMALL, TOP, Differs

COUNT, SMALL_COUNT = 1, 600
WHAT = "cuts"
BUILT = [os.path.join(TOP, *folders, "cut_campaign") for folders in (("build",), ("crates", "cut_campaign", "out"))]
HINT = "(cd crates/cut_campaign && rt run -- rs16 1 0 1)"
LINES = {**{name: 4 for name in SMALL}, **{name: 3 for name in LARGE}}
NOTED = ("scripts", "cut again", "failed reads", "mounts", "sectors read")


def run(share, count, counts):
    """All scripts; of a count every so-manieth, and then the schemes are shared out."""
    program = next((path for path in BUILT if os.access(path, os.X_OK)), None)
    if program is None:
        print(f"    not tried, since there is no {BUILT[1]}: {HINT}")
        return
    for place, (name, lines) in enumerate(LINES.items()):
        if count > 1 and not share.has(place):
            continue
        words = [name, str(lines), *map(str, (0, count) if count > 1 else (share.shard, share.of))]
        done = subprocess.run([program, *words], stdout=subprocess.PIPE, stderr=subprocess.DEVNULL, text=True)
        for number, word in re.findall(r"(\d+) (scripts|cuts|cut again|failed reads|mounts|sectors read)", done.stdout.split("\n")[0]):
            counts["cases" if word == "cuts" else word] += int(number)
        if done.returncode:
            raise Differs(f"{' '.join(words)}: status {done.returncode}\n    " + done.stdout[:600])


MISTAKES = {}
