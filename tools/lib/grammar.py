"""Why words or lines are refused, in plain words. None stands for no fault."""
import re

from formats import BLOCKS, MOST_ARMED, MOST_DIE_BYTES, MOST_SCRIPT_BYTES, MOST_SECTOR_NUMBER, MOST_WRITE_BYTES, PAGES, SCHEMES, Head

HEAD = ("SCHEME", "BLOCKS", "PAGES", "SECTORS", "REUSE")
COMMANDS = {
    "replay": HEAD,
    "queue": HEAD,
    "format": HEAD,
    "worn": (*HEAD, "RESERVE", "BAD"),
    "pair": HEAD,
    "run": (),
    "audit": (),
    "make": ("SEED", "COUNT", *HEAD),
    "upgrade": (),
}
TO_COME = [name for name in ("queue", "worn", "pair", "audit") if name not in COMMANDS]
READ_A_SCRIPT = (
    "replay",
    "queue",
    "run",
    "worn",
    "pair",
)
NOT_PLAYED = ("cut", "failread", "mount", "stat")
MOST_COUNT = 20_000
LINES = {"write": 2, "read": 1, "trim": 1, "idle": 1, "cut": 2, "failread": 1, "mount": 0, "stat": 0}

STATUSES = {
    0: "all input was read and all output was given; replies may still be `fault`, `range` and the like",
    2: "the words are no command; tools/why WORDS says which one is wrong",
    3: "the script was refused and nothing was run; tools/why WORDS < SCRIPT says why",
    4: "die.img was refused and nothing was run; tools/die info die.img says more",
    5: "standard input or die.img could not be read; is there a die.img in this folder?",
    6: "standard output or die.new could not be written; die.new is as before",
    7: "there was no memory",
    8: "`audit` found that the cells of die.img are not sound; the line that was printed says where, and tools/die info die.img says more",
    70: "./rssd could not build the program; build/log says why",
}


def number_fault(name, word, low, high):
    if not re.fullmatch("0|[1-9][0-9]*", word, re.ASCII):
        return f"{name} is `{word}`: it is to be a number in decimal, without a sign or a zero in front"
    if len(word) > 20 or not low <= int(word) <= high:
        return f"{name} is {word}: it is to be {low:,} to {high:,}"
    return None


def head_fault(words):
    """Why SCHEME BLOCKS PAGES SECTORS REUSE are no device."""
    name, blocks, pages, sectors, reuse = words
    if name not in SCHEMES:
        return f"there is no scheme `{name}`, but {', '.join(SCHEMES)}"
    fault = number_fault("BLOCKS", blocks, BLOCKS[0], BLOCKS[-1]) or number_fault("PAGES", pages, PAGES[0], PAGES[-1])
    if fault:
        return fault
    most = (int(blocks) - 1) * int(pages) - 1
    fault = number_fault("SECTORS", sectors, 1, most)
    if fault:
        return f"{fault}, since a block and a page of the {blocks} x {pages} are spare"
    fault = number_fault("REUSE", reuse, 0, int(blocks))
    if fault:
        return fault
    head = Head(SCHEMES[name], int(blocks), int(pages), int(sectors), int(reuse))
    if head.die_bytes > MOST_DIE_BYTES:
        page = f"{head.scheme.page_bytes} + {head.scheme.spare_bytes}"
        return f"the die has {head.die_bytes:,} bytes, that is {blocks} x {pages} pages of {page}: at most {MOST_DIE_BYTES:,}"
    return None


def words_fault(words):
    """Why the program answers `bad words`."""
    if not words:
        return f"there is no command: {', '.join(COMMANDS)}"
    if any("\udc80" <= letter <= "\udcff" for word in words for letter in word):
        return "a word is no UTF-8"
    command, *rest = words
    if command in TO_COME:
        return f"the command `{command}` is not written yet"
    if command not in COMMANDS:
        return f"there is no command `{command}`, but {', '.join(COMMANDS)} (and no --help: see docs/rssd.1)"
    wanted = COMMANDS[command]
    if len(rest) != len(wanted):
        takes = f"the {len(wanted)} words {' '.join(wanted)}" if wanted else "no further word"
        return f"`{command}` takes {takes}, and got {len(rest)}"
    return numbers_fault(command, dict(zip(wanted, rest))) if wanted else None


def numbers_fault(command, given):
    """Why the numbers of a command are outside its limits."""
    fault = head_fault([given[name] for name in HEAD])
    if command == "make":
        fault = number_fault("SEED", given["SEED"], 0, 2**64 - 1) or number_fault("COUNT", given["COUNT"], 0, MOST_COUNT) or fault
    if command == "worn" and not fault:
        fault = worn_fault(given)
    if command == "pair" and not fault and int(given["BLOCKS"]) % 2:
        fault = f"BLOCKS is {given['BLOCKS']}: it is to be even, for two dies of as many blocks"
    return fault


def worn_fault(given):
    """Why a die cannot have so many reserve blocks, or erases go bad so."""
    fault = number_fault("RESERVE", given["RESERVE"], 0, int(given["PAGES"])) or number_fault("BAD", given["BAD"], 0, MOST_SECTOR_NUMBER)
    if fault:
        return fault
    inner = int(given["BLOCKS"]) + int(given["RESERVE"]) + 1
    if inner > BLOCKS[-1]:
        return f"the die has {inner:,} blocks, with the reserve and the table: at most {BLOCKS[-1]:,}"
    head = Head(SCHEMES[given["SCHEME"]], inner, int(given["PAGES"]), int(given["SECTORS"]), int(given["REUSE"]))
    return f"the die has {head.die_bytes:,} bytes, with the reserve and the table: at most {MOST_DIE_BYTES:,}" if head.die_bytes > MOST_DIE_BYTES else None


def bytes_fault(digits):
    if digits == "-":
        return None
    if re.search("[^0-9a-f]", digits):
        return "HEX has another character than 0 to 9 and a to f"
    if len(digits) % 2:
        return f"HEX has {len(digits)} digits, and two make a byte"
    if len(digits) > 2 * MOST_WRITE_BYTES:
        return f"HEX has {len(digits) // 2} bytes: at most {MOST_WRITE_BYTES}"
    return None


def spacing_fault(line):
    if line == "":
        return "the line is empty"
    if line.endswith("\r"):
        return "the line ends with a carriage return, as files of Windows do"
    if "\t" in line or "  " in line or line[0] == " " or line[-1] == " ":
        return "words are parted by one space, with none before and none behind"
    return "there are no comments" if line[0] == "#" else None


def line_fault(line):
    """Why a line is no line of a script."""
    fault = spacing_fault(line)
    if fault:
        return fault
    command, *rest = line.split(" ")
    if command not in LINES:
        return f"there is no line `{command}`" + (": small letters only" if command.lower() in LINES else f", but {', '.join(LINES)}")
    if len(rest) != LINES[command]:
        return f"`{command}` takes {LINES[command]} word{'' if LINES[command] == 1 else 's'}, and got {len(rest)}"
    if not rest:
        return None
    armed = command in ("cut", "failread")
    fault = number_fault("S" if command in ("write", "read", "trim") else "N", rest[0], int(armed), MOST_ARMED if armed else MOST_SECTOR_NUMBER)
    if fault:
        return fault
    if command == "write":
        return bytes_fault(rest[1])
    if command == "cut" and not re.fullmatch("none|all|mask:[0-9a-f]{16}", rest[1]):
        return f"TORN is `{rest[1]}`: it is to be none, all, or mask: with 16 digits of 0 to 9 and a to f"
    return None


def unplayed_fault(command, text):
    """The first line that `worn` and `pair` do not know, where each line is a line of a script."""
    if command not in ("worn", "pair"):
        return None
    lines = text.decode("latin-1").split("\n")
    return next(((number, f"`{command}` knows no line `{line.split(' ')[0]}`") for number, line in enumerate(lines, 1) if line.split(" ")[0] in NOT_PLAYED), None)


def script_fault(text):
    """The line that is refused, counted from 1, and why; line 0 stands for the whole script."""
    if len(text) > MOST_SCRIPT_BYTES:
        return 0, f"the script has {len(text):,} bytes: at most {MOST_SCRIPT_BYTES:,}; cut it into parts over `format` and `run`"
    lines = text.decode("latin-1").split("\n")
    if lines[-1] == "":
        lines.pop()
    return next(((number, fault) for number, line in enumerate(lines, 1) if (fault := line_fault(line))), None)
