"""damage: images of small dies of all nine schemes, of version 2 and of version 1, with each byte changed to each of its 255 other
values, each length that is too short, headers forged with their right sums, and pairs of bytes at random. `run` and `upgrade`, and `audit` where the program has it,
have to end by the status, with the replies and with the image that a second reading of docs/FORMATS.md and of the device gives.
In sectors of 512 bytes the main bytes are changed to four other values each, since they are many and alike."""
from shared import LARGE, MAGIC, SCHEMES, SOUND_SEQS, VERSION_1_SCHEMES, Differs, Folder, Head, Header, Image, On, Refused, digits, image_bytes, lies_below_a_header, policy, read_head, seeded, text_of

COUNT, SMALL_COUNT = 1_579_318, 1_500
PAIRS = 4_000
WHAT = "damaged images"
LIFE = ["write 0 01", "write 0 03", "write 0 05", "trim 0", "write 0 a5", "write 0 5a", "idle 2", "write 0 11"]


def bases():
    """The images: for each scheme a die of two blocks after some writes, and one of three blocks with two sectors."""
    for scheme in SCHEMES.values():
        large = scheme.name in LARGE
        for head, length in ((Head(scheme, 2, 2, 1, 1), 8), (Head(scheme, 3, 2, 2, 1), 14)):
            if large and head.blocks == 3:
                continue
            session = policy.Session(head)
            for number in range(length):
                line = LIFE[number % len(LIFE)]
                session.say(line.replace(" 0 ", f" {number // 2 % head.sectors} ") if line.startswith("write") else line)
            cells = session.die.bytes()
            yield head, image_bytes(head, cells)
            if scheme.number in VERSION_1_SCHEMES and head.blocks == 2:
                yield head, image_bytes(head, cells, version=1)


def is_main(head, data, place):
    begin = 28 if data[8] == 1 else 32
    return place >= begin and (place - begin) % head.scheme.whole_page < head.scheme.page_bytes


def with_bytes(data, *changes):
    damaged = bytearray(data)
    for place, by in changes:
        damaged[place] ^= by
    return bytes(damaged)


def forged(head, data):
    """Each slot with each of some headers, whose sum is right, its gate charged or not."""
    begin, scheme = 28 if data[8] == 1 else 32, head.scheme
    for page in range(head.page_count):
        for slot in range(scheme.generations):
            at = begin + page * scheme.whole_page + scheme.page_bytes + 16 * slot
            for sector in range(head.sectors + 1):
                for seq in (*range(1, 11), 2**62 - 1, 2**62, 2**62 + 2**20, 2**64 - 1):
                    for kind in (1, 2, 3, 4):
                        for gate in (0, 1):
                            word = bytes([gate]) + policy.header_word(Header(sector, seq, kind))
                            yield data[:at] + word + data[at + 15 :]


def damages(head, data, rng):
    """All damages of an image."""
    yield from forged(head, data)
    for place in range(len(data)):
        few = head.scheme.name in LARGE and is_main(head, data, place)
        for by in rng.sample(range(1, 256), 4) if few else range(1, 256):
            yield with_bytes(data, (place, by))
    for length in range(len(data)) if head.scheme.name not in LARGE else range(0, len(data), 16):
        yield data[:length]
    yield data + b"\0"
    for _ in range(PAIRS):
        places = rng.sample(range(len(data)), 2)
        yield with_bytes(data, *((place, rng.randint(1, 255)) for place in places))


def refusal(data, upgrade):
    """The line that refuses an image, or None."""
    if upgrade and len(data) >= 28 and data[:8] == MAGIC and int.from_bytes(data[8:10], "little") != 1:
        return "bad image version"
    try:
        if not upgrade and len(data) >= 28 and data[:8] == MAGIC and int.from_bytes(data[8:10], "little") == 1:
            raise Refused("bad image short" if len(data) < 32 else "bad image version")
        Image(data)
    except Refused as refused:
        return str(refused)
    return None


def script(session, head):
    """Reads of all sectors, and where numbers are left some writes, a mount and the reads again."""
    reads = [f"read {sector}" for sector in range(min(head.sectors, 8))]
    if session is None or session.device.next >= 2**62 - 8:
        return [*reads, "mount", *reads, "stat"]
    return [*reads, "write 0 33", "write 0 c3", "idle 1", "trim 0", *reads, "mount", *reads, "stat"]


def wanted_of_run(data):
    """The script for `run`, with the status, the output and the new image."""
    refused = refusal(data, False)
    if refused:
        return ["read 0"], 4, [refused], None
    head = read_head(data)[1]
    try:
        session = On(head, data[32:])
    except OverflowError:
        return ["read 0"], 4, ["bad image no spare"], None
    lines = script(session, head)
    replies = [session.say(line) for line in lines]
    return lines, 0, replies, data[:32] + session.die.bytes()


def wanted_of_upgrade(data):
    refused = refusal(data, True)
    if refused:
        return 4, [refused], None
    version, head, begin = read_head(data)
    return 0, [], image_bytes(head, data[begin:])


def verdict(image):
    """The first finding against sound cells, or None."""
    valid = [record for record in image.records if record.header is not None]
    for record in image.records:
        if record.header is None and not lies_below_a_header(record.word):
            return f"unsound header {record.page} {record.slot}"
    for number, record in enumerate(valid):
        for other in valid[number + 1 :]:
            if other.header.seq == record.header.seq:
                return f"unsound seq {record.page} {record.slot} {other.page} {other.slot}"
    if image.spare is None:
        return "unsound spare"
    return next((f"unsound number {record.page} {record.slot}" for record in valid if record.header.seq >= SOUND_SEQS), None)


def wanted_of_audit(data):
    """The status, and the lines; those of sectors may come in any order."""
    refused = refusal(data, False)
    if refused:
        return 4, [refused]
    image = Image(data)
    unsound = verdict(image)
    return (8, [unsound]) if unsound else (0, ["sound", *(f"{sector} {digits(image.holds(sector))}" for sector in image.live)])


def compare(where, wanted, got):
    if wanted != got:
        raise Differs(f"{where}: {str(wanted)[:200]} by the second reading, {str(got)[:200]} by the program")


def judge_run(folder, where, data, counts):
    lines, status, replies, new = wanted_of_run(data)
    got = folder.call(["run"], text_of(lines))
    compare(f"{where}: run", (status, text_of(replies), new), (*got, folder.taken()))
    counts["refused by run" if status else "run"] += 1


def judge_upgrade(folder, where, data, counts):
    status, replies, new = wanted_of_upgrade(data)
    got = folder.call(["upgrade"])
    compare(f"{where}: upgrade", (status, text_of(replies), new), (*got, folder.taken()))
    counts["refused by upgrade" if status else "upgraded"] += 1


def judge_audit(folder, where, data, counts):
    status, lines = wanted_of_audit(data)
    got, out = folder.call(["audit"])
    compare(f"{where}: audit", (status, sorted(lines)), (got, sorted(out.decode().split("\n")[:-1])))
    counts["sound" if status == 0 else "unsound" if status == 8 else "refused by audit"] += 1


def judge(folder, where, number, version, data, counts, audits):
    """All commands on images of version 2; the others refuse version 1, which is tried on each eighth, and so is `upgrade` of version 2."""
    folder.put(data)
    if version == 1 or number % 8 == 0:
        judge_upgrade(folder, where, data, counts)
    if version == 2 or number % 8 == 0:
        judge_run(folder, where, data, counts)
        if audits:
            judge_audit(folder, where, data, counts)


def run(share, count, counts):
    """All damages, or so many that are spread over all."""
    every, number = max(1, COUNT // count), 0
    with Folder() as folder:
        audits = folder.call(["audit"])[0] != 2
        for head, base in bases():
            rng = seeded("damage", head.words, base[8])
            for damaged in damages(head, base, rng):
                number += 1
                if number % every == 0 and share.has(number // every):
                    where = f"case {number}, {' '.join(head.words)} version {base[8]}"
                    judge(folder, where, number // every, base[8], damaged, counts, audits)
                    counts["cases"] += 1


def no_pads():
    Image._refuse_pad_cells = lambda self: None


def equal_numbers_upwards():
    """Of two records with one number the one on the higher page."""
    from image import Record

    Record.age = property(lambda self: (self.header.seq, self.page, self.slot))


def sum_of_all_bytes():
    """A header's sum that is not looked at."""
    import formats
    import image
    import struct

    def read(word):
        sector, seq, kind, _ = struct.unpack("<IQBB", word)
        return formats.Header(sector, seq, kind) if kind in formats.KINDS else None

    image.read_header = read


MISTAKES = {"no_pads": no_pads, "equal_numbers_upwards": equal_numbers_upwards, "sum_not_looked_at": sum_of_all_bytes}
