"""A die image as its cells show it: records, the live ones, and the state that a mount gives each block."""
from dataclasses import dataclass
from typing import Optional

import codes
from formats import GREATEST_SEQ, HEAD_BYTES, HEADER_BYTES, SLOT_BYTES, SOUND_SEQS, Header, Refused, charged_cells, lies_below_a_header, read_head, read_header


@dataclass(frozen=True)
class Record:
    """A slot that is not blank. `header` is None where its word is not valid."""

    page: int
    slot: int
    gate: bool
    word: bytes
    header: Optional[Header]
    is_committed: bool

    @property
    def age(self):
        """The greater is the newer: by seq, then the lower page, then the higher slot."""
        return self.header.seq, -self.page, self.slot


class Image:
    """The cells of a die. Raises Refused where the program refuses the bytes."""

    def __init__(self, data):
        self.version, self.head, self.begin = read_head(data)
        self.size = self.begin + self.head.die_bytes
        if len(data) < self.size:
            raise Refused("bad image short")
        if len(data) > self.size:
            raise Refused("bad image long")
        self._take(data[self.begin :])
        self._refuse_pad_cells()

    @classmethod
    def of_cells(cls, head, cells):
        """The image of a head and the bytes of its pages."""
        image = cls.__new__(cls)
        image.version, image.head, image.begin, image.size = 2, head, HEAD_BYTES, HEAD_BYTES + head.die_bytes
        image._take(cells)
        return image

    def _take(self, cells):
        """Reads off the cells what a mount does."""
        self.scheme = self.head.scheme
        self.pages = [cells[at : at + self.scheme.whole_page] for at in range(0, len(cells), self.scheme.whole_page)]
        self.records = [record for page in range(len(self.pages)) for record in self._records_of(page)]
        self.live = self._live_records()
        self.live_counts = [0] * self.head.blocks
        for record in self.live.values():
            self.live_counts[self.block_of(record.page)] += 1
        free = [block for block, live in enumerate(self.live_counts) if not live]
        self.spare = max(free, default=None)
        self.found = [self._found_state(block) for block in range(self.head.blocks)]
        self.recycled = self._recycled()

    # Where things stand.

    def block_of(self, page):
        return page // self.head.pages

    def pages_of(self, block):
        return range(block * self.head.pages, (block + 1) * self.head.pages)

    def offset_of(self, page):
        return self.begin + page * self.scheme.whole_page

    def main_bytes(self, page):
        return self.pages[page][: self.scheme.page_bytes]

    def slot_bytes(self, page, slot):
        at = self.scheme.page_bytes + SLOT_BYTES * slot
        return self.pages[page][at : at + SLOT_BYTES]

    def begins_unit(self, page):
        unit, offset = divmod(page % self.head.pages, self.scheme.span)
        return offset == 0 and unit < self.head.units

    def is_sealed(self, block):
        return bool(self.slot_bytes(block * self.head.pages, 1)[15] & 1)

    def is_blank(self, page):
        return not any(self.pages[page])

    def _refuse_pad_cells(self):
        for page in range(len(self.pages)):
            for slot in range(self.scheme.generations):
                row = self.slot_bytes(page, slot)
                may_seal = slot == 1 and page % self.head.pages == 0
                if row[0] & ~1 or row[15] & (~1 if may_seal else 0xFF):
                    raise Refused("bad image pad")

    # Records.

    def _records_of(self, page):
        for slot in range(self.scheme.generations):
            row = self.slot_bytes(page, slot)
            if any(row[: 1 + HEADER_BYTES]):
                yield self._record(page, slot, row)

    def _record(self, page, slot, row):
        gate, word = bool(row[0] & 1), row[1 : 1 + HEADER_BYTES]
        header = read_header(word)
        committed = (
            header is not None
            and gate
            and header.sector < self.head.sectors
            and (slot == 0 or self.begins_unit(page))
            and (not header.is_copy or self.is_sealed(self.block_of(page)))
        )
        return Record(page, slot, gate, word, header, committed)

    def _live_records(self):
        live = {}
        for record in self.records:
            if record.is_committed:
                other = live.get(record.header.sector)
                if other is None or record.age > other.age:
                    live[record.header.sector] = record
        return dict(sorted(live.items()))

    def is_live(self, record):
        return record.header is not None and self.live.get(record.header.sector) is record

    def says(self, record):
        """What a record is, in words."""
        if record.header is None:
            return "torn header"
        if record.header.sector >= self.head.sectors:
            return "no such sector"
        if not record.gate:
            return "no gate: does not count"
        if record.slot > 0 and not self.begins_unit(record.page):
            return "no unit begins here"
        if not record.is_committed:
            return "no seal: does not count"
        return "live" if self.is_live(record) else "stale"

    @property
    def next_seq(self):
        """The number that the next record gets after a mount."""
        seqs = [record.header.seq for record in self.records if record.header is not None]
        return min(max(seqs) + 1, GREATEST_SEQ) if seqs else 1

    def holds(self, sector):
        """The bytes of a sector."""
        record = self.live.get(sector)
        if record is None or record.header.says_zeros:
            return bytes(self.scheme.sector_bytes)
        span = self.scheme.span if record.slot > 0 else 1
        unit = [self.main_bytes(page) for page in range(record.page, record.page + span)]
        return codes.decode(self.scheme, record.slot, unit)

    # Blocks, as a mount finds them.

    def level_of(self, block):
        """The highest slot that is used in some unit of a block."""
        units = (page for page in self.pages_of(block) if self.begins_unit(page))
        used = (slot for page in units for slot in range(1, self.scheme.generations) if any(self.slot_bytes(page, slot)[: 1 + HEADER_BYTES]))
        return max(used, default=0)

    def _found_state(self, block):
        if all(self.is_blank(page) for page in self.pages_of(block)):
            return "clean"
        return "reused" if self.level_of(block) == self.scheme.generations - 1 else "used"

    def _recycled(self):
        """The blocks that the mount recycles: the lowest used ones without a live record, as many as reuse allows."""
        if self.head.units == 0:
            return []
        due = (block for block in range(self.head.blocks) if block != self.spare and self.found[block] == "used" and not self.live_counts[block])
        return list(due)[: self.head.reuse]

    def state_of(self, block):
        """The state of a block after a mount."""
        if block == self.spare:
            return "spare"
        return "recycled" if block in self.recycled else self.found[block]

    @property
    def charged(self):
        """The number of charged main cells."""
        return sum(charged_cells(self.main_bytes(page)) for page in range(len(self.pages)))

    # What a power cut cannot have left.

    def findings(self):
        """The findings against sound cells, in the order: headers, equal seqs, no free block, seqs past the end. Each has the word
        of the program's `audit`, and the records."""
        found = [("header", [record]) for record in self.records if record.header is None and not lies_below_a_header(record.word)]
        headers = [record for record in self.records if record.header is not None]
        by_seq = {}
        for record in headers:
            by_seq.setdefault(record.header.seq, []).append(record)
        found += [("seq", [same[0], other]) for same in by_seq.values() for other in same[1:]]
        if self.spare is None:
            found.append(("spare", []))
        return found + [("number", [record]) for record in headers if record.header.seq >= SOUND_SEQS]

    def faults(self):
        """The findings in words."""
        says = {
            "header": "header of {} lies below no valid header",
            "seq": "{} and {} have the same seq",
            "spare": "every block has a live record",
            "number": "seq of {} is past the end",
        }
        return [says[word].format(*(f"page {record.page} slot {record.slot}" for record in records)) for word, records in self.findings()]

    def audit(self):
        """The lines that the program's `audit` prints."""
        found = self.findings()
        if found:
            word, records = found[0]
            return [" ".join(["unsound", word, *(f"{record.page} {record.slot}" for record in records)])]
        first = dict.fromkeys(record.header.sector for record in self.records if record.is_committed)
        return ["sound", *(f"{sector} {digits(self.holds(sector))}" for sector in first)]


def digits(row):
    """Bytes as the program prints them: without the zeros at the end, and `-` for none."""
    return row.rstrip(b"\0").hex() or "-"


def load(path):
    with open(path, "rb") as file:
        return Image(file.read())
