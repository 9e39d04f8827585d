"""What cells decode to: a second reading of docs/FORMATS.md, written apart from the program."""
from itertools import islice

COSET_BITS, COSET_PAGE_CELLS, COSET_CELLS = 128, 144, 288
FLIP_CELL = 128


def bits_of(row, count):
    """The first cells of a row, as numbers 0 and 1."""
    value = int.from_bytes(row, "little")
    return [value >> cell & 1 for cell in range(count)]


def bytes_of(bits):
    return sum(bit << place for place, bit in enumerate(bits)).to_bytes(len(bits) // 8, "little")


def split_mix(state):
    """The words of SplitMix64."""
    mask = 2**64 - 1
    while True:
        state = (state + 0x9E3779B97F4A7C15) & mask
        word = state
        word = (word ^ word >> 30) * 0xBF58476D1CE4E5B9 & mask
        word = (word ^ word >> 27) * 0x94D049BB133111EB & mask
        yield word ^ word >> 31


def columns(seed, count):
    words = list(islice(split_mix(seed), 2 * count))
    return [low | high << 64 for low, high in zip(words[::2], words[1::2])]


COLUMNS = columns(1, COSET_CELLS)


def rivest_shamir(row, bits):
    """Two bits stand in three cells."""
    cells = bits_of(row, bits // 2 * 3)
    return [bit for a, b, c in zip(cells[::3], cells[1::3], cells[2::3]) for bit in (b ^ c, a ^ c)]


def seven_cells(row, bits):
    """Three bits stand in seven cells: the sum of the numbers from 1 of the charged ones."""
    chunks = -(-bits // 3)
    cells = bits_of(row, 7 * chunks)
    decoded = []
    for chunk in range(chunks):
        total = 0
        for number, cell in enumerate(cells[7 * chunk : 7 * chunk + 7], 1):
            total ^= number * cell
        decoded += [total & 1, total >> 1 & 1, total >> 2]
    return decoded[:bits]


def plain_chunks(row, bits, cells_each):
    cells = bits_of(row, bits // COSET_BITS * cells_each)
    return [bit for at in range(0, len(cells), cells_each) for bit in cells[at : at + COSET_BITS]]


def flip_chunks(row, bits):
    cells = bits_of(row, bits // COSET_BITS * COSET_PAGE_CELLS)
    chunks = (cells[at : at + COSET_PAGE_CELLS] for at in range(0, len(cells), COSET_PAGE_CELLS))
    return [bit ^ chunk[FLIP_CELL] for chunk in chunks for bit in chunk[:COSET_BITS]]


def coset_chunks(unit, bits):
    """128 bits stand in 144 cells of each of two pages: the sum of the columns of the charged ones."""
    rows = [bits_of(page, bits // COSET_BITS * COSET_PAGE_CELLS) for page in unit]
    decoded = []
    for chunk in range(bits // COSET_BITS):
        at = chunk * COSET_PAGE_CELLS
        cells = rows[0][at : at + COSET_PAGE_CELLS] + rows[1][at : at + COSET_PAGE_CELLS]
        total = 0
        for column, cell in zip(COLUMNS, cells):
            total ^= column * cell
        decoded += [total >> bit & 1 for bit in range(COSET_BITS)]
    return decoded


def decode(scheme, slot, unit):
    """The sector in the main bytes of a unit's pages. Slot 0 is the first page alone."""
    bits = 8 * scheme.sector_bytes
    if scheme.code == "rivest_shamir":
        return bytes_of(rivest_shamir(unit[0], bits))
    if scheme.code == "seven_cells":
        return bytes_of(seven_cells(unit[0], bits))
    if scheme.code == "plain":
        return bytes_of(plain_chunks(unit[0], bits, COSET_BITS))
    if slot > 0:
        return bytes_of(coset_chunks(unit, bits))
    return bytes_of(flip_chunks(unit[0], bits) if scheme.code == "flip" else plain_chunks(unit[0], bits, COSET_PAGE_CELLS))
