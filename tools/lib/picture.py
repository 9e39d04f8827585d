"""A die drawn as SVG: a row a block, a square a page, and a legend below."""
from xml.sax.saxutils import escape

from formats import KINDS

SQUARE, GAP, ROW, LEFT, TOP = 13, 1, 17, 116, 34
LETTER, LEGEND_ROW = 7, 18
BLANK, STALE, STALE_AGAIN, TORN = "#f7f7f5", "#cfd4da", "#9aa3ad", "#d1495b"
LIVE = ("#2e6f9e", "#3d8b5f", "#c98a1b")
LIVE_NAMES = ("live, first write", "live, second write", "live, third write")


def kind_of(image, page, records):
    """The colour and the name of a page."""
    live = [record for record in records if image.is_live(record)]
    if live:
        return LIVE[live[-1].slot], LIVE_NAMES[live[-1].slot]
    if image.is_blank(page):
        return BLANK, "blank"
    if records and not records[-1].gate:
        return TORN, "no gate"
    return (STALE_AGAIN, "stale, written again") if len(records) > 1 else (STALE, "stale")


def told(image, record):
    header = record.header
    what = "" if header is None else f"sector {header.sector}, seq {header.seq}, {KINDS[header.kind]}; "
    return f"slot {record.slot}: {what}{image.says(record)}"


def legend_of(image):
    return [(BLANK, "blank"), *zip(LIVE, LIVE_NAMES[: image.scheme.generations]), (STALE, "stale"), (STALE_AGAIN, "stale, written again"), (TORN, "no gate")]


def square(x, y, colour, tip=""):
    title = f"<title>{escape(tip)}</title>" if tip else ""
    return f'<rect x="{x}" y="{y}" width="{SQUARE}" height="{SQUARE}" rx="2" fill="{colour}" stroke="#8a8f94" stroke-width=".6">{title}</rect>'


def text(x, y, words):
    return f'<text x="{x}" y="{y}">{escape(words)}</text>'


def block_row(image, block, y, by_page):
    yield text(8, y + 11, f"{block:4} {image.state_of(block)}")
    for at, page in enumerate(image.pages_of(block)):
        records = by_page.get(page, [])
        colour, name = kind_of(image, page, records)
        tip = f"page {page}: " + ("; ".join(told(image, record) for record in records) or name)
        yield square(LEFT + at * (SQUARE + GAP), y, colour, tip)


def draw(image):
    """The picture of an image, as the text of an SVG file."""
    head = image.head
    by_page = {}
    for record in image.records:
        by_page.setdefault(record.page, []).append(record)
    legend = legend_of(image)
    title = f"{head.scheme.name}, {head.blocks} blocks of {head.pages} pages, {head.sectors} sectors, reuse {head.reuse}"
    column = SQUARE + 18 + LETTER * max(len(name) for _, name in legend)
    width = max(LEFT + head.pages * (SQUARE + GAP) + 12, 12 + 3 * column, 20 + LETTER * len(title))
    across = (width - 12) // column
    legend_top = TOP + head.blocks * ROW + 12
    height = legend_top + -(-len(legend) // across) * LEGEND_ROW + 6
    lines = [
        f'<svg xmlns="http://www.w3.org/2000/svg" width="{width}" height="{height}" font-family="monospace" font-size="11">',
        '<rect width="100%" height="100%" fill="white"/>',
        text(8, 20, title),
    ]
    for block in range(head.blocks):
        lines += block_row(image, block, TOP + block * ROW, by_page)
    for number, (colour, name) in enumerate(legend):
        row, place = divmod(number, across)
        x, y = 12 + place * column, legend_top + row * LEGEND_ROW
        lines += [square(x, y, colour), text(x + SQUARE + 6, y + 11, name)]
    return "\n".join([*lines, "</svg>"]) + "\n"
