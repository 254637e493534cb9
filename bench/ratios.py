"""The picture of the ratios: a bar for each row of a table, from the line at 1 to its ratio."""
import math
import unicodedata
from html import escape
from typing import NamedTuple

from drawing import Drawing
from figures import RATIO, stored, with_commas

WIDTH, MARGIN = 860, 14
LABELS_END, SCALE_BEGINS, SCALE_ENDS, VALUES_END = 336, 346, 786, 846
LONGEST_LABEL = 48
ROW, BAR = 16, 10
LEAST, MOST = 1 / 32, 8
MARKS = {1 / 32: "1/32", 1 / 16: "1/16", 1 / 8: "1/8", 1 / 4: "1/4", 1 / 2: "1/2", 1: "1", 2: "2", 4: "4", 8: "8"}
COLOURS = {
    ".faster": ("fill: #175596", "fill: #9ccbff"),
    ".slower": ("fill: #f3ac45; stroke: #8a5200", "fill: #a8551a; stroke: #ffb56b"),
}
TITLE = "Time here by the time of what it is compared with"
GIVEN = "°"


class Group(NamedTuple):
    """A table of ratios: its file, its heading, and the columns whose quotient the ratio is, or the one that has it."""
    table: str
    heading: str
    above: str = RATIO
    below: str | None = None


GROUPS = [
    Group("uri", "URI references, to the Rust crate", "`is_valid_uri_reference`", "Rust crate"),
    Group("host_names", "Host names and payloads, to the Rust crate", "Here", "Rust crate"),
    Group("mail", "Mail addresses, to plain loops", "Here", "Plain loops"),
    Group("times", "Dates, times, addresses, UUIDs, to the Rust crate", "Here", "Rust crate"),
    Group("forms", "Templates, pointers, IRIs, patterns, encodings and JSON, to what the table names"),
    Group("patterns", "Patterns of ECMA-262, to the kit's regex"),
    Group("patterns", "Patterns of ECMA-262, to Rust's regex", "Here", "Rust's `regex`"),
    Group("characters", "Characters counted, by the bytes of the text, to Rust's count", "`char_count`", "of Rust's"),
    Group("records", "Records read, to csv::Reader"),
    Group("requests", "Requests, to the program of commit 8253291"),
    # These tables have speeds, so that the other way stands above.
    Group("python", "Texts from Python in jsonschema, to jsonschema's own checks", "jsonschema's own", "In jsonschema"),
    Group("python", "Texts from Python in one call, to an expression for re", "`re`", "In one call"),
]


class Bar(NamedTuple):
    """A row with its ratio as text, and whether what it is compared with is given."""
    label: str
    ratio: str
    is_given: bool


def two_places(value):
    """A ratio with two decimals, or without any from 10 on."""
    return f"{value:.2f}" if value < 10 else f"{value:.0f}"


def bars(group):
    """The bars of a group, in the order of its table."""
    found = stored(group.table)
    for row in dict.fromkeys(row for row, _ in found):
        above, below = found.get((row, group.above)), found.get((row, group.below or group.above))
        if above and below:
            ratio = two_places(float(above.value) / float(below.value)) if group.below else above.value
            yield Bar(row.replace("`", ""), ratio, "given" in (above.source, below.source))


def across(ratio):
    """Where a ratio stands: each mark is as far from the next."""
    share = math.log2(min(max(ratio, LEAST), MOST) / LEAST) / math.log2(MOST / LEAST)
    return SCALE_BEGINS + share * (SCALE_ENDS - SCALE_BEGINS)


def fitting(label):
    """A label, cut where it has no room. A wide character takes the room of two."""
    room = LONGEST_LABEL
    for at, character in enumerate(label):
        room -= 2 if unicodedata.east_asian_width(character) == "W" else 1
        if room < 0:
            return label[:at - 1] + "…"
    return label


def draw_bar(drawing, bar, top):
    """Draws a bar with its label and its number. One that has no room ends in an arrow."""
    ratio, middle = float(bar.ratio), top + ROW / 2
    classes = "faster" if ratio <= 1 else "slower"
    begin, end = sorted((across(1), across(ratio)))
    drawing.add(f"<g><title>{told(bar)}</title>")
    drawing.text(LABELS_END, middle + 4, fitting(bar.label), "small end")
    if end - begin > 0:
        drawing.rectangle((begin, middle - BAR / 2), end - begin, BAR, classes)
    if ratio > MOST:
        drawing.polygon([(end, middle - BAR / 2), (end + 9, middle), (end, middle + BAR / 2)], classes)
    drawing.text(VALUES_END - 8, middle + 4, with_commas(bar.ratio), "end")
    if bar.is_given:
        drawing.text(VALUES_END - 6, middle + 4, GIVEN, "faint")
    drawing.add("</g>")


def told(bar):
    """What a reader is told of a bar."""
    return escape(f"{bar.label}: {with_commas(bar.ratio)}" + (", given" if bar.is_given else ""))


def draw_scale(drawing, top, height):
    """Draws the marks of a group, and the line at 1."""
    for ratio, words in MARKS.items():
        x = across(ratio)
        drawing.text(x, top - 4, words, "faint middle")
        drawing.line((x, top), (x, top + height), "axis" if ratio == 1 else "grid",
                     ' stroke-width="1.5"' if ratio == 1 else "")


def draw_group(drawing, group, top):
    """Draws a group. Answers where the next one begins."""
    rows = list(bars(group))
    drawing.text(MARGIN, top + 14, group.heading, "head")
    top += 40
    draw_scale(drawing, top, ROW * len(rows))
    for at, bar in enumerate(rows):
        draw_bar(drawing, bar, top + ROW * at)
    return top + ROW * len(rows) + 22


def draw_legend(drawing, top):
    """Tells what the colours and the ring mean."""
    drawing.rectangle((MARGIN, top), 18, BAR, "faster")
    drawing.text(MARGIN + 24, top + 9, "faster here")
    drawing.rectangle((MARGIN + 114, top), 18, BAR, "slower")
    drawing.text(MARGIN + 138, top + 9, "slower here")
    drawing.text(MARGIN + 232, top + 9, f"{GIVEN}  given: no program of this repository takes both times", "faint")


def described():
    """The description of the picture: for each group how many rows there are, and the least and greatest ratio."""
    parts = []
    for group in GROUPS:
        ratios = [bar.ratio for bar in bars(group)]
        if not ratios:
            continue
        slower = sum(float(ratio) > 1 for ratio in ratios)
        parts.append(f"{group.heading}: {len(ratios)} rows, from {min(ratios, key=float)} to {max(ratios, key=float)}, "
                    f"{slower} of them above 1.")
    return "Bars on a scale that doubles from mark to mark. " + " ".join(parts)


def picture():
    """The picture as text."""
    drawing = Drawing(WIDTH, COLOURS)
    drawing.text(MARGIN, 26, TITLE, "title")
    draw_legend(drawing, 40)
    top = 70
    for group in GROUPS:
        if any(True for _ in bars(group)):
            top = draw_group(drawing, group, top)
    return drawing.document(top, TITLE, described())
