"""The picture of growth: time and peak memory of each program by the size of its input, on scales of powers of ten."""
import math
from typing import NamedTuple

from drawing import Drawing, place
from figures import stored
from growth import KINDS, SIZES

WIDTH, MARGIN = 860, 14
LEFT, RIGHT, HEIGHT = 76, 706, 280
LABEL_ROOM = 15
TITLE = "Time and memory by the size of the input"
# The colour of each program on light and on dark ground, and its dashes.
COLOURS = [("#12397a", "#dbe9ff"), ("#b5480a", "#ff9d5c"), ("#2a9461", "#37b881"), ("#b268c6", "#b478d6")]
DASHES = ["", "8 3", "4 2", "9 3 2 3"]
# The corners of the marks behind the first, which is a disc.
CORNERS = {
    1: [(-4, -4), (4, -4), (4, 4), (-4, 4)], 2: [(0, -5), (5, 4), (-5, 4)], 3: [(0, -5), (5, 0), (0, 5), (-5, 0)],
}
STYLES = {".guide": ("stroke: #59636e", "stroke: #9198a1")} | {
    f".p{at}": tuple(f"stroke: {colour}; fill: {colour}" for colour in pair) for at, pair in enumerate(COLOURS)}


class Panel(NamedTuple):
    """A half of the picture: its file, its heading, the least and greatest power of ten of its scale without figures,
    the word for a value, and the guide: its words, and the value for an input of 1,000 bytes."""
    table: str
    heading: str
    powers: tuple[int, int]
    word: object
    guide: str
    per_kilobyte: float


def duration(milliseconds):
    """A time with its unit."""
    return f"{milliseconds:g} ms" if milliseconds < 1000 else f"{milliseconds / 1000:g} s"


def memory(megabytes):
    """A size with its unit."""
    return f"{megabytes:g} MB" if megabytes < 1000 else f"{megabytes / 1000:g} GB"


PANELS = [
    Panel("growth_time", "Processor time", (0, 4), duration, "10 ns a byte", 0.01),
    Panel("growth_memory", "Peak memory", (0, 3), memory, "as much as the input", 0.001),
]


def across(size):
    """Where an input of so many bytes stands."""
    least, most = (math.log10(size) for size in (min(SIZES.values()), max(SIZES.values())))
    return LEFT + (math.log10(size) - least) / (most - least) * (RIGHT - LEFT)


class Scale:
    """The upright scale of a panel: whole powers of ten around its values."""

    def __init__(self, panel, values, top):
        self.least = min([panel.powers[0], *(math.floor(math.log10(value)) for value in values)])
        self.most = max([panel.powers[1], *(math.ceil(math.log10(value)) for value in values)])
        self.top = top

    def down(self, value):
        """Where a value stands."""
        return self.top + (self.most - math.log10(value)) / (self.most - self.least) * HEIGHT


def points_of(panel):
    """The size and the value of each figure of each program that has some."""
    found = stored(panel.table)
    for program in KINDS:
        points = [(length, float(found[program, size].value)) for size, length in SIZES.items()
                  if (program, size) in found]
        if points:
            yield program, points


def draw_grid(drawing, panel, scale):
    """Draws the lines of both scales with their words."""
    for power in range(scale.least, scale.most + 1):
        y = scale.down(10 ** power)
        drawing.line((LEFT, y), (RIGHT, y), "grid")
        drawing.text(LEFT - 8, y + 4, panel.word(10 ** power), "faint end")
    for words, size in SIZES.items():
        drawing.line((across(size), scale.top), (across(size), scale.top + HEIGHT), "grid")
        drawing.text(across(size), scale.top + HEIGHT + 17, words, "faint middle")


def draw_guide(drawing, panel, scale):
    """Draws the line along which a value grows as the input does, as much of it as there is room for."""
    ends = []
    for size in (min(SIZES.values()), max(SIZES.values())):
        value = min(max(panel.per_kilobyte * size / 1000, 10 ** scale.least), 10 ** scale.most)
        ends.append((across(value / panel.per_kilobyte * 1000), scale.down(value)))
    drawing.line(*ends, "guide", ' stroke-dasharray="1 4" stroke-width="1.5"')
    return ends[1][1]


def mark(at, x, y):
    """The mark of a program at a point: a disc, a square, a triangle or a rhombus."""
    if at == 0:
        return f'<circle cx="{place(x)}" cy="{place(y)}" r="4" class="p0"/>'
    places = " ".join(f"{place(x + right)},{place(y + down)}" for right, down in CORNERS[at])
    return f'<polygon points="{places}" class="p{at}"/>'


def draw_program(drawing, at, places):
    """Draws the line of a program, and its mark at each point."""
    dashes = f' stroke-dasharray="{DASHES[at]}"' if DASHES[at] else ""
    joined = " ".join(f"{place(x)},{place(y)}" for x, y in places)
    drawing.add(f'<polyline points="{joined}" class="p{at}" style="fill: none" stroke-width="2"{dashes}/>')
    for x, y in places:
        drawing.add(mark(at, x, y))


def spread(heights):
    """The heights of labels, as near to where they belong as there is room for each."""
    placed = {}
    for words, height in sorted(heights.items(), key=lambda pair: pair[1]):
        placed[words] = max([height, *(other + LABEL_ROOM for other in placed.values())])
    return placed


def draw_labels(drawing, panel, ends):
    """Draws the name of each line where it ends, with the mark of a program, and tells what the guide is."""
    for words, height in spread(ends).items():
        if words == panel.guide:
            drawing.text(RIGHT + 12, height + 4, words, "faint")
        else:
            drawing.add(mark(list(KINDS).index(words), RIGHT + 18, height))
            drawing.text(RIGHT + 28, height + 4, words.strip("`"))


def draw_panel(drawing, panel, top):
    """Draws a panel. Answers where the next one begins."""
    drawing.text(MARGIN, top + 14, panel.heading, "head")
    programs = dict(points_of(panel))
    scale = Scale(panel, [value for points in programs.values() for _, value in points], top + 32)
    draw_grid(drawing, panel, scale)
    ends = {panel.guide: draw_guide(drawing, panel, scale)}
    for program, points in programs.items():
        places = [(across(size), scale.down(value)) for size, value in points]
        draw_program(drawing, list(KINDS).index(program), places)
        ends[program] = places[-1][1]
    draw_labels(drawing, panel, ends)
    if not programs:
        drawing.text((LEFT + RIGHT) / 2, scale.top + HEIGHT / 2, "not taken yet", "faint middle")
    return scale.top + HEIGHT + 40


def described():
    """The description of the picture: the values of each program at the ends of its line."""
    told = ["Two panels with a line for each program, and a dotted line of slope 1."]
    words = {length: size for size, length in SIZES.items()}
    for panel in PANELS:
        programs = dict(points_of(panel))
        told += [f"{panel.heading} of {program.strip('`')}: " + " and ".join(
                 f"{panel.word(value)} for {words[length]}" for length, value in (points[0], points[-1])) + "."
                 for program, points in programs.items()]
        told += [] if programs else [f"{panel.heading}: not taken yet."]
    return " ".join(told)


def picture():
    """The picture as text."""
    drawing = Drawing(WIDTH, STYLES)
    drawing.text(MARGIN, 26, TITLE, "title")
    top = 46
    for panel in PANELS:
        top = draw_panel(drawing, panel, top)
    return drawing.document(top, TITLE, described())
