"""What the pictures of bench/ share: elements of SVG, a title and a description, and colours for light and dark."""
from html import escape

FONT = "system-ui, -apple-system, 'Segoe UI', 'DejaVu Sans', sans-serif"
# The class of an element, and its colours on a light and on a dark ground.
COMMON = {
    ".ground": ("fill: #ffffff", "fill: #0d1117"),
    "text": ("fill: #1f2328", "fill: #e6edf3"),
    ".faint": ("fill: #59636e", "fill: #9198a1"),
    ".grid": ("stroke: #d1d9e0", "stroke: #30363d"),
    ".axis": ("stroke: #1f2328", "stroke: #e6edf3"),
}
SIZES = (f"text {{ font: 12px {FONT} }} .small {{ font-size: 11px }} .head {{ font-weight: 600 }} "
         ".title { font-size: 15px; font-weight: 600 } ")
# Text that ends where it is put, and text that has its middle there.
PLACES = ".end { text-anchor: end } .middle { text-anchor: middle }"


def place(value):
    """A length as it is written: at most one decimal."""
    return f"{value:.1f}".removesuffix(".0")


class Drawing:
    """The elements of a picture, in the order in which they are drawn."""

    def __init__(self, width, colours):
        self.width, self.colours, self.elements = width, COMMON | colours, []

    def add(self, element):
        """Adds an element."""
        self.elements.append(element)

    def text(self, x, y, words, classes=""):
        """Adds words at a place."""
        named = f' class="{classes}"' if classes else ""
        self.add(f'<text x="{place(x)}" y="{place(y)}"{named}>{escape(words)}</text>')

    def line(self, first, last, classes, more=""):
        """Adds a straight line from one place to another."""
        (x1, y1), (x2, y2) = ([place(value) for value in end] for end in (first, last))
        self.add(f'<line x1="{x1}" y1="{y1}" x2="{x2}" y2="{y2}" class="{classes}"{more}/>')

    def rectangle(self, corner, width, height, classes):
        """Adds a rectangle by its upper left corner."""
        x, y, width, height = map(place, (*corner, width, height))
        self.add(f'<rect x="{x}" y="{y}" width="{width}" height="{height}" class="{classes}"/>')

    def polygon(self, places, classes):
        """Adds a filled polygon."""
        corners = " ".join(f"{place(x)},{place(y)}" for x, y in places)
        self.add(f'<polygon points="{corners}" class="{classes}"/>')

    def style(self):
        """The sheet of styles: the light colours, and the dark ones where the reader prefers them."""
        light = " ".join(f"{name} {{ {colours[0]} }}" for name, colours in self.colours.items())
        dark = " ".join(f"{name} {{ {colours[1]} }}" for name, colours in self.colours.items())
        return f"{SIZES}{PLACES}\n{light}\n@media (prefers-color-scheme: dark) {{ {dark} }}"

    def document(self, height, title, description):
        """The whole picture, of this height."""
        size = f'width="{self.width}" height="{place(height)}" viewBox="0 0 {self.width} {place(height)}"'
        return "\n".join([
            f'<svg xmlns="http://www.w3.org/2000/svg" {size} role="img" aria-labelledby="title description">',
            f'<title id="title">{escape(title)}</title>',
            f'<desc id="description">{escape(description)}</desc>',
            f"<style>\n{self.style()}\n</style>",
            f'<rect width="{self.width}" height="{place(height)}" class="ground"/>',
            *self.elements, "</svg>", ""])
