"""The figures of the tables in bench/README.md: read there, kept in files, compared, and written back.

A table of bench/README.md has a name where a line `<!-- bench/taken/NAME.tsv -->` stands above it. That file has a line
for each of its figures: the row and the column as they stand in the table, the unit, the value, and the source. The
source is `taken` where bench/take can take the figure again, and else `given`: then it came from a program that is no
part of this repository. The first line of the file says on which machine, when and on which commit it was taken.
"""
import re
from pathlib import Path
from typing import NamedTuple

TOP = Path(__file__).resolve().parent.parent
README = TOP / "bench/README.md"
STORED = TOP / "bench/taken"
MOVED_BY = 0.05
HEAD = ("row", "column", "unit", "value", "source")
MARK = "<!-- bench/taken/{}.tsv -->\n"
MARKED = re.compile(MARK.format(r"(\w+)") + r"((?:\|.*\n)+)")
NUMBER = re.compile(r"\d[\d,]*(?:\.\d+)?")
RATIO = "Ratio"


class Figure(NamedTuple):
    """A figure with its unit and where it comes from. The value is a number as text, without commas."""
    row: str
    column: str
    unit: str
    value: str
    source: str


def cells_of(line):
    """The cells of a line of a table."""
    return [cell.strip() for cell in re.split(r"(?<!\\)\|", line.strip()[1:-1])]


class Table:
    """A table of bench/README.md: the names of its columns, and its rows with their names."""

    def __init__(self, text, labels):
        head, _, *body = text.splitlines()
        self.text, self.labels = text, labels
        self.columns = cells_of(head)[labels:]
        self.rows = [cells_of(line) for line in body]
        self.names = list(row_names(self.rows, labels))

    def cells(self):
        """Each row and column with its cell."""
        for name, row in zip(self.names, self.rows):
            for column, cell in zip(self.columns, row[self.labels:]):
                yield name, column, cell

    def numbers(self):
        """The number of each row and column that has one, as text without commas."""
        found = ((row, column, NUMBER.search(cell)) for row, column, cell in self.cells())
        return {(row, column): number[0].replace(",", "") for row, column, number in found if number}

    def written(self, figures):
        """The text of the table with other figures in it. What stands beside a number in its cell stays."""
        values, lines = {(figure.row, figure.column): figure.value for figure in figures}, self.text.splitlines()
        bold = "**" in self.text
        for at, (name, row) in enumerate(zip(self.names, self.rows), 2):
            changed = [written_cell(cell, values.get((name, column)), bold and column == RATIO)
                       for column, cell in zip(self.columns, row[self.labels:])]
            lines[at] = "|" + "".join(f" {cell} |" if cell else " |" for cell in row[:self.labels] + changed)
        return "\n".join(lines) + "\n"


def row_names(rows, labels):
    """The name of each row: its first cells. `the same` alone stands for what the row above has there."""
    first = ""
    for row in rows:
        first = first if row[0] == "the same" else row[0]
        yield ", ".join([first, *row[1:labels]]).replace("\\|", "|")


def with_commas(value):
    """A value as documents show it."""
    whole, point, rest = value.partition(".")
    return f"{int(whole):,}{point}{rest}"


def written_cell(cell, value, bold):
    """A cell with this value in place of its number. Where ratios above 1 are bold, this one is too."""
    if value is None:
        return cell
    number = with_commas(value)
    if not NUMBER.search(cell):
        return number
    if bold:
        number, cell = f"**{number}**" if float(value) > 1 else number, cell.replace("**", "")
    return NUMBER.sub(lambda _: number, cell, count=1)


def tables_of(text, labels):
    """The named tables of a document. `labels` tells of some how many of their first columns name a row."""
    return {name: Table(table, labels.get(name, 1)) for name, table in MARKED.findall(text)}


def with_figures(text, name, table, figures):
    """A document with other figures in the table of this name. Two tables may look alike, so the name is asked for."""
    mark = MARK.format(name)
    return text.replace(mark + table.text, mark + table.written(figures))


def shown(value, column):
    """A measured value as it is stored: ratios with two decimals, small values with one or two, else four places."""
    if column == RATIO and value < 10:
        return f"{value:.2f}"
    if value < 100:
        decimals = 2 if value < 10 and round(value, 2) != round(value, 1) else 1
        return f"{value:.{decimals}f}"
    places = max(0, len(str(int(value))) - 4)
    return str(round(value / 10 ** places) * 10 ** places)


def read(path):
    """The comment and the figures of a file."""
    comment, head, *lines = path.read_text(encoding="utf-8").splitlines()
    if tuple(head.split("\t")) != HEAD or not comment.startswith("# "):
        raise ValueError(f"{path} does not begin with a comment and the names of its columns")
    return comment[2:], [Figure(*line.split("\t")) for line in lines]


def write(path, comment, figures):
    """Writes such a file."""
    lines = ["# " + comment, "\t".join(HEAD), *("\t".join(figure) for figure in figures)]
    path.parent.mkdir(exist_ok=True)
    path.write_text("".join(line + "\n" for line in lines), encoding="utf-8")


def stored(name):
    """The stored figures of a table, by row and column; none where nothing is stored."""
    path = STORED / f"{name}.tsv"
    return {(figure.row, figure.column): figure for figure in read(path)[1]} if path.exists() else {}


def compared(figures, before):
    """A line for each figure that was taken, and whether it moved: by how many in a hundred stands in front of those
    that did."""
    for figure in figures:
        if figure.source != "taken":
            continue
        old = before.get((figure.row, figure.column))
        share = float(figure.value) / float(old.value) - 1 if old and float(old.value) else 0
        moved = abs(share) > MOVED_BY
        mark = f"{share * 100:+.0f} %" if moved else ""
        told = f"stored {with_commas(old.value)}" if old else "nothing stored"
        value = f"{with_commas(figure.value)} {figure.unit}".rstrip()
        yield f"{mark:>8}  {figure.row}, {figure.column}: {value}, {told}", moved


def is_of_readme(name, table):
    """Whether the stored figures of a table are those that it has in bench/README.md."""
    return {key: figure.value for key, figure in stored(name).items()} == table.numbers()
