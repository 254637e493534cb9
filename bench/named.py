"""The named tables of bench/README.md: by which run each is taken, and which printed figure goes where.

To add a table, write the line with its name above it in bench/README.md, and an entry in `TABLES`. A table that no
program of this repository takes has an entry without a run, and `bench/take --from-readme` stores its figures.
"""
from typing import Callable, NamedTuple

import takers
from figures import RATIO
from tables import PATTERNS
from takers import Run, topic


def nothing(row, column):
    """The name of a figure that is not taken."""
    return None


class Entry(NamedTuple):
    """A named table: its run; the unit of each column, or of all; the name that the figure of a row and column has in
    what is printed, or none; how many of its columns name a row; and the pair of columns that its ratio is of."""
    run: Run | None
    units: dict[str, str] | str
    printed: Callable[[str, str], str | None] = nothing
    labels: int = 1
    ratio: tuple[str, str] | None = None

    def unit(self, column):
        """The unit of a column. A ratio has none."""
        return "" if column == RATIO else self.units if isinstance(self.units, str) else self.units.get(column, "")

    def source(self, row, column):
        """`taken` or `given`. A ratio of two columns is taken where both are."""
        asked = self.ratio if column == RATIO and self.ratio else (column,)
        return "taken" if all(self.printed(row, each) for each in asked) else "given"


def by(columns, rows=None):
    """The names of figures: a column's, in which `{}` stands for that of the row. The row is called as in the table,
    where `rows` has no other name for it."""
    def printed(row, column):
        """The name of the figure of a row and column."""
        return columns[column].replace("{}", (rows or {}).get(row, row)) if column in columns else None
    return printed


HERE, CRATE = "Here", "Rust crate"
HOST_NAMES = {
    "`www.xn--ll-0ea.example`": "mixed host name",
    "labels of 9 and 2 Han characters": "host name of 9 and 2 Han characters",
    "ASCII, 15 bytes, as `idn-hostname`": "the same as an internationalised one, 15 bytes",
    "ASCII, 253 bytes, as `idn-hostname`": "the same as an internationalised one, 253 bytes",
    "payload of 59 bytes, 1 insertion": "59-byte payload, 1 insertion",
    "payload of 59 bytes, 59 insertions (17 a piece)": "59-byte payload, 59 insertions",
}
TIMES = {
    "date, refused at its day": "date refused at its day",
    "time with a fraction of 54 digits": "time with a long fraction",
    "duration `P1Y2M3DT4H5M6S`": "duration",
    "duration `P2W`": "duration of weeks",
    "duration of 64 bytes": "duration of long numbers",
    "ASCII host name, 15 bytes": "host name",
    "ASCII host name, 253 bytes": "host name, the longest",
}
FORMS = {
    "four templates of 20 bytes": "template, four of 20 bytes",
    "a template of 64 KiB, of literals": "template, 64 KiB of literals",
    "a template of 64 KiB, of literals past ASCII": "template, 64 KiB of literals past ASCII",
    "a template of 64 KiB, of expressions": "template, 64 KiB of expressions",
    "four pointers of 20 bytes": "pointer, four of 20 bytes",
    "a pointer of 64 KiB without escapes": "pointer, 64 KiB without escapes",
    "a pointer of 64 KiB with an escape every 16 bytes": "pointer, 64 KiB with an escape every 16 bytes",
    "four relative pointers": "relative pointer, four",
    "three IRI references of 5 to 26 bytes": "IRI, three of 20 bytes",
    "an IRI reference of 64 KiB, characters of 2 bytes": "IRI, 64 KiB of characters of 2 bytes",
    "the same, characters of 3 bytes": "IRI, 64 KiB of characters of 3 bytes",
    "the same, characters of 4 bytes": "IRI, 64 KiB of characters of 4 bytes",
    "the same, mixed characters": "IRI, 64 KiB of mixed characters",
    "no white space, four texts of 20 bytes": "no white space, four of 20 bytes",
    "no white space, 100 bytes": "no white space, 100 bytes",
    "no white space, 64 KiB": "no white space, 64 KiB",
    "no white space, 64 KiB with `é` every 16 bytes": "no white space, 64 KiB past ASCII",
    "no white space, 64 KiB of Han characters": "no white space, 64 KiB of Han characters",
    "a prefix of 6 bytes, four texts": "prefix, four",
    "a prefix of 16 bytes, two texts": "prefix, 16 bytes",
    **{f"{codec}, {size} {what}": f"{codec} {what}, {size}" for codec in ("base32", "base32hex", "base64")
       for size in ("32 letters", "64 letters", "64 KiB") for what in ("checked", "decoded")},
}
JSON_FORMS = {
    "JSON, an object of 20 bytes": "JSON, an object of 20 bytes",
    "JSON, a string of 20 bytes": "JSON, a text of 20 bytes",
    "JSON, seven numbers": "JSON, seven numbers",
    "JSON, an object that does not end": "JSON, a bad end",
    "JSON, 64 KiB of objects": "JSON, 64 KiB of objects",
    "JSON, 1 MiB of objects": "JSON, 1 MiB of objects",
}
REQUEST_KINDS = {
    "dates, each checked, valid and noted": "dates",
    "date-times, the same": "date-times",
    "URIs of 43 bytes, the same": "URIs",
    "URIs of 923 bytes, the same": "long URIs",
    "both limits, on texts of 36 characters": "lengths",
    "base64 with JSON in it (40 letters, an object of 30 bytes)": "base64 with JSON",
    "host names with a Punycode label, checked and noted": "host names",
    "an alternation of four words": "literal patterns",
    "three notes of draft 2020-12": "notes",
    "an object of eight arrays as the instance": "large values",
    "refused for a limit with a fraction": "refused",
    "bad requests, with an unknown member": "unknown members",
    "bad requests, a text that does not end": "broken JSON",
    "a limit, on texts of a megabyte": "texts of 1 MB",
    "a noted `contentSchema` of 20 members": "contentSchema",
    "several keywords: four errors and a note": "four errors",
}
BUILDING = {
    "host name with `{0,61}` in a loop and behind it, 15 bytes": PATTERNS[5],
    "the HTML standard's address, 24 bytes": PATTERNS[6],
    "250 groups with `*`, one in the other, around `ab`, 2,000 letters": PATTERNS[10],
}
SEARCHED = {
    "a version with a pre-release and a build":
        r"^v?(0|[1-9]\d*)\.(0|[1-9]\d*)\.(0|[1-9]\d*)(-[0-9A-Za-z.-]+)?(\+[0-9A-Za-z.-]+)?$",
    "host name with `{0,61}` in a loop and behind it": PATTERNS[5],
    "the HTML standard's address": PATTERNS[6],
}
URI, COUNT, OF_RUST = "`is_valid_uri_reference`", "`char_count`", "of Rust's"
PYTHON = ["In one call", "One a call", "In jsonschema", "jsonschema's own", "`re`"]
SIZES = list(takers.growth.SIZES)


def of_forms(row, column):
    """Of JSON both columns are taken, and of other forms the first."""
    if row in JSON_FORMS:
        return by({HERE: "{}/is_json", "Compared": "{}/Value::from_str"}, JSON_FORMS)(row, column)
    return by({HERE: "{}"}, FORMS)(row, column)


def of_patterns(row, column):
    """The pattern stands between backquotes, where SEARCHED has no other."""
    return by({HERE: "{}/here", "`regex`": "{}/regex"}, {row: SEARCHED.get(row, row[1:-1])})(row, column)


def of_characters(row, column):
    """A row is a number of bytes."""
    columns = {COUNT: "char_count, {} bytes", "`chars().count()` of the kit's library": "chars().count(), {} bytes"}
    return by(columns)(row.replace(",", ""), column)


def of_building(row, column):
    """The pattern stands between backquotes, and its text behind it, where BUILDING has no other."""
    pattern = BUILDING.get(row) or row[1:].rpartition("`, " if row.count("`") == 2 else "`, `")[0]
    return pattern if column == "To build, microseconds" else None


TABLES = {
    "uri": Entry(topic("uri"), "ns", by({
        URI: "{}/is_valid_uri_reference",
        "Same parts": "{}/the same parts by a plain loop",
        "No parts": "{}/a plain loop without parts",
    }, {"five usual references of 5 to 58 bytes": "five usual references"}), ratio=(URI, CRATE)),
    "host_names": Entry(topic("label"), "ns", by({HERE: "{}"}, HOST_NAMES), ratio=(HERE, CRATE)),
    "mail": Entry(topic("mail"), "ns", by({HERE: "{}/is_valid_email", "Plain loops": "{}/plain loops"}),
                  ratio=(HERE, "Plain loops")),
    "times": Entry(topic("time_net"), "ns", by({HERE: "{}"}, TIMES), ratio=(HERE, CRATE)),
    "encodings": Entry(topic("coding"), "MB/s", by({"Check": "is_{}", "Decoder": "from_{}"})),
    "forms": Entry(topic("forms"), "ns", of_forms, ratio=(HERE, "Compared")),
    "patterns": Entry(takers.PATTERN_SEARCHES, {
        HERE: "ns", "`regex`": "ns", "Rust's `regex`": "ns", "Bytes": "bytes",
    }, of_patterns,
                      ratio=(HERE, "`regex`")),
    "building": Entry(takers.BUILDING_OF_TABLES, {
        "To build, microseconds": "µs", "To search, nanoseconds a byte": "ns a byte",
    }, of_building, labels=2),
    "characters": Entry(topic("characters"), "ns", of_characters, ratio=(COUNT, OF_RUST)),
    "requests": Entry(takers.REQUEST_LINES, {
        "Bytes a line": "bytes", "Requests a second": "a second", "MB a second": "MB/s",
    }, by({"Requests a second": "{}/requests", "MB a second": "{}/MB", RATIO: "{}/ratio"}, REQUEST_KINDS)),
    "lines": Entry(None, {"Instructions": "instructions", "At 8253291": "instructions"}),
    "python": Entry(takers.PYTHON_CHECKS, "thousand a second",
                    by({column: "{}/" + column for column in PYTHON})),
    "growth_time": Entry(takers.GROWTH, "ms", by({size: "{}/" + size + "/time" for size in SIZES})),
    "growth_memory": Entry(takers.GROWTH, "MB", by({size: "{}/" + size + "/memory" for size in SIZES})),
}
LABELS = {name: entry.labels for name, entry in TABLES.items()}
