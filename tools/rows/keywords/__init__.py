"""Rows of schema objects, entries and requests by product, with the lines that are to stand below each.

`meaning.py` and `entries.py` say what a row comes to, in the words of the standards and of docs/DECISIONS.md. The texts
are those of `texts.py`, `other_forms.py`, `long_texts.py` and `other_names.py`, and those that are made for the rows of
the grammars. Nothing here is read off a program.
"""
import random

# How many rows are drawn of sections that noticed no stored change of code which others had not noticed, as
# tools/mutants/noticed.tsv has it.
SAMPLES = {"patterns of the grammars": 1000, "names of formats that are spelt otherwise": 1000}


def sections():
    """The name of each section with its rows. A row by product stands once, in the first section that makes it."""
    # Not above: tools/formats.py takes texts from this package, and by_name.py takes the formats from it.
    from rows.keywords.by_name import by_name
    from rows.keywords.order import SECTIONS
    yield "built-in formats, and each by its name with its example", by_name()
    seen = set()
    for name, rows in SECTIONS:
        yield name, sample(name, list(new_rows(rows(), seen)))


def new_rows(rows, seen):
    """The rows whose lines were not seen before."""
    for line, expected in rows:
        if line not in seen:
            seen.add(line)
            yield line, expected


def sample(name, rows):
    """The rows of a section, or so many of them, drawn by its name."""
    drawn = random.Random(name).sample(range(len(rows)), SAMPLES.get(name, len(rows)))
    return [rows[place] for place in sorted(drawn)]
