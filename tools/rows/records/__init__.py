"""Rows of CSV files by product, with the records that are to stand below each.

What a file comes to is said here by docs/CALLING.md and RFC 4180. Nothing here is read off a program.
"""
from rows.records import made

SECTIONS = (
    ("fields of each kind beside one another: empty, blank, in quotes, not UTF-8", made.fields),
    ("records of more fields than the first and of fewer", made.widths),
    ("files whose fields another delimiter separates", made.parted),
    ("each character of ASCII parts fields, but a quote, CR and LF", made.delimiters),
    ("a byte order mark is no part of the file: it counts in no record and in no field", made.marked),
    ("line ends of each kind in quotes and between records", made.ends),
    ("a quote is misplaced if text follows it in the field, or precedes it", made.behind_quotes),
    ("each byte but a quote in fields and at their ends, with quotes and without", made.bytes_in_fields),
    ("a quote that stays open is told on its line", made.open_quotes),
)


def sections():
    """The name of each section with its rows."""
    return [(name, rows()) for name, rows in SECTIONS]
