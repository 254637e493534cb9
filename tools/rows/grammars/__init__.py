"""The rows of crates/strkw_test_grammars, from the grammars of the standards as they are written there.

What a row expects comes from the rules of this package, which are the standards' own in the notation of Python, or from
another program than the one that is tested: Python's codecs, its reader of JSON and its tables of Unicode. Nothing is
read from the program.
"""
import functools
import json

from rows.grammars.encodings import coding_rows
from rows.grammars.forms import label_rows
from rows.grammars.hosts import net_rows
from rows.grammars.json_texts import json_rows
from rows.grammars.literals import pattern_rows
from rows.grammars.mail import mail_rows
from rows.grammars.patterns import ecma_rows
from rows.grammars.reports import report_rows
from rows.grammars.times import time_rows
from rows.grammars.uris import uri_rows
from rows.section import Section

PROGRAM = "strkw_test_grammars"
# The rows by the crates that they are about.
PARTS = {"strkw_label": label_rows, "strkw_coding": coding_rows, "strkw_pattern": pattern_rows, "strkw_ecma": ecma_rows,
         "strkw_uri": uri_rows, "strkw_net": net_rows, "strkw_mail": mail_rows, "strkw_time": time_rows,
         "strkw_json": json_rows, "strkw_report": report_rows}


@functools.cache
def sections_of(crate):
    """The sections of rows about a crate, by their names: each row, and how many answers it has."""
    sections = {}
    name = ""
    for it in PARTS[crate]():
        if isinstance(it, str):
            name = it
        else:
            sections.setdefault(name, []).append(it)
    return list(sections.items())


def made_of(crate):
    """The same as they are fed to the program."""
    for name, rows in sections_of(crate):
        lines = ((json.dumps(row, separators=(",", ":")), answers) for row, answers in rows)
        yield Section.of_counted(PROGRAM, f"{crate}: {name}", lines)


MAKERS = {crate: functools.partial(made_of, crate) for crate in PARTS}
