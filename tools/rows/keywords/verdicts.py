"""What the rows of the grammars ask, and what they say of texts."""
from functools import cache

from rows.grammars import sections_of
from rows.keywords.other_forms import OTHER_FORMS

# No format has them at its ends but a JSON pointer, which has any character behind its first solidus.
SPACES_AND_CONTROLS = "".join(map(chr, (*range(33), 127)))
# Nor has one these around it; but U+FEFF is a `ucschar` of RFC 3987, and a template has any character past ASCII.
AROUND_FORMATS = (('"', '"'), ("<", ">"), ("`", "`"), ('"', ""), ("", '"'), ("<", ""), ("", ">"), ("", "\\"),
                  ("\ufeff", ""))
# The crates whose rows have texts of formats, of encodings, of JSON or of literal patterns.
CRATES = ("strkw_coding", "strkw_json", "strkw_pattern", "strkw_uri", "strkw_net", "strkw_time")


@cache
def rows_of_grammars():
    """The rows that are made for these crates."""
    return [row for crate in CRATES for _, rows in sections_of(crate) for row, _ in rows]


@cache
def verdicts_of(grammar):
    """What these rows say of the texts that they ask for by the name of a grammar."""
    found = {}
    for row in rows_of_grammars():
        if row["ask"] == "texts" and row["of"] == grammar:
            for verdict in ("yes", "no"):
                found.update(dict.fromkeys(row.get(verdict, ()), verdict == "yes"))
    return found


def admits(it, text):
    """Whether a format admits a text, by its tables, or else by the rows of the grammars."""
    if text in it.accepted:
        return True
    if text in it.refused:
        return False
    if text != it.accepted[0] == text.strip(SPACES_AND_CONTROLS):
        return it.name == "json-pointer" and text.startswith(it.accepted[0])
    if text in [before + it.accepted[0] + behind for before, behind in AROUND_FORMATS]:
        return it.name in ("uri-template", "iri-reference") and text.startswith("\ufeff")
    accepted, refused = OTHER_FORMS[it.variant]
    if text in accepted + refused:
        return text in accepted
    if text in verdicts_of(it.grammar()):
        return verdicts_of(it.grammar())[text]
    raise ValueError(f"the table has no verdict for {text!r} as a {it.name}")
