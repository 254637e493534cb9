"""Formats by drafts and options, registered ones, and their texts."""
from itertools import product

from rows.keywords.common import CHECKED, OPTIONS, asked, in_parts, named, requested, some_of
from rows.keywords.other_forms import OTHER_FORMS
from rows.keywords.other_names import UNKNOWN_FORMATS
from rows.keywords.texts import DRAFTS, FORMATS, FORMAT_NAMES, format_in
from rows.keywords.verdicts import AROUND_FORMATS, SPACES_AND_CONTROLS, verdicts_of


def formats_by_options():
    """What is known and what is not, in each draft, under each choice of options."""
    for draft, name, options in product(DRAFTS, ("date", "uuid", "custom"), OPTIONS):
        texts = ["x"] if options.get("ignore_unknown_formats") is None else ["x", 5]
        yield asked(draft, {"format": name}, texts, **options)
    for draft, name in product(DRAFTS, FORMAT_NAMES):
        for options in ({}, {"validate_formats": False}):
            some = next(it for it in FORMATS if it.name == name)
            yield asked(draft, {"format": name}, [some.refused[0]], **options)
    for draft, name in product(DRAFTS, UNKNOWN_FORMATS):
        for options in ({}, CHECKED):
            yield asked(draft, {"format": name}, ["x"], **options)


def texts_of_formats():
    """Texts that the grammars derive and refuse, in each draft."""
    for draft, name in product(DRAFTS, FORMAT_NAMES):
        found = format_in(draft, name)
        texts = [] if found is None else [it for it in found.accepted + found.refused if len(it) < 100]
        if draft not in (7, 202012) and (draft, name) != (4, "hostname"):
            texts = [it for it in texts if it in (found.accepted[0], found.refused[0])]
        yield asked(draft, {"format": name}, texts, **CHECKED)
    for draft, name in product(DRAFTS, FORMAT_NAMES):
        yield asked(draft, {"format": name}, keyword="format", **CHECKED)
    for it in FORMATS:
        if it.last == 202012:
            yield named(it.name, it.accepted)


def registered_formats():
    """A row of the caller wins over a built-in format of its name, and the first row of a name counts."""
    for draft, name in product(DRAFTS, FORMAT_NAMES):
        text = next(it for it in FORMATS if it.name == name).accepted[0]
        rows = [["other", "all"], [name, "none"], [name, "all"]]
        yield asked(draft, {"format": name}, [text], validate_formats=True, formats=rows)
    for draft, script in product(DRAFTS, ("even", "all", "none")):
        rows = [["Custom", "none"], ["custom", script], ["custom", "none"]]
        for name, options in product(("custom", "CUSTOM"), ({}, CHECKED)):
            yield asked(draft, {"format": name}, ["ab", "abc", "\u00e9\U0001f4a9", 1], formats=rows, **options)
    for draft in DRAFTS:
        yield asked(draft, {"format": "custom"}, ["ab"], formats=[["custom", "none"]], keyword="format", **CHECKED)


def rows_by_options():
    """Whatever the options and the draft are, a row of the name counts before a built-in format."""
    lists = ([["date", "none"]], [["uuid", "none"]], [["custom", "even"]],
             [["x", "all"], ["custom", "none"], ["date", "all"]])
    for draft, name, options, rows in product(DRAFTS, ("date", "uuid", "custom"), OPTIONS, lists):
        yield asked(draft, {"format": name}, ["x"], formats=rows, **options)
    for draft, options, rows in product((7, 202012), OPTIONS, lists[:2]):
        yield asked(draft, {"format": "date", "maxLength": 9}, formats=rows, keyword="format", **options)
        yield asked(draft, {"format": "date", "maxLength": 9}, formats=rows, left_out=["format"], **options)


def formats_of_grammars():
    """A format admits the texts that its grammar derives: those that the rows of the grammars ask for."""
    for it in FORMATS:
        verdicts = verdicts_of(it.grammar())
        for verdict, most in ((True, 120), (False, 240)):
            texts = [text for text in verdicts if verdicts[text] is verdict and len(text) < 100]
            for some in in_parts(some_of(texts, most), 60):
                yield asked(it.last, {"format": it.name}, some, validate_formats=True)


def formats_in_other_forms():
    """A format admits no form of a neighbouring standard, and each form of its own."""
    for it in FORMATS:
        accepted, refused = OTHER_FORMS[it.variant]
        for some in in_parts(accepted + refused, 60):
            yield asked(it.last, {"format": it.name}, some, validate_formats=True)
        some = [*accepted[::5], *refused[::5]]
        yield asked(it.last, {"format": it.name}, some, keyword="format", validate_formats=True)
        for text in (*accepted[::7], *refused[::7]):
            yield requested(it.last, {"format": it.name}, text, validate_formats=True)


def spaces_around_formats():
    """Spaces and controls before and behind a text are characters of it."""
    for it in FORMATS:
        text = it.accepted[0]
        for front, tail in ((0, 1), (1, 0), (1, 1), (0, 2)):
            texts = [sign * front + text + sign * tail for sign in SPACES_AND_CONTROLS]
            yield asked(it.last, {"format": it.name}, texts, validate_formats=True)
        texts = [before + text + behind for before, behind in AROUND_FORMATS]
        if it.name == "json-pointer":
            texts = [before + text + behind for before, behind in AROUND_FORMATS if before]
        yield asked(it.last, {"format": it.name}, texts, validate_formats=True)
        for sign in "\t\n\r ":
            yield requested(it.last, {"format": it.name}, text + sign, validate_formats=True)
            yield requested(it.last, {"format": it.name}, sign + text, validate_formats=True)
