"""The lines that stand below a row: `said`, `named_lines` and `answer` give them."""
import re

from rows.keywords.entries import NOTHING, Refusal, entries_of, first_named, lists_of, validator_at
from rows.keywords.texts import DRAFTS, format_in
from rows.keywords.values import MOST, Number, compact, printed
from rows.keywords.verdicts import admits


def place(segments):
    """A JSON Pointer (RFC 6901, section 3)."""
    return "".join("/" + it.replace("~", "~0").replace("/", "~1") for it in segments)


def failure_lines(row, failure, text):
    """An error with its places: of the keyword, on the way of evaluation, of the instance, and absolute."""
    schema_path = place([*row.get("location", ()), failure.keyword])
    way = place([*row.get("way", ()), failure.keyword])
    absolutely = f", absolutely {row['absolute']}#{schema_path}" if "absolute" in row else ""
    return [f"    {schema_path}: {failure.words}",
            f"      {failure.kind}, by {way} of {compact(text)} at '{place(row.get('at', ()))}'{absolutely}"]


def note_line(row, entry, is_alone):
    """The line of a note, with its place where the entry is not alone."""
    where = "" if is_alone else " " + place([*row.get("location", ()), entry.keyword])
    return f"    note{where}: {printed(entry.note)}"


def instance_lines(row, entries, instance, is_alone):
    """What stands below an instance. Only texts are looked at."""
    failures = [it for entry in entries for it in entry.failures(instance)] if isinstance(instance, str) else []
    lines = [f"  on {printed(instance)}: {'invalid' if failures else 'valid'}"]
    for failure in failures:
        lines += failure_lines(row, failure, instance)
    if isinstance(instance, str):
        lines += [note_line(row, entry, is_alone) for entry in entries if entry.note is not NOTHING]
    return lines


def is_in_use(row, entry, ends):
    """Whether each row that an entry rests on is in the ranges the first of its name, where it was at compile."""
    lent = lists_of({**row, "with": ends})
    return all((first_named(lent[kind], name) or [None])[0] == position for kind, position, name in entry.rows)


def lengths_left(entries):
    """The least and the greatest number of characters that entries leave to a text."""
    return max([0] + [it.window[0] for it in entries]), min([MOST] + [it.window[1] for it in entries])


def folds(entries):
    """Whether no length is left, as a word."""
    least, greatest = lengths_left(entries)
    return str(greatest < least).lower()


def head(row, entries, is_alone):
    """The line on what was compiled: the lengths that are left, and whether a test takes memory."""
    quiet = "" if any(it.takes_memory for it in entries) else ", takes no memory"
    if is_alone:
        least, greatest = lengths_left(entries)
        return f"  {entries[0].validator}, {least} to {greatest}{quiet}"
    return f"  object, folds: {folds(entries)}{quiet}"


def compiled_lines(row):
    """The lines below a row whose entries are not refused."""
    is_alone = "keyword" in row
    entries = [validator_at(row, row["keyword"])] if is_alone else entries_of(row)
    if entries == [None]:
        return ["  adds nothing"]
    lines = [head(row, entries, is_alone)]
    for ends in row.get("lent", ()):
        used = all(is_in_use(row, it, ends) for it in entries)
        lines.append(f"  in use with {compact([Number(str(it)) for it in ends])}: {str(used).lower()}")
    for instance in row.get("instances", ()):
        lines += instance_lines(row, entries, instance, is_alone)
    return lines


def said(row):
    """The lines that stand below a row of a schema object."""
    if row.get("draft") not in list(DRAFTS):
        return ["  no draft"]
    row = dict(row)
    try:
        lines = compiled_lines(row)
    except Refusal as it:
        lines = [f"  refused {place([*row.get('location', ()), it.keyword])}: {it.words}", f"    {it.kind}"]
    return lines + ([f"  the builder was asked: {row['asked']}"] if row.get("asked") else [])


def named_lines(name, texts):
    """The lines below a row that names a format and texts: what each draft has by that name."""
    lines = []
    for draft, shown in DRAFTS.items():
        found = format_in(draft, name)
        lines.append(f"  {shown}: " + ("None" if found is None else f"Some({found.variant})"))
        if found is not None:
            lines += [f"    {it}: {str(admits(found, it)).lower()}" for it in texts]
    return lines


def one_line(text):
    """A text as the program prints it: control characters are spaces."""
    return re.sub("[\x00-\x1f]", " ", text)


def answer(row, instance):
    """The lines that `run` answers to a request with this object and instance (docs/PROGRAMS.md)."""
    try:
        entries = entries_of(dict(row))
    except Refusal as it:
        return [f"refused /{it.keyword}: {one_line(it.words)}", "end"]
    failures = [it for entry in entries for it in entry.failures(instance)] if isinstance(instance, str) else []
    lines = [f"fold {folds(entries)}"] if row.get("fold", False) else []
    lines += [f"error /{it.keyword}: {one_line(it.words)}" for it in failures] or ["valid"]
    if isinstance(instance, str):
        lines += [f"note /{it.keyword}: {one_line(printed(it.note))}" for it in entries if it.note is not NOTHING]
    return lines + ["end"]


# The members of a request, and which values each may have. The first three have to stand there.
MEMBERS = {
    "draft": lambda it: isinstance(it, Number) and it.written in map(str, DRAFTS),
    "schema": lambda it: isinstance(it, dict),
    "instance": lambda it: True,
    "validate_formats": lambda it: isinstance(it, bool),
    "ignore_unknown_formats": lambda it: isinstance(it, bool),
    "fold": lambda it: isinstance(it, bool),
}


def is_request(value):
    """Whether a value is a request: an object of these members and of no other (docs/PROGRAMS.md)."""
    return (isinstance(value, dict) and set(list(MEMBERS)[:3]) <= set(value) <= set(MEMBERS)
            and all(MEMBERS[name](it) for name, it in value.items()))


def answer_to_line(value):
    """The lines that `run` answers to a line that is the JSON text of this value."""
    if not is_request(value):
        return ["bad request", "end"]
    return answer({**value, "draft": int(value["draft"].written)}, value["instance"])
