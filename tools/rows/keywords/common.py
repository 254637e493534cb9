"""What the makers of rows share: rows as lines, and values of which they are made."""
from itertools import product

from rows.keywords.meaning import answer, answer_to_line, named_lines, said
from rows.keywords.values import Number, compact, parsed

CHECKED = {"validate_formats": True, "ignore_unknown_formats": False}
JSON = "application/json"


def escaped(text):
    """A text of JSON in ASCII alone."""
    units = text.encode("utf-16-be", "surrogatepass")
    pairs = [int.from_bytes(units[at:at + 2], "big") for at in range(0, len(units), 2)]
    return "".join(chr(it) if it < 127 else f"\\u{it:04x}" for it in pairs)


def made(line, below):
    """A row; a text that holds a line feed is more than one line."""
    return escaped(line), "\n".join(below).split("\n") if below else []


def numbered(value):
    """The same value, with each whole number as a number of JSON."""
    if isinstance(value, dict):
        return {name: numbered(it) for name, it in value.items()}
    if isinstance(value, (list, tuple)):
        return [numbered(it) for it in value]
    return Number(str(value)) if isinstance(value, int) and not isinstance(value, bool) else value


def asked(draft, schema, instances=(), **more):
    """The row of a schema object, or of its entry at `keyword`, under what else is set."""
    row = {"draft": draft, **more, "schema": numbered(schema)}
    if instances:
        row["instances"] = numbered(instances)
    return made(compact(row), said(row))


def named(name, texts=()):
    """A row that asks for a format by its name, with texts."""
    return made(compact({"format": name, "texts": list(texts)}), named_lines(name, texts))


def requested(draft, schema, instance, **more):
    """The row of a request to `run`."""
    row = {"draft": draft, **more, "schema": numbered(schema)}
    return fed([compact({**row, "instance": instance})], answer(row, numbered(instance)))


def fed(parts, told, **more):
    """The row of an input to `run`, by its parts, and what is told."""
    return made(compact({"input": parts, **more}), told)


def lined(*values):
    """The row of an input to `run` whose lines are the JSON texts of values; of a pair so many stand in turn."""
    turns = [it if isinstance(it, tuple) else (it, 1) for it in values]
    told = [line for value, times in turns for line in answer_to_line(numbered(value)) * times]
    parts = [[compact(value) + "\n", times] if times > 1 else compact(value) + "\n" for value, times in turns]
    return fed(parts, cut("\n".join(told)))


# Of a longer output of `run` the program shows the beginning and how long it is.
LONGEST_SHOWN = 2000
# What `run` answers to a line that is no request.
NO_REQUEST = ["bad request", "end"]


def cut(told):
    """An output as the program shows it: of a long one the beginning, and how many bytes it has."""
    size = len(told.encode())
    return [told] if size < LONGEST_SHOWN else [f"{told.encode()[:60].decode()}.. of {size + 1} bytes"]


def answer_to_text(text):
    """The answer to a line that is a JSON text or none. Python also reads a surrogate that is alone."""
    try:
        value = parsed(text)
        compact(value).encode("utf-8")
    except ValueError:
        return NO_REQUEST
    return answer_to_line(value)


def told_of(lines):
    """The answers to lines; one that is given as bytes is no UTF-8, and so no request."""
    return [it for line in lines for it in (answer_to_text(line) if isinstance(line, str) else NO_REQUEST)]


def fed_lines(lines):
    """The row of an input to `run` of these lines, as they stand."""
    return fed([line + "\n" for line in lines], told_of(lines))


def around_text(draft, schema, **more):
    """The line of a request up to the text of its instance, and what is behind that text."""
    line = compact({"draft": draft, "schema": schema, "instance": "", **more})
    front, end = line.split('"instance":""')
    return front + '"instance":"', '"' + end


def needed_by(keyword):
    """What has to stand beside a keyword so that it says something."""
    return {"contentMediaType": "x"} if keyword == "contentSchema" else {}


def some_of(texts, most):
    """No more than so many of the texts, taken at even steps."""
    return texts[::max(1, -(-len(texts) // most))]


def in_parts(texts, size):
    """The texts, so many at a time."""
    return (texts[at:at + size] for at in range(0, len(texts), size))


SHAPES = [parsed(it) for it in (
    'null', 'true', 'false', '0', '1', '-1', '-0', '1.5', '5.0', '1e2', '9223372036854775808', '18446744073709551615',
    '18446744073709551616', '-9223372036854775808', '-9223372036854775809', '""', '"x"', '[]', '["x"]', '[1.5]',
    '{}', '{"a":1}', '{"a":[{"b":5.0}]}', '[[],{"c":18446744073709551616}]', '[1,"2",1.5]', '{"a":1,"b":1.5}',
    '{"a":-0,"b":1}', '{"b":{"d":1,"c":2},"":3,"a":[{"f":4,"e":5}],"aa":6,"B":7,"\u00e9":8,"~":9}')]
RIGHT = {"contentMediaType": JSON, "contentEncoding": "base64", "contentSchema": parsed('{"type":"object"}'),
         "format": "date", "minLength": 2, "maxLength": 1, "pattern": "^a"}
BAD = {"contentMediaType": 1, "contentEncoding": 2, "contentSchema": parsed("[1.5]"),
       "format": 4, "minLength": -5, "maxLength": -6, "pattern": 7}
WHOLE = {"pattern": "^b", "maxLength": 1, "minLength": 3, "format": "date", "contentSchema": True,
         "contentEncoding": "base16", "contentMediaType": JSON}
OPTIONS = [{name: it for name, it in zip(("validate_formats", "ignore_unknown_formats", "formats_by_dialect"), them)
            if it is not None} for them in product((None, True, False), (None, False), (None, True))]
MIXED = "a\u00e9\u20ac\U0001f4a9"
ONE_REQUEST = {"draft": 7, "schema": {"format": "date", "maxLength": 1}, "instance": "x"}
RIGHT_MEMBERS = {**ONE_REQUEST, "validate_formats": True, "ignore_unknown_formats": True, "fold": True}
