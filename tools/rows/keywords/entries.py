"""What each string keyword means, in the words of JSON Schema Validation and of docs/DECISIONS.md.

An entry of a schema object is refused, adds nothing, or is an `Entry`: what a text fails at, what is noted, and which
lengths are left. A row is a dictionary by the members that README.md of crates/strkw_test_rows names; its schema and
instances are values as `parsed` gives them.
"""
import re
from dataclasses import dataclass, field
from functools import partial

from rows.keywords.texts import ENCODERS, encoded_bytes, format_in, is_json
from rows.keywords.values import MOST, compact, holds_fraction, is_limit, printed
from rows.keywords.verdicts import admits

# The order in which entries are looked at, and errors and notes stand.
KEYWORDS = ("contentMediaType", "contentEncoding", "contentSchema", "format", "minLength", "maxLength", "pattern")
# Draft 7, section 8, checks content; 2019-09 and 2020-12, section 8, note it. The Rust crate has draft 6 as draft 7.
CONTENT_IS_CHECKED = (6, 7)
CONTENT_IS_NOTED = (201909, 202012)
# Section 7.2: the later drafts check formats only where it is asked for.
FORMATS_ARE_CHECKED = (4, 6, 7)
FRACTION = "the value holds a number that is no whole number of 64 bits"
NOTHING = object()
NO_TEXT = object()


# ---- what an entry comes to

@dataclass
class Refusal(Exception):
    """Why an entry is refused, and at which keyword."""
    keyword: str
    kind: str
    words: str


@dataclass
class Failure:
    """What a text fails at: the keyword, the kind with what it carries, and the words."""
    keyword: str
    kind: str
    words: str


@dataclass
class Entry:
    """What one entry of a schema object says."""
    keyword: str
    validator: str
    failures: object = lambda text: []
    note: object = NOTHING
    window: tuple = (0, MOST)
    takes_memory: bool = False
    # The caller's rows on which it rests: the list, the position and the name.
    rows: list = field(default_factory=list)


def string_at(keyword, value):
    """The value at a keyword, which has to be a string."""
    if isinstance(value, str):
        return value
    if holds_fraction(value):
        raise Refusal(keyword, "FractionalNumber", FRACTION)
    raise Refusal(keyword, f"NotString {printed(value)}", f'{printed(value)} is not of type "string"')


def lists_of(row):
    """The caller's lists with which a row compiles: all rows, or the ranges that are named."""
    ends = row.get("with")
    names = ("formats", "media_types", "codecs")
    return {name: row.get(name, [])[slice(*ends[2 * position:2 * position + 2]) if ends else slice(None)]
            for position, name in enumerate(names)}


def first_named(rows, name):
    """The first row of a name, with its position, or None."""
    found = ((position, script) for position, (called, script) in enumerate(rows) if called == name)
    return next(found, None)


# What the scripted checks admit, and what the scripted codecs take and decode.
CHECKS = {"even": lambda text: len(text) % 2 == 0, "all": lambda text: True, "none": lambda text: False}
SCRIPTED_CODECS = {
    "odd": (lambda text: True, lambda text: None),
    "bytes": (lambda text: False, lambda text: NO_TEXT),
    "plain": (lambda text: True, lambda text: text),
    "behind one": (lambda text: True, lambda text: "1" + text),
}


# ---- minLength and maxLength (2020-12, sections 6.3.1 and 6.3.2)

def characters(count):
    """So many characters, in words."""
    return f"{count} character" if count == 1 else f"{count} characters"


def min_length(row):
    """At least so many characters (section 6.3.2). A character is a Unicode code point."""
    least = limit_at(row, "minLength")

    def failures(text):
        """What the text fails at."""
        short = f"{compact(text)} is shorter than {characters(least)}"
        return [Failure("minLength", f"MinLength {least}", short)] if len(text) < least else []
    return Entry("minLength", "MinLength", failures, window=(least, MOST))


def max_length(row):
    """At most so many characters (section 6.3.1)."""
    greatest = limit_at(row, "maxLength")

    def failures(text):
        """What the text fails at."""
        long = f"{compact(text)} is longer than {characters(greatest)}"
        return [Failure("maxLength", f"MaxLength {greatest}", long)] if len(text) > greatest else []
    return Entry("maxLength", "MaxLength", failures, window=(0, greatest))


def limit_at(row, keyword):
    """The limit at a keyword, or the refusal of its value."""
    value = row["schema"][keyword]
    if not is_limit(value):
        raise Refusal(keyword, "Size", "the limit is not a non-negative whole number of 64 bits")
    return int(value.written)


# ---- format (2020-12, section 7)

def checks_formats(row):
    """Whether formats are checked: as the caller wants it, or else by the draft or the dialect."""
    wanted = row.get("validate_formats")
    if wanted is not None:
        return wanted
    return row["draft"] in FORMATS_ARE_CHECKED or row.get("formats_by_dialect", False)


def format_entry(row):
    """A registered row of the name, else the format that the draft has by it, else an unknown one."""
    name = string_at("format", row["schema"]["format"])
    if not checks_formats(row):
        return Entry("format", "AnnotationOnlyFormat", note=name)

    def failures_by(rule):
        """What texts fail at that a rule does not admit."""
        return lambda text: [] if rule(text) else [
            Failure("format", f"Format {name}", f'{compact(text)} is not a "{name}"')]
    registered = first_named(lists_of(row)["formats"], name)
    if registered is not None:
        position, script = registered
        return Entry("format", "CustomFormat", failures_by(CHECKS[script]), note=name, takes_memory=True,
                     rows=[("formats", position, name)])
    built_in = format_in(row["draft"], name)
    if built_in is not None:
        return Entry("format", "Format", failures_by(partial(admits, built_in)), note=name, window=built_in.window)
    return unknown_format(row, name)


def unknown_format(row, name):
    """An unknown format is ignored, unless the caller or the dialect will not have it."""
    if row.get("formats_by_dialect", False):
        raise Refusal("format", f"UnknownFormat {name}, by the dialect", (
            f"Unknown format: '{name}'. The meta-schema asserts formats, so unrecognized ones cannot be ignored. "
            "Register a check for it or disable format validation"))
    if row.get("ignore_unknown_formats", True):
        return None
    raise Refusal("format", f"UnknownFormat {name}",
                  f"Unknown format: '{name}'. Adjust configuration to ignore unrecognized formats")


# ---- content (draft 7, section 8; 2020-12, section 8)

def media_type_named(row, name):
    """The test of a known media type and the row that it rests on, or None."""
    registered = first_named(lists_of(row)["media_types"], name)
    if registered is not None:
        return CHECKS[registered[1]], [("media_types", registered[0], name)]
    if name == "application/json" and row.get("json_media_type", True):
        return is_json, []
    return None


def codec_named(row, name):
    """What a known codec takes, what it decodes, and the row that it rests on, or None."""
    registered = first_named(lists_of(row)["codecs"], name)
    if registered is not None:
        return *SCRIPTED_CODECS[registered[1]], [("codecs", registered[0], name)]
    if name not in ENCODERS or name in row.get("without_codecs", ()):
        return None

    def decoded(text):
        """The text that is encoded; `None` where nothing is, and `NO_TEXT` where the bytes are no text."""
        found = encoded_bytes(name, text)
        if found is None:
            return None
        try:
            return found.decode()
        except UnicodeDecodeError:
            return NO_TEXT
    return (lambda text: encoded_bytes(name, text) is not None), decoded, []


def no_encoding(text, name):
    """The failure of a text that is not of the encoding."""
    return Failure("contentEncoding", f"ContentEncoding {name}",
                   f'{compact(text)} is not compliant with "{name}" content encoding')


def no_media_type(text, name):
    """The failure of a text that is not of the media type."""
    return Failure("contentMediaType", f"ContentMediaType {name}",
                   f'{compact(text)} is not compliant with "{name}" media type')


def content_media_type(row):
    """A text is of the media type (draft 7, section 8.4), or the value is noted."""
    value = row["schema"]["contentMediaType"]
    if row["draft"] in CONTENT_IS_NOTED:
        return Entry("contentMediaType", "ContentMediaTypeAnnotation", note=value) if isinstance(value, str) else None
    if row["draft"] not in CONTENT_IS_CHECKED:
        return None
    name = string_at("contentMediaType", value)
    known = media_type_named(row, name)
    if known is None:
        return None
    if "contentEncoding" in row["schema"]:
        return encoded_media_type(row, name, *known)
    admits, rests_on = known
    return Entry("contentMediaType", "ContentMediaType", takes_memory=True, rows=rests_on,
                 failures=lambda text: [] if admits(text) else [no_media_type(text, name)])


def encoded_media_type(row, name, admits, rests_on):
    """A text encodes a text of the media type (draft 7, sections 8.3 and 8.4)."""
    encoding = string_at("contentEncoding", row["schema"]["contentEncoding"])
    known = codec_named(row, encoding)
    if known is None:
        return None
    _, decode, more = known

    def failures(text):
        """What the text fails at."""
        decoded = decode(text)
        if decoded is None:
            return [no_encoding(text, encoding)]
        if decoded is NO_TEXT:
            return [Failure("contentEncoding", "FromUtf8", f"{compact(text)} does not decode to UTF-8 text")]
        return [] if admits(decoded) else [no_media_type(text, name)]
    return Entry("contentMediaType", "ContentMediaTypeAndEncoding", failures, takes_memory=True, rows=rests_on + more)


def content_encoding(row):
    """A text is an encoding (draft 7, section 8.3), beside no media type, or the value is noted."""
    value = row["schema"]["contentEncoding"]
    if row["draft"] in CONTENT_IS_NOTED:
        return Entry("contentEncoding", "ContentEncodingAnnotation", note=value) if isinstance(value, str) else None
    if row["draft"] not in CONTENT_IS_CHECKED or "contentMediaType" in row["schema"]:
        return None
    name = string_at("contentEncoding", value)
    known = codec_named(row, name)
    if known is None:
        return None
    takes, _, rests_on = known
    return Entry("contentEncoding", "ContentEncoding", takes_memory=True, rows=rests_on,
                 failures=lambda text: [] if takes(text) else [no_encoding(text, name)])


def content_schema(row):
    """The value is noted beside a media type (2020-12, section 8.5)."""
    value = row["schema"]["contentSchema"]
    if row["draft"] not in CONTENT_IS_NOTED or "contentMediaType" not in row["schema"]:
        return None
    if holds_fraction(value):
        raise Refusal("contentSchema", "FractionalNumber", FRACTION)
    return Entry("contentSchema", "ContentSchemaAnnotation", note=value)


# ---- pattern (2020-12, section 6.3.3), with the literal patterns of docs/DECISIONS.md

PLAIN = r"[A-Za-z0-9 \-_/:@#%&=,;~!'\"<>]"
ITEM = r"(?:%s|\\[\^$\\.*+?()\[\]{}|/])" % PLAIN
WHITE_SPACE = re.compile("[\t-\r \xa0\u1680\u2000-\u200a\u2028\u2029\u202f\u205f\u3000\ufeff]")


def literal(items):
    """The text that items stand for: an escaped sign stands for itself."""
    return re.sub(r"\\(.)", r"\1", items)


def literal_pattern(pattern):
    """The validator of a literal pattern and which texts it matches, or None."""
    if pattern == r"^\S*$":
        return "NoWhitespacePattern", lambda text: not WHITE_SPACE.search(text)
    if found := re.fullmatch(rf"\^\(({ITEM}+(?:\|{ITEM}+)*)\)\$", pattern):
        texts = [literal(it) for it in re.findall(rf"{ITEM}+", found[1])]
        return "AlternationPattern", lambda text: text in texts
    if found := re.fullmatch(rf"\^({ITEM}+)\$", pattern):
        return "ExactPattern", lambda text: text == literal(found[1])
    if found := re.fullmatch(rf"\^({ITEM}+)", pattern):
        return "PrefixPattern", lambda text: text.startswith(literal(found[1]))
    return None


def no_match(text, pattern):
    """The failure of a text that the pattern does not match."""
    return Failure("pattern", f"Pattern {pattern}", f'{compact(text)} does not match "{pattern}"')


def pattern_entry(row):
    """A literal is compared; any other pattern is matched by the engine that the builder makes of it."""
    pattern = string_at("pattern", row["schema"]["pattern"])
    found = literal_pattern(pattern)
    if found is not None:
        validator, matches = found
        return Entry("pattern", validator, lambda text: [] if matches(text) else [no_match(text, pattern)])
    row["asked"] = row.get("asked", 0) + 1
    outcomes = [(text, outcome) for called, text, outcome in row.get("patterns", ()) if called == pattern]
    if not outcomes:
        raise Refusal("pattern", f"Regex {pattern}", f'{compact(pattern)} is not a "regex"')

    def failures(text):
        """What the text fails at."""
        outcome = next((it for of, it in outcomes if of == text), "no match")
        return {
            "match": [],
            "backtracking": [Failure("pattern", f"BacktrackLimitExceeded {pattern}",
                                     "Error executing regex: Max limit for backtracking count exceeded")],
            "failed": [Failure("pattern", f"RegexEngineFailure {pattern}",
                               f"Regex engine failed to evaluate pattern '{pattern}'")],
        }.get(outcome, [no_match(text, pattern)])
    return Entry("pattern", "Pattern", failures, takes_memory=True)


# ---- an entry alone, and the whole object

ENTRIES = dict(zip(KEYWORDS, (content_media_type, content_encoding, content_schema, format_entry, min_length,
                              max_length, pattern_entry)))


def entry_at(row, keyword):
    """What the entry at a keyword comes to; None where it adds nothing. A refused entry is raised."""
    if keyword not in row["schema"] or keyword in row.get("left_out", ()):
        return None
    return ENTRIES[keyword](row)


def is_good_limit(row, keyword):
    """Whether the keyword is asked and its value is a limit."""
    return keyword not in row.get("left_out", ()) and is_limit(row["schema"].get(keyword))


def validator_at(row, keyword):
    """The same, where one validator stands for both limits, if both are good."""
    entry = entry_at(row, keyword)
    other = {"minLength": "maxLength", "maxLength": "minLength"}.get(keyword)
    if entry is None or not is_good_limit(row, other):
        return entry
    if keyword == "maxLength":
        return None
    longest = entry_at(row, other)
    return Entry(keyword, "LengthRange", lambda text: entry.failures(text) + longest.failures(text),
                 window=(entry.window[0], longest.window[1]))


def entries_of(row):
    """The entries of all keywords of a row, in their order."""
    return [it for it in (entry_at(row, keyword) for keyword in KEYWORDS) if it is not None]
