"""Requests to `run`, and the values in them."""
from itertools import product

from rows.keywords.common import (BAD, JSON, MIXED, NO_REQUEST, ONE_REQUEST, RIGHT, RIGHT_MEMBERS, SHAPES, WHOLE,
                                  answer_to_text, around_text, asked, fed, lined, numbered, requested, told_of)
from rows.keywords.content import texts_for
from rows.keywords.entries import KEYWORDS
from rows.keywords.meaning import MEMBERS, answer_to_line
from rows.keywords.members import joined, quoted
from rows.keywords.other_names import near
from rows.keywords.patterns import LITERAL, NOT_LITERAL
from rows.keywords.texts import DRAFTS, ENCODERS
from rows.keywords.values import compact, parsed

FLAGS = [{name: it for name, it in zip(("validate_formats", "ignore_unknown_formats"), them) if it is not None}
         for them in product((None, True, False), repeat=2)]


def requests():
    """What `run` answers: the same errors, notes and refusals, each on a line."""
    schemas = [{keyword: RIGHT[keyword]} for keyword in KEYWORDS] + [WHOLE, {}, {"minLength": 1}]
    for draft, schema in product(DRAFTS, schemas):
        for instance in ("", "a\"\n\u00e9", 5) if schema != WHOLE else ("ab", "7B"):
            yield requested(draft, schema, instance)
    for draft, keyword in product(DRAFTS, KEYWORDS):
        yield requested(draft, {keyword: BAD[keyword]}, "x", validate_formats=True)
    for draft, name, options in product(DRAFTS, ("date", "uuid", "iri", "nonsense", "a\n'b"), FLAGS):
        yield requested(draft, {"format": name}, "x", **options)
        if name in ("date", "nonsense"):
            yield requested(draft, {"format": name, "minLength": 11}, "x", fold=True, **options)
    for draft, codec in product((6, 7, 202012), ENCODERS):
        for text in texts_for(codec):
            yield requested(draft, {"contentMediaType": JSON, "contentEncoding": codec}, text)
    for draft, media_type, schema in product((7, 201909, 202012), ("a/b", 5), ('{"a":1}', '[1.5]', '-0')):
        yield requested(draft, {"contentSchema": parsed(schema), "contentMediaType": media_type}, "x")
    yield from (requested(7, {"pattern": it}, "x") for it in NOT_LITERAL)
    yield from (requested(7, {"pattern": it}, texts[-1]) for it, texts in LITERAL)
    yield from (requested(7, {"maxLength": 0}, it)
                for it in ("\b\f\n\r\t", "\0\x1f", "\x7f", "\\\"/", "\U0001f4a9", "\n\x7f" + MIXED))


WORDS = ("x", "draft", "7x", "{", "}", "[", "]", ",", ":", "\"draft\"", "{]", "[}", "{}{}", "{} 1", "//", "{\"draft\"}",
         "{\"draft\":}", "{\"draft\",7}", "{7:\"draft\"}", "\"", "\"\\x\"", "nul", "NaN", "'x'", "\ufeff{}")
# Names that other programs have, and some of other shapes.
OTHER_MEMBERS = ("validateFormats", "validate-formats", "ignoreUnknownFormats", "ignore-unknown-formats", "$schema",
                 "$ref", "data", "value", "text", "id", "patterns", "formats_by_dialect", "draft\0", "\u00e9",
                 "n" * 300, "$comment", "comment", "//", "$id", "$defs", "jsonrpc", "method", "params", "version",
                 "name", "title", "description", "type", "x-draft", "_draft", "json_media_type", "codecs", "overridden",
                 "instances", "schemas", "draftVersion", "draft_version", "dialect", "format", "options", "strict",
                 "input", "document", "string", "json", "subject", "validate", "validate_format", "check_formats",
                 "assert_formats", "formatAssertion", "ignore_unknown_format", "ignore_unknown", "unknown_formats",
                 "fold_to_false", "folded", "limits", "timeout", "meta", "tags", "trace", "request_id", "requestId",
                 "result", "error", "", " ")


def lines_of_each_shape():
    """A line is a request where it is an object of the members of docs/PROGRAMS.md, each with a value of its kind."""
    for shape in SHAPES:
        yield lined(shape)
    for word in WORDS:
        yield fed([word], NO_REQUEST)
    more = ("4", "6", "7", "8", "201909", "7e0", "70", "[7]", '"7"', '"true"', '"false"', "2")
    for name, shape in product(MEMBERS, [*SHAPES, *map(parsed, more)]):
        yield lined({**ONE_REQUEST, name: shape})
    flags = ("draft", "validate_formats", "ignore_unknown_formats", "fold")
    words = ("yes", "no", "on", "off", "1", "0", "TRUE", "False", "null", " true", "")
    for name, shape in product(flags, [*words, *map(parsed, ("[true]", "1.0", "-1"))]):
        yield lined({**ONE_REQUEST, name: shape})
    for name in OTHER_MEMBERS:
        for shape in map(parsed, ("true", "null", '"x"', "7", "{}")):
            yield lined({**ONE_REQUEST, name: shape})
    # What is no request is told before the refusal of its schema object.
    for name, shape in product([*MEMBERS, "other"], (parsed("null"), parsed("1"), parsed('"x"'))):
        lone = {"draft": 7, "schema": {"format": 5}, "instance": "x"}
        yield lined({**lone, name: shape})
        yield lined({name: shape, **{it: lone[it] for it in lone if it != name}})
    for name in MEMBERS:
        every = {**ONE_REQUEST, "validate_formats": True, "ignore_unknown_formats": False, "fold": True}
        yield lined({it: every[it] for it in every if it != name})
        for other in near(name):
            yield lined({**ONE_REQUEST, other: every[name]})
            yield lined({other if it == name else it: every[it] for it in every})


# Numbers about the ends of those of 64 bits, and numbers that are written with a point or an exponent.
NUMBERS = ("0", "-0", "7", "-1", "-7", "-10", "123456789", "2147483648", "-2147483649", "9223372036854775807",
           "9223372036854775808", "-9223372036854775807", "-9223372036854775808", "-9223372036854775809",
           "18446744073709551615", "18446744073709551616", "-18446744073709551615", "1" + "0" * 30, "-1.5", "1.0",
           "-2.0", "1e0", "-1E+2", "10e-1", "0.0", "-0.0", "0e9", "1e-999", "-1e-999", "1e308",
           "-1.7976931348623157e308")


def values_in_requests():
    """The values of a schema object are those of its line: numbers are refused, noted and told as they are written."""
    for draft, shape in product(DRAFTS, SHAPES):
        yield requested(draft, {"format": shape}, "x", validate_formats=True)
        yield requested(draft, {"contentMediaType": "a/b", "contentSchema": shape}, "x")
    for written, form in product(NUMBERS, ("%s", "[%s]", '{"a":[true,%s,"1"]}')):
        value = parsed(form % written)
        for keyword in KEYWORDS if form == "%s" else ("format", "maxLength"):
            yield requested(7, {keyword: value}, "x")
        yield requested(202012, {"contentMediaType": "a/b", "contentSchema": value}, "x")
        yield requested(7, {"maxLength": 0, "x": value}, value)
    # Names are told in the order of their bytes, and with escapes.
    for names in (("\U0001f600", "\uff5e", "\ud7ff", "\ue000"), ("b", "a", "B", "", "ab", "aa", "\u00e9", "\x7f"),
                  *(map(chr, range(last, last - 32, -1)) for last in (31, 63, 95, 127))):
        value = {name: [{name: name}, at] for at, name in enumerate(names)}
        yield requested(7, {"format": value}, "x")
        yield requested(202012, {"contentMediaType": "a/b", "contentSchema": value}, "x")
        yield asked(202012, {"contentMediaType": "a/b", "contentSchema": value}, ["x"])
    # A character may stand in two of the pieces of 64 KiB that a run reads.
    for sign, spaces in product("\u00e9\u20ac\U0001f600", range(4)):
        front, end = around_text(7, {"minLength": 50_000, "maxLength": 50_000})
        parts = [" " * spaces + front, [sign, 50_000], f"{end}\n", f"{front}x{end}"]
        yield fed(parts, ["valid", "end", *answer_to_text(f"{front}x{end}")])


# Values that JSON readers refuse.
NO_VALUES = ("1e999", '"\\ud800"', '[1e999]', '{"\\udfff":1}', "nul", '"\x01"', '{"a":1e999}', '{"a":[-1e999]}',
             '[{"a":-1e999}]', '{"a":nul}', '{"a":{}')
# Texts that spell a number which JSON readers refuse, within other values.
SPELT_NUMBERS = ('["1e999"]', '["-1e999",{}]', '{"a":"1e999"}', '{"1e999":["-1e999"]}')
# A request up to its instance.
FRONT = '{"draft":7,"schema":{"maxLength":1},"instance":'


def other_members():
    """Members that stand twice, numbers that JSON readers refuse, surrogates alone, and bytes that are no UTF-8."""
    yield from no_instances()
    for name in MEMBERS:
        yield from values_of_a_member(name)
    yield from values_of_keywords()
    yield from signs_about_requests()


def no_instances():
    """Instances that are no JSON."""
    for wrong in ('"\\ud800"', '"\\udc00"', '"\\ud800x"', '"\\udc00\\ud800"', '"\\u12"', '"\\a"', '"\t"', '"a\x0bb"',
                  "1e999", "-1e999", "\x0c1", "\u00a01", "\u20281", "\ufeff1", "1\u0085", "/**/1", "'x'", "True", "0x1",
                  "1_0", "+1", "00", "-", "1e", "[1]]", '{"a":1}}', '"x""y"', "", ",", "1,"):
        yield fed([FRONT + wrong + "}"], NO_REQUEST)


def values_of_a_member(name):
    """A member that stands twice, first with a value that readers refuse, or with one that is near to it."""
    line = {**ONE_REQUEST, name: RIGHT_MEMBERS[name]}
    rest = compact({name: line[name], **line})[1:]
    yield from (fed([f'{{"{name}":{wrong},{rest}'], NO_REQUEST) for wrong in NO_VALUES)
    for spelt in map(parsed, SPELT_NUMBERS):
        yield lined({**ONE_REQUEST, name: spelt})
        yield fed([joined(*quoted((name, spelt), *line.items()))], answer_to_line(numbered(line)))


def values_of_keywords():
    """Keywords with values that readers refuse, or that are near to these, and names that are none."""
    for name, spelt in product((*KEYWORDS, "x"), map(parsed, SPELT_NUMBERS)):
        yield requested(7, {name: spelt}, "x")
        yield requested(7, {"maxLength": 0, "x": [spelt]}, "x")
    members = [f'"{name}":{wrong},"{name}":1' for name, wrong in product((*KEYWORDS, "x"), NO_VALUES)]
    members += [f'"format":"date",{name}:1' for name in ('"\\ud800"', '"\x01"', "x", "1", '"x" "y"')]
    for it in members:
        yield fed([f'{{"draft":7,"schema":{{{it}}},"instance":"x"}}'], NO_REQUEST)


def signs_about_requests():
    """Bytes that are no UTF-8, signs that end no line, and signs that are shown in answers."""
    for some in ("C0 80", "C1 BF", "E0 80 80", "ED A0 80", "ED BF BF", "E2 82", "80", "BF", "F0 80 80 80",
                 "F4 90 80 80", "F5 80 80 80", "FE"):
        parts = [FRONT + '"', *bytes.fromhex(some), '"}\n', FRONT + '"x"}']
        yield fed(parts, [*NO_REQUEST, "valid", "end"])
    for sign in "\0\x01\v\f\r\x1c\x1d\x1e \x85\u2028\u2029;,":
        one = compact(ONE_REQUEST)
        yield fed([one + sign + one], NO_REQUEST)
        yield fed([f"{one}\n{sign}\n{one}"], told_of([one, sign, one]))
    for sign in ("\x7f", "\x80", "\x85", "\u2028", "\u2029", "\ufffd", "\uffff", "\U0010ffff", "\ud7ff", "\ue000"):
        for times in (1, 2):
            yield requested(7, {"maxLength": 1}, sign * times)
            yield requested(7, {"format": sign * times}, "x", ignore_unknown_formats=False)
            yield requested(7, {"pattern": sign * times + "+"}, "x")
            yield requested(202012, {"contentEncoding": sign * times, "format": sign}, "x")
