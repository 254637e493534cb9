"""Values of each shape at keywords, alone and beside others."""
from itertools import product

from rows.keywords.common import BAD, JSON, RIGHT, SHAPES, asked, needed_by, requested
from rows.keywords.entries import KEYWORDS
from rows.keywords.texts import DRAFTS, ENCODERS
from rows.keywords.values import parsed

OTHER_INSTANCES = [parsed(it) for it in (
    'null', 'true', 'false', '0', '-1', '1.5', '[]', '["a","b","c"]', '{}', '{"a":"b"}', '18446744073709551615')]


def values_of_each_shape():
    """Each keyword with a value of each shape, in each draft."""
    for draft, keyword, shape in product(DRAFTS, KEYWORDS, SHAPES):
        instances = ["!"] if draft in (7, 202012) or keyword in ("minLength", "maxLength") else []
        yield asked(draft, {keyword: shape}, instances)
    for draft, keyword, shape in product((7, 202012), KEYWORDS, SHAPES[::3]):
        yield asked(draft, {keyword: shape}, keyword=keyword)


def values_beside_a_media_type():
    """The content keywords beside a media type that is known, unknown or malformed."""
    for draft, media_type, keyword in product(DRAFTS, (JSON, "text/x", None), ("contentEncoding", "contentSchema")):
        for shape in SHAPES if media_type == JSON else SHAPES[::5]:
            yield asked(draft, {"contentMediaType": media_type, keyword: shape})


def absent_keywords():
    """An object without keywords has no errors and no notes, and an entry that is absent adds nothing."""
    for draft in DRAFTS:
        yield asked(draft, {}, ["", "x", *OTHER_INSTANCES])
        for keyword in KEYWORDS:
            yield asked(draft, {}, keyword=keyword)


def instances_of_each_type():
    """Only a text is looked at."""
    for draft, keyword in product(DRAFTS, KEYWORDS):
        yield asked(draft, {keyword: RIGHT[keyword]}, OTHER_INSTANCES, validate_formats=True)
    for draft in DRAFTS:
        yield asked(draft, RIGHT, [*OTHER_INSTANCES, "!"])


def deep_values():
    """A number that is no whole number of 64 bits is seen at any depth, and a whole one is printed there."""
    keywords = (*KEYWORDS[:4], "pattern")
    for draft, keyword, depth, number in product((7, 202012), keywords, (2, 9, 33, 100), ("1.5", "7")):
        for begin, end in (("[", "]"), ("{\"a\":", "}"), ("[0,", "]"), ("{\"a\":0,\"b\":", "}")):
            schema = {"contentMediaType": "x", keyword: parsed(begin * depth + number + end * depth)}
            yield asked(draft, schema, ["x"])


def entries_beside_each_shape():
    """What stands beside an entry is looked at whatever it is: there, malformed, or left out itself."""
    beside = (("contentEncoding", "contentMediaType"), ("contentMediaType", "contentEncoding"),
              ("contentSchema", "contentMediaType"), ("contentSchema", "contentEncoding"),
              ("contentMediaType", "contentSchema"), ("minLength", "maxLength"), ("maxLength", "minLength"))
    for draft, (keyword, other), shape in product((4, 6, 7, 202012), beside, SHAPES):
        if draft in (6, 7) or "content" in keyword:
            schema = {other: shape, keyword: RIGHT[keyword]}
            yield asked(draft, schema, ["!", ""], keyword=keyword)
            yield asked(draft, schema, ["!", ""], left_out=[other])


# Objects that stand for a value in other programs and in other keywords.
FOR_A_VALUE = tuple(map(parsed, (
    '{"$data":"0/x"}', '{"$data":"#/x"}', '{"$ref":"#/x"}', '{"const":2}', '{"value":2}', '{"name":"date"}',
    '{"source":"^a"}', '{"type":"application/json"}', '["date"]', '["^a","^b"]', '[2]', '{"$eval":"2"}',
    '{"limit":2}')))


def objects_for_values():
    """An object or an array that stands for a value elsewhere is no string and no limit here."""
    for keyword, value in product(KEYWORDS, FOR_A_VALUE):
        schema = {**needed_by(keyword), keyword: value}
        for draft in (7, 202012):
            yield asked(draft, schema, ["ab"])
        yield requested(7, schema, "ab")


# A number that is no whole one of 64 bits, and values beside which it stands first, last or between.
BESIDE_FRACTIONS = ("0", "true", '"1.5"', "[]", '{"a":{}}', "18446744073709551615")


def fractions_among_others():
    """A number that is no whole number of 64 bits is seen wherever it stands among others."""
    for number, other in product(("1.5", "-0", "18446744073709551616"), BESIDE_FRACTIONS):
        for place in range(3):
            values = [other, other]
            values.insert(place, number)
            for value in (f"[{','.join(values)}]", f'{{"a":{values[0]},"b":{values[1]},"c":{values[2]}}}',
                          f'[{{"a":[{",".join(values)}]}},{other}]'):
                for keyword in ("format", "contentSchema", "contentEncoding"):
                    draft = 202012 if keyword == "contentSchema" else 7
                    yield asked(draft, {**needed_by(keyword), keyword: parsed(value)})
        yield requested(202012, {"contentMediaType": "x", "contentSchema": parsed(f"[{other},{number},{other}]")}, "x")


def values_by_options():
    """What an option says of one keyword it says of no other: values of each shape under each option alone."""
    alone = ({"validate_formats": False}, {"validate_formats": True}, {"ignore_unknown_formats": False},
             {"formats_by_dialect": True}, {"json_media_type": False}, {"without_codecs": list(ENCODERS)})
    for draft, keyword, more in product((4, 7, 202012), KEYWORDS, alone):
        beside = {"contentMediaType": JSON} if keyword in ("contentEncoding", "contentSchema") else {}
        for value in (RIGHT[keyword], None, True, 5, "x", {}, parsed("[1.5]")):
            yield asked(draft, {**beside, keyword: value}, ["!"] if value == RIGHT[keyword] else [], **more)
        left_out = [it for it in KEYWORDS if it != keyword]
        yield asked(draft, {**RIGHT, keyword: BAD[keyword]}, **more, left_out=left_out)
        if draft != 4:
            yield asked(draft, {**beside, "contentEncoding": "base64", keyword: RIGHT[keyword]}, ["!", "7B"], **more)
