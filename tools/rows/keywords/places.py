"""Places of errors, notes and refusals, and the pointers in them."""
from itertools import combinations, product

from rows.keywords.common import JSON, WHOLE, asked, made
from rows.keywords.entries import KEYWORDS
from rows.keywords.errors import FAILING, LISTS_THAT_FAIL, THAT_FAIL
from rows.keywords.meaning import place
from rows.keywords.texts import DRAFTS
from rows.keywords.values import compact, parsed

SEGMENTS = (["a/b"], ["~"], ["", "\u00e9~1/"], ["$defs", "0"])


def placed(number):
    """Where a schema object and an instance stand in a row: all places differ."""
    return {"location": SEGMENTS[number], "way": SEGMENTS[number - 1], "at": SEGMENTS[number - 2],
            "absolute": f"https://example.com/{number}"}


def places_of_each_kind():
    """Each kind of error has all of its places, and so has each kind of refusal, whichever keyword is to blame."""
    literal = ({"pattern": it} for it in ("^z$", "^(y|z)$"))
    for draft, schema, number in product((6, 7, 202012), (*sum(THAT_FAIL, ()), *literal), (1, 2)):
        yield asked(draft, schema, FAILING, **LISTS_THAT_FAIL, **placed(number))
        for keyword in schema:
            yield asked(draft, schema, FAILING[:2], keyword=keyword, **LISTS_THAT_FAIL, **placed(number))
    for draft, number in product(DRAFTS, (1, 2)):
        yield asked(draft, {"pattern": r"^\S*$"}, ["a b"], **placed(number))
        for keyword, value in product(KEYWORDS, (5, -1, parsed("[1.5]"))):
            beside = {"contentMediaType": JSON} if keyword in ("contentEncoding", "contentSchema") else {}
            yield asked(draft, {**beside, keyword: value}, **placed(number))
            yield asked(draft, {**beside, keyword: value}, keyword=keyword, **placed(number))
        for more in ({"ignore_unknown_formats": False}, {"formats_by_dialect": True}):
            yield asked(draft, {"format": "nonsense"}, validate_formats=True, **more, **placed(number))
        yield asked(draft, {"pattern": "("}, **placed(number))


def places():
    """The places of errors, notes and refusals, with segments that are escaped (RFC 6901)."""
    for draft, (number, location) in product(DRAFTS, enumerate(SEGMENTS)):
        more = placed(number)
        yield asked(draft, WHOLE, ["ab"], validate_formats=True, **more)
        yield asked(draft, {"format": 5}, **more)
        yield asked(draft, {"contentMediaType": JSON, "contentEncoding": 5}, **more)
        yield asked(draft, {"minLength": 5}, ["ab"], location=location, way=["$ref"], keyword="minLength")


def places_there_or_not():
    """Each place is its own, whichever of the others are there: of each kind of error and of refusal, and of notes."""
    refused = ({"format": 5}, {"maxLength": -1}, {"pattern": "("}, {"contentMediaType": JSON, "contentEncoding": 5},
               {"contentMediaType": JSON, "contentSchema": parsed("[1.5]")})
    empty = {"location": [""], "way": [""], "at": [""], "absolute": ""}
    sets = [some for count in range(5) for some in combinations(empty, count)]
    for given, names in product((placed(1), empty), sets):
        more = {name: given[name] for name in names}
        for schema in (*sum(THAT_FAIL, ()), {"pattern": "^z$"}):
            yield asked(7, schema, FAILING[:2], **LISTS_THAT_FAIL, **more)
            yield from (asked(7, schema, ["ab"], keyword=it, **LISTS_THAT_FAIL, **more) for it in schema)
        yield from (asked(draft, WHOLE, ["ab"], **LISTS_THAT_FAIL, **more) for draft in (4, 7, 202012))
        yield from (asked(draft, schema, **more) for draft in (7, 202012) for schema in refused)


def pointed(segments):
    """The row that asks for the pointers to each of these segments."""
    return made(compact({"segments": segments}), [f"  {place(segments[:end])}" for end in range(1, len(segments) + 1)])


def pointers():
    """A segment stands behind a slash, with its tildes and slashes escaped (RFC 6901, sections 3 and 5)."""
    signs = [*map(chr, range(128)), "\u00e9", "\u20ac", "\U0001f4a9", "a" * 300, "/" * 9, "~" * 9, "~0", "~1", "~01",
             "~/~/", "a//b~~c", "%7E", "foo", "c%d", "e^f", "g|h", "k\"l"]
    yield from (pointed(segments) for sign in signs for segments in ([sign], ["a", sign], [sign, sign, ""]))


def places_with_each_character():
    """Each character of ASCII stands in places, escaped as RFC 6901 has it alone, and in prefixes as it is."""
    for least in range(0, 128, 16):
        some = "".join(map(chr, range(least, least + 16)))
        more = {"location": [some, ""], "way": ["", some], "at": [some, some],
                "absolute": "https://example.com/" + some}
        yield asked(7, {"minLength": 5}, ["ab"], **more)
        yield asked(7, {"minLength": -1}, **more)
        yield asked(202012, {"format": "x"}, ["ab"], **more)
    for sign in ("\u0080", "\u00a0", "\u2028", "\ud7ff", "\ue000", "\uffff", "\U0001f600", "\U0010ffff", "/", "//",
                 "~", "~0", "~1"):
        more = {"location": [sign], "way": [sign, sign], "at": [sign + "a"], "absolute": sign}
        yield asked(7, {"minLength": 5}, ["ab"], **more)
        yield asked(7, {"pattern": 5}, **more)
    for prefix in ("", "#", "/", "https://example.com/#/a", "https://example.com/s.json#a", "urn:x:y", "x?y", "a b",
                   "%23"):
        yield asked(7, {"minLength": 5}, ["ab"], location=["a"], absolute=prefix)


# Segments that paths, URIs and pointers of other kinds have, or read otherwise.
SEGMENTS_OF_OTHERS = (
    ".", "..", "...", "-", "--", "*", "**", "#", "#/a", "$", "$ref", "@", "0", "00", "-1", "+1", "1.0", "%", "%2F",
    "%2f", "%7E", "%7E1", "%25", "%20", "~", "~~", "~2", "~01", "~10", "~1~0", "~0~1", "/..", "../", "./a", "//", "\\",
    "a\\b", "a.b", "['a']", "[0]", '"a"', "'a'", " ", "  a", "a  ", "\t", "\r\n", "\0", "\u00a0", "\u2215", "\uff0f",
    "\u2044", "\uff5e", "\u02dc", "?", "?a=b", "a&b", "a;b", "C:", "http://x", "\ufeff", "\u202e", "")


def segments_of_others():
    """A segment stands as it is but for `~` and `/`, and none is passed over or taken back."""
    for sign in SEGMENTS_OF_OTHERS:
        yield from map(pointed, ([sign, "a"], ["a", sign, sign], [sign, "..", "a", sign]))
        yield asked(7, {"minLength": 5}, ["ab"], location=["a", sign], way=[sign, "b"], at=[sign], absolute="urn:x")
