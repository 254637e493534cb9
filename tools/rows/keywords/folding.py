"""Which lengths are left, and whether none is."""
from itertools import product

from rows.keywords.common import JSON, OPTIONS, WHOLE, asked, requested
from rows.keywords.entries import KEYWORDS
from rows.keywords.texts import DRAFTS, FORMATS
from rows.keywords.values import MOST


def folding_by_windows():
    """The lengths that a format and the limits leave (docs/DECISIONS.md)."""
    for it in FORMATS:
        draft = it.last if it.last < 7 else 202012
        least, greatest = it.window
        ends = {least - 1, least, least + 1, greatest - 1, greatest, greatest + 1, 0}
        limits = sorted(end for end in ends if 0 <= end <= MOST)
        for end, keyword in product(limits, ("minLength", "maxLength")):
            yield asked(draft, {"format": it.name, keyword: end}, validate_formats=True)
    for wanted in (True, False):
        schema = {"format": "date", "minLength": 11}
        yield asked(202012, schema, ["x"], validate_formats=wanted)
        yield asked(202012, schema, ["x"], validate_formats=wanted, formats=[["date", "all"]])
        yield asked(202012, schema, ["x"], validate_formats=wanted, left_out=["minLength"])
        yield asked(202012, schema, ["x"], validate_formats=wanted, left_out=["format"])


def folding_by_lengths_alone():
    """A pattern, an encoding, a media type and a caller's own format bound no length, whatever they match."""
    others = ({"pattern": "^ab$"}, {"pattern": "^abc"}, {"pattern": "^(a|b)$"}, {"pattern": r"^\S*$"},
              {"pattern": "a{9}"}, {"contentEncoding": "base16"}, {"contentMediaType": JSON}, {"format": "custom"},
              {"contentMediaType": JSON, "contentEncoding": "base64"})
    lists = {"formats": [["custom", "none"]], "patterns": [["a{9}", "x", "match"]]}
    for draft, other, least, greatest in product((7, 202012), others, (0, 1, 9), (0, 1, 9)):
        yield asked(draft, {**other, "minLength": least, "maxLength": greatest}, **lists)
    for draft, other, keyword, end in product((7, 202012), others, ("minLength", "maxLength"), (0, 1, 3, MOST)):
        yield asked(draft, {**other, keyword: end}, **lists)


def folding_beside_others():
    """The lengths of a format count whatever stands beside it, and those of limits whatever is said of formats."""
    beside = ({"contentMediaType": JSON}, {"contentEncoding": "base64"}, {"contentMediaType": "x", "contentSchema": {}},
              {"pattern": "^a"}, {"x": -1})
    for it, other in product(FORMATS, beside):
        least, greatest = it.window
        ends = [("maxLength", least - 1), ("maxLength", least)] if least else []
        ends += [("minLength", greatest), ("minLength", greatest + 1)] if greatest < MOST else []
        drafts = [draft for draft in (4, 7, 202012) if it.is_in(draft)]
        for keyword, end in ends:
            yield asked(drafts[-1], {**other, "format": it.name, keyword: end}, validate_formats=True)
            yield asked(drafts[0], {keyword: end, "format": it.name, **other}, validate_formats=True,
                        left_out=[name for name in other if name in KEYWORDS])
    for draft, options in product(DRAFTS, OPTIONS):
        for schema in ({"format": "date", "minLength": 11}, {"format": "date", "maxLength": 9}, {"minLength": 1},
                       {"format": "custom", "minLength": 3, "maxLength": 2}, {"minLength": 3, "maxLength": 2}):
            if not (options.get("formats_by_dialect") and "custom" in schema.values()):
                yield asked(draft, schema, **options)


RANGES = ((0, 0), (0, 1), (1, 1), (1, 2), (2, 1), (2, 4), (3, 3), (5, 3), (1, 0), (4, 1), (32, 32), (65, 63))


def folds_told():
    """Whether no length is left, where a request asks for it, before the answer; and nothing where it does not."""
    for least, greatest in (*RANGES, (0, MOST), (MOST, MOST), (MOST, MOST - 1), (MOST - 1, MOST), (1, MOST)):
        for draft, fold in product((4, 202012), (True, False)):
            yield requested(draft, {"minLength": least, "maxLength": greatest}, "ab", fold=fold)
    for draft, limit, fold in product(DRAFTS, (0, 1, MOST), (True, False)):
        yield requested(draft, {"minLength": limit}, "ab", fold=fold)
        yield requested(draft, {"maxLength": limit}, 5, fold=fold)
    for draft in DRAFTS:
        for schema in ({}, WHOLE, {"maxLength": -1}, {"pattern": "^$"}, {"format": "uuid", "maxLength": 35},
                       {"format": "uuid", "minLength": 36, "maxLength": 36}):
            yield requested(draft, schema, "x", fold=True)
            yield requested(draft, schema, "x", fold=True, validate_formats=True)
    for it in FORMATS:
        draft = it.last if it.last < 7 else 202012
        least, greatest = it.window
        for end, keyword in product(sorted({0, max(least - 1, 0), least, greatest, min(greatest + 1, MOST)}),
                                    ("minLength", "maxLength")):
            yield requested(draft, {"format": it.name, keyword: end}, 5, fold=True, validate_formats=True)
