"""The caller's lists of formats, media types and codecs: in use or not, and in part."""
from itertools import combinations, product

from rows.keywords.common import JSON, RIGHT, asked
from rows.keywords.entries import KEYWORDS
from rows.keywords.texts import DRAFTS, ENCODERS


def lists_in_use():
    """Lists are in use exactly where each row that was chosen is the first of its name, where it was."""
    rows = {"formats": [["a", "even"], ["f", "even"], ["f", "all"]],
            "media_types": [["a", "even"], ["m", "all"], ["m", "even"]],
            "codecs": [["a", "odd"], ["c", "plain"], ["c", "odd"]]}
    lent = [[0, 3, 0, 3, 0, 3], [0, 2, 0, 2, 0, 2], [0, 0, 0, 3, 0, 3], [0, 3, 0, 0, 0, 3], [0, 3, 0, 3, 0, 0],
            [1, 3, 0, 3, 0, 3], [0, 3, 1, 3, 0, 3], [0, 3, 0, 3, 1, 3], [0, 1, 0, 1, 0, 1], [0, 0, 0, 0, 0, 0]]
    schemas = ({"format": "f"}, {"contentMediaType": "m"}, {"contentEncoding": "c"}, {"format": "a"},
               {"format": "date"},
               {"contentMediaType": "m", "contentEncoding": "c"}, {"contentMediaType": JSON, "contentEncoding": "c"},
               {"contentMediaType": "m", "contentEncoding": "base64", "format": "f"}, {"minLength": 1})
    beside = ({"format": "f", "minLength": 1, "maxLength": 0, "pattern": "^x"}, {"pattern": "z+", "format": "f"},
              {"contentMediaType": "m", "contentEncoding": "c", "contentSchema": True, "format": "f", "maxLength": 0})
    for draft, schema in product(DRAFTS, (*schemas, *beside)):
        more = {"patterns": [["z+", "x", "failed"]]} if schema.get("pattern") == "z+" else {}
        yield asked(draft, schema, ["x"], lent=lent, validate_formats=True, **more, **rows)
        if len(schema) == 1 and draft == 7:
            yield asked(draft, schema, keyword=next(iter(schema)), lent=lent, **rows)
    rows = {"formats": [["date", "none"]], "media_types": [[JSON, "none"]], "codecs": [["base64", "odd"]]}
    for draft, keyword in product((6, 7, 202012), ("format", "contentMediaType", "contentEncoding")):
        for chosen in ([0, 0, 0, 0, 0, 0], [0, 1, 0, 0, 0, 1], [0, 0, 0, 1, 0, 0], [0, 1, 0, 1, 0, 1]):
            lent = [[0, 0, 0, 0, 0, 0], [0, 1, 0, 1, 0, 1], chosen]
            yield asked(draft, {keyword: RIGHT[keyword]}, lent=lent, validate_formats=True, **{"with": chosen}, **rows)
            if keyword != "format":
                yield asked(draft, {"contentMediaType": JSON, "contentEncoding": "base64"}, lent=lent,
                            **{"with": chosen}, **rows)


def lists_in_use_by_options():
    """What is left out, not checked, off or not taken keeps no row; what keeps one asks for it under any options."""
    scripts = {"formats": ("none", "all"), "media_types": ("none", "all"), "codecs": ("odd", "plain")}
    lent = [[0, 2, 0, 2, 0, 2], [1, 2, 0, 2, 0, 2], [0, 2, 1, 2, 0, 2], [0, 2, 0, 2, 1, 2], [1, 2, 1, 2, 1, 2],
            [0, 1, 0, 2, 0, 2], [0, 2, 0, 1, 0, 2], [0, 2, 0, 2, 0, 1], [0, 0, 0, 0, 0, 0]]
    options = ({}, {"validate_formats": False}, {"validate_formats": True}, {"formats_by_dialect": True},
               {"ignore_unknown_formats": False}, {"json_media_type": False}, {"without_codecs": list(ENCODERS)},
               *({"left_out": [it]} for it in KEYWORDS), {"left_out": ["contentMediaType", "contentEncoding"]})
    for names in (("f", "m", "c"), ("date", JSON, "base64")):
        rows = {kind: [[name, it] for it in scripts[kind]] for kind, name in zip(scripts, names)}
        schema = dict(zip(("format", "contentMediaType", "contentEncoding"), names))
        schemas = (schema, {**schema, "contentSchema": True, "minLength": 1, "maxLength": 0, "pattern": "^x"},
                   *({keyword: it} for keyword, it in schema.items()))
        for draft, schema, more in product((4, 6, 7, 201909, 202012), schemas, options):
            yield asked(draft, schema, ["x"], lent=lent, **more, **rows)
            if draft == 7 and len(schema) > 1:
                none = {"with": [0, 0, 0, 0, 0, 0]}
                yield asked(draft, schema, lent=lent, **none, **more, **rows)


def parts_of_lists():
    """A row counts from its place in the part of the list that is handed in, at compile and where a text is asked."""
    scripts = ("none", "all", "even", "none")
    rows = {"formats": [["n", it] for it in scripts], "media_types": [["n", it] for it in scripts],
            "codecs": [["n", it] for it in ("odd", "bytes", "plain", "odd")]}
    schemas = ({"format": "n"}, {"contentMediaType": "n"}, {"contentEncoding": "n"}, {"format": "n", "minLength": 3},
               {"contentMediaType": "n", "contentEncoding": "n"}, {"format": "date", "contentMediaType": JSON})
    for draft, schema, (begin, end) in product((7, 202012), schemas, combinations(range(5), 2)):
        some = [begin, end, begin, end, begin, end]
        yield asked(draft, schema, ["ab", "7"], validate_formats=True, **{"with": some}, **rows)
