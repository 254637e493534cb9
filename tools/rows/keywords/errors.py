"""Errors of several keywords together, and the texts in them."""
from itertools import product

from rows.keywords.common import JSON, MIXED, asked, requested
from rows.keywords.texts import DRAFTS
from rows.keywords.values import compact, parsed

# Texts that fail at each of these: base16 of what is no JSON text, base16 of what is no UTF-8, and no encoding.
FAILING = ("7B", "ab", "!")
CONTENT_THAT_FAILS = ({"contentMediaType": JSON}, {"contentEncoding": "base32"},
                      {"contentMediaType": JSON, "contentEncoding": "base16", "contentSchema": True})
FORMATS_THAT_FAIL = ({"format": "date"}, {"format": "custom"})
LIMITS_THAT_FAIL = ({"minLength": 3}, {"maxLength": 0}, {"minLength": 3, "maxLength": 0})
PATTERNS_THAT_FAIL = ({"pattern": "^z"}, {"pattern": "z+"}, {"pattern": "z*"})
THAT_FAIL = (CONTENT_THAT_FAILS, FORMATS_THAT_FAIL, LIMITS_THAT_FAIL, PATTERNS_THAT_FAIL)
LISTS_THAT_FAIL = {"validate_formats": True, "formats": [["custom", "none"]],
                   "patterns": [["z+", "ab", "backtracking"], ["z+", "7B", "failed"],
                                ["z*", "ab", "failed"], ["z*", "7B", "backtracking"]]}


def errors_together():
    """Each keyword tells its errors whichever others do, and they stand in the order of the keywords."""
    for parts in product(*(({}, *some) for some in THAT_FAIL)):
        schema = {keyword: it for part in reversed(parts) for keyword, it in part.items()}
        for draft in {2: (7,), 4: (6, 7, 202012)}.get(sum(map(bool, parts)), ()):
            yield asked(draft, schema, FAILING, **LISTS_THAT_FAIL)
    for pattern, other in product(("^z$", "^(y|z)$", r"^\S*$"), (*CONTENT_THAT_FAILS, {"format": "custom"},
                                                                 *LIMITS_THAT_FAIL)):
        for schema in ({**other, "pattern": pattern}, {"pattern": pattern, **other}):
            yield asked(7, schema, ["\t "], **LISTS_THAT_FAIL)
            if "format" not in other:
                yield requested(7, schema, "\t ")
    for draft, content, limits, text in product((6, 7, 202012), CONTENT_THAT_FAILS, LIMITS_THAT_FAIL, FAILING):
        yield requested(draft, {"pattern": "^z", **limits, "format": "date", **content}, text, validate_formats=True)


def texts_in_errors():
    """Instances and names as the texts of errors show them."""
    signs = ["\"", "\\", "/", "\b\f\n\r\t", "\0\x01\x1f", "\x7f\x80", "\u2028", "\U0001f4a9", "'", "{x}", "a\"b\\c\nd",
             "\n\x7f" + MIXED]
    for draft in DRAFTS:
        yield asked(draft, {"maxLength": 0}, signs)
    yield asked(7, {"pattern": "^z"}, signs)
    yield asked(7, {"contentEncoding": "base64"}, signs, codecs=[["base64", "bytes"]])
    for name in ("a\"b", "\\", "\n", "'", "{x}", "\u00e9"):
        for text in ("x", "a\"b"):
            yield asked(7, {"format": name}, [text], formats=[[name, "none"]])
            yield asked(7, {"contentMediaType": name}, [text], media_types=[[name, "none"]])
            yield asked(7, {"contentEncoding": name}, [text], codecs=[[name, "bytes"]])
            yield asked(7, {"contentEncoding": name, "contentMediaType": name}, [text], codecs=[[name, "odd"]],
                        media_types=[[name, "none"]])
            yield asked(7, {"contentEncoding": name, "contentMediaType": name}, [text], codecs=[[name, "bytes"]],
                        media_types=[[name, "none"]])
        yield asked(7, {"format": name}, ignore_unknown_formats=False)
        yield asked(7, {"format": name}, formats_by_dialect=True)
        yield asked(7, {"pattern": name})
        yield asked(7, {"pattern": parsed(compact([name]))})
        yield asked(7, {"pattern": name}, ["x", "y"], patterns=[[name, "x", "backtracking"], [name, "y", "failed"]])
        every = ("format", "contentEncoding", "contentMediaType", "contentSchema")
        yield asked(202012, {keyword: name for keyword in every}, ["x"])


def controls():
    """Each character of ASCII alone, and behind a line feed, in the texts of errors and refusals."""
    signs = [chr(it) for it in range(128)]
    for sign in signs:
        for text in (sign, "\n" + sign):
            yield requested(7, {"maxLength": 0}, text)
            yield requested(7, {"format": text}, "x", ignore_unknown_formats=False)
        yield requested(7, {"pattern": sign + "+"}, "x")
        yield requested(7, {"pattern": ["\n" + sign]}, "x")
        yield requested(202012, {"contentEncoding": "\n" + sign, "format": sign}, "x")
    for size in (31, 32, 63, 64, 127, 128, 255, 256, 600):
        text = "n" * size + "\n\0\"\\\x7f\u00e9"
        yield requested(7, {"maxLength": 0}, text)
        yield requested(7, {"format": text}, "x", ignore_unknown_formats=False)
        yield requested(7, {"pattern": text + "+"}, "x")
        yield requested(202012, {"contentMediaType": text, "format": text}, "x")
        yield asked(7, {"maxLength": 0, "pattern": text + "+"}, [text], patterns=[[text + "+", text, "failed"]])
    for least in range(0, 128, 32):
        some = signs[least:least + 32]
        yield asked(7, {"maxLength": 0}, [*some, *("\n" + it for it in some)])
        yield asked(7, {"pattern": "\n" + "".join(some) + "+"})
