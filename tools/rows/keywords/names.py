"""Names of keywords, formats and content that are near, those of other standards, and rows by names."""
from itertools import combinations, product

from rows.keywords.common import CHECKED, JSON, RIGHT, asked, named, requested
from rows.keywords.entries import KEYWORDS
from rows.keywords.meaning import MEMBERS
from rows.keywords.other_names import (OTHER_CODECS, OTHER_FORMATS, OTHER_MEDIA_TYPES, UNKNOWN_CODECS, UNKNOWN_FORMATS,
                                       UNKNOWN_MEDIA_TYPES, near)
from rows.keywords.texts import DRAFTS, ENCODERS, FORMATS, FORMAT_NAMES, format_in
from rows.keywords.values import parsed


def other_names():
    """A name that is one letter off is no keyword, and adds nothing."""
    for draft, keyword in product(DRAFTS, KEYWORDS):
        yield asked(draft, {name: -1 for name in near(keyword)}, ["!"])
        if draft == 7:
            for name in near(keyword):
                yield asked(draft, {name: -1, "maxLength": 1}, ["ab"])


def other_format_names():
    """No draft has a format by a name that is one letter off, or that another standard gives."""
    for name in FORMAT_NAMES:
        yield named(name, [it.accepted[0] for it in FORMATS if it.name == name][:1])
        for other in near(name):
            assert other not in FORMAT_NAMES
            yield named(other)
    for name in UNKNOWN_FORMATS:
        yield named(name)
    for name in FORMAT_NAMES:
        yield asked(202012, {"format": near(name)[0]}, ["!"], validate_formats=True)
        yield asked(7, {"format": near(name)[-1]}, ignore_unknown_formats=False)


# Names that differ in what a careless comparison passes over.
NAMES = ("", " ", "a", " a", "a ", "A", "a\0", "\u00e9", "e\u0301")
# Media types that differ in parameters (RFC 2045, section 5.1), in a suffix (RFC 6839), or by a range (RFC 9110,
# section 12.5.1): none of them is another's.
MEDIA_NAMES = ("text/x", "text/x;", "text/x;a=b", "text/x; a=b", "text/x ;a=b", "TEXT/X", "text/*", "*/*", "text",
               "text/y+x", "text/y", "x")
# Encodings that differ in what mail (RFC 2045, section 6.1) or HTTP (RFC 9110, section 8.4.1) would pass over.
ENCODING_NAMES = ("a", "x-a", "A", "a;b", "a, b", "b", "a-b", "ab", "identity")
# Names that differ in a sign before or behind, seen or not, or in a letter of another script.
NAMES_ALIKE = ("a", "/a", "a/", "\ufeffa", "a\ufeff", "\u200ba", "a\u200b", "a\u00ad", "a.", ".a", "a,", "\"a\"", "#a",
               "a#", "a?", "a=", "a:", "a\n", "\ta", "a\u00a0", "\u0430", "\uff41", "aa", "$a", "*")


def registered_names():
    """The name of a row is compared as it stands, character by character, and the empty one counts as others do."""
    for names in (NAMES, MEDIA_NAMES, ENCODING_NAMES, NAMES_ALIKE):
        yield from names_among(names)


def names_among(names):
    """Each name, with a row of it and without one, among rows of the others."""
    for name, is_there in product(names, (True, False)):
        rows = [[it, "none"] for it in names if is_there or it != name]
        codecs = [[it, "bytes"] for it, _ in rows]
        for draft in (7, 202012):
            yield asked(draft, {"format": name}, ["ab"], formats=rows, **CHECKED)
        yield asked(7, {"contentMediaType": name}, ["ab"], media_types=rows)
        yield asked(7, {"contentEncoding": name}, ["ab"], codecs=codecs)
        yield asked(7, {"contentMediaType": name, "contentEncoding": name}, ["ab"], media_types=rows, codecs=codecs)


def other_names_of_content():
    """Names of codecs and media types that are one letter off, or of other standards, add nothing."""
    for draft, codec in product((6, 7, 202012), UNKNOWN_CODECS):
        yield asked(draft, {"contentEncoding": codec}, ["!", "\u00e9=\n"])
        yield asked(draft, {"contentMediaType": JSON, "contentEncoding": codec}, ["{}", "{:}", "\u00e9"])
    for draft, name in product((6, 7, 202012), UNKNOWN_MEDIA_TYPES):
        yield asked(draft, {"contentMediaType": name}, ["{:}"])
        yield asked(draft, {"contentMediaType": name, "contentEncoding": 5})
        yield asked(draft, {"contentMediaType": name, "contentEncoding": "base64"}, ["!", "ezp9"])


# Names that other programs and standards have for the keywords.
ALSO_NAMED = {
    "contentMediaType": ("content_media_type", "content-media-type", "contentType", "mediaType", "media", "mimeType"),
    "contentEncoding": ("content_encoding", "content-encoding", "encoding", "binaryEncoding", "transferEncoding"),
    "contentSchema": ("content_schema", "content-schema", "contentModel", "schema"),
    "format": ("formats", "$format", "x-format", "formatName", "stringFormat"),
    "minLength": ("min_length", "min-length", "minLen", "minlen", "min", "minSize", "minItems", "minCharacters",
                  "length"),
    "maxLength": ("max_length", "max-length", "maxLen", "maxlen", "max", "maxSize", "maxItems", "maxCharacters",
                  "size"),
    "pattern": ("regex", "regexp", "match", "matches", "patternProperties", "x-pattern", "pattern_")}


def other_names_in_requests():
    """A name that is one letter off, or another program's, is no keyword in the schema object of a request."""
    for keyword in KEYWORDS:
        for name in dict.fromkeys((*near(keyword), *ALSO_NAMED[keyword])):
            if keyword == "contentSchema":
                yield requested(202012, {"contentMediaType": "x", name: parsed("1.5")}, "ab")
                yield asked(202012, {"contentMediaType": "x", name: parsed("1.5")}, ["ab"])
                continue
            beside = "minLength" if keyword == "maxLength" else "maxLength"
            yield requested(7, {beside: 3, name: -1}, "ab")
            yield requested(7, {name: -1, beside: 1}, "abc")
            yield requested(202012, {keyword: RIGHT[keyword], name: -1}, "ab", validate_formats=True)
            if name in ALSO_NAMED[keyword]:
                yield asked(7, {name: -1, beside: 3}, ["ab"])


def other_standards_names():
    """No draft has a format by a name that OpenAPI, another validator or an RFC's rule has."""
    for name in OTHER_FORMATS:
        assert format_in(202012, name) is None and format_in(4, name) is None
        yield named(name)
        yield asked(202012, {"format": name}, ["!"], validate_formats=True)
        yield requested(7, {"format": name}, "!")
        yield requested(7, {"format": name}, "!", ignore_unknown_formats=False)
    for name in dict.fromkeys((*OTHER_CODECS, *(it for codec in ENCODERS for it in near(codec)))):
        if name not in ENCODERS and name not in UNKNOWN_CODECS:
            yield asked(7, {"contentEncoding": name}, ["!", "\u00e9=\n"])
            yield asked(7, {"contentMediaType": JSON, "contentEncoding": name}, ["{}", "{:}"])
            yield requested(7, {"contentEncoding": name}, "!")
    for name in dict.fromkeys((*OTHER_MEDIA_TYPES, *near(JSON))):
        if name not in UNKNOWN_MEDIA_TYPES:
            yield asked(7, {"contentMediaType": name}, ["{:}", "\u00e9"])
            yield asked(7, {"contentMediaType": name, "contentEncoding": "base64"}, ["!", "ezp9"])
            yield requested(7, {"contentMediaType": name}, "{:}")


def names_of_other_keywords():
    """A name counts at its own keyword alone: a row in its own list, and what is built in at its own keyword."""
    keywords = {"formats": "format", "media_types": "contentMediaType", "codecs": "contentEncoding"}
    scripts = {"formats": "none", "media_types": "none", "codecs": "bytes"}
    for draft, there, size in product((6, 7, 202012), combinations([*keywords, None], 2), (1, 2)):
        lists = {it: [["x", "all" if it != "codecs" else "plain"]] * (size - 1) + [["n", scripts[it]]]
                 for it in there if it is not None}
        for some in ({"format": "n"}, {"contentMediaType": "n"}, {"contentEncoding": "n"}, {"pattern": "n"},
                     {"contentMediaType": "n", "contentEncoding": "n"}, {"format": "n", "contentMediaType": "n"},
                     {"contentMediaType": JSON, "contentEncoding": "n"},
                     {"contentMediaType": "n", "contentEncoding": "base16"}):
            if "pattern" not in some or draft == 7:
                yield asked(draft, some, ["ab"], validate_formats=True, **lists)
    for name in (*ENCODERS, *FORMAT_NAMES, *KEYWORDS, *MEMBERS, JSON):
        for keyword in keywords.values():
            known = ENCODERS if keyword == "contentEncoding" else FORMAT_NAMES if keyword == "format" else (JSON,)
            if name not in known:
                yield asked(7, {keyword: name}, ["!"], ignore_unknown_formats=False)
                yield requested(6, {keyword: name}, "!")
