"""Names that look alike, or that are one to who decodes, folds or strips them."""
import base64
from itertools import product

from rows.keywords.common import JSON, ONE_REQUEST, RIGHT_MEMBERS, asked, lined, named, requested
from rows.keywords.entries import KEYWORDS
from rows.keywords.meaning import MEMBERS
from rows.keywords.texts import ENCODERS, FORMAT_NAMES
from rows.keywords.values import parsed


def looking_alike(name):
    """Names that look like the name, or are it to who passes over what is not seen."""
    full = chr(ord(name[0]) + 0xFEE0)
    behind = ("\0", "\u200b", "\u00ad", "\ufeff", "\u0301", "\n", "\t", "\u2028", ".", ":", "=", "?", "[]", "()", "#",
              "/", "~", "/0", " " + name, "," + name)
    before = ("\ufeff", "\u200b", "$", "@", "_", "x-", "/", "#/", "schema/", "schema.")
    inside = (full + name[1:], name.replace("e", "\u0435", 1), name.replace("a", "\u0430", 1),
              name[:2] + "\u200c" + name[2:], f'"{name}"')
    return [name + it for it in behind] + [it + name for it in before] + list(inside)


def names_looking_alike():
    """A name with a sign more, seen or not, is another name: of a keyword, of a member and of a format."""
    for keyword in KEYWORDS:
        for name in looking_alike(keyword):
            if name == keyword:
                continue
            if keyword == "contentSchema":
                yield requested(202012, {"contentMediaType": "x", name: parsed("1.5")}, "ab")
                continue
            beside = {"minLength": 3} if keyword == "maxLength" else {"maxLength": 1}
            yield requested(7, {**beside, name: -1}, "ab")
            yield asked(7, {name: -1, "minLength": 3}, ["ab"])
    for member in MEMBERS:
        for name in looking_alike(member):
            if name != member:
                yield lined({**ONE_REQUEST, name: RIGHT_MEMBERS[member]})
    for name in ("date", "uri"):
        for other in looking_alike(name):
            if other != name:
                yield named(other)
                yield requested(7, {"format": other}, "x", ignore_unknown_formats=False)
    for name in (*ENCODERS, JSON):
        for other in looking_alike(name):
            if other != name:
                yield asked(7, {"contentMediaType" if name == JSON else "contentEncoding": other}, ["{:}"])


# Letters that are those of ASCII to who folds letters or takes compatible ones for the same (Unicode, chapter 5).
COMPATIBLE = {
    "s": "\u017f", "i": "\u0131", "k": "\u212a", "d": "\u2146", "e": "\u212f", "a": "\u00aa", "o": "\u00ba",
    "1": "\u00b9", "2": "\u00b2", "3": "\u00b3", "6": "\u2076", "4": "\u2074", "-": "\u2010", "/": "\u2215",
    "_": "\uff3f", "t": "\u1d57", "u": "\u1d58", "m": "\u217f", "c": "\u217d", "b": "\u1d47", "h": "\u2095"}
# What stands around a name that is quoted, in a list, a tag or a path elsewhere.
AROUND = (
    ("\"", "\""), ("'", "'"), ("`", "`"), ("(", ")"), ("[", "]"), ("{", "}"), ("<", ">"), ("\u201c", "\u201d"),
    ("\u2066", "\u2069"), ("\u202e", "\u202c"), ("{{", "}}"), ("${", "}"), ("%", "%"), ("/", "/"), ("./", ""),
    ("#/", ""), ("urn:", ""), ("http://json-schema.org/", ""), ("https://json-schema.org/draft/2020-12/", "#"),
    ("", ";"), ("", ";x"), ("", "; a=b"), ("", ";charset=utf-8"), ("", ",x"), ("x,", ""), ("", " x"), ("x ", ""),
    ("", "|x"), ("", "\ufe0f"), ("", "\u200d"), ("", "\u034f"), ("", "\u20dd"), ("", "\x7f"), ("", "\x1f"),
    ("\x1e", ""), ("", "\x85"), ("", "\u2029"), ("\u200e", ""), ("", "\U000e0001"), ("", "\uffff"), ("\\", ""),
    ("", "\\"), ("=?utf-8?q?", "?="), ("", "%00"), ("", "%20"), ("", "\\0"), ("&", ";"), ("", "()"), ("@", ""),
    ("--", ""), ("", "=1"), ("", "?x"), ("", "s"), ("", "\u0301"), ("", "#"), ("!", ""), ("not ", ""), ("", "+x"),
    ("", "@1"), ("", "\r\n"), ("\v", ""))


def coded(name):
    """Names that are the name to who decodes, folds or strips it."""
    ends = sorted({0, len(name) // 2, len(name) - 1})
    escapes = ("%{:02x}", "%{:02X}", "%u{:04x}", "={:02X}", "&#{};", "&#x{:x};", "\\x{:02x}", "\\u{:04x}",
               "\\u{{{:x}}}", "\\{:03o}", "U+{:04X}", "\\N{{{:x}}}")
    found = [name[:at] + form.format(ord(name[at])) + name[at + 1:] for form in escapes for at in ends]
    found += ["".join(form.format(ord(letter)) for letter in name) for form in escapes]
    found += [name.replace(sign, other) for sign in "/-_" for other in (
        *(form.format(ord(sign)) for form in escapes), "\\" + sign, "~1", "&sol;", " ", sign * 2, ".", ":", "")]
    found += [name[:at] + sign + name[at:] for at in (1, len(name) // 2) for sign in (
        "\\", "\xad", "\u200b", "\u200c", "\u2060", "\ufeff", "\u034f", "\u180e", "\0", "\u0301\u0301",
        "\U000e0100")]
    found += [name.replace(letter, other) for letter, other in COMPATIBLE.items() if letter in name]
    found += [name.translate(COMPATIBLE_LETTERS[start]) for start in COMPATIBLE_LETTERS]
    found += [front + name + tail for front, tail in AROUND]
    found += [base64.b64encode(name.encode()).decode(), name.encode().hex(), name[::-1], name + name, f"{name} {name}"]
    return [other for other in dict.fromkeys(found) if other != name]


# Fullwidth letters, and mathematical ones of two kinds, by the one for `a`.
COMPATIBLE_LETTERS = {
    start: {letter: start + letter - ord("a") for letter in range(ord("a"), ord("z") + 1)}
    for start in (0xFF41, 0x1D41A, 0x1D5BA, 0x24D0)}


def names_in_other_codings():
    """A name is compared character by character: it is not decoded, folded, unquoted or cut."""
    for place, name in enumerate(FORMAT_NAMES):
        for other in coded(name)[place % 4::4]:
            yield named(other)
    for other in coded("date"):
        yield requested(7, {"format": other}, "x", ignore_unknown_formats=False)
    for place, name in enumerate(ENCODERS):
        for other in coded(name)[0 if name == "base64" else place % 3::1 if name == "base64" else 3]:
            yield asked(7, {"contentEncoding": other}, ["!"])
        for other in coded(name)[place::7]:
            yield asked(6, {"contentMediaType": JSON, "contentEncoding": other}, ["{:}"])
    for other in coded(JSON):
        yield asked(7, {"contentMediaType": other}, ["{:}"])
    for draft, keyword in product((7, 202012), KEYWORDS):
        bad, beside = (-1, {"maxLength": 1}) if keyword != "maxLength" else (-1, {"minLength": 3})
        if keyword == "contentSchema":
            bad, beside = parsed("1.5"), {"contentMediaType": "x", "maxLength": 1}
        others = {other: bad for other in coded(keyword)}
        yield asked(draft, {**others, **beside}, ["ab"])
        yield requested(draft, {**others, **beside}, "ab")
    for place, member in enumerate(MEMBERS):
        for other in coded(member)[place % 3::3]:
            yield lined({**ONE_REQUEST, other: RIGHT_MEMBERS[member]})
    for name in ("word", "date", "base64", JSON):
        rows = [[other, "none"] for other in coded(name)]
        codecs = [[other, "plain"] for other in coded(name)]
        yield asked(7, {"format": name}, ["x"], formats=rows)
        yield asked(7, {"contentMediaType": name}, ["{:}"], media_types=rows)
        yield asked(7, {"contentEncoding": name}, ["!"], codecs=codecs)
        yield asked(6, {"contentMediaType": name, "contentEncoding": name}, ["!"], media_types=rows, codecs=codecs)
        for other in coded(name)[::1 if name == "word" else 5]:
            yield asked(7, {"format": other, "contentMediaType": other, "contentEncoding": other}, ["x"],
                        formats=[[name, "none"]], media_types=[[name, "none"]], codecs=[[name, "plain"]])
