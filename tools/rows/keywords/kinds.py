"""Texts of each kind, and texts that spell something elsewhere: each counts as it stands."""
from rows.keywords.common import asked, requested
from rows.keywords.entries import CHECKS, literal_pattern
from rows.keywords.texts import FORMAT_NAMES

# What a reader may pass over, turn into something else or take for an end: no text, white space at each end and inside,
# controls, signs that are escaped, digits, capitals, characters of each width, and texts that are long.
KINDS_OF_TEXTS = ("", "a", " ", "a ", " a", "a b", "a\n", "\na", "a\r\n", "\t", "\0", "a\0b", "\x7f", "7", "07", "A",
                  "\"", "a\"", "\\", "a\\n", "\u00e9", "e\u0301", "\u20ac", "\U0001f4a9", "a\u00a0", "\ufeffa",
                  "a" * 33, "\u00e9" * 33, "a" * 65, "a" * 256 + "\U0001f4a9")
# Literals of each kind, as a pattern writes them.
KINDS_OF_LITERALS = {"a": "a", " ": " ", "a ": "a ", " a": " a", "a b": "a b", "7": "7", "07": "07", "A": "A",
                     "\"": "\"", "a\"": "a\"", "\\\\": "\\", r"a\\n": "a\\n", "a" * 33: "a" * 33, "a" * 65: "a" * 65,
                     "a" * 257: "a" * 257}


def texts_of_each_kind():
    """Lengths, patterns, checks and content look at the whole text as it stands, of whatever kind it is."""
    texts = list(KINDS_OF_TEXTS)
    for limit in sorted({len(it) + more for it in texts for more in (0, 1)}):
        for schema in ({"minLength": limit}, {"maxLength": limit}, {"minLength": limit, "maxLength": limit}):
            yield asked(7, schema, texts if limit < 4 else [it for it in texts if len(it) > 3])
    for script in CHECKS:
        yield asked(7, {"format": "n"}, texts, formats=[["n", script]])
        yield asked(7, {"contentMediaType": "n"}, texts, media_types=[["n", script]])
        yield asked(7, {"contentMediaType": "n", "contentEncoding": "c"}, texts, media_types=[["n", script]],
                    codecs=[["c", "plain"]])
    yield asked(7, {"contentEncoding": "c"}, texts, codecs=[["c", "bytes"]])
    yield asked(7, {"contentEncoding": "c"}, texts, codecs=[["c", "plain"]])
    for outcome in ("match", "backtracking", "failed"):
        for some in (texts[::2], texts[1::2]):
            yield asked(7, {"pattern": "z+"}, texts, patterns=[["z+", it, outcome] for it in some])
    yield asked(7, {"pattern": r"^\S*$"}, [*texts, *(it + " " for it in texts)])
    every = "|".join(KINDS_OF_LITERALS)
    for front, end in (("^", ""), ("^", "$"), ("^(y|", ")$")):
        yield asked(7, {"pattern": front + "a" + end}, list(dict.fromkeys([*texts, *("a" + it for it in texts)])))
        for pattern, text in KINDS_OF_LITERALS.items():
            others = (text, text + "\n", text + " ", " " + text, text * 2, text[:-1], text.swapcase(), text + "\u00e9")
            yield asked(7, {"pattern": front + pattern + end}, list(dict.fromkeys(others)))
    for text in KINDS_OF_LITERALS.values():
        yield asked(7, {"pattern": f"^({every})$"}, [text, text + "\n", text + " ", "\n" + text])
    for text in texts:
        size = len(text)
        for schema in ({"minLength": size}, {"minLength": size + 1}, {"maxLength": size}, {"pattern": r"^\S*$"},
                       {"pattern": f"^({every})$"}):
            yield requested(7, schema, text)


def ends_that_checks_see():
    """A caller's check is asked of the whole text, with what stands first and last in it."""
    texts = [text for end in ("\n", " ", "\r\n", "\0", "\ufeff") for text in ("a" + end, "ab" + end, end + "ab", end)]
    yield asked(7, {"contentMediaType": "text/even"}, texts, media_types=[["text/even", "even"]])
    yield asked(7, {"format": "even"}, texts, formats=[["even", "even"]])


# Texts that other readers take for no text, decode or fold, each a text of as many characters as it has.
SPELT = ("null", "true", "false", "0", "-1", "1.5", "NaN", "undefined", "None", "nil", "[]", "{}", '["a"]', '{"a":1}',
         '"a"', "'a'", "%41", "%C3%A9", "%2F", "&amp;", "&#65;", "&lt;", r"\u0041", r"\x41", r"\n", "\\", "$a", "${a}",
         "{{a}}", "%s", "%d", "{0}", "=?utf-8?q?a?=", "a+b", "+", "~1", "~0", "A\u030a", "\u212b", "\u00df", "ss",
         "\u0130", "\ufb01", "\uff21", "\u1e9e", "\u1f88", "\u0149", "\u0390", "<b>", "<!--a-->", "a\\\nb", "`a`",
         "a,b", "a;b", "a|b", "^a", "a$", "YQ==", "data:,a", "\u0661", "1,000", "1_000", "1e3", "0x10", "007", "+1",
         " 1", "1 ", "-0", "Infinity")


def texts_spelt_otherwise():
    """A text is its characters, whatever they spell elsewhere."""
    for text in SPELT:
        size = len(text)
        for schema in ({"minLength": size, "maxLength": size}, {"minLength": size + 1}, {"maxLength": size - 1},
                       {"pattern": r"^\S*$"}, {"pattern": "^a"}, {"pattern": "^(null|true|0|a)$"}):
            yield asked(7, schema, [text])
            yield requested(7, schema, text)
        yield asked(7, {"format": "n", "contentMediaType": "m"}, [text], formats=[["n", "none"]],
                    media_types=[["m", "even"]])
        yield asked(202012, {"contentMediaType": text, "contentEncoding": text, "contentSchema": text}, [text])
        yield requested(202012, {"contentMediaType": text, "contentEncoding": text, "contentSchema": text}, text)
        if literal_pattern(text) is None:
            yield requested(7, {"pattern": text}, text)
        if text not in FORMAT_NAMES:
            yield requested(7, {"format": text}, text, ignore_unknown_formats=False)


# Characters that are apt to be escaped, replaced or left out: all from U+0080 to U+024F, marks, blanks, controls and
# format characters of all planes, noncharacters, private ones, and the ends of planes.
RANGES_SHOWN = (
    (0x80, 0x24F), (0x300, 0x36F), (0x483, 0x489), (0x591, 0x5C7), (0x600, 0x620), (0x64B, 0x670), (0x6DD, 0x6DD),
    (0x70F, 0x711), (0x8E2, 0x903), (0x93C, 0x94D), (0x9CD, 0x9CD), (0xE31, 0xE4E), (0xF0B, 0xF0C), (0x115F, 0x1161),
    (0x1680, 0x1680), (0x17B4, 0x17D3), (0x180B, 0x180F), (0x1AB0, 0x1ABE), (0x1DC0, 0x1DC8), (0x2000, 0x206F),
    (0x20D0, 0x20F0), (0x2800, 0x2800), (0x3000, 0x3004), (0x302A, 0x3030), (0x3099, 0x309C), (0x3164, 0x3164),
    (0xA66F, 0xA672), (0xD7FB, 0xD7FF), (0xE000, 0xE003), (0xF8FE, 0xF901), (0xFB1E, 0xFB1E), (0xFDD0, 0xFDEF),
    (0xFE00, 0xFE2F), (0xFEFF, 0xFF01), (0xFF9E, 0xFFA0), (0xFFE0, 0xFFFF), (0x10000, 0x10001), (0x101FD, 0x101FD),
    (0x10A01, 0x10A0F), (0x110BD, 0x110BD), (0x13430, 0x1343F), (0x1BCA0, 0x1BCA3), (0x1D165, 0x1D172),
    (0x1D173, 0x1D17A), (0x1F1E6, 0x1F1FF), (0x1F3FB, 0x1F3FF), (0x1FFFE, 0x1FFFF), (0xE0000, 0xE007F),
    (0xE0100, 0xE010F), (0xEFFFE, 0xF0001), (0xFFFFE, 0x100001), (0x10FFFD, 0x10FFFF))


def characters_shown():
    """Each of them stands as it is in errors, refusals and notes, and counts as one."""
    signs = [chr(it) for low, high in RANGES_SHOWN for it in range(low, high + 1)]
    for at in range(0, len(signs), 48):
        text = "".join(signs[at:at + 48])
        size = len(text)
        yield requested(7, {"maxLength": size - 1}, text)
        yield requested(7, {"format": text}, "x", ignore_unknown_formats=False)
        yield requested(7, {"pattern": text + "+"}, "x")
        yield requested(202012, {"contentMediaType": "x", "contentSchema": text, "format": text}, "x")
        yield asked(7, {"format": text, "maxLength": size - 1}, [text], formats=[[text, "none"]])
        yield asked(7, {"minLength": size, "maxLength": size}, [text])
