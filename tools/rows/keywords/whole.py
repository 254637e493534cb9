"""What stands around or in a text or a name and is part of it."""
from rows.keywords.common import JSON, asked, requested
from rows.keywords.entries import literal_pattern
from rows.keywords.likeness import AROUND, coded
from rows.keywords.places import pointed
from rows.keywords.texts import ENCODERS

# What stands around a text or a name for who strips it, cuts it there or takes it for something else.
STRIPPED = (
    *AROUND, ("", "\0"), ("", "\0b"), ("\0", ""), ("\ufeff", ""), ("", "\ufeff"), ("\u200f", ""), ("", "\u200e"),
    ("", "\u200f"), ("", "\u200b"), ("\u200b", ""), ("\xad", ""), ("", "\xad"), ("", "."), (".", ""), ("#", ""),
    ("", "#b"), ("", " #b"), ("", "//b"), ("//", ""), ("", " // b"), ("", "/*b*/"), ("", "<!--b-->"), ("", ";b"),
    ("", "\n"), ("\n", ""), ("", "\r"), ("", "\r\nb"), ("", "\nb"), (" ", ""), ("", " "), (" ", " "), ("\t", "\t"),
    ("\xa0", "\xa0"), ("", "\u3000"), ("\u2003", ""), ("", "\u2028b"), ("\x85", "\x85"), ("b:", ""), ("", ":"),
    ("~", ""), ("", "~0"), ("", "\x1a"), ("\x1b[1m", "\x1b[0m"), ("", "\x08"), ("b\x08", ""), ("", "\ufffd"),
    ("\ufffe", ""))
SIGNS_OF_PATTERNS = "^$\\.*+?()[]{}|/"


def as_pattern(text):
    """The literal pattern of a text, without what stands around it."""
    return "".join("\\" + sign if sign in SIGNS_OF_PATTERNS else sign for sign in text)


def whole_texts_and_names():
    """Whatever stands around a text or a name is part of it, where it is counted, compared, asked of or shown."""
    texts = list(dict.fromkeys(front + "a" + tail for front, tail in STRIPPED))
    yield from whole_texts(texts)
    yield from whole_content()
    for text in texts:
        yield from whole_pattern(text)
        yield from whole_name(text)


def whole_texts(texts):
    """Limits, checks, codecs, engines and literal patterns are asked of texts."""
    for size in sorted({len(text) for text in texts}):
        of_size = [text for text in texts if len(text) == size]
        for schema in ({"minLength": size, "maxLength": size}, {"minLength": size}, {"maxLength": size - 1},
                       {"minLength": size + 1}, {"maxLength": size}):
            yield asked(7, schema, of_size)
    yield asked(7, {"format": "n", "contentMediaType": "m"}, texts, formats=[["n", "even"]],
                media_types=[["m", "even"]])
    for codec in ("plain", "odd", "bytes"):
        yield asked(6, {"contentMediaType": "m", "contentEncoding": "c"}, texts, codecs=[["c", codec]],
                    media_types=[["m", "even"]])
    for kind in ("match", "backtracking", "failed"):
        yield asked(7, {"pattern": "a+"}, texts, patterns=[["a+", text, kind] for text in texts])
        yield asked(7, {"pattern": "a+"}, [*texts, "a"], patterns=[["a+", "a", kind]])
    for pattern in ("^a$", "^a", "^(a|b)$", r"^\S*$"):
        yield asked(7, {"pattern": pattern}, texts)


def whole_content():
    """What stands around an encoding and a JSON text, and around one that is encoded."""
    for codec, encoder in ENCODERS.items():
        encoded = encoder(b"[1]").decode()
        around = [front + encoded + tail for front, tail in STRIPPED]
        inside = [encoder(f"{front}[1]{tail}".encode()).decode() for front, tail in STRIPPED]
        yield asked(7, {"contentEncoding": codec}, around)
        yield asked(6, {"contentMediaType": JSON, "contentEncoding": codec}, around)
        yield asked(7, {"contentMediaType": JSON, "contentEncoding": codec}, inside)
    for value in ("[1]", '"a"', "0"):
        yield asked(7, {"contentMediaType": JSON}, [front + value + tail for front, tail in STRIPPED])


def whole_pattern(text):
    """A text as a literal pattern, and as another one."""
    written = as_pattern(text)
    for pattern in (f"^{written}$", f"^({written}|c)$", f"^{written}"):
        yield asked(7, {"pattern": pattern}, [text, "a", "c"])
    yield requested(7, {"pattern": f"^{written}$"}, "x")
    if literal_pattern(text) is None:
        yield asked(7, {"pattern": text}, ["x"], patterns=[[text, "a", "match"]])
        yield asked(7, {"pattern": text}, ["x"], patterns=[[text, "x", "failed"]])
        yield requested(7, {"pattern": text}, "x")


def whole_name(text):
    """A text as a name of formats and content, in what is shown and noted, and in places."""
    yield asked(7, {"format": text}, ["x"], formats=[["a", "all"], [text, "none"]])
    yield asked(7, {"contentMediaType": text}, ["x"], media_types=[["a", "all"], [text, "none"]])
    yield asked(6, {"contentMediaType": "m", "contentEncoding": text}, ["x"],
                codecs=[["a", "plain"], [text, "odd"]], media_types=[["m", "all"]])
    yield asked(7, {"format": text}, ignore_unknown_formats=False)
    yield asked(7, {"format": text}, formats_by_dialect=True)
    yield requested(7, {"format": text, "minLength": 9}, text, ignore_unknown_formats=False)
    yield from shown_whole(text, "b")


def shown_whole(text, other):
    """A text in notes, in errors and in places, beside another one."""
    noted = {"format": text, "contentMediaType": text, "contentEncoding": text}
    yield requested(202012, {**noted, "contentSchema": {text: [text], other: {text: text}}, "maxLength": 0}, text)
    yield asked(7, {"minLength": 99}, ["ab"], location=[text, "b"], way=[text], at=["b", text], absolute=text)
    yield pointed([text, "b", text])


def texts_in_other_codings():
    """A text that others decode or fold is compared, counted, searched and shown as it stands, and so is a name."""
    others = "AB", "aB", "a\r\nb", "a  b", "a\u0301b", "\u00e1b", "\u00c4b", "A\u0308b"
    texts = list(dict.fromkeys((*coded("ab"), *others)))
    for size in sorted({len(text) for text in texts}):
        of_size = [text for text in texts if len(text) == size]
        for schema in ({"minLength": size, "maxLength": size}, {"minLength": size + 1}, {"maxLength": size - 1}):
            yield asked(7, schema, of_size)
    for pattern in ("^ab$", "^ab", "^(ab|c)$", r"^\S*$", "^a\r\nb$", "^\u00e1b$", "^a\u0301b$", "^AB$", "^a b$"):
        yield asked(7, {"pattern": pattern}, texts)
    for kind in ("match", "failed"):
        yield asked(7, {"pattern": "a+"}, texts, patterns=[["a+", text, kind] for text in texts])
        yield asked(7, {"pattern": "a+"}, [*texts, "ab"], patterns=[["a+", "ab", kind]])
    yield asked(7, {"format": "n", "contentMediaType": "m"}, texts, formats=[["n", "even"]],
                media_types=[["m", "even"]])
    yield asked(6, {"contentMediaType": "m", "contentEncoding": "c"}, texts, codecs=[["c", "plain"]],
                media_types=[["m", "even"]])
    for codec in ENCODERS:
        yield asked(7, {"contentEncoding": codec}, texts)
        yield asked(6, {"contentEncoding": codec, "contentMediaType": JSON}, texts)
    for text in texts[::3]:
        yield asked(7, {"pattern": f"^{as_pattern(text)}$"}, [text, "ab"])
        yield requested(7, {"pattern": f"^{as_pattern(text)}$"}, text + "x")
        yield asked(7, {"format": text}, ["x"], formats=[["ab", "all"], [text, "none"]])
        yield asked(7, {"contentMediaType": text}, ["x"], media_types=[["ab", "all"], [text, "none"]])
        yield requested(7, {"format": text}, text, ignore_unknown_formats=False)
        yield from shown_whole(text, "ab")
