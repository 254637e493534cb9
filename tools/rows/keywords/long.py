"""Long texts, names, values, patterns and lists."""
from itertools import product

from rows.keywords.common import BAD, CHECKED, JSON, RIGHT, around_text, asked, cut, fed
from rows.keywords.entries import KEYWORDS
from rows.keywords.long_texts import LONG_TEXTS
from rows.keywords.places import pointed
from rows.keywords.texts import DRAFTS, ENCODERS, FORMATS
from rows.keywords.values import compact


def long_names():
    """Names and texts of any length stand whole in errors, refusals and notes."""
    name, text = "n" * 300, "t" * 700
    for draft in DRAFTS:
        yield asked(draft, {"format": name}, [text], formats=[[name, "none"]], validate_formats=True)
        yield asked(draft, {"format": name}, validate_formats=True, ignore_unknown_formats=False)
        yield asked(draft, {"contentEncoding": name}, [text], codecs=[[name, "bytes"]])
        yield asked(draft, {"contentMediaType": name}, [text], media_types=[[name, "none"]])
        yield asked(draft, {"pattern": "^" + name}, [text, name])
        yield asked(draft, {"pattern": name + "+"}, [text], patterns=[[name + "+", "x", "match"]])
        yield asked(draft, {"pattern": name + "+"})
        yield asked(draft, {"minLength": 701, "maxLength": 1}, [text], location=[name], way=[name, name], at=[name],
                    absolute=name)


def many():
    """A row counts wherever it stands in its list, a keyword behind any other keys, and a pointer has any length."""
    names = [f"n{it}" for it in range(300)]
    for draft, at in product((7, 202012), (255, 256, 299)):
        checks = [[it, "none"] for it in names[:at + 1]]
        yield asked(draft, {"format": names[at]}, ["ab"], formats=checks, **CHECKED)
        yield asked(draft, {"contentMediaType": names[at]}, ["ab"], media_types=checks)
        yield asked(draft, {"contentEncoding": names[at]}, ["ab"], codecs=[[it, "bytes"] for it in names[:at + 1]])
    for draft, keyword in product((7, 202012), KEYWORDS):
        others = {it: number for number, it in enumerate(names)}
        yield asked(draft, {**others, "contentMediaType": "x", keyword: RIGHT[keyword]}, ["x"])
        yield asked(draft, {keyword: BAD[keyword], **others, "contentMediaType": "x"}, ["x"])
    for size in (16, 17, 100):
        segments = names[:size]
        yield pointed(segments)
        yield asked(7, {"minLength": 5}, ["x"], location=segments, way=segments[::-1], at=segments[1:],
                    absolute="https://example.com/s.json")
    for size in (32, 33, 200):
        pattern = "^(" + "|".join(names[:size]) + ")$"
        for text in (names[size - 1], names[size]):
            yield asked(7, {"pattern": pattern}, [text, text + "n"])


def ended(*lines):
    """These lines of an answer and its end, as the program shows them."""
    return cut("\n".join([*lines, "end"]))


def long_ones():
    """Texts, names, values and objects of any length are told whole, and count whole."""
    for size in (1000, 1001, 1024, 4095, 4096, 4097, 10_000, 65_535, 65_536, 100_000):
        yield from long_texts(size)
        yield from long_values(size)
        yield from long_lines(size)


def long_texts(size):
    """Texts of so many characters."""
    front, end = around_text(7, {"maxLength": size - 1})
    told = f'error /maxLength: "{"x" * size}" is longer than {size - 1} characters'
    yield fed([front, ["x", size], end], ended(told))
    front, end = around_text(7, {"minLength": size, "maxLength": size})
    yield from (fed([front, [sign, size], end], ["valid", "end"]) for sign in ("x", "\u00e9"))


def long_values(size):
    """Names of so many characters, and arrays of so many numbers and one."""
    long, sevens, end = "x" * size, f"[{'7,' * size}7]", '},"instance":"x"}'
    front = '{"draft":7,"ignore_unknown_formats":false,"schema":{'
    yield fed([front + '"format":"', ["x", size], '"' + end], ended(
        f"refused /format: Unknown format: '{long}'. Adjust configuration to ignore unrecognized formats"))
    for keyword in ("format", "pattern", "contentEncoding"):
        yield fed([front + f'"{keyword}":[', ["7,", size], "7]" + end],
                  ended(f'refused /{keyword}: {sevens} is not of type "string"'))
    front = '{"draft":202012,"schema":{"contentMediaType":"'
    yield fed([front, ["x", size], '","contentSchema":[', ["7,", size], "7]" + end],
              ended("valid", f'note /contentMediaType: "{long}"', f"note /contentSchema: {sevens}"))


def long_lines(size):
    """Other members, gaps and other instances, however many, change nothing."""
    front, schema, end = '{"draft":7,', '"schema":{', '"maxLength":1},"instance":'
    for gap, inner in ((" ", ""), ("", '"x":1,'), ("", " ")):
        yield fed([front, [gap, size], schema, [inner, size], end + '"ab"}'],
                  ['error /maxLength: "ab" is longer than 1 character', "end"])
    yield fed([front + schema + end + "[", ["7,", size], "7]}"], ["valid", "end"])


# Texts of formats that have no greatest length, and of media types and encodings: what stands first, what is written
# over and over, what stands last, and what stands last where the text is none.
WITHOUT_END = (
    ("date-time", "2020-01-01T00:00:00.", "0", "Z", "z0"), ("time", "00:00:00.", "9", "+00:00", "+0"),
    ("duration", "P", "1", "D", "d"), ("duration", "PT", "0", "H1M", "M1H"), ("uri", "a://", "a", "/?#", "/?# "),
    ("uri", "a:", "/", "", "\\"), ("uri", "a", "a", ":", "_:"), ("uri", "a:?", "%41", "", "%4"),
    ("uri", "a://h:", "8", "", "a"), ("uri-reference", "", "a/", "", "<"), ("uri-reference", "//", "a.", "a:", "a:b"),
    ("uri-reference", "", "../", "", "%"), ("iri", "a:", "\u00e9", "", "\ue000"),
    ("iri-reference", "", "\u00e9/", "", "<"), ("uri-template", "", "{a}", "", "{"),
    ("uri-template", "{", "a.", "a}", "}"), ("uri-template", "{", "a,", "a}", "}"),
    ("uri-template", "\u00e9", "a", "", "%"), ("json-pointer", "", "/a", "", "~"), ("json-pointer", "/", "~1", "", "~"),
    ("relative-json-pointer", "1", "0", "#", "##"), ("relative-json-pointer", "0", "/a", "", "~"))


def texts_without_end():
    """Where a format bounds no length, its texts have any."""
    for name, front, inner, end, wrong_end in WITHOUT_END:
        before, behind = around_text(202012, {"format": name}, validate_formats=True)
        for times, last in product((50, 90, 300, 1100, 2100, 5000, 70_000), (end, wrong_end)):
            text = front + inner * times + last
            verdict = "valid" if last == end else f'error /format: {compact(text)} is not a "{name}"'
            parts = [before + compact(front)[1:-1], [inner, times], compact(last)[1:-1] + behind]
            yield fed(parts, ended(verdict, f'note /format: "{name}"'))


def asked_as(grammar):
    """How texts of a grammar are asked for: the keyword, the name, the draft, and what is told of one that is none."""
    if grammar == "json":
        return "contentMediaType", JSON, 7, f'is not compliant with "{JSON}" media type'
    if grammar in ENCODERS:
        return "contentEncoding", grammar, 7, f'is not compliant with "{grammar}" content encoding'
    return next(("format", it.name, it.last, f'is not a "{it.name}"') for it in FORMATS if it.grammar() == grammar)


def long_texts_of_grammars():
    """A text that is long is of its format, its media type or its encoding where the standards say so."""
    for grammar, verdicts in LONG_TEXTS.items():
        for is_right, texts in zip((True, False), verdicts):
            for parts in texts:
                yield from of_parts(*asked_as(grammar), parts, is_right)


def of_parts(keyword, name, draft, words, parts, is_right):
    """The row of a text in parts, each with how many times it stands, if what is shown of the answer is UTF-8."""
    before, behind = around_text(draft, {keyword: name}, validate_formats=True)
    text = "".join(part * times for part, times in parts)
    told = ["valid" if is_right else f"error /{keyword}: {compact(text)} {words}"]
    told += [f'note /format: "{name}"'] if keyword == "format" else []
    shown = told[0].encode()[:60]
    if len(text) < 600 or shown == shown.decode(errors="ignore").encode():
        yield fed([before, *([compact(part)[1:-1], times] for part, times in parts), behind], ended(*told))


def long_patterns():
    """A literal pattern is compared whatever its length is, and stands whole in its errors; and so does a line."""
    for size in (999, 1000, 1001, 2001, 5000, 70_000):
        yield from patterns_of_size(size)
    for size in (2 ** 20, 2 ** 20 + 1, 2_000_000):
        for sign, least in (("x", size), ("\u00e9", size), ("x", size + 1)):
            front, end = around_text(7, {"minLength": least})
            told = "valid" if least == size else f'error /minLength: "{"x" * size}" is shorter than {least} characters'
            yield fed([front, [sign, size], end], ended(told))


def patterns_of_size(size):
    """Literal patterns of so many characters or texts, and others."""
    long, front, inner, end = "x" * size, '{"draft":7,"schema":{"pattern":"^', '"},"instance":"', '"}'
    for last, more in (("", "y"), ("$", "")):
        yield fed([front, ["x", size], last + inner, ["x", size], more + end], ["valid", "end"])
        yield fed([front, ["x", size], last + inner, ["x", size - 1], end],
                  ended(f'error /pattern: "{long[1:]}" does not match "^{long}{last}"'))
    yield fed([front, ["x", size], "$" + inner, ["x", size], "x" + end],
              ended(f'error /pattern: "{long}x" does not match "^{long}$"'))
    for text in ("y", "ab", "z", "a"):
        told = f'error /pattern: "{text}" does not match "^({"ab|" * size}y)$"'
        yield fed([front + "(", ["ab|", size], "y)$" + inner + text + end],
                  ended("valid" if text in ("y", "ab") else told))
    yield fed([front, ["x", size], "+" + inner + end], ended(f'refused /pattern: "^{long}+" is not a "regex"'))
    yield fed([front + r"\\S*$" + inner, ["x", size], end], ["valid", "end"])
    yield fed([front + r"\\S*$" + inner, ["x", size], " " + end],
              ended(f'error /pattern: "{long} " does not match "^\\S*$"'))


def long_encodings():
    """A long text encodes JSON, or other text, or what is no text, as a short one does."""
    for codec, encoder in ENCODERS.items():
        block = encoder(b" " * 15).decode()
        schema = {"contentMediaType": JSON, "contentEncoding": codec}
        for times, last, draft in product((4, 60, 200, 5000), (b"1", b"!", b"\xff", b""), (6, 7)):
            front, end = around_text(draft, schema)
            text = compact(block * times + encoder(last).decode())
            told = {b"1": "valid", b"\xff": f"error /contentEncoding: {text} does not decode to UTF-8 text"}.get(
                last, f'error /contentMediaType: {text} is not compliant with "{JSON}" media type')
            yield fed([front, [block, times], encoder(last).decode() + end], ended(told))


def ends_of_long_ones():
    """Long names, patterns and texts are compared to their last characters, and checks and engines are asked of all."""
    for size in (20, 254, 255, 256, 1024, 4096):
        yield from ends_of_names(size) if size < 2000 else ()
        yield from ends_of_patterns(size)
    for size in (65, 1000, 3001):
        text = "a" * size
        yield asked(7, {"format": "n"}, [text, text + "a"], formats=[["n", "even"]])
        yield asked(7, {"contentMediaType": "n"}, [text, text + "a"], media_types=[["n", "even"]])
        yield asked(7, {"contentMediaType": "n", "contentEncoding": "c"}, [text, text + "a"],
                    media_types=[["n", "even"]], codecs=[["c", "plain"]])
        yield asked(7, {"pattern": "z+"}, [text, text + "a"], patterns=[["z+", text, "match"]])


def ends_of_names(size):
    """Names that differ behind so many characters."""
    stem = "n" * size
    names = [stem + "a", stem + "b", stem]
    for name in (*names, stem + "c", stem[1:]):
        yield asked(7, {"format": name}, ["ab"], formats=[[it, "none"] for it in names])
        yield asked(7, {"contentMediaType": name}, ["ab"], media_types=[[it, "none"] for it in names])
        yield asked(7, {"contentEncoding": name}, ["ab"], codecs=[[it, "bytes"] for it in names])


def ends_of_patterns(size):
    """Literal patterns and texts that differ behind so many characters."""
    stem, front = "n" * size, '{"draft":7,"schema":{"pattern":"'
    around = (("^", ""), ("^", "$"), ("^(y|", ")$"), ("^(", "|y)$"))
    for (before, behind), text in product(around, ("a", "b", "", "ab")):
        told = "valid"
        if text != "a" and (text != "ab" or behind):
            told = f'error /pattern: "{stem}{text}" does not match "{before}{stem}a{behind}"'
        parts = [front + before, ["n", size], f'a{behind}"}},"instance":"', ["n", size], text + '"}']
        yield fed(parts, ended(told))
