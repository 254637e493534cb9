"""Texts of encodings and JSON texts, alone and as what is encoded."""
import base64
from itertools import product

from rows.keywords.common import JSON, answer_to_text, asked, fed, in_parts, requested, some_of
from rows.keywords.content import texts_for
from rows.keywords.texts import ENCODERS, JSON_TEXTS, NO_ENCODINGS, NO_JSON_TEXTS, encoded_bytes, encodings, is_json
from rows.keywords.values import compact
from rows.keywords.verdicts import rows_of_grammars, verdicts_of


def texts_of_encodings():
    """What encoders write and what they do not, alone and as JSON, and JSON texts by themselves."""
    for draft, codec in product((6, 7), ENCODERS):
        wrong = NO_ENCODINGS[codec]
        assert all(encoded_bytes(codec, it) is None for it in wrong)
        texts = [*encodings(codec), *wrong, *(["7b7D", "666f6F"] if codec == "base16" else [])]
        yield asked(draft, {"contentEncoding": codec}, texts)
        yield asked(draft, {"contentMediaType": JSON, "contentEncoding": codec}, [*texts_for(codec), *wrong[1:5]])
    assert all(map(is_json, JSON_TEXTS)) and not any(map(is_json, NO_JSON_TEXTS))
    for draft in (6, 7):
        yield asked(draft, {"contentMediaType": JSON}, [*JSON_TEXTS, *NO_JSON_TEXTS])


# JSON strings of such texts, as they stand between the quotation marks.
KINDS_OF_JSON = ("", " ", "a ", " a", "\x7f", "7", "A", r"\"", r"\\", r"\n", r"\u0000", "\u00e9", "e\u0301", "\u20ac",
                 "\U0001f4a9", "\u00a0", "\ufeff", "\u00e9" * 33, "a" * 65)


def content_of_each_kind():
    """A text is JSON, or encodes JSON, whatever characters are in it; and it is none without its last one."""
    texts = [f'"{it}"' for it in KINDS_OF_JSON]
    texts += [it[:-1] for it in texts]
    for draft in (6, 7):
        yield asked(draft, {"contentMediaType": JSON}, texts)
    for codec, encoder in ENCODERS.items():
        encoded = [encoder(it.encode()).decode() for it in texts]
        yield asked(7, {"contentMediaType": JSON, "contentEncoding": codec}, encoded)
        yield asked(6, {"contentMediaType": JSON, "contentEncoding": codec}, encoded[1::3])
        yield asked(7, {"contentEncoding": codec}, encoded[::2])
        for text in encoded[::3]:
            yield requested(7, {"contentMediaType": JSON, "contentEncoding": codec}, text)


# Bytes that are UTF-8, at the ends of what the lengths of Unicode's table 3-7 admit, and bytes that are none.
UTF8 = tuple(map(bytes.fromhex, (
    "C280", "DFBF", "E0A080", "ED9FBF", "EE8080", "EFBFBF", "F0908080", "F48FBFBF", "00", "7F")))
NO_UTF8 = tuple(map(bytes.fromhex, (
    "80", "BF", "C080", "C1BF", "C2", "C27F", "C2C0", "E08080", "E09FBF", "E0A0", "E0A07F", "EDA080", "EDBFBF",
    "EDA0BDEDB880", "EFBF", "F0808080", "F08FBFBF", "F09080", "F4908080", "F5808080", "F7BFBFBF", "F888808080",
    "FC8480808080", "FE", "FF", "FEFF0041", "FFFE4100", "C3A9FF", "E9")))


def decoded_bytes():
    """What a text encodes is to be UTF-8 (RFC 3629, section 4) before it is asked for its media type."""
    for codec, encoder in ENCODERS.items():
        for some in (UTF8, NO_UTF8):
            texts = [encoder(sign + it + sign).decode() for it in some for sign in (b'"', b"")]
            for draft in (6, 7):
                yield asked(draft, {"contentMediaType": JSON, "contentEncoding": codec}, texts)
            yield asked(7, {"contentMediaType": "n", "contentEncoding": codec}, texts[::2], media_types=[["n", "all"]])
            yield asked(7, {"contentEncoding": codec}, texts[1::2])
        for it in NO_UTF8[::4]:
            yield requested(7, {"contentMediaType": JSON, "contentEncoding": codec}, encoder(it).decode())


# Characters that other readers refuse, drop or take for others: noncharacters, controls, marks, and what is unassigned.
ODD = tuple(map(chr, (
    0x7F, 0x80, 0x85, 0x9F, 0xA0, 0xAD, 0x378, 0x600, 0x61C, 0x180E, 0x200B, 0x200E, 0x2028, 0x2029, 0x202E, 0x2060,
    0x2066, 0x206F, 0xD7FF, 0xE000, 0xF8FF, 0xFDD0, 0xFDEF, 0xFE0F, 0xFEFF, 0xFFF9, 0xFFFC, 0xFFFD, 0xFFFE, 0xFFFF,
    0x10000, 0x1FFFE, 0x1FFFF, 0x2FFFF, 0x30000, 0xE0001, 0xE0020, 0xEFFFF, 0xF0000, 0xFFFFE, 0xFFFFF, 0x100000,
    0x10FFFE, 0x10FFFF)))


def odd_characters_in_json():
    """Each of them stands in a text of JSON as it is or escaped, and nowhere else in JSON (RFC 8259)."""
    for sign in ODD:
        units = sign.encode("utf-16-be")
        escape = "".join(f"\\u{int.from_bytes(units[at:at + 2], 'big'):04x}" for at in range(0, len(units), 2))
        right = [f'"{sign}"', f'"{escape}"', f'["a{sign}","{escape.upper()}"]'.replace("\\U", "\\u"),
                 f'{{"{sign}":"{escape}"}}']
        wrong = [f"{sign}1", f"1{sign}", f'"a"{sign}', f'{sign}"a"', f"[1,{sign}2]", f'{{{sign}"a":1}}',
                 f"{{{sign}:1}}"]
        yield asked(7, {"contentMediaType": JSON}, [*right, *wrong])
        yield asked(6, {"contentMediaType": JSON, "contentEncoding": "base64"},
                    [base64.b64encode(text.encode()).decode() for text in (*right, *wrong)])
        for text in (sign, f"a{sign}", f"{sign}{sign}"):
            yield requested(7, {"maxLength": 1, "minLength": 2}, text)
            yield requested(202012, {"contentMediaType": text, "contentSchema": {text: [text]}}, text)
        line = compact({"draft": 7, "schema": {"minLength": 2}, "instance": "@"}).replace("@", escape)
        yield fed([line], answer_to_text(line))


# What other notations put around an encoding or a JSON text. It is no part of either.
AROUND_ENCODINGS = (
    ("data:application/json;base64,", ""), ("data:;base64,", ""), ("data:,", ""), ("base64:", ""), ("base64,", ""),
    ("b64:", ""), ("0x", ""), ("0X", ""), ("#", ""), ("\\x", ""), ("h'", "'"), ("b'", "'"), ('"', '"'), ("'", "'"),
    ("<~", "~>"), ("=?utf-8?B?", "?="), ("-----BEGIN X-----\n", "\n-----END X-----"), ("\ufeff", ""), (" ", ""),
    ("", " "), ("\n", ""), ("", "\r\n"), ("", "\0"), ("", "="), ("", "A"), ("", "%3D"), ("", "."), ("", "\u200b"),
    ("(", ")"), ("<", ">"), ("{", "}"), ("z", ""), ("m", ""), ("f", ""), ("base16:", ""), ("urn:x:", ""), ("", "/"),
    ("", ","), (",", ""), ("-", ""), ("+", ""), ("", "\u00ad"), ("sha256-", ""), ("Basic ", ""), ("Bearer ", ""))
AROUND_JSON = (
    ("```json\n", "\n```"), ("```", "```"), ("callback(", ")"), ("callback(", ");"), ("(", ")"), (")]}',\n", ""),
    ("while(1);", ""), ("\x1e", "\n"), ("data: ", "\n\n"), ("", ","), ("", ";"), (",", ""), ("", "\n{}"), ("", "{}"),
    ("// x\n", ""), ("/* x */", ""), ("", " // x"), ("# x\n", ""), ("", "# x"), ("var x = ", ";"), ("x=", ""),
    ("\ufeff", ""), ("\x0c", ""), ("", "\x0b"), ("\u00a0", ""), ("", "\u2028"), ("\u3000", ""), ("", "\0"),
    ("", "\x1a"), ("---\n", ""), ("<!--", "-->"), ("<", ">"), ("'", "'"), ("`", "`"), ("0", ""), ("", "0"), ("+", ""),
    ("$", ""), ("return ", ""))


def notations_around():
    """Nothing stands around an encoding (RFC 4648), and white space alone around a JSON text (RFC 8259, section 2)."""
    for codec, encoder in ENCODERS.items():
        encoded = encoder(b"{}").decode()
        texts = [before + encoded + behind for before, behind in AROUND_ENCODINGS]
        for draft in (6, 7):
            yield asked(draft, {"contentEncoding": codec}, texts)
        yield asked(7, {"contentMediaType": JSON, "contentEncoding": codec}, texts)
        texts = [encoder((before + "{}" + behind).encode()).decode() for before, behind in AROUND_JSON]
        yield asked(7, {"contentMediaType": JSON, "contentEncoding": codec}, texts)
    inside = ("{}", "[1]", '"a"', "null")
    texts = [before + it + behind for before, behind in AROUND_JSON for it in inside]
    for draft in (6, 7):
        yield asked(draft, {"contentMediaType": JSON}, texts)
    for text in texts[::4]:
        yield requested(7, {"contentMediaType": JSON}, text)
    spaces = [front + "{}" + tail for front, tail in product(("", " ", "\t", "\n", "\r", "\r\n", " \n\t\r "), repeat=2)]
    yield asked(7, {"contentMediaType": JSON}, spaces)
    for depth in (2, 63):
        for begin, inner, end in (("[", "", "]"), ('{"a":', "1", "}"), ('[{"a":', "1", "}]")):
            yield asked(7, {"contentMediaType": JSON}, [begin * depth + inner + end * depth, begin * depth + inner])


def encodings_of_grammars():
    """A text is an encoding, alone and beside a media type, where the rows of the encodings say so."""
    for codec in ENCODERS:
        texts = dict.fromkeys(text for row in rows_of_grammars() if row["ask"] == "decoded" and row["of"] == codec
                              for text, _ in row["rows"] if len(text) < 100)
        texts = some_of(list(texts), 180)
        for some in in_parts(texts, 60):
            yield asked(7, {"contentEncoding": codec}, some)
        for some in in_parts(texts, 60):
            yield asked(6, {"contentMediaType": "n", "contentEncoding": codec}, some, media_types=[["n", "all"]])
        # Letters have either case in base16 alone (RFC 4648, section 8), whatever is encoded.
        varied = [it for text in encodings(codec) for it in (text, text.lower(), text.swapcase(), text.capitalize())]
        # The padding is what fills the last group, and nothing else (section 3.2).
        for text in encodings(codec):
            bare = text.rstrip("=")
            varied += [bare + "=" * count for count in range(9)] + ["=" + text, bare + "%3D", bare + "."]
        varied = list(dict.fromkeys(it for it in varied if it))
        yield asked(7, {"contentEncoding": codec}, varied)
        yield asked(7, {"contentMediaType": JSON, "contentEncoding": codec}, varied)
        yield asked(7, {"contentMediaType": "n", "contentEncoding": codec}, varied, media_types=[["n", "even"]])
        for text in varied:
            yield requested(7, {"contentMediaType": JSON, "contentEncoding": codec}, text)


def json_of_grammars():
    """A text is of the media type, alone and where it is encoded, where the rows of JSON texts say so."""
    verdicts = {text: it for text, it in verdicts_of("json").items() if len(text) < 200}
    assert all(is_json(text) is it for text, it in verdicts.items())
    texts = some_of(list(verdicts), 1800)
    for number, some in enumerate(in_parts(texts, 60)):
        yield asked(7, {"contentMediaType": JSON}, some)
        codec = list(ENCODERS)[number % len(ENCODERS)]
        encoded = [ENCODERS[codec](text.encode()).decode() for text in some[::2]]
        yield asked(6, {"contentMediaType": JSON, "contentEncoding": codec}, encoded)
