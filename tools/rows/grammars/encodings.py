"""Encodings and their names, media types and texts that are decoded: RFC 4648."""
import base64
import itertools

from rows.grammars.common import (ASCII, DIGITS, LETTERS, SIGNS, around, decoded, decorated, in_forms, names,
                                  short_rows, words)

# Encodings: RFC 4648, by Python's own encoders.

# Each encoder, with how many characters a block of its codes has.
ENCODERS = {"base64": (base64.b64encode, 4), "base64url": (base64.urlsafe_b64encode, 4),
            "base32": (base64.b32encode, 8), "base32hex": (base64.b32hexencode, 8), "base16": (base64.b16encode, 2)}
ALPHABETS = {"base64": LETTERS + DIGITS + "+/", "base64url": LETTERS + DIGITS + "-_", "base32": LETTERS[:26] + "234567",
             "base32hex": DIGITS + LETTERS[:22], "base16": DIGITS + "ABCDEF"}


def samples():
    """Bytes of each length to eleven: of many values, all ones, all zeros, and UTF-8."""
    for length in range(12):
        yield bytes((0xFB * (at + 1) + 0x3F * at) % 256 for at in range(length))
        yield b"\xff" * length
        yield b"\x00" * length
        yield ("a~é?>"[:length] * 3).encode()[:length]


def beside_code(of, text):
    """Texts that are one step from a right code: paddings, a last letter, and what stands around it."""
    letters = text.rstrip("=")
    yield from (letters + "=" * pads for pads in range(9))
    yield from (letters[:-1] + "=" * pads for pads in range(8))
    yield from around(text)
    if letters and of != "base16":
        if len(letters) < 14:
            yield from (letters[:-1] + other + text[len(letters):] for other in ALPHABETS[of])
        yield from (text + text, "=" + text, text[:2] + "=" + text[2:], text.swapcase())


def codes_of(of):
    """Right codes and what is one step from them, with the bytes that a right one encodes."""
    encode, _ = ENCODERS[of]
    found = {encode(sample).decode(): sample.hex() for sample in samples()}
    for text in list(found):
        for other in beside_code(of, text):
            found.setdefault(other, by_trial(of, other))
    return [[text, digits] for text, digits in sorted(found.items())]


def by_trial(of, text):
    """The bytes that a text encodes, in hexadecimal; `None` where encoding what was read gives another text."""
    encode, block = ENCODERS[of]
    if not text.isascii() or len(text) % block:
        return None
    letters = text.rstrip("=")
    read = letters.upper() if of == "base16" else letters
    if any(letter not in ALPHABETS[of] for letter in read):
        return None
    bits = (len(ALPHABETS[of]) - 1).bit_length()
    number = 0
    for letter in read:
        number = number << bits | ALPHABETS[of].index(letter)
    spare = len(read) * bits % 8
    sample = (number >> spare).to_bytes(len(read) * bits // 8, "big")
    again = encode(sample).decode()
    return sample.hex() if again == (text.upper() if of == "base16" else text) else None


def letters_by_place(of):
    """A code of three blocks, and the same with another letter, sign or padding at each place."""
    encode, block = ENCODERS[of]
    for sample in (b"\x9a\xbc\xdefoobar~>?klm", b"\xfb\xff\xbf\x00\x10\x83\x14\xc5\x41\xab\xcd\xef\x99\x77\x55"):
        text = encode(sample).decode()[:3 * block]
        for at, letter in enumerate(text):
            others = {letter.swapcase(), letter.lower(), letter.upper(), *"aAfFzZ0189+/-_=. \n", "\u00e9"}
            yield from (text[:at] + other + text[at + 1:] for other in sorted(others))


def single_bytes():
    """One byte that is not zero, at each place of up to six."""
    values = (1, 2, 3, 4, 7, 8, 15, 16, 31, 32, 63, 64, 65, 127, 128, 129, 191, 192, 254)
    for length in range(1, 7):
        for place, value in itertools.product(range(length), values):
            yield bytes([*[0] * place, value, *[0] * (length - place - 1)])


# Names, and the variants of the enums that they name.
ENCODING_NAMES = {"base64": "Base64", "base64url": "Base64Url", "base32": "Base32", "base32hex": "Base32Hex",
                  "base16": "Base16"}
MEDIA_TYPE_NAMES = {"application/json": "Json"}


def names_near(right):
    """Right names, and those with a letter in the other case, left out, doubled, or with another beside it."""
    for name in right:
        yield from (name, name.upper(), name.title(), name.capitalize(), f" {name}", f"{name} ", f"{name}\n")
        yield f"{name};"
        for at in range(len(name)):
            changes = (name[at].upper(), "", name[at] * 2, "_", "-", f"-{name[at]}")
            yield from (name[:at] + changed + name[at + 1:] for changed in changes)


# What stands before `+json` in other media types whose texts are JSON. JSON's own is `application/json` (RFC 8259,
# section 11).
TYPES_OF_JSON = (
    "activity", "alto-directory", "calendar", "coap-group", "csvm", "dicom", "dns", "fhir", "geo", "hal", "jf2feed",
    "jrd", "jscalendar", "json-patch", "jwk", "jwk-set", "ld", "manifest", "merge-patch", "mud", "problem", "rdap",
    "reports", "sarif", "schema", "schema-instance", "scim", "senml", "td", "vcon", "vnd.api", "yang-data")
# Other media types, none of which says that a text is JSON, and what other programs call encodings.
OTHER_TYPES = [
    "text/xml", "text/html", "text/csv", "application/yaml", "application/cbor", "application/octet-stream",
    "image/png", "JSON", "json", "+json", "application/+json", "application/json+xml", "text/plain+json",
    "model/gltf+json", "image/svg+json", "application/x-www-form-urlencoded", "multipart/form-data",
    "application/jose+json", "application/bson", "application/msgpack", "application/toml", "application/x-yaml",
    "text/yaml", "text/json", "application/soap+json", "message/json", "audio/json", "application/json-seq",
    "application/x-json", "application/x-javascript", "application/jsonml+json", "application/vnd.json",
    "application/prs.json", "application.json", "application\\json", "application:json", "application json",
    "application/ json", "application /json", "\"application/json\"", "<application/json>",
    "application/json, text/json", "application/json;", "application/json;q=1", "application/json;version=1",
    "application/json (JSON)"]
OTHER_ENCODINGS = [
    "x-base64", "uu", "uuencode", "percent", "url", "compress", "base64pad", "base64nopad", "base64-nopad",
    "base32-hex", "base32crockford", "base16lower", "base58", "base85", "7bit", "8bit", "binary", "quoted-printable",
    "identity", "gzip", "deflate", "hex", "base 64", "base64;", "base64,base64", "base64, base32", "[\"base64\"]",
    "base64\n", "\tbase64", "base64\u0000", "\ufeffbase64", "base6\uff14", "base64 url", "base64_url", "urlsafe-base64",
    "mime", "none", "null"]


def names_in_other_cases():
    """The names of encodings in each choice of letter cases."""
    for name in ENCODING_NAMES:
        for cased in itertools.product(*[dict.fromkeys((letter, letter.upper())) for letter in name]):
            yield "".join(cased)


def types_beside_json():
    """The media type with its parts in other letter cases, with parameters, and other types of texts that are JSON."""
    for front, back in itertools.product(("application", "Application", "APPLICATION", "text", "Text", "*"),
                                         ("json", "Json", "JSON", "*", "json5", "jsonc", "schema+json")):
        yield from (f"{front}/{back}", f"{front}/{back};charset=utf-8", f"{front}/{back}; charset=\"UTF-8\"")
    yield from ("application/json"[:at].upper() + "application/json"[at:] for at in range(17))
    yield from ("application/json"[:at] + "application/json"[at:].upper() for at in range(17))
    for other in TYPES_OF_JSON:
        yield from (f"application/{other}+json", f"application/{other}", f"application/{other}+JSON", f"{other}+json")
    yield from (f"application/json{sign}" for sign in ASCII)
    yield from (f"{sign}application/json" for sign in ASCII)


WORDS_OF_CODES = {"base64": [("{}", "AQg=-", range(6)), ("AAAA{}", "AQ=+", (4,)), ("{}AAAA", "A/= ", (4,))],
                  "base64url": [("{}", "AQg=+", range(6)), ("AAAA{}", "AQ=-", (4,)), ("{}AAAA", "A_= ", (4,))],
                  "base32": [("AAAA{}", "AQ=8Y", (4,)), ("AA{}", "AE=", (6,)), ("{}AAAAAA", "A=1a", (2,))],
                  "base32hex": [("0000{}", "0G=WO", (4,)), ("00{}", "04=", (6,)), ("{}000000", "0=av", (2,))],
                  "base16": [("{}", "0aF=g", range(6)), ("0{}", "9AfG", (1, 2, 3))]}
ENDS_OF_CODES = {"base64": ("AA{}", "{}AA"), "base64url": ("AA{}", "{}AA"), "base32": ("AAAAAA{}",),
                 "base32hex": ("000000{}",), "base16": ("00{}",)}


def coding_rows():
    """The rows of encodings."""
    yield "words of letters, signs and padding, and each two signs, before a block and behind the letters of one"
    for of, forms in WORDS_OF_CODES.items():
        made_words = [form.format(word) for form, letters, sizes in forms for word in words(letters, sizes)]
        made_words += in_forms(ENDS_OF_CODES[of], words(SIGNS, (2,)))
        rows = [[text, by_trial(of, text)] for text in dict.fromkeys(made_words)]
        for at in range(0, len(rows), 1500):
            yield decoded(of, rows[at:at + 1500])
    yield from short_rows({of: lambda text, of=of: by_trial(of, text) is not None for of in ENCODERS})
    yield "names in each choice of letter cases, and other names of what is JSON: names are compared exactly"
    yield names("encodings", [[name, ENCODING_NAMES.get(name)] for name in names_in_other_cases()])
    yield names("media types", [[name, MEDIA_TYPE_NAMES.get(name)] for name in dict.fromkeys(types_beside_json())])
    yield names("encodings", [[name, ENCODING_NAMES.get(name)] for name in OTHER_ENCODINGS])
    yield names("media types", [[name, MEDIA_TYPE_NAMES.get(name)] for name in OTHER_TYPES])
    yield "names with one letter in the other case, left out, doubled or changed"
    for of, right in (("encodings", ENCODING_NAMES), ("media types", MEDIA_TYPE_NAMES)):
        yield names(of, [[name, right.get(name)] for name in dict.fromkeys(names_near(right))])
    yield "texts of each length, with each padding and each rest of bits: RFC 4648, sections 3.2, 3.5 and 4 to 8"
    for of in ENCODERS:
        rows = codes_of(of)
        for at in range(0, len(rows), 1500):
            yield decoded(of, rows[at:at + 1500])
    yield "each character of ASCII first and last in a block of letters, and in a block with padding"
    for of, (_, block) in ENCODERS.items():
        letter = ALPHABETS[of][0]
        forms = [f"{{}}{letter * (block - 1)}", f"{letter * (block - 1)}{{}}", f"{letter}{{}}{'=' * (block - 2)}"]
        blocks = in_forms(forms, ASCII)
        yield decoded(of, [[text, by_trial(of, text)] for text in sorted(set(blocks))])
    yield ("what is encoded may be any character of UTF-8: noncharacters, controls and private ones too, and no half "
           "of a pair")
    points = (0, 1, 9, 0x1F, 0x7F, 0x80, 0x85, 0x9F, 0x7FF, 0x800, 0x2028, 0xD7FF, 0xE000, 0xF8FF, 0xFDD0, 0xFDEF,
              0xFEFF, 0xFFFD, 0xFFFE, 0xFFFF, 0x10000, 0x1FFFE, 0x1FFFF, 0xE0001, 0xF0000, 0x10FFFE, 0x10FFFF)
    samples_of = [chr(point).encode() for point in points] + [f"a{chr(point)}b".encode() for point in points]
    spoilt = ("eda080", "edbfbf", "eda080edb080", "f4908080", "c080", "c1bf", "e08080", "e09fbf", "f0808080",
              "f08fbfbf", "f5808080", "fe", "ff", "efbf", "80")
    samples_of += map(bytes.fromhex, spoilt)
    for of, (encode, _) in ENCODERS.items():
        yield decoded(of, [[encode(sample).decode(), sample.hex()] for sample in samples_of])
    yield "what other programs pass over, put around a text or take for a character of it"
    for of, (encode, _) in ENCODERS.items():
        wholes = [encode(sample).decode() for sample in (b"foobar", b"foob", b"fooba")]
        tried = dict.fromkeys(other for text in wholes for other in [text, *decorated(text)])
        yield decoded(of, [[text, by_trial(of, text)] for text in tried])
    yield ("letters of the other case and of other alphabets, and signs, at each place of the first, a second and the "
           "last block")
    for of in ENCODERS:
        yield decoded(of, [[text, by_trial(of, text)] for text in dict.fromkeys(letters_by_place(of))])
    yield "one byte that is not zero"
    for of, (encode, _) in ENCODERS.items():
        yield decoded(of, [[encode(sample).decode(), sample.hex()] for sample in single_bytes()])
