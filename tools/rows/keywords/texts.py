"""Texts of the formats and encodings, with what the standards say of them.

Each format has the drafts that have it, the window of its lengths, and texts that its grammar derives or refuses. The
sources are the RFCs that a comment names, with the choices of docs/DECISIONS.md. The first text of each list is the one
that rows about options show. More texts are those of `other_forms.py`, and those that the rows of the grammars have.
"""
import base64
import json
from dataclasses import dataclass
from math import isfinite

from rows.keywords.values import MOST

DRAFTS = {4: "Draft4", 6: "Draft6", 7: "Draft7", 201909: "Draft201909", 202012: "Draft202012"}
LONGEST_HOST_NAME = ".".join("a" * size for size in (63, 63, 63, 61))


@dataclass(frozen=True)
class Format:
    """A built-in format: its name, its variant, the first and the last draft that have it, and texts."""
    name: str
    variant: str
    first: int
    accepted: tuple
    refused: tuple
    window: tuple = (0, MOST)
    last: int = 202012

    def is_in(self, draft):
        """Whether the draft has the format."""
        return self.first <= draft <= self.last

    def grammar(self):
        """The name by which the rows of the grammars ask for its texts."""
        return "hostname of RFC 1034" if self.variant == "HostnameDraft4" else self.name


# What RFC 1034, section 3.5, and RFC 1123, section 2.1, say of host names, in every draft.
HOST_NAMES = ("example.com", "a", "a-b.c9", "127.0.0.1", "a" * 63, LONGEST_HOST_NAME, "xn--ll-0ea", "xn--bcher-kva.com",
              "XN--ll-0ea", "xn--11b2ezcw70k")
NO_HOST_NAMES = ("-a", "", "a-", "a.", ".a", "a..b", "a_b", "a b", "\u00e9.com", "a" * 64, LONGEST_HOST_NAME + "a")
# Host names whose hyphens are reserved, or whose payload encodes no admitted text (RFC 5891, RFC 5892).
NO_LABELS = ("ex--ample.com", "xn--l-fda", "xn--x", "xn--ab-j1t", "xn--hello-zed")

FORMATS = (
    # RFC 3339, section 5.6 and appendix A.
    Format("date", "Date", 4,
           ("2020-01-01", "0000-02-29", "2000-02-29", "2020-02-29", "2023-02-28", "9999-12-31"),
           ("x", "", "1900-02-29", "2023-02-29", "2023-11-31", "2023-13-01", "2023-00-01", "2023-12-00", "2023-12-32",
            "2023-1-01", "20:3-01-15", "2020-01-0-", "2020-01-011", "2020/01/01", "\uff12020-01-01", "!", "ab",
            "7B", "a\"\n\u00e9", "7", "true", "false"), (10, 10)),
    Format("date-time", "DateTime", 4,
           ("2020-01-01T00:00:00Z", "2020-01-01t00:00:00z", "1990-12-31T23:59:60Z", "1937-01-01T12:00:27.87+00:20"),
           ("x", "", "2020-01-01 00:00:00Z", "2020-01-01", "00:00:00Z", "2020-02-30T00:00:00Z", "2020-01-01T00:00:00",
            "2020-01-01T24:00:00Z"), (20, MOST)),
    Format("duration", "Duration", 201909,
           ("P1D", "P2W", "PT1S", "P4Y", "PT36H", "P1Y2M3DT4H5M6S"),
           ("x", "", "P", "PT", "P1DT", "P1Y2D", "P1WT1H", "PT1H5S", "P1S", "p1d", "1D"), (3, MOST)),
    Format("hostname", "Hostname", 7, HOST_NAMES, NO_HOST_NAMES + NO_LABELS, (1, 253)),
    Format("hostname", "HostnameDraft4", 4, HOST_NAMES + NO_LABELS, NO_HOST_NAMES, (1, 253), last=6),
    # RFC 3986, section 3.2.2, and RFC 4291, section 2.2.
    Format("ipv4", "Ipv4", 4,
           ("127.0.0.1", "0.0.0.0", "255.255.255.255", "1.22.133.4"),
           ("x", "", "1.2.3", "1.2.3.4.5", "1.2.3.256", "01.2.3.4", "1.2.3.04", "1.2.3.4 ", "1.2.3.\uff14", "::1"),
           (7, 15)),
    Format("ipv6", "Ipv6", 4,
           ("::1", "::", "1:2:3:4:5:6:7:8", "1:2:3:4:5:6:7::", "::2:3:4:5:6:7:8", "::ffff:1.2.3.4",
            "1:2:3:4:5:6:1.2.3.4", "0000:0000:0000:0000:0000:0000:255.255.255.255"),
           ("x", "", ":", ":::", "1::2::3", "12345::", "1:2:3:4:5:6:7", "1:2:3:4:5:6:7::8", "1:2:3:4:5:6:7:8:9",
            "::1%1", "[::1]", "127.0.0.1"), (2, 45)),
    # RFC 3987, section 2.2.
    Format("iri", "Iri", 7,
           ("http://example.com", "http://\u00e9/\u00fc?\u00f1#\u00df", "a:", "a:?\ue000"),
           ("x", "", "\u00e9", "//\u00e9", "a:\ue000", "http://h/%4", "a b:c", "1a:")),
    Format("iri-reference", "IriReference", 7,
           ("\u00e9", "", "http://example.com", "x", "//\u00e9", "?\ue000", "a/b:c"),
           ("a b", "1a:", "//h/%4", "//[", "<a>", "#\ue000")),
    # RFC 6901, section 3, and draft-handrews-relative-json-pointer-02, section 3.
    Format("json-pointer", "JsonPointer", 6,
           ("/a", "", "/", "/f~0o/b~1r", "/foo//bar"),
           ("x", "/~", "/~2", "/foo~", "#/a", "0")),
    Format("relative-json-pointer", "RelativeJsonPointer", 7,
           ("0", "0#", "1/", "10/foo", "2/a~0b"),
           ("x", "", "01", "-1", "+1", "1#/", "0#a", "1/~", "/a", "1.5")),
    Format("time", "Time", 4,
           ("00:00:00Z", "23:59:59.999z", "12:30:45+01:00", "23:59:60Z", "00:29:60+00:30", "12:00:00-00:00"),
           ("x", "", "00:00:00", "24:00:00Z", "12:60:00Z", "12:30:61Z", "12:30:60+01:00", "12:30:45+24:00",
            "12:30:45+01:60", "12:30:45.Z", "12:3:45Z", "2020-01-01T00:00:00Z"), (9, MOST)),
    # RFC 3986, appendix A, with examples of section 1.1.2.
    Format("uri", "Uri", 4,
           ("http://example.com", "a:", "mailto:John.Doe@example.com", "tel:+1-816-555-1212",
            "ldap://[2001:db8::7]/c=GB?a?b", "http://u@[v1.x]:8", "http://h/%41?q#f"),
           ("x", "", "//example.com", "/a", "?q", "1a:", "http://h/%4", "http://[::1", "http://\u00e9", "a b:c")),
    Format("uri-reference", "UriReference", 6,
           ("x", "", "http://example.com", "//example.com", "../a", "?q", "#f", "a/b:c"),
           ("a b", "\u00e9", "1a:", "//a@b@c", "http://h/%4", "//h:8a", "/[a]")),
    # RFC 6570, section 2, with erratum 6937; every character past ASCII stands in literals.
    Format("uri-template", "UriTemplate", 6,
           ("http://example.com/{id}", "", "x", "{,a}", "{a:9999}", "{?a*,b.c}", "{%20}", "a'b", "\u00e9", "/%20"),
           ("{", "}", "{}", "{a:0}", "{a:10000}", "{a..b}", "{a", "a b", "%4", "{-a}")),
    # RFC 9562, section 4.
    Format("uuid", "Uuid", 201909,
           ("00000000-0000-4000-8000-000000000000", "f81d4fae-7dec-11d0-a765-00a0c91e6bf6",
            "F81D4FAE-7DEC-11D0-A765-00A0C91E6BF6"),
           ("x", "", "f81d4fae7dec11d0a76500a0c91e6bf6", "f81d4fae-7dec-11d0-a765-00a0c91e6bf",
            "g81d4fae-7dec-11d0-a765-00a0c91e6bf6", "{f81d4fae-7dec-11d0-a765-00a0c91e6bf6}"), (36, 36)),
)
FORMAT_NAMES = tuple(dict.fromkeys(it.name for it in FORMATS))


def format_in(draft, name):
    """The built-in format of a name in a draft, or None."""
    return next((it for it in FORMATS if it.name == name and it.is_in(draft)), None)


# ---- encodings (RFC 4648)

ENCODERS = {
    "base64": base64.b64encode,
    "base64url": base64.urlsafe_b64encode,
    "base32": base64.b32encode,
    "base32hex": base64.b32hexencode,
    "base16": base64.b16encode,
}
DECODERS = {
    "base64": base64.b64decode,
    "base64url": base64.urlsafe_b64decode,
    "base32": base64.b32decode,
    "base32hex": base64.b32hexdecode,
    "base16": lambda text: base64.b16decode(text, casefold=True),
}
# The vectors of RFC 4648, section 10, letters past 62, a JSON text, one that is none, and bytes that are no UTF-8.
ENCODED_BYTES = (b"", b"f", b"fo", b"foo", b"foob", b"fooba", b"foobar", b"<<??>>", b"{}", b"{:}", b"[1]", b"\xff\xfe")


def encodings(codec):
    """The texts that the codec makes of those bytes."""
    return {ENCODERS[codec](it).decode(): it for it in ENCODED_BYTES}


def encoded_bytes(codec, text):
    """What a text encodes, or None where no encoder writes it. The letters of base16 have either case (section 8)."""
    try:
        found = DECODERS[codec](text.encode("ascii"))
    except ValueError:
        return None
    written = ENCODERS[codec](found).decode()
    return found if written == (text.upper() if codec == "base16" else text) else None


# Texts that no encoder makes: padding that is missing, too long or inside, spare bits, another alphabet, white space.
NO_ENCODINGS = {
    "base64": ("!", "Zh==", "Zg=", "Zg", "Zg===", "Zm9v====", "Zg==Zg==", "PDw_Pz4-", "Zm9v\n", "Z"),
    "base64url": ("!", "Zh==", "Zg=", "Zg", "PDw/Pz4+", "Zm9v+YmFy", "Zm9v "),
    "base32": ("!", "MZ======", "MY=====", "MY", "my======", "CO======", "189", "MY======MY======"),
    "base32hex": ("!", "CP======", "CO=====", "CO", "co======", "MZXW6YQ=", "XYZ"),
    "base16": ("!", "6", "7b7", "66\n", "66 6F", "GHIJ", "\ufb00", "666F6f6"),
}
# JSON texts (RFC 8259), and texts that are none.
JSON_TEXTS = ("{}", "[1]", "\"a\"", "null", " 1 ", "-0.5e2", "{\"a\":[true,{}]}", "0", "\t\r\n[ ]\n",
              "{\"a\":1,\"a\":2}", "\"\\u00e9\\/\"", "\"\u2028\x7f\"", "1E+2")
NO_JSON_TEXTS = ("", "{:}", "{", "01", "'a'", "[1,]", "nul", "{\"a\":1,}", "1 2", "+1", "!", "NaN", "Infinity",
                 "-Infinity", "\u00a01", "1\u2028", "\x0c1", "\"\t\"", "\"\\'\"", ".5", "5.", "1e", "0x1", "// 1",
                 "[1]]", "\ufeff1", "True")


def is_json(text):
    """Whether it is a JSON text (RFC 8259), with no surrogate that is alone and no number that no double is near."""
    def finite(written):
        """A number, unless no double is near it."""
        if not isfinite(float(written)):
            raise ValueError(written)
        return 0
    try:
        json.dumps(json.loads(text, parse_int=finite, parse_float=finite, parse_constant=finite),
                   ensure_ascii=False).encode()
    except ValueError:
        return False
    return True
