"""Labels and internationalised names of hosts: RFC 5890 to 5893, with the tables of Unicode."""
import functools
import itertools
import re
import unicodedata

from rows.grammars.common import (ASCII, DIGITS, LETTERS, accepted_between, changed_row, characters, counts,
                                  decorated_row, in_forms, payloads, span, sums, texts, whole, words)
from rows.grammars.hosts import LABEL, NAME
from rows.grammars.uris import ends

# Labels and host names: RFC 5890 to 5892 as the crate's README says them.

RIGHT_LABELS = ["xn--ll-0ea", "xn--9krt00a", "XN--11b2ezcw70k", "a", "b-c", "0", "xn-a", "x--n", "xn", "abc-d", "ab-cd",
                "xnn-ll-0ea", "xn-nll-0ea"]
WRONG_LABELS = ["xn--a", "xn--l-fda", "xn--", "ab--c", "xn--vek", "a--b-", "a---b", "xn-", "-xn--ll-0ea", "0n--ll-0ea",
                "xn--ss", "xn--\u00e9", "-a", "a-", "", "xn---", "xm--a"]


def is_right_label(label):
    """Whether the label is one of the right ones."""
    return label in RIGHT_LABELS


def names_of_labels():
    """Each label at each of up to four places, among labels that are right."""
    for label, before, behind in itertools.product(RIGHT_LABELS + WRONG_LABELS, range(4), range(4)):
        if before + behind < 4:
            for other in ("a", "xn--ll-0ea"):
                yield [*[other] * before, label, *[other] * behind]


def encoded_labels():
    """Labels that Python's codec `punycode` encodes, about as long as a label may be."""
    for letters in range(40, 62):
        for text in ("ü", "üü", "中", "\U00020000", "éa中"):
            yield "xn--" + ("a" * letters + text).encode("punycode").decode()


def payload_rows():
    """Texts of Punycode that encode nothing."""
    yield ("what encodes nothing: characters past ASCII before the last hyphen and behind it, and other characters "
           "than digits behind it")
    forms = ("{}-", "{}-a", "{}-fda", "a{}b-kva", "a-{}", "{}", "fd{}a", "{0}{0}-aaa")
    yield payloads([[*in_forms(forms, character), None] for character in "\u0080\u00e9\u00ff\u4e00\U0001f600"])
    forms = ("a-{}", "a-a{}", "a-{}a", "l-f{}a")
    yield payloads([[*in_forms(forms, character), None] for character in "\u0000 !./:@[`{~\u007f"])


def repeated_rows():
    """Labels of one character so many times over, which have few characters in encoded form and many octets."""
    yield "a limit counts the characters of a label in encoded form, not those of what it encodes, nor its octets"
    forms = [character * count for character in "\u00fc\u0915\u4e00\U00020000" for count in range(1, 64)]
    forms += [f"{letters}{character * count}" for letters in ("a", "abc-d") for character in "\u00fc\U00020000"
              for count in range(15, 60, 4)]
    labels = [f"xn--{form.encode('punycode').decode()}" for form in forms]
    for of in ("hostname", IDN):
        yield texts(of, labels, lambda label: len(label) <= 63)
    yield texts(IDN, forms, is_idn_host_name)
    yield texts("u-label", forms, is_u_label)
    yield texts("idn-email", [f"a@{form}" for form in forms],
                lambda text: is_u_label(text[2:]) and len(text[2:].encode()) <= 255)


# A letter of each of some scripts that run from left to right.
OF_SCRIPTS = "a\u0430\u03b1\u4e00\u3042\u30a2\uac00\u0e01\u0915\u10d0\u0561\u13a0\u1820\U00010400\U00016f00"
OF_LEFT_SCRIPTS = "\u05d0\u0628\u0710\u07ca"


def script_rows():
    """Labels of letters of two scripts."""
    yield ("a label may have marks and hyphens in a row, digits alone, digits of several scripts, or one character: no "
           "rule of RFC 5890 to 5893 is against it")
    forms = [letter + mark * count for letter, mark in (("\u0e01", "\u0e48"), ("\u0915", "\u094d"), ("q", "\u0301"),
                                                        ("\u05d0", "\u05b0")) for count in range(1, 45)]
    forms += words("1\u0967\u0e51-", (1, 2, 3)) + words("-\u4e00a\u0e48", (4,))
    forms += ["a---\u00fc", "\u00fc---a", "\u00fc-1-2"]
    yield idn_texts(in_forms(("{}", "a.{}"), forms))
    yield texts("u-label", forms, is_u_label)
    labels = {to_a_label(form): form for form in forms if not form.isascii()}
    yield texts("hostname", labels, lambda label: whole(LABEL)(label) and is_hostname_form(labels[label]))
    yield "a label may have letters of several scripts: RFC 5890 to 5893 leave that to registries"
    forms = [*words(OF_SCRIPTS, (2,)), *words(OF_LEFT_SCRIPTS, (2,))]
    forms += [*words("a1\u0430", (3,)), *words("a\u03b1\u0430", (3,))]
    forms = [form for form in forms if not form.isascii()]
    labels = {to_a_label(form): form for form in forms}
    yield texts("hostname", labels, lambda label: is_hostname_form(labels[label]))
    yield idn_texts(in_forms(("{}", "a.{}"), [*forms, *labels]))
    yield texts("u-label", forms, is_u_label)
    yield texts("idn-email", [f"a@{form}" for form in forms], is_domain_of_labels)


def is_name_of_plain_labels(text):
    """A host name whose labels have no hyphens in third and fourth place."""
    return whole(NAME)(text) and all(label[2:4] != "--" for label in text.split("."))


def decorated_names():
    """Names and labels with what stands around them and in them."""
    yield "what other programs pass over, put around a text or take for a character of it"
    yield changed_row("hostname", ("a1.b-c", "1", "a-b--c.1-d"), is_name_of_plain_labels)
    yield changed_row(IDN, ("a1.b-c", "b\u00fc.c", "xn--bcher-kva", "\u05d0.b"), is_idn_host_name)
    yield changed_row("u-label", ("b\u00fc", "\u4e2d-\u56fd", "l\u00b7l\u00fc"), is_u_label)
    yield decorated_row("hostname", ("a.b-c.de", "1a"), is_name_of_plain_labels)
    names_past_ascii = ("a.b-c.de", "b\u00fccher.example", "\u05d0\u05d1.\u05d2", "\u4e2d\u56fd", "\u0e01\u0e48")
    yield decorated_row(IDN, names_past_ascii, is_idn_host_name)
    wholes = ("b\u00fccher", "\u05d0\u05d1", "\u4e2d\u56fd", "l\u00b7l", "\u0915\u094d\u200d\u0937", "\u0784\u07a6")
    yield decorated_row("u-label", wholes, is_u_label)


def basic_rows():
    """Each character of ASCII among those that a payload has as they are."""
    yield "each character of ASCII before the last hyphen of a payload, alone, first and last (RFC 3492, section 3.1)"
    forms = ("{}", "{}ü", "{}a", "a{}", "a{}ü", "{}a\u4e00", "ü{}", "{0}{0}\U0010ffff", "{}ü{}ä")
    decoded_texts = in_forms(forms[:8], ASCII) + [f"{sign}ü{sign}ä" for sign in ASCII]
    yield payloads([[text.encode("punycode").decode(), text] for text in dict.fromkeys(decoded_texts)])
    yield "what is past the basic plane, noncharacters and what is for private use"
    far = [0xFDD0, 0xFFFD, 0xFFFE, 0xFFFF, 0x10000, 0x1FFFE, 0x20000, 0xE0001, 0xEFFFF, 0xF0000, 0xFFFFF, 0x100000,
           0x10FFFF, 0x80, 0x9F, 0xAD, 0x378, 0xD7FF, 0xE000, 0xF8FF]
    yield payloads([[text.encode("punycode").decode(), text] for point in far
                    for text in (chr(point), f"a{chr(point)}", f"{chr(point)}-ü", chr(point) * 3)])


def digit_rows():
    """Digits of both Arabic sets in a label."""
    yield "digits of both Arabic sets, in either order and beside one another"
    digits = [chr(at) for at in (0x660, 0x661, 0x669, 0x6F0, 0x6F1, 0x6F9)] + ["a", "\u0628"]
    has_one, has_other = re.compile("[\u0660-\u0669]").search, re.compile("[\u06f0-\u06f9]").search
    labels = words(digits, (1, 2, 3)) + words(digits[::2], (4,))
    beside = [chr(at) for at in (0x65F, *range(0x660, 0x66A), 0x66E, *range(0x6EE, 0x6FD))]
    labels += [f"\u0628{one}{other}" for one in beside for other in beside]
    yield texts("label", labels, lambda text: not (has_one(text) and has_other(text)))


WORDS_OF_WIDE_NAMES = [("{}", "\u00fc-.1a", (3, 4, 5)), ("{}", "\u05d0.1a", (3, 4, 5)),
                       ("{}", "\u0628.\u06601-", (3, 4)), ("{}\u00fc", "a\u3002\uff0e\uff61.-", (1, 2, 3)),
                       ("{}tda", "xXnN-", (4,)), ("xn--{}", "tdaTDA", (3,))]
WORDS_OF_LABELS = [("{}", "\u00fca-1", (3, 4, 5)), ("{}", "\u05d0\u05b01-", (3, 4, 5)),
                   ("{}", "\u0628\u064b\u200c\u0660", (4, 5)), ("{}", "\u0915\u094d\u200d\u200c", (4, 5)),
                   ("{}", "l\u00b7L", (4, 5, 6)), ("{}", "\u30fba\u3042\u4e00", (4, 5)),
                   ("{}", "\u0375\u03b1a\u0301", (4,))]
# Characters that are admitted in Unicode 18 and were not assigned in Unicode 14, by the first edition that has them of
# 15.0, 15.1, 17.0 and 18.0. Python 3.12 and 3.13 and Node 20.20.2 have the first three; the last is that of the
# toolchain alone.
ADDED = {
    "18.0":
        "558 58B-58C 5C8-5C9 B53-B54 1ADE-1ADF 1AEC-1AF0 208F 209D-209F A7DD A7E2 AB6C-AB6D 107BB-107BF 10ECB-10ECF "
        "10ED9-10EEE 10EF0-10EF9 11B0A 11DF0-11DF1 18CD6-18CDA 18D1F-18D20 18E00-19191 191A0-191D2 1B123-1B128 1B168 "
        "1D127-1D128 1D250-1D252 1D25B-1D25C 1D25F 1D280-1D281 1D6A6 1DF1F-1DF24 1DF2B-1DF81 1DF90-1DF96 1DFCD-1DFFF "
        "2B81E 3D000-3FC3F",
    "17.0":
        "88F 897 C5C CDC 1ACF-1ADD 1AE0-1AEB 1C89-1C8A A7CB-A7CF A7D2 A7D4 A7DA-A7DC A7F1 105C0-105F3 10940-10959 "
        "10D40-10D65 10D69-10D6D 10D6F-10D85 10EC2-10EC7 10EFA-10EFC 11380-11389 1138B 1138E 11390-113B5 113B7-113C0 "
        "113C2 113C5 113C7-113CA 113CC-113D3 113E1-113E2 116D0-116E3 11B60-11B67 11BC0-11BE0 11BF0-11BF9 11DB0-11DDB "
        "11DE0-11DE9 11F5A 13460-143FA 16100-16139 16D40-16D6C 16D70-16D79 16EA0-16EB8 16EBB-16ED3 16FF2-16FF3 "
        "187F8-187FF 18CFF 18D09-18D1E 18D80-18DF2 1CCF0-1CCF9 1E5D0-1E5FA 1E6C0-1E6DE 1E6E0-1E6F5 1E6FE-1E6FF "
        "2B73A-2B73F 2CEA2-2CEAD 323B0-33479",
    "15.0":
        "CF3 ECE 10EFD-10EFF 1123F-11241 11F00-11F10 11F12-11F3A 11F3E-11F42 11F50-11F59 1342F 13440-13455 1B132 1B155 "
        "1DF25-1DF2A 1E030-1E06D 1E08F 1E4D0-1E4F9 2B739 31350-323AF",
    "15.1": "2EBF0-2EE5D",
}
# Marks among them.
ADDED_MARKS = (
    "5C8-5C9 897 B53-B54 CF3 ECE 1ACF-1AF0 10D69-10D6D 10ECB-10ECF 10EF0-10EFF 11241 113B8-113C0 113C2 113C5 "
    "113C7-113CA 113CC-113D0 113D2 113E1-113E2 11B60-11B67 11DF0 11F00-11F01 11F03 11F34-11F3A 11F3E-11F42 11F5A 13440 "
    "13447-13455 1611E-1612F 1D127-1D128 1D250-1D252 1D25B-1D25C 1D25F 1D280-1D281 1E08F 1E4EC-1E4EF 1E5EE-1E5EF 1E6E3 "
    "1E6E6 1E6EE-1E6EF 1E6F5")


def points_of(ranges):
    """The code points of ranges, each written as `A` or as `A-B`."""
    pairs = [(part.split("-") * 2)[:2] for part in ranges.split()]
    return {point for low, high in pairs for point in range(int(low, 16), int(high, 16) + 1)}


ADDED_POINTS = set().union(*map(points_of, ADDED.values()))
ADDED_MARK_POINTS = points_of(ADDED_MARKS)
ADDED_STARTS = ADDED_POINTS - ADDED_MARK_POINTS
# Exceptions and contextual rules of RFC 5892 that no letter on both sides fulfils.
NOT_BETWEEN_LETTERS = (0x640, 0x7FA, 0x302E, 0x302F, 0x303B, 0x30FB, 0xB7, 0x375, 0x5F3, 0x5F4, 0x200C, 0x200D,
                       *range(0x3031, 0x3036))


def is_admitted(point):
    """Whether a character may stand between two letters: RFC 5892 by general categories, as the crate has it."""
    if point < 0x80 or point in (0x6FD, 0x6FE, 0xF0B, 0x3007):
        return True
    if point in NOT_BETWEEN_LETTERS:
        return False
    if 0x3040 <= point <= 0x30FF or 0x4E00 <= point <= 0x9FFF or point in ADDED_POINTS:
        return True
    return unicodedata.category(chr(point)) in ("Lu", "Ll", "Lt", "Lm", "Lo", "Mn", "Mc", "Nd")


def is_mark(point):
    """Whether the general category is that of a mark."""
    return unicodedata.category(chr(point)) in ("Mn", "Mc", "Me") or point in ADDED_MARK_POINTS


def is_first(point):
    """Whether a character may be first in a label."""
    return is_admitted(point) and not is_mark(point)


def is_of_host_names(point):
    """Whether a character may stand in a host name of RFC 1034."""
    return chr(point) in LETTERS + DIGITS + "-."


def code_point_rows():
    """All code points in labels and in host names."""
    yield ("all code points, by another edition of Unicode (docs/CODE_POINTS.md names what is added since): which are "
           "admitted in a label, and of the first 131,072 which first in one")
    yield sums("label", [["a", "a"]], is_admitted, 0x1000)
    yield sums("label", [["", "a"]], is_first, 0x1000, 0x20000)
    yield ("a character with a rule of its own stands beside what is in a block or a list, and beside nothing past it, "
           "where RFC 5892 has a script or a class")
    past = {("a\u30fb", ""): (0xA000, 0x40000), ("a\u0375", ""): (0x400, 0x20000), ("a", "\u05f3"): (0x600, 0x20000),
            ("a", "\u05f4"): (0x600, 0x20000), ("a", "\u200c"): (0x11D98, 0x20000), ("a", "\u200d"): (0x11D98, 0x20000),
            ("l\u00b7", ""): (0x80, 0x20000), ("", "\u00b7l"): (0x80, 0x20000)}
    for (before, behind), (low, high) in past.items():
        yield {"ask": "sums", "of": "label", "places": [[before, behind]], "rows": [[low, high, 0, 0]]}, 1
    yield "and which are characters of a host name, where the labels of both formats are read alike"
    for of, end in (("hostname of RFC 1034", 0x110000), ("hostname", 0x10000)):
        yield sums(of, [["a", "a"]], is_of_host_names, 0x10000, end)


# Internationalised host names: RFC 5890 to 5893, with the four dots of RFC 3490, section 3.1, between the labels.

IDN = "idn-hostname"
DOTS = ".\u3002\uff0e\uff61"
# RFC 5892, section 2.6.
EXCEPTIONS = {"PVALID": points_of("DF 3C2 6FD-6FE F0B 3007"),
              "CONTEXTO": points_of("B7 375 5F3-5F4 30FB 660-669 6F0-6F9"),
              "DISALLOWED": points_of("640 7FA 302E-302F 3031-3035 303B")}
# Section 2.3 by PropList.txt and DerivedCoreProperties.txt: Default_Ignorable_Code_Point, and White_Space.
IGNORABLE = points_of(
    "AD 34F 61C 115F-1160 17B4-17B5 180B-180F 200B-200F 202A-202E 2060-206F 3164 FE00-FE0F FEFF FFA0 FFF0-FFF8 "
    "1BCA0-1BCA3 1D173-1D17A E0000-E0FFF 9-D 20 85 A0 1680 2000-200A 2028-2029 202F 205F 3000")
# Section 2.4, the three blocks, and section 2.9 by HangulSyllableType.txt, the types L, V and T.
IGNORABLE_BLOCKS = "20D0-20FF 1D100-1D1FF 1D200-1D24F"
OLD_JAMO = "1100-115F 1160-11A7 11A8-11FF A960-A97C D7B0-D7C6 D7CB-D7FB"
DISALLOWED_POINTS = IGNORABLE | points_of(IGNORABLE_BLOCKS) | points_of(OLD_JAMO)
LETTER_DIGITS = ("Ll", "Lu", "Lo", "Nd", "Lm", "Mn", "Mc")
# Of what is admitted since Unicode 14: what has a compatibility mapping or is a capital letter, what runs from right to
# left, Arabic numbers and a neutral among them, and what is a nonspacing mark. All else of it runs from left to right.
ADDED_UNSTABLE = points_of(
    "1C89 A7CB-A7CC A7CE A7D2 A7D4 A7DA A7DC A7F1 10D50-10D65 16EA0-16EB8 1CCF0-1CCF9 1E030-1E06D 558 58B-58C "
    "209D-209F 107BB-107BF 1B123-1B126 1D6A6 1DF95 1DFCD-1DFFF A7DD A7E2 AB6C-AB6D 1DF40 1DF48 1DF4A 1DF4D 1DF51 1DF68 "
    "1DF6A 1DF6C 1DF6E 1DF72 1DF74 1DF76 1DF78 1DF7A 1DF7C 1DF7E")
ADDED_RIGHT_TO_LEFT = points_of("88F 10940-10959 10D4A-10D65 10D6F-10D85 10EC2-10EC7 10ED9-10EEE")
ADDED_ARABIC_NUMBERS = points_of("10D40-10D49")
ADDED_NEUTRALS = points_of("208F")
ADDED_NONSPACING = points_of(
    "5C8-5C9 897 B53-B54 ECE 1ACF-1AF0 10D69-10D6D 10ECB-10ECF 10EF0-10EFF 11241 113BB-113C0 113CE 113D0 113D2 "
    "113E1-113E2 11B60 11B62-11B64 11B66 11DF0 11F00-11F01 11F36-11F3A 11F40 11F42 11F5A 13440 13447-13455 1611E-16129 "
    "1612D-1612F 1D127-1D128 1D25B-1D25C 1E08F 1E4EC-1E4EF 1E5EE-1E5EF 1E6E3 1E6E6 1E6EE-1E6EF 1E6F5")
ADDED_VIRAMAS = points_of("113CE-113D0 11F41-11F42 1612F")
# Marks of the class NSM in Unicode 14 that run from left to right since. The last is a spacing mark since.
TURNED_LEFT = points_of("1B3A 1B3C 1B42 1171E")
# Scripts.txt of Unicode 17.
SCRIPT_RANGES = {
    "Greek":
        "370-373 375-377 37A-37D 37F 384 386 388-38A 38C 38E-3A1 3A3-3E1 3F0-3FF 1D26-1D2A 1D5D-1D61 1D66-1D6A 1DBF "
        "1F00-1F15 1F18-1F1D 1F20-1F45 1F48-1F4D 1F50-1F57 1F59 1F5B 1F5D 1F5F-1F7D 1F80-1FB4 1FB6-1FC4 1FC6-1FD3 "
        "1FD6-1FDB 1FDD-1FEF 1FF2-1FF4 1FF6-1FFE 2126 AB65 10140-1018E 101A0 1D200-1D245",
    "Hebrew": "591-5C7 5D0-5EA 5EF-5F4 FB1D-FB36 FB38-FB3C FB3E FB40-FB41 FB43-FB44 FB46-FB4F",
    "Hiragana": "3041-3096 309D-309F 1B001-1B11F 1B132 1B150-1B152 1F200",
    "Katakana":
        "30A1-30FA 30FD-30FF 31F0-31FF 32D0-32FE 3300-3357 FF66-FF6F FF71-FF9D 1AFF0-1AFF3 1AFF5-1AFFB 1AFFD-1AFFE "
        "1B000 1B120-1B122 1B155 1B164-1B167",
    "Han":
        "2E80-2E99 2E9B-2EF3 2F00-2FD5 3005 3007 3021-3029 3038-303B 3400-4DBF 4E00-9FFF F900-FA6D FA70-FAD9 "
        "16FE2-16FE3 16FF0-16FF6 20000-2A6DF 2A700-2B81D 2B820-2CEAD 2CEB0-2EBE0 2EBF0-2EE5D 2F800-2FA1D 30000-3134A "
        "31350-33479",
}
# What Unicode 18 has more of each.
ADDED_TO_SCRIPTS = {"Greek": "1DFF3-1DFF4", "Hebrew": "5C8-5C9", "Hiragana": "1B123", "Katakana": "1B124-1B128 1B168",
                    "Han": "2B81E"}
SCRIPT_POINTS = {script: points_of(f"{ranges} {ADDED_TO_SCRIPTS[script]}") for script, ranges in SCRIPT_RANGES.items()}
JAPANESE = SCRIPT_POINTS["Hiragana"] | SCRIPT_POINTS["Katakana"] | SCRIPT_POINTS["Han"]
# DerivedJoiningType.txt of Unicode 17: D, R and L; the last range of L is of Unicode 18.
JOINING = {
    "D":
        "620 626 628 62A-62E 633-63F 641-647 649-64A 66E-66F 678-687 69A-6BF 6C1-6C2 6CC 6CE 6D0-6D1 6FA-6FC 6FF "
        "712-714 71A-71D 71F-727 729 72B 72D-72E 74E-758 75C-76A 76D-770 772 775-777 77A-77F 7CA-7EA 841-845 848 "
        "84A-853 855 860 862-865 868 886 889-88D 88F 8A0-8A9 8AF-8B0 8B3-8B8 8BA-8C8 1807 1820-1878 1887-18A8 18AA "
        "A840-A871 10AC0-10AC4 10AD3-10AD6 10AD8-10ADC 10ADE-10AE0 10AEB-10AEE 10B80 10B82 10B86-10B88 10B8A-10B8B "
        "10B8D 10B90 10BAD-10BAE 10D01-10D21 10D23 10EC3-10EC4 10EC6-10EC7 10F30-10F32 10F34-10F44 10F51-10F53 "
        "10F70-10F73 10F76-10F81 10FB0 10FB2-10FB3 10FB8 10FBB-10FBC 10FBE-10FBF 10FC1 10FC4 10FCA 1E900-1E943",
    "R":
        "622-625 627 629 62F-632 648 671-673 675-677 688-699 6C0 6C3-6CB 6CD 6CF 6D2-6D3 6D5 6EE-6EF 710 715-719 71E "
        "728 72A 72C 72F 74D 759-75B 76B-76C 771 773-774 778-779 840 846-847 849 854 856-858 867 869-86A 870-882 88E "
        "8AA-8AC 8AE 8B1-8B2 8B9 10AC5 10AC7 10AC9-10ACA 10ACE-10AD2 10ADD 10AE1 10AE4 10AEF 10B81 10B83-10B85 10B89 "
        "10B8C 10B8E-10B8F 10B91 10BA9-10BAC 10D22 10EC2 10F33 10F54 10F74-10F75 10FB4-10FB6 10FB9-10FBA 10FBD "
        "10FC2-10FC3 10FC9",
    "L": "A872 10ACD 10AD7 10D00 10FCB 10ED9-10EEE",
}
JOINING_POINTS = {kind: points_of(ranges) for kind, ranges in JOINING.items()}
# All of categories Mn, Me and Cf have the joining type T but these.
NOT_TRANSPARENT = points_of("600-605 6DD 890-891 8E2 180E 200C-200D 2066-2069 110BD 110CD 1171E")


@functools.lru_cache(None)
def derived_property(point):
    """RFC 5892, section 3: the first class that has the code point decides."""
    for value, points in EXCEPTIONS.items():
        if point in points:
            return value
    if point in ADDED_POINTS:
        return "DISALLOWED" if point in ADDED_UNSTABLE or point in DISALLOWED_POINTS else "PVALID"
    character, is_noncharacter = chr(point), 0xFDD0 <= point <= 0xFDEF or point & 0xFFFE == 0xFFFE
    category = unicodedata.category(character)
    if category == "Cn" and not is_noncharacter:
        return "UNASSIGNED"
    if character in "-0123456789abcdefghijklmnopqrstuvwxyz":
        return "PVALID"
    if point in (0x200C, 0x200D):
        return "CONTEXTJ"
    compatible = functools.partial(unicodedata.normalize, "NFKC")
    if compatible(compatible(character).casefold()) != character or is_noncharacter or point in DISALLOWED_POINTS:
        return "DISALLOWED"
    return "PVALID" if category in LETTER_DIGITS else "DISALLOWED"


def derived_rows():
    """The derived property of each character that Unicode 14 or a later edition here has, but within long ranges."""
    yield ("the derived property of all characters of another edition of Unicode (RFC 5892, section 3): of a range of "
           "one property its first and last 64")
    points = [point for point in range(0x110000) if not 0xD800 <= point <= 0xDFFF]
    ranges = []
    for (value, _), some in itertools.groupby(points, key=lambda point: (derived_property(point), 0xD800 < point)):
        some = list(some)
        if value != "UNASSIGNED":
            parts = [some] if len(some) <= 128 else [some[:64], some[-64:]]
            ranges += [[chr(part[0]) + chr(part[-1]), value] for part in parts]
    for at in range(0, len(ranges), 500):
        asked = ranges[at:at + 500]
        row = {"ask": "properties", "of": "RFC 5892", "rows": asked}
        yield row, sum(ord(ends[1]) - ord(ends[0]) + 1 for ends, _ in asked)
    far = [[chr(low) + chr(high), "UNASSIGNED"] for low, high in (
        (0x40000, 0x40040), (0x4FFC0, 0x4FFFD), (0xD0000, 0xD0040), (0xDFFC0, 0xDFFFD), (0xE0000, 0xE0000),
        (0xE0002, 0xE001F), (0xE0080, 0xE00FF), (0xE01F0, 0xE0FFF), (0xEFFC0, 0xEFFFD), (0x2065, 0x2065),
        (0xFFF0, 0xFFF8), (0x378, 0x379), (0x530, 0x530), (0x590, 0x590))]
    yield ({"ask": "properties", "of": "RFC 5892", "rows": far},
           sum(ord(ends[1]) - ord(ends[0]) + 1 for ends, _ in far))


def is_permitted(point):
    """Whether a character may stand in a U-label, in its context at least."""
    return derived_property(point) in ("PVALID", "CONTEXTJ", "CONTEXTO")


@functools.lru_cache(None)
def direction(point):
    """The property Bidi_Class; R stands for AL too, which no rule tells from it."""
    if point in ADDED_RIGHT_TO_LEFT:
        return "R"
    if point in ADDED_ARABIC_NUMBERS:
        return "AN"
    if point in ADDED_NEUTRALS:
        return "ON"
    if point in ADDED_NONSPACING:
        return "NSM"
    if point in TURNED_LEFT or point in ADDED_POINTS:
        return "L"
    return unicodedata.bidirectional(chr(point)).replace("AL", "R")


def is_transparent(point):
    """Whether the joining type is T."""
    if point in ADDED_NONSPACING or point == 0x1E94B:
        return True
    return unicodedata.category(chr(point)) in ("Mn", "Me", "Cf") and point not in NOT_TRANSPARENT


def joins(points, kinds):
    """Whether the first of the characters that is not transparent has one of these joining types."""
    first = next((point for point in points if not is_transparent(point)), None)
    return any(first in JOINING_POINTS[kind] for kind in kinds)


def fits_context(points, at):
    """RFC 5892, appendices A.1 to A.9, of the character at a place."""
    point, before, behind = points[at], points[at - 1:at], points[at + 1:at + 2]
    follows_virama = any(unicodedata.combining(chr(other)) == 9 or other in ADDED_VIRAMAS for other in before)
    if point == 0x200C:
        return follows_virama or joins(points[:at][::-1], "LD") and joins(points[at + 1:], "RD")
    if point == 0x200D:
        return follows_virama
    if point == 0xB7:
        return before == behind == [ord("l")]
    if point == 0x375:
        return any(other in SCRIPT_POINTS["Greek"] for other in behind)
    if point in (0x5F3, 0x5F4):
        return any(other in SCRIPT_POINTS["Hebrew"] for other in before)
    if point == 0x30FB:
        return not JAPANESE.isdisjoint(points)
    return not (0x660 <= point <= 0x669 and any(0x6F0 <= other <= 0x6F9 for other in points))


def is_unicode_label(label):
    """RFC 5891, section 4.2, and RFC 5890, section 2.3.2.1."""
    points = [ord(character) for character in label]
    if label.isascii() or unicodedata.normalize("NFC", label) != label or not all(map(is_permitted, points)):
        return False
    if label.startswith("-") or label.endswith("-") or label[2:4] == "--" or is_mark(points[0]):
        return False
    return all(fits_context(points, at) for at in range(len(points)))


def to_a_label(form):
    """The A-label of a U-label, by Python's codec."""
    return "xn--" + form.encode("punycode").decode()


def encoded(form):
    """A label as it stands in a name in encoded form."""
    return form if form.isascii() else to_a_label(form)


# A character takes less than nine letters and digits of Punycode, so no A-label of so many is longer than 63, and no
# name of so many in encoded form longer than 253. These are not encoded.
SHORT_LABEL, SHORT_NAME = 6, 16


def decoded_label(label):
    """The U-label that an A-label stands for; `None` where it is no A-label."""
    try:
        form = label[4:].lower().encode().decode("punycode")
    except (UnicodeError, ValueError, OverflowError):
        return None
    return form if is_unicode_label(form) and to_a_label(form) == label.lower() else None


def unicode_form(label):
    """The form that a label stands for, or `None`.

    An NR-LDH label and a U-label stand for themselves, an A-label for its U-label.
    """
    if whole(LABEL)(label) and label[2:4] != "--":
        return label
    form = decoded_label(label) if label.isascii() and label[:4].lower() == "xn--" else label
    if form is None or len(form) > SHORT_LABEL and len(to_a_label(form)) > 63:
        return None
    return form if is_unicode_label(form) else None


def keeps_bidi_rule(label):
    """RFC 5893, section 2."""
    classes = [direction(ord(character)) for character in label]
    ending = next((kind for kind in reversed(classes) if kind != "NSM"), None)
    others = {"EN", "ES", "CS", "ET", "ON", "BN", "NSM"}
    if classes[0] == "L":
        return set(classes) <= others | {"L"} and ending in ("L", "EN")
    if classes[0] != "R" or not set(classes) <= others | {"R", "AN"}:
        return False
    return ending in ("R", "EN", "AN") and not {"EN", "AN"} <= set(classes)


def runs_to_left(form):
    """Whether a character of the label makes the rule for both directions apply."""
    return any(direction(ord(character)) in ("R", "AN") for character in form)


def is_idn_host_name(text):
    """Whether the text is a host name of A-labels, U-labels and NR-LDH labels, with each of the four dots."""
    forms = [unicode_form(label) for label in re.split(f"[{DOTS}]", text)]
    if None in forms:
        return False
    if any(map(runs_to_left, forms)) and not all(map(keeps_bidi_rule, forms)):
        return False
    return len(text) <= SHORT_NAME or len(".".join(map(encoded, forms))) <= 253


def idn_sums(before, behind, end=0x110000):
    """Which characters make a host name there; those that no label has are no dots, and are left out at once."""
    def is_right(point):
        """Whether the character makes a host name there."""
        is_tried = is_permitted(point) or chr(point) in DOTS
        return is_tried and is_idn_host_name(before + chr(point) + behind)

    return sums(IDN, [[before, behind]], is_right, 0x1000, end)


def idn_texts(candidates):
    """The texts, each by whether it is an internationalised host name."""
    return texts(IDN, candidates, is_idn_host_name)


def idn_characters(places, tried):
    """The characters, each at each place by what the rules say of it there."""
    for before, behind in places:
        accepted = accepted_between(is_idn_host_name, dict.fromkeys(tried), before, behind)
        yield characters(IDN, accepted, [[before, behind]], tried)


def near(ranges):
    """The ends of ranges that are written as `points_of` reads them, and the characters beside them."""
    return ends([(min(points), max(points)) for points in map(points_of, ranges.split())])


# A Han and a Hebrew letter: nothing composes with either, and they run in the two directions.
WIDE_PLACES = [["\u4e00", "\u4e00"], ["\u05d0", "\u05d0"]]
# Characters of each class that a label may have: L, R, AL, AN, EN, another EN, ES, ON and NSM.
OF_CLASSES = "\u4e00\u05d0\u0628\u0660" + "0\u06f0-\u02b9\u05b0"


def permission_rows():
    """Characters that the classes of RFC 5892 permit or disallow."""
    yield ("each exception of RFC 5892, section 2.6, alone and between letters of both directions, and the characters "
           "beside it")
    for value in EXCEPTIONS:
        tried = "".join(chr(point + step) for point in sorted(EXCEPTIONS[value]) for step in (-1, 0, 1))
        places = WIDE_PLACES + [["", ""], ["l", "l"], ["\u03b1", "\u03b1"], ["\u30a2", ""]]
        yield from idn_characters(places, tried)
    yield "the ends of the classes of sections 2.3 to 2.5, 2.8 and 2.9, and one off each end"
    beside_wide = WIDE_PLACES + [["", "\u4e00"], ["\u4e00", ""]]
    of_ascii = "2D 30-39 41-5A 61-7A"
    noncharacters = "200C-200D FDD0-FDEF FFFE-FFFF 1FFFE-1FFFF 10FFFE-10FFFF E0000-E0FFF"
    ignorable = ("AD 34F 61C 17B4-17B5 180B-180F 200B-200F 2060-206F 3164 FE00-FE0F FFF0-FFF8 85 1680 2000-200A "
                 "2028-2029 202F 205F 3000")
    for ranges in (IGNORABLE_BLOCKS, OLD_JAMO, of_ascii, noncharacters, ignorable):
        yield from idn_characters(beside_wide, near(ranges))
    yield "each ASCII character beside a character past ASCII"
    yield from idn_characters(beside_wide + [["xn-", "\u00fc"], ["\u00fcn-", "a"]], ASCII)
    yield "each ASCII character in a label of its own, alone and beside a U-label"
    places = [["", ""], ["a", "b"], ["a.", ".b"], ["", ".\u00fc"], ["\u00fc.", ""], ["a", "b.\u00fc"],
              ["\u00fc.a", "b"]]
    yield from idn_characters(places, ASCII)


MAPPED = ("\u00aa\u00b2\u00b5\u00ba\u00bc\u00c0\u00e0\u00de\u00fe\u00df\u1e9e\u0130\u0131\u0149\u017f\u01c4\u01c5\u01c6"
          "\u01f0\u0345\u0390\u03a3\u03c2\u03c3\u03d0\u03f4\u0587\u0675\u10a0\u10d0\u1c90\u13a0\u13f5\u13f8\uab70\uabbf"
          "\u1e96\u1f80\u1fb3\u2071\u2126\u212a\u2160\u24d0\u2c2f\u2c5f\u3131\u32d0\uf900\ufb00\ufb1d\ufb2e\ufdfa\uff21"
          "\uff41\uff10\uff66\uffdc\U00010400\U00010428\U0001d400\U0001d7ce\U0002f800")
COMPOSED = [
    "\u1112\u1161\u11ab", "\ud558\u11ab", "\ud55c", "\ud55c\u11ab", "\uac00", "\ud7a3", "\u0958", "\u0915\u093c",
    "\u0928\u093c", "\u0929", "\u05d0\u05b7", "\ufb2e", "\u30cf\u3099", "\u30d0", "\u1025\u102e", "\u1026",
    "\U00011131\U00011127", "\U0001112e", "\u0f71\u0f72", "\u0f73", "\u2126", "\u03a9", "\u03c9\u0301", "\u03ce"]


def normal_form_rows():
    """Letters with mappings, and letters and marks that compose."""
    yield "letters that have capital or wide forms, ligatures and other mappings (section 2.2)"
    yield idn_texts(in_forms(("{}", "\u4e00{}\u4e00", "\u05d0{}\u05d0"), MAPPED))
    yield "NFC: letters and marks that compose, marks in both orders, and Hangul"
    letters = {letter: unicodedata.normalize("NFD", letter) for letter in span(0xC0, 0x17F) + span(0x1E00, 0x1EFF)}
    yield idn_texts([form for pair in letters.items() if pair[0] != pair[1] for form in pair])
    marks = "\u0301\u0308\u0316\u0323\u0327\u0338"
    yield idn_texts(["q" + one + other for one in marks for other in marks])
    yield idn_texts(COMPOSED)


def label_rules_of_idn():
    """Marks, hyphens and dots in labels and between them."""
    yield "marks, hyphens and dots: each at each place of a label, and each of the four dots between labels"
    letters = ["\u4e00", "a", "-", "\u0300", "\u0903", "\u05b0"]
    yield idn_texts(words(letters, (1, 2, 3)) + words(letters[:4], (4,)))
    heads = ("a", "aa", "aaa", "\u00fc", "a\u00fc", "\u00fca", "\u00fc\u00fc", "x\u00fc", "xn\u00fc")
    yield idn_texts([f"{one}--{other}" for one in heads for other in ("", "a", "\u00fc")])
    places = ("a{}b", "\u00fc{}b", "a{}\u00fc", "{}a", "a{}", "{}", "a{0}{0}b", "a{0}b{0}c", "a{0}b.c",
              "xn--bcher-kva{}a", "\u05d0{}\u05d0", "\u05d0{}1")
    yield idn_texts(in_forms(places, DOTS + "\u00b7\u2024\u3001\ufe12\u0589\u06d4"))


# Each character that has a contextual rule, with letters that let it stand and others (RFC 5892, appendix A).
CONTEXTS = ("l\u00b7a", "\u03b1\u0375a", "\u05d0\u05f3\u05f4b\u0628", "\u30fb\u30a2\u3042\u4e00a", "\u0660\u06f0\u0628",
            "\u094d\u200d\u0915\u200c", "\u0628\u200c\u0627\u064b", "\u1820\u200ca\u18a9")
# The joiner among letters that join: no joining type lets it stand (appendix A.2).
JOINERS = ("\u0628\u200d\u0627\u064b", "\u1820\u200da\u18a9", "\u0628\u200d\u200c\u0627")
# With marks between a character and the one that lets it stand, and where a block and a script are not the same.
APART = ("\u0915\u094d\u0951\u200d", "\u0915\u094d\u0951\u200c", "\u0915\u094d\u200d\u200c", "\u05d0\u05b0\u0300\u05f3",
         "\u05d0\u0300\u05f4\u05f3", "\u03b1\u0375\u0301\u1f00", "\u0375\u03e3\u2c81\u03b1", "\u30fb\u30fc\u3099a",
         "\u30fb\u309d\u3105\u3005", "\u0628\u200c\u0300\u200d", "\u0e01\u0e3a\u200d\u0e48", "\u0f40\u0f84\u200c\u0f71")


def context_rows_of_idn():
    """Characters that have contextual rules."""
    yield ("contextual rules: each character that has one, among others of each kind, at each place "
           "(RFC 5892, appendix A)")
    for rule in CONTEXTS + JOINERS + APART:
        yield idn_texts(words(rule, (1, 2, 3, 4)))
    digits = [chr(at) for at in (*range(0x65F, 0x66B), *range(0x6EF, 0x6FB))]
    yield idn_texts([f"\u0628{one}{other}" for one in digits for other in digits])
    yield ("joining types: with a dual-joining letter on the one side, each of a transparent mark and an end of a type "
           "on the other")
    places = [["", "\u200c\u0628"], ["\u0628\u200c", ""], ["\u0628\u064b\u200c\u064b", ""], ["", "\u064b\u200c\u0628"],
              ["", "\u200d\u0628"], ["\u0628\u200d", ""]]
    for kind in JOINING:
        yield from idn_characters(places, near(JOINING[kind]))
    places = [["\u0628", "\u200c\u0628"], ["\u0628\u200c", "\u0628"], ["\u0628", "\u200c\u0627"],
              ["\u0627", "\u200c\u0628"]]
    tried = "\u0640\u07fa\u0883\u0884\u0885\U0001e94b\u064b\u05b0\u0300\u200c\u200d\u05d0-0"
    yield from idn_characters(places, tried)
    yield "scripts: the ends of each range, and one off each end"
    middle_dots = [["\u30fb", ""], ["", "\u30fb"]]
    places_of = {"Greek": [["\u0375", ""], ["\u0375", "\u03b1"], ["\u4e00\u0375", ""]],
                 "Hebrew": [["\u05d0", "\u05f3"], ["\u05d0", "\u05f4"], ["", "\u05f3"]],
                 "Hiragana": middle_dots, "Katakana": middle_dots, "Han": middle_dots}
    for script, places in places_of.items():
        yield from idn_characters(places, near(SCRIPT_RANGES[script]))
    yield from idn_characters([["\u0375", ""], *middle_dots], "\U00020000\U00030000\U0003d000\U0003fc3f\U0003fc40")


def bidi_rows_of_idn():
    """Labels of characters of each class of direction."""
    yield ("the Bidi rule: each row of up to four classes, alone and beside labels of both directions "
           "(RFC 5893, section 2)")
    yield idn_texts(words(OF_CLASSES, (1, 2, 3)))
    behind = words(OF_CLASSES[:1] + OF_CLASSES[2:], (3,))
    yield idn_texts([first + others for first in OF_CLASSES[:3] for others in behind])
    forms = ("\u05d0.{}", "{}.\u05d0", "a.{}", "xn--4db.{}", "\u4e00{}.\u0628")
    yield idn_texts(in_forms(forms, words(OF_CLASSES, (1, 2))))
    labels = ["a", "1", "a1", "1a", "a-b", "\u05d0", "\u05d01", "xn--4db", "XN--BCHER-KVA", "\u00fc"]
    yield idn_texts([".".join(some) for size in (2, 3) for some in itertools.product(labels, repeat=size)])


WRONG_FORMS = [
    "", "a", "abc", "a-b", "-", "\u0080", "\u00dc", "b\u00dccher", "u\u0308", "bu\u0308cher", "\u0300a", "\u0903a",
    "\u0488a", "-\u00fc", "\u00fc-", "aa--\u00fc", "\u00fca--", "\u4e00--\u4e00", "\u30fb", "a\u30fb", "a\u00b7l",
    "\u0375", "\u0375a", "a\u05f3", "\u200c", "a\u200cb", "\u0628\u200ca", "a\u200d", "\u0628\u0660\u06f0", "\u0640",
    "\u07fa", "\u302e", "\u3031\u3035", "\u303b", "\u1100", "\ua960", "\u20d0a", "a\u20d0", "\U0001d165", "\u00aa",
    "\u3002", "a\u3002b", "\uff0e", "\u0378", "\ufdd0", "\uffff", "\ud7ff", "\ue000", "\U0010ffff", "\u00a0", "\u200b",
    "\u2160", "\U0001f600", "\uff41", "\ufb00", "\u017f", "\u212a", "\uf900", "A\u00fc", "\u00fcA", "a b\u00fc",
    "a_\u00fc", "a.\u00fc", "\u05d0a", "1\u05d0", "\u0660", "\u0628a", "\u05d0-"]
RIGHT_FORMS = [
    "\u00fc", "b\u00fccher", "fa\u00df", "\u4e00", "\u05d0", "\u0628", "\u0628\u0660", "\u03b1\u0375\u03b2",
    "\u05d0\u05f3", "\u30fb\u30a2", "l\u00b7l", "\u0915\u094d\u200d\u0937", "\u0628\u064a\u200c\u0628\u064a", "\u3007",
    "\u0f0b", "\u06fd", "\u03c2", "a-\u00fc", "a--\u00fc", "1\u00fc", "\U00020000", "\u13a0", "\uac00", "q\u0301",
    "\u06f00", "xn\u00fc", "\u00fcxn--a"]
PAYLOADS = ["-", "--", "---", "-a", "a-", "a--", "kva", "99999999", "9999a", "a9999a", "-kva", "bcher--kva",
            "bcher-kvab", "0", "z", "zz", "00000", "hb9b", "ib9b", "0y0c"]
# Those past ASCII, and geresh and gershayim behind what is not Hebrew and runs from right to left too: they may stand
# at any place of a name.
PLACED_FORMS = [form for form in WRONG_FORMS + RIGHT_FORMS if not form.isascii()]
PLACED_FORMS += ["\u05f3", "\u0628\u05f3", "\u05d0\u05f3\u05f3"]
PLACED_FORMS += ["\u05f4", "a\u05f4", "\u0628\u05f4", "\u05d0\u05f3\u05f4"]


def beside_a_label(label):
    """An A-label in each letter case, cut and lengthened, and beside other labels."""
    yield from (label, label.upper(), "X" + label[1:], label[:4] + label[4:].upper())
    yield from (label + "a", label[:-1], label + "-", label.replace("xn--", "xn-"))
    yield from (label + ".a", "\u00fc." + label)


def a_label_rows():
    """A-labels of right and wrong forms, and payloads that are spoilt."""
    yield ("A-labels: each reason for which what they encode is no U-label, in each letter case, and labels beside "
           "them (RFC 5890, section 2.3.2.1)")
    yield idn_texts([text for form in WRONG_FORMS + RIGHT_FORMS for text in beside_a_label(to_a_label(form))])
    labels = ("xn--bcher-kva", "xn--ll-0ea", "xn--fa-hia", "xn--9krt00a")
    yield idn_texts([text[:at] + text[at].upper() + text[at + 1:] for text in labels for at in range(len(text))])
    labels = ("xn--bcher-kva", "xn--4db.com")
    places = [(text[:at], text[at + 1:]) for text in labels for at in range(len(text))]
    yield idn_texts([before + other + behind for before, behind in places for other in "0a9z-Z_."])
    yield idn_texts(["xn--" + payload for payload in PAYLOADS])
    yield from idn_characters([["", "n--4db"], ["x", "--4db"], ["xn", "-4db"], ["xn-", "4db"]], ASCII)


def to_a_length(form, length):
    """A U-label that ends so, whose A-label has that length; `None` where there is none."""
    labels = ("a" * letters + form for letters in range(64))
    return next((label for label in labels if len(to_a_label(label)) == length), None)


def labels_about_63():
    """U-labels whose A-labels have 58 to 69 characters."""
    forms = ["\u00fc", "\u00fc\u00fc", "\u4e00", "\U00020000", "\u05d0"]
    labels = [to_a_length(form, length) for form in forms for length in range(58, 70)]
    return [label for label in labels if label]


def names_about_253(heads):
    """Names that begin with these labels, and have 252 to 255 characters in encoded form."""
    used = len(".".join(map(encoded, heads))) + 1
    sizes = [size - used for size in (252, 253, 254, 255)]
    lasts = [last for size in sizes for last in ("b" * size, to_a_length("\u00e9", size)) if last]
    return [dot.join([*heads, last]) for last in lasts for dot in DOTS[::3]]


def size_rows():
    """Labels and names about as long as they may be."""
    yield ("lengths: labels of 61 to 65 characters in encoded form, and names of 252 to 255, of NR-LDH labels, "
           "A-labels and U-labels")
    for_labels = [(label, to_a_label(label)) for label in labels_about_63()]
    yield idn_texts([text for label, encoded_form in for_labels
                     for text in (label, encoded_form, encoded_form.upper(), label + ".b", f"a.{label}")])
    of_one_letter = ["\u4e00" * count for count in range(1, 70)] + ["\u00fc" * count for count in range(1, 70)]
    yield idn_texts(of_one_letter + ["a" * count for count in range(60, 70)])
    longest = to_a_length("\u00fc", 63)
    for heads in itertools.product([longest, to_a_label(longest), "a" * 63, to_a_length("\u00fc", 62)], repeat=3):
        yield idn_texts(names_about_253(heads))
    yield counts(IDN, "a", 1, 63, 200, [["", ""], ["", ".\u00fc"], ["\u00fc.", ""]])
    yield counts(IDN, "1.", 0, 126, 200, [["", "a"]])
    yield counts(IDN, "\u3002b", 0, 126, 200, [["a", ""]])
    yield counts(IDN, "\u00fc.", 0, (253 - 7) // 8, 60, [["", "\u00fc"]])
    yield counts(IDN, "xn--tda.", 0, (253 - 7) // 8, 60, [["", "\u00fc"]])


def is_u_label(text):
    """RFC 5890, section 2.3.2.1, of a label by itself."""
    if not is_unicode_label(text) or len(to_a_label(text)) > 63:
        return False
    return not runs_to_left(text) or keeps_bidi_rule(text)


def stands_in_hostname(points, at):
    """Whether a character stands in a label of a host name: by blocks, not scripts, and by no joining types."""
    point, before, behind = points[at], points[:at][-1:], points[at + 1:at + 2]
    if point in (0x200C, 0x200D):
        return any(unicodedata.combining(chr(other)) == 9 for other in before)
    if point == 0xB7:
        return before == behind == [ord("l")]
    if point == 0x375:
        return any(0x370 <= other <= 0x3FF for other in behind)
    if point in (0x5F3, 0x5F4):
        return any(0x590 <= other <= 0x5FF for other in before)
    if point == 0x30FB:
        return any(0x3040 <= other <= 0x30FF and other != 0x30FB or 0x4E00 <= other <= 0x9FFF for other in points)
    if 0x660 <= point <= 0x669 and any(0x6F0 <= other <= 0x6F9 for other in points):
        return False
    return is_admitted(point)


def is_hostname_form(form):
    """Whether a text may stand behind an XN-label of a host name.

    Neither its hyphens nor its direction, its normal form or mappings are looked at.
    """
    points = [ord(character) for character in form]
    return not (points and is_mark(points[0])) and all(stands_in_hostname(points, at) for at in range(len(points)))


def is_domain_of_labels(text):
    """Whether what stands behind `a@` is labels in ASCII and U-labels."""
    return all(whole(LABEL)(label) if label.isascii() else is_u_label(label) for label in text[2:].split("."))
