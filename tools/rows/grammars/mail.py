"""Mail addresses: RFC 5321 and 6531."""
import itertools
import re

from rows.grammars.common import (BYTE_ORDER_MARK, DIGITS, LETTERS, SIGNS, around, at_places, by_pairs, changed_row,
                                  characters, counts, decorated_row, in_forms, never, pair_rows, repeated, short_rows,
                                  sums, texts, whole, with_each, word_rows, words)
from rows.grammars.hosts import (DOTTED, GROUP, LABEL, OTHER_ADDRESSES, OTHER_HOSTS, PLACED, addresses_of_four,
                                 addresses_of_six, labels_to_a_length, spelled_addresses)
from rows.grammars.labels import PLACED_FORMS, is_domain_of_labels

# Mail addresses: RFC 5321, sections 4.1.2 and 4.1.3, with the lengths of section 4.5.3.1.

ATEXT = r"[A-Za-z0-9!#$%&'*+/=?^_`{|}~-]"
ATOM = rf"{ATEXT}+"
LOCAL_PART = rf'(?:{ATOM}(?:\.{ATOM})*|"(?:[ !#-\[\]-~]|\\[ -~])*")'
SNUM = r"(?:25[0-5]|2[0-4][0-9]|[01]?[0-9]{1,2})"
MAIL_IPV4 = rf"{SNUM}(?:\.{SNUM}){{3}}"
TAGGED = r"(?![Ii][Pp][Vv]6:)[A-Za-z0-9-]*[A-Za-z0-9]:[!-Z^-~]+"


def some(group, most):
    """No group, or up to so many with colons between them."""
    return rf"(?:{group}(?::{group}){{0,{most - 1}}})?"


def mail_ipv6():
    """The rules IPv6-full, IPv6-comp, IPv6v4-full and IPv6v4-comp.

    Beside `::` stand no more than six groups, or four and an address.
    """
    rules = [rf"{GROUP}(?::{GROUP}){{7}}", rf"{GROUP}(?::{GROUP}){{5}}:{MAIL_IPV4}"]
    for before in range(7):
        front = rf"{GROUP}(?::{GROUP}){{{before - 1}}}" if before else ""
        rules.append(rf"{front}::" + (some(GROUP, 6 - before) if before < 6 else ""))
        if before <= 4:
            rules.append(rf"{front}::(?:{GROUP}:){{0,{4 - before}}}{MAIL_IPV4}")
    return "|".join(rules)


MAIL_LITERAL = rf"\[(?:{MAIL_IPV4}|[Ii][Pp][Vv]6:(?:{mail_ipv6()})|{TAGGED})\]"
MAIL_DOMAIN = rf"(?=.{{1,255}}\Z)(?:{LABEL}(?:\.{LABEL})*|{MAIL_LITERAL})"
MAILBOX = rf"(?P<local>{LOCAL_PART})@{MAIL_DOMAIN}"


def is_mailbox(text):
    """The rule Mailbox, with a local part of up to 64 octets."""
    found = re.compile(MAILBOX).fullmatch(text)
    return found is not None and text.isascii() and len(found["local"]) <= 64


WIDE_ATOM = rf"(?:{ATEXT}|[\u0080-\U0010ffff])+"
WIDE_LOCAL_PART = rf'(?:{WIDE_ATOM}(?:\.{WIDE_ATOM})*|"(?:[ !#-\[\]-~\u0080-\U0010ffff]|\\[ -~])*")'


def is_idn_mailbox(text):
    """RFC 6531, section 3.3, for a domain in ASCII."""
    found = re.compile(rf"(?P<local>{WIDE_LOCAL_PART})@(?P<domain>{MAIL_DOMAIN})").fullmatch(text)
    return found is not None and found["domain"].isascii() and len(found["local"].encode()) <= 64


def wide_labels(low, high):
    """Labels with a character past ASCII at the end, whose A-labels have so many characters, by Python's codec."""
    labels = ["a" * count + character for count in range(70) for character in "éß日"]
    return [label for label in labels if low <= len(b"xn--" + label.encode("punycode")) <= high]


WIDE_LOCAL_PARTS = [
    "é", "aé", "éa", "é.a", "a.é", "é.é", ".é", "é.", "é..é", '"é"', '"\\é"', '"é\\"', '"\\\\é"', '"é\\""', '"é', 'é"',
    "é é", '"é é"', "é(a)", "\u0080", "\u00a0", "\u07ff", "\u0800", "\uffff", "\U00010000", "\U0010ffff", "\u007fé",
    '"\u0080"', '"\t\u0080"', "é@", "日本語", "e\u0301", "\u0301"]
WIDE_DOMAINS = ["b", "b.c", "[1.2.3.4]", "[IPv6:::]", "[b:c]", "b_c", "[b:é]", "[é:b]", "[é]", "-b", "xn--a", "",
                "xn--bcher-kva", "xn--bcher-kvb"]


def idn_mail_rows(texts_of_ascii):
    """The rows of internationalised mail addresses, with the texts that are tried as mail addresses too."""
    yield "internationalised mail addresses: RFC 6531, section 3.3"
    yield texts("idn-email", [text for text in texts_of_ascii if text.isascii()], is_mailbox)
    both = [f"{local}@{domain}" for local in WIDE_LOCAL_PARTS for domain in WIDE_DOMAINS]
    yield texts("idn-email", both, is_idn_mailbox)
    for part, octets in (("é", 2), ("日", 3), ("\U0001d400", 4)):
        yield counts("idn-email", part, 1, 64 // octets, 40, [["", "@b"]])
        yield counts("idn-email", part, 0, 62 // octets, 40, [['"', '"@b']])
    for part in ("\\a", "\\\\", '\\"', "\\ "):
        yield counts("idn-email", part, 0, 31, 70, [['"', '"@b'], ['"', '"@\u00e9'], ['"', '"@[1.2.3.4]']])
        yield counts("idn-email", part, 0, 30, 70, [['"\u00e9', '"@b'], ['"ab', '"@c']])
    yield texts("idn-email", [f"a@{label}" for label in wide_labels(5, 63)], lambda text: True)
    yield texts("idn-email", [f"a@{label}" for label in wide_labels(64, 70)], never)
    yield "labels in ASCII beside a U-label"
    labels = ["é", "日本", "b", "b-c", "1", "xn--a", "a" * 63, "b_c", "-b", "b-", "", "b c", "b!", "b\u0000", "b(",
              "a" * 64]
    pairs = itertools.product(labels, repeat=2)
    wide_domains = [f"{one}{dot}{other}" for one, other in pairs for dot in (".", ".b.")]
    is_label = whole(rf"{LABEL}|é|日本")
    yield texts("idn-email", [f"a@{domain}" for domain in wide_domains if not domain.isascii()],
                lambda text: all(map(is_label, text[2:].split("."))))
    places = [["a@é.", ""], ["a@", ".é"], ["a@é.", ".b"], ["a@é.b", "c", "-."], ["a@b", "c.é", "-."], ["a@é.", "b"],
              ["a@b", ".é"]]
    yield characters("idn-email", LETTERS + DIGITS, places)
    rest = ".".join(["a" * 63] * 3)
    long_domains = [f"a@é.{rest}.{'a' * size}" for size in range(1, 64)]
    yield texts("idn-email", long_domains, lambda text: len(text.encode()) <= 257)


LOCAL_PARTS = [
    "a", "a.b", "a..b", ".a", "a.", "", '""', '"a"', '" "', '"\\""', '"\\\\"', '"\\"', '"a"b', 'a"b"', '"a".b', "a\\@b",
    '"\u007f"', '"\\\u007f"', '"\t"', '"\\~"', '"\\ "', "!#$%&'*+-/=?^_`{|}~", "a b", "(a)", "a,b", '"a\n"', '"a']
DOMAINS = ["b", "b.c", "b-c", "b_c", "-b", "b-", "b.", ".b", "b..c", "1", "1.2.3.4", "[1.2.3.4]", "[01.002.000.255]",
           "[1.2.3.256]", "[1.2.3.300]", "[1.2.3]", "[1.2.3.4", "1.2.3.4]", "[IPv6:::]", "[ipv6:1::2]",
           "[IPv6:1:2:3:4:5:6:7::]", "[b:c]", "[b-:c]", "[-b:c]", "[b:]", "[:c]", "[]", "[b:[c]", "[b:c\\]", "[b:c d]",
           "xn--a", "\u00e9", BYTE_ORDER_MARK]


def is_any_mailbox(text):
    """RFC 6531, section 3.3, for any domain."""
    local, _, domain = text.rpartition("@")
    if domain.isascii():
        return is_idn_mailbox(text)
    is_local = whole(WIDE_LOCAL_PART)(local) and len(local.encode()) <= 64
    return is_local and len(domain.encode()) <= 255 and is_domain_of_labels(f"a@{domain}")


def is_past_ascii(point):
    """Whether a character is past ASCII."""
    return point > 0x7F


def wide_character_rows():
    """All characters past ASCII in local parts, and the lengths of an address with both parts at their most."""
    yield "each character past ASCII in an atom and between quotes, and none behind a backslash (RFC 6531, section 3.3)"
    yield sums("idn-email", [["a", "@b"]], lambda point: is_past_ascii(point) or chr(point) in ATEXTS, 0x8000, 0x20000)
    yield sums("idn-email", [['"', '"@b']], lambda point: is_past_ascii(point) or chr(point) in QTEXTS, 0x8000, 0x20000)
    yield sums("idn-email", [['"\\', '"@b']], lambda point: 32 <= point <= 126, 0x1000, 0x4000)
    far = "".join(chr(plane * 0x10000 + at) for plane in range(2, 17) for at in (0, 0x1000, 0xFFFD, 0xFFFE, 0xFFFF))
    yield characters("idn-email", far, [["a", "@b"], ['"', '"@b'], ["", "a@b"]], far)
    yield "no character past ASCII in an address in brackets, whatever its tag (RFC 6531, section 3.3, extends none)"
    for before, behind in (("a@[b:", "]"), ("\u00e9@[b:c", "d]"), ("a@[b", ":c]"), ("a@[", "b:c]"),
                           ("a@[IPv6:1::", "]")):
        yield sums("idn-email", [[before, behind]],
                   lambda point, it=(before, behind): point < 128 and is_idn_mailbox(f"{it[0]}{chr(point)}{it[1]}"),
                   0x8000, 0x20000)
    wide = ["\u0080", "\u00a0", "\u00e9", "\u0131", "\u0301", "\u05d0", "\u0661", "\u2028", "\u3002", "\uff11",
            "\uff1a", "\uff3d", "\U0001f600", "\U0010ffff"]
    literals = [before + sign + behind for before, behind in MAIL_PLACES if "[" in before for sign in wide]
    tags = [f"a@[{tag}:{content}]" for tag in ("x", "X-1", "0", "IPv4", "IPv6x", "ipv") for content in wide]
    yield texts("idn-email", literals + tags, never)
    yield "no limit is asked of the whole address: 64 octets and 255 octets stand together"
    fronts = ["a" * size for size in (63, 64, 65)]
    fronts += ["\u00e9" * 32, "\u4e00" * 21 + "a", "a\u00e9" * 21 + "a", "\u00e9" * 33]
    rest = ".".join(["a" * 63] * 3)
    behinds = [f"{rest}.{'a' * size}" for size in range(58, 64)] + [f"[b:{'c' * size}]" for size in range(248, 254)]
    behinds += [f"\u00e9.{rest}.{'a' * size}" for size in range(54, 64)]
    addresses = [f"{front}@{behind}" for front in fronts for behind in behinds]
    yield texts("idn-email", addresses, fits_together)
    yield texts("email", addresses, is_mailbox)
    yield "no rule of mailboxes is asked, of names or of scripts: a local part is any atoms, and a domain any labels"
    locals_of = ["1", "12", "-", "-a", "a-", "+", "a+b", "a/b", "a%b", "a!b", "a=b", "_", "'", "a'b", "{a}", "~", "#",
                 "$a", "a&b", "*", "?", "^", "|", "`", '"1"', '"-"', '"a b"', '"@"', '"a"']
    wide_locals = ["\u05d0", "\u05d0a", "a\u05d0", "\u0660", "a\u0430", "\u0430\u03b1", "\u0301", "a.\u0301",
                   "\uff41", "\u00c9", "\u200d", "\u202ea", "\ue000", "\ufffe", "\u3000", "\u00a0a", '"\u05d0"',
                   '"\u0301 a"']
    domains_of = ["b", "b.c", "1", "b.1", "1.2", "b.c1", "b-c", "b--c", "xn--a", "localhost", "a" * 63 + ".b",
                  "B.C", "[1.2.3.4]"]
    yield texts("email", [f"{local}@{domain}" for local in locals_of for domain in domains_of], is_mailbox)
    yield texts("idn-email", [f"{local}@{domain}" for local in locals_of + wide_locals for domain in domains_of],
                is_idn_mailbox)
    wide_ones = ["\u00e9", "b.\u00e9", "\u00e9.b", "\u00e9.1", "\u05d0", "\u05d0.b", "\u4e00.\u4e00"]
    yield texts("idn-email", [f"{local}@{domain}" for local in locals_of + wide_locals for domain in wide_ones],
                lambda text: True)
    yield "labels with hyphens in third and fourth place, and XN-labels that encode nothing, beside U-labels"
    odd = ["ab--c", "AB--C", "a---b", "xn--a", "XN--A", "xn--bcher-kvb", "1---1", "ab--", "--ab", "xn--"]
    domains = [form.format(label) for form in ("{}", "\u00e9.{}", "{}.\u00e9", "b.{}.\u00e9") for label in odd]
    yield texts("idn-email", [f"a@{domain}" for domain in domains],
                lambda text: all(label == "\u00e9" or whole(LABEL)(label) for label in text[2:].split(".")))


def fits_together(text):
    """Whether an address of right characters has parts of at most 64 and 255 octets."""
    local, _, domain = text.partition("@")
    return len(local.encode()) <= 64 and len(domain.encode()) <= 255


ATEXTS = LETTERS + DIGITS + "!#$%&'*+-/=?^_`{|}~"
QTEXTS = "".join(chr(point) for point in range(32, 127) if chr(point) not in '"\\')
# What may stand at one place of an address and not at another, and what other standards have there.
MAIL_PLACES = [["", "@b"], ["a", "@b"], ["", "a@b"], ["a.", "@b"], ["a.", ".b@c"], ['"', '"@b'], ['"a', '"@b'],
               ['"\\', '"@b'], ['"a"', "@b"], ["", '"a"@b'], ["a@", ""], ["a@", "b"], ["a@b", ""], ["a@b.", ""],
               ["a@b.", "c"], ["a@b-", "c"], ["a@[", "]"], ["a@[", "b:c]"], ["a@[b", ":c]"], ["a@[b:", "]"],
               ["a@[b:c", "]"], ["a@[IPv6", ":::1]"], ["a@[IPv6:", "]"], ["a@[IPv6:1::", "]"], ["a@[IPv6:::1", "]"],
               ["a@[1.2.3.", "]"], ["a@[1.2.3.4", "]"], ["a@[b:c]", ""], ['"a"@[1.2.3.4]', ""], ["a@[", "1.2.3.4]"]]
MAIL_CONSTRUCTS = ['"a"', "\\a", '\\"', "\\\\", "\\ ", "\\\t", "(c)", "()", " ", "\t", "\r\n ", "%41", ".a", "a.", "..",
                   "@", "@c", "c@", "<a>", "a:", "@c:", "IPv6", "IPv6:", "ipV6", "IPv4", "IPv4:", "x", "X-y", "[a]",
                   "\\[",
                   "\\]", "::", ":1", "1", "00", "001", "256", "0.0.0.0", "1.2.3.4", "1:2", "/64", "%1", "é", "\u0301",
                   "\u200d", "\uff20", "\u3002", "xn--", "a--b", "-", "--", "_", "<", ">", ",", ";", "=?utf-8?q?a?=",
                   "\u0000", "\u007f", "\u0080", '"', "mailto:", "a" * 63, "+tag", "!", "|", "`", "{}"]
# The parts of a mail address: two of a local part, two of a domain, right and wrong ones.
SOME_ATOMS = ["a", "1", "-", "_", "+", "{|}", "!#$%&'*/=?^`~", "A.b", "a.1.-"]
FIRST_ATOMS = (SOME_ATOMS, [".a", "a.", "a..b", "a b", "a\"", "\\a", "(a)", "a,b", "<a", ""])
MORE_ATOMS = (["", ".a", ".0", "-", ".!", "+tag"], [".", "..a", "@", " ", ".\"a\"", ":", ";"])
QUOTED = (["", "a", " ", "@", ".", "..", "\\\"", "\\\\", "\\ ", "\\a", "()<>[]:;,", "a\\@b"],
          ["\"", "\\", "\t", "\u007f", "\\\t", "\r\n", "\u0000"])
MAIL_LABELS = (["b", "0", "B-c", "b--c", "xn--a", "1b", "c" * 63], ["", "-b", "b-", "b_c", "c" * 64, "b c", "b\""])
MORE_LABELS = (["", ".c", ".1", ".c.d", ".xn--a", ".C-d"], [".", "..c", ".-", "@c", ".c.", ":25", "/c", ".[1.2.3.4]"])
TAGS = (["IPv6:", "ipv6:", "IPV6:"], ["IPv6", "IPv4:", "IPv6::::", "-:", "IP v6:", ":"])
SIXES = (["::", "1::", "::1", "1::2", "1:2:3:4:5:6:7:8", "1:2:3:4:5:6::", "::1:2:3:4:5:6", "1:2:3::4:5:6", "::1.2.3.4",
          "::1:2:3:4:1.2.3.4", "1:2:3:4::1.2.3.4", "1:2::3:4:1.2.3.4", "1:2:3:4:5:6:001.02.3.255", "AbCd::0000"],
         ["", ":", "1", "1:2:3:4:5:6:7::", "::1:2:3:4:5:6:7", "1:2:3:4::5:6:7", "::1:2:3:4:5:1.2.3.4",
          "1:2:3:4:5::1.2.3.4", "1:2:3:4:5:6:7:1.2.3.4", "1::2::3", "12345::", "::1.2.3", "::1.2.3.256", "g::"])
GENERAL = (["b:", "B-1:", "-b:", "0:", "IPv:", "xIPv6:", "IPv6x:"], ["", ":", "b-:", "b", "b_:", "b c:"])
CONTENTS = (["c", "1.2.3.4", "::", ":", "!", "~", "^", "c:d", "\"", "@", "{}", "<>"],
            ["", " ", "[", "]", "\\", "c d", "\u007f"])
# What stands behind in the rows of internationalised ones: characters past ASCII.
WIDE_ATOMS = ["\u00e9", "a\u00e9", "\u4e00.\u05d0", "\U0001f600", "\u0301", "\u0080"]
WIDE_QUOTED = ["\u00e9", "\u00e9 \\\"", "\u0080", "\U0010ffff"]
WIDE_LABELS = (["\u00e9", "b\u00fccher", "\u05d0", "\u4e00", "a\u0e48", "l\u00b7l", "\u0915\u094d\u200d", "\u06f0"],
               ["\u00c9", "\u0301a", "\u00e9-", "-\u00e9", "e\u0301", "\u05d0a", "l\u00b7", "\u200d", "\U0001f600",
                "\uff41", "aa--\u00e9"])


def pairs_of_mail(is_wide):
    """Addresses of all parts, with each choice of each part beside each of each other one."""
    at, quote, close = (["@"], ["", "@@", ".@"]), (['"'], ["", '""']), (["]"], ["", "]]", "].b"])
    atoms, inside, labels, more = FIRST_ATOMS, QUOTED, MAIL_LABELS, MORE_LABELS
    if is_wide:
        atoms = (SOME_ATOMS[::2] + WIDE_ATOMS, FIRST_ATOMS[1][::2])
        inside = (QUOTED[0][::2] + WIDE_QUOTED, ["\\\u00e9", "\""])
        labels = (MAIL_LABELS[0][::2] + WIDE_LABELS[0], MAIL_LABELS[1][::2] + WIDE_LABELS[1])
        more = (MORE_LABELS[0][::2] + [f".{label}" for label in WIDE_LABELS[0][::2]],
                [*MORE_LABELS[1][::2], *[f".{label}" for label in WIDE_LABELS[1][::2]],
                 "\u3002c", "\uff0e", ".\u00e9."])
    for local in ([atoms, MORE_ATOMS], [quote, inside, quote]):
        yield from by_pairs([*local, at, labels, more], 1)
        yield from by_pairs([*local, at, (["["], ["", "[["]), TAGS, SIXES, close], 1)
        yield from by_pairs([*local, at, (["["], ["", " ["]), GENERAL, CONTENTS, close], 1)


WORDS_OF_MAIL = [("{}", "a.@\"\\[] ", (3, 4)), ("{}@b", "a.\"\\ @", (3, 4)), ("a@{}", "a.-[]:1", (3, 4)),
                 ("a@[{}]", "a:-1.[", (2, 3, 4)), ('"{}"@b', "a\"\\ .@", (3, 4)),
                 ("a@[IPv6:{}]", ("1:", ":", "f", "1.2.3.4"), range(2, 7)), ("a@[{}.1]", "012.", (3, 4, 5))]
WORDS_OF_WIDE_MAIL = [("{}@b", "\u00e9.\"\\a", (2, 3, 4)), ("\u00e9@{}", "\u00e9.-a1", (2, 3, 4)),
                      ("a@{}", "\u05d0.1a\u0301", (2, 3, 4)), ("a@{}", "\u00e9@[]:", (2, 3))]


def mail_rows():
    """The rows of mail addresses."""
    yield from word_rows([("email", is_mailbox, WORDS_OF_MAIL),
                          ("idn-email", is_any_mailbox, WORDS_OF_MAIL[:5] + WORDS_OF_WIDE_MAIL)])
    yield from pair_rows([("email", is_mailbox, ('"{}"@b', "a{}b@c", "a@b{}c", "a@[b:{}]", "a@[IPv6:{}::]")),
                          ("idn-email", is_any_mailbox,
                           ('"\u00e9{}"@b', "\u00e9{}b@c", "a@\u00e9{}c", "a@b.{}\u00e9"))])
    addresses = [*spelled_addresses(), *OTHER_ADDRESSES]
    yield texts("email", in_forms(("a@[IPv6:{}]",), addresses), is_mailbox)
    yield texts("email", in_forms(("a@[{}]", "a@{}"), OTHER_ADDRESSES + OTHER_HOSTS), is_mailbox)
    forms = ("\u00e9@[IPv6:{}]", "\u00e9@[{}]", "\u00e9@{}")
    yield texts("idn-email", in_forms(forms, OTHER_ADDRESSES), is_any_mailbox)
    tags = ["".join(letters) for letters in itertools.product("Ii", "Pp", "Vv", "6")]
    yield texts("email", in_forms(("a@[{}:::]", "a@[{}:1::]", "a@[{}:a]", "a@[{}]"), tags), is_mailbox)
    yield from short_rows({"email": is_mailbox, "idn-email": is_any_mailbox})
    yield texts("email", in_forms(("a@{}", "{}@b"), words(SIGNS, (1, 2))), is_mailbox)
    yield texts("idn-email", in_forms(("\u00e9@{}", "{}@\u00e9"), words(SIGNS, (1, 2))), is_any_mailbox)
    yield "local parts and domains of each kind, each with each other"
    both = [f"{local}@{domain}" for local in LOCAL_PARTS for domain in DOMAINS]
    yield texts("email", both, is_mailbox)
    yield "IPv6 addresses: so many groups before `::` and behind it, and an IPv4 address at the end"
    yield texts("email", [f"a@[IPv6:{address}]" for address in addresses_of_six()], is_mailbox)
    yield texts("email", [f"a@[{address}]" for address in addresses_of_four()], is_mailbox)
    yield "lengths to 1,000"
    yield counts("email", "a", 1, 64, 1001, [["", "@b"]])
    yield counts("email", "a", 0, 62, 1001, [['"', '"@b']])
    yield counts("email", "a", 1, 63, 1001, [["a@", ""]])
    yield counts("email", "a", 1, 63, 1001, [["a@b.", ".c"]])
    yield texts("email", [f"{local}@b" for local in ("a", "a" * 63, "a" * 64, "a" * 65, "a" * 999)], is_mailbox)
    lengths, sizes = (253, 254, 255, 256, 257, 511, 512), (1, 7, 63, 64)
    domains = [labels_to_a_length(length, size) for length in lengths for size in sizes]
    yield texts("email", [f"a@{domain}" for domain in domains], is_mailbox)
    yield texts("email", [f"a@[b:{'c' * rest}]" for rest in (1, 250, 251, 252, 253, 508, 1000)], is_mailbox)
    yield texts("email", around("a@b") + around('"a"@[1.2.3.4]'), is_mailbox)
    yield "each sign some times over, in atoms, between quotes, in labels and in addresses in brackets"
    signs = [*"!#$%&'*+-/=?^_`{|}~.@:;,()<>[] \"\\", ".a", "..", '\\"', "\\\\", "\\ ", "\\@", "a.", "1.", "-a", ":a",
             "a:"]
    places = [["a", "b@c"], ["", "@c"], ['"', '"@c'], ['"a', 'b"@c'], ["a@b", "c"], ["a@b.", "c.d"], ["a@[b:", "]"],
              ["a@[b:c", "d]"], ["a@[b", "c:d]"], ["a@[IPv6:::", "]"], ["a@[1.2.3.", "4]"]]
    yield repeated("email", signs, places, is_mailbox)
    signs += ["\u00e9", "\u0301", "\u4e00.", "\\\u00e9", "\u3002"]
    yield repeated("idn-email", signs, places[:9], is_any_mailbox)
    yield "each choice of a part with each of each other part: atoms, quotes, labels and addresses in brackets"
    yield texts("email", pairs_of_mail(False), is_mailbox)
    yield texts("email", in_forms(("a@[{}]", "a@[IPv6:::{}]"), by_pairs(DOTTED, 1)), is_mailbox)
    yield texts("idn-email", pairs_of_mail(True), is_any_mailbox)
    yield "a part of each kind, of as many octets as it may have and one more, before a domain of each kind at its most"
    sizes_of = {"*": (63, 64, 65), "*.b": (61, 62, 63), '"*"': (61, 62, 63), '"\\\\*"': (60, 61), '"* @"': (60, 61)}
    fronts = [form.replace("*", "a" * size) for form, sizes in sizes_of.items() for size in sizes]
    rest = ".".join(["d" * 63] * 3)
    behinds = ["b", "[1.2.3.4]", "[IPv6:::]", f"{rest}.{'e' * 62}", f"{rest}.{'e' * 63}", f"{'d' * 63}.e",
               f"{'d' * 64}.e", f"e.{'d' * 63}", f"e.{'d' * 64}", f"[b:{'c' * 250}]", f"[b:{'c' * 251}]"]
    yield texts("email", [f"{front}@{behind}" for front in fronts for behind in behinds], is_mailbox)
    yield "each construct at each place: what RFC 5322, RFC 6068 and others have there makes no address"
    constructed = with_each(MAIL_CONSTRUCTS, MAIL_PLACES)
    yield texts("email", constructed, is_mailbox)
    yield texts("idn-email", [text for text in constructed if text.rpartition("@")[2].isascii()], is_idn_mailbox)
    padded = [f"a@[{sign}{inside}{sign}]" for inside in ("1.2.3.4", "b:c", "IPv6:::1")
              for sign in (" ", "\t", "[", "\\")]
    yield texts("email", padded, never)
    yield texts("idn-email", padded, never)
    yield from wide_character_rows()
    yield "a rule of a label holds at each place of a domain: the first, the second, the third and the last"
    names = at_places(PLACED + ["xn--a", "xn--bcher-kva"], "b")
    yield texts("email", [f"a@{name}" for name in names], is_mailbox)
    forms = PLACED + PLACED_FORMS
    names += at_places(forms, "b", 3) + at_places(forms, "\u00fc", 3)
    yield texts("idn-email", [f"a@{name}" for name in dict.fromkeys(names)], is_any_mailbox)
    yield "what other programs pass over, put around a text or take for a character of it"
    for of, rule in (("email", is_mailbox), ("idn-email", is_any_mailbox)):
        yield decorated_row(of, ("a.b+c@d-e.f", '"a b"@c.d', "a@[IPv6:1::2]", "a@[1.2.3.4]", "a@[b-c:d]"), rule)
    yield decorated_row("idn-email", ("\u00e9@b\u00fc.c",), is_any_mailbox)
    for of, rule in (("email", is_mailbox), ("idn-email", is_idn_mailbox)):
        yield changed_row(of, ("a.b@c-d.e", '"a\\b c"@d', "a@[1.20.255.4]", "a@[IPv6:1::2]", "a@[IPv6:::ffff:1.2.3.4]",
                               "a@[b-c:d]", "a@[IPv6:1:2:3:4:5:6:7:8]"), rule)
    yield counts("idn-email", "a", 1, 64, 1001, [["", "@b"], ["", "@\u00e9"]])
    yield counts("idn-email", "a.", 0, 31, 501, [["", "a@b"]])
    yield counts("idn-email", "a", 1, 63, 1001, [["a@", ""], ["a@b.", ".\u00e9"]])
    short_ones = [address for address in addresses_of_six() if len(address) < 24]
    yield texts("idn-email", [f"a@[IPv6:{address}]" for address in short_ones], is_idn_mailbox)
    wholes = ("a@b", '"a"@b', "\u00e9@b", '"\u00e9"@[1.2.3.4]', "a@[b:c]")
    yield texts("idn-email", ["", "@", *[other for text in wholes for other in [text, *around(text)]]],
                lambda text: text.rpartition("@")[2].isascii() and is_idn_mailbox(text))
    yield from idn_mail_rows(both)
