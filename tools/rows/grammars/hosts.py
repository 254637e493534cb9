"""Addresses, names of hosts and UUIDs: RFC 3986, 1034 and 9562."""
import itertools

from rows.grammars.common import (BYTE_ORDER_MARK, around, at_places, by_pairs, changed_row, characters, counts,
                                  decorated_row, first_labels, in_forms, never, pair_rows, repeated, short_rows, texts,
                                  whole, word_rows)

# Addresses, names and UUIDs: RFC 3986, section 3.2.2, RFC 1034, section 3.5, RFC 9562, section 4.

OCTET = r"(?:25[0-5]|2[0-4][0-9]|1[0-9][0-9]|[1-9]?[0-9])"
IPV4 = rf"{OCTET}(?:\.{OCTET}){{3}}"
GROUP = r"[0-9A-Fa-f]{1,4}"
LAST_TWO = rf"(?:{GROUP}:{GROUP}|{IPV4})"
# The nine alternatives of IPv6address, in their order.
IPV6 = "|".join([
    rf"(?:{GROUP}:){{6}}{LAST_TWO}",
    rf"::(?:{GROUP}:){{5}}{LAST_TWO}",
    rf"(?:{GROUP})?::(?:{GROUP}:){{4}}{LAST_TWO}",
    rf"(?:(?:{GROUP}:){{0,1}}{GROUP})?::(?:{GROUP}:){{3}}{LAST_TWO}",
    rf"(?:(?:{GROUP}:){{0,2}}{GROUP})?::(?:{GROUP}:){{2}}{LAST_TWO}",
    rf"(?:(?:{GROUP}:){{0,3}}{GROUP})?::{GROUP}:{LAST_TWO}",
    rf"(?:(?:{GROUP}:){{0,4}}{GROUP})?::{LAST_TWO}",
    rf"(?:(?:{GROUP}:){{0,5}}{GROUP})?::{GROUP}",
    rf"(?:(?:{GROUP}:){{0,6}}{GROUP})?::",
])
LABEL = r"[0-9A-Za-z](?:[0-9A-Za-z-]{0,61}[0-9A-Za-z])?"
NAME = rf"(?=.{{1,253}}\Z){LABEL}(?:\.{LABEL})*"
UUID = "-".join(f"[0-9A-Fa-f]{{{digits}}}" for digits in (8, 4, 4, 4, 12))


def addresses_of_six():
    """So many groups before `::` and behind it, with an IPv4 address at the end or without; and with no `::`."""
    groups = ["1", "20", "3ab", "4CdE", "0", "00", "0000", "ffff", "9"]
    for before, behind in itertools.product(range(9), repeat=2):
        front = ":".join(groups[:before])
        back = ":".join(groups[before:before + behind] if before + behind < 10 else groups[:behind])
        for last in ("", "1.2.3.4", "255.255.255.255", "256.1.1.1", "01.2.3.4", "1.2.3", "1.2.3.4.5"):
            end = f"{back}:{last}" if back and last else back + last
            yield from (f"{front}::{end}", f"{front}:{end}", f"{front}:::{end}", f"{front}::{end}::1")
    for last in ("12345", "00001", "0abcd", "g", "", ":", "%eth0", "%25e", "/64", " ", "\n", BYTE_ORDER_MARK, "１"):
        yield from (f"::{last}", f"1:2:3:4:5:6:7:{last}", f"{last}::1", f"[::{last}]", f"1::{last}:1")
    fronts = ("::ffff:", "::FFFF:", "::ffff:0:", "64:ff9b::", "64:ff9b:1::", "0:0:0:0:0:ffff:", "::", "fe80::", "::1:")
    lasts = ("1.2.3.4", "01.2.3.4", "1.2.3.04", "1.02.3.4", "1.2.003.4", "00.0.0.0", "0.0.0.0", "256.2.3.4",
             "1.2.3.256", "1.2.3", "1.2.3.4.5", "1.2.3.4:5", "1.2.3.4:", "1.2.3.4::", "102:304")
    for front, last in itertools.product(fronts, lasts):
        yield front + last
    for last in addresses_of_four():
        yield from (f"::{last}", f"1:2:3:4:5:6:{last}")
    for group in ("0", "0000", "00001", "0a", "abcd", "ABCD", "12345", "g", "", " 1"):
        for size, form in ((8, "{}"), (2, "::{}"), (2, "{}::"), (6, "::{}"), (6, "{}::")):
            rows = [":".join([*["1"] * at, group, *["2"] * (size - at - 1)]) for at in range(size)]
            yield from (form.format(row) for row in rows)


def addresses_of_four():
    """Each octet at each place, and what stands around or within an address."""
    octets = ["0", "9", "10", "99", "100", "199", "200", "249", "250", "255", "256", "260", "300", "999", "1000", "00",
              "01", "010", "001", "0255", "0001", "0000", "00000", "", "-1", "+1", "1a", "0x1", "٣", " 1", "1 "]
    for place, octet in itertools.product(range(4), octets):
        yield ".".join([*["1"] * place, octet, *["22"] * (3 - place)])
    for text in ("1.2.3.4", "255.255.255.255"):
        yield from around(text)
        yield from (f"{text}.", f".{text}", f"{text}/8")
        yield from (text.replace(".", other) for other in ("。", ",", ".."))


def labels_to_a_length(length, size):
    """A name of that length, of labels of that size and a rest."""
    name = ".".join(["a" * size] * (length // (size + 1) + 1))[:length]
    return name[:-1] + "a" if name.endswith(".") else name


def long_names():
    """Names about as long as a name may be and about as long as a block, of labels about as long as a label may be."""
    of_blocks = (1, 2, 62, 63, 64, 65, 127, 128, 191, 192)
    of_names = (250, 251, 252, 253, 254, 255, 256, 257, 319, 320, 512, 1000)
    for length in of_blocks + of_names:
        for size in (1, 7, 62, 63, 64):
            yield labels_to_a_length(length, size)


# Characters past ASCII that are near letters, digits, hyphens and full stops of ASCII, by their look or by a mapping.
LIKE_ASCII = ("\u0080\u00a0\u00aa\u00b7\u00c0\u00d7\u00e9\u00ff\u0130\u0131\u017f\u0430\u0660\u0966\u212a\u3002\u4e00"
              "\uff0d\uff10\uff21\uff41\uff0e\ufeff\U0001d7d8")
# Labels in ASCII, right and wrong ones, each of which may stand at any place of a name.
PLACED = ["a", "0", "12", "A", "aB", "b-c", "a" * 63, "ab-c", "ab--c", "1a", "-a", "a-", "-", "a" * 64, "", "a_b", "_a",
          "a_", "a b", "a$", "\u00e9"]
# The parts of an IPv4 address. In mail addresses zeros may lead in its numbers.
OCTETS = (["0", "1", "9", "10", "99", "100", "127", "199", "200", "249", "250", "255"],
          ["", "00", "01", "001", "010", "0001", "256", "260", "300", "999", "1000", "a", "-1", " 1", "0x1"])
DOTTED = [OCTETS, *[part for _ in range(3) for part in ((["."], ["", "..", ",", ":", "/"]), OCTETS)]]
# Parts of IPv6 addresses: groups of each spelling, by turns, and what may stand for the last two.
SPELLED = ("0", "0000", "a", "A", "aB", "00f0", "ffff", "FFFF", "0001", "9", "E0e0")
LAST_ADDRESSES = ("0.0.0.0", "255.255.255.255", "1.20.255.9", "127.0.0.1", "01.2.3.4", "1.2.3.00", "1.2.3.256")


def spelled_addresses():
    """So many groups of each spelling before `::` and behind it, with each IPv4 address at the end and without."""
    turns = itertools.cycle(SPELLED)
    for before, behind, spelling in itertools.product(range(9), range(9), SPELLED):
        if before + behind < 10:
            of_one, of_all = [spelling] * (before + behind), [next(turns) for _ in range(before + behind)]
            for groups in (of_one, of_all):
                front, back = ":".join(groups[:before]), ":".join(groups[before:])
                yield f"{front}::{back}"
                last = LAST_ADDRESSES[(before * 3 + behind + len(spelling)) % len(LAST_ADDRESSES)]
                yield f"{front}::{back}:{last}" if back else f"{front}::{last}"
    for count, last in itertools.product(range(1, 10), LAST_ADDRESSES):
        for spelling in SPELLED[::2]:
            yield from (":".join([spelling] * count), ":".join([spelling] * count + [last]))


def uuids():
    """Each pair of digits that version and variant may be, and digits of each kind in each group."""
    for version, variant in itertools.product("0123456789abcdef", repeat=2):
        yield f"f81d4fae-7dec-{version}1d0-{variant}765-00a0c91e6bf6"
        yield f"F81D4FAE-7DEC-{version}1D0-{variant}765-00A0C91E6BF6".upper()
        yield f"00000000-0000-{version}000-{variant}000-000000000000"
        yield f"FfFfFfFf-fFfF-{version}FfF-{variant}fFf-FFFFFFffffff"
    kinds = ("0", "9", "f", "F", "aB", "0Af", "g", "-")
    groups = [([(kind * size)[:size] for kind in kinds[:6]],
               ["0" * (size - 1), *[(kind * size)[:size] for kind in kinds[6:]]]) for size in (8, 4, 4, 4, 12)]
    parts = [part for group in groups for part in (group, (["-"], ["", ":", "--"]))][:-1]
    yield from by_pairs(parts, 1)


# Labels of a host name, each of which may stand beside each.
KINDS_OF_LABELS = ["a", "Z", "0", "12", "1a", "a1", "b-c", "b--c", "ab--c", "xn--a", "XN--B", "x" * 62, "9" * 63,
                   "0x7f", "localhost", "-a", "a-", "-", "a" * 64, "", "a_b", "_a", "\u00e9", " ", "a\n"]


def host_name_rows():
    """Host names of RFC 1034, and the labels at the front of texts."""
    yield "a rule of a label holds at each place of a name: the first, the second, the third and the last"
    yield texts("hostname of RFC 1034", at_places(PLACED, "a"), whole(NAME))
    yield "hyphens, digits and labels some times over"
    signs = ["-", "a-", "-a", "--a", "1", "1.", "A.", "a-b.", "xn--a.", ".", "_"]
    for of in ("hostname of RFC 1034", "hostname"):
        yield repeated(of, signs[:8] + signs[9:] if of == "hostname" else signs,
                       [["a", "b"], ["a.b", "c.d"], ["", "a"], ["a", ""], ["ab-", "c"]], lambda text, of=of:
                       bool(whole(NAME)(text)) and (of != "hostname" or all(it[2:4] != "--" for it in text.split("."))))
    yield "labels of each kind beside each other, alone and around a third"
    pairs = [form.format(*pair) for form in ("{}.{}", "{}.a.{}")
             for pair in itertools.product(KINDS_OF_LABELS, repeat=2)]
    yield texts("hostname of RFC 1034", pairs, whole(NAME))
    yield "lengths to 1,000"
    yield counts("hostname of RFC 1034", "a", 1, 63, 1001, [["", ""], ["", ".b"], ["b.", ""]])
    yield counts("hostname of RFC 1034", "1.", 0, 126, 501, [["", "a"]])
    yield texts("hostname of RFC 1034", long_names(), whole(NAME))
    yield "numbers between full stops are host names, whatever their sizes: no rule tells an address from a name"
    numbers = ["0", "00", "1", "99", "127", "199", "200", "255", "256", "299", "300", "333", "999", "1000", "65536"]
    of_numbers = [".".join(some) for count in (1, 2) for some in itertools.product(numbers, repeat=count)]
    of_numbers += [".".join([*["1"] * at, it, *["9"] * (last - at)]) for last in (2, 3, 4) for at in range(last + 1)
                   for it in numbers]
    of_numbers += [".".join([it] * count) for count in (3, 4, 5, 6) for it in numbers]
    for of in ("hostname of RFC 1034", "hostname"):
        yield texts(of, [*dict.fromkeys([*of_numbers, *addresses_of_four()])], whole(NAME))
    yield "a character past ASCII at each place of a label"
    places = [["", ""], ["a", ""], ["", "a"], ["a", "b"], ["a.", ".b"], ["a.b", ""]]
    for of in ("hostname of RFC 1034", "hostname"):
        yield characters(of, "", places, LIKE_ASCII)
        yield texts(of, around("a.b") + ["a.b.", ".a.b", "a..b"], never)
    yield "the label at the front of a text, up to a length of 1,000"
    rows = []
    for size in (1, 62, 63, 64, 65, 127, 128, 255, 256, 257, 319, 320, 512, 999):
        for behind in ("", ".", ".b", "é", "_", " ."):
            is_label = size < 64 and behind[:1] in ("", ".")
            rows.append(["a" * size + behind, "a" * size if is_label else None])
    yield first_labels(rows)
    behinds = ["", ".", ".b", "..", "-.", "-", "_", "_.b", "\u00e9", " .", "\u3002b", "\n", ".\u00e9",
               "." * 300, "\u0000."]
    fronts = [f"{label}{behind}" for label in KINDS_OF_LABELS for behind in behinds]
    labels = [front.partition(".")[0] for front in fronts]
    yield first_labels([[front, label if whole(LABEL)(label) else None] for front, label in zip(fronts, labels)])


def uuid_rows():
    """A UUID with each character changed, left out or doubled, and its other notations."""
    yield "UUIDs"
    uuid = "f81d4fae-7dec-11d0-a765-00a0c91e6bf6"
    notations = [uuid, uuid.upper(), f"{{{uuid}}}", f"urn:uuid:{uuid}", uuid.replace("-", "")]
    spoilt = [uuid[:at] + other + uuid[at + 1:] for at in range(36) for other in "0aAfFgG-/:@` _."]
    shorter = [uuid[:at] + uuid[at + 1:] for at in range(36)]
    longer = [uuid[:at] + "0" + uuid[at:] for at in range(37)]
    yield texts("uuid", notations + around(uuid) + spoilt + shorter + longer, whole(UUID))
    yield "each version with each variant, and digits of each kind in each group: no rule looks at them"
    yield texts("uuid", uuids(), whole(UUID))


# What other standards and programs write for an address, a host or a UUID.
OTHER_ADDRESSES = [
    "1.2.3", "1.2.3.4.5", "1.2.3.4/8", "0x7f.0.0.1", "0177.0.0.1", "127.1", "2130706433", "1.2.3.4:80", "1.2.3.",
    ".1.2.3", "1..2.3", "256.0.0.1", "1,2,3,4", "1.2.3.-4", "+1.2.3.4", "1.2.3.4a", "[1.2.3.4]", "1.2.3.4%eth0",
    "1.2.3.0x4", "1e1.2.3.4", "1.2.3.4.", "001.002.003.004", "1.2.3.*", "1.2.3.0/24", "1.2.3.4-5",
    "4.3.2.1.in-addr.arpa", "localhost", "::1%eth0", "::1%25eth0", "[::1]", "::1/64", "[::1]:80", "1::2::3",
    "::ffff:1.2.3", "::1.2.3.4.5", "1:2:3:4:5:6:7", "1:2:3:4:5:6:7:8:9", ":::", ":", "::", "1:::2", ":1", "1:",
    "12345::", "::g", "::-1", "::0x1", "fe80::1%1", "1.2.3.4::", "::1.2.3.4:5", "1:2:3:4:5:6:7:1.2.3.4", "::1.2.3.4/96",
    "IPv6:::1", "::.1.2.3.4", "::ffff:0x1.2.3.4", "::ffff:1.2.3.04", "1-2--3.ipv6-literal.net", "0:0:0:0:0:0:0:0",
    "0::0", "::0000", "::00000", "1:2:3::4:5:6:7:8", "1:2:3:4:5:6::7:8", "ff02::1", "::ffff:0:0", "64:ff9b::1.2.3.4",
    "2001:DB8::a", "00ab-00cd::"]
OTHER_HOSTS = [
    "a.", "*.a", "_a.b", "a_b", "a..b", "", "-a", "a-", "xn--", "a b", "a@b", "a:80", "http://a", "//a", "a/", "[::1]",
    "1.2.3.4", "1.2.3.4.", "::1", "a%2eb", "\u00e9", "a\u3002b", "..", ".", "a,b", "a;b", "a.b.", "1", "0x1", "1.2",
    "a--b", "-", "--", "a.-", "a.-b", "a-.b", "a.b-", "b_.a", "$a", "a&b", "a+b", "a=b", "a'b", "a\\b", "localhost",
    "a.b:"]
OTHER_UUIDS = [
    "urn:uuid:{}", "{{{}}}", "({})", "[{}]", "'{}'", "{}\n", " {}", "{} ", "uuid:{}", "guid:{}", "0x{}", "{}-0", "0-{}",
    "{}0", "0{}", "{}/", "/{}", "{}#", "URN:UUID:{}", "urn:oid:{}", "{},", "-{}", "{}-", "%7B{}%7D"]
WORDS_OF_SIX = [("{}", ("1:", ":", "f", "1.2.3.4"), range(2, 7)), ("1:2:3:4{}", (":", "5", "::", ":6"), range(1, 6)),
                ("::{}", "1:.F", range(1, 6)), ("{}::", "1:0", range(1, 7))]
WORDS_OF_FOUR = [("{}.1.1", "12.", range(1, 7)), ("1.1.{}", "0.2", range(1, 7)),
                 ("{}", ("1", ".", "255", "0"), range(1, 7)), ("10.{}.1.1", "0259", range(1, 5))]
WORDS_OF_NAMES = [("{}", "a-.1", range(1, 7)), ("{}.a", "A-_.", (1, 2, 3, 4))]


def net_rows():
    """The rows of addresses, host names and UUIDs."""
    yield from word_rows([("ipv4", whole(IPV4), WORDS_OF_FOUR), ("ipv6", whole(IPV6), WORDS_OF_SIX),
                          ("hostname of RFC 1034", whole(NAME), WORDS_OF_NAMES)])
    yield "what other standards and programs write for an address, a host or a UUID"
    yield texts("ipv4", OTHER_ADDRESSES, whole(IPV4))
    yield texts("ipv6", OTHER_ADDRESSES, whole(IPV6))
    yield texts("hostname of RFC 1034", OTHER_HOSTS + OTHER_ADDRESSES, whole(NAME))
    of_uuids = ["f81d4fae-7dec-11d0-a765-00a0c91e6bf6", "F81D4FAE7DEC11D0A76500A0C91E6BF6"]
    yield texts("uuid", in_forms(OTHER_UUIDS, of_uuids), whole(UUID))
    yield from pair_rows([("hostname of RFC 1034", whole(NAME), ("a{}b", "{}b.c", "a.b{}")),
                          ("ipv4", whole(IPV4), ("1.2{}4", "{}.2.3.4")),
                          ("ipv6", whole(IPV6), ("::1{}2", "1:{}:2", "::1.2.3{}")),
                          ("uuid", whole(UUID), ("f81d4fa{}7dec-11d0-a765-00a0c91e6bf6",
                                                 "f81d4fae-7dec-11d0-a765-00a0c91e6b{}"))])
    yield from short_rows({"ipv4": whole(IPV4), "ipv6": whole(IPV6), "uuid": whole(UUID),
                           "hostname of RFC 1034": whole(NAME)})
    yield "IPv4: each octet at each place, with leading zeros and above 255"
    yield texts("ipv4", addresses_of_four(), whole(IPV4))
    yield "IPv6: so many groups before `::` and behind it, and an IPv4 address at the end"
    yield texts("ipv6", addresses_of_six(), whole(IPV6))
    yield texts("ipv6", spelled_addresses(), whole(IPV6))
    yield "each number at each place of an IPv4 address beside each other one, alone and at the end of an IPv6 address"
    yield texts("ipv4", by_pairs(DOTTED, 1), whole(IPV4))
    yield texts("ipv6", [f"::{address}" for address in by_pairs(DOTTED, 1)], whole(IPV6))
    yield texts("ipv6", around("::1") + around("1:2:3:4:5:6:7:8"), never)
    yield from host_name_rows()
    yield from uuid_rows()
    yield "what other programs pass over, put around a text or take for a character of it"
    yield changed_row("ipv4", ("127.0.0.1", "255.249.199.99", "10.2.30.250"), whole(IPV4))
    of_six = ("::", "1::2", "abcd:EF01:2::", "1:2:3:4:5:6:7:8", "::ffff:1.22.255.4", "1:2:3:4:5:6:7.8.9.0")
    yield changed_row("ipv6", of_six, whole(IPV6))
    yield changed_row("hostname of RFC 1034", ("a", "a1.b-c", "xn--a.1--2.Z"), whole(NAME))
    yield decorated_row("ipv4", ("127.0.0.1", "10.20.30.40"), whole(IPV4))
    yield decorated_row("ipv6", ("::1", "2001:db8::7", "1:2:3:4:5:6:7:8", "::ffff:1.2.3.4"), whole(IPV6))
    yield decorated_row("uuid", ("f81d4fae-7dec-11d0-a765-00a0c91e6bf6",), whole(UUID))
    yield decorated_row("hostname of RFC 1034", ("a.b-c.de", "1a", "xn--a.xn--b-c"), whole(NAME))
