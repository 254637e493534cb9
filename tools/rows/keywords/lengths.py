"""minLength and maxLength."""
from itertools import combinations, product

from rows.keywords.common import BAD, JSON, MIXED, asked, requested
from rows.keywords.entries import KEYWORDS
from rows.keywords.folding import RANGES
from rows.keywords.texts import DRAFTS
from rows.keywords.values import MOST, parsed

CHARACTERS = ("a", "\u00e9", "\u20ac", "\U0001f4a9")


def texts_at_bounds():
    """Texts of each width of characters at each bound, one below and one above."""
    for draft, limit in product(DRAFTS, (0, 1, 2, 31, 33)):
        texts = [it * length for it in CHARACTERS for length in range(max(limit - 1, 0), limit + 2)]
        texts = texts if limit < 3 else [it for it in texts if it[0] in CHARACTERS[limit % 4::2]]
        if draft in (7, 202012) or limit in (1, 2):
            for keyword in ("minLength", "maxLength"):
                yield asked(draft, {keyword: limit}, list(dict.fromkeys(texts)))
    for least, greatest in RANGES:
        lengths = sorted({least - 1, least, least + 1, greatest, greatest + 1, 0})
        texts = [(MIXED * 20)[:length] for length in lengths if length >= 0]
        schema = {"minLength": least, "maxLength": greatest}
        for draft in DRAFTS if least < 6 else (7,):
            yield asked(draft, schema, texts)
        yield asked(7, schema, texts[:2], keyword="minLength")
        yield asked(7, schema, texts[:2], keyword="maxLength")
        for left_out in ("minLength", "maxLength"):
            for keyword in ("minLength", "maxLength"):
                yield asked(7, schema, texts[:3], keyword=keyword, left_out=[left_out])


# Characters that a reader does not see, or sees as part of another: controls, marks, joiners, selectors, jamo, tags,
# regional indicators, modifiers, noncharacters, and the byte order mark. Each is a character as others are.
UNSEEN = ("\0", "\x7f", "\u0085", "\u00ad", "\u0301", "\u0345", "\u034f", "\u0600", "\u061c", "\u0e33", "\u115f",
          "\u1160", "\u11a8", "\u180e", "\u200b", "\u200c", "\u200d", "\u200e", "\u200f", "\u2028", "\u2029",
          "\u202e", "\u2060", "\u2066", "\u20e3", "\ue000", "\ufe0f", "\ufeff", "\ufff9", "\ufffd", "\ufffe",
          "\U0001f1e9", "\U0001f3fb", "\U000e0001", "\U000e007f", "\U000e0100", "\U0010ffff")


def characters_not_seen():
    """Each of them alone, first, last and between, and behind and before a block of 32 bytes."""
    for it in UNSEEN:
        for other in ("a", "\U0001f44b"):
            texts = (it, it + other, other + it, it + it, other + it + other, it + other + it, it + it + other)
            for length in (1, 2, 3):
                schema = {"minLength": length, "maxLength": length}
                yield asked(7, schema, [text for text in texts if len(text) == length])
        yield asked(7, {"minLength": 34, "maxLength": 34}, [it + "a" * 33, "a" * 33 + it, "a" * 16 + it + "a" * 17])


def limits_of_64_bits():
    """Limits from 31 bits up to the greatest of 64."""
    for limit in (2 ** 31, 2 ** 32, 2 ** 53 + 1, 2 ** 63 - 1, 2 ** 63, MOST):
        for draft in DRAFTS:
            yield asked(draft, {"minLength": limit}, ["ab"])
            yield asked(draft, {"minLength": limit, "maxLength": limit}, ["ab"])
            yield asked(draft, {"maxLength": limit}, ["ab"])
    # The lengths that each entry leaves, alone and beside the other: from a limit, up to one, and between two.
    ends = (0, 1, 2, 255, 256, 65535, 65536, 2 ** 31 - 1, 2 ** 31, 2 ** 32 - 1, 2 ** 32, 2 ** 53, 2 ** 53 + 1,
            2 ** 63 - 1, 2 ** 63, 2 ** 63 + 1, MOST - 1, MOST)
    for limit, keyword in product(ends, ("minLength", "maxLength")):
        yield asked(7, {keyword: limit}, ["ab"], keyword=keyword)
        yield asked(202012, {keyword: limit}, keyword=keyword)
    for least, greatest in product(ends, repeat=2):
        yield asked(7, {"minLength": least, "maxLength": greatest}, keyword="minLength")


def good_beside_bad_limits():
    """A limit that is refused does not hide the other one."""
    bad = [parsed(it) for it in ('-1', '5.0', 'null', '"1"', '18446744073709551616')]
    for (one, other), value, keyword in product((("minLength", "maxLength"), ("maxLength", "minLength")), bad,
                                                ("minLength", "maxLength", None)):
        more = {"keyword": keyword} if keyword else {}
        yield asked(7, {one: value, other: 1}, ["ab", ""], **more)
        yield asked(7, {one: value, other: 1}, ["ab", ""], left_out=[one], **more)


def limits_left_out():
    """Good and bad limits, each left out or not, beside a format and alone."""
    for least, greatest, name in product((None, 2, -1, "x"), (None, 1, -1, "x"), (None, "ipv4")):
        schema = {keyword: it for keyword, it in (("minLength", least), ("maxLength", greatest), ("format", name))
                  if it is not None}
        for names in ((), ("minLength",), ("maxLength",), ("minLength", "maxLength")):
            yield asked(7, schema, ["x", ""], left_out=list(names))
            for keyword in ("minLength", "maxLength"):
                yield asked(7, schema, keyword=keyword, left_out=list(names))
    for first, last in combinations(KEYWORDS, 2):
        for draft, name in product((7, 202012), (first, last)):
            schema = {"contentMediaType": JSON, first: BAD[first], last: BAD[last]}
            yield asked(draft, schema, left_out=[name])


# What may be taken for nothing, or for one sign where it stands more than once.
SEEN_AS_FEW = (
    "\t", "\n", "\r", "\r\n", " ", "\x0b", "\x0c", "\x1f", "\x7f", "\u0085", "\u00a0", "\u2003", "\u2028", "\u3000",
    "\u200b", "\u00ad", "\ufeff", "\0", "\u0301", "-", "_", ".", "0", "a", "\u00e9", "\U0001f4a9", "\U0001f1e9",
    "\u200d")


def texts_of_one_sign():
    """A text of one sign over and over has as many characters, alone and beside others."""
    for sign in SEEN_AS_FEW:
        texts = [sign * count for count in (1, 2, 3, 4, 33)]
        for count in (1, 2):
            texts += ["a" + sign * count, sign * count + "a", "a" + sign * count + "b"]
        for limit in (2, 3):
            yield asked(7, {"minLength": limit}, texts)
            yield asked(7, {"maxLength": limit}, texts)
        for count in (1, 2, 3, 4):
            size = count * len(sign)
            yield requested(7, {"minLength": size, "maxLength": size}, sign * count)
            yield requested(7, {"minLength": size + 1}, sign * count)
            yield requested(7, {"maxLength": size - 1}, sign * count)
