"""Groups of mixed kinds, halves of pairs, and characters that are alike in other eyes."""
import itertools
import re
import unicodedata

from rows.grammars.common import ASCII, in_forms, never, searches, span, texts
from rows.grammars.labels import ADDED_POINTS
from rows.grammars.properties import PATTERNS, SYNTAX, escaped, is_surrogate
from rows.grammars.whole_patterns import WHOLE_PATTERNS

# What opens a group, the last four look-arounds.
OPENINGS = ("(", "(?:", "(?=", "(?!", "(?<=", "(?<!")
MOST_DEEP = 250
TOO_DEEP = f"its groups are more than {MOST_DEEP} deep"


def deep_parts(opened, inner="a"):
    """Groups and look-arounds in one another, as parts of a text: openings, each so many times, and as many ends."""
    number = sum(one.count("(") * times for one, times in opened)
    return [*([one, times] for one, times in opened if times), [inner, 1], [")", number]]


def mixed_depths(deep):
    """Openings of several kinds of so many groups in one another, by turns and one kind in another."""
    for one, other in itertools.product(OPENINGS, repeat=2):
        yield [(one + other, deep // 2), (one, deep % 2)]
    for one, other in itertools.permutations(OPENINGS, 2):
        yield from ([(one, outer), (other, deep - outer)] for outer in (1, MOST_DEEP // 2, MOST_DEEP - 1, deep - 1))
    for three in itertools.combinations(OPENINGS, 3):
        yield [("".join(three), deep // 3), (three[0], deep % 3)]
    yield [("".join(OPENINGS), deep // len(OPENINGS)), (OPENINGS[-1], deep % len(OPENINGS))]


def named_depths(deep):
    """The same with a group that has a name first, in the middle and last."""
    for place, kind in itertools.product((0, MOST_DEEP // 2, deep - 1), OPENINGS):
        yield [(kind, place), ("(?<n>", 1), (kind, deep - 1 - place)]


def long_refusals(of, patterns):
    """Patterns of parts, each with how many times it stands, not taken for the same reason, or all taken."""
    patterns = [{"pattern": pattern} for pattern in patterns]
    return {"ask": "refusals", "of": of, "long": patterns}, len(patterns)


def mixed_depth_rows():
    """Groups and look-arounds of several kinds in one another, at the most and one more."""
    yield ("groups and look-arounds of several kinds in one another, by turns and one kind in another: each counts for "
           "the depth, at the most and one more")
    for deep, of in ((MOST_DEEP, "taken"), (MOST_DEEP + 1, TOO_DEEP)):
        opened = [*mixed_depths(deep), *named_depths(deep)]
        yield long_refusals(of, [deep_parts(one) for one in opened])
    yield "a group that is closed counts no more, of whatever kind it is, and one that is open counts"
    shallow = [[(kind, MOST_DEEP - 1)] for kind in OPENINGS]
    closed = ("(a)", "(?:a)", "(?<n>a)", "(?=a)", "(?!a)", "(?<=a)", "(?<!a)")
    beside = [f"{one}{other}" for one in closed for other in ("", "(b)", "(?=b)", "(?<=b)")]
    yield long_refusals("taken", [deep_parts(opened, one) for opened in shallow for one in beside])
    deeper = ("((a))", "(?:(a))", "(?<m>(?=a))", "(?=(?<!a))", "(?!(?:a))", "(?<=(?=a))", "(?<!(?!a))")
    beside = [f"{one}{other}" for one in ("", *closed) for other in deeper]
    yield long_refusals(TOO_DEEP, [deep_parts(opened, one) for opened in shallow for one in beside])
    yield "the whole grammar: groups and look-arounds of several kinds in one another, with as many ends or others"
    deeper = [deep_parts(opened) for deep in (MOST_DEEP + 1, 1001) for opened in mixed_depths(deep)]
    spoilt = [[*parts[:-1], [")", parts[-1][1] + more]] for parts in deeper for more in (-1, 1)]
    yield {"ask": "long texts", "of": WHOLE_PATTERNS, "yes": deeper, "no": spoilt}, 3 * len(deeper)


def closed_kind_rows():
    """A quantifier behind what each kind of group ends, within each kind and around it."""
    yield ("a quantifier behind the end of each of three groups or look-arounds in one another: it may stand behind a "
           "group and behind no look-around (22.2.1, Term)")
    expected = {}
    kinds_of_three = itertools.product((*OPENINGS, "(?<{}>"), repeat=3)
    for kinds, place in itertools.product(kinds_of_three, range(3)):
        opened = "".join(kind.format(name) for kind, name in zip(kinds, "xyz"))
        for quantifier in ("*", "{2}?"):
            ends = [")"] * 3
            ends[place] += quantifier
            expected[f"{opened}a{''.join(ends)}"] = kinds[2 - place] not in OPENINGS[2:]
    for of in (PATTERNS, WHOLE_PATTERNS):
        yield texts(of, expected, expected.get)


# Halves of pairs and what stands beside them, as they may be written in a class, each with its code point.
UNITS_OF_CLASSES = {
    "\\uD800": 0xD800, "\\uDBFF": 0xDBFF, "\\uDC00": 0xDC00, "\\uDFFF": 0xDFFF, "\\u{D83D}": 0xD83D,
    "\\u{DE00}": 0xDE00, "\\uFFFF": 0xFFFF, "a": 0x61}


def joined_points(units):
    """The code points of units: a leading one and a trailing one behind it, each by four digits, are one."""
    points, open_lead = [], None
    for unit in units:
        point = UNITS_OF_CLASSES[unit]
        is_half = "{" not in unit
        if open_lead is not None and is_half and 0xDC00 <= point <= 0xDFFF:
            points[-1] = 0x10000 + (open_lead - 0xD800) * 0x400 + point - 0xDC00
            open_lead = None
        else:
            points.append(point)
            open_lead = point if is_half and 0xD800 <= point <= 0xDBFF else None
    return points


def half_pair_rows():
    """Halves of pairs one behind another, at both ends of a range."""
    yield ("the whole grammar: two halves of pairs, or what is none, at both ends of a range: a leading one and a "
           "trailing one behind it are one character, and no others (22.2.1, RegExpUnicodeEscapeSequence)")
    expected = {}
    for one, other in itertools.product(itertools.product(UNITS_OF_CLASSES, repeat=2), repeat=2):
        is_right = joined_points(one)[-1] <= joined_points(other)[0]
        expected[f"[{''.join(one)}-{''.join(other)}]"] = is_right
    yield texts(WHOLE_PATTERNS, expected, expected.get)
    three = list(itertools.product(UNITS_OF_CLASSES, repeat=3))
    expected = {f"[{''.join(units)}-\\uE000]": joined_points(units)[-1] <= 0xE000 for units in three}
    expected |= {f"[\\uE000-{''.join(units)}]": joined_points(units)[0] >= 0xE000 for units in three}
    yield texts(WHOLE_PATTERNS, expected, expected.get)
    alone = ["".join(units) for units in three]
    yield texts(WHOLE_PATTERNS, [*alone, *in_forms(("[{}]", "[^{}-]", "(?:{})*"), alone)], lambda text: True)
    yield "the same of what is a pair or none, in patterns of which a half is no part"
    expected = {"".join(units): not any(map(is_surrogate, joined_points(units))) for units in three}
    yield texts(PATTERNS, expected, expected.get)
    yield texts(PATTERNS, [f"[{text}]" for text in expected], lambda text: expected[text[1:-1]])


# Characters of names, by whether they may be first and whether they may stand behind; and how each may be written.
CHARACTERS_OF_NAMES = {
    "a": (True, True), "\u00e9": (True, True), "\u200d": (False, True), "\U00010400": (True, True),
    "\U0001d49c": (True, True), "\U000e0100": (False, True), "\U0001f600": (False, False)}


def halves(character):
    """The character by four digits, or by those of its pair."""
    units = character.encode("utf-16-be")
    return "".join(f"\\u{units[at:at + 2].hex()}" for at in range(0, len(units), 2))


def in_braces(character):
    """The character by its code in braces, with zeros before it."""
    return f"\\u{{00{ord(character):X}}}"


def pair_name_rows():
    """Names of groups whose characters are written as pairs, in braces or as they are, at each place."""
    yield ("names of groups by each spelling of each character, first and behind: as it is, by four digits or those of "
           "its pair, and in braces (22.2.1, RegExpIdentifierName)")
    written = [(one, spell(one)) for one in CHARACTERS_OF_NAMES for spell in (str, halves, in_braces)]
    expected, names = {}, []
    for size in (1, 2, 3):
        for parts in itertools.product(written, repeat=size):
            kinds = [CHARACTERS_OF_NAMES[one] for one, _ in parts]
            is_right = kinds[0][0] and all(may_follow for _, may_follow in kinds)
            name = "".join(spelled for _, spelled in parts)
            if size < 3 or {*(one for one, _ in parts)} <= {*"a\U00010400\U000e0100"}:
                expected[f"(?<{name}>x)"] = is_right
            if is_right and size < 3:
                names.append(("".join(one for one, _ in parts), name))
    for of in (PATTERNS, WHOLE_PATTERNS):
        yield texts(of, expected, expected.get)
    yield "the same of names that are called, and of names that stand twice"
    called = {}
    for (one, name), (other, _) in itertools.product(names, repeat=2):
        if one == other or len(one) == len(other) and len({*one, *other}) == 2 and name == one:
            called[f"(?<{other}>x)\\k<{name}>"] = called[f"\\k<{name}>(?<{other}>x)"] = one == other
    yield texts(WHOLE_PATTERNS, called, called.get)
    twice = {f"(?<{name}>x)(?<{spelled}>y)": one != other for (one, name), (other, spelled) in
             itertools.product(names, repeat=2) if one == other or len(one) + len(other) < 4}
    for of in (PATTERNS, WHOLE_PATTERNS):
        yield texts(of, twice, twice.get)
    yield "halves of pairs in a name, alone, the other way round, and written in two ways"
    halved = ("\\ud835", "\\udc9c", "\\udc9c\\ud835", "\\ud835\\ud835", "\\udc9c\\udc9c", "\\u{d835}\\u{dc9c}",
              "\\ud835\\u{dc9c}", "\\u{d835}\\udc9c", "\\ud835a\\udc9c", "\\ud835\\u0061", "\\ud83d\\ude00",
              "\\udb40\\udfff", "\\ud800\\udc0c")
    spoilt = in_forms(("(?<{}>x)", "(?<a{}>x)", "(?<{}a>x)", "(?<a\\ud835\\udc9c{}>x)"), halved)
    for of in (PATTERNS, WHOLE_PATTERNS):
        yield texts(of, spoilt, never)
    yield texts(WHOLE_PATTERNS, in_forms(("(?<\U0001d49c>)\\k<{}>", "(?<a\U0001d49c>)\\k<a{}>"), halved), never)


# What may stand behind the end of what a pattern looks for; no character of a text is left out of it.
TEXT_TAILS = [*ASCII, *"\u0080\u0085\u00a0\u2028\u2029\u200b\u200d\u3000\ufeff\uffff\U0001f600\U0010ffff", "\r\n",
              "\n\n",
              "\n\r", "\r\r", "\n\u2028", "\0\0", "\u001a\u001a", "\n\0", "\u001a\n", "  ", "\ufe0f", "\u0301"]


def text_end_rows():
    """Characters at the ends of a text."""
    yield ("`$` holds behind all characters of a text and `^` before them: no end of a line, no blank, no control and "
           "no byte order mark is left out at an end (22.2.2.4)")
    rows = []
    for tail in TEXT_TAILS:
        rows += [[pattern, f"a{tail}", tail == "a" and "^" not in pattern and "!" not in pattern] for pattern in (
            "a$", "^a$", "(?<=^a)$", "^a(?![^])", "^(?:a)$", "^a(?=$)", "^a??$", "^(?:a|b)$")]
        rows += [[pattern, f"{tail}a", tail == "a" and pattern == "^a"] for pattern in (
            "^a", "^a$", "^(?=a$)", "(?<![^])a$", "^(?:a|b)$", "(?<=^)a$")]
        rows += [[f"^[^]{{{len(tail)}}}$", tail, True], [f"^[^]{{{len(tail) + 1}}}$", tail, False],
                 [f"^a[^]{{{len(tail)}}}$", f"a{tail}", True], [f"^[^]{{{len(tail)}}}a$", f"{tail}a", True],
                 [f"^[^]{{{len(tail) - 1}}}$", tail, False], ["^$", tail, False], ["^(?![^])", tail, False]]
    yield searches(rows)


# Characters that are alike in other eyes: by letter case, width, normal form, shape or use.
ALIKE = (
    "aA\u0430\u0410\u0391\u03b1\uff41\uff21\u00aa\u1d43\u0251\U0001d41a", "kK\u212a\u03ba\u043a\uff4b",
    "sS\u017f\u0455\uff53", "iI\u0131\u0130\u0456\u0399\u03b9\u2170\u2160lL1|\u007c",
    "oO0\u043e\u041e\u03bf\u039f\u0665\u06f0\uff10", "\u00e9\u00c9e\u0117", "\u00e5\u00c5\u212b",
    "\u00b5\u03bc\u039c", "\u03c9\u03a9\u2126", "\u03c3\u03c2\u03a3", "\u00df\u1e9e\u03b2",
    "\u03b8\u03d1\u0398\u03f4", "\u1e61\u1e9b\u1e60", "\u0444\u0424\u03c6\u03d5\u03a6", "\u01c4\u01c5\u01c6",
    "\u01f1\u01f2\u01f3", "\u10d0\u1c90\u10a0\u2d00", "\u13a0\uab70", "\U00010400\U00010428", "\U0001e900\U0001e922",
    "\u30ab\u304b\uff76\u32d5", "\u3042\u3041\u30a2\u30a1\uff71",
    "-\u2010\u2011\u2012\u2013\u2014\u2212\uff0d\u00ad\u30fc\ufe63\u058a_~",
    "'\u2018\u2019\u02bc\u00b4`\uff07\u2032\u05f3", "\"\u201c\u201d\u00ab\u2033\uff02\u05f4",
    " \u00a0\t\u2003\u3000\u200b\u202f\u2060\ufeff\u1680\u180e_+", "\n\r\u2028\u2029\u0085\u000b\u000c\u001e",
    "1\u0661\u06f1\u0967\uff11\u00b9\u2460\u2081\U0001d7cf", "/\u2044\u2215\\\uff0f\u29f8",
    ".\u3002\uff0e\u2024\u00b7\uff61", ",\uff0c\u3001\u060c\uff64;", ":\uff1a\u2236\ua789;\u037e",
    "\u4e00\u30fc\u2500\u2f00", "\u8c48\uf900", "\u8f66\u8eca", "\uac00\u1100\u3131", "<\u2039\uff1c\u3008>",
    "(\uff08\u207d\u2768[{", ")\uff09\u207e]}", "*\uff0a\u2217\u00d7", "+\uff0b\u207a", "?\uff1f\u061f\u00bf",
    "$\uff04\u00a4\u20ac", "^\uff3e\u02c6", "\0\u0001\ufffd\u2400\u001a", "%\uff05\u066a", "&\uff06", "#\uff03",
    "@\uff20", "!\uff01\u01c3", "=\uff1d\u2261", "\u0303\u0342\u02dc")


def quoted(character):
    """The character as it may stand in a class or alone."""
    return f"\\{character}" if character in SYNTAX + "-" else character


def alone_in_pattern(character):
    """The character as it may stand in a pattern outside a class."""
    return f"\\{character}" if character in SYNTAX else character


def mapped_pairs():
    """Characters, each with another that stands for it in another letter case or normal form."""
    for point in (*range(0x20000), *range(0x2F800, 0x2FA20)):
        one = chr(point)
        if not is_surrogate(point) and point not in ADDED_POINTS:
            others = [one.lower(), one.upper(), one.title(), one.casefold()]
            others += [unicodedata.normalize(form, one) for form in ("NFC", "NFKC")]
            for other in dict.fromkeys(others):
                if other != one and len(other) == 1 and ord(other) not in ADDED_POINTS:
                    yield one, other


def alike_rows():
    """Characters that are alike in other eyes are others here."""
    yield ("a character matches itself alone, and none that is like it by letter case, width, normal form, shape or "
           "use (22.2.2.7.3, without the flag `i`): each of several that are alike, in each of these")
    rows = []
    for alike in ALIKE:
        for one, other in itertools.product(dict.fromkeys(alike), repeat=2):
            is_same, single, member = one == other, alone_in_pattern(one), quoted(one)
            rows += [[f"^{single}$", other, is_same], [f"^[{member}]$", other, is_same],
                     [f"^[^{member}]$", other, not is_same],
                     [f"(?<={single})x", f"{other}x", is_same], [f"x(?!{single})", f"x{other}", not is_same],
                     [f"^[{member}-{member}]$", other, is_same], [f"^{escaped(one)}$", other, is_same]]
    yield searches(rows)
    yield ("each character that has another in another letter case or in another normal form (NFC, NFKC), 100 in a "
           "pattern: in none of those others, as alternatives and as a class")
    pairs, rows = list(mapped_pairs()), []
    for at in range(0, len(pairs), 100):
        chunk = pairs[at:at + 100]
        ones = "".join(dict.fromkeys(one for one, _ in chunk))
        others = "".join(dict.fromkeys(other for _, other in chunk if other not in ones))
        alternatives, members = "|".join(map(alone_in_pattern, ones)), "".join(map(quoted, ones))
        rows += [[alternatives, others, False], [f"[{members}]", others, False], [f"^[^{members}]*$", others, True],
                 [f"^(?:{alternatives})+$", ones, True], [f"^[{members}]+$", ones, True]]
    yield searches(rows)
    yield "a range has what lies between its ends by code points, and nothing that is like one of these"
    spans = (
        "az", "AZ", "09", "\u00e0\u00f6", "\u00c0\u00d6", "\u03b1\u03c9", "\u0391\u03a9", "\u0430\u044f",
        "\u0410\u042f", "\u0561\u0586", "\u0531\u0556", "\u10d0\u10f0", "\uff21\uff3a", "\uff41\uff5a",
        "\uff10\uff19", "\u30a1\u30f6", "\u3041\u3096", "\uff66\uff9d", "\U00010400\U00010427",
        "\U00010428\U0001044f", "\u0660\u0669", "\u2460\u2468", "\u2160\u216b", "\u24b6\u24cf", "Za", "!/",
        "\u2000\u200a")
    rows = []
    for (low, high), (first, last) in itertools.product(spans, repeat=2):
        others = span(ord(first), ord(last))
        having = [one for one in others if low <= one <= high]
        rows += [[f"^[{low}-{high}]+$", others, len(having) == len(others)], [f"[{low}-{high}]", others, having != []],
                 [f"[^{low}-{high}]", others, len(having) < len(others)], [f"^[^{low}-{high}]+$", others, having == []]]
    yield searches(rows)
    yield "what is like a sign of a pattern in width is no sign, and stands for itself"
    wide = {chr(ord(sign) + 0xFEE0): sign for sign in map(chr, range(0x21, 0x7F))}
    rows = []
    for one, sign in wide.items():
        rows += [[f"^{one}$", one, True], [f"^{one}$", sign, False], [f"^a{one}b$", f"a{one}b", True],
                 [f"^a{one}b$", "ab", False], [f"^a{one}$", "aa", False], [f"^[a{one}b]$", one, True],
                 [f"^[a{one}c]$", "b", False], [f"^{one}a", "a", False], [f"a{one}$", "a", False]]
    yield searches(rows)
    for of in (PATTERNS, WHOLE_PATTERNS):
        yield texts(of, in_forms(("{}", "a{}", "{0}{0}", "{}a", "[{}a", "[{}]", "a{}*", "({})", "a{}1,0}}"), wide),
                    lambda text: not re.search("^\\[.a$|}$", text))


# Letters that are like digits of base 16, and digits that are none of ASCII.
LIKE_HEXADECIMAL = (
    "\uff10\uff19\uff21\uff26\uff41\uff46\u0410\u0430\u0391\u03b1\u0421\u0441\u0660\u0966\U0001d7ce\U0001d41a"
    "\u00aa\u00c0\u0141\u0161\u0430")
# Letters that are like those behind a backslash, or have their last eight bits.
LIKE_ESCAPED = (
    "\uff44\uff57\uff53\uff42\uff4e\uff54\uff58\uff55\uff50\uff4b\u0501\u0455\u0440\u0445\u043a\u0164\u0173\u0177"
    "\u016e\u0174\u0178\u0175\u0170\u016b\u0163\u0130")


def like_hexadecimal_rows():
    """Letters and digits that are like those of ASCII, in codes, counts and letters behind a backslash."""
    yield ("letters and digits that are like those of ASCII, or have their last bits, are none of a code, of a count, "
           "of a property and behind a backslash")
    forms = ("\\x{}1", "\\x4{}", "\\u{}041", "\\u0{}41", "\\u00{}1", "\\u004{}", "\\u{{{}}}", "\\u{{4{}}}", "[\\x4{}]",
             "[\\u{{{}}}]", "(?<\\u006{}>x)", "(?<a\\u{{6{}}}>x)", "\\c{}", "[\\c{}]", "\\{}", "[\\{}]", "a{{{}}}",
             "a{{1,{}}}", "\\p{{{}}}", "\\p{{L{}}}", "(?{}a)", "\\{}{{L}}")
    for of in (PATTERNS, WHOLE_PATTERNS):
        yield texts(of, in_forms(forms, LIKE_HEXADECIMAL + LIKE_ESCAPED), never)
    yield "names of properties and values with a character that has the last bits of a letter"
    names = ("L", "Lu", "Nd", "ASCII", "Any", "Alpha", "gc=Lu", "sc=Latn", "General_Category=L", "Script=Grek")
    far = [name[:at] + chr(ord(name[at]) + more) + name[at + 1:] for name in names for at in range(len(name))
           for more in (0x80, 0x100, 0x1000, 0xFF00, 0x10000, 0x100000)]
    for of in (PATTERNS, WHOLE_PATTERNS):
        yield texts(of, in_forms(("\\p{{{}}}", "[\\P{{{}}}]"), far), never)
