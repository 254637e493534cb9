"""Each piece of a pattern beside each other, and each item of a class beside each other."""
import itertools
import re

from rows.grammars.common import MORE_TIMES, choices, never, refusals, searches, texts
from rows.grammars.properties import PATTERNS
from rows.grammars.limits import NEEDLESSLY_ESCAPED, NOT_A_PATTERN, NOT_TAKEN, needless
from rows.grammars.whole_patterns import WHOLE_PATTERNS
from rows.grammars.reasons import BACK_REFERENCE, UNKNOWN_PROPERTY, by_reason

# Pieces of a pattern (section 22.2.1): atoms, which a quantifier may follow; terms that none may follow, and `|`; and
# terms with a quantifier, which a `?` may follow once.
ATOMS_BESIDE = (
    "a", "\u00e9", "\U0001f600", "/", "-", ",", "=", "5", " ", ".", "\\^", "\\/", "\\\\", "\\n", "\\v", "\\d", "\\W",
    "\\0", "\\cA", "\\x41", "\\u0041", "\\u{41}", "\\ud83d\\ude00", "\\p{L}", "\\P{sc=Latn}", "[a]", "[^b]", "[]",
    "(a)", "(?:a)", "(?<n>a)", "()")
ENDED_BESIDE = (
    "|", "^", "$", "\\b", "\\B", "(?=a)", "(?!a)", "(?<=a)", "(?<!a)", "a*?", "b+?", "c??", "a{2}?", "a{2,}?",
    "a{2,3}?")
COUNTED_BESIDE = ("a*", "b+", "c?", "a{2}", "a{2,}", "a{2,3}", "[a]*", "(a)?", "\\d{2}")
# Those that the engine does not take, with what is told of a pattern that has them, where it is one.
UNTAKEN_BESIDE = {
    "\\ud83d": NOT_TAKEN, "\\ude00": NOT_TAKEN, "\\u{D83D}": NOT_TAKEN, "[\\ud83d]": NOT_TAKEN, "\\1": BACK_REFERENCE,
    "\\k<m>": BACK_REFERENCE, "\\p{CWKCF}": UNKNOWN_PROPERTY}
QUANTIFIERS_BESIDE = ("*", "+", "?", "{2}", "{2,}", "{2,3}", "*?", "+?", "??", "{2}?", "{2,}?", "{2,3}?")
# Where two pieces may stand, one behind another, whatever they are.
FORMS_BESIDE = ("({})", "(?:{})", "(?<o>{})", "(?={})", "(?!{})", "(?<={})", "(?<!{})", "z|{}", "{}|z", "(?:(?={}))*",
                "((?<!{}))", "z{}", "[z]{}", "z?{}", "(z){}", "(?:z){}", "^{}", "(?=z){}", "(?:{})*", "z|(?:{}|y)")
# What needs a group that is captured has one before it.
CAPTURED = "(?<m>b)"


def is_beside(one, other):
    """Whether the other piece may stand behind the first (sections 22.2.1 and 22.2.1.1)."""
    if other in QUANTIFIERS_BESIDE:
        return one in ATOMS_BESIDE or one in UNTAKEN_BESIDE or one in COUNTED_BESIDE and other == "?"
    return not (one in ("\\0", "\\1") and other == "5")


def told_beside(one, other):
    """What is told of both, one behind the other: the first reason, where the piece before it is whole."""
    pair = one + other
    if pair == "\\ud83d\\ude00":
        return "taken"
    first, second = UNTAKEN_BESIDE.get(one), UNTAKEN_BESIDE.get(other)
    if first is None and not is_beside(one, other):
        return NOT_A_PATTERN
    # A surrogate alone is no reason of its own: it is told where no other is seen, of what is a pattern.
    if first == NOT_TAKEN:
        return NOT_TAKEN if is_beside(one, other) else NOT_A_PATTERN
    return first or second or "taken"


def beside_rows():
    """Each piece of a pattern behind each other, by itself and within each form."""
    yield ("each two pieces of a pattern, one behind the other, alone and within groups, look-arounds and behind other "
           "terms: a quantifier behind an atom, a `?` behind a quantifier, and a digit behind no `\\0`")
    firsts = (*ATOMS_BESIDE, *ENDED_BESIDE, *COUNTED_BESIDE, *UNTAKEN_BESIDE)
    seconds = (*ATOMS_BESIDE, *ENDED_BESIDE, *COUNTED_BESIDE, *UNTAKEN_BESIDE, *QUANTIFIERS_BESIDE)
    whole, told = {}, {}
    for at, (one, other) in enumerate(itertools.product(firsts, seconds)):
        # A group has one name, which no other has.
        pair = one + other.replace("(?<n>", "(?<p>")
        asks = "\\1" in pair or "\\k<m>" in pair
        for form in ("{}", FORMS_BESIDE[(at + at // len(FORMS_BESIDE)) % len(FORMS_BESIDE)]):
            pattern = (CAPTURED if asks else "") + form.format(pair)
            whole[pattern] = is_beside(one, other)
            told[pattern] = told_beside(one, other)
    yield texts(WHOLE_PATTERNS, whole, whole.get)
    yield from by_reason(told)


# Pieces of each kind, of which three stand one behind another.
THIRDS_BESIDE = (
    "a", "\u00e9", "\U0001f600", "5", ".", "\\d", "\\cA", "\\u{41}", "\\p{L}", "[a]", "(a)", "(?:a)", "|", "^", "\\b",
    "(?=a)", "(?<!a)", "a*", "a{2}", "a{2,}", "a??")


def third_rows():
    """Each three pieces of a pattern one behind another."""
    yield "each three pieces of a pattern of these kinds, one behind another: each is read for itself"
    threes = ["".join(three) for three in itertools.product(THIRDS_BESIDE, repeat=3)]
    yield texts(WHOLE_PATTERNS, threes, lambda text: True)
    yield refusals("taken", threes)
    ends = [f"{one}{other}{last}" for one, other in itertools.product(THIRDS_BESIDE, repeat=2)
            for last in ("**", "*{2}", "(*", "|+", "^?", "a{2,1}", "\\b*", "(?=a)+", "]", "\\a")]
    for of in (PATTERNS, WHOLE_PATTERNS):
        yield texts(of, ends, never)


# Pieces that mean in Python what they mean here, and short texts.
SEARCHED_BESIDE = (
    "a", "b", "5", ".", "\\d", "\\W", "[a]", "[^b]", "(a)", "(?:b)", "()", "|", "^", "$", "\\b", "\\B", "(?=a)",
    "(?!a)", "(?<=a)", "(?<!a)", "(?=ab)", "(?<!ab)", "a*", "b+", "a?", "a{2}", "b{0}", "a{2,}", "a{1,2}", "a*?",
    "b+?", "a??", "(?:ab)*", "(?:a|b)")
TEXTS_BESIDE = ("", "a", "ab", "ba", "aa", "a5", "a-b", "bba")


def beside_search_rows():
    """Each two pieces of a pattern one behind the other, in short texts."""
    yield "what each two pieces of a pattern match, one behind the other, somewhere in a text and as the whole of it"
    rows = []
    for one, other in itertools.product(SEARCHED_BESIDE, repeat=2):
        for form in ("{}{}", "^(?:{}{})$"):
            pattern = form.format(one, other)
            # In Python no `\\B` stands in the empty text.
            found = re.compile(pattern.replace("$", "\\Z").replace("\\B", "(?!\\b)"), re.ASCII)
            rows += [[pattern, text, found.search(text) is not None] for text in TEXTS_BESIDE]
    yield searches(rows)


# What is told of a pattern that has one of these, whatever stands before it or behind.
TOLD_BESIDE = {
    "\\2": BACK_REFERENCE, "\\k": BACK_REFERENCE, "\\k<n": BACK_REFERENCE, "\\p{Foo}": UNKNOWN_PROPERTY,
    "[\\P{Foo}": UNKNOWN_PROPERTY, "a{5001": MORE_TIMES, "a{1,5001": MORE_TIMES, "]": NOT_A_PATTERN, "}": NOT_A_PATTERN,
    "**": NOT_A_PATTERN, "[b-a]": NOT_A_PATTERN, "\\a": NOT_A_PATTERN, "(?i": NOT_A_PATTERN, "\\u{": NOT_A_PATTERN,
    **{f"\\{one}": needless(one) for one in NEEDLESSLY_ESCAPED}}


def told_beside_rows():
    """Each reason behind each piece and before each."""
    yield "why a pattern is not taken, told behind each piece of a pattern, and before each"
    pieces = (*ATOMS_BESIDE, *ENDED_BESIDE, *COUNTED_BESIDE)
    told = {}
    for (at, piece), (told_of, why) in itertools.product(enumerate(pieces), TOLD_BESIDE.items()):
        form = FORMS_BESIDE[at % len(FORMS_BESIDE)]
        told |= {piece + told_of: why, f"{form.format(piece)}{told_of}": why, f"({piece}{told_of}": why,
                 f"z|(?={piece}{told_of}": why, f"(?<!{piece}|{told_of}": why}
        if not told_of.endswith(("\\k", "\\k<n", "5001", "(?i", "\\u{", "[\\P{Foo}")):
            told |= {f"{told_of}{piece}": why, f"(?:{piece}{told_of}{piece})": why}
    yield from by_reason(told)
    yield texts(WHOLE_PATTERNS, [pattern for pattern, why in told.items() if why == NOT_A_PATTERN], never)
    yield texts(PATTERNS, told, never)


# Pieces with which no pattern is taken, each with what is told of it, and whether it may stand in the whole grammar;
# `None` where the groups decide that.
SPOILING = {
    **{piece: (why, True if why in (NOT_TAKEN, UNKNOWN_PROPERTY) else None) for piece, why in UNTAKEN_BESIDE.items()},
    "a{5001}": (MORE_TIMES, True), "[a]{2,5001}?": (MORE_TIMES, True), "\\p{Foo}": (UNKNOWN_PROPERTY, False),
    "[^a\\P{Foo}]": (UNKNOWN_PROPERTY, False), "\\-": (needless("-"), False), "\\~": (needless("~"), False),
    **{piece: (NOT_A_PATTERN, False) for piece in (
        "]", "}", "a**", "a{2}{2}", "a+?+", "(*a)", "|*", "|{2}", "\\a", "\\c1", "\\x4g", "\\u{}", "\\00", "\\pL",
        "[b-a]", "[\\d-a]", "[\\B]", "(?i:a)", "(?>a)", "(?<1>a)", "(?<>a)", "a{2,1}", "a{,2}", "\\b*", "(?=a)*",
        "(?<=a){2}")}}
OPENINGS_BESIDE = ("(", "(?:", "(?=", "(?!", "(?<=", "(?<!", "(?<g{}>")


def nested_terms(choose, deep, groups):
    """Terms in one another, so many deep at most, with a mark where one more may stand; and the groups with names."""
    made = []
    for _ in range(choose((1, 2, 2, 3))):
        made.append("\0")
        if deep and choose((False, False, True)):
            opening = choose(OPENINGS_BESIDE)
            if opening.endswith("{}>"):
                groups.append(opening)
                opening = opening.format(len(groups))
            inner = "|".join(nested_terms(choose, deep - 1, groups) for _ in range(choose((1, 1, 2))))
            is_look = "=" in opening or "!" in opening
            made.append(f"{opening}{inner})" + ("" if is_look else choose(("", "", "*", "+?", "?", "{2}", "{0,3}?"))))
        else:
            made.append(choose([piece for piece in (*ATOMS_BESIDE, *COUNTED_BESIDE, *ENDED_BESIDE)
                                if "?<n>" not in piece and piece != "5"]))
    return "".join(made)


def nested_piece_rows():
    """Pieces in one another, right ones and with one that is not taken at some place."""
    yield "pieces of a pattern in one another, and the same with one that is not taken at some place"
    choose, told, whole = choices(), {}, {}
    for spoiling in [*SPOILING] * 60:
        marked = nested_terms(choose, 4, [])
        pattern, places = marked.replace("\0", ""), marked.count("\0")
        told[pattern], whole[pattern] = "taken", True
        at = choose(range(places)) + 1
        before = marked.split("\0", at)
        spoilt = "".join(before[:at]) + spoiling + before[at].replace("\0", "")
        why, is_whole = SPOILING[spoiling]
        told[spoilt] = why
        if is_whole is not None:
            whole[spoilt] = is_whole
    yield texts(WHOLE_PATTERNS, whole, whole.get)
    yield from by_reason(told)


# Items of a class, each with its code point, where it is one character.
ITEMS_BESIDE = {
    "a": 0x61, "z": 0x7A, "5": 0x35, "\u00e9": 0xE9, "\uffff": 0xFFFF, "\U0001f600": 0x1F600, "^": 0x5E, "-": 0x2D,
    "\\-": 0x2D, "\\b": 8, "\\0": 0, "\\t": 9, "\\v": 0xB, "\\cM": 0xD, "\\^": 0x5E, "\\]": 0x5D, "\\\\": 0x5C,
    "\\/": 0x2F, "\\x41": 0x41, "\\u0042": 0x42, "\\u{43}": 0x43, "\\u{10FFFF}": 0x10FFFF, "\\ud83d\\ude00": 0x1F600,
    "\\ud83d": 0xD83D, "\\ude00": 0xDE00, "\\u{D83D}": 0xD83D, "\\d": None, "\\S": None, "\\p{L}": None,
    "\\P{sc=Latn}": None}
ALONE_BESIDE = ("\\ud83d", "\\ude00", "\\u{D83D}")
# How two items may stand in a class.
FORMS_OF_ITEMS = ("{0}{1}", "{0}-{1}", "z{0}-{1}", "{0}-{1}z", "{0}{1}-", "-{0}{1}", "{0}-{1}-", "a-b{0}{1}",
                  "{0}-{1}-z", "\\d{0}-{1}", "{0}-{1}\\d", "{0}{1}-z", "!{0}{1}", "{0}{1}{0}", "{0}-{0}{1}-{1}")


def items_of(contents):
    """The items that contents of a class are, the longest first."""
    items = []
    while contents:
        longest = max((one for one in (*ITEMS_BESIDE, "b", "!") if contents.startswith(one)), key=len)
        items.append(longest)
        contents = contents[len(longest):]
    return items


def told_of_contents(contents):
    """Whether contents of a class are ClassContents whose ranges are in order (22.2.1), and whether none is alone."""
    items, place, ranges = items_of(contents), 0, []
    while place < len(items):
        is_range = items[place + 1:place + 2] == ["-"] and place + 2 < len(items)
        if is_range:
            ranges.append((items[place], items[place + 2]))
        place += 3 if is_range else 1
    points = {**ITEMS_BESIDE, "b": 0x62, "!": 0x21}
    in_order = all(None not in (points[first], points[last]) and points[first] <= points[last]
                   for first, last in ranges)
    return in_order, not any(one in ALONE_BESIDE for one in items)


def item_rows():
    """Each item of a class beside each other, as two and as the ends of a range."""
    yield ("each two items of a class, one behind the other and as the ends of a range, beside others: what is in "
           "order, and what is no character (section 22.2.1.1)")
    whole, told = {}, {}
    for (at, (one, other)), form in itertools.product(enumerate(itertools.product(ITEMS_BESIDE, repeat=2)),
                                                      FORMS_OF_ITEMS):
        contents = form.format(one, other)
        is_negated = contents[0] == "^" or at % 3 == 1
        if "\\05" in contents:
            in_order, is_taken = False, True
        else:
            in_order, is_taken = told_of_contents(contents[1:] if contents[0] == "^" else contents)
        pattern = f"[{'^' if is_negated and contents[0] != '^' else ''}{contents}]"
        whole[pattern] = in_order
        told[pattern] = ("taken" if is_taken else NOT_TAKEN) if in_order else NOT_A_PATTERN
    yield texts(WHOLE_PATTERNS, whole, whole.get)
    yield from by_reason(told)


def item_search_rows():
    """What a range has whose ends are two items, each as it may be written."""
    yield "what ranges have, by each way to write each of their ends: both ends, and nothing before them or behind"
    ends = {one: point for one, point in ITEMS_BESIDE.items() if point is not None and one not in (*ALONE_BESIDE, "^")}
    rows = []
    for (one, low), (other, high) in itertools.product(ends.items(), repeat=2):
        if low > high:
            continue
        tried = {low, high, *(point for point in (low - 1, high + 1, (low + high) // 2) if 0 <= point < 0x110000
                              and not 0xD800 <= point < 0xE000)}
        for point in sorted(tried):
            is_in = low <= point <= high
            rows += [[f"^[{one}-{other}]$", chr(point), is_in], [f"^[^{one}-{other}]$", chr(point), not is_in]]
    yield searches(rows)


# How many pieces stand one behind another: about the ends of what a byte counts, and many more.
MANY_BESIDE = (255, 256, 257, 4097)
# Names of groups that are many.
NAMES_BESIDE = [f"{letter}{number}" for number in range(26) for letter in "abcdefghijk"]


def many_piece_rows():
    """Each piece very often, and many names of groups."""
    yield "each piece of a pattern and each item of a class very often, one behind another (22.2.1)"
    pieces = [piece for piece in (*ATOMS_BESIDE, *ENDED_BESIDE, *COUNTED_BESIDE) if "?<n>" not in piece]
    right, wrong = [], []
    for piece, many in itertools.product((*pieces, *UNTAKEN_BESIDE), MANY_BESIDE):
        front = [[CAPTURED, 1]] if piece in ("\\1", "\\k<m>") else []
        right.append([*front, [piece, many]])
        wrong += [[*front, [piece, many], [more, 1]] for more in (")", "\\k<n>")]
    for item, many in itertools.product(ITEMS_BESIDE, MANY_BESIDE):
        if item not in ("-", "^"):
            right.append([["[", 1], [item, many], ["]", 1]])
            wrong.append([["[", 1], [item, many], ["z-a]", 1]])
    yield {"ask": "long texts", "of": WHOLE_PATTERNS, "yes": right, "no": wrong}, len(right) + len(wrong)
    yield "and as often as a pattern may have characters, and once more"
    for more, why in enumerate(("taken", "it has more than 2000 characters")):
        long = [{"pattern": [[piece, 2000 // len(piece)], ["z", 2000 % len(piece) + more]]} for piece in pieces]
        yield {"ask": "refusals", "of": why, "long": long}, len(long)
    yield "the reason why a pattern is not taken, behind many of each piece"
    reasons = {"\\1": BACK_REFERENCE, "\\p{Foo}": UNKNOWN_PROPERTY, "a{5001}": MORE_TIMES, "\\-": needless("-"),
               "]": NOT_A_PATTERN}
    yield from by_reason({piece * 65 + last: why for piece in pieces for last, why in reasons.items()})
    yield "many groups with names: any two of one name, however far from each other, and each of them asked for"
    expected, called = {}, {}
    for many in (2, 3, 32, 33, 64, 65, 128, 129, 256, 257):
        groups = "".join(f"(?<{name}>)" for name in NAMES_BESIDE[:many])
        expected |= {groups: True, f"{groups}(?<zz>)": True}
        for name in {NAMES_BESIDE[at]: None for at in (0, many // 2, many - 1)}:
            expected |= {f"{groups}(?<{name}>)": False, f"(?:|(?<{name}>)){groups}": False}
            called |= {f"{groups}\\k<{name}>": True, f"\\k<{name}>{groups}": True}
        called |= {f"{groups}\\k<zz>": False, f"{groups}\\{many}": True, f"{groups}\\{many + 1}": False}
    short = {pattern: right for pattern, right in expected.items() if len(pattern) <= 2000}
    yield texts(PATTERNS, short, short.get)
    yield texts(WHOLE_PATTERNS, expected | called, (expected | called).get)
