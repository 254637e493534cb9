"""Classes and look-behinds of patterns: ECMA-262, section 22.2.2."""
import itertools
import re

from rows.grammars.common import ASCII, DIGITS, LETTERS, WHITE_SPACE, long_searches, never, searches, texts, words
from rows.grammars.literals import NO_WHITE_SPACE
from rows.grammars.properties import LINE_ENDS, PATTERNS, SYNTAX, is_no_word, is_surrogate, is_word

# Patterns that match a character, by what the character has to be.
MEMBERS = [
    (("^\\w$", "^[\\w]$", "^[^\\W]$"), is_word),
    (("^\\W$", "^[\\W]$", "^[^\\w]$"), is_no_word),
    (("^\\d$", "^[\\d]$", "^[^\\D]$"), lambda character: character in DIGITS),
    (("^\\D$", "^[\\D]$"), lambda character: character not in DIGITS),
    (("^.$", "^(?:.)$", "^.+$", "^(?:a|.)$"), lambda character: character not in LINE_ENDS),
    (("^\\b", "\\b$"), is_word),
    (("^\\B", "\\B$"), is_no_word),
]


def space_searches():
    """Searches by `\\s` and `\\S` for white space and the characters beside it."""
    tried = WHITE_SPACE + NO_WHITE_SPACE + "a0_\U0010ffff"
    no_spaces = "".join(character for character in tried if character not in WHITE_SPACE)
    of_spaces = ("^\\s$", "^[\\s]$", "^[^\\S]$", "^(?:\\s|a\\b)$", "^a?\\s+$")
    of_no_spaces = ("^\\S$", "^[\\S]$", "^[^\\s]$", "^(?:\\S)+$")
    for patterns, found in ((of_spaces, WHITE_SPACE), (of_no_spaces, no_spaces)):
        rows = []
        for pattern, character in itertools.product(patterns, tried):
            is_found = character in found or "a\\b" in pattern and character == "a"
            rows.append([pattern, character, is_found])
        yield searches(rows)


def set_searches():
    """Each set, alone and in a class, by one search of many characters that it has not, and of all that it has."""
    points = [*range(0x3100), *range(0xFE00, 0x10010), *range(0x3100, 0x110000, 256), 0x10FFFE, 0x10FFFF]
    others = "".join(chr(point) for point in points if not is_surrogate(point)
                     and chr(point) not in WHITE_SPACE + LETTERS + DIGITS + "_")
    rows = []
    for letter, having in (("s", WHITE_SPACE), ("d", DIGITS), ("w", LETTERS + DIGITS + "_")):
        upper = letter.upper()
        for one in (f"\\{letter}", f"[\\{letter}]", f"[^\\{upper}]", f"[\\{letter}\\{letter}]"):
            rows.append([f"^{one}+$", having, True])
        rows += [[f"^[\\{letter}a]+$", having + "a", True], [f"\\{upper}|[\\{upper}]|[^\\{letter}]", having, False]]
    none_of = "".join(f"(?=\\{upper})(?=[\\{upper}])(?=[^\\{upper.lower()}])" for upper in "SDW")
    rows.append([f"^(?:{none_of}(?=.)(?=\\P{{Cs}})(?=\\p{{Any}})\\B[^])+\\B$", others, True])
    return searches(rows)


def spellings(character):
    """A character of ASCII as it may be written in a pattern."""
    number = ord(character)
    found = [form.format(number) for form in ("\\x{:02x}", "\\u{:04X}", "\\u{{{:x}}}", "[\\x{:02X}]")]
    if 1 < number < 127:
        found.append(f"[^\\0-\\x{number - 1:02x}\\x{number + 1:02x}-\\u{{10FFFF}}]")
    if character in SYNTAX:
        found += [f"\\{character}", f"[\\{character}]", f"[\\{character}-\\{character}]"]
    if character not in SYNTAX or character == "/":
        found += [character, f"(?:{character})"]
    if character not in "\\]^":
        found += [f"[{character}]", f"[^{character}]"]
    return found


def spelled_searches():
    """Each character of ASCII by each of its spellings, in itself and in two others."""
    rows = []
    for character in ASCII:
        for form, other in itertools.product(spellings(character), (character, chr(ord(character) ^ 1), "\u00e9")):
            rows.append([f"^{form}$", other, (other == character) != (form == f"[^{character}]")])
    return searches(rows)


def member_rows():
    """The rows of sets of characters and of assertions."""
    yield "each character of ASCII by each of its spellings, in itself and in others"
    yield spelled_searches()
    yield ("each ASCII character and others: `\\d`, `\\w`, `.`, and word boundaries beside them; `$` and `^` beside "
           "ends of lines")
    tried = ASCII + ("\u0080\u0085\u00a0\u00e9\u017f\u2027\u2028\u2029\u202a\u212a\u0660\ufeff\uff10\U0001d7ce"
                     "\U0010ffff")
    for patterns, has in MEMBERS:
        yield searches([[pattern, character, has(character)] for pattern in patterns for character in tried])
    behind, before = [], []
    for character in tried:
        by_pattern = {"^a\\b": is_no_word, "^a\\B": is_word, "^a$": never, "^a\\w?$": is_word}
        behind += [[pattern, "a" + character, has(character)] for pattern, has in by_pattern.items()]
        before += [["\\ba$", character + "a", is_no_word(character)], ["^a", character + "a", character == "a"]]
    yield searches(behind)
    yield searches(before)
    rows = [["^(?:a\n)*$", "a\n" * times, True] for times in range(4)]
    rows += [[f"a${end}b", f"a{end}b", False] for end in LINE_ENDS]
    yield searches(rows + [[f"a{end}^b", f"a{end}b", False] for end in LINE_ENDS])
    yield "each member of `\\s`, and the characters beside them"
    yield from space_searches()
    yield "many characters are of no set: all up to U+30FF, from U+FE00 to U+1000F, and one of each 256 behind them"
    yield set_searches()


# Members of a class by their spellings, which have no character in common, with those that they have and others beside.
FAR_MEMBERS = {
    "c-e": ("cde", "bf"), "\\x41-\\x43": ("ABC", "@D"), "\\d": ("0579", "/:"), "x": ("x", "wy"), "\\n": ("\n", "\v\t"),
    "\\p{sc=Grek}": ("\u03b1\u03a9", "\u0416"), "\\u{1F600}-\\u{1F602}": ("\U0001f600\U0001f602", "\U0001f5ff"),
    "\\b": ("\b", "\x07"), "\\-": ("-", ",."), "\\]": ("]", "[\\"), "\\ud83d\\ude80": ("\U0001f680", "\U0001f681"),
    "\u0660-\u0669": ("\u0660\u0665\u0669", "\u065f\u066a")}
# What may stand many times over in a class before and behind them, all of which has U+4E00 and none of the others but
# white space.
FAR_IN_CLASSES = {
    "\u4e00": (31, 32, 64, 100, 127, 128, 256, 257, 511, 512, 513, 1000, 1800), "\\u4e00": (31, 100, 256, 300),
    "\u4e00-\u4e09": (10, 32, 100, 300, 600), "\\p{sc=Hani}": (4, 33, 64, 100, 130),
    "\\s\u4e00": (10, 33, 100, 300, 600)}


def far_member_rows():
    """Members of a class behind and before many others."""
    yield ("members of a class behind and before many characters, ranges, sets and properties: each has what it has, "
           "in a class and a negated one")
    rows, has = [], "".join(having for having, _ in FAR_MEMBERS.values()) + "\u4e00"
    for (many, sizes), turn in itertools.product(FAR_IN_CLASSES.items(), (1, -1)):
        inner = "".join(list(FAR_MEMBERS)[::turn])
        lacks = "".join(other for _, others in FAR_MEMBERS.values() for other in others
                        if not (many.startswith("\\s") and other in WHITE_SPACE))
        for size, behind in itertools.product(sizes, (True, False)):
            parts = [[many, size], [inner, 1]] if behind else [[inner, 1], [many, size]]
            rows += [[[["^[", 1], *parts, ["]+$", 1]], [[has, 1]], True],
                     [[["[", 1], *parts, ["]", 1]], [[lacks, 1]], False],
                     [[["^[^", 1], *parts, ["]+$", 1]], [[lacks, 1]], True],
                     [[["[^", 1], *parts, ["]", 1]], [[has, 1]], False]]
    for turn, (one, (having, others)) in enumerate(FAR_MEMBERS.items()):
        many = (["\u4e00", 100], ["\u4e00", 520], ["\u4e00-\u4e09", 100], ["\u4e00", 1000])[turn % 4]
        for parts in ([many, [one, 1]], [[one, 1], many]):
            rows += [[[["^[", 1], *parts, ["]+$", 1]], [[having + "\u4e00", 1]], True],
                     [[["[", 1], *parts, ["]", 1]], [[others, 1]], False],
                     [[["^[^", 1], *parts, ["]+$", 1]], [[others, 1]], True],
                     [[["[^", 1], *parts, ["]", 1]], [[having, 1]], False]]
    yield long_searches(rows)


# What a lookbehind may look for, over a, b and c, which is a pattern of Python too.
BODIES = ["", "a", "b", "ab", "a|b", "aab", "ba*", "(?:ab)+", "^", "^a", "a|^", "^|ba", "[^a]", "a?b?", "(?:a|ba)b*",
          "\\ba", "\\Ba", "[^]", "a{2}", "(?:ab?){1,2}"]


def stands_before(body, text, place):
    """Whether the text up to a place ends with what the body matches."""
    body = re.compile(body.replace("[^]", "(?s:.)"))
    return any(body.fullmatch(text, start, place) for start in range(place + 1))


def has_lone_b(text):
    """Whether a `b` stands in the text with no `ab` at its left."""
    return any(letter == "b" and not text[:at].endswith("ab") for at, letter in enumerate(text))


# Patterns with lookbehinds, and in which texts of a and b each is found.
LOOKS = [
    ("^(?:[ab](?<!aa))*$", lambda text: "aa" not in text),
    ("^(?:(?<!a)[ab])*$", lambda text: "a" not in text[:-1]),
    ("^(?:(?<=^|b)a|b)*$", lambda text: "aa" not in text),
    ("^(?:a|(?<!^)b)*$", lambda text: text[:1] != "b"),
    ("b(?<=ab)a", lambda text: "aba" in text),
    ("(?<=a)(?<!aa)b", lambda text: re.search("(?:^|b)ab", text)),
    ("(?<=(?<!a)a)b", lambda text: re.search("(?:^|b)ab", text)),
    ("(?<=(?<=a)b)a", lambda text: "aba" in text),
    ("(?<!(?<=a)b)b", has_lone_b),
    ("(?<=a*)b|(?<!a)$", lambda text: "b" in text or text == ""),
    ("(?<![^])b", lambda text: text[:1] == "b"),
    ("(?:a(?<=ba))+b", lambda text: "bab" in text),
    ("(?<=b.*)a", lambda text: re.search("b.*a", text)),
    ("a$(?<=a)(?<!ba)", lambda text: text.endswith("a") and not text.endswith("ba")),
]


def one_character_rows(looking, text, edge):
    """Rows of a look-around by its sign and body, in texts with one character on the side that it looks at."""
    far = list(itertools.product(["\u00e9", "\u0800", "\uffff", "\U0001f600"], repeat=2))
    rows = [[looking("=", one), text(other), one == other] for one, other in far]
    yield searches(rows + [[looking("!", one), text(other), one != other] for one, other in far])
    rows = [[looking("=", "\\n"), text(end), end == "\n"] for end in LINE_ENDS]
    rows += [[looking("=", "."), text(end), False] for end in LINE_ENDS]
    yield searches(rows + [[looking("=", edge), text(end), False] for end in LINE_ENDS])


def ruled_rows(patterns, sizes):
    """Rows of each pattern and its rule, in the texts of a and b of these sizes."""
    for pattern, found in patterns:
        yield searches([[pattern, text, bool(found(text))] for text in words("ab", sizes)])


def look_rows():
    """The rows of lookbehinds."""
    yield ("lookbehinds: `(?<= )` and `(?<! )` with each body, behind each text of a and b; within groups and loops, "
           "in one another, and beside what they look at")
    rows = []
    for body, word in itertools.product(BODIES, words("ab", range(4))):
        stands = stands_before(body, word + "c", len(word))
        rows += [[f"(?<={body})c", word + "c", stands], [f"(?<!{body})c", word + "c", not stands]]
    yield searches(rows)
    yield from ruled_rows(LOOKS, range(5))
    yield from one_character_rows(lambda sign, body: f"(?<{sign}{body})a", lambda beside: f"{beside}a", "^")
    yield from look_syntax_rows()


# What may stand around a lookbehind, and what may not; `None` where that is right unless a name stands there twice.
AROUND_LOOKS = {
    "{}": True, "{}b": True, "a{}": True, "({})": True, "(?:{})*": True, "({}){{2}}": True, "(?<m>{})?": True,
    "{}|{}": None, "^{}$": True, "{}*": False, "{}+": False, "{}?": False, "{}{{1}}": False, "{}{{0,1}}": False,
    "{}{{2,}}": False, "{}??": False, "({}*)": False, "(?<n>{})": None, "{})": False, "({}": False}
# Patterns that begin as a lookbehind or a named group does, and whether they are taken.
LIKE_LOOKS = {
    "(?<=": 0, "(?<!": 0, "(?<=a": 0, "(?<!a": 0, "(?<=*)": 0, "(?<=a|*)": 0, "(?<=a)(": 0, "(?<=>a)": 1, "(?<!>)": 1,
    "(?<==)": 1, "(?<!!)": 1, "(?<=!)": 1, "(?<n=a)": 0, "(?<n!>a)": 0, "(?<=n>a)": 1, "(? <=a)": 0, "(?< =a)": 0,
    "(?<=\\1)": 0, "(?<=[)": 0, "(?<=[)])": 1, "(?<=\\))": 1, "(?<=a)b)": 0, "((?<=a)": 0, "(?<=(?<n>a))(?<n>b)": 0,
    "(?<=(?<n>a))(?<m>b)": 1, "(?<=^)": 1, "(?<=$)": 1}


def look_syntax_rows():
    """Where a lookbehind may stand."""
    yield "no quantifier follows a lookbehind, and its name is none of a group"
    expected = {}
    for sign, body in itertools.product("=!", ["a", "", "a|b", "(?<n>a)", "(?<=a)", "(a)*"]):
        for form, is_right in AROUND_LOOKS.items():
            pattern = form.format(f"(?<{sign}{body})", f"(?<{sign}{body})")
            expected[pattern] = is_right is not False and pattern.count("<n>") < 2
    yield texts(PATTERNS, expected, expected.get)
    yield texts(PATTERNS, LIKE_LOOKS, LIKE_LOOKS.get)
