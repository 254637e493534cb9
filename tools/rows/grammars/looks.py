"""Look-aheads of patterns, and what looks far in both ways."""
import itertools
import re

from rows.grammars.common import (ASCII, MANY_TIMES, MORE_STEPS_OF_ALL, MOST_STEPS_OF_ALL, TWO_STEPS, long_searches,
                                  never, refusals, searches, tables, words)
from rows.grammars.properties import LINE_ENDS, is_word
from rows.grammars.classes import ruled_rows

# What a lookahead may look for, over a, b and c, which is a pattern of Python too; and what only a longer look tells.
GLANCES = ["", "a", "b", "[ab]", "[^a]", "[^]", "[]", "a|b", "a|$", "|b", "$", "^", "^|b", "\\b", "\\B", "\\w", ".",
           "(?:a)", "(?:a|$)?", "a?", "(?=a)", "(?!a)", "(?!a|$)", "(?:|(?!b))", "a{0}", "(?:ab){0,0}", "(?:){2}",
           "(?:^|\\b)", "(?=[ab])", "(?!$)", "a|(?=b)", "(?=|b)", "a{0,1}"]
FAR = ["ab", "a*", "a+", "a{2}", ".*b", "^a", "a$", "(?:a|ab)", "(?:ab)?", "(?<=a)", "(?<!a)", "(?=ab)", "(?!a*)",
       "a|ba", "(?<=a)b", "(?=(?<=a))", "a{0,2}", "\\ba", "ba|a", "ab|$", "a*|b", "(?:ab|)", "(?:|ab)", "(?:ba|a)?",
       "(?:a|ba)?", "(?=ba|a)", "(?!a|ba)", "(?<=)", "(?<!)", "(?<=)|a", "a|(?<!)", "a{1}", "a{1,2}", "a{0,}",
       "(?:){0,2}", "(?:)*", "b{0}a", "ab{0}", "(?:)a", "a(?:)", "(?=a)b", "a(?=b)", "(?:a|$){2}", "(?:ab?){1,2}"]


def stands_ahead(body, text, place):
    """Whether the body matches the text from a place on."""
    body = body.replace("[^]", "(?s:.)").replace("[]", "(?!)").replace("\\B", "(?!\\b)")
    return re.compile(body).match(text, place) is not None


def ahead_of_c(bodies, sizes):
    """Searches for `c` with each body ahead or not ahead, in `c` before each text of a and b of these sizes."""
    rows = []
    for body, word in itertools.product(bodies, words("ab", sizes)):
        stands = stands_ahead(body, "c" + word, 1)
        rows += [[f"c(?={body})", "c" + word, stands], [f"c(?!{body})", "c" + word, not stands]]
    return searches(rows)


def ahead_at_front(bodies, sizes, ends):
    """Searches for each body ahead or not ahead at the front, before each of these ends, in each text of a and b.

    Each end matches whatever of these texts follows.
    """
    rows = []
    for body, word in itertools.product(bodies, words("ab", sizes)):
        stands = stands_ahead(body, word, 0)
        for end in ends:
            rows += [[f"^(?={body}){end}", word, stands], [f"^(?!{body}){end}", word, not stands]]
    return searches(rows)


# Patterns with lookaheads, and in which texts of a and b each is found.
LOOKS_AHEAD = [
    ("^(?:a(?!a)|b)*$", lambda text: "aa" not in text),
    ("^(?:(?!a)[ab])*$", lambda text: "a" not in text),
    ("^(?:(?=a)[ab]|b)*$", lambda text: True),
    ("^(?:a(?=b|$)|b)*$", lambda text: "aa" not in text),
    ("^(?:[ab](?!$))*b$", lambda text: text.endswith("b")),
    ("a(?=b)b", lambda text: "ab" in text),
    ("a(?=b)a", never),
    ("a(?!b)", lambda text: re.search("aa|a$", text)),
    ("a(?!b)(?!$)", lambda text: "aa" in text),
    ("(?!$)", lambda text: text != ""),
    ("(?![^])", lambda text: True),
    ("^(?![^])", lambda text: text == ""),
    ("(?<=a)(?=b)", lambda text: "ab" in text),
    ("(?<=a(?=b))b", lambda text: "ab" in text),
    ("(?<!a(?!$))$", lambda text: True),
    ("(?<=a(?=a))(?=a)", lambda text: "aa" in text),
    ("(?:a(?=b)b)+$", lambda text: text.endswith("ab")),
    ("(?:a(?!b)){2}", lambda text: re.search("aaa|aa$", text)),
    ("^(?:(?=a)|b)*a", lambda text: "a" in text),
    ("^(?:(?!b)a*(?!a)b)+$", lambda text: re.fullmatch("(?:a+b)+", text)),
    ("^(?=a|$)(?!b)[ab]{0,2}$", lambda text: text[:1] != "b" and len(text) < 3),
    ("(?=(?!a)).", lambda text: "b" in text),
    ("(?!(?!a)).", lambda text: "a" in text),
    ("(?=a)(?=b)", never),
    ("(?=a|)(?!b|$)", lambda text: "a" in text),
]
# Patterns with lookaheads at the front that look far, and in which texts of a and b each is found.
FRONT_LOOKS = [
    ("^(?=.*a)(?=.*b)[ab]*$", lambda text: "a" in text and "b" in text),
    ("^(?=.*a)(?!.*bb)[ab]*$", lambda text: "a" in text and "bb" not in text),
    ("^(?!.*aa)(?!.*bb).*$", lambda text: "aa" not in text and "bb" not in text),
    ("^(?!ab|ba)..", lambda text: text[:2] in ("aa", "bb")),
    ("^(?=ab)", lambda text: text.startswith("ab")),
    ("^(?!ab)", lambda text: not text.startswith("ab")),
    ("^(?=ab)(?!a)", never),
    ("^(?=a|$)(?=a?b?$)", lambda text: text in ("", "a", "ab")),
    ("^(?=ab)b", never),
    ("^(?=ba)(?!.{3})b", lambda text: text == "ba"),
    ("^\\b(?=ab)", lambda text: text.startswith("ab")),
    ("^(?<!a)(?=ab)a", lambda text: text.startswith("ab")),
    ("^(?<=a)(?=ab)", never),
    ("^^(?!aa)a", lambda text: text[:1] == "a" and text[:2] != "aa"),
    ("(?:)^(?:)(?=ab)", lambda text: text.startswith("ab")),
    ("^$(?!a+)", lambda text: text == ""),
    ("^(?=(?<n>ab))(?<m>a)", lambda text: text.startswith("ab")),
    ("^(?=[ab]{2,3}$)(?!(?:a|b)*aa)", lambda text: len(text) in (2, 3) and "aa" not in text),
]
# Passwords of schemas, and texts with the verdict.
PASSWORDS = [
    ("^(?=.*\\d).{8,}$", {"abcdefg1": 1, "abcdefgh": 0, "abcde1": 0, "1abcdefgh": 1}),
    ("^(?=.*[a-z])(?=.*[A-Z])(?=.*\\d)(?=.*[^\\w\\s]).{8,64}$", {
        "aB3!efgh": 1, "aB3efghi": 0, "ab3!efgh": 0, "AB3!EFGH": 0, "aBc!efgh": 0, "aB3!": 0, "aB3!" + "e" * 61: 0,
        "aB3!" + "e" * 60: 1}),
    ("^(?!.*\\s)(?=.*\\p{Lu})\\S{2,}$", {"\u00c4a": 1, "\u00e4a": 0, "\u00c4 a": 0, "\u00c4": 0, "a\U0001d400": 1}),
    ("^(?=.{1,253}$)([a-z0-9]([a-z0-9-]{0,61}[a-z0-9])?\\.)+[a-z]{2,}$", {
        "example.com": 1, "-a.com": 0, "a.b": 0, ("a" * 50 + ".") * 4 + "b" * 46 + ".com": 0,
        ("a" * 50 + ".") * 4 + "b" * 45 + ".com": 1}),
]
# Patterns with a lookahead that looks far, and is not at the front behind `^`, or within another.
NO_FRONTS = [
    "(?=ab)^", "a^(?=ab)", "^a(?=ab)", "^a?(?=ab)", "^a{0,2}(?=ab)", "^(?:a|)(?=ab)", "(?:^)(?=ab)", "(^)(?=ab)",
    "(^(?=ab))", "(?:^(?=ab))a", "^(?=ab)|a", "a|^(?=ab)", "^(?=(?=ab))", "^(?!(?!ab))", "^(?=a(?=ab))",
    "^(?=ab)a(?=ab)", "$(?=ab)", "\\b(?=ab)", "(?<!a)(?=ab)", "^(?:(?=ab))"]


def at_place(holds):
    """Whether some place of a text is so, by what stands before it and behind it."""
    return lambda text: any(holds(text[:place], text[place:]) for place in range(len(text) + 1))


# Patterns that look far both ways, outside what is looked for by itself at the front, and in which texts of a and b
# each is found.
BOTH_WAYS = [
    ("(?<=ab)(?=ba)", lambda text: "abba" in text),
    ("(?=ab)(?<=ab)", lambda text: "abab" in text),
    ("(?<=ab)(?!ba)", at_place(lambda before, behind: before.endswith("ab") and not behind.startswith("ba"))),
    ("(?<!ab)(?=ba)", at_place(lambda before, behind: not before.endswith("ab") and behind.startswith("ba"))),
    ("(?<!ab)(?!ba)", at_place(lambda before, behind: not before.endswith("ab") and not behind.startswith("ba"))),
    ("(?<!ab)(?!ab)", at_place(lambda before, behind: not before.endswith("ab") and not behind.startswith("ab"))),
    ("(?<=ab)a(?!ba)", lambda text: re.search("aba(?!ba)", text)),
    ("(?=(?<=ab))", lambda text: "ab" in text),
    ("(?!(?<=ab))$", lambda text: not text.endswith("ab")),
    ("(?<=(?=ab))", lambda text: "ab" in text),
    ("(?<!(?=ab))^", lambda text: not text.startswith("ab")),
    ("(?=a(?<!ba))", at_place(lambda before, behind: behind.startswith("a") and not before.endswith("b"))),
    ("(?<=a(?=ab))", lambda text: "aab" in text),
    ("(?<=^(?=ab))a", lambda text: text.startswith("ab")),
    ("(?=ab)|(?<=ab)", lambda text: "ab" in text),
    ("((?=ab)(?<=ab))*", lambda text: True),
    ("^(?:(?=ab)(?<!ab))", lambda text: text.startswith("ab")),
    ("^(?:(?<=a)b(?=a)|a)+$", lambda text: re.fullmatch("a(?:b?a)*", text)),
    ("^(?:(?<=aa)b(?=aa)|a)+$", lambda text: re.fullmatch("a+|aa+(?:baa+)+", text)),
    ("(?<=a(?=ba)b)a", lambda text: "aba" in text),
    ("(?<!a(?=ba)b)a", at_place(lambda before, behind: behind.startswith("a") and not before.endswith("ab"))),
    ("(?=(?<=(?=ab)a)b)", lambda text: "ab" in text),
    ("(?!(?<=ab)(?=ab))$", lambda text: True),
    ("^(?!(?<=ab)|(?=ab))", lambda text: not text.startswith("ab")),
    ("(?:(?<=ab)(?=ba)b){2}", never),
    ("(?:(?<=ab)(?=ab)ab){2}", lambda text: "ababab" in text),
    ("(?:(?<=ab)(?=ab)|a){2}", lambda text: "aa" in text or "abab" in text),
    ("(?:(?<=ab)(?=ba)){0}b", lambda text: "b" in text),
    ("(?<=aa)b{0,2}(?=aa)", lambda text: re.search("aab{0,2}aa", text)),
    ("^(?<=^(?=ab|ba))..", lambda text: text[:2] in ("ab", "ba")),
    ("(?<=^|b)(?=aa)(?<!bb)", at_place(lambda before, behind: before[-2:] in ("", "b", "ab") and behind[:2] == "aa")),
    ("(?<=ab$)(?=ab)", never),
    ("(?<=ab)(?=$|ba)", lambda text: text.endswith("ab") or "abba" in text),
    ("(?=ab(?<=(?:^|b)ab))", lambda text: re.search("(?:^|b)ab", text)),
    ("(?=aab(?!(?<=baab)a))", at_place(
        lambda before, behind: behind.startswith("aab") and not (before.endswith("b") and behind[3:4] == "a"))),
    ("(?<!(?!ba)..)$", lambda text: len(text) < 2 or text.endswith("ba")),
    ("(?<!^(?!.*bb).*)$", lambda text: "bb" in text),
    ("(?<=(?=.*bb)a.*)$", lambda text: re.search("a.*bb", text)),
    ("(?:a(?=.*b)|(?<=b.*)b)+$", lambda text: text.endswith("b") and text.count("b") > 1),
    ("(?=.*a)(?<=b.*)", lambda text: re.search("b.*a", text)),
    ("(?!.*a)(?<!b.*)", at_place(lambda before, behind: "a" not in behind and "b" not in before)),
    ("^(?=(?:.*(?<=ab)(?=ba)){2})", lambda text: "abba" in text),
    ("(?<n>(?<=ab)(?=ba))b", lambda text: "abba" in text),
    ("(?<!.{2})(?!.{2})", lambda text: len(text) < 3),
    ("^(?<!ab)(?!ab)$", lambda text: text == ""),
    ("(?<=^ab)(?=ba$)", lambda text: text == "abba"),
    ("(?<=^a{2,})(?=b{2,}$)", lambda text: re.fullmatch("aa+bb+", text)),
]
# Others of characters of one to four bytes, and texts with the verdict.
BOTH_WAYS_WIDE = [
    ("(?<=ab)(?=cd)", {"abcd": 1, "abc": 0, "bcd": 0, "xabcdx": 1, "cdab": 0, "ab\ncd": 0, "": 0}),
    ("^(?:(?<=a)b(?=c)|c)+$", {"c": 1, "ccc": 1, "cbc": 0, "bc": 0, "abc": 0, "": 0}),
    ("(?<=\u00e9\u00e9)(?=\U0001f600\u0800)", {
        "\u00e9\u00e9\U0001f600\u0800": 1, "\u00e9\U0001f600\u0800": 0, "\u00e9\u00e9\u0800\U0001f600": 0,
        "a\u00e9\u00e9\U0001f600\u0800a": 1}),
    ("(?<!\U0001f600.)(?!.\U0001f600)", {
        "\U0001f600a": 1, "\U0001f600ab\U0001f600": 1, "\U0001f600": 1, "a\U0001f600": 1}),
    ("^(?:(?<=\uffff\u00e9)a(?=b\uffff)|[^a])+$", {
        "\uffff\u00e9ab\uffff": 1, "\u00e9\uffffab\uffff": 0, "\uffff\u00e9ab\ufffe": 0, "\uffff\u00e9b": 1}),
]


def front_rows():
    """The rows of lookaheads at the front."""
    yield "lookaheads at the front behind `^`, for more than one character: with each body, alone and before `[ab]*$`"
    far = [body for body in FAR if "(?=" not in body and "(?!" not in body]
    yield ahead_at_front(far, range(4), ["", "[ab]*$"])
    yield from ruled_rows(FRONT_LOOKS, range(5))
    yield searches([[pattern, text, bool(found)] for pattern, told in PASSWORDS for text, found in told.items()])
    yield refusals("taken", NO_FRONTS)
    yield refusals("taken", ["^(?=.{2500}.{100})(?=.{2500}.{97})", "^(?=.{2500}.{2500}.{197})a"])
    yield refusals(MORE_STEPS_OF_ALL, ["^(?=.{2500}.{100})(?=.{2500}.{98})", "^(?=.{2500}.{2500}.{198})a"])


def is_bb_free(text):
    """Whether no two `b` stand together."""
    return "bb" not in text


# Patterns with lookaheads that look far, elsewhere than at the front, and in which texts of a and b each is found.
FAR_LOOKS = [
    ("^(?:(?!bb)[ab])*$", is_bb_free),
    ("^((?!aba).)*$", lambda text: "aba" not in text),
    ("a(?=b*$)", lambda text: re.search("ab*$", text)),
    ("a(?!b*$)", lambda text: text.count("a") > 1),
    ("b(?!.*a)", lambda text: text.endswith("b")),
    ("(?=ab)^", lambda text: text.startswith("ab")),
    ("$(?=ab)", never),
    ("a^(?=ab)", never),
    ("^a(?=ab)", lambda text: text.startswith("aab")),
    ("(?=ba)b|(?=ab)a", lambda text: "ab" in text or "ba" in text),
    ("(?:(?=ab)[ab]){2}", never),
    ("(?:(?=aa)a|b)+$", lambda text: text.endswith("b")),
    ("(?<=a)(?=ab)", lambda text: "aab" in text),
    ("(?<!a)(?=aab)", lambda text: re.search("(?:^|b)aab", text)),
    ("\\b(?=.b)a", lambda text: text.startswith("ab")),
    ("(?=a(?=b(?!a)))", lambda text: re.search("ab(?:b|$)", text)),
    ("(?!(?!.*bb))a", lambda text: re.search("a.*bb", text)),
    ("^(?=.*a)(?:(?!bb).)*$", lambda text: "a" in text and "bb" not in text),
    ("a{0,2}(?=b{2})b", lambda text: "bb" in text),
    ("a{2,}(?=bb)", lambda text: "aabb" in text),
    ("(?:(?:ab)?(?!ab)){2}$", lambda text: True),
]


def far_rows():
    """The rows of lookaheads for more than one character, anywhere."""
    yield ("lookaheads for more than one character: with each body, before each text of a and b; within groups, loops "
           "and one another; beside others at the front")
    yield ahead_of_c(FAR, range(4))
    yield from ruled_rows(FAR_LOOKS, range(6))
    far = list(itertools.product(["\u00e9", "\u0800", "\uffff", "\U0001f600"], repeat=2))
    rows = [[f"a(?={one}b)", f"{other}a{other}b{one}", one == other] for one, other in far]
    yield searches(rows + [[f"a(?!{one}b)", f"{other}a{other}b{one}", one != other] for one, other in far])
    yield searches([["a(?=\\nb)", f"a{end}b", end == "\n"] for end in LINE_ENDS])
    yield long_searches([
        ([["^((?!bb).)*$", 1]], [["ab", 50_000]], True), ([["^((?!bb).)*$", 1]], [["ab", 50_000], ["b", 1]], False),
        ([["a(?=.*c)", 1]], [["a", 100_000], ["c", 1]], True), ([["a(?=.*c)", 1]], [["c", 1], ["a", 100_000]], False)])
    yield from both_ways_rows()
    yield from far_place_rows()


def both_ways_rows():
    """The rows of patterns that look far both ways."""
    yield "lookaheads and lookbehinds for more than one character in one part of a pattern, and in one another"
    yield from ruled_rows(BOTH_WAYS, range(7))
    yield searches([[pattern, text, bool(found)] for pattern, told in BOTH_WAYS_WIDE for text, found in told.items()])
    yield long_searches([
        ([["(?<=ab)(?=ba)", 1]], [["ab", 20_000], ["ba", 1]], True), ([["(?<=ab)(?=ba)", 1]], [["ab", 20_000]], False),
        ([["(?<=b.*)(?=.*a)", 1]], [["a", 20_000], ["b", 1]], False),
        ([["(?<=b.*)(?=.*a)", 1]], [["b", 20_000], ["a", 1]], True)])
    # Each lookaround takes three steps more than what it looks for.
    yield refusals("taken", ["(?<=a{2500}a{97})(?=b{2500}b{97})", "(?=a{2500}(?<=b{2500}c{194}))"])
    yield refusals(MORE_STEPS_OF_ALL, ["(?<=a{2500}a{97})(?=b{2500}b{98})", "(?=a{2500}(?<=b{2500}c{195}))"])


# Patterns that look far both ways, which are patterns of Python too; and texts that have what they look for at one
# place, or beside it, or 64 characters away.
FAR_APART = ["(?<=ab)(?=cd)", "(?=cd(?<=abcd))", "(?<=ab(?=cd(?<=abcd)))", "^(?:(?!abcd)(?<!cdxab).)*$"]
PARTED = [[], [["x", 1]], [["x", 62]], [["x", 63]], [["x", 64]], [["x", 65]]]


def far_place_rows():
    """What looks far both ways, at places of long texts."""
    yield ("what looks far both ways, up to two hundred characters from either end of a text, in one piece and in two "
           "that stand apart")
    rows = []
    for far, parted in itertools.product((0, 1, *range(59, 67), *range(123, 131), 190, 191, 192, 193), PARTED):
        for around in ([["x", far]], [["x", 3]]), ([["x", 3]], [["x", far]]):
            for first, last in (("ab", "cd"), ("cd", "ab")):
                parts = [*around[0], [first, 1], *parted, [last, 1], *around[1]]
                text = "".join(part * times for part, times in parts)
                rows += [[[[pattern, 1]], parts, re.search(pattern, text) is not None] for pattern in FAR_APART]
    yield long_searches(rows)


# What a lookbehind may look for that the character before its place tells, and what that does not tell.
GLANCES_BEHIND = [
    "", "a", "b", "[ab]", "[^a]", "[^]", "[]", "a|b", "a|^", "|b", "$", "^", "^|b", "\\b", "\\B", "\\w", ".", "(?:a)",
    "(?:a|^)?", "a?", "(?<=a)", "(?<!a)", "(?:|(?<!b))", "a{0}", "(?:ab){0,0}", "(?:){2}", "(?:a|b)?",
    "(?:^|\\b)", "(?<=[ab])", "(?<!^)", "a{0,1}"]
FAR_BEHIND = [
    "ab", "ba", "a*", "a+", "a{2}", "a{1}", "a{0,2}", "a{1,2}", "a{0,}", "a{1,}", "(?:ab)?", "(?:ab)*",
    "a|ba", "ba|a", "ab|ba", "b.*", "^a", "(?<=ab)", "(?<!ab)", "(?=c)", "(?!c)", "(?=ca)", "(?!ca)", "(?<=a)b",
    "a(?<=ba)", "a\\b", "(?:a|^){2}", "(?:ab?){1,2}", "ab{0}", "(?:|ab)", "(?:^|ba)", "(?:(?=c)|b)", "b{0}a",
    "(?:)(?:a|^)", "ab|a", "ba|^", "(?:ba|a)?", "(?=)", "(?!)", "(?=)|a", "a|(?!)",
    "(?:){0,2}", "(?:)*", "a(?:)", "(?:)a", "a(?<=a)", "(?<=b)a"]


def in_python(body):
    """A body in the notation of Python, where a class has a character, and `\\B` stands in no empty text."""
    return body.replace("[^]", "(?s:.)").replace("[]", "(?!)").replace("\\B", "(?!\\b)")


def stands_behind(body, text, place):
    """Whether the body matches up to a place of the text from some place on."""
    to_place = re.compile(f"(?:{in_python(body)})(?=(?s:.{{{len(text) - place}}})\\Z)")
    return any(to_place.match(text, start) for start in range(place + 1))


def near_both_rows():
    """Each body of a lookbehind before a lookahead that looks far, and of a lookahead behind a lookbehind that does."""
    yield ("each body of a lookbehind beside a lookahead that looks far, "
           "and of a lookahead beside a lookbehind that does")
    beside = list(itertools.product(words("ab", range(3)), ("ab", "ba")))
    for bodies in (GLANCES_BEHIND, FAR_BEHIND):
        rows = []
        for body, (word, tail) in itertools.product(bodies, beside):
            text = f"{word}c{tail}"
            stands = stands_behind(body, text, len(word))
            rows += [[f"(?<={body})c(?=ab)", text, stands and tail == "ab"],
                     [f"(?<!{body})c(?=ab)", text, not stands and tail == "ab"]]
        yield searches(rows)
    for bodies in (GLANCES, FAR):
        rows = []
        for body, (word, head) in itertools.product(bodies, beside):
            text = f"{head}c{word}"
            stands = stands_ahead(body, text, 3)
            rows += [[f"(?<=ab)c(?={body})", text, stands and head == "ab"],
                     [f"(?<=ab)c(?!{body})", text, not stands and head == "ab"]]
        yield searches(rows)
    yield "only what looks far both ways in one part has no table"
    told = [[f"(?<={body})c(?=ab)", body in GLANCES_BEHIND] for body in GLANCES_BEHIND + FAR_BEHIND]
    told += [[f"(?<=ab)c(?={body})", body in GLANCES] for body in GLANCES + FAR]
    told += [[f"c(?={body})", True] for body in GLANCES + FAR]
    for times, is_left_out in {"{0}": True, "{0,0}": True, "{1}": False, "{0,1}": False, "?": False,
                               "*": False}.items():
        told += [[f"(?:(?<=ab)c){times}(?=ab)", is_left_out], [f"(?<=ab)(?:(?=ab)c){times}", is_left_out]]
    both_ways = "a(?<=ba*)c(?=b*a)"
    told += [[form.format(both_ways), False] for form in (
        "^(?={})x", "^(?!{})x", "^(?={})(?=.*d)x", "^(?=.*d)(?!{})x", "^(?=.*d)x{}", "(?={})x", "(?<={})x")]
    yield tables(told)


# What an assertion looks for within a lookaround, alone and beside other characters.
EDGES = ["\\b", "\\B", "^", "$", "a|\\b", "\\B|c", "(?=\\b)", "(?!\\b)", "(?<=\\B)", "(?<!\\b)", "\\b-", "-\\b",
         "\\Ba", "a\\B", "^\\b", "\\b$", "$|-\\b"]


def edge_rows():
    """Each assertion within a lookaround, beside word characters and others."""
    yield "assertions within a lookahead and a lookbehind, beside word characters and others"
    beside = list(itertools.product(("", "a", "-", "aa"), repeat=2))
    for at in "c-":
        rows = []
        for body, (head, tail) in itertools.product(EDGES, beside):
            text = head + at + tail
            behind, ahead = stands_behind(body, text, len(head)), stands_ahead(body, text, len(head) + 1)
            rows += [[f"^{head}{at}(?={body})", text, ahead], [f"^{head}{at}(?!{body})", text, not ahead],
                     [f"(?<={body}){at}{tail}$", text, behind], [f"(?<!{body}){at}{tail}$", text, not behind],
                     [f"(?<={body}){at}(?=aa$)", text, behind and tail == "aa"],
                     [f"(?<=^aa){at}(?={body})", text, head == "aa" and ahead]]
        yield searches(rows)
    yield "`\\b` and `\\B` beside each ASCII character and others, in patterns that have no table"
    rows = []
    for character in ASCII + "\u00e9\u017f\u212a\u0660\uff21\U0001d400":
        for edge, stands in (("\\b", not is_word(character)), ("\\B", is_word(character))):
            rows += [[f"(?<=xa){edge}(?=[^]y)", f"xa{character}y", stands],
                     [f"(?<=x[^]){edge}(?=ay)", f"x{character}ay", stands]]
    yield searches(rows)


# What a lookahead may begin with, and a lookbehind may end with: where they stand at an end of a text, it asks what
# stands beyond.
FIRST_BEHIND = ["(?<=^)", "(?<!^)", "(?<=a)", "(?<!a)", "(?<=ab)", "(?<!ab)", "(?<=^a)", "(?<!.)", "(?<=)", "(?<!)",
                "(?<!b)"]
LAST_AHEAD = ["(?=$)", "(?!$)", "(?=a)", "(?!a)", "(?=ab)", "(?!ab)", "(?=b$)", "(?!.)", "(?=)", "(?!)", "(?!b*$)"]
# What reads nothing or one character, and stands beside the same.
BESIDE_EDGES = ["", "^", "$", "\\b", "\\B", "a", "-", ".", "a?", "(?:^|-)", "(?=a)", "(?!a)", "(?<=a)", "(?<!a)",
                "(?=-)", "(?<!-)"]


def edge_pair_rows():
    """Each of these behind each, in texts of a word character and another."""
    yield "assertions and characters beside one another, in each text of `a` and `-`"
    patterns = [one + other for one in BESIDE_EDGES for other in BESIDE_EDGES]
    yield searches([[pattern, word, re.search(in_python(pattern), word) is not None]
                    for pattern in dict.fromkeys(patterns) for word in words("a-", range(4))])


# What is repeated, which may read nothing, and is a pattern of Python too.
REPEATED = ["a", "[^a]", "(?:ab)", "(?:a|b)", "(?:a|ab)", "(?:a?)", "(?:a*b)", "(?:a|)", "(?:|b)", "(?:^a)", "(?:b$)",
            "(?:a\\b)", "(?:(?=ab).)", "(?:(?<!b)b)", "(?:a{2})", "(?:a{0,2}b)", "(?:)"]


def repeated_term_rows():
    """Each quantifier behind each of these, lazy or not."""
    yield "each quantifier behind each term, lazy or not: the whole of each text of a and b"
    for lazy in ("", "?"):
        patterns = [f"^{term}{quantifier}{lazy}$" for term in REPEATED for quantifier in QUANTIFIERS]
        sizes = (2,) if lazy else range(4)
        yield searches([[pattern, word, re.search(in_python(pattern), word) is not None]
                        for pattern in patterns for word in words("ab", sizes)])


def inner_look_rows():
    """Lookarounds of what a lookaround looks for, at each end of it, where the pattern looks far both ways."""
    yield ("a lookbehind first in what a lookahead looks for, and a lookahead last in what a lookbehind looks for, in "
           "parts that look far both ways, in each text of a and b")
    patterns = [f"(?{sign}{look}{body})" for look in FIRST_BEHIND for sign in "=!" for body in ("", "a", "ab", "b*$")]
    patterns += [f"(?<{sign}{body}{look})" for look in LAST_AHEAD for sign in "=!" for body in ("", "a", "ab", "^b")]
    patterns += [f"(?=a(?<=a{look}))" for look in LAST_AHEAD] + [f"(?<=(?={look}b)b)" for look in FIRST_BEHIND]
    patterns += [f"^(?:(?!{look}b)[ab])*$" for look in FIRST_BEHIND]
    patterns += [f"^(?:a|b(?<!b{look}))*$" for look in LAST_AHEAD]
    for form in ("(?<!bbb)(?!bbb){}", "{}(?<!bbb)(?!bbb)"):
        yield searches([[form.format(pattern), word, re.search(form.format(pattern), word) is not None]
                        for pattern in patterns for word in words("ab", range(4))])


# Quantifiers; and patterns that look far both ways within what they repeat, which are patterns of Python too.
QUANTIFIERS = ["*", "+", "?", "{0}", "{1}", "{2}", "{0,}", "{1,}", "{2,}", "{0,0}", "{0,1}", "{0,2}",
               "{1,1}", "{1,2}", "{2,2}", "{2,3}"]
REPEATED_LOOKS = [
    "^a?(?:(?=ba)b|(?<=ab)a){}b?$", "(?:(?<=ab)(?=ba)|a){}bb", "a(?:(?<!aa)b(?!bb)){}b?$", "(?=(?:ab){}b)(?<=ba)",
    "(?<=ab)(?:a(?=bb)|b){}$", "^(?:a|(?<=ab)(?:(?=ba)b){})*$"]


def repeated_look_rows():
    """Each quantifier behind what looks far both ways."""
    yield "each quantifier behind what looks far both ways, in each text of a and b"
    for form in REPEATED_LOOKS:
        patterns = [form.replace("{}", quantifier) for quantifier in QUANTIFIERS]
        yield searches([[pattern, word, re.search(pattern, word) is not None]
                        for pattern in patterns for word in words("ab", range(6))])


# Terms, and their steps. What reads nothing may stand between `^` and a lookahead that is looked for by itself; what is
# nothing, and `^`, also before `^`. No group of more than nothing may (specs/Front.antt).
NOTHINGS = {"": 0, "(?:)": 0, "a{0}": 0, "(?:ab){0}": 0, "(?:ab){0,0}": 0, "(?:)(?:)": 0, "^": 1}
UNREAD = {"$": 1, "\\b": 1, "\\B": 1, "(?<=a)": 3, "(?<!a)": 3, "(?=a)": 3, "(?!a)": 3}
OTHERS = {"a": 1, "a?": 1, "a*": 1, "a+": 1, "(?:a|b)": 5, "(?:ab)": 2, "(?:^|)": 4, "(?:^^)": 2, "(?:a)": 1, "[^]": 1,
          "(?:^)": 1, "(?:$)": 1, "(^)": 1, "a{1}": 1, "a{2}": 2, "a{0,}": 1, "a{1,}": 1, "a{0,1}": 1, "a{0,2}": 2,
          "a{1,2}": 2, "(?:ab){2}": 4, "(?:ab){0,1}": 5, "(?:){1}": 0, "(?:){2}": 0}


def front_limit_rows():
    """Lookaheads at the front, and behind what is no front, at the most steps of a whole pattern and a step more."""
    yield ("a lookahead that looks far behind each term, at the most steps and one more: it is looked for by itself, "
           "from a `^` of its own, where nothing was read since `^`, and else takes two steps around what it looks for")
    fronts = [(f"^{term}", 1 + steps, 1) for term, steps in {**NOTHINGS, **UNREAD}.items()]
    fronts += [(f"^{term}", 1 + steps, 2) for term, steps in OTHERS.items()]
    fronts += [(f"{term}^", 1 + steps, 1) for term, steps in NOTHINGS.items()]
    fronts += [(f"{term}^", 1 + steps, 2) for term, steps in {**UNREAD, **OTHERS}.items()]
    taken, refused = [], []
    for sign, (front, steps, around) in itertools.product("=!", fronts):
        left = MOST_STEPS_OF_ALL - 2 * MANY_TIMES - steps - around
        taken.append(f"{front}(?{sign}.{{{MANY_TIMES}}}.{{{MANY_TIMES}}}.{{{left}}})")
        refused.append(f"{front}(?{sign}.{{{MANY_TIMES}}}.{{{MANY_TIMES}}}.{{{left + 1}}})")
    yield refusals("taken", taken)
    yield refusals(MORE_STEPS_OF_ALL, refused)
    yield "in the same places, beside a lookbehind that looks far: there is a table where it is looked for by itself"
    yield tables([[f"{front}(?{sign}ab)(?<=ba)c", around == 1] for sign in "=!" for front, _, around in fronts])
    yield "the same terms with no `^`, and with one before and behind them, in each text of a and b"
    for form in ("{}(?=ab)", "{}(?!ab)", "^{}(?=ab)", "^{}(?!ab)", "{}^(?=ab)", "{}^(?!ab)"):
        patterns = [form.format(term) for term in {**NOTHINGS, **UNREAD, **OTHERS}]
        yield searches([[pattern, word, re.search(in_python(pattern), word) is not None]
                        for pattern in patterns for word in words("ab", range(4))])


# What stands beside look-arounds that look far both ways in one part, and its steps there: each look-around takes one
# more than elsewhere, and a look-ahead has the alternatives that any pattern has (specs/Size.antt).
STEPS_BOTH_WAYS = {
    "(?=a)": 4, "(?!a)": 4, "(?<=a)": 4, "(?<!a)": 4, "(?=)": 3, "(?!)": 3, "(?<=)": 3, "(?<!)": 3, "(?=^)": 4,
    "(?<=$)": 4, "(?=\\b)": 4, "(?=\\p{L})": 4, "(?<!\\s)": 4, f"(?={TWO_STEPS})": 5, f"(?<!{TWO_STEPS})": 5,
    "(?=a|b)": 8, "(?<=a|b)": 8, "(?=a|b|c)": 10,
    "(?<!a|b|c)": 10, "(?=a?)": 4, "(?<=a?)": 4, "(?=a*)": 4, "(?=(?:ab)?)": 8, "(?=a{7})": 10, "(?<=abc)": 6,
    "(?=(?=a))": 7, "(?<=(?=a))": 7, "(?=(?<=a))": 7, "(?!(?<!(?=a)))": 10, "(?=a(?=b)c)": 9, "(?=(?=a)|(?=b))": 14,
    "(?:(?=a))*": 6, "(?:(?=a)b)+": 7, "(?:(?=a))?": 7, "(?:(?=a)){3}": 12, "(?:(?=a)){2,}": 14, "(?:(?=a)){1,3}": 18,
    "(?:(?=a)){0}": 0, "(?:(?:(?=a)b)*){2}": 14, "(?:(?=a)|b)": 8, "(?:b|(?=a))": 8, "(?:(?=a)|b|c)": 10,
    "(?:b|(?=a)|c)": 10, "(?:b|c|(?=a))": 10, "(?:(?:(?=a))?|b)": 11, "(?:b|(?:(?=a))?)": 11, "(?:|(?=a))": 7,
    "(?:(?=a)|)": 7, "((?=a)b)": 5, "(?:(?<=a)|b)": 8, "(?:b|(?<!a)|c)": 10, "(?:(?<=a))*": 6, "(?:(?<=a)){3}": 12,
    "a*": 1, "(?:ab)*": 4, "(?:a|b)?": 8, "a{2,5}": 5}
# The same beside a look-ahead that looks far, in a part that is searched from the end of the text on: look-aheads take
# the steps of look-behinds there, and the other way round.
STEPS_TURNED = {
    "(?<=a)": 3, "(?<!a)": 3, "(?<=)": 2, "(?<!)": 2, "(?<=^)": 3, "(?<=\\B)": 3, "(?<=\\p{L})": 3,
    f"(?<={TWO_STEPS})": 4, "(?<=a|b)": 7,
    "(?<=a|b|c)": 11, "(?<!a|b|c)": 11, "(?<=a?)": 6, "(?<=(?:a|b)?)": 10, "(?<=|a)": 6, "(?<=(?<=a))": 5,
    "(?<=(?<!a|b))": 9, "(?:(?<=a|b|c)d)+": 14, "(?=a)": 3, "(?=)": 2, "(?=a|b|c)": 9, "(?!a|b|c)": 9, "(?=a?)": 3,
    "(?=a*)": 3, "(?=(?:a|b)?)": 10, "(?=(?=a))": 5, "(?=ab|cd|ef)": 12, "(?=a(?=b)c)": 7, "(?!(?!a|b|c))": 11,
    "(?:(?=a|b|c)d){2}": 20, "(?:(?=a|b|c)|d)": 13}


def look_limit_rows():
    """Terms in parts that look far, at the most steps of a whole pattern and a step more."""
    yield ("the steps of each term beside look-arounds that look far both ways, and beside a look-ahead that looks "
           "far, at the most steps of a whole pattern and one more")
    taken, refused = [], []
    beside = [(form, 10, STEPS_BOTH_WAYS) for form in ("(?<=ab)(?=ab){}", "{}(?<=ab)(?=ab)", "(?<=ab{})(?=ab)",
                                                       "(?<=ab)(?={}ab)", "(?:(?<=ab){}(?=ab))")]
    beside += [(form, 4, STEPS_TURNED) for form in ("(?=de){}", "{}(?=de)", "(?:{}(?=de))")]
    for form, own, terms in beside:
        for term, steps in terms.items():
            left = MOST_STEPS_OF_ALL - 2 * MANY_TIMES - own - steps
            for more, patterns in enumerate((taken, refused)):
                patterns.append(f"{form.format(term)}x{{{MANY_TIMES}}}y{{{MANY_TIMES}}}z{{{left + more}}}")
    yield refusals("taken", taken)
    yield refusals(MORE_STEPS_OF_ALL, refused)


def classes_of_bits(number):
    """For each of eight bits a class of those among so many characters whose number has the bit."""
    for bit in range(8):
        having = [place for place in range(number) if place >> bit & 1]
        starts = [place for place in having if place - 1 not in having]
        ends_of_runs = [place for place in having if place + 1 not in having]
        yield "".join(chr(0x4E00 + one) if one == last else f"{chr(0x4E00 + one)}-{chr(0x4E00 + last)}"
                      for one, last in zip(starts, ends_of_runs))


def table_rows():
    """Which patterns have too many classes, sets or columns for a table."""
    yield ("the most classes, sets and columns of a pattern that has a table, and one more (docs/DECISIONS.md): 64 "
           "different classes, 512 sets in them together, 255 columns of characters")
    many = [chr(0x4E00 + 2 * place) for place in range(514)]
    rows = []
    for more in (0, 1):
        classes, fewer, sets = many[:64 + more], many[:63 + more], many[:512 + more]
        patterns = ["".join(classes), "".join(f"[^{one}]" for one in classes), "".join(classes + classes[:9]),
                    "".join(fewer) + "\\b", "\\B" + "".join(fewer), "".join(fewer) + "\\w", "\\w\\b" + "".join(fewer),
                    "[" + "".join(sets) + "]", "[^" + "".join(sets) + "]", "[" + "".join(sets) + "]{2}",
                    "[" + "".join(sets) + "][^" + "".join(sets) + "]",
                    "[" + "".join(sets[:256]) + "][" + "".join(sets[256:]) + "]"]
        rows += [[f"^{pattern}$", not more] for pattern in patterns]
    for number in (254, 255, 256):
        rows.append(["^" + "".join(f"[{sets}]" for sets in classes_of_bits(number)) + "$", number < 256])
    yield tables(rows)
    yield "the same classes and columns in a search"
    rows = []
    for number in (62, 63, 64, 65, 66):
        one = "".join(many[:number])
        rows += [[f"^{one}$", one, True], [f"^{one}$", one[:-1], False], [f"^{one}$", one[:-1] + one[0], False],
                 [f"^{one}$", one[1:] + one[0], False], [f"^\\b{one}", one, False], [f"^\\B{one}\\B$", one, True]]
    for number in (254, 255, 256):
        pattern = "^" + "".join(f"[{sets}]" for sets in classes_of_bits(number)) + "$"
        told = [1 << bit for bit in range(8)]
        for places in (told, told[1:] + told[:1], [number - 1] * 8, [127] * 7 + [128], [254] * 8, [0] + told[1:]):
            text = "".join(chr(0x4E00 + place) for place in places)
            is_found = all(place < number and place >> bit & 1 for bit, place in enumerate(places))
            rows.append([pattern, text, is_found])
    yield searches(rows)
    yield "each ASCII character behind a character of two, three and four bytes"
    rows = []
    for character in ASCII:
        pattern = f"^(?:.\\x{ord(character):02x})+$"
        for last in (ord(character), (ord(character) + 1) % 128, ord(character) ^ 64):
            text = f"\u00e9{character}\u0800{character}\U0001f600{chr(last)}"
            rows.append([pattern, text, last == ord(character)])
    yield searches(rows)
