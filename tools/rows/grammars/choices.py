"""Alternatives that may be empty, and texts of as many characters as two bytes count, and of more."""
import itertools
import re

from rows.grammars.common import long_searches, searches, words

# Terms that stand as an alternative of their own: most of them match nothing too.
TERMS = ("a?", "a*", "a??", "a*?", "(?:ab)?", "(?:ab)*", "a{0,1}", "a{0,2}", "a{0}", "(?:a|b)?", "[ab]?", "(?:a?)", "",
         "a+", "(?:ab)+", "a{2}", "(?:ab){0,2}", "a?b?", "(?:a?b)?", "(?:(?:ab)?)?", "(?:|a)", "(?:a|)")
# Those of them that are told by their alternatives alone, in look-arounds too.
FEW_TERMS = ("a?", "a*", "(?:ab)?", "a{0,2}", "", "a{0}", "(?:a?)", "a+", "ab")
# What stands around alternatives: before them and behind them, and whether they are to match the whole between.
AROUND = (("^(?:", ")$"), ("^x(?:", ")y$"), ("^(?:", ")*z$"), ("^(?:", "){2}$"), ("^(?:(?:", ")z)?$"), ("x(?:", ")y"))


def alternatives_of(term, others):
    """The term as each of some alternatives."""
    return ["|".join([*others[:place], term, *others[place:]]) for place in range(len(others) + 1)]


def is_found(pattern, text):
    """Whether Python finds it: `$` is the end of a text in it too."""
    return re.search(pattern.replace("$", "\\Z"), text) is not None


def choice_rows():
    """A term that may match nothing, as each of two alternatives, of three and of four."""
    yield ("a term that may match nothing as the first, a middle and the last of two alternatives, three and four: "
           "each is tried (ECMA-262 2024, 22.2.2.3), and nothing is one where one of them may be nothing")
    rows = []
    inner = ("", "a", "b", "aa", "ab", "abab", "c", "d", "cd", "aab")
    for term, others in itertools.product(TERMS, (("c",), ("c", "d"), ("c", "dd", "ef"))):
        for body in alternatives_of(term, others):
            pattern = f"^(?:{body})$"
            rows += [[pattern, text, is_found(pattern, text)] for text in inner]
    for (before, behind), term in itertools.product(AROUND[1:], TERMS):
        for body in alternatives_of(term, ("c", "d")):
            pattern = before + body + behind
            head, tail = re.sub(r"[^xyz]", "", before), re.sub(r"[^xyz]", "", behind)
            rows += [[pattern, head + text + tail, is_found(pattern, head + text + tail)] for text in inner[:7]]
    yield searches(rows)
    yield "two terms that may match nothing among three alternatives, without a group around them and in one"
    rows = []
    for one, other in itertools.product(FEW_TERMS, repeat=2):
        for body in (f"{one}|{other}|c", f"{one}|c|{other}", f"c|{one}|{other}"):
            for pattern in (f"^(?:{body})$", "^" + body.replace("|", "$|^") + "$"):
                rows += [[pattern, text, is_found(pattern, text)] for text in ("", "a", "ab", "c", "b")]
    yield searches(rows)
    yield ("the same in look-aheads and look-behinds, where something that is nothing is always found (22.2.2.4): "
           "beside characters that no alternative has")
    rows = []
    for term, others in itertools.product(FEW_TERMS, (("c",), ("c", "d"), ("c", "d", "e"))):
        for body in alternatives_of(term, others):
            for text in ("xy", "xay", "xaby", "xcy", "xdy", "x"):
                ahead = is_found(f"x(?={body})", text)
                rows += [[f"x(?={body})", text, ahead], [f"x(?!{body})", text, not ahead]]
                behind = any(is_found(f"^(?:{body})$", text[place:-1]) for place in range(len(text)))
                rows += [[f"(?<={body})y", text, behind and text[-1] == "y"],
                         [f"(?<!{body})y", text, not behind and text[-1] == "y"]]
    yield searches(rows)


# Bodies of groups: assertions, quantifiers and alternatives at their beginning, within them and at their end.
BODIES = (
    "^a", "a$", "^", "$", "\\ba", "b\\b", "\\Ba", "b\\B", "a?b", "a*b", "a+b", "ab?", "ab*", "ab+", "a{2}b", "a{1,2}b",
    "a{2,}b", "ba{0,1}", "a|b", "a|ab", "ab|", "|ba", "a|bb|", "^a|b", "a|b$", "(?=a)[ab]", "(?!b)[ab]", "(?<=a)b",
    "(?<!a)b", "[^a]", "(?:a|b)b", "(?:ab)?a")
OUTER = ("*", "+", "?", "{2}", "{0,1}", "{1,2}", "{2,3}", "{1,}", "{2,}", "{0,}", "*?", "{1,2}?")


def inside_rows():
    """What stands in a group, with each quantifier behind it."""
    yield ("a group with an assertion, a quantifier or alternatives in it, and each quantifier behind it: each round "
           "is one of its own (ECMA-262 2024, 22.2.2.3.1), in texts of a and b")
    rows = []
    texts = [*words("ab", range(5)), "a-a", "b-b", "-ab", "ba-", "a-b-"]
    for turn, (body, quantifier) in enumerate(itertools.product(BODIES, OUTER)):
        for form, (before, behind) in enumerate((("^", "$"), ("", "b"), ("b", "$"), ("a", "a"))):
            pattern = f"{before}(?:{body}){quantifier}{behind}"
            rows += [[pattern, text, is_found(pattern, text)] for text in texts[(turn + form) % 5::5]]
    yield searches(rows)


# Rows of classes, what stands before and behind the class that is counted, and whether as many as 65,535 of it and more
# may stand between.
WIDE_ROWS = (
    ("^{}*$", "", "", True), ("^{}+$", "", "", True), ("^{}{{2,}}$", "", "", True), ("^{}?$", "", "", False),
    ("^{}{{0,4}}$", "", "", False), ("^{}{{3}}$", "", "", False), ("^{}{{0,5000}}$", "", "", False),
    ("^b{}*c$", "b", "c", True), ("^b{}+$", "b", "", True), ("^b{}{{0,2}}c$", "b", "c", False),
    ("^b?{}{{0,300}}$", "b", "", False), ("^bc{}{{1,90}}d?$", "bc", "d", False), ("^(?={}*c$)b?", "", "c", True),
    ("^(?!{}{{0,700}}$)", "", "", True))
# Those that another character ends, and that character; none where it may stand anywhere.
ENDED_ROWS = (("^{}*$", ""), ("^{}+$", ""), ("^{}+z?$", "z"), ("^{}*\\d$", "1"), ("^(?={}*$)", ""), ("{}*$", None))
WIDE = 1 << 16


def wide_text_rows():
    """Texts of as many characters as two bytes count, and of some more."""
    yield ("classes in a row, and texts with 65,535 characters of one byte and of two, with 65,536 and with 65,539: "
           "a class is read as often as the text has characters")
    rows = []
    for letter, link in (("a", "a"), ("a", "[^b]"), ("\u00e9", "[\u00e0-\u00ff]")):
        for (form, head, tail, found), size in itertools.product(WIDE_ROWS, (WIDE - 1, WIDE, WIDE + 3)):
            text = [part for part in ([head, 1], [letter, size], [tail, 1]) if part[0]]
            rows.append([[[form.format(link), 1]], text, found])
    yield long_searches(rows)
    yield "the same with one other character at the beginning, in the middle and at the end"
    rows = []
    for form, end in ENDED_ROWS:
        for before, behind in ((0, WIDE), (WIDE // 2, WIDE // 2), (WIDE, 0), (WIDE, 1)):
            for other in "z1":
                text = [part for part in (["a", before], [other, 1], ["a", behind]) if part[1]]
                rows.append([[[form.format("[a-y]"), 1]], text, end is None or (behind == 0 and other == end)])
    yield long_searches(rows)
