"""Words, patterns of schemas, sizes at the ends of bits, and classes in a row."""
import functools
import itertools
import re
import unicodedata

from rows.grammars.common import (ASCII, MOST_TIMES, WHITE_SPACE, in_forms, long_searches, never, searches, tables,
                                  texts, words)
from rows.grammars.labels import ADDED_POINTS
from rows.grammars.properties import LINE_ENDS, PATTERNS, is_name_part, is_name_start, is_no_word, is_surrogate
from rows.grammars.looks import in_python, stands_ahead, stands_behind
from rows.grammars.whole_patterns import WHOLE_PATTERNS
from rows.grammars.likeness import MOST_DEEP

# Words that are more than names elsewhere.
KNOWN_WORDS = (
    "null undefined true false NaN Infinity None nil any void this super class function return if else var let "
    "const new in of typeof delete yield await async static get set enum import export default constructor "
    "prototype __proto__ __defineGetter__ hasOwnProperty toString valueOf length groups index indices input "
    "lastIndex flags source global sticky unicode exec test match replace arguments eval self cls def lambda not "
    "and or is").split()


def language_word_rows():
    """Words that are more than names elsewhere, as patterns, as texts and as names of groups."""
    yield "a word of a language is its characters, as a pattern and as a text, and names a group as others do (22.2.1)"
    names = in_forms(("(?<{}>x)", "(?<{0}>x)(?<{0}1>y)", "a|(?<{}>)", "{}"), KNOWN_WORDS)
    for of in (PATTERNS, WHOLE_PATTERNS):
        yield texts(of, names, lambda text: True)
        yield texts(of, [f"(?<{word}>x)(?<{word}>y)" for word in KNOWN_WORDS], never)
    yield texts(WHOLE_PATTERNS, in_forms(("(?<{0}>x)\\k<{0}>", "\\k<{0}>(?<{0}>)"), KNOWN_WORDS), lambda text: True)
    yield texts(WHOLE_PATTERNS, in_forms(("\\k<{}>", "(?<{0}a>)\\k<{0}>", "(a)\\k<{}>"), KNOWN_WORDS), never)
    rows = []
    for word in KNOWN_WORDS:
        rows += [[word, text, word in text] for text in (
            "", word, word[1:], word[:-1], f"a{word}", f"{word} a", word.upper(), "null", "undefined", "true", "0")]
        rows += [[f"^(?<{word}>a)$", "a", True], [f"^(?<{word}>a)$", word, False], [f"^{word}$", word + word, False]]
    yield searches(rows)


# Patterns of schemas, in which each part is one of Python too but for what `in_other_notation` turns; and texts.
COMMON_PATTERNS = (
    "", "^", "$", "^$", ".", "^.", ".$", "^.$", ".*", "^.*$", "^.*", ".*$", ".+", "^.+$", "^.+", ".+$", "^.?$",
    "^.{1,3}$", "^.{0,2}$", "[^]", "^[^]$", "^[^]*$", "^[^]+$", "^[^]{2,3}$", "\\S", "^\\S+$", "^\\S*$", "\\s",
    "^\\s+$", "^\\s*$", "^[\\s\\S]+$", "^[\\d\\D]*$", "^\\w+$", "\\w", "\\W", "^\\W+$", "^\\d+$", "\\d", "^\\D*$",
    "^[a-z]+$", "^[A-Z]+$", "^[a-zA-Z0-9_-]+$", "^[^/]+$", "^[^\\s]+$", "^[^ ]+$", "^\\S(.*\\S)?$", "^[^\\n]*$",
    "^(?!\\s*$).+", "^(?!\\s)[^]*\\S$", "^(?=.*\\d)(?=.*[a-z])", "^\\/", "^(\\/[^/]+)*\\/?$", "\\.json$",
    "^.*\\.json$", "^[a-z]+(-[a-z]+)*$", "^[a-z][a-z0-9]*$", "^#([0-9a-f]{3}){1,2}$", "^(0|[1-9]\\d*)$",
    "^-?\\d+(\\.\\d+)?$", "^\\d{4}-\\d\\d-\\d\\d$", "^\\d{1,3}(\\.\\d{1,3}){3}$", "^https?:", "^[^@]+@[^@]+$",
    "^(a|b|ab)+$", "^(true|false)$", "^\\$", "^\\^", "^x-", "^(?!x-)", "^_", "a", "^a", "a$", "^a$", "a|b", "^a|b$",
    "^(a|b)$", "\\ba\\b", "\\Ba", "(?<=a)b", "(?<!a)b", "a(?!b)", "^[^a]", "[^a]$", "^a.b$", "^a[^]b$", "a\\sb",
    "a\\nb", "^a\\.b$", "^\\u0061$", "^(?:a*)*$", "^a*?$", "^(a?)+$")
TEXTS_OF_SCHEMAS = (
    "", "a", "b", "A", "ab", "ba", "aa", "a b", " a", "a ", " ", "  ", "\n", "\r", "\r\n", "a\n", "\na", "a\nb",
    "a\rb", "a\u2028b", "a\u2029", "\u2028", "a\u0085", "\u0085", "\ta", "\u00a0", "\ufeff", "\ufeffa", "\0", "\0a",
    "0", "1", "01", "10", "-1", "1.5", "1.", "1,5", "\u0661", "2020-01-31", "2020-1-31", "1.2.3.4", "1.2.3", "a.b",
    "a-b", "a--b", "-a", "a_b", "_a", "x-a", "X-a", "/a", "/a/b/", "a/b", "//", "#fff", "#ff", "#ffffff", "a.json",
    ".json", "json", "a.json\n", "a.JSON", "http:", "https:", "ftp:", "a@b", "a@b@c", "@", "true", "false", "True",
    "$a", "^a", "\u00e9", "\u00c9", "e\u0301", "\u4e00", "\U0001f600", "a\U0001f600", "\U0001f600\U0001f600", "a1b",
    "1a", "abc", "abcd", "a\U0001f600b", "a\u00e9b", "a\tb", "a..b", "a  b", "\u017f", "\u212a", "\n\n", "a\n\n",
    "aab", "abab", "caba")


def in_other_notation(pattern):
    """A pattern of these in the notation of Python, with the sets and the ends of lines of ECMA-262."""
    turned = {
        "[^]": "(?s:.)", "[\\s\\S]": "(?s:.)", "[\\d\\D]": "(?s:.)", "[^\\s]": f"[^{WHITE_SPACE}]",
        "\\s": f"[{WHITE_SPACE}]", "\\S": f"[^{WHITE_SPACE}]", "\\$": "\\$", "\\^": "\\^", "$": "\\Z", "\\.": "\\.",
        ".": f"[^{LINE_ENDS}]", "\\/": "/", "\\B": "(?!\\b)"}
    parts = re.split("(" + "|".join(map(re.escape, turned)) + ")", pattern)
    return re.compile("".join(turned.get(part, part) for part in parts), re.ASCII)


def common_pattern_rows():
    """Patterns as schemas have them, in many texts."""
    yield "patterns as schemas have them, in texts with ends of lines, blanks, signs and characters past ASCII"
    rows = []
    for pattern in COMMON_PATTERNS:
        found = in_other_notation(pattern)
        rows += [[pattern, text, found.search(text) is not None] for text in TEXTS_OF_SCHEMAS]
    yield searches(rows)


# Sizes at the ends of bits and beside them.
SIZES_AT_ENDS = (
    1, 2, 3, 4, 5, 7, 8, 9, 15, 16, 17, 31, 32, 33, 63, 64, 65, 127, 128, 129, 255, 256, 257, 511, 512, 513, 1025, 1500)
# What stands before and behind many characters in a pattern, the same in a text, and whether the pattern is found.
AROUND_MANY = (
    ("", "", "", "", True), ("", "x", "", "y", False), ("x", "", "y", "", False), ("x", "$", "yx", "", True),
    ("^", "$", "", "", True), ("", "x", "", "x", True), ("^", "x", "", "xy", True), ("x", "", "x", "", True),
    ("^", "$", "", "x", False), ("^", "$", "x", "", False), ("(?:", "){1}x", "", "x", True),
    ("(?<=x", ")y", "x", "y", True), ("(?<=x", ")y", "z", "y", False), ("x(?=", "y)", "x", "y", True),
    ("x(?=", "y)", "x", "z", False), ("^(?!", "x)", "", "x", False), ("^(?!", "x)", "", "y", True))


def long_literal_rows():
    """Patterns of many different characters, in the same and in what differs in one."""
    yield "patterns of many characters, in a text of the same, and in texts that differ in one or lack one"
    rows = []
    for size in SIZES_AT_ENDS:
        tens, ones = divmod(size, 10)
        written = [part for part in (["abcdefghij", tens], ["abcdefghij"[:ones], 1]) if part[0] and part[1]]
        for before, behind, head, tail, is_found in AROUND_MANY if size < 130 else AROUND_MANY[:4]:
            pattern, text = [[before, 1], *written, [behind, 1]], [[head, 1], *written, [tail, 1]]
            rows.append([[part for part in pattern if part[0]], [part for part in text if part[0]], is_found])
        rows += [[written, [["bcdefghija", tens], ["abcdefghij"[:ones], 1]], False]] if tens else []
    yield long_searches(rows)


# What is looked for, where, and what is not there.
LOOKED_FOR = (
    ("abc", "abc", "abd"), ("ab+c", "abbc", "ac"), ("a[^]c", "a\u00e9c", "ac"), ("^[^a]*abc", "abc", "aabc"),
    ("abc$|abcx*$", "abc", "abcy"), ("a(?=bc)", "abc", "abd"), ("(?<=ab)c", "abc", "acb"), ("a\\bb|abc", "abc", "ab"),
    ("(?:a|b){2}c", "bac", "bc"), ("a(?!b)", "ac", "ab"), ("a\\d{2}", "a12", "a1b"),
    ("\\u{1F601}", "\U0001f601", "\U0001f602"))


def far_text_rows():
    """What stands behind and before characters of one to four bytes, so many of them."""
    yield ("what is looked for stands behind and before so many characters of one to four bytes, or something like it "
           "does")
    rows = []
    for character in ("x", "\u00e9", "\u4e00", "\U0001f600"):
        for size in (*range(0, 36), *SIZES_AT_ENDS[18:]):
            patterns = LOOKED_FOR if size < 20 or size in SIZES_AT_ENDS else LOOKED_FOR[:3]
            for pattern, right, wrong in patterns:
                beside = [character, size] if pattern != "abc$|abcx*$" or character == "x" else ["", 0]
                for text in (right, wrong):
                    parts = [part for part in ([character, size], [text, 1], beside) if part[0] and part[1]]
                    rows.append([[[pattern, 1]], parts, text is right])
    yield long_searches(rows)


def nested_look_rows():
    """Look-arounds of each kind within one another."""
    yield "up to four look-arounds of each kind, directly in one another and beside a character, in short texts"
    looks, rows = ("(?={})", "(?!{})", "(?<={})", "(?<!{})"), []
    for size, body in itertools.product((2, 3, 4), ("a", "^", "$", "\\b")):
        for chosen in itertools.product(looks, repeat=size):
            pattern = functools.reduce(lambda inner, look: look.format(inner), chosen, body)
            for form in ("{}", "b{}", "{}b") if size < 4 else ("{}b",):
                written = form.format(pattern)
                rows += [[written, word, re.search(written, word) is not None] for word in ("", "b", "ab", "ba")]
    yield searches(rows)


def deep_quantifier_rows():
    """Quantifiers behind groups in one another."""
    yield "a quantifier behind each of many groups in one another"
    rows = []
    for deep in (2, 3, 4, 5, 8, 9, 16, 17, 32, 33, 64, 65, 128, 200, MOST_DEEP):
        for quantifier, few in (("*", 1), ("+", 1), ("?", 0), ("{1}", 0), ("{0,1}", 0), ("*?", 1), ("{1,}", 1)):
            for opening in ("(", "(?:"):
                pattern = [["^", 1], [opening, deep], ["a", 1], [f"){quantifier}", deep], ["$", 1]]
                if quantifier == "{1,}" and deep > 9 or quantifier in ("?", "{0,1}") and deep > 128:
                    continue
                for size in range(4):
                    least = 0 if quantifier in ("*", "?", "{0,1}", "*?") else 1
                    rows.append([pattern, [["a", size]] if size else [], size >= least and (size < 2 or bool(few))])
                rows.append([pattern, [["b", 1]], False])
    yield long_searches(rows)


def count_end_rows():
    """Counts at the ends of bits and of digits."""
    yield "counts at the ends of bits and of digits: as many letters, one less and one more"
    rows = []
    sizes = (1, 2, 3, 4, 7, 8, 9, 10, 11, 16, 17, 32, 33, 63, 64, 65, 99, 100, 101, 127, 128, 129, 255, 256, 257, 512,
             513, 999, MOST_TIMES)
    for size in (size for size in sizes if size <= MOST_TIMES):
        counted = {f"a{{{size}}}": (size, size), f"a{{{size},}}": (size, None), f"a{{0,{size}}}": (0, size),
                   f"a{{{size - 1},{size}}}": (size - 1, size),
                   f"a{{0{size}}}": (size, size)}
        for pattern, (least, greatest) in counted.items():
            for more in (-1, 0, 1):
                is_found = least <= size + more and (greatest is None or size + more <= greatest)
                rows.append([[["^", 1], [pattern, 1], ["$", 1]], [["a", size + more]] if size + more else [], is_found])
    yield long_searches(rows)


def runs_of(points):
    """The first and the last of each run of code points."""
    ends_of_runs, before = [], None
    for point in points:
        if before is None or point != before + 1:
            ends_of_runs += [point] if before is None else [before, point]
        before = point
    return [*dict.fromkeys([*ends_of_runs, before])]


# The categories of which the editions since Unicode 14 have added nothing but what is named above.
LETTERS_AND_MARKS = ("Lu", "Ll", "Lt", "Lm", "Lo", "Mn", "Mc", "Nd")
# Characters whose category has changed since Unicode 14.
CHANGED_POINTS = (0x295, 0x1171E)


def category_edge_rows():
    """The ends of all runs of characters of one category."""
    yield ("the first and the last of each run of letters, marks and digits of one category, and those beside it of "
           "another one: the category has these, and not those")
    by_point = {point: unicodedata.category(chr(point)) for point in range(0x110000)
                if point not in ADDED_POINTS and point not in CHANGED_POINTS}
    rows = []
    for category in LETTERS_AND_MARKS:
        points = runs_of([point for point, known in by_point.items() if known == category])
        inside = "".join(map(chr, points))
        beside = {point + off for point in points for off in (-1, 1)}
        others = [point for point in sorted(beside) if by_point.get(point) in LETTERS_AND_MARKS
                  and by_point[point] != category]
        outside = "".join(map(chr, others))
        rows += [[f"^\\p{{{category}}}+$", inside, True], [f"\\p{{{category}}}", outside, False],
                 [f"^[^\\p{{gc={category}}}]+$", outside, True], [f"\\P{{{category}}}", inside, False],
                 [f"^\\p{{{category[0]}}}+$", inside, True]]
    yield searches(rows)


# Letter numbers beside others that are since Unicode 18.
ADDED_NUMBERS = (0x1246F, 0x1247F)


def name_edge_rows():
    """The ends of all runs of characters that a name may have."""
    yield ("the first and the last of each run of characters that may stand in a name, in names of many, and those "
           "beside each run, in a name each")
    for before, is_right in (("(?<", is_name_start), ("(?<a", is_name_part)):
        points = runs_of([point for point in range(0x80, 0x110000) if point not in ADDED_POINTS
                          and not is_surrogate(point) and is_right(point)])
        right = [before + "".join(map(chr, points[at:at + 500])) + ">x)" for at in range(0, len(points), 500)]
        if before == "(?<":
            right = [f"(?<{chr(point)}>x)" for point in points]
        beside = sorted({point + off for point in points for off in (-1, 1)})
        beside = [point for point in beside if point not in ADDED_POINTS and point not in ADDED_NUMBERS
                  and not is_surrogate(point)]
        wrong = [f"{before}{chr(point)}>x)" for point in beside if not is_right(point)]
        for of in (PATTERNS, WHOLE_PATTERNS):
            yield texts(of, right, lambda text: True)
            yield texts(of, wrong, never)


# What may stand at the front behind `^` and looks far, and what may be left, each with whether it looks far in one
# direction at most; they are patterns of Python too.
FAR_FRONTS = {
    "": 1, "(?=ab)": 1, "(?!ba)": 1, "(?=a(?=ba))": 1, "(?!b(?!ab))": 1, "(?=[ab]*(?<=bb))": 1, "(?!a(?<!ba)b)": 1,
    "(?=[ab]*(?<=bb)a(?=ba))": 0, "(?![ab](?<=ab)(?!bb))": 0}
FAR_RESTS = {
    "[ab]*$": 1, "a(?=ba)": 1, "[ab](?!ab)": 1, "[ab]*(?<=ab)$": 1, "(?:a(?=ba)b)*a": 1, "(?:[ab](?<!bb))*$": 1,
    "[ab]*(?<=ab)b(?=ba)": 0, "[ab]*(?<!ab)(?!ba)": 0}


def front_table_rows():
    """Look-aheads at the front and what is left, where each looks far."""
    yield ("a part that looks far in one direction alone has a table, the look-aheads at the front and what is left "
           "each for itself")
    fronts = [pair for pair in itertools.product(FAR_FRONTS, repeat=2) if pair != ("", "") and pair[0] != pair[1]]
    rows = [[f"^{one}{other}{rest}", bool(FAR_FRONTS[one] and FAR_FRONTS[other] and FAR_RESTS[rest])]
            for (one, other), rest in itertools.product(fronts, FAR_RESTS)]
    yield tables(rows)
    yield "and they are found by each of them, in each text of a and b"
    yield searches([[f"^{front}{rest}", word, re.search(f"^{front}{rest}", word) is not None]
                    for front, rest in itertools.product(FAR_FRONTS, FAR_RESTS) for word in words("ab", range(6))])


def name_sequence_rows():
    """Names of up to four letters, digits and signs."""
    yield "names of up to four letters, digits, `$` and `_`: any but a digit first (12.7, IdentifierName)"
    every = ["".join(name) for size in range(1, 5) for name in itertools.product("aA1$_", repeat=size)]
    expected = {f"(?<{name}>x)": name[0] != "1" for name in every}
    for of in (PATTERNS, WHOLE_PATTERNS):
        yield texts(of, expected, expected.get)
    right = [name for name in every if name[0] != "1" and len(name) < 4]
    yield texts(WHOLE_PATTERNS, in_forms(("(?<{0}>x)\\k<{0}>", "\\k<{0}>(?<{0}>x)"), right), lambda text: True)
    few = [name for name in right if len(name) < 3]
    twice = {f"(?<{one}>x)(?<{other}>y)": one != other for one, other in itertools.product(few, repeat=2)}
    for of in (PATTERNS, WHOLE_PATTERNS):
        yield texts(of, twice, twice.get)
    known = {f"(?<{one}>x)\\k<{other}>": one == other for one, other in itertools.product(few, repeat=2)}
    yield texts(WHOLE_PATTERNS, known, known.get)


# Atoms that may stand in a class too, each with a character that it has and one that it has not.
ATOMS_OF_BOTH = {
    "a": "ab", "1": "12", "-": "-a", " ": " a", ",": ",a", "\u00e9": "\u00e9e", "\U0001f600": "\U0001f600a",
    "\\0": "\x000", "\\cA": "\x01A", "\\cj": "\nj", "\\x41": "Ax", "\\u0041": "Au", "\\u{41}": "A{",
    "\\u{1F600}": "\U0001f600u", "\\ud83d\\ude00": "\U0001f600d", "\\d": "7d", "\\D": "D7", "\\w": "w\u00e9",
    "\\W": "-W", "\\s": "\u3000s", "\\S": "S\ufeff", "\\p{L}": "L1", "\\P{L}": "1L", "\\p{sc=Grek}": "\u03a9p",
    "\\n": "\nn", "\\v": "\x0bv", "\\/": "/\\", "\\^": "^\\", "\\]": "]\\", "\\\\": "\\/"}


def escape_pair_rows():
    """Each atom behind each other, where both may stand in a class too."""
    yield "an escape or a character behind each other, in a pattern and in a class: each is read for itself"
    rows = []
    for (one, (has, lacks)), (other, (also, misses)) in itertools.product(ATOMS_OF_BOTH.items(), repeat=2):
        is_taken = None if one == "\\0" and other == "1" else True
        either = None if one == "\\0" and other == "1" or one == "-" == other else True
        rows += [[f"^{one}{other}$", has + also, is_taken], [f"^{one}{other}$", lacks + also, is_taken and False],
                 [f"^{one}{other}$", has + misses, is_taken and False], [f"^{one}{other}*$", has, is_taken],
                 [f"^(?:{one}{other}){{2}}$", (has + also) * 2, is_taken], [f"^{one}{other}$", has, is_taken and False]]
        if other != "-" and one != "-" and one != "^":
            rows += [[f"^[{one}{other}]{{2}}$", has + also, either], [f"^[{one}{other}]{{2}}$", also + has, either],
                     [f"^[^{one}{other}]*$", has, either and False], [f"[^{one}{other}]", also, either and False]]
    yield searches(rows)


# Patterns that read something in each way, in the notation of Python too; and short texts.
DEEP_BODIES = (
    "a*b", "a+b", "a?b", "a{2}", "a{2,}b", "a{1,3}b", "a*?b", "a{0}b", "a|b", "|b", "a|bb|ab", "[^a]", "[^]", ".",
    "\\d", "\\D", "\\w", "\\W", "\\s", "\\S", "\\bb", "\\Bb", "a\\Bb", "^b", "b$", "a^b", "(?!a)b", "(?<!a)b",
    "(?=a)a", "(?=b)a", "(?<=a)b", "a(?<=a)b", "a(?<!b)b", "[a-c]", "[^b-d]", "[\\d-]", "\\u0041", "\\x41", "\\0",
    "\\n", "\\cA", "(?:ab)*b", "(?:a|ab)b", "(?:a?)+b", "(?:a*){2}b", "()", "(a)(b)", "a\\.", "\\u{1F600}")
SHORT_TEXTS = ("", "a", "b", "ab", "bb", "aab", "1", "\n", "\0", "\U0001f600", "a.")


def depth_rows():
    """Each kind of term within many groups and look-arounds of each kind."""
    yield "each kind of term means the same within many groups and look-arounds, of each kind, in one another"
    rows = []
    for body in DEEP_BODIES:
        turned = body.replace("\\u{1F600}", "\U0001f600").replace("\\cA", "\x01").replace("$", "\\Z")
        found = re.compile(f"(?:{in_python(turned)})\\Z", re.ASCII)
        for word in SHORT_TEXTS:
            stands = found.match(word) is not None
            for deep in (2, 3, 4, 33, MOST_DEEP - 3):
                ends_of_groups = ")" * deep
                forms = {f"^{'(' * deep}{body}{ends_of_groups}$": stands,
                         f"^{'(?:' * deep}{body}{ends_of_groups}$": stands,
                         f"^{'(?:c|' * deep}{body}{ends_of_groups}$": stands,
                         f"^{'(?=' * deep}(?:{body})${ends_of_groups}": stands,
                         f"{'(?<=' * deep}^(?:{body}){ends_of_groups}$": stands,
                         f"^{'(?!' * deep}(?:{body})${ends_of_groups}": stands == (deep % 2 == 0)}
                chosen = list(forms.items())
                if deep > 4:
                    chosen = [chosen[(len(rows) + deep) % len(chosen)]] if len(word) == 1 else []
                rows += [[form, word, is_found] for form, is_found in chosen if "(?:c|" not in form or deep < 33]
    yield searches(rows)


# Classes as they stand in a row: which characters they have, some that they have, and some that they have not.
LINKS = {
    "a": (lambda c: c == "a", "a", "bé"),
    "[a-c]": (lambda c: c in "abc", "abc", "dBä"),
    ".": (lambda c: c not in "\n\r\u2028\u2029", "xä漢😀 ", "\n\u2028"),
    "\\d": (lambda c: c in "0123456789", "059", "a٣"),
    "[^x]": (lambda c: c != "x", "aä😀\n", "x"),
    "\\p{L}": (lambda c: unicodedata.category(c)[0] == "L", "aä漢", "1😀"),
    "\\S": (lambda c: c not in " \n\u3000\ufeff\u2028", "aä😀", " \u3000\ufeff"),
    "[à-ö]": (lambda c: "à" <= c <= "ö", "àö", "a÷ß"),
}
# How often the one class may be read, and the greatest number that is asked where there is no bound.
LINK_QUANTIFIERS = {"": (1, 1), "?": (0, 1), "{0,3}": (0, 3), "{2,5}": (2, 5), "{4}": (4, 4), "{3,}": (3, 12),
                    "*": (0, 12), "+": (1, 12)}
LINKS_BESIDE = [(), ("a",), ("[a-c]", "\\d")]


def is_in_a_row(classes, low, high, at, text):
    """Whether the text is one character of each class, that at this place `low` to `high` times."""
    between = len(text) - len(classes) + 1
    whole = [*classes[:at], *[classes[at]] * between, *classes[at + 1:]]
    return low <= between <= high and all(LINKS[name][0](c) for name, c in zip(whole, text))


def texts_in_a_row(classes, at, between):
    """A text of a character of each class, so many of that at this place; and such texts with another at one place."""
    names = [*classes[:at], *[classes[at]] * between, *classes[at + 1:]]
    right = [LINKS[name][1][place % len(LINKS[name][1])] for place, name in enumerate(names)]
    yield "".join(right)
    for place in sorted({0, at, at + between - 1, at + between, len(names) - 1} & {*range(len(names))}):
        for other in LINKS[names[place]][2]:
            yield "".join([*right[:place], other, *right[place + 1:]])


# Rows between the ends of a text, in which a class may be missing at each `{}`.
ROWS_WITH_OPTION = ["{}[b-d]{{2,5}}", "{}[b-d]*", "{}[b-d]+e", "[b-d]{{2,5}}{}", "[b-d]+{}", "[b-d]*{}e",
                    "x{}[b-d]{{3}}",
                    "xx{}yy[b-d]+zz", "[b-d]{{0,9}}{}zz", "x{}y{}[b-d]+", "{}[b-d]*{}", "x{}y", "[b-d]{{0,300}}{}"]
OPTIONS = ["a?", "a{0,1}", "[ab]?", "[^b-d]?", "(?:a)?", "a??", "[à-ö]?", "b?", "(?:a|)", "(?:|a)"]


# The same with counts above the rows of a table.
MANY_WITH_OPTION = ["{}[b-dß]{{0,1500}}", "{}[b-dß]{{3,1500}}e", "[b-dß]{{1500}}{}", "[b-dß]{{1500}}{}e",
                    "x{}y[b-dß]{{2,1500}}z", "ä{}[b-dß]{{0,2000}}é"]
MANY_OPTIONS = ["a?", "[à-ö]?", "[ab]?", "[^x]??"]


def in_runs(word):
    """The runs of one character that a text is."""
    return ["".join(run) for _, run in itertools.groupby(word)]


def option_in_row_rows():
    """Classes in a row of which one is counted and another may be missing."""
    yield ("classes in a row of which one is counted and another may be missing, before it, behind it and apart: texts "
           "with and without it, of few characters and of many, and one of another class at each place")
    rows = []
    for form, option in itertools.product(ROWS_WITH_OPTION, OPTIONS):
        pattern = f"^{form.replace('{}', option).replace('{{', '{').replace('}}', '}')}$"
        found = re.compile(pattern[:-1] + "\\Z")
        parts = [["", "a", "b", "à", "aa", "x"] if part == "{}" else
                 ["", "bcd", "bcdbcdbc", "b"] if part[0] == "[" else [part]
                 for part in re.findall(r"\{\}|\[b-d\](?:\{\{[^}]*\}\}|[*+])|[a-z]+", form)]
        words_of_form = dict.fromkeys("".join(chosen) for chosen in itertools.product(*parts))
        spoilt = [word[:place] + "é" + word[place + 1:]
                  for word in list(words_of_form)[::5] for place in range(len(word))]
        rows += [[pattern, word, found.match(word) is not None] for word in dict.fromkeys([*words_of_form, *spoilt])]
    yield searches(rows)
    yield ("the same where the one that is counted may stand more than a thousand times, with texts beyond ASCII: "
           "alone, and as what a look-ahead at the front looks for")
    rows = []
    for form, option in itertools.product(MANY_WITH_OPTION, MANY_OPTIONS):
        pattern = f"^{form.replace('{}', option).replace('{{', '{').replace('}}', '}')}$"
        found = re.compile(pattern[:-1] + "\\Z")
        sizes = [int(size) for size in re.findall(r"\d+", form)]
        parts = [["", "a", "à", "b", "aa"] if part == "{}" else
                 [c * size for size in sorted({0, *sizes, sizes[-1] + 1}) for c in "cß"] if part[0] == "[" else [part]
                 for part in re.findall(r"\{\}|\[[^]]*\]\{\{[^}]*\}\}|\w+", form)]
        whole = ["".join(chosen) for chosen in itertools.product(*parts)]
        spoilt = [f"{word[:place]}漢{word[place + 1:]}"
                  for word in whole[::3] for place in (0, len(word) // 2, max(len(word) - 1, 0))]
        for turn, word in enumerate(dict.fromkeys([*whole, *spoilt])):
            is_found, text = found.match(word) is not None, [[run[0], len(run)] for run in in_runs(word)]
            rows.append([[[pattern, 1]], text, is_found])
            if turn % 3 == 0:
                rows += [[[[f"^(?{sign}{pattern[1:]})", 1]], text, is_found == (sign == "=")] for sign in "=!"]
    yield long_searches(rows)


def row_of_classes_rows():
    """Classes in a row between the ends of a text, of which one is counted or repeated."""
    yield ("classes in a row between the ends of a text, one of them as often as each quantifier says: so many "
           "characters as it may be and one off, each class with another's character at the ends of the parts, and "
           "texts of one to four bytes a character (22.2.2.3)")
    rows = []
    for turn, (name, (quantifier, (low, high))) in enumerate(itertools.product(LINKS, LINK_QUANTIFIERS.items())):
        sides = list(itertools.product(LINKS_BESIDE, repeat=2))
        if name not in ("[a-c]", "."):
            sides = [sides[turn % 9], sides[(turn + 4) % 9]]
        for before, behind in sides:
            classes = [*before, name, *behind]
            pattern = f"^{''.join(before)}{name}{quantifier}{''.join(behind)}$"
            for between in sorted({max(low - 1, 0), low, high, high + 1, 8 - len(classes)} & {*range(14)}):
                if high == 12 and between > 12:
                    continue
                bound = 99 if high == 12 else high
                rows += [[pattern, text, is_in_a_row(classes, low, bound, len(before), text)]
                         for text in dict.fromkeys(texts_in_a_row(classes, len(before), between))]
    yield searches(rows)
    yield "the same without one of the two ends, with an end elsewhere, or with two that are counted"
    rows = []
    words = ("", "ab", "abcabcab", "xabcabcab", "abcabcabx", "äbcabcabc")
    for text, (low, high) in itertools.product(words, ((0, 3), (2, 5), (1, 8))):
        runs = [len(run) for run in re.findall("[a-c]*", text)]
        lead = len(re.match("[a-c]*", text)[0])
        tail = len(re.search("[a-c]*$", text)[0])
        rows += [[f"[a-c]{{{low},{high}}}", text, max(runs) >= low], [f"^[a-c]{{{low},{high}}}", text, lead >= low],
                 [f"[a-c]{{{low},{high}}}$", text, tail >= low],
                 [f"^[a-c]{{{low},{high}}}|x$", text, lead >= low or text.endswith("x")],
                 [f"^[a-c]{{{low},{high}}}[a-c]{{0,2}}$", text, lead == len(text) and low <= lead <= high + 2],
                 [f"^[a-c]{{{low},{high}}}(?:abc)*$", text,
                  any(text[size:] == "abc" * ((len(text) - size) // 3) for size in range(low, min(lead, high) + 1))],
                 [f"^[a-c]{{{low},{high}}}$|^x", text,
                  lead == len(text) and low <= lead <= high or text.startswith("x")]]
    yield searches(rows)
    yield "bounds of hundreds and thousands, at them and one off, with characters of one to four bytes"
    rows = []
    bounds = ((0, 250), (0, 1000), (1, 255), (255, 256), (1, 4096), (0, MOST_TIMES), (MOST_TIMES, MOST_TIMES))
    for low, high in bounds:
        for part in ("x", "ä", "漢", "😀"):
            for size in sorted({max(low - 1, 0), low, high, high + 1}):
                right = low <= size <= high
                rows.append([[[f"^.{{{low},{high}}}$", 1]], [[part, size]], right])
                rows += [[[[f"^.{{{low},{high}}}$", 1]], [[part, before], ["\n", 1], [part, size - before - 1]], False]
                         for before in sorted({0, size // 2, size - 1}) if 0 < size]
    for low, high in ((1, 300), (1, 2000)):
        for size in (1, high, high + 1):
            right = low <= size <= high
            ascii_only, wide = [[f"^a[b-d]{{{low},{high}}}e$", 1]], [[f"^ä\\p{{L}}{{{low},{high}}}é$", 1]]
            rows += [[ascii_only, [["a", 1], ["c", size], ["e", 1]], right],
                     [ascii_only, [["a", 1], ["c", size], ["ë", 1]], False],
                     [ascii_only, [["e", 1], ["c", size], ["e", 1]], False],
                     [ascii_only, [["a", 1], ["c", size - 1], ["a", 1], ["e", 1]], False],
                     [wide, [["ä", 1], ["ß", size], ["é", 1]], right],
                     [wide, [["ä", 1], ["ß", size - 1], ["1", 1], ["é", 1]], False]]
    yield long_searches(rows)


# Classes before and behind the one that is counted, so many that a text has eight characters without it.
LONG_SIDES = (
    (("a", "[a-c]", "\\d", "."), ("\\d", "a", "[^x]", "[a-c]")),
    (("[a-c]",), ("a", "\\d", ".", "\\S", "a", "\\d", "[a-c]")),
    (("\\d", "a", "[a-c]", "[^x]", "a", ".", "\\d"), ("[a-c]",)),
    ((), ("a", "\\d", "[a-c]", ".", "\\S", "a", "[^x]", "\\d")),
    (("a", "\\d", "[a-c]", ".", "\\S", "a", "[^x]", "\\d"), ()), (("a",) * 5, ("\\d",) * 6))
# What may stand between such sides: two classes that may be read several times or not at all, which make no chain, and
# some that are one class.
BETWEEN_SIDES = (
    "x?y?", "x?y", "xy?", "x*y?", "x?y*", "x+y?", "x?y+", "x*y*", "x+y+", "x{0,2}y{0,2}", "x{2}y{0,2}", "x{0,2}y{2}",
    "x?x?", "x?x*", "x*x?", "x?[xy]?", "[xy]?x?", "x?y?x?", "(?:xy)?", "(?:x|y)?", "(?:x?y)?", "(?:x?)*", "x??", "x*?",
    "(?:xx)*", "(?:xx)?", "x{3}", "x{3}y{3}", "x{0}", "x{0}y", "(?=x)x?", "x?(?=1)", "x?^", "$x?", "x?\\b", "\\Bx?",
    "(?:x?|y)", "(?:x|y?)", "x(?:y)?", "(?:)", "(?:x)", "(x)?", "x?|y")


def counted_between(low, high):
    """How often a class may be read as it is counted, and numbers beside."""
    return sorted({0, max(low - 1, 0), low, min(high, 9) + 1})


def long_sides_rows():
    """Texts of eight characters and more, whose classes are looked up one behind another."""
    yield ("many classes in a row before and behind the one that is counted, which may be read not at all: another's "
           "character at each place")
    rows = []
    turned = itertools.product(LINKS, LINK_QUANTIFIERS.items())
    for turn, (name, (quantifier, (low, high))) in enumerate(turned):
        before, behind = LONG_SIDES[turn % len(LONG_SIDES)]
        classes, at, bound = [*before, name, *behind], len(before), 99 if high == 12 else high
        pattern = f"^{''.join(before)}{name}{quantifier}{''.join(behind)}$"
        for between in counted_between(low, high):
            names = [*before, *[name] * between, *behind]
            right = [LINKS[one][1][place % len(LINKS[one][1])] for place, one in enumerate(names)]
            tried = [right, right[1:], [*right, "1"]]
            if between in (0, low):
                tried += [[*right[:place], LINKS[one][2][-1], *right[place + 1:]] for place, one in enumerate(names)]
            rows += [[pattern, text, is_in_a_row(classes, low, bound, at, text)]
                     for text in dict.fromkeys(map("".join, tried))]
    yield searches(rows)
    yield "what is counted between such sides, alone and two of it, as both ends of a text bound it"
    rows = []
    sides = (("abcd", "1234"), ("abcdefgh", ""), ("", "12345678"), ("a", "1234567"), ("abcdefg", "1"))
    for turn, inner in enumerate(BETWEEN_SIDES):
        before, behind = sides[turn % len(sides)]
        pattern = f"^{before}{inner}{behind}$"
        found = re.compile(pattern.replace("$", "\\Z"), re.ASCII)
        for word in ("", "x", "y", "xx", "xy", "yx", "yy", "xxx", "xxy", "xyx", "xyy", "yxx", "xxxyyy", "xxyy"):
            rows += [[pattern, text, found.search(text) is not None]
                     for text in (f"{before}{word}{behind}", f"{before}{word}{behind}1")]
    yield searches(rows)
    yield "each character of ASCII among such classes, and as the one that is counted"
    classes = {"[^a]": lambda c: c != "a", "\\W": is_no_word, "[\\x40-\\x7f]": lambda c: "@" <= c <= "\x7f"}
    rows = []
    for (name, has), one in itertools.product(classes.items(), ASCII):
        rows += [[f"^bcde{name}fghi$", f"bcde{one}fghi", has(one)],
                 [f"^bcd{name}+efgh$", f"bcd{one}{one}efgh", has(one)]]
    yield searches(rows)


# Classes and counts of a pattern that is too large for a table.
FAR_COUNTS = (("{0,1500}", 0, 1500), ("{1,1500}", 1, 1500), ("{1200,1300}", 1200, 1300), ("{1100}", 1100, 1100),
              ("{1100,}", 1100, 9999))
FAR_LINKS = {
    "\\p{L}": ("ä", "1"), "[^x]": ("漢", "x"), ".": ("😀", "\n"), "\\S": ("é", "\u3000"), "[a-c]": ("b", "é"),
    "[^\\n]": ("a", "\n")}


def far_row_rows():
    """Classes in a row of which one is counted up to so many times that a pattern has no table."""
    yield ("classes in a row, one of which is counted up to hundreds, with others before and behind it: another's "
           "character at each place of these and at both ends of the counted ones, and so many as none or one off")
    rows = []
    sides = ((("[à-ö]", "\\d"), ("\\d", "[a-c]", "\\p{L}")), ((), ("[à-ö]",)), (("\\p{L}",), ()),
             (("a", "[a-c]"), ("\\d", "a")))
    turned = itertools.product(FAR_LINKS.items(), FAR_COUNTS)
    for turn, ((name, (one, other)), (quantifier, low, high)) in enumerate(turned):
        for before, behind in sides[turn % 4:turn % 4 + 1]:
            pattern = [[f"^{''.join(before)}{name}{quantifier}{''.join(behind)}$", 1]]
            head, tail = ([LINKS[link][1][-1] for link in side] for side in (before, behind))
            for size in sorted({0, low - 1, low, low + 1, min(high, low + 300), high + 1} & {*range(1502)}):
                rows.append([pattern, [["".join(head), 1], [one, size], ["".join(tail), 1]], low <= size <= high])
            size = max(low, 8)
            for place, link in enumerate(before):
                spoilt = "".join([*head[:place], LINKS[link][2][0], *head[place + 1:]])
                rows.append([pattern, [[spoilt, 1], [one, size], ["".join(tail), 1]], False])
            for place, link in enumerate(behind):
                spoilt = "".join([*tail[:place], LINKS[link][2][0], *tail[place + 1:]])
                rows.append([pattern, [["".join(head), 1], [one, size], [spoilt, 1]], False])
            for first in (0, size // 2, size - 1):
                rows.append([pattern, [["".join(head), 1], [one, first], [other, 1], [one, size - first - 1],
                                       ["".join(tail), 1]], False])
    rows = [[pattern, [part for part in text if part[0] and part[1]], found] for pattern, text, found in rows]
    yield long_searches(rows)


def front_row_rows():
    """Look-aheads at the front that are classes in a row up to the end of the text."""
    yield ("look-aheads at the front for classes in a row up to the end of a text, each as it is to be found or not, "
           "one and two of them, in texts of eight characters and more")
    rows = []
    sides = ((("a", "[a-c]", "\\d"), ("[a-c]", "\\d", "a", ".")), (("[^x]",), ("a", "\\d", "[a-c]", "\\S", "a", "a")))
    for turn, (name, (quantifier, (low, high))) in enumerate(itertools.product(LINKS, LINK_QUANTIFIERS.items())):
        before, behind = sides[turn % 2]
        classes, at, bound = [*before, name, *behind], len(before), 99 if high == 12 else high
        body = f"{''.join(before)}{name}{quantifier}{''.join(behind)}$"
        forms = {f"^(?={body})": True, f"^(?!{body})": False, f"^(?=a|b)(?={body})[^]*$": True,
                 f"^(?!{body})(?!{body})[^]+": False}
        for between in counted_between(low, high):
            names = [*before, *[name] * between, *behind]
            right = [LINKS[one][1][place % len(LINKS[one][1])] for place, one in enumerate(names)]
            right[0] = "a"
            for text in ("".join(right), "".join([*right[:-1], "\n"]), "".join([*right, "1"])):
                found = is_in_a_row(classes, low, bound, at, text)
                rows += [[form, text, found == is_sought] for form, is_sought in forms.items()]
    yield searches(rows)


# Alternatives of other lengths that a look-behind or a look-ahead may look for.
UNLIKE_ALTERNATIVES = (
    "a|bc", "bc|a", "a|ab|abc", "|ab", "ab|", "a|bca|c", "(?:a|bc)b", "b(?:a|bc)", "a{1,3}|b", "a?b|c", "^a|bc",
    "bc|^", "a|bc$", "(?:a|bc){2}")


def unlike_alternative_rows():
    """Alternatives of other lengths in look-arounds."""
    yield ("alternatives of other lengths in a look-behind and a look-ahead, each of which is tried (22.2.2.4), in "
           "each text of a, b and c")
    rows = []
    for body, word in itertools.product(UNLIKE_ALTERNATIVES, words("abc", range(4))):
        behind = [stands_behind(body, word, place) for place, one in enumerate(word) if one == "c"]
        ahead = [stands_ahead(body, word, place + 1) for place, one in enumerate(word) if one == "a"]
        rows += [[f"(?<={body})c", word, any(behind)], [f"(?<!{body})c", word, not all(behind)],
                 [f"a(?={body})", word, any(ahead)], [f"a(?!{body})", word, not all(ahead)]]
    yield searches(rows)


# What may stand at the ends of a pattern in the place of `^` and of `$`, beside what reads eight characters and more.
FIRST_EDGES = ("^", "\\b", "\\B", "", "^^", "(?:^)", "(?=a)", "^(?=a)", "(?<=^)", "(?<!x)", "\\b^", "^\\b", "(?:^|x)",
               "(?<![^])")
LAST_EDGES = ("$", "\\b", "\\B", "", "$$", "(?:$)", "(?<=h)", "(?<=h)$", "(?=$)", "(?!x)", "\\b$", "$\\b", "(?:$|x)",
              "(?![^])")
ROWS_BETWEEN_EDGES = (
    "abcdefgh", "abcd[a-z]{4}", "[a-h]+", "[a-h]{8}", "a[a-h]{0,9}h", "a.{6}h", "\\w{8}", "ab?[b-g]*h")


def edge_of_row_rows():
    """Classes in a row between other assertions than `^` and `$`."""
    yield ("classes in a row with each assertion before and behind them: only `^` and `$` are the ends of a text, and "
           "else they are found within one")
    words_around = ("abcdefgh", "xabcdefgh", "abcdefghx", " abcdefgh ", "x abcdefgh", "abcdefgh x", "-abcdefgh-",
                    "abcdefg", "éabcdefghé", "x\nabcdefgh\nx")
    rows = []
    for turn, (first, last) in enumerate(itertools.product(FIRST_EDGES, LAST_EDGES)):
        inner = ROWS_BETWEEN_EDGES[(turn + turn // 8) % len(ROWS_BETWEEN_EDGES)]
        pattern = f"{first}{inner}{last}"
        found = re.compile(pattern.replace("[^]", "(?s:.)").replace("$", "\\Z"), re.ASCII)
        rows += [[pattern, text, found.search(text) is not None] for text in words_around]
    yield searches(rows)


# Which characters of ASCII each class has.
ASCII_MEMBERS = {
    ".": lambda c: c not in "\n\r", "[^x]": lambda c: c != "x", "\\d": str.isdigit,
    "\\D": lambda c: not c.isdigit(),
    "\\w": lambda c: c.isalnum() or c == "_", "\\W": lambda c: not c.isalnum() and c != "_",
    "\\s": lambda c: c in "\t\n\v\f\r ", "\\S": lambda c: c not in "\t\n\v\f\r ", "[\\D\\d]": lambda c: True,
    "[\\0-\\x1f\\x7f]": lambda c: unicodedata.category(c) == "Cc", "[^\\0-~]": lambda c: c == "\x7f",
    "\\p{Cc}": lambda c: unicodedata.category(c) == "Cc", "\\P{L}": lambda c: not c.isalpha(),
    "\\p{ASCII}": lambda c: True, "[!-~]": lambda c: "!" <= c <= "~", "[a-\\x80]": lambda c: "a" <= c,
    "\\p{P}": lambda c: unicodedata.category(c)[0] == "P", "\\p{Lu}": str.isupper}


def row_member_rows():
    """Each character of ASCII in the classes of a row."""
    yield ("each character of ASCII that a class has, in one row of it between the ends of a text, and each that it "
           "has not among others (22.2.2.9): as the class before the counted one, as that, as one that follows, and "
           "behind one that may be missing")
    rows = []
    for name, is_member in ASCII_MEMBERS.items():
        members = "".join(filter(is_member, map(chr, range(128))))
        right = (members * 9)[:max(9, len(members))]
        forms = (f"^{name}{{{len(right)}}}$", f"^{name}{{0,{len(right)}}}$", f"^{name}*$", f"^\\xe9?{name}+$",
                 f"^\\xe9*{name}{{{len(right)}}}$")
        rows += [[form, right, True] for form in forms]
        for other in filter(lambda c: not is_member(c), map(chr, range(128))):
            around_it = members[:4] * 4
            text = f"{around_it[:5]}{other}{around_it[:5]}"
            forms = (f"^{name}{{11}}$", f"^{name}*$", f"^\\xe9?{name}{{1,11}}$")
            rows += [[form, text, False] for form in forms]
    yield searches(rows)
