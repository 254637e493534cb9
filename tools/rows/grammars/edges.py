"""Names, numbers and reasons at their edges, and look-arounds and loops in one another."""
import itertools
import re

from rows.grammars.common import (ASCII, LETTERS, MORE_TIMES, characters, in_forms, never, refusals, searches, sums,
                                  texts, words)
from rows.grammars.properties import (BINARIES, NAME_CHARACTERS, NAME_PARTS, NAME_STARTS, PATTERNS, SYNTAX, escaped,
                                      is_name_part, is_name_start, one_letter_off)
from rows.grammars.looks import stands_ahead, stands_behind
from rows.grammars.limits import NEEDLESSLY_ESCAPED, NOT_A_PATTERN, REASONS, needless
from rows.grammars.whole_patterns import WHOLE_PATTERNS

# Names of groups that are nearly alike: in another letter case, normal form, width or script, by the same last bits of
# their characters, or with what is hardly seen.
NEAR_NAMES = (
    "a", "A", "\u00e1", "\u00c1", "a\u0301", "a\u0300\u0301", "a\u0301\u0300", "\u00aa", "\uff41", "\U0001d51e",
    "\u0430", "\u0410", "a\u200c", "a\u200d", "a\ufe0f", "a1", "a\u0661", "a_", "$a", "s", "\u017f", "k", "\u212a",
    "\u00df", "\u1e9e", "ss", "i", "\u0131", "\u0130", "\u03c3", "\u03c2", "\u03a3", "\ufb01", "fi", "\U00010428",
    "\U00010400", "\u0428", "\u0400")
# Code points above the greatest, the last by as many bits as 16, 32 and 64 as a character.
FAR_POINTS = [0x110000, 0x110041, 0x11FFFF, 0x200041, 0x1000041, 0x10000041, 0x80000041] + [
    (1 << bits) + off for bits in (32, 33, 36, 64, 128) for off in (-1, 0, 0x41, 0x1F600)]
# Numbers at the ends of bits, and with one digit more.
NUMBERS_AT_ENDS = [0, 1, 2, 9, 10, 99, 100, 999, 1000] + [
    (1 << bits) + off for bits in (16, 31, 32, 53, 64) for off in (-1, 0, 1)] + [10 ** 20 - 1, 10 ** 20, 10 ** 20 + 1]


def all_escaped(name):
    """The name with each character by the escape of its code."""
    return "".join(map(escaped, name))


def near_name_rows():
    """Names of groups that are nearly alike, and characters of names in the whole grammar."""
    yield ("names of groups that are nearly alike are others: a name is its code points (22.2.1, GroupName), in no "
           "normal form and no letter case")
    pairs = list(itertools.product(NEAR_NAMES, repeat=2))
    forms = {"(?<{}>x)(?<{}>y)": str, "(?<{}>x|(?<{}>y))": all_escaped}
    for of in (PATTERNS, WHOLE_PATTERNS):
        twice = {form.format(one, spell(other)): one != other for one, other in pairs for form, spell in forms.items()}
        yield texts(of, twice, twice.get)
    asked = {"(?<{}>x)\\k<{}>": str, "\\k<{}>(?<{}>x)": all_escaped}
    known = {form.format(one, spell(other)): one == other for one, other in pairs for form, spell in asked.items()}
    yield texts(WHOLE_PATTERNS, known, known.get)
    yield "the whole grammar: characters first in names and behind, those of ID_Start and ID_Continue among them"
    firsts, behind = [["(?<", ">x)"], ["(?<", "b>x)"]], [["(?<a", ">x)"], ["(?<a", "b>x)"], ["(?<$", ">x)"]]
    yield characters(WHOLE_PATTERNS, NAME_STARTS, firsts, NAME_CHARACTERS)
    yield characters(WHOLE_PATTERNS, NAME_PARTS, behind, NAME_CHARACTERS)
    for before, accepted in (("", NAME_STARTS + "a$_"), ("a", NAME_PARTS + "a0$_")):
        spelled = [(one, spell(one)) for one in NAME_CHARACTERS + "a0$_- " for spell in (str, escaped)]
        expected = {f"(?<{before}{written}>x)\\k<{before}{one}>": one in accepted for one, written in spelled}
        yield texts(WHOLE_PATTERNS, expected, expected.get)
    first, further = (lambda point: is_name_start(point) or chr(point) in "=!",
                      lambda point: is_name_part(point) or chr(point) == ">")
    yield sums(WHOLE_PATTERNS, [["(?<", ">x)"]], first, 0x100, 0x3100)
    yield sums(WHOLE_PATTERNS, [["(?<a", ">x)"]], further, 0x100, 0x3100)


def far_number_rows():
    """Code points and counts that no number of so many bits has."""
    yield "code points in braces above the greatest, however far, in a pattern, a class and a name"
    forms = ("\\u{{{}}}", "[\\u{{{}}}]", "[a-\\u{{{}}}]", "(?<\\u{{{}}}>x)", "(?<a\\u{{{}}}>x)")
    for of in (PATTERNS, WHOLE_PATTERNS):
        written = [f"{zeros}{point:x}" for point in FAR_POINTS for zeros in ("", "00")]
        yield texts(of, in_forms(forms, written), never)
        yield texts(of, in_forms(forms, [f"{zeros}61" for zeros in ("", "0", "0" * 6, "0" * 30)]), lambda text: True)
    yield "counts far above the greatest, which are small ones by as many bits as 31, 32 or 64"
    far = [(1 << bits) + off for bits in (31, 32, 33, 63, 64, 128) for off in (0, 1, 2, 1000)]
    forms = ("a{{{}}}", "a{{{},}}", "a{{0,{}}}", "a{{1,{}}}?", "(?:ab){{{}}}", "(?=a{{{}}})", "(?:a|b{{2,{}}})")
    yield texts(PATTERNS, in_forms(forms, far), never)
    yield "the whole grammar: counts at the ends of 16, 31, 32, 53 and 64 bits, with zeros before them"
    counts = {}
    for (one, other), (zeros, others) in itertools.product(itertools.product(NUMBERS_AT_ENDS, repeat=2), (
            ("", ""), ("000", ""), ("", "0" * 20))):
        counts[f"a{{{zeros}{one},{others}{other}}}"] = one <= other
    yield texts(WHOLE_PATTERNS, counts, counts.get)


# What makes no pattern behind a reason, which is told all the same; and what may stand far before one.
BROKEN_BEHIND = ("(", ")", "[", "]", "*", "\\", "(?", "(?<n", "a{", "a{2,1}", "[b-a]", "\\u{", "\\p{", "a**", "\\00")
FAR_BEFORE = (
    "a" * 1600, "a" * 300, "\n", "a\r\n\n", "(?:a)" * 300, "(" * 200, "(a|b)|" * 200, "[^a-z]" * 250,
    "\\u{1F600}" * 150, "\\p{Lu}" * 200, "a*?b{2,3}" * 150, "(?<m>a)\n(?<l>\\n)", "(?=a)(?<!b)" * 100)


def far_reason_rows():
    """Reasons before and behind what else is wrong, and far from the beginning."""
    yield "each reason before what makes no pattern, and behind many terms that do: it is what stands first"
    for piece, why in REASONS.items():
        if why != NOT_A_PATTERN:
            yield refusals(why, [f"{piece}{behind}" for behind in BROKEN_BEHIND])
            yield refusals(why, [f"{before}{piece}" for before in FAR_BEFORE])
            if "(" not in piece:
                yield refusals(why, [f"{'(' * groups}{piece}" for groups in (1, 249, 250)])
    yield "a count is above the greatest whatever stands behind its digits"
    counts = ("a{5001", "a{5001,", "a{0,5001", "a{5001 }", "a{5001;2}", "a{50011", "a{5001,1", "a{1,5001a}",
              "(a{5001|b")
    yield refusals(MORE_TIMES, counts)
    yield "of two characters that stand for themselves without the flag `u` the first is told"
    for one in NEEDLESSLY_ESCAPED:
        others = [f"\\{one}\\{other}" for other in NEEDLESSLY_ESCAPED + "19k"]
        yield refusals(needless(one), [*others, *(f"(?:\\{one})|b\\{other}" for other in NEEDLESSLY_ESCAPED)])


# Pieces that make no pattern, each by a rule of the grammar or an early error (22.2.1, 22.2.1.1), with a like one that
# is taken; and what stands far before and behind them, as parts, each so many times over.
LIKE_WRONG = {
    "\\00": "\\0a", "\\09": "\\0:", "\\0\\01": "\\0\\0a", "\\\\\\01": "\\\\01", "[\\07]": "[\\0a]",
    "[a\\00]": "[a\\0]0", "(\\01)": "(\\0)1", "]": "\\]", "}": "\\}", "|{": "\\{", "(?:)(": "(?:)\\(", ")": "\\)",
    "|*": "a|b*", "(+)": "(a+)", "a**": "a*b*", "a{1}{2}": "a{1}b{2}", "a{2,1}": "a{1,2}", "a{,1}": "a{0,1}",
    "a{1,2": "a{1,2}", "^*": "^a*", "\\b+": "\\ba+", "(?=a)*": "(?=a)b*", "(?<=a)?": "(?<=a)b?",
    "(?!a){2}": "(?!a)b{2}", "(?a)": "(?:a)", "(?<>a)": "(?<s>a)", "(?<1>a)": "(?<s1>a)", "(?<s-t>a)": "(?<s_t>a)",
    "(?<s>a)(?<s>b)": "(?<s>a)(?<t>b)", "(?<s>a)|(?<\\u0073>b)": "(?<s>a)|(?<\\u0074>b)", "\\a": "\\n",
    "\\c1": "\\ca", "\\xg4": "\\x44", "\\u00g4": "\\u0044", "\\u{}": "\\u{0}", "\\u{110000}": "\\u{10FFFF}",
    "\\p{}": "\\p{L}", "\\pL": "\\p{L}", "[b-a]": "[a-b]", "[^\\d-a]": "[^\\d-]", "[a-\\d]": "[a\\d]",
    "[\\a]": "[\\n]", "[\\B]": "[\\b]", "[\\u{110000}]": "[\\u{10FFFF}]", "[\\c1]": "[\\ca]",
    "[\\p{L}-a]": "[\\p{L}-]", "[a": "[a]"}
MANY_BEFORE = (
    ["a", 1], ["a", 31], ["a", 99], ["a", 100], ["a", 101], ["a", 256], ["a", 1024], ["a", 1900], ["\u00e9", 1000],
    ["\U0001f600", 500], ["\n", 200], ["(?:a)", 300], ["(a)", 300], ["a|", 800], ["[^a-z]", 250], ["[\\0a]", 200],
    ["\\0a", 500], ["\\\\", 700], ["\\u{1F600}", 150], ["\\p{Lu}", 200], ["a*?b{2,3}", 150], ["(?=a)(?<!b)", 100])
MANY_BEHIND = (["-", 1], ["-", 100], ["-", 1900], ["|-", 800], ["-\\0", 500], ["-(?:b)", 250], ["-[^a]", 300])


def far_piece_rows():
    """What makes no pattern, and what is like it, far from the beginning and from the end."""
    yield ("each piece that makes no pattern, and one like it that is taken, behind and before so many characters, "
           "groups, alternatives, classes and escapes")
    for of, pieces in ((NOT_A_PATTERN, LIKE_WRONG), ("taken", LIKE_WRONG.values())):
        long = [{"pattern": [before, [piece, 1]]} for piece in pieces for before in MANY_BEFORE]
        long += [{"pattern": [[piece, 1], behind]} for piece in pieces for behind in MANY_BEHIND]
        yield {"ask": "refusals", "of": of, "long": long}, len(long)
    yield "the whole grammar: the same behind and before more than 2,000 and more than 65,536 characters"
    around = (([["a", 3000]], []), ([["\\0a", 22_000]], [["-", 3]]), ([], [["-", 3000]]),
              ([["a", 3]], [["-\\0", 22_000]]))
    right, wrong = ([before + [[piece, 1]] + behind for turn, piece in enumerate(pieces)
                     for before, behind in around[turn % 2::2]] for pieces in (LIKE_WRONG.values(), LIKE_WRONG))
    yield {"ask": "long texts", "of": WHOLE_PATTERNS, "yes": right, "no": wrong}, len(right) + len(wrong)


# Members that make no class, each with a like one that does, and what may stand many times over beside them.
LIKE_WRONG_MEMBERS = {
    "b-a": "a-b", "\\d-a": "\\d\\-a", "a-\\d": "a\\-\\d", "\\p{L}-a": "\\p{L}a", "\\a": "\\n", "\\B": "\\b",
    "\\c1": "\\ca", "\\x4g": "\\x4a", "\\u004g": "\\u004a", "\\u{}": "\\u{0}", "\\u{110000}": "\\u{10FFFF}",
    "\\p{}": "\\p{L}", "\\01": "\\0:", "\\1": "\\x01", "\\k": "k", "\\b-\\x07": "\\b-\\x08"}
MANY_MEMBERS = (
    ["\u4e00", 1], ["\u4e00", 31], ["\u4e00", 99], ["\u4e00", 100], ["\u4e00", 128], ["\u4e00", 256], ["\u4e00", 512],
    ["\u4e00", 1900], ["\u4e00-\u4e09", 32], ["\u4e00-\u4e09", 600], ["\\d", 100], ["\\d", 500], ["\\p{Lu}", 100],
    ["\\-", 300], ["\\u{4e00}", 200])
ZEROS = (5, 9, 10, 11, 19, 31, 32, 33, 64, 100, 255, 256, 1000, 1900)


def far_content_rows():
    """What stands in a long class, many names and references, and numbers with many zeros before them."""
    yield "members that make no class, and like ones that do, behind and before many others"
    for of, members in ((NOT_A_PATTERN, LIKE_WRONG_MEMBERS), ("taken", LIKE_WRONG_MEMBERS.values())):
        long = [{"pattern": [[opening, 1], *parts, ["]", 1]]} for one in members for many in MANY_MEMBERS
                for opening, parts in (("[", ([one, 1], many)), ("[^", (many, [one, 1])))]
        yield {"ask": "refusals", "of": of, "long": long}, len(long)
    yield "numbers with many zeros before their digits: the zeros make none other (12.9.3.1, 22.2.2.7)"
    forms = {"taken": ("a{{{}2}}", "a{{{}2,}}?", "a{{1,{}3}}", "\\u{{{}41}}", "[\\u{{{}41}}]", "[a-\\u{{{}62}}]",
                       "(?<\\u{{{}61}}>x)", "\\u{{{}10FFFF}}"),
             MORE_TIMES: ("a{{{}5001}}", "a{{{}5001,}}", "a{{1,{}5001}}"),
             NOT_A_PATTERN: ("\\u{{{}110000}}", "[\\u{{{}110000}}]", "a{{3,{}2}}", "(?<\\u{{{}31}}>x)",
                             "[b-\\u{{{}61}}]")}
    for of, written in forms.items():
        halves = [form.format(" ").split(" ") for form in written]
        long = [{"pattern": [[before, 1], ["0", zeros], [behind, 1]]} for before, behind in halves for zeros in ZEROS]
        yield {"ask": "refusals", "of": of, "long": long}, len(long)
    yield "the whole grammar: hundreds of names and of references, one of which is there twice or asks for none"
    right, wrong = [], []
    for many in (300, 1100):
        groups = "".join(f"(?<n{number}>)" for number in range(many))
        calls, numbers = ([form.format(number) for number in range(1, many)] for form in ("\\k<n{}>", "\\{}:"))
        right += [[[groups, 1], ["".join(calls), 1]], [["".join(calls), 1], [groups, 1]],
                  [["()", many], ["".join(numbers), 1]], [["".join(numbers), 1], ["(?<m>)", 1], ["()", many - 2]]]
        for place in (0, 1, many // 2, many - 1):
            wrong += [[[groups, 1], [f"(?<n{place}>)", 1]], [[f"(?<n{place}>)", 1], [groups, 1]]]
            for asked, unknown, whole in (
                    (calls, f"\\k<n{many}>", [groups, 1]), (numbers, f"\\{many + 1}:", ["()", many])):
                spoilt = ["".join([*asked[:place], unknown, *asked[place:]]), 1]
                wrong += [[whole, spoilt], [spoilt, whole]]
    yield {"ask": "long texts", "of": WHOLE_PATTERNS, "yes": right, "no": wrong}, len(right) + len(wrong)


# Characters that are hardly seen, or make one sign with others, and pieces of several characters.
OF_LENGTHS = (" ", "\t", "\n", "\r", "\u2028", "\u0301", "\u0903", "\u200d", "\ufe0f", "\ufeff", "\u1100", "\U0001f1e6",
              "\r\n", "\\.", "[]", "()", "\\x41", "[^a]")


def length_rows():
    """What counts for the length of a pattern."""
    yield "each character counts for the length: blanks, ends of lines, marks, what joins, and each of an escape"
    for more, why in enumerate(("taken", "it has more than 2000 characters")):
        long = [[[piece, 2000 // len(piece)], ["a", more]] for piece in OF_LENGTHS]
        long += [[["a", 2000 - len(piece) + more], [piece, 1]] for piece in OF_LENGTHS]
        long += [[[piece, 1], ["a", 2000 - len(piece) + more]] for piece in OF_LENGTHS]
        yield {"ask": "refusals", "of": why, "long": [{"pattern": pattern} for pattern in long]}, len(long)


def off_name_rows():
    """Names of properties that have values, one letter off, and characters past ASCII where one of ASCII may stand."""
    yield "names of General_Category, Script and Script_Extensions one letter off, before a value of each"
    names = {"General_Category", "gc", "Script", "sc", "Script_Extensions", "scx"}
    off = sorted({spoilt for name in names for spoilt in one_letter_off(name)} - names)
    for of in (PATTERNS, WHOLE_PATTERNS):
        yield texts(of, in_forms(("\\p{{{}=Lu}}", "\\p{{{}=Latn}}", "[\\P{{{}=Greek}}]"), off), never)
    binaries = [name for names in BINARIES for name in names.split("/")] + ["Changes_When_NFKC_Casefolded", "CWKCF"]
    for prefix in ("gc", "General_Category"):
        yield texts(WHOLE_PATTERNS, [f"\\p{{{prefix}={name}}}" for name in binaries], never)
    yield "characters past ASCII in the braces of a property, behind a backslash and behind a back reference"
    wide = "\u00e9\u017f\u212a\u0391\u0661\uff11\uff2c\u4e00\U0001d7ce\U00010400"
    forms = ("\\p{{{}}}", "\\p{{L{}}}", "[\\P{{gc={}}}]", "\\p{{{}=Lu}}", "\\{}", "[\\{}]")
    yield refusals(NOT_A_PATTERN, in_forms(forms, wide))
    forms = {"(a)\\1{}": True, "(a)\\{}": False, "\\k<{}>(?<{}": False, "(?<a>)\\k{}a>": False}
    expected = {form.format(one, one): is_right for one in wide for form, is_right in forms.items()}
    yield texts(WHOLE_PATTERNS, expected, expected.get)


# Characters that are shown on the one before, or join it with the next.
JOINED = "\u00ad\u0300\u0301\u036f\u0483\u05b0\u0903\u20dd\u2019\u200c\u200d\u2060\ufe0f\ufeff\U0001f3fb\U000e0100"


def joined_edge_rows():
    """Word boundaries beside marks and what joins."""
    yield "a mark is no word character, and neither is what joins or what an emoji bears (22.2.2.3.2)"
    found = {"^a\\b{}": "a{}", "^{}\\ba": "{}a", "^{0}\\B{0}$": "{0}{0}", "^\\B{}\\B$": "{}", "^a\\W$": "a{}",
             "^\\w\\b{}\\b\\w$": "a{}b", "^ \\B{}\\B $": " {} "}
    lacked = {"^a\\B{}": "a{}", "^{}\\Ba": "{}a", "^{0}\\b{0}$": "{0}{0}", "^\\b{}": "{}", "^a\\w$": "a{}",
              "{}\\b$": "a{}", "^\\w+$": "a{}b", "\\w{}\\B": "a{}b"}
    rows = []
    for forms, is_found in ((found, True), (lacked, False)):
        rows += [[form.format(one), text.format(one), is_found] for one in JOINED for form, text in forms.items()]
    yield searches(rows)


def deep_rows():
    """Patterns of the whole grammar that are deeper, or have longer parts, than 16 bits count."""
    yield "the whole grammar: groups and look-arounds deeper than 65,536, and parts of more characters than that"
    right, wrong, many = [], [], 70_000
    for opening in ("(", "(?:", "(?=", "(?<!"):
        right.append([[opening, many], ["a", 1], [")", many]])
        wrong.append([[opening, many], ["a", 1], [")", many - 1]])
    right += [[["a", 2 * many]], [["[", 1], ["a-b", 25_000], ["]", 1]], [["(?<", 1], ["a", many], [">x)", 1]],
              [["a{", 1], ["0", many], ["2,", 1], ["0", many], ["3}", 1]], [["\\u{", 1], ["0", many], ["41}", 1]],
              [["a|", many]], [["(?<", 1], ["a", many], [">x)\\k<", 1], ["a", many], [">", 1]]]
    wrong += [[["a", 2 * many], ["]", 1]], [["[", 1], ["a-b", 25_000], ["b-a]", 1]],
              [["(?<", 1], ["a", many], ["->x)", 1]], [["\\u{", 1], ["1", many], ["}", 1]],
              [["a{", 1], ["0", many], ["3,", 1], ["0", many], ["2}", 1]],
              [["a|", many], ["*", 1]], [["(?<", 1], ["a", many], [">x)\\k<", 1], ["a", many - 1], [">", 1]],
              [["()\\1", 1], ["0", many]], [["\\p{", 1], ["L", many], ["}", 1]]]
    yield {"ask": "long texts", "of": WHOLE_PATTERNS, "yes": right, "no": wrong}, len(right) + len(wrong)


# Patterns with a lookahead behind `^`, but in one of several alternatives, in a group, or in what may be missing.
FRONTS_WITHIN = (
    "b|^{}a", "^{}a|b", "^a|^{}b", "^{}a|^b$", "(?:^{}a|b)$", "^(?:{}a|b)", "(?:^{})?a", "(?:^|a){}b", "(^{}|b)a",
    "a(?:^{}b)?", "^{}|b$", "^(?:a|{})b", "b?^{}", "(?:b|){}a", "^|{}b", "(?:^{}a)*b", "(?:^{}){{2}}a", "(?=^{}a|b)")


def front_within_rows():
    """Lookaheads behind `^` that are not at the front of the whole pattern."""
    yield ("a lookahead behind `^` in one of several alternatives, in a group or in what may be missing, in each "
           "text of a and b")
    rows = []
    for form, look in itertools.product(FRONTS_WITHIN, ("(?=ab)", "(?!ab)", "(?=a*b)", "(?!.*b)", "(?=ba|ab)")):
        pattern = form.format(look)
        rows += [[pattern, word, re.search(pattern, word) is not None] for word in words("ab", range(4))]
    yield searches(rows)


# A name, an equals sign and a value, but with a sign more, fewer or another.
SIGNS_OF_VALUES = (
    "{}={}=", "{}=={}", "={}={}", "{0}={1}={1}", "{}={}=Y", "{}{}=", "{}:{}", "{}!={}", "{}~{}", "{} = {}", "{}={};",
    "{}={}|", "^{}={}", "{}=^{}", "{}=[{}]", "{0}={1},{1}", "{}=/{}/", "{}.{}", "{}\u2260{}")


def value_sign_rows():
    """What stands between the name of a property and its value."""
    yield "one equals sign stands between the name of a property and its value (22.2.1, UnicodePropertyValueExpression)"
    valued = (("gc", "Lu"), ("General_Category", "L"), ("sc", "Latn"), ("Script", "Greek"))
    written = [form.format(*pair) for pair in (*valued, ("scx", "Latn")) for form in SIGNS_OF_VALUES]
    for of in (PATTERNS, WHOLE_PATTERNS):
        yield texts(of, in_forms(("\\p{{{}}}", "[\\P{{{}}}]"), written), never)
        yield texts(of, [f"\\p{{{name}={value}}}" for name, value in valued], lambda text: True)


# Loops and look-behinds that stand within a loop.
WITHIN_LOOPS = (
    "(?:ab)+", "(?:ab)*", "(?:ab)?", "(?:a|ba)+", "(?:(?:ab)+b)*", "(?<=a)", "(?<=)", "(?<!ab)", "(?:(?<=b)a)+")


def inner_loop_rows():
    """Loops within loops, each of a group."""
    yield "a loop of a group, or a look-behind, within a loop of a group, with terms beside it, in each text of a and b"
    beside, rows = (("a", ""), ("", "b"), ("a", "b"), ("b?", "")), []
    for inner, (before, behind), outer in itertools.product(WITHIN_LOOPS, beside, ("*", "+", "{2}")):
        pattern = f"^(?:{before}{inner}{behind}){outer}$"
        rows += [[pattern, word, re.search(pattern, word) is not None] for word in words("ab", range(5))]
    yield searches(rows)


# Assertions, and what reads one character, which stand behind one another in a look-around.
EDGE_PIECES = ["", "^", "$", "\\b", "\\B", "a", "-", "."]
EDGE_ASSERTIONS = ["^", "$", "\\b", "\\B"]


def inner_edge_rows():
    """Assertions behind something in what a look-around looks for."""
    yield ("assertions behind one another, and behind what reads, in what a look-around looks for: each asks for its "
           "place in the whole text (22.2.2.4)")
    bodies = [one + other for one, other in itertools.product(EDGE_PIECES, repeat=2)]
    bodies += ["".join(each) for each in itertools.product(EDGE_ASSERTIONS, repeat=3)]
    bodies += [f"{one}|{other}" for one, other in itertools.product(EDGE_PIECES[1:], repeat=2)]
    looks = ("(?={})", "(?!{})", "(?<={})", "(?<!{})")
    forms = [*looks, *(f"^(?:[^]{look})+$" for look in looks), *(f"^(?:{look}[^])+$" for look in looks)]
    rows = []
    for form, body in itertools.product(forms, dict.fromkeys(bodies)):
        for word in ("", "a", "-", "a-", "-a", "aa"):
            holds = [stands_behind if "(?<" in form else stands_ahead][0]
            stands = [holds(f"(?:{body})", word, place) == ("!" not in form) for place in range(len(word) + 1)]
            is_found = any(stands)
            if form[0] == "^":
                is_found = word != "" and all(stands[1:] if form.startswith("^(?:[^](") else stands[:-1])
            rows.append([form.format(body), word, is_found])
    yield searches(rows)


# What stands before a text and behind it, where a pattern is written between signs, in quotation marks or as a line.
AROUND_PATTERNS = (
    ("/", "/"), ("m/", "/"), ("s/", "/b/"), ("qr/", "/"), ("r\"", "\""), ("r'", "'"), ("@\"", "\""), ("<", ">"),
    ("\u00ab", "\u00bb"), ("\u2018", "\u2019"), ("\u201c", "\u201d"), ("`", "`"), ("\"", "\","), ("#", "#i"),
    ("//", ""), ("//", "//"), ("/ ", " /"), ("", ";"), ("", "\n"), ("", "\r\n"), ("", "\n\n"), ("\n", "\n"), ("", "\0"),
    ("", "\u001a"), ("\ufeff", ""), ("\ufeff", "\ufeff"), ("u/", "/"), ("&", ";"), ("%", "%"), ("=", ""), ("!", ""),
    ("~", ""), ("regex:", ""), ("re:", ""), ("#", ""), ("-- ", ""), ("\u2028", "\u2028"))


def wrapped_rows():
    """Patterns between signs that other notations write around one."""
    yield ("the whole text is the pattern: solidi, letters behind them, quotation marks, blanks, ends of lines and "
           "comment signs around it stand for themselves")
    signs = [sign for sign in ASCII if sign not in SYNTAX or sign == "/"]
    wraps = [*AROUND_PATTERNS, *(pair for sign in signs for pair in ((sign, sign), ("", sign), (sign, "")))]
    wraps += [("/", f"/{flag}") for flag in (*LETTERS, "gi", "im", "gimsuy", "u8")]
    wraps = list(dict.fromkeys(wraps))
    rows = []
    for before, behind in wraps:
        whole = f"{before}a{behind}"
        rows += [[whole, text, whole in text] for text in ("a", whole, whole[1:], whole[:-1], f"b{whole}b")]
        rows += [[f"{before}^{behind}", "", whole == "a"], [f"^{before}a{behind}$", whole, True],
                 [f"^{before}a{behind}$", "a", False], [f"{before}\\n{behind}", f"{before}\n{behind}", True],
                 [f"{before}\\n{behind}", "\n", (before, behind) == ("", "")]]
    yield searches(rows)
    yield "a quantifier behind such a sign first in the pattern is one of the sign, and a group does not reach over it"
    right = [f"{before}{sign}a{behind}" for before, behind in wraps if before for sign in ("*", "+?", "{2}")]
    right += [f"{before}(a){behind}{quantifier}" for before, behind in wraps if behind for quantifier in ("?", "{1,}")]
    wrong = [form.format(*wrap) for wrap in wraps for form in ("{}({}", "{}){}", "({}a{}", "{}**{}", "{}[{}", "{}({}?)")
             if form != "{}({}?)" or wrap[1] == ""]
    for of in (PATTERNS, WHOLE_PATTERNS):
        yield texts(of, right, lambda text: True)
        yield texts(of, wrong, never)
    yield refusals("it has a back reference", [f"{before}\\1{behind}" for before, behind in wraps])
