"""Terms, quantifiers, classes and pieces of patterns at each place where they may stand."""
import itertools
import re

from rows.grammars.common import (DIGITS, MANY_TIMES, MORE_STEPS, MORE_STEPS_OF_ALL, MORE_TIMES, MOST_STEPS_OF_ALL,
                                  MOST_TIMES, WHITE_SPACE, in_forms, long_searches, never, refusals, searches, texts)
from rows.grammars.properties import LINE_ENDS, PATTERNS, class_rows, is_no_word, is_surrogate, is_word
from rows.grammars.looks import in_python
from rows.grammars.limits import NOT_A_PATTERN, REASONS
from rows.grammars.whole_patterns import WHOLE_PATTERNS

# Terms that read a `b` in each match, and terms that do not.
NEEDING = [
    "b", "[b]", "[b-b]", "\\x62", "[^b]", "[bd]", "[bb]", "[bb-d]", "[ab]", "[a-b]", "[b-d]", ".", "", "^", "\\b",
    "b?", "b*", "b+", "b{0}", "b{1}", "b{2}", "b{0,}", "b{1,}", "b{0,0}", "b{0,1}", "b{1,2}", "(?:b)?", "(?:b|)",
    "(?:|b)", "(?:ab)*", "(?:b|c)", "(?:c|b)", "(?:bc|cb)", "(?:b|bc)", "(?=b)", "(?!b)", "(?<=b)", "(?<!b)",
    "(?=ab)", "(?!ab)", "(?<=ab)", "(?<!ab)", "(?=.*b)", "(?!.*b)", "\u00e9", "[b\u00e9]"]
# What stands beside them, and long texts of each, with a `b` or without.
NEEDED = [
    "{}", "{}|[ac]", "[ac]|{}", "{}|c", "c|{}", "^a*{}$", "(?:{}|[ac])$", "(?:[ac]|{}){{2}}$", "{}(?=c$)", "(?<=^a){}"]
LONG_TEXTS = ["a" * 130, "a" * 130 + "b", "b" + "a" * 130, "a" * 130 + "c", "a" * 70 + "b" + "a" * 70, "\u00e9" * 65]


def needed_rows():
    """Searches of long texts for what each match reads, or does not."""
    yield ("terms that read a character in each match, or do not, alone and beside others, in texts of more than 128 "
           "bytes that have it and that lack it")
    patterns = [form.format(term) for form in NEEDED for term in NEEDING]
    told = {pattern: re.compile(in_python(pattern), re.ASCII) for pattern in patterns}
    rows = []
    for pattern, found in told.items():
        for text in LONG_TEXTS:
            parts = [[letter, len(list(run))] for letter, run in itertools.groupby(text)]
            rows.append([[[pattern, 1]], parts, found.search(text) is not None])
    lacking = ("\\p{Lu}", "[\\p{Lu}b]", "[b\\p{Lu}]", "\\P{Ll}", "[^b]b?")
    yield long_searches(rows + [[[[pattern, 1]], [["A", 130]], True] for pattern in lacking])


def many_rows():
    """Many names, look-arounds, marks and places."""
    yield "names of groups of many characters, which differ in the last or in none, and many of them"
    names = ["a" * size for size in (15, 16, 17, 31, 32, 33, 63, 64, 127, 128, 129, 255, 256, 257, 900)]
    expected = {f"(?<{name}>x)(?<{name[:-1]}{last}>y)": last == "b" for name in names for last in "ab"}
    many = "".join(f"(?<n{number}>)" for number in range(150))
    expected |= {many: True, f"{many}(?<n150>)": True, f"{many}(?<n149>)": False, f"(?<n149>){many}": False,
                 f"(?<n75>){many}": False, "(?<a>x){0}(?<a>y)": False, "(?<a>x){0}(?<b>y)": True,
                 "(?:(?<a>x)){0}(?<a>y)": False, "(?!(?<a>x))(?<a>y)": False, "(?<!(?<a>x))(?<a>y)": False,
                 "(?<a>x)(?!(?<a>y))": False, "(?<a>x){2}": True, "(?:(?<a>x)){3,}": True}
    for of in (PATTERNS, WHOLE_PATTERNS):
        yield texts(of, expected, expected.get)
    references = {f"{many}\\k<n{number}>": number < 150 for number in (0, 1, 74, 75, 148, 149, 150, 151)}
    references |= {f"{many}\\{number}": number < 151 for number in (1, 2, 9, 10, 99, 100, 149, 150, 151, 152, 1500)}
    references |= {
        "(a){0}\\1": True, "(?:(a)){0}\\1": True, "(a){0}\\2": False, "(?<a>x){0}\\k<a>": True, "(?!(a))\\1": True,
        "\\1(?!(a))": True, "(?<!(?<n>a))\\k<n>": True, "(?!(?<n>a))\\k<n>": True, "(?:(?<n>a)|b)\\k<n>": True,
        "(?:(?<n>a)|\\k<n>)": True, "((?<n>a))\\2": True, "((?<n>a))\\3": False, "(?:(?<n>a))\\2": False,
        "(?<a\\u{00000062}>)\\k<ab>": True, "(?<ab>)\\k<\\u{000061}\\u0062>": True, "(?<ab>)\\k<\\u0061>": False}
    yield texts(WHOLE_PATTERNS, references, references.get)
    yield refusals("it has a property that is not known here",
                   [form.format("x" * size) for size in (28, 29, 32, 33, 64, 65, 128, 256, 900)
                    for form in ("\\p{{{}}}", "[\\P{{{}}}]", "\\p{{gc={}}}", "\\p{{{0}={0}}}")])
    yield "look-arounds for many characters, and loops that go round often"
    rows = []
    for times in (128, 255, 256, 257, 1000):
        for more in (0, 1):
            run = [["x", 1], ["a", times - more]]
            rows += [[[[f"(?<=a{{{times}}})b", 1]], [*run, ["b", 1]], not more],
                     [[[f"(?<=xa{{1,{times - 1}}})b", 1]], [*run, ["b", 1]], bool(more)],
                     [[[f"x(?=a{{{times}}})", 1]], run, not more], [[[f"x(?!a{{{times}}})", 1]], run, bool(more)],
                     [[[f"^xa{{{times}}}$", 1]], run, not more]]
    for times in (255, 256, 257, 65_535, 65_536):
        for end in "bc":
            rows += [[[["^(?:a|ab)*b$", 1]], [["a", times], [end, 1]], end == "b"],
                     [[["^[^b]*b$", 1]], [["\u00e9", times], [end, 1]], end == "b"],
                     [[["^(?:(?!ac).)*$", 1]], [["a", times], [end, 1]], end == "b"]]
    yield long_searches(rows)
    yield "many groups side by side, and many look-arounds of each kind in one pattern and in one part of it"
    rows = []
    for times in (63, 64, 65, 128, 129, 251, 300):
        rows += [[[["(a)", times]], [["a", times - more]], not more] for more in (0, 1)]
        rows += [[[["^", 1], [f"(?={'.' * 2}a*)", min(times, 129)], ["a{3}", 1]], [["a", 2 + more]], bool(more)]
                 for more in (0, 1)]
        looks = [["(?<=xa)(?=ab)", 1], ["(?=ab)(?<=xa)", min(times, 140)], ["ab", 1]]
        rows += [[looks, [["x", 1], ["a", 2], [last, 1]], last == "b"] for last in "bc"]
        rows += [[[[f"(?:(?<=ab)(?=ab)ab){{{min(times, 200) - more}}}$", 1]], [["ab", min(times, 200)]], bool(more)]
                 for more in (0, 1)]
        for one in "bc":
            beside = ["(?<=aa)(?=bb)b", 1]
            rows.append([[["^aa", 1], [f"(?={one})", min(times, 140)], beside], [["aabb", 1]], one == "b"])
    yield long_searches(rows)
    yield "the last of several look-aheads at the front, that looks for what is not there"
    rows = []
    for times in (1, 2, 3, 4, 5, 7, 8, 9, 10, 16, 17, 33):
        for last in "bc":
            rows.append([[["^", 1], ["(?=a*b)", times], [f"(?=a*{last})a", 1]], [["aaab", 1]], last == "b"])
            rows.append([[["^", 1], ["(?!a*c)", times], [f"(?!a*{last})a", 1]], [["aaab", 1]], last == "c"])
    yield long_searches(rows)
    yield "many alternatives, and in the whole grammar many groups"
    rows = []
    for times in (63, 64, 65, 127, 128, 129, 254, 255, 256, 257, 999):
        rows += [[[["a|", times], ["b", 1]], [[letter, 1]], letter != "c"] for letter in "abc"]
        between = ["b|", min(times, 990)]
        rows += [[[["^(?:a|", 1], between, ["c)$", 1]], [[letter, 1]], letter != "d"] for letter in "abcd"]
        rows += [[[["^(?:", 1], ["|", times], ["c)$", 1]], [[letter, 1]], letter == "c"] for letter in "ac"]
    yield long_searches(rows)
    right, wrong = [], []
    for times in (127, 128, 255, 256, 65_535, 65_536):
        right.append([[f"\\{times}", 1], ["()", times]])
        wrong.append([["()", times], [f"(?:)\\{times + 1}", 1]])
    yield {"ask": "long texts", "of": WHOLE_PATTERNS, "yes": right, "no": wrong}, len(right) + len(wrong)
    yield "what looks far both ways, at places of texts of many thousand characters"
    rows = []
    for far in (255, 256, 257, 511, 512, 513, 1023, 1024, 1025, 4096, 65_536):
        for letter, found in (("d", True), ("x", False)):
            rows += [[[["(?<=ab)(?=cd)", 1]], [["x", far], ["abc", 1], [letter, 1], ["x", 3]], found],
                     [[["(?<=ab)(?=cd)", 1]], [["x", 3], ["abc", 1], [letter, 1], ["x", far]], found],
                     [[["^(?:(?!abcd)(?<!cdxab).)*$", 1]], [["x", far], ["abc", 1], [letter, 1], ["x", 3]], not found],
                     [[["(?<=^ab.*)(?=cd$)", 1]], [["ab", 1], ["x", far], ["c", 1], [letter, 1]], found]]
    yield long_searches(rows)


# Quantifiers, each with the least and the greatest number of times; `None` where there is no greatest.
TIMES = {"*": (0, None), "+": (1, None), "?": (0, 1), "{0}": (0, 0), "{1}": (1, 1), "{2}": (2, 2), "{3}": (3, 3),
         "{0,}": (0, None), "{1,}": (1, None), "{2,}": (2, None), "{0,1}": (0, 1), "{0,2}": (0, 2), "{1,2}": (1, 2),
         "{2,2}": (2, 2), "{2,3}": (2, 3), "{3,4}": (3, 4)}
# No text of the rows of these quantifiers has as many letters.
MANY_LETTERS = 14


def numbers_of(quantifier):
    """How many times a quantifier takes what is before it, up to so many."""
    least, greatest = TIMES[quantifier]
    return range(least, (MANY_LETTERS if greatest is None else greatest) + 1)


def sums_of_rounds(inner, outer):
    """How many letters rounds of so many letters take together, up to so many."""
    found, after = set(), {0}
    for rounds in range(max(outer) + 1):
        if rounds in outer:
            found |= after
        after = {one + other for one in after for other in inner if one + other <= MANY_LETTERS}
    return found


def repeated_count_rows():
    """A quantifier behind a group with each quantifier, and lazy quantifiers."""
    yield "each quantifier behind a group that has each: how many letters it takes are sums of those of its rounds"
    rows = []
    for inner, outer in itertools.product(TIMES, repeat=2):
        taken = sums_of_rounds(numbers_of(inner), numbers_of(outer))
        rows += [[f"^(?:a{inner}){outer}$", "a" * size, size in taken] for size in range(10)]
    yield searches(rows)
    yield "two terms of one letter in a row, which take the sums of what each takes, and as alternatives what one takes"
    rows = []
    for one, other in itertools.product(("", *TIMES), repeat=2):
        first, second = ({*numbers_of(quantifier or "{1}")} for quantifier in (one, other))
        sums = {number + behind for number in first for behind in second}
        for size in range(9):
            rows += [[f"^a{one}a{other}$", "a" * size, size in sums],
                     [f"^(?:a{one}|a{other})$", "a" * size, size in first | second]]
    yield searches(rows)
    yield "a lazy quantifier takes as many as a greedy one, where what follows asks for them (22.2.2.3)"
    rows = []
    for quantifier, size in itertools.product(TIMES, range(6)):
        stands, twice = size in numbers_of(quantifier), 2 * size in numbers_of(quantifier)
        letters = "a" * size
        rows += [[f"^a{quantifier}?$", letters, stands], [f"^a{quantifier}?b?$", f"{letters}b", stands],
                 [f"^(?:a{quantifier}?)$", letters, stands], [f"^(?:ab){quantifier}?$", "ab" * size, stands],
                 [f"^(?:a|b){quantifier}?$", "ba" * size, twice], [f"b(?=a{quantifier}?$)", f"b{letters}", stands],
                 [f"(?<=^a{quantifier}?)b", f"{letters}b", stands]]
    yield searches(rows)
    yield "each quantifier in groups, in look-arounds and behind a bar"
    rows = []
    for quantifier, size in itertools.product(TIMES, range(6)):
        stands, letters = size in numbers_of(quantifier), "a" * size
        rows += [[f"^(a{quantifier})$", letters, stands], [f"^(?<n>a{quantifier})$", letters, stands],
                 [f"^(?:b|a{quantifier})$", letters, stands], [f"^b$|^a{quantifier}$", letters, stands],
                 [f"^b|ca{quantifier}$", f"c{letters}", stands], [f"b(?=a{quantifier}$)", f"b{letters}", stands],
                 [f"b(?!a{quantifier}$)", f"b{letters}", not stands], [f"(?<=^a{quantifier})b", f"{letters}b", stands],
                 [f"(?<!^a{quantifier})b", f"{letters}b", not stands],
                 [f"b(?=c|a{quantifier}$)", f"b{letters}", stands],
                 [f"^(?=a{quantifier}$)", letters, stands], [f"(?<=^b|^a{quantifier})c", f"{letters}c", stands]]
    yield searches(rows)


# What matches nothing, and what it is in the notation of Python.
NEVER_MATCHED = {"[]": "(?!)", "(?:[])": "(?!)", "(?:(?!))": "(?!)", "(?:(?<!))": "(?!)", "\\p{Cs}": "(?!)",
                 "\\P{Any}": "(?!)", "[\\P{Any}]": "(?!)", "(?:[]a)": "(?!)", "(?:$a)": "(?:\\Za)"}


def never_rows():
    """What matches nothing, with each quantifier, alone and beside others."""
    yield "what matches nothing, with each quantifier, alone and beside others: no time of it is a match"
    rows = []
    for (written, inner), quantifier in itertools.product(NEVER_MATCHED.items(), ("", *TIMES)):
        for form in ("^{}$", "^{}a$", "^(?:{}|a)*$", "a|b{}"):
            in_notation = form.format(f"(?:{inner}){quantifier}").replace("$", "\\Z")
            rows += [[form.format(written + quantifier), word, re.search(in_notation, word) is not None]
                     for word in ("", "a", "b")]
    yield searches(rows)


# What may stand around most of a pattern, and its steps.
AROUND_STEPS = {
    "({})": 0, "(?:{})": 0, "(?<n>{})": 0, "((?:{}))": 0, "(?:{})*": 2, "(?:{})+": 2, "(?:{})?": 3, "(?:{})*?": 2,
    "(?:{})+?": 2, "(?:{})??": 3, "({})*": 2, "(?<={})": 2, "(?<!{})": 2, "(?={})": 2, "(?!{})": 2, "x|{}": 4,
    "{}|x": 4, "x|{}|y": 6, "(?:x|{})": 4, "(?:{}|x)*": 6, "(?:{}|)": 3, "(?:|{})": 3}


def large_rows():
    """Terms of nearly all steps of a pattern, and many of what has no limit of its own."""
    yield ("what no count stands behind takes as many steps as the whole pattern may, in groups, look-arounds, "
           "alternatives and loops; what stands 0 times takes none")
    taken, refused = [], []
    for form, steps in AROUND_STEPS.items():
        left = MOST_STEPS_OF_ALL - 2 * MANY_TIMES - steps
        for more, patterns in enumerate((taken, refused)):
            patterns.append(form.format(f"a{{{MANY_TIMES}}}b{{{MANY_TIMES}}}c{{{left + more}}}"))
    above = f"(?:a{{{MOST_TIMES}}}b{{{MOST_TIMES}}}c{{{MOST_TIMES}}})"
    yield refusals("taken", [*taken, *(f"{above}{times}x" for times in ("{0}", "{00}", "{0}?", "{0,0}", "{0,0}?"))])
    yield refusals(MORE_STEPS_OF_ALL, refused)
    counted = [f"{above}{times}" for times in ("{1}", "{0,1}", "{0,}")]
    yield refusals(MORE_STEPS, counted)
    yield "as many groups, names, alternatives, digits and members of a class as a pattern of 2,000 characters may have"
    many = [chr(0x4E00 + 2 * place) for place in range(1990)]
    members = "".join(many)
    named = "".join(f"(?<n{number}>)" for number in range(220))
    yield refusals("taken", ["()" * 1000, "(?:)" * 500, "(?=)" * 200, "(?<!)" * 200, "|" * 849, "a|" * 800, "^" * 2000,
                             "[]" * 1000, "a?" * 1000, named, f"[{members}]", f"[^{members}]", f"[{'a' * 1998}]"])
    rows = [[f"^[{members}]$", one, one in many] for one in (many[0], many[999], many[-1], chr(0x4E01))]
    yield searches(rows + [[f"^\\u{{{'0' * zeros}41}}[\\u{{{'0' * zeros}1F600}}]$", "A\U0001f600", True]
                           for zeros in (7, 14, 30, 900)])


# Where a piece of a pattern may stand.
PLACES_OF_REASONS = (
    "({})", "(?:{})", "(?<m>{})", "(?={})", "(?!{})", "(?<={})", "(?<!{})", "a|{}", "(a|{})", "|{}", "(?<m>a){}",
    "(a){}", "a*{}", "a{{2}}?{}", "a?{}", "^{}", "\\b{}", "(?=a){}", "(?<!a){}", "[^a]{}", "\\d{}", "\\u0041{}",
    "\\p{{L}}{}", "(?=a|{})", "(?<!(?:{}))", "(?:(?<m>a)|b(?=c{}))", "\u00e9{}", "\U0001f600{}")


def placed_reason_rows():
    """Each reason for which a pattern is not taken, wherever a term may stand."""
    yield "each reason for which a pattern is not taken, in each place where a term may stand"
    for piece, why in REASONS.items():
        yield refusals(why, in_forms(PLACES_OF_REASONS, [piece]))
    large = [f"(?:abc){times}" for times in ("{1734}", "{1734,}", "{0,1734}", "{1734,1734}?")]
    yield refusals(MORE_STEPS, in_forms(PLACES_OF_REASONS, large))
    above = [f"a{times}" for times in ("{5001}", "{5001,}", "{1,5001}", "{05001}")]
    above += [f"{term}{times}" for term in ("a*", "a{2}", "a??", "^", "\\b", "(?=a)", "(?<=a)", "a|", "")
              for times in ("{5001}", "{5001,}", "{1,5001}")]
    yield refusals(MORE_TIMES, in_forms(PLACES_OF_REASONS, above))
    openings = ("(", "(?:", "(?<n>", "(?=", "(?!", "(?<=", "(?<!")
    behind = [f"{before}{opening}a" for before in ("a", "a|", "a*", "a{2}?", "^", "(?=a)", "[^a]")
              for opening in openings]
    yield refusals("its groups are more than 250 deep", [f"{'(' * 250}{piece}" for piece in behind])


# Members of classes as they are written, with their code points, in the order of these; and some of each kind.
CLASS_MEMBERS = {
    "\\0": 0, "\\cA": 1, "\\x05": 5, "\\b": 8, "\\t": 9, "\\n": 0xA, "\\v": 0xB, "\\f": 0xC, "\\r": 0xD, "\\cz": 0x1A,
    "!": 0x21, "+": 0x2B, "\\-": 0x2D, "\\/": 0x2F, "0": 0x30, "A": 0x41, "\\x5A": 0x5A, "\\[": 0x5B, "\\\\": 0x5C,
    "\\]": 0x5D, "\\^": 0x5E, "b": 0x62, "\\u007A": 0x7A, "\\{": 0x7B, "\\u{7F}": 0x7F, "\u00e9": 0xE9,
    "\\u0800": 0x800, "\u4e00": 0x4E00, "\uffff": 0xFFFF, "\\ud83d\\ude00": 0x1F600, "\U0001f608": 0x1F608,
    "\\u{10FFFF}": 0x10FFFF}
MEMBERS_OF_KINDS = {"\\b", "\\r", "\\-", "A", "\\u0800", "\U0001f608"}


def near_points(*points):
    """The characters of some code points and of those beside them."""
    near = sorted({point + off for point in points for off in (-1, 0, 1)})
    return [chr(point) for point in near if 0 <= point <= 0x10FFFF and not is_surrogate(point)]


def class_member_rows():
    """Ranges between members of a class, and each member alone, in classes that are negated or not."""
    yield "ranges by how their ends are written, and what lies in them, in a class and a negated one"
    rows = []
    for (low, first), (high, last) in itertools.combinations(CLASS_MEMBERS.items(), 2):
        if MEMBERS_OF_KINDS & {low, high}:
            for character in near_points(first, (first + last) // 2, last):
                is_between = first <= ord(character) <= last
                rows += [[f"^[{low}-{high}]$", character, is_between],
                         [f"^[^{low}-{high}]$", character, not is_between]]
    yield searches(rows)
    yield "each member of a class by its spelling, before and behind others, in a class and a negated one"
    rows = []
    for member, point in CLASS_MEMBERS.items():
        for form, others in {"{}": "", "{}c-d": "cd", "c-d{}": "cd", "{0}{0}": "", "-{}": "-", "{}-": "-"}.items():
            contents = form.format(member)
            for character in dict.fromkeys((*near_points(point), member[-1], *"cd-")):
                is_member = character in chr(point) + others
                rows += [[f"^[{contents}]$", character, is_member], [f"^[^{contents}]$", character, not is_member]]
    yield searches(rows)
    yield "ranges upside down, and sets at their ends, in a negated class"
    for of in (PATTERNS, WHOLE_PATTERNS):
        for line in class_rows():
            if not isinstance(line, str) and line[0]["ask"] == "texts":
                negated = {key: [text.replace("[", "[^", 1) for text in line[0][key]] for key in ("yes", "no")}
                yield {**line[0], **negated, "of": of}, line[1]
    yield from dash_rows()


# Classes with a dash behind a backslash: those that are patterns, and those that are none.
ESCAPED_DASHES = {
    "[z\\-a]": 1, "[\\d\\-a]": 1, "[a\\-\\d]": 1, "[\\-\\-]": 1, "[\\--\\/]": 1, "[^z\\-a]": 1, "[z\\-\\-a]": 1,
    "[a-z\\-a]": 1, "[z\\--a]": 1, "[\\p{L}\\-a]": 1, "[\\uD83D\\uDE01\\-\\uD83D\\uDE00]": 1, "[\\/-\\-]": 0,
    "[a-\\-]": 0, "[z-\\-]": 0, "[^a-\\-]": 0, "[\\--\\d]": 0, "[\\d-\\-]": 0}
# What such a class has.
HAVING_DASHES = {"a\\-z": "a-z", "\\-z": "-z", "a\\-": "a-", "+\\--/": "+-./", "a-c\\-e": "abc-e", "\\d\\-z": "0-z",
                 "a\\-c-e": "a-cde"}


def dash_rows():
    """Classes with a dash behind a backslash."""
    yield "a dash behind a backslash is a member of a class, and no sign of a range"
    for of in (PATTERNS, WHOLE_PATTERNS):
        yield texts(of, ESCAPED_DASHES, ESCAPED_DASHES.get)
    yield searches([[f"^[{contents}]$", character, character in having]
                    for contents, having in HAVING_DASHES.items() for character in "+,-./0abcdez"])


# Sets that a class may have, each with what it has.
SETS_OF_CLASSES = {
    "\\d": lambda one: one in DIGITS, "\\D": lambda one: one not in DIGITS, "\\w": is_word, "\\W": is_no_word,
    "\\s": lambda one: one in WHITE_SPACE, "\\S": lambda one: one not in WHITE_SPACE, "\\p{L}": str.isalpha,
    "\\P{L}": lambda one: not one.isalpha(), "\\P{Lu}": lambda one: not one.isupper(),
    "\\P{sc=Grek}": lambda one: one != "\u03a9", "b-f": lambda one: one in "bcdef"}


def set_pair_rows():
    """Each two sets in a class."""
    yield "two sets in a class: it has what one of them has, and a negated class what none has"
    rows = []
    for (one, has), (other, also) in itertools.product(SETS_OF_CLASSES.items(), repeat=2):
        for character in "aB0_ \u00e9\u03a9\u0660\u2028":
            is_member = has(character) or also(character)
            rows += [[f"^[{one}{other}]$", character, is_member], [f"^[^{one}{other}]$", character, not is_member]]
    yield searches(rows)


# Where a term may stand; atoms of each kind; assertions; and quantifiers.
PLACES_OF_TERMS = (
    "{}", "({})", "(?:{})", "(?<m>{})", "(?={})", "(?!{})", "(?<={})", "(?<!{})", "a|{}", "{}|a", "a{}", "a*{}",
    "a{{2}}?{}", "^{}", "(?=a){}", "((?={}))", "(?:a|{})*")
ATOMS_OF_KINDS = (
    "a", "/", "\u00e9", "\U0001f600", ".", "\\d", "\\D", "\\s", "\\W", "\\f", "\\n", "\\v", "\\0", "\\cA", "\\x41",
    "\\u0041", "\\ud83d\\ude00", "\\u{41}", "\\p{L}", "\\P{sc=Latn}", "\\/", "\\^", "[a]", "[^]", "[]", "(a)", "(?:a)",
    "(?<n>a)", "()", "(?:)", "(?:^)", "(?:\\b)", "((?=a))", "(?:(?<!a))", "(?:a*)", "(?:a?)", "(?:a{2})", "(?:a{0})",
    "(|a)")
ASSERTIONS = ("^", "$", "\\b", "\\B", "(?=a)", "(?!a)", "(?<=a)", "(?<!a)", "(?=)", "(?<!)")
FEW_QUANTIFIERS = ("*", "+", "?", "{2}", "{0}", "{1,}", "{0,2}")


def placed_term_rows():
    """Each quantifier behind each kind of atom, and behind each assertion, wherever a term may stand."""
    greedy = [f"{atom}{quantifier}" for atom in ATOMS_OF_KINDS for quantifier in FEW_QUANTIFIERS]
    repeated = [f"{assertion}{quantifier}" for assertion in ASSERTIONS for quantifier in FEW_QUANTIFIERS]
    falling = ["a{2,1}", "a{1,0}?", "(?:a){10,9}", "a{1000,999}"]
    yield "a quantifier, greedy or lazy, may stand behind each kind of atom, and no second one behind that"
    for of in (PATTERNS, WHOLE_PATTERNS):
        yield texts(of, in_forms(("{}", "{}?"), greedy), lambda text: True)
        yield texts(of, in_forms(("{}*", "{}+", "{}??", "{}{{2}}", "{}?{{2}}"), greedy), never)
    yield "no quantifier stands behind an assertion, and no count falls, wherever a term may stand"
    for of in (PATTERNS, WHOLE_PATTERNS):
        yield texts(of, in_forms(PLACES_OF_TERMS, (*ASSERTIONS, "a{1,2}")), lambda text: True)
        yield texts(of, in_forms(PLACES_OF_TERMS, repeated + falling), never)


# Pieces that make a pattern, and pieces that make none.
RIGHT_PIECES = (
    "a", "\u00e9", "\U0001f600", "/", "\\/", "\\^", "\\0", "\\cA", "\\x41", "\\u0041", "\\u{41}", "\\ud83d\\ude00",
    "\\p{L}", "\\P{sc=Latn}", "\\p{scx=Grek}", "[]", "[^]", "[\\d-]", "[^\\-]", "[a-b-c]", "[\\b]", "()", "(?:)",
    "(?=)", "(?<!)", "(?<n>a)", "(?<$>a)", "(?<\\u0061>a)", "(?<\u00e9>a)", "(?<a\u200d>a)", "a{2,3}?", "a{0}",
    "a{1,}", "\\b", "\\B", "^", "$", "|", "a|b")
WRONG_PIECES = (
    "\\-", "\\a", "\\_", "\\ ", "\\\u00e9", "\\9", "\\k", "\\k<a>", "\\c", "\\c1", "\\c_", "\\x", "\\x4", "\\xg1",
    "\\u", "\\u004", "\\u{}", "\\u{110000}", "\\u{g}", "\\u{41", "\\00", "\\01", "\\p", "\\pL", "\\p{}", "\\p{X}",
    "\\p{gc=X}", "\\p{sc=L}", "\\p{lu}", "\\P{Latin}", "[b-a]", "[^b-a]", "[\\d-a]", "[a-\\w]", "[\\B]", "[\\a]",
    "[\\c]", "[\\c1]", "[\\x4]", "[\\u{}]", "[\\u{110000}]", "[\\p{X}]", "[^\\P{X}]", "[\\00]", "[\\1]", "[\\k]", "[",
    "[a", "(", "(?", "(?:", "(?<", "(?<a", "(?<>a)", "(?<1>a)", "(?<a-b>a)", "(?<a b>a)", "(?<\\u0031>a)",
    "(?<\\x61>a)", "(?<\\ud835>a)", "(?<n>a)(?<n>b)", "(?P<a>b)", "(?a)", "(?i:a)", "(?#a)", "(?>a)", "(?|a)", "]", "}",
    "a]", "a}", "a{", "a{}", "a{,1}", "a{1", "a{1,2", "a{a}", "a{1 }", "a{ 1}", "a{1, 2}", "a**", "a*+", "a?*", "a???",
    "a{1}{1}", "|*", "(*a)", "(?:+)")
# Pieces that the whole grammar has, and the engine does not take.
WHOLE_PIECES = (
    "(b)\\1", "\\1(b)", "(?<n>b)\\k<n>", "\\k<n>(?<n>b)", "\\ud83d", "\\ude00", "\\u{D83D}", "[\\ud83d]",
    "[^\\ude00-\\udfff]", "\\ude00\\ud83d", "\\p{CWKCF}", "[\\P{CWKCF}]", "a{5001}", "a{5001,}",
    "a{0,4294967296}", "(?:a{1000}){1000}")
# The reasons that are told of some of the pieces that make no pattern; of the others none is.
TOLD_PIECES = tuple("\\- \\_ \\9 \\k \\k<a> \\p{X} \\p{gc=X} \\p{sc=L} \\p{lu} \\P{Latin} [\\p{X}] [^\\P{X}]".split())


def placed_piece_rows():
    """Pieces that make a pattern and pieces that make none, wherever a term may stand."""
    yield "pieces that make a pattern and pieces that make none, in each place where a term may stand"
    for of in (PATTERNS, WHOLE_PATTERNS):
        yield texts(of, in_forms(PLACES_OF_TERMS, RIGHT_PIECES), lambda text: True)
        yield texts(of, in_forms(PLACES_OF_TERMS, WRONG_PIECES), never)
    untold = [piece for piece in WRONG_PIECES if piece not in TOLD_PIECES]
    yield refusals(NOT_A_PATTERN, in_forms(PLACES_OF_TERMS, untold))
    yield texts(PATTERNS, in_forms(PLACES_OF_TERMS, WHOLE_PIECES), never)
    yield texts(WHOLE_PATTERNS, in_forms(PLACES_OF_TERMS, WHOLE_PIECES), lambda text: True)


# Atoms of one character, with what each matches; and patterns that match the whole of a text by what one of its
# characters is, with the text beside that, and whether the atom is to match it.
READERS = {
    "a": "a", "\u00e9": "\u00e9", "\\x41": "A", "\\u00e9": "\u00e9", "\\u2028": "\u2028", "\\u{1F600}": "\U0001f600",
    "\\ud83d\\ude00": "\U0001f600", "\\0": "\0", "\\cJ": "\n", "\\n": "\n", "\\t": "\t", "\\/": "/", "[\\b]": "\b",
    "[]": "", "[a-c]": "abc", "(?:a|b|c|d)": "abcd", "(a|[bc]|\\x64)": "abcd", "(?:a|b|c|\\d|/)": "abc0/", "\\d": "0"}
TRIED = "abcdnt0_A/- \0\b\t\n\u00e9\u2028\u0660\u03a9\ufffd\U0001f600"
READERS |= {name: "".join(one for one in TRIED if has(one)) for name, has in SETS_OF_CLASSES.items() if name[0] == "\\"}
READERS |= {name: "".join(one for one in TRIED if one not in without_it) for name, without_it in {
    ".": LINE_ENDS, "[^]": "", "[^a-c]": "abc", "[^\\b\\n]": "\b\n", "[^\\d\\u00e9]": "0\u00e9", "[^a-]": "a-"}.items()}
READINGS = {
    "^{}$": ("{}", 1), "^({})$": ("{}", 1), "^(?:{})$": ("{}", 1), "^(?<n>{})$": ("{}", 1), "^x|^{}$": ("{}", 1),
    "^(?:xy|{})$": ("{}", 1), "^x*{}$": ("x{}", 1), "^(?:x{}){{2}}$": ("x{0}x{0}", 1), "^{}+$": ("{0}{0}", 1),
    "^(?={})[^]$": ("{}", 1), "^(?!{})[^]$": ("{}", 0), "^[^](?<={})$": ("{}", 1), "^[^](?<!{})$": ("{}", 0),
    "^(?=x{}$)": ("x{}", 1), "(?<=^x{})$": ("x{}", 1), "(?<=^x|^{})$": ("{}", 1), "^(?:(?=y|({}))[^])+$": ("{0}{0}", 1)}


def reading_rows():
    """Each atom of one character, wherever a term may stand."""
    yield "each atom of one character matches the same wherever a term may stand"
    for form, (text, is_matched) in READINGS.items():
        rows = []
        for atom, having in READERS.items():
            rows += [[form.format(atom), text.format(one), (one in having) == bool(is_matched)] for one in TRIED]
        yield searches(rows)
    yield "each of several alternatives, alone, in groups and in look-arounds"
    rows = []
    for size in range(2, 7):
        either = "|".join("abcdef"[:size])
        for one in "abcdefg":
            for form in ("^({})$", "^(?:{})+$", "^(?={})[^]$", "^(?=(?:{})$)", "^[^](?<={})$", "(?<=^(?:{}))$"):
                rows.append([form.format(either), one, one in "abcdef"[:size]])
            rows += [[f"^(?!{either})[^]$", one, one not in "abcdef"[:size]],
                     [f"^[^](?<!{either})$", one, one not in "abcdef"[:size]],
                     ["|".join(f"^{letter}$" for letter in "abcdef"[:size]), one, one in "abcdef"[:size]]]
    yield searches(rows)


def captures_of(pattern):
    """How many groups of a pattern without classes capture."""
    return len(re.findall(r"\((?!\?)|\(\?<[a-z]", pattern))


def around_places(forms, group, asked):
    """What asks for a group, and the group, each in each place where a term may stand, and the other beside it."""
    patterns = []
    for place, form in itertools.product(PLACES_OF_TERMS, forms):
        patterns += [place.format(ask) + form for ask in asked] + [form + place.format(ask) for ask in asked]
        patterns += [place.format(form + ask) for ask in asked] + [place.format(form) + ask for ask in asked]
        patterns += [ask + place.format(form) + group for ask in asked]
    return patterns


def reference_rows():
    """Back references by numbers and by names, and the groups that they ask for, wherever a term may stand."""
    yield ("the whole grammar: back references by numbers up to that of all groups, and by the names of groups, "
           "wherever a term may stand")
    asked = ("\\1", "\\2", "\\3", "\\1\\2", "\\2\\1", "\\1\\3", "\\3\\1", "\\1*\\2", "\\1+")
    yield texts(WHOLE_PATTERNS, around_places(("(b)", "(?<n>b)"), "()", asked),
                lambda text: max(map(int, re.findall(r"\\([0-9])", text))) <= captures_of(text))
    asked = ("\\k<n>", "\\k<o>", "\\k<n>\\k<o>", "\\k<o>\\k<n>", "\\k<n>*\\k<o>", "\\k<n>+")
    yield texts(WHOLE_PATTERNS, around_places(("(?<n>b)", "(?<o>b)"), "(?<p>c)", asked),
                lambda text: {*re.findall(r"\\k<([a-z])>", text)} <= {*re.findall(r"\?<([a-z])>", text)})
    yield "names that stand twice, wherever a term may stand, and names that do not"
    forms = ("{}(?<n>a)", "(?<n>a){}", "(?<n>a)|{}", "(?={})(?<n>a)", "(?<n>{})", "(?:{}){{0}}(?<n>a)")
    twice = in_forms(forms, in_forms(PLACES_OF_TERMS, ["(?<n>b)"]))
    for of in (PATTERNS, WHOLE_PATTERNS):
        yield texts(of, twice, never)
        yield texts(of, [text.replace("<n>", "<p>", 1) for text in twice], lambda text: True)


def edge_character_rows():
    """Characters that are digits, halves of pairs and marks elsewhere."""
    yield "digits that are none of ASCII behind `\\0` and in counts and codes, and surrogates in braces"
    digits = "\u0660\u0661\u06f1\u0967\uff10\uff11\U0001d7ce"
    for of in (PATTERNS, WHOLE_PATTERNS):
        yield texts(of, in_forms(("\\0{}", "[\\0{}]", "(\\0){}"), digits), lambda text: True)
        yield texts(of, in_forms(("a{{{}}}", "a{{1,{}}}", "\\x4{}", "\\u004{}", "\\u{{{}}}", "\\c{}"), digits), never)
    pairs = ("\\u{D83D}\\uDE00", "\\uD83D\\u{DE00}", "\\u{D83D}\\u{DE00}", "\\u{D83D}\\x41")
    yield texts(PATTERNS, in_forms(("{}", "[{}]", "(?<a{}>x)", "[a-{}]"), pairs), never)
    yield "a byte order mark is a character like others, in a pattern and in a text"
    patterns = ("\ufeff", "^\ufeff$", "^\ufeffa", "\ufeff^", "^[\ufeff]", "^a", "\ufeff?a", "(?=\ufeff)",
                "(?<=\ufeff)a")
    yield searches([[pattern, text, re.search(pattern, text) is not None]
                    for pattern in patterns for text in ("", "\ufeff", "\ufeffa", "a", "a\ufeff")])
