"""What begins like a look-ahead, the limits of patterns, and the reasons of refusals."""
import itertools

from rows.grammars.common import (ASCII, DIGITS, LETTERS, MANY_TIMES, MORE_STEPS, MORE_STEPS_OF_ALL, MORE_TIMES,
                                  MOST_STEPS, MOST_STEPS_OF_ALL, MOST_TIMES, NEIGHBOURS, PAIRS, THREE_STEPS, TWO_STEPS,
                                  but, in_forms, long_searches, refusals, texts)
from rows.grammars.properties import PATTERNS, SYNTAX
from rows.grammars.classes import AROUND_LOOKS
from rows.grammars.looks import FAR

# Patterns that begin as a lookahead does, and whether they are taken.
LIKE_LOOKS_AHEAD = {
    "(?=": 0, "(?!": 0, "(?=a": 0, "(?!a": 0, "(?=*)": 0, "(?=a|*)": 0, "(?=a)(": 0, "(?==)": 1, "(?!!)": 1, "(?=!)": 1,
    "(?!=)": 1, "(? =a)": 0, "(?>a)": 0, "(?=\\1)": 0, "(?=[)": 0, "(?=[)])": 1, "(?=\\))": 1, "(?=a)b)": 0,
    "((?=a)": 0, "(?=(?<n>a))(?<n>b)": 0, "(?=(?<n>a))(?<m>b)": 1, "(?=^)": 1, "(?=$)": 1, "(?=a{0})": 1,
    "(?=(?:){3})": 1, "(?=(?:ab){0,0})": 1, "(?:(?=ab)){0}": 1, "(?:(?=ab)){0,0}": 1, "(?:(?=ab)){1}": 1,
    "(?:(?=ab)){0,1}": 1, "(?=)": 1, "(?!)": 1}


def ahead_syntax_rows():
    """Where a lookahead may stand."""
    yield "no quantifier follows a lookahead, and any stands in a lookbehind"
    expected = {}
    bodies = ["a", "", "a|b", "(?<n>a)", "(?=a)", "[^]", "$", "\\p{L}"]
    for sign, body in itertools.product("=!", bodies):
        for form, is_right in {**AROUND_LOOKS, "(?<={})": True}.items():
            pattern = form.format(f"(?{sign}{body})", f"(?{sign}{body})")
            expected[pattern] = is_right is not False and pattern.count("<n>") < 2
    yield texts(PATTERNS, expected, expected.get)
    yield texts(PATTERNS, LIKE_LOOKS_AHEAD, LIKE_LOOKS_AHEAD.get)
    forms = ("(?{}{})", "a|(?{}{})b", "(?:(?{}{}))*", "(?=(?{}{}))")
    yield refusals("taken", [form.format(sign, body) for body, sign, form in itertools.product(FAR, "=!", forms)])
    behind = [f"(?<=(?{sign}{body}))" for body, sign in itertools.product(FAR, "=!")]
    yield refusals("taken", behind)


# Atoms, and how many steps each takes: one for a class, and one more for each 32 ranges, of which a property counts as
# eight; one for an assertion, two around a loop and around what a lookaround looks for, three around alternatives, and
# one between more of them, but in a lookahead three around each two.
STEPS = {
    "a": 1, ".": 1, "\\d": 1, "\\D": 1, "\\w": 1, "\\W": 1, "\\s": 1, "\\S": 1, "[\\s]": 1, "[\\S]": 1,
    "[\\W]": 1, "[\\s\\S]": 1, "\\p{L}": 1, "\\P{sc=Latn}": 1, f"[{LETTERS[:31]}]": 1, f"[{LETTERS[:32]}]": 2,
    f"[{PAIRS[:31 * 3]}]": 1, f"[{PAIRS[:32 * 3]}]": 2, "[\\p{L}]": 1, f"[\\p{{L}}{LETTERS[:23]}]": 1,
    f"[\\p{{L}}{LETTERS[:24]}]": 2, "[\\p{L}\\p{N}\\p{P}]": 1, TWO_STEPS: 2, THREE_STEPS: 3,
    "[^]": 1, "[]": 1, "(?:ab)": 2, "(?:abc)": 3, "(?:a|b)": 5, "(?:a|b|c)": 7, "(?:a*)": 1, "(?:a?)": 1, "(?:a+)": 1,
    "(?:(?:ab)*)": 4, "(?:(?:ab)+)": 4, "(?:(?:ab)?)": 5, "(?:^)": 1, "(?:\\b)": 1, "(?:^a$)": 3, "(?:(?:a|b)*)": 7,
    "(?:a{7})": 7, "(?:a{0,7})": 7, "(?:(?:ab){0,2})": 10, "(?:a|)": 4, "(?:|a)": 4, "(?:(?:a|b)?)": 8, "(?:(?<=a))": 3,
    "(?:(?<!ab)c)": 5, "(?:(?<=a|b))": 7, "(?:(?<!))": 2, "(?:(?<=a{7}))": 9, "(?:(?<=(?<!a)))": 5, "(?:(?=a))": 3,
    "(?:(?!a)c)": 4, "(?:(?=a|b))": 7, "(?:(?!))": 2, "(?:(?=\\p{L}))": 3, f"(?:(?={TWO_STEPS}))": 4,
    "(?:(?=a?))": 6, "(?:(?=(?!a)))": 5,
    "(?:(?=a|b|c))": 11, "(?:(?=$))": 3, "(?:a?|b)": 5, "(?:b|a?)": 5, "(?:a?|b?|c?)": 7, "(?:(?:ab)?|c)": 9,
    "(?:c|(?:ab)?)": 9, "(?:a*|b+)": 5, "(?:|a|b)": 6, "(?:a||b)": 6, "(?:a|b|)": 6, "(?:|)": 3, "(?:||)": 4,
    "(?:a{0,1}|b)": 5, "(?:\\p{L}?|b)": 5, f"(?:{TWO_STEPS}?|b)": 6, "(?:^|a)": 5, "(?:a|b|c|d)": 9,
    "(?:\\B)": 1, "(?:$)": 1,
    "(?:(?=\\b))": 3, "(?:(?=\\B))": 3, "(?:(?=^))": 3, "(?:(?=(?:a|b)?))": 10, "(?:(?=(?:|a)))": 6, "(?:(?=a??))": 6,
    "(?:(?<=\\b))": 3, "(?:(?<=$))": 3, "(?:(?<!a|b|c))": 9, "(?:(?<=(?:ab)*))": 6, "(?:(?<=a?))": 3, "(?:(?!\\s))": 3,
    f"(?:(?!{TWO_STEPS}))": 4}
# The same of classes: each set, property and character of one counts, and so does a hyphen last or first in it.
STEPS_OF_CLASSES = {
    "\\p{Lu}": 1, "\\P{Nd}": 1, "\\p{Alphabetic}": 1, "\\P{Hex}": 1, "\\p{Any}": 1, "\\P{ASCII}": 1, "\\p{Assigned}": 1,
    "[\\p{Lu}\\p{Any}\\P{L}]": 1, "[\\p{Lu}\\p{Any}\\P{L}\\p{L}]": 2, "[^\\p{Alphabetic}\\P{sc=Grek}]": 1,
    "[^\\p{Alphabetic}\\P{sc=Grek}\\P{Hex}\\p{Lower}]": 2, "[\\P{L}]": 1, "[^\\P{L}]": 1, "[\\p{L}]": 1,
    f"[\\b\\t\\0\\cA\\x41\\u0042\\-{LETTERS[:24]}]": 1, f"[\\b\\t\\0\\cA\\x41\\u0042\\-\\]{LETTERS[:24]}]": 2,
    f"[{'a' * 31}]": 1, f"[{'a' * 32}]": 2, f"[{'a' * 63}]": 2, f"[{'a' * 64}]": 3,
    f"[{NEIGHBOURS[:31 * 3]}]": 1, f"[{NEIGHBOURS[:32 * 3]}]": 2, f"[{'a-b' * 95}]": 3, f"[{'a-b' * 96}]": 4}
# What may stand in a class, and how many ranges it counts as.
RANGES_OF_MEMBERS = {
    "\\d": 1, "\\D": 2, "\\w": 4, "\\W": 5, "\\s": 10, "\\S": 11, "\\p{ASCII}": 8, "\\P{L}": 8, "\\p{sc=Latn}": 8,
    "\\p{Lower}": 8, "-": 1, "\\-": 1, "a-b": 1, "\\s\\S": 21, "\\s\\s\\s": 30, "\\p{L}\\p{N}\\p{P}": 24, "\\w\\s": 14}
for member, ranges in RANGES_OF_MEMBERS.items():
    for sign, steps in itertools.product(("", "^"), (1, 2)):
        STEPS_OF_CLASSES[f"[{sign}{LETTERS[:30 + steps - ranges]}{member}]"] = steps
    STEPS_OF_CLASSES |= {f"[{member}{LETTERS[:31 - ranges]}]": 1, f"[{member}{LETTERS[:32 - ranges]}]": 2}
# How many steps a term with a quantifier takes: those of its copies, and of a loop or of what may be missing.
STEPS_OF_TERMS = {
    "x*": 1, "x+": 1, "x?": 1, "x{5,}": 6, "x{0,}": 1, "x{0}": 0, "x{1}": 1, "x{2,5}": 5, "x{0,3}": 3, "x{3,3}": 3,
    "x{5,}?": 6, "x{2,5}?": 5, "(?:xy)*": 4, "(?:xy)+": 4, "(?:xy)?": 5, "(?:xy){5,}": 14, "(?:xy){0,}": 4,
    "(?:xy){1,}": 4, "(?:xy){2,5}": 19, "(?:xy){0,2}": 10, "(?:xy){3,3}": 6, "(?:x|y){2,}": 17, "(?:x|y|z)+": 9,
    "(?:x|y){0,2}": 16, "\\p{L}{5,}": 6, "\\p{L}{2,5}": 5, f"{TWO_STEPS}{{5,}}": 12, f"{TWO_STEPS}{{2,5}}": 10,
    "(?:(?:xy)*){2,}": 14, "(?:x*)*": 3,
    "(?=x{0})": 2, "(?=x{0,0})": 2, "(?=x?)": 6, "(?=)": 2, "(?=^)": 3, "(?!\\p{L})": 3, f"(?!{TWO_STEPS})": 4,
    "(?<=xy)": 4, "(?<!x{5})": 7}


def limits_of_terms():
    """Each term at the most steps of a whole pattern, and a step more."""
    for term, steps in STEPS_OF_TERMS.items():
        for more in (0, 1):
            left = MOST_STEPS_OF_ALL - 2 * MANY_TIMES - steps + more
            yield f"a{{{MANY_TIMES}}}a{{{MANY_TIMES}}}{term}b{{{left}}}", not more
            yield f"a{{{MANY_TIMES}}}{term}b{{{left}}}c{{{MANY_TIMES}}}", not more
            yield f"a{{{MOST_TIMES}}}{term}b{{{MOST_STEPS_OF_ALL - MOST_TIMES - steps + more}}}", not more


def limits_of_atoms():
    """Counts of each atom at the greatest that is taken, and one more."""
    for atom, steps in {**STEPS, **STEPS_OF_CLASSES}.items():
        most = min(MOST_TIMES, MOST_STEPS // steps)
        # A class that is repeated without end is one instruction, and else two stand around the loop.
        around = 2 if atom.startswith("(") else 0
        yield f"{atom}{{{most}}}", True
        yield f"{atom}{{{most + 1}}}", False
        yield f"{atom}{{{most},}}", (most + 1) * steps <= MOST_STEPS
        yield f"{atom}{{{most - 1},}}", most * steps + around <= MOST_STEPS_OF_ALL
        yield f"{atom}{{{most - 2},}}", (most - 1) * steps + around <= MOST_STEPS_OF_ALL
        yield f"{atom}{{{most + 1},}}", False
        if steps < 3:
            most = MOST_STEPS // (3 * steps)
            yield f"(?:{atom * 3}){{{most}}}", True
            yield f"(?:{atom * 3}){{{most + 1}}}", False
    for count, zeros in itertools.product(range(MOST_TIMES - 1, MOST_TIMES + 2), ("", "0", "0" * 20)):
        for bounds in (f"{zeros}{count}", f"{zeros}{count},", f"0,{zeros}{count}", f"{zeros}{count},{count}"):
            yield f"a{{{bounds}}}", count <= MOST_TIMES


def limits_of_patterns():
    """Patterns of so many characters, of so many groups in one another, and of so many steps."""
    for letter in ("a", "\u00e9", "\U0001f600", ".", "\\d"):
        times = 2000 // len(letter)
        found_in = letter if len(letter) == 1 and letter != "." else "7"
        yield [[letter, times]], [[found_in, times]], True
        yield [[letter, times], ["b", 1]], [], None
    for opening in ("(", "(?:", "(?<=", "(?="):
        for deep, found in ((249, True), (250, True), (251, None)):
            pattern = [[opening, deep], ["a", 1], [")", deep]]
            yield pattern, [["a", 1]], found
            yield pattern + [["b", 1]], [["ab", 1]], found and opening != "(?="
    for steps in (199, 200, 201):
        found = True if steps <= 200 else None
        yield [["a{2500}", 2], [f"a{{{steps}}}", 1]], [["a", 5000 + steps]], found
        yield [["(?:ab){2500}", 1], ["c", steps]], [["ab", 2500], ["c", steps]], found
        alternatives = [["a{2500}", 1], ["|b{2500}", 1], [f"|c{{{steps - 4}}}", 1]]
        yield alternatives, [["c", steps - 4]], found
        yield [[f"{TWO_STEPS}{{2500}}", 1], ["c", steps]], [["c", 2500 + steps]], found
        yield [["a{5000}", 1], ["b", steps]], [["a", 5000], ["b", steps]], found
    # The greatest length of a text is often told by a count.
    for most in (1000, 4000, 4096, 5000):
        for form, letter in (("^.{0,%d}$", "a"), ("^[\\s\\S]{1,%d}$", "\n"), ("^[^\\r\\n]{0,%d}$", "\U0001f600"),
                             ("^[\\p{L}\\p{N} .,]{1,%d}$", "\u4e00"), ("^\\S(?:.{0,%d}\\S)?$", "\u00e9")):
            beside = 2 if "?" in form else 0
            for more in (-1, 0, 1):
                yield [[form % most, 1]], [[letter, most + beside + more]], more < 1


# What stands for itself behind a backslash without the flag `u`: ASCII but letters, digits, blanks, SyntaxCharacter
# and `/`.
NEEDLESSLY_ESCAPED = "!\"#%&',-:;<=>@_`~"
NOT_A_PATTERN = "it is no pattern of ECMA-262 in Unicode mode"
NOT_TAKEN = "it has a part of ECMA-262 that is not taken here"


def needless(character):
    """What is told of a character that stands for itself behind a backslash without the flag `u` alone."""
    return f"\\{character} is valid only without the flag u: write {character} for it"


def refusal_rows():
    """Patterns by why they are not taken, and some that are."""
    yield "why patterns are not taken"
    forms = ("\\{}", "a\\{}b", "(a)\\{}", "(?:\\{})", "a|\\{}")
    yield refusals("it has a back reference", in_forms(forms, "123456789k"))
    for character in NEEDLESSLY_ESCAPED:
        yield refusals(needless(character), in_forms(forms, character))
    yield refusals(NOT_A_PATTERN, [f"[\\{character}]" for character in NEEDLESSLY_ESCAPED if character != "-"])
    yield refusals(NOT_A_PATTERN, in_forms(forms, "agyzAGYZ \u00e9\n"))
    told = SYNTAX + NEEDLESSLY_ESCAPED + DIGITS + "bBdDfknrsStvwW"
    others = [character for character in ASCII if character not in told]
    yield refusals(NOT_A_PATTERN, in_forms(("\\{}", "(a)\\{}", "(?:\\{})", "a|\\{}"), others))
    yield refusals("taken", in_forms(forms, "/^$.*+?()[]{}|\\"))
    forms = ("(?{}a)", "a(?{})", "(?:(?{}))", "(?<n>(?{}a))", "a|(?{}b)", "(?<=(?{}a))", "(?<!a)(?{}b)")
    yield refusals("taken", in_forms(forms, ("=", "!", "<=", "<!")))
    above = ("5001}", "5001,}", "5001,5002}", "0,5001}", "5000,5001}", "6000}", "10000}", "50000}", "05001}")
    yield refusals(MORE_TIMES, [f"a{{{count}" for count in above])
    most = {atom: MOST_STEPS // steps for atom, steps in {**STEPS, **STEPS_OF_CLASSES}.items()}
    above = [f"{atom}{{{count + 1}}}" for atom, count in most.items() if count < MOST_TIMES]
    yield refusals(MORE_STEPS, above)
    # As a whole this takes fewer: from the end of a text on, two steps fewer stand in each of these look-aheads.
    yield refusals(MORE_STEPS, ["(?=de)(?:(?=a|b|c)d){434}", "(?:(?=a|b|c)d){434}(?=de)"])
    yield refusals("taken", ["(?=de)(?:(?=a|b|c)d){433}", "(?:(?=a|b|c)d){433}(?=de)"])
    # In a counted term the last term that a look-ahead looks for is counted, and nothing of a loop or a look-behind. So
    # these are small enough as counted terms, but as a whole they are not.
    ahead = {"(?:(?=abc*)x)": 1733, "(?:(?=abc)x)": 1300, "(?:(?=a(?<=b))x)": 1733, "(?:(?=a(?:b|c)?)x)": 472}
    yield refusals(MORE_STEPS_OF_ALL, [f"{term}{{{count}}}" for term, count in ahead.items()])
    yield refusals(MORE_STEPS, [f"{term}{{{count + 1}}}" for term, count in ahead.items()])
    yield refusals("taken", [f"{atom}{{{min(MOST_TIMES, count)}}}" for atom, count in most.items()])
    names = ("any", "ascii", "Alphabetic=Yes", "gc=Alphabetic", "CWKCF", "lu", "gc=lu", "sc=latn", "scx=latn", "Latin",
             "x", "_", "gc=x")
    forms = ("\\p{{{}}}", "\\P{{{}}}", "[\\p{{{}}}]", "a\\p{{{}}}b")
    yield refusals("it has a property that is not known here", in_forms(forms, names))
    for letters, why in ((LETTERS + DIGITS + "_", "it has a property that is not known here"),
                         (but(LETTERS + DIGITS + "_=}"), NOT_A_PATTERN)):
        yield refusals(why, in_forms(("\\p{{a{}}}", "[\\P{{a{}b}}]", "\\p{{gc=a{}}}"), letters))
    above = [(atom, count + 1) for atom, count in most.items() if count < MOST_TIMES]
    yield refusals(MORE_STEPS, [f"{atom}{{{n},{n}}}" for atom, n in above])
    yield refusals(NOT_A_PATTERN, [pattern for pattern, is_taken in BRACES.items() if not is_taken])
    names = ("a=b", "a!b", "", "a b", "1", "a=", "\\x61", "\\u{}", "\\u006", "\\", "a\\", "a\\u", "a\\u{61", "-", "a-")
    broken = [f"(?<{name}" for name in names] + ["(?", "(?a", "(?i", "(?;", "(?9a)", "(?\"a)"]
    yield refusals(NOT_A_PATTERN, [*broken, *(f"{pattern}>x)" for pattern in broken)])
    unfinished = [text[:end] for text, least in UNFINISHED for end in range(least, len(text))]
    yield refusals(NOT_A_PATTERN, unfinished)
    ends = ("(*", "(+a)", "(]", "(a", "(?a)", "(?:*", "(?=+", "(?<n>*", "(?<=*", "(?<1>", "(?<>a)")
    for groups in (248, 249):
        yield refusals(NOT_A_PATTERN, ["(" * groups + end for end in ends])
    deeper = ("(*", "(+a)", "(]", "(a", "()", "(?:*", "(?=+", "(?!a)", "(?<n>*", "(?<=*", "(?<!a)")
    yield refusals("its groups are more than 250 deep", ["(" * 250 + end for end in deeper])
    yield refusals(NOT_A_PATTERN, ["(" * 250 + end for end in ("(?a)", "(?<1>", "(?<>a)", "*", "]", "a")])
    yield from rows_of_two_reasons()
    yield from surrogate_rows()


def surrogate_rows():
    """Escapes of surrogates alone, which make a pattern that is not taken; beside what makes none, none."""
    alone = [form.format(digits) for code in (0xD800, 0xD83D, 0xDBFF, 0xDC00, 0xDE00, 0xDFFF)
             for digits in (f"{code:x}", f"{code:X}") for form in ("\\u{}", "\\u{{{}}}", "\\u{{0{}}}")]
    forms = ("{}", "a{}b", "{}*", "(?:{}){{2}}", "(?<n>{})", "a|{}", "(?={})", "(?<!{})b", "^{}$", "[{}]", "[^{}]",
             "[a{}]", "[{}-\\uffff]", "[a-{}]", "{}\\cA", "(a){}\\1", "{0}{0}", "[\\d{}]", "{}\\p{{CWKCF}}",
             "{}.{{5001}}")
    yield refusals(NOT_TAKEN, in_forms(forms, alone))
    forms = ("{}(", "{}\\1", "[{}", "[{}-a]", "[\\d-{}]", "{}\\p{{Foo}}", "(?<{}>a)", "{}\\k<n>", "(?{}a)", "{}**",
             "{}]", "{}\\!")
    yield refusals(NOT_A_PATTERN, in_forms(forms, alone))
    pairs = ("\\u{d83d}\\u{de00}", "\\ud83d\\u{de00}", "\\u{d83d}\\ude00", "\\ude00\\ud83d", "\\ud83d(?:\\ude00)",
             "(?:\\ud83d)\\ude00", "\\ud83d|\\ude00", "[\\ude00\\ud83d]", "[\\ud83d-\\ude00]", "[\\u{d83d}\\u{de00}]")
    yield refusals(NOT_TAKEN, pairs)
    joined = ("\\ud83d\\ude00", "[\\ud83d\\ude00]", "(?<n>\\uD83D\\uDE00)", "[\\ud83d\\ude00-\\udbff\\udfff]")
    yield refusals("taken", joined)


# Pieces of patterns, each with the reason for which a pattern is not taken that has it.
REASONS = {
    "\\1": "it has a back reference", "\\k<n>": "it has a back reference",
    "\\!": "\\! is valid only without the flag u: write ! for it",
    "\\p{Foo}": "it has a property that is not known here", "[\\P{Foo}]": "it has a property that is not known here",
    "a{5001}": MORE_TIMES, "a{0,5001}": MORE_TIMES, "(?:abc){1734}": MORE_STEPS, "]": NOT_A_PATTERN,
    "a**": NOT_A_PATTERN, "(" * 251 + "a": "its groups are more than 250 deep"}


def rows_of_two_reasons():
    """Patterns with two reasons: the length is told, else what stands first, and last the size."""
    whole = "a{5000}a{201}"
    for first, why in REASONS.items():
        others = [second for second, other in REASONS.items() if other != why]
        yield refusals(why, [form.format(first, second) for second in others
                             for form in ("{}{}", "{}|b{}", "{}(?={})")])
        yield refusals(why, [f"{whole}{first}", f"{first}{whole}", f"(?:{whole})(?={first})", f"(?<n>a)(?<n>b){first}"])
    unlike = ("(?<n>a)(?<n>b){}", "{}(?<n>a)(?<n>b)", "(?<n>a){}(?<n>b)", "\\00{}", "{}\\00", "({}", "{})", "{}[",
              "[{}", "{}\\", "{}(?", "{}a{{", "{}\\p{{", "*{}", "{}**", "{}(?<n", "{}[\\!]", "{}[b-a]", "{}(?<=", "{}]")
    yield refusals(NOT_A_PATTERN, [form.format(whole) for form in unlike])
    forms = ("(?<{}>x)", "(?<a{}>x)", "(?<{}a>x)", "[{}]", "a{{{}}}", "\\p{{{}}}", "(?{}a)", "\\x{}", "\\u{{{}}}",
             "\\c{}")
    yield refusals(NOT_A_PATTERN, in_forms(forms, ("\\!", "\\1", "\\k", "\\~")))
    long = [{"pattern": [[piece, 1], ["a", 2000]]} for piece in (*REASONS, whole)]
    long += [{"pattern": [["a", 2000], [piece, 1]]} for piece in (*REASONS, whole)]
    yield {"ask": "refusals", "of": "it has more than 2000 characters", "long": long}, len(long)


# Braces and quantifiers, and whether the pattern is taken.
BRACES = {
    "a{1}": 1, "a{1,}": 1, "a{1,2}": 1, "a{0}": 1, "a{0,0}": 1, "a{00,01}": 1, "a{1}?": 1, "a{1,}?": 1, "a{1,2}?": 1,
    "a{,1}": 0, "a{}": 0, "a{,}": 0, "a{1,2": 0, "a{1": 0, "a{1,0}": 0, "a{2,1}": 0, "a{10,9}": 0, "a{1000,999}": 0,
    "a{1 }": 0, "a{ 1}": 0, "a{1, 2}": 0, "a{-1}": 0, "a{+1}": 0, "a{1.}": 0, "a{1;2}": 0, "a{a}": 0, "a{1,a}": 0,
    "a{1,2,3}": 0, "a{\u0661}": 0, "a{1}{1}": 0, "a{1}+": 0, "a{1}??": 0, "{1}": 0, "a|{1}": 0, "({1})": 0, "^{1}": 0,
    "${1}": 0, "\\b{1}": 0, "\\B{1}": 0, "(?:){1}": 1, "(){1}": 1, "[]{1}": 1, "\\{1}": 0, "a\\{1}": 0, "a\\{1\\}": 1,
    "}": 0, "a}": 0, "]": 0, "a]": 0, "[a]]": 0, "{": 0, "a{": 0, "[{]": 1, "[}]": 1, "[[]": 1, "[(]": 1, "[)]": 1,
    "(])": 0, "a,b": 1, "a-b": 1, "a:b": 1, "<>": 1, "=!": 1}


def limit_rows():
    """The rows of limits, of refusals and of braces."""
    yield ("limits, each at it and one off: counts, steps of a counted term and of the whole, characters, groups "
           "in one another")
    limits = dict(limits_of_atoms())
    yield texts(PATTERNS, limits, limits.get)
    limits = dict(limits_of_terms())
    yield texts(PATTERNS, limits, limits.get)
    yield long_searches(limits_of_patterns())
    yield from refusal_rows()
    yield "braces and quantifiers"
    yield texts(PATTERNS, BRACES, BRACES.get)


# No text in front of a whole one of these, from so many characters on, is a pattern.
UNFINISHED = (("[^a-z\\x41\\u0041\\u{41}\\p{gc=Lu}\\cA\\-\\0]", 1), ("(?<a\\u0062\\u{63}c>x)", 1), ("(?<=a)", 1),
              ("(?<!a)", 1), ("(?=a)", 1), ("(?!a)", 1), ("(?:a)", 1), ("\\p{General_Category=Lu}", 1), ("\\x41", 1),
              ("\\u0041", 1), ("\\u{1F600}", 1), ("\\cA", 1), ("a{12,34}", 2), ("(a|b)", 1), ("[\\P{L}]", 1))
