"""Each character at each place of what a pattern is read by, and why it is not taken there."""
import itertools
import re

from rows.grammars.common import (ASCII, MORE_STEPS, MORE_STEPS_OF_ALL, MOST_TIMES, characters, in_forms, never,
                                  refusals, texts)
from rows.grammars.properties import PATTERNS, is_name_part, is_name_start
from rows.grammars.limits import NEEDLESSLY_ESCAPED, NOT_A_PATTERN, NOT_TAKEN, REASONS, needless
from rows.grammars.whole_patterns import PLACES_OF_PATTERNS, PLACES_OF_WHOLE_PATTERNS, WHOLE_ESCAPES, WHOLE_PATTERNS

BACK_REFERENCE = "it has a back reference"
UNKNOWN_PROPERTY = "it has a property that is not known here"
# A property between braces: what stands before `=`, where that stands, and the value.
IN_BRACES = re.compile(r"\\[pP]\{(?:(\w*)=)?(\w*)\}", re.ASCII)
PLACES = (*PLACES_OF_PATTERNS, ("\\", "<a>(?<a>)", WHOLE_ESCAPES + "0"))
# Characters past ASCII of each kind: letters, digits, marks, blanks, signs, what joins, what has no character.
WIDE = (
    "\u0080\u0085\u00a0\u00a7\u00aa\u00d7\u00e9\u0301\u0661\u200b\u200d\u2028\u2029\u20ac\u212a\u3000\u4e00\ufeff\uff01"
    "\uff0d\uff11\uff1a\uff2c\ufffd\uffff\U00010400\U0001d7ce\U0001f600\U000e0100\U000f0000\U0010ffff")


def told_at(before, character, behind, accepted):
    """Why a pattern with this character between the two texts is not taken (specs/Refusals.antt)."""
    if character in accepted:
        return "taken"
    behind_backslash = character if before == "\\" else behind[:1] if (before, character) == ("a", "\\") else ""
    if behind_backslash and behind_backslash in "123456789k":
        return BACK_REFERENCE
    if behind_backslash and behind_backslash in NEEDLESSLY_ESCAPED:
        return needless(character)
    named = IN_BRACES.search(before + character + behind)
    if named and named[1] != "" and named[2] and (named[1], named[2]) != (None, "L"):
        return UNKNOWN_PROPERTY
    return NOT_A_PATTERN


def is_wide_accepted(before, character, accepted):
    """Whether a character past ASCII may stand at the place: where `~` may, and in names by the tables of Unicode."""
    if "$_" in accepted:
        return (is_name_start if before.endswith("<") else is_name_part)(ord(character))
    return "~" in accepted


def by_reason(told):
    """Rows of patterns by what is told of each."""
    for why in dict.fromkeys(told.values()):
        yield refusals(why, [pattern for pattern, answer in told.items() if answer == why])


def place_reason_rows():
    """Each character of ASCII at each place, by the reason; and characters past ASCII."""
    yield "why a pattern is not taken, for each character of ASCII at each place of what a pattern is read by"
    yield from by_reason({before + one + behind: told_at(before, one, behind, accepted)
                          for before, behind, accepted in PLACES for one in ASCII})
    yield "characters past ASCII, of each kind, at each place, and why"
    expected = {before + one + behind: is_wide_accepted(before, one, accepted)
                for before, behind, accepted in PLACES for one in WIDE}
    for of in (PATTERNS, WHOLE_PATTERNS):
        yield texts(of, expected, expected.get)
    yield from by_reason({pattern: "taken" if right else NOT_A_PATTERN for pattern, right in expected.items()})


def told_of_half(before, character, behind, accepted):
    """Why a pattern is not taken that has half a pair before this character, or a back reference (22.2.1)."""
    if re.match(r"(?:\(\))*(?:\(a\)|\(\?<a>\))?\\[1-9k]", before + character + behind):
        return BACK_REFERENCE
    is_pair = before.rstrip("\\").endswith("\\ud83d") and "\\ud83d\\ude00" in before + character + behind
    if is_pair or "ud83d" not in before and character in accepted:
        return "taken"
    if "ud83d" not in before and character in NEEDLESSLY_ESCAPED:
        return needless(character)
    return NOT_TAKEN if character in accepted else NOT_A_PATTERN


def half_reason_rows():
    """Each character behind half a pair and behind a back reference, by the reason."""
    yield "why a pattern is not taken, for each character of ASCII behind a back reference and behind half a pair"
    yield from by_reason({before + one + behind: told_of_half(before, one, behind, accepted)
                          for before, behind, accepted in PLACES_OF_WHOLE_PATTERNS for one in ASCII})
    yield "and for characters past ASCII there"
    halves = ("\\ud83d{}", "\\ud83d{}\\ude00", "\\ude00{}", "(\\ud83d){}", "[\\ud83d{}]", "[^\\ude00{}]",
              "\\u{{d83d}}{}")
    yield refusals(NOT_TAKEN, in_forms(halves, WIDE))
    broken = ("\\ud83d\\{}", "\\ud83d\\u{}", "\\ud83d\\ude0{}", "\\ud83d{}\\", "[\\ud83d\\{}]", "[\\ud83d{}-a]",
              "(\\ud83d{}")
    yield refusals(NOT_A_PATTERN, in_forms(broken, WIDE))


def wide_escape_rows():
    """A character past ASCII stands behind no backslash, whatever it stands for in other modes."""
    yield ("a character past ASCII behind a backslash makes no pattern, and none that needs no backslash alone: the "
           "characters of that reason are ASCII (specs/Refusals.antt)")
    forms = ("\\{}", "a\\{}b", "(?:\\{})", "a|\\{}", "(?=\\{})", "(?<!\\{})", "[\\{}]", "[^a\\{}]", "(?<\\{}>a)",
             "\\{}*")
    yield refusals(NOT_A_PATTERN, in_forms(forms, WIDE))
    for of in (PATTERNS, WHOLE_PATTERNS):
        yield texts(of, in_forms(forms, WIDE), never)


def behind_call_rows():
    """What may stand behind `(?<` and behind `(` may not stand behind `\\k<` and behind `\\k`."""
    yield "the whole grammar: behind `\\k<` stands a name and nothing else, and no look-behind begins there"
    fronts = ("", "(?<a>)", "(?<a>b)|", "(?<=a)")
    ends = (")", "a)", "a))", ">a)", "=a)", "(?<a>b))")
    places = [[f"{front}\\k<", end] for front in fronts for end in ends]
    yield characters(WHOLE_PATTERNS, "", places)
    calls = ["\\k<=a)", "\\k<!a)", "\\k<=)", "\\k<!)", "\\k<=a>)", "\\k<!a>", "\\k<a=b)", "\\k<a!b)", "\\k?:a)",
             "\\k?=a)", "\\k?<=a)", "\\k?<a>b)", "\\k(?<a>b)", "\\k:a)", "\\k=a)"]
    forms = ("{}", "(?<a>b){}", "{}(?<a>b)", "({})", "(?<a>b|{})", "(?={})", "{}*")
    yield texts(WHOLE_PATTERNS, in_forms(forms, calls), never)
    yield texts(PATTERNS, in_forms(forms, calls), never)
    yield refusals(BACK_REFERENCE, in_forms(forms, calls))


# The binary property of the standard that the engine does not take, by both of its names (22.2.2.9.1).
TABLELESS = ("Changes_When_NFKC_Casefolded", "CWKCF")
FORMS_OF_PROPERTIES = ("{}", "a{}b", "({})", "{}*", "{}{{2,3}}?", "a|{}", "(?={})", "(?<!{})", "(?<n>{})", "[{}]",
                       "[^{}]", "[a{}]", "[{}-]", "[-{}]", "[a-b{}]", "[{0}{0}]", "[\\d{}]")


def tableless_rows():
    """The property that is one of the standard's and not taken, and unknown ones, wherever a property may stand."""
    yield "the property that is not taken is one of the whole grammar, each way and by both names, and told as unknown"
    letters = [f"\\{letter}{{{name}}}" for letter in "pP" for name in TABLELESS]
    standing = in_forms(FORMS_OF_PROPERTIES, letters)
    yield texts(WHOLE_PATTERNS, standing, lambda text: True)
    yield texts(PATTERNS, standing, never)
    yield refusals(UNKNOWN_PROPERTY, standing)
    bounds = in_forms(("[{}-a]", "[a-{}]", "[{0}-{0}]", "[\\d-{}]"), letters)
    for of in (WHOLE_PATTERNS, PATTERNS):
        yield texts(of, bounds, never)
    yield refusals(UNKNOWN_PROPERTY, bounds)
    off = [f"\\{letter}{{{name}}}" for letter in "pP" for name in (
        "Changes_When_NFKC_Casefold", "changes_when_nfkc_casefolded", "ChangesWhenNFKCCasefolded", "CWKC", "CWKCF_",
        "cwkcf", "CWKCF=", "CWKCF=Y", "gc=CWKCF", "sc=CWKCF", "scx=CWKCF", "Foo", "gc=Foo", "Foo=L")]
    for of in (WHOLE_PATTERNS, PATTERNS):
        yield texts(of, in_forms(FORMS_OF_PROPERTIES, off), never)
    unwritten = [one for one in off if one.endswith("=}")]
    yield refusals(UNKNOWN_PROPERTY, in_forms(FORMS_OF_PROPERTIES, [one for one in off if one not in unwritten]))
    yield refusals(NOT_A_PATTERN, in_forms(FORMS_OF_PROPERTIES, unwritten))
    yield refusals(NOT_A_PATTERN, in_forms(("[{}-a]", "[a-{}]", "[{0}-{0}]"), ("\\p{L}", "\\P{Lu}", "\\p{Alphabetic}")))


# What stands no times, or before an end of its own: it is read like any other part of a pattern.
NO_TIMES = ("(?:{}){{0}}x", "(?:{}){{0,0}}x", "(?:{}){{00}}?x", "(?:a|{}){{0}}", "(?:(?={})){{0}}", "(?:(?<!{})){{0}}",
            "(?:(?:{})*){{0}}", "({}){{0}}y", "$(?:{})?", "(?!)(?:{})", "[](?:{})", "(?:(?:{}){{0}}){{0}}")


def no_times_rows():
    """What stands no times and what is never reached: its reasons, its steps, its groups and its names."""
    yield "what stands no times or is never reached is read all the same, for the reason why it is not taken"
    for piece, why in REASONS.items():
        yield refusals(why, in_forms(NO_TIMES, [piece]))
    yield "a term that takes more steps than the whole may: taken where it stands no times, and else for the whole"
    large = f"(?:a{{{MOST_TIMES}}}b{{{MOST_TIMES}}})"
    quantified = [f"{large}{quantifier}" for quantifier in ("", "*", "+", "?", "*?", "+?", "??")]
    forms = ("(?:{}){{0}}x", "(?:{}){{0,0}}", "(?:c|{}){{0}}", "(?:(?={})c){{0}}", "({}){{0}}?")
    yield refusals("taken", in_forms(forms, quantified))
    around = ("{}", "({})", "c{}d", "c|{}", "(?={})", "(?!{})", "(?<={})", "(?<!{})", "^(?={})", "(?:{})*", "(?:{})?")
    yield refusals(MORE_STEPS_OF_ALL, in_forms(around, quantified))
    counted = [f"{large}{quantifier}" for quantifier in ("{1}", "{1,}", "{0,}", "{0,1}", "{2,2}", "{1}?")]
    yield refusals(MORE_STEPS, in_forms((*around, "(?:{}){{0}}"), counted))
    yield "groups and names that stand no times are groups and names of the whole pattern"
    expected = {}
    for form in NO_TIMES:
        has_own = form.count("(") > form.count("(?")
        expected |= {form.format("(a)") + "\\1": True, form.format("(a)") + "\\2": has_own,
                     form.format("(?<n>a)") + "\\k<n>": True, form.format("(?<n>a)") + "\\k<m>": False,
                     form.format("(?<n>a)") + "(?<n>b)": False, form.format("(?<n>a)") + "(?<m>b)": True,
                     form.format("\\k<n>") + "(?<n>b)": True, form.format("(?<n>a)(?<n>b)"): False}
    yield texts(WHOLE_PATTERNS, expected, expected.get)
    called = {pattern: right for pattern, right in expected.items() if "\\" not in pattern}
    yield texts(PATTERNS, called, called.get)


# A character by its code as it may stand in a name: RegExpUnicodeEscapeSequence (22.2.1).
CODES_IN_NAMES = ("\\u{:04x}", "\\u{:04X}", "\\u{{{:x}}}", "\\u{{00{:X}}}")


def coded_name_rows():
    """Each character of ASCII by its code in a name, where it ends none and begins no look-behind."""
    yield ("each character of ASCII by its code in the name of a group and behind it: letters, digits, `$` and `_` are "
           "characters of a name, and no other ends it, opens it or begins a look-behind")
    expected, called = {}, {}
    for one, spelling in itertools.product(ASCII, CODES_IN_NAMES):
        code, is_first, is_further = spelling.format(ord(one)), is_name_start(ord(one)), is_name_part(ord(one))
        expected |= {f"(?<{code}>x)": is_first, f"(?<{code}b>x)": is_first, f"(?<a{code}>x)": is_further,
                     f"(?<a{code}b>x)": is_further}
        unended = ("(?<a{}x)", "(?<a{}", "(?<{}a)", "(?<{})", "(?{}a)", "(?{}a>x)", "(?{}=a)", "(?<a>x{}", "({}<a>x)a)")
        expected |= {form.format(code): False for form in unended}
        if is_further:
            called[f"(?<a{one}>x)\\k<a{code}>"] = called[f"\\k<a{code}>(?<a{one}>x)"] = True
        unnamed = ("(?<a>x)\\k<a{}", "(?<a>x)\\k<{}", "(?<a>x)\\k<a{}x", "(?<a>x)\\k{}a>", "\\k<a{}(?<a>x)", "\\k<{}a)",
                   "(?<a>x)\\k<a{}>")
        called |= {form.format(code): False for form in unnamed}
    for of in (PATTERNS, WHOLE_PATTERNS):
        yield texts(of, expected, expected.get)
    yield texts(WHOLE_PATTERNS, called, called.get)
    yield from by_reason({pattern: "taken" if right else NOT_A_PATTERN for pattern, right in expected.items()})
    yield "two digits of base 16 make no character of a name"
    never_named = in_forms(("(?<{}>x)", "(?<a{}>x)", "(?<{}b>x)"), [f"\\x{ord(one):02x}" for one in ASCII])
    for of in (PATTERNS, WHOLE_PATTERNS):
        yield texts(of, never_named, never)


# Where a character by its code may stand, whatever it is, and where none may: in counts, escapes, groups and classes.
BESIDE_CODES = ("a{{1}}{}", "a{}{{1}}", "a{{1,2}}?{}", "({}?:a)", "({}?<n>a)", "({}?=a)", "(?:{}?)", "\\0{}", "\\x41{}",
                "\\cA{}", "\\p{{L}}{}", "(?={})", "(?<n>{})", "[\\0{}]", "[\\cA{}]", "[\\d{}]", "\\b{}", "^{}", "a??{}")
UNFIT_CODES = ("a{{1,{}}}", "a{{1{}2}}", "a{{1{}", "a{{1,2{}", "a{}1}}", "(?{}:a)", "(?{}<n>a)", "(?<{}=a)", "({}",
               "[{}", "[a{}", "[a-{}", "[^{}", "\\p{}L}}", "\\p{{L{}", "\\p{{gc{}L}}", "\\x{}1", "\\x4{}", "\\c{}",
               "\\u{}41", "\\u{{{}}}", "\\u{{4{}", "\\k{}", "a**{}", "(?{})", "{})", "{}]", "{}}}", "{}**",
               "[{}-\\d]")


def coded_place_rows():
    """Each character of ASCII by its code beside counts, escapes, groups and classes, where it is no sign of these."""
    yield "each character of ASCII by its code beside and within counts, escapes, groups and classes: it is no sign"
    codes = [spelling.format(ord(one)) for one in ASCII for spelling in ("\\x{:02x}", "\\u{{{:x}}}")]
    right, wrong = in_forms(BESIDE_CODES, codes), in_forms(UNFIT_CODES, codes)
    for of in (PATTERNS, WHOLE_PATTERNS):
        yield texts(of, right, lambda text: True)
        yield texts(of, wrong, never)
    yield refusals("taken", right)
    yield refusals(NOT_A_PATTERN, [pattern for pattern in wrong if not pattern.startswith("\\k")])
    yield refusals(BACK_REFERENCE, [pattern for pattern in wrong if pattern.startswith("\\k")])
