"""The whole grammar of patterns: ECMA-262, sections 22.2.1 and 22.2.1.1."""
import itertools

from rows.grammars.common import DIGITS, LETTERS, but, characters, never, refusals, searches, span, texts
from rows.grammars.properties import (BINARIES, CATEGORIES, MADE, OTHER_PROPERTIES, PATTERNS, SCRIPTS, SYNTAX,
                                      class_rows, one_letter_off, values_of)
from rows.grammars.limits import UNFINISHED

# The whole of `Pattern[+UnicodeMode]` of ECMA-262 2024: by the rule of section 22.2.1, or the early error of 22.2.1.1,
# texts that are patterns, and texts that are none.
WHOLE_PATTERNS = "patterns of the whole of ECMA-262"
WHOLE_RULES = (
    ("Disjunction, Alternative and Term",
     ("", "|", "||", "a|", "|a", "()", "(|)", "(a|b)c", "^$", "^|$", "\\b\\B", "^^", "$a^", "(?:)", "(?:|)*",
      "((((a))))"),
     ("(", ")", "(a", "a)", "(?", "(?:", "(a|b", "a|b)", "())", "(()", "(?a)", "(?)", "(?i:a)", "(?i)", "(?-i:a)",
      "(?#a)", "(?>a)", "(?P<a>b)", "(*a)")),
    ("PatternCharacter is SourceCharacter but not SyntaxCharacter",
     ("a", "/", "-", ",", ":", "<>", "=!", "\"", "\n", "\x00", "\u00e9", "\u2028", "\U0001f600", "\U0010ffff", "a b",
      "&&"),
     ("]", "}", "{", "*", "+", "?", "\\", "a]", "a}", "a{", "(])", "{}", "{a}", "a{,1}", "a{1", "a{1,2", "a{}",
      "a{a}")),
    ("Quantifier",
     ("a*", "a+", "a?", "a*?", "a+?", "a??", "a{1}", "a{1,}", "a{1,2}", "a{1}?", "a{1,}?", "a{1,2}?", "a{0}",
      "a{0,0}", "(a)*", "(?:a)*", "(?<n>a)*", ".*", "[a]*", "\\d*", "\\p{L}*", "\\u0041*", "\\u{1F600}{2}", "\\0*",
      "(a)\\1*", "()*", "(?<a>)\\k<a>*", "\\cA+", "\\x41?", "a*b*"),
     ("a**", "a++", "a*+", "a+*", "a???", "a*??", "a{1}{1}", "a{1}*", "a{1}??", "|*", "(*)", "(?:*)", "(|*)", "a|*",
      "^*", "$*", "\\b*", "\\B+", "(?:+)", "{1}", "({1})", "^{1}", "a{1 }", "a{ 1}", "a{1, 2}", "a{1,2,3}", "a{-1}",
      "a{\u0661}")),
    ("an Assertion is no Atom, so that no quantifier may follow it",
     ("(?=a)", "(?!a)", "(?<=a)", "(?<!a)", "(?=)", "(?=a)b*", "((?=a))*", "(?:(?<=a))+", "(?=(?<!a)b)",
      "(?<=(?=(?!a)))", "(?=a*)", "(?<=a+)", "a(?=b)c", "(?=(a))\\1", "(?<!(a))\\1"),
     ("(?=a)*", "(?!a)+", "(?<=a)+", "(?<!a)?", "(?=a){2}", "(?<=a){1,2}", "(?!a){0}", "(?=a)*?", "(?<=", "(?<!",
      "(?=", "(?!a", "(?<a", "(?< =a)", "(?<=a)*")),
    ("QuantifierPrefix: the first count is greater than the second",
     ("a{1,1}", "a{00,01}", "a{01,1}", "a{9,10}", "a{999,1000}", "a{0099,100}", "a{5000}", "a{99999999999999999999}",
      "a{99999999999999999999,}", "a{99999999999999999999,100000000000000000000}", "a{4294967296,4294967297}",
      "a{18446744073709551616,18446744073709551616}", "a{000000000000000000000000000002,3}",
      "a{3,000000000000000000000000000003}", "(?:a{1000}){1000}", "a{0,18446744073709551615}"),
     ("a{1,0}", "a{2,1}", "a{10,9}", "a{1000,999}", "a{2,01}", "a{100000000000000000000,99999999999999999999}",
      "a{4294967296,0}", "a{4294967297,4294967296}", "a{18446744073709551616,0}",
      "a{18446744073709551617,18446744073709551616}", "a{3,000000000000000000000000000002}",
      "a{000000000000000000000000000003,2}", "(a{2,1})", "a{2,1}?", "a|b{1,0}",
      "a{100000000000000000000000,99999999999999999999999}")),
    ("IdentityEscape: SyntaxCharacter or `/`",
     ("\\^", "\\$", "\\\\", "\\.", "\\*", "\\+", "\\?", "\\(", "\\)", "\\[", "\\]", "\\{", "\\}", "\\|", "\\/",
      "[\\^]", "[\\]]", "[\\/]", "[\\\\]"),
     ("\\-", "\\a", "\\_", "\\:", "\\ ", "\\g", "\\e", "\\A", "\\Z", "\\z", "\\i", "\\\"", "\\'", "\\,", "\\=",
      "\\!", "\\<", "\\>", "\\#", "\\&", "\\%", "\\@", "\\`", "\\~", "\\;", "\\\u00e9", "\\\U0001f600", "[\\a]",
      "[\\_]", "[\\:]", "[\\ ]", "[\\B]", "[\\k]", "[\\8]", "\\\\\\")),
    ("CharacterEscape and CharacterClassEscape of one letter",
     ("\\f\\n\\r\\t\\v", "\\d\\D\\s\\S\\w\\W", "[\\f\\n\\r\\t\\v\\b]", "[\\d\\D\\s\\S\\w\\W]", "[\\-]", "[a\\-z]"),
     ()),
    ("`c` AsciiLetter, `x` HexDigit HexDigit",
     ("\\cA", "\\cz", "[\\cA]", "\\x41", "\\xfF", "[\\x41-\\x5A]", "\\x410"),
     ("\\c", "\\c1", "\\c_", "[\\c1]", "[\\c]", "\\c\u00e9", "\\x", "\\x4", "\\x4g", "[\\x4]", "\\xg4", "\\x 4")),
    ("`0` with no DecimalDigit behind it",
     ("\\0", "\\0a", "(\\0)0", "\\0|0", "\\0*0", "[\\0]0", "[\\0-9]", "[\\0a]", "\\0\\x30", "\\\\00"),
     ("\\00", "\\01", "\\09", "[\\00]", "[\\01]", "a\\07b", "(\\00)", "\\0\\00")),
    ("RegExpUnicodeEscapeSequence",
     ("\\u0041", "\\uFFFF", "\\u{0}", "\\u{41}", "\\u{10FFFF}", "\\u{0010FFFF}", "\\u{" + "0" * 40 + "41}",
      "[\\u{41}-\\u{5A}]", "\\u00411", "[\\u0041-\\u005a]"),
     ("\\u", "\\u0", "\\u004", "\\u004g", "\\u{", "\\u{}", "\\u{g}", "\\u{41", "\\u{110000}", "\\u{ 41}", "\\u{41 }",
      "\\u{-1}", "\\u{FFFFFFFFF}", "[\\u]", "[\\u{}]", "[\\u{110000}]", "\\U0041", "\\u+0041")),
    ("a surrogate alone is a character, and a leading one before a trailing one is the pair",
     ("\\uD83D", "\\uDE00", "\\u{D83D}", "\\u{DE00}", "\\uD83D\\uDE00", "\\uDE00\\uD83D", "\\uD83D\\uD83D\\uDE00",
      "\\uD83D*\\uDE00", "\\uD83Da", "\\uD83D\\u0041", "\\uD83D\\u{DE00}", "\\uD83D\\d", "(\\uD83D)\\1", "[\\uD83D]",
      "[\\uDE00]", "[\\uD83D\\uDE00]", "[\\uD83D-\\uDBFF]", "[\\uDC00-\\uDFFF]", "[\\uD800-\\uDFFF]", "[a-\\uD83D]",
      "[\\uDE00-\\uE000]", "[\\u{D83D}\\u{DE00}]", "[\\uD83D-\\uDE00]", "[a-\\uD83D\\uDE00]",
      "[\\uE000-\\uD83D\\uDE00]", "[\\uFFFF-\\uD800\\uDC00]", "[\\uD83D\\uDE00-\\uD83D\\uDE01]",
      "[\\uD83D\\uDE00-\\u{1F601}]", "[\\uD83D\\uD83D\\uDE00-\\u{1F601}]", "[\\u{D83D}\\uDE00-\\uDE01]",
      "[\\uD83D\\u{DE00}-\\uDE01]", "[\\uDE00\\uD83D-\\uD83D\\uDE00]", "[a-\\uD83D-\\uDE00]", "[a-\\uD83D-]",
      "[\\uD83D-]", "[^\\uD83D]", "[a-\\uD83Db]", "[\\uD83D\\d]", "[\\uD83D\\u{1F600}-\\u{1F601}]",
      "[\\uDE00-\\uD83D\\uDE00]", "[a-\\uD83D\\uDE00-\\uDE01]"),
     ("[\\uDBFF\\uDC00-\\uDFFF]", "[\\uD83D\\uDE00-\\uDE01]", "[\\uDFFF-\\uDC00]", "[\\uE000-\\uD83D]",
      "[\\uDE01-\\uDE00]", "[\\uD83D\\uDE01-\\uD83D\\uDE00]", "[\\u{1F601}-\\uD83D\\uDE00]", "[\\uE000-\\uD83Da]",
      "[\\uE000-\\uD83D-\\uDE00]", "[\\uE000-\\uD83D\\u{DE00}]", "[\\uD83D\\uD83D\\uDE00-\\uDE01]", "[\\uD83D-\\d]",
      "[\\d-\\uD83D]", "[\\d-\\uD83D\\uDE00]", "[\\uD83D\\uDE00-a]", "[\\uE000-\\uD83D\\u0041]", "\\uD83D\\u",
      "\\uD83D\\uDE0", "\\uD83D\\")),
    ("DecimalEscape: all digits that there are, and no more than groups in the whole pattern",
     ("(a)\\1", "\\1(a)", "(\\1)", "(a)(b)\\2\\1", "()" * 10 + "\\10", "\\10" + "()" * 10, "(?<n>a)\\1",
      "(?:\\1)(a)", "(?=\\1(a))", "\\1|(a)", "(a)\\1*", "(a)\\1{2}", "(a)\\1b0", "()" * 100 + "\\100", "(a)(?:\\1)0",
      "(?<=(a))\\1", "((a)\\2)\\1", "\\2(?<b>)(a)", "(a)\\1\\1"),
     ("\\1", "\\2(a)", "(a)\\2", "(?:a)\\1", "(?=a)\\1", "(?<=a)\\1", "(a)\\10", "()" * 9 + "\\10", "(a)\\11",
      "\\1\\(a\\)", "[(a)]\\1", "\\9", "\\8", "(a)\\4294967297", "(a)\\18446744073709551617",
      "(a)\\100000000000000000000000001", "[\\1](a)", "(a)[\\1]", "\\3(a)(b)", "(a)\\4294967295")),
    ("`k` GroupName: a group of the whole pattern has the name",
     ("\\k<a>(?<a>)", "(?<a>)\\k<a>", "(?<a>\\k<a>)", "(?<a>)(?<b>)\\k<b>\\k<a>", "(?<a>)\\k<\\u0061>",
      "(?<\\u{61}>)\\k<a>", "(?<a>)|\\k<a>", "(?<$>)\\k<$>", "(?<\\ud835\\udc9c>)\\k<\U0001d49c>",
      "(?<\U0001d49c>)\\k<\\u{1d49c}>", "(?<a>)\\k<a>*", "(?=\\k<a>)(?<a>)", "(?<a>)\\k<a>>"),
     ("\\k", "\\k<a>", "\\k<b>(?<a>)", "(?<a>)\\k<b>", "(?<a>)\\k", "(?<a>)\\ka", "(?<a>)\\k<", "(?<a>)\\k<a",
      "(?<a>)\\k<>", "(?<a>)\\k<A>", "(a)\\k<1>", "\\k<a>(a)", "(?<a>)\\k{a}", "(?<a>)[\\k<a>]", "(?<a>)\\k<=>",
      "(?<a>)\\k<aa>", "(?<aa>)\\k<a>", "\\k<a>[(?<a>)]", "(?<a>)\\k<!a>", "\\k<a>\\(?<a>")),
    ("GroupName: a RegExpIdentifierName, which no other group has",
     ("(?<a>)", "(?<_>)", "(?<$>)", "(?<a1>)", "(?<\u00e9>)", "(?<a\u200d>)", "(?<\\u0061b>)", "(?<a\\u{62}>)",
      "(?<\U00020000>)", "(?<\\ud840\\udc00>)", "(?<a>)(?<b>)", "(?<a>(?<b>))", "(?<a>)(?<aa>)", "(?<a>)(?<A>)",
      "(?<__proto__>)"),
     ("(?<>)", "(?<1>)", "(?<a", "(?<a)", "(?<a-b>)", "(?<a b>)", "(?< a>)", "(?<\\x61>)", "(?<\\u>)", "(?<\\u{}>)",
      "(?<\\u0031>)", "(?<\\ud835>)", "(?<\\udc9c>)", "(?<\\u{d835}\\u{dc9c}>)", "(?<a\\ud835>)", "(?<\\a>)",
      "(?<\U0001f600>)", "(?<\u200d>)", "(?<a>)(?<a>)", "(?<a>)|(?<a>)", "(?<a>(?<a>))", "(?<a>)(?<\\u0061>)",
      "(?<a>)(?<b>)(?<a>)", "(?<a!>)", "(?<a=>)", "(?<a?>)")),
    ("UnicodePropertyValueExpression: a name of the tables",
     ("\\p{L}", "\\P{L}", "\\p{Lu}", "\\p{gc=Lu}", "\\p{General_Category=Uppercase_Letter}", "\\p{sc=Latn}",
      "\\p{Script=Latin}", "\\p{scx=Latn}", "\\p{Script_Extensions=Greek}", "\\P{scx=Zyyy}", "\\p{CWKCF}",
      "\\P{Changes_When_NFKC_Casefolded}", "[\\p{CWKCF}]", "[^\\P{scx=Grek}a]", "\\p{Alphabetic}", "\\p{Alpha}",
      "\\p{ASCII}", "\\p{Any}", "\\p{Assigned}", "\\p{White_Space}", "\\p{space}", "\\p{Emoji}", "\\p{RI}",
      "[\\p{L}-]", "[-\\p{L}]", "\\p{L}*"),
     ("\\p", "\\P", "\\pL", "\\p{", "\\p{}", "\\p{L", "\\p{l}", "\\p{lu}", "\\p{Latn}", "\\p{Latin}", "\\p{ L}",
      "\\p{L }", "\\p{gc=}", "\\p{=Lu}", "\\p{gc=Lu=Lu}", "\\p{gc=Latn}", "\\p{sc=Lu}", "\\p{scx=Lu}",
      "\\p{scx=latn}", "\\p{scx=}", "\\p{scx}", "\\p{Script_Extensions}", "\\p{script_extensions=Latn}",
      "\\p{SCX=Latn}", "\\p{cwkcf}", "\\p{CWKCF=Y}", "\\p{CWKCF=Yes}", "\\p{Alphabetic=Y}", "\\p{alphabetic}",
      "\\p{^L}", "\\p{IsLatin}", "\\p{Basic_Emoji}", "\\p{RGI_Emoji}", "[\\p{X}]", "\\p{Age=1.1}",
      "\\p{Block=ASCII}", "\\p{Line_Break=AL}", "\\p{Hyphen}", "\\p{Other_Alphabetic}", "[\\p{L}-a]", "[a-\\p{L}]")),
    ("CharacterClass: both ends of a range are characters, and in order",
     ("[]", "[]a", "[^]", "[a]", "[^a]", "[a-z]", "[a-a]", "[-]", "[--]", "[---]", "[a-]", "[-a]", "[a-b-c]",
      "[a-b-]", "[^-a]", "[^^]", "[a^]", "[+--]", "[[]", "[[a]", "[(]", "[)]", "[{}]", "[|]", "[*]", "[.]", "[$]",
      "[\\b]", "[\\b-\\t]", "[\\0-\\x1f]", "[\\d-]", "[-\\d]", "[!--]", "[\U0001f600-\U0001f601]", "[a&&b]",
      "[\\--\\/]", "[\\cA-\\cZ]", "[,-.]", "[a-\\u{10FFFF}]"),
     ("[", "[a", "[^", "[a-", "[\\]", "[z-a]", "[b-a]", "[a--]", "[a-\\d]", "[\\d-z]", "[\\d-\\d]", "[\\w-]a]",
      "[\\s-a]", "[\U0001f601-\U0001f600]", "[\\b-\\x07]", "[\\u{10FFFF}-a]", "[.--]", "[a]]", "[z-\\-]", "[\\/-\\-]")),
)


def whole_rows():
    """The rows of the whole grammar of patterns."""
    for rule, right, wrong in WHOLE_RULES:
        yield f"the whole grammar: {rule}"
        yield {"ask": "texts", "of": WHOLE_PATTERNS, "yes": list(right), "no": list(wrong)}, len(right) + len(wrong)
    yield "the whole grammar: each character behind a backslash, in a pattern and in a class"
    places = [["\\", ""], ["a\\", "b", "c"], ["(?=\\", ")"], ["a|\\", ""]]
    yield characters(WHOLE_PATTERNS, SYNTAX + "dDsSwWfnrtvbB0", places)
    yield characters(WHOLE_PATTERNS, SYNTAX + "dDsSwWfnrtvb0-", [["[\\", "]"], ["[^a\\", "]"]])
    wide = "\u00e9\u017f\u212a\u2028\u200d\ufeff\uff0d\U0001f600"
    yield characters(WHOLE_PATTERNS, "", [["\\", ""], ["[\\", "]"]], wide)
    yield "the whole grammar: neither the depth nor the length has a limit"
    openings = ("(", "(?:", "(?=", "(?!", "(?<=", "(?<!")
    right = [[[opening, times], [")", times]] for opening in openings for times in (1000, 10000)]
    right += [[["a", 100000]], [["a{1000}", 1000]], [["(?:", 5000], ["a", 1], [")*", 5000]],
              [["()", 1000], ["\\1000", 1]]]
    wrong = [[[opening, 1000], [")", times]] for opening in openings for times in (999, 1001)]
    wrong += [[["(", 100000]], [["()", 999], ["\\1000", 1]], [["(?=", 5000], ["a", 1], [")*", 5000]],
              [["(", 1000], [")*", 1000], ["*", 1]]]
    yield {"ask": "long texts", "of": WHOLE_PATTERNS, "yes": right, "no": wrong}, len(right) + len(wrong)


def whole_property_rows():
    """The names of properties and of their values, in the whole grammar."""
    yield ("the whole grammar: each property and each value by each of its names, Script_Extensions with those of "
           "Script; and one letter off")
    categories, scripts = ([name for names, _ in values_of(table) for name in names] for table in (CATEGORIES, SCRIPTS))
    binaries = [name for names in BINARIES for name in names.split("/")]
    binaries += [*MADE, "Changes_When_NFKC_Casefolded", "CWKCF"]
    prefixes = (("", categories + binaries), ("gc=", categories), ("General_Category=", categories), ("sc=", scripts),
                ("Script=", scripts), ("scx=", scripts), ("Script_Extensions=", scripts))
    for prefix, names in prefixes:
        yield texts(WHOLE_PATTERNS, [f"\\p{{{prefix}{name}}}" for name in names], lambda text: True)
    for prefix, names in (("", categories + binaries), ("gc=", categories), ("scx=", scripts)):
        off = sorted({spoilt for name in names for spoilt in one_letter_off(name)} - set(names))
        yield texts(WHOLE_PATTERNS, [f"\\p{{{prefix}{name}}}" for name in off], never)
    others = [*OTHER_PROPERTIES, *(f"{name}={value}" for name in binaries for value in ("", "Y", "Yes", name))]
    others += [f"{prefix}={name}" for prefix in ("scx", "Script_Extensions", "sc") for name in categories + binaries]
    prefixes = ("", "gc", "scX", "Scx", "script_extensions", "ScriptExtensions", "Scripts")
    others += [f"{prefix}={name}" for prefix in prefixes for name in (*scripts[:4], *binaries[:4])]
    yield texts(WHOLE_PATTERNS, [f"\\p{{{name}}}" for name in others], never)


HEXADECIMAL = DIGITS + "ABCDEFabcdef"
UNFIT = "([{\\)]}"
# Atoms, those that the engine does not take, and what is no atom; what may stand behind an atom, and what may not.
ATOMS = (
    "a", "\u00e9", "\uffff", "\U0001f600", "\ufeff", " ", "/", "-", ",", ".", "\\.", "\\/", "\\n", "\\d", "\\W",
    "\\0", "\\cA", "\\x41", "\\u0041", "\\u{1F600}", "\\ud83d\\ude00", "\\p{L}", "\\P{scx=Latn}", "[a]", "[^a]",
    "[^]", "[]", "(a)", "()", "(?:a)", "(?:)", "(?<n>a)", "(|)", "((?=a))", "(?:^)")
ALONE = ("(a)\\1", "\\1(a)\\1", "(?<n>)\\k<n>", "\\ud83d", "\\ude00", "\\u{D83D}", "\\p{CWKCF}")
NO_ATOMS = (
    "", "^", "$", "\\b", "\\B", "(?=a)", "(?!a)", "(?<=a)", "(?<!a)", "|", "a|", "(?=a)|", "a^", "(a)(?=a)", "a*?")
BEHIND_ATOMS = (
    "*", "+", "?", "*?", "+?", "??", "{0}", "{1}", "{2,}", "{2,3}", "{3,3}", "{2,10}", "{0}?", "{2,}?", "{2,3}?")
BEHIND_NOTHING = (
    "**", "*+", "+*", "++", "?*", "?+", "???", "*??", "+??", "{1}{1}", "{1}*", "{1}+", "{1}??", "{,1}", "{}", "{,}",
    "{2,1}", "{10,2}", "{a}", "{1", "{1,", "{1,2", "{ 1}", "{1 }", "{1,2,3}")
# Characters that are shown as nothing, as a blank or with the one before.
HARDLY_SEEN = (
    "\0\t\n\r #\u00a0\u00ad\u0300\u034f\u061c\u180e\u200b\u200d\u200e\u2028\u2060\ufe0f\ufeff\ufffe\U000e0020")


def character_rows():
    """Characters that stand for themselves, of each kind."""
    yield "each character that is none of the syntax is one of a pattern: by itself, in a class and in a name's place"
    ranges = ((0, 0x180), (0x370, 0x3A3), (0x2000, 0x2070), (0xD7F0, 0xD800), (0xE000, 0xE010), (0xF8F0, 0xF910),
              (0xFDC8, 0xFDF4), (0xFE00, 0xFE10), (0xFFE0, 0x10010), (0x1FFF0, 0x20010), (0xE0000, 0xE0080),
              (0xEFFF0, 0xF0010), (0xFFFF0, 0x100010), (0x10FFF0, 0x110000))
    tried = [chr(point) for first, end in ranges for point in range(first, end)]
    yield refusals("taken", [f"{character}+" for character in tried if character not in SYNTAX[:-1]])
    yield refusals("taken", [f"[{character}]" for character in tried if character not in "\\]^"])
    yield texts(WHOLE_PATTERNS, tried, lambda text: text not in SYNTAX[:-1] or text in ".^$|")
    yield texts(WHOLE_PATTERNS, [f"[a{character}]" for character in tried], lambda text: text[2] not in "\\]")
    yield "what is shown as nothing or as little stands for itself: blanks, marks, what joins, and the byte order mark"
    rows = []
    for character in HARDLY_SEEN:
        for form in ("{}", "[{}]", "(?:{})", "{}{{1}}"):
            one = form.format(character)
            rows += [[f"^{one}$", character, True], [f"^{one}$", "", False], [f"^a{one}b$", "ab", False]]
            rows += [[f"^a{one}b$", f"a{character}b", True], [f"^{one}a", "a", False], [f"a{one}$", "a", False]]
    yield searches(rows)
    yield "each quantifier behind each atom, and behind what is none"
    for of, more in ((PATTERNS, ()), (WHOLE_PATTERNS, ALONE)):
        expected = {atom + quantifier: quantifier in BEHIND_ATOMS
                    for atom in (*ATOMS, *more) for quantifier in (*BEHIND_ATOMS, *BEHIND_NOTHING)}
        expected |= {none + quantifier: False for none in NO_ATOMS for quantifier in (*BEHIND_ATOMS, *BEHIND_NOTHING)}
        yield texts(of, expected, expected.get)


# What may stand behind a backslash and is whole.
WHOLE_ESCAPES = SYNTAX + "dDsSwWfnrtvbB"
CLASS_ESCAPES = SYNTAX + "dDsSwWfnrtvb-"
# What stands before a character and behind it, and the characters of ASCII that make a pattern there (section 22.2.1).
PLACES_OF_PATTERNS = (
    ("", "", but(UNFIT + "*+?")), ("a", "", but(UNFIT)), ("a*", "", but(UNFIT + "*+")), ("a+", "", but(UNFIT + "*+")),
    ("a?", "", but(UNFIT + "*+")), ("a{1}", "", but(UNFIT + "*+")), ("a*?", "", but(UNFIT + "*+?")),
    ("a{1}?", "", but(UNFIT + "*+?")), ("(?=a)", "", but(UNFIT + "*+?")), ("(?<=a)", "", but(UNFIT + "*+?")),
    ("^", "", but(UNFIT + "*+?")), ("$", "", but(UNFIT + "*+?")), ("\\b", "", but(UNFIT + "*+?")),
    ("(?:a)", "", but(UNFIT)), ("[a]", "", but(UNFIT)), ("(", ")", but(UNFIT + "*+?")), ("a|", "", but(UNFIT + "*+?")),
    ("(?", "a)", ":=!"), ("(?<", "a)", "=!"), ("(?<", ">a)", LETTERS + "$_=!"),
    ("(?<a", ">b)", LETTERS + DIGITS + "$_>"), ("(?<a", "b)", ">"), ("(?", "=a)", ":=!<"), ("(?", "n>a)", ":=!<"),
    ("(?<", "u0061>b)", LETTERS + "$_=!\\"), ("(?<a", "u0061>b)", LETTERS + DIGITS + "$_\\>"),
    ("(?<\\", "0061>b)", "u"), ("(?<\\u00", "1>b)", "4567CDEFcdef"), ("(?<\\u{61", ">b)", "}"),
    ("a{", "}", DIGITS), ("a{1", "", "}"), ("a{1", "}", DIGITS + ","), ("a{1,", "}", DIGITS[1:]), ("a{1,2", "", "}"),
    ("a{1,2", "}", DIGITS), ("a{,", "}", ""), ("\\x", "4", HEXADECIMAL), ("\\x4", "", HEXADECIMAL),
    ("\\u", "041", HEXADECIMAL), ("\\u004", "", HEXADECIMAL), ("\\u{", "}", HEXADECIMAL), ("\\u{4", "", "}"),
    ("\\u{4", "}", HEXADECIMAL), ("\\c", "", LETTERS), ("\\0", "", but(UNFIT + DIGITS)), ("\\p", "{L}", ""),
    ("\\p{", "}", "CLMNPSZ"), ("\\P{L", "}", "Clmotu"), ("\\p{L", "", "}"), ("\\p{gc=", "}", "CLMNPSZ"),
    ("\\p{gc", "L}", "="), ("[", "]", but("\\]")), ("[a", "]", but("\\]")), ("[^", "]", but("\\]")),
    ("[a-", "]", span(0x61, 0x7F)), ("[", "-m]", span(0, 0x6D).replace("]", "")), ("[\\c", "]", LETTERS),
    ("[\\x", "4]", HEXADECIMAL), ("[\\x4", "]", HEXADECIMAL), ("[\\u", "041]", HEXADECIMAL),
    ("[\\u{", "}]", HEXADECIMAL), ("[\\u{4", "]", "}"), ("[\\p{", "}]", "CLMNPSZ"), ("[\\P", "{L}]", ""),
    ("\\", "41", WHOLE_ESCAPES + "x"), ("\\", "0041", WHOLE_ESCAPES + "xu"), ("\\", "A", WHOLE_ESCAPES + "0c"),
    ("\\", "{41}", WHOLE_ESCAPES.replace("b", "").replace("B", "") + "0u"), ("\\", "{L}", "pP"), ("\\u", "41}", "{"),
    ("\\p", "L}", "{"), ("[\\", "41]", CLASS_ESCAPES + "x"), ("[\\", "0041]", CLASS_ESCAPES + "xu"),
    ("[\\", "A]", CLASS_ESCAPES + "0c"), ("[\\", "{41}]", CLASS_ESCAPES + "0u"), ("[\\", "{L}]", CLASS_ESCAPES + "0pP"),
    ("a", "1}", "{"), ("a{1", "2}", DIGITS + ","), ("[b", "a]", but("\\]-")), ("[\\d", "a]", but("\\]-")),
    ("[b-", "|c", "]"), ("[", "-A]", span(0, 0x41) + "\\^"), ("[", "", "]"), ("[^", "", "]"), ("[a-", "", "]"),
    *((f"a{before}", behind, but(UNFIT + "*+?")) for before, behind in (
        ("^", ""), ("$", ""), ("\\b", ""), ("\\B", ""), ("(?=a)", ""), ("(?<!a)", ""), ("|", ""), ("(", ")"),
        ("(?:", ")"), ("(?=", ")"), ("(?<=", ")"), ("(?<n>", ")"))),
    *((before, "", "") for before in (
        "(?", "(?<", "(?<a", "(?<\\", "(?<\\u", "(?<\\u{", "(?<a\\u0", "[\\", "[\\x", "[\\x4", "[\\u", "[\\u{",
        "[\\u004", "[\\p", "[\\p{", "[\\p{L", "[\\c", "\\x", "\\u", "\\u{", "\\u00", "\\p", "\\p{", "\\p{L=", "a{")))
# The same of what `EcmaPatterns` takes alone: a surrogate stands in a pair.
PLACES_OF_PAIRS = (("\\ud83d\\", "de00", "u"), ("\\ud83d", "ude00", "\\"), ("[\\ud83d", "ude00]", "\\"),
                   ("\\ud83d\\u", "e00", "Dd"), ("\\ud83d\\ud", "00", "CDEFcdef"), ("\\ud", "3d\\ude00", "89ABab"),
                   ("\\", "<a>(?<a>)", WHOLE_ESCAPES + "0"))
# The same of what `EcmaPatterns` does not take: back references, and surrogates alone.
PLACES_OF_WHOLE_PATTERNS = (
    ("(a)\\1", "", but(UNFIT + DIGITS)), ("()" * 10 + "\\1", "", but(UNFIT + DIGITS[1:])), ("\\k", "a>(?<a>)", "<"),
    ("\\k<", ">(?<a>)", "a"), ("\\k<a", "(?<a>)", ">"), ("\\k<a", ">(?<a>)(?<ab>)", ">b"),
    ("(?<a>)\\k<\\", "0061>", "u"), ("\\ud83d\\", "de00", SYNTAX + "dDsSwWfnrtvbB0cxu"),
    ("\\ud83d", "ude00", but("([{)]}")), ("[\\ud83d", "ude00]", but("]-")), ("\\", "<a>(?<a>)", WHOLE_ESCAPES + "01k"),
    ("()" * 100 + "\\", "", WHOLE_ESCAPES + DIGITS),
    *((before, "", "") for before in ("\\k", "\\k<", "(?<a>)\\k<\\", "(?<a>)\\k<\\u")))
# Ranges whose ends are signs of a class, sets or escapes, and classes that do not end.
RANGES = {
    "[^-A]": 1, "[^-\\d]": 1, "[^-\\x41]": 1, "[_-A]": 0, "[--,]": 0, "[---]": 1, "[--.]": 1, "[,--]": 1, "[.--]": 0,
    "[\\x2d--]": 1, "[\\x2e--]": 0, "[a-c-b]": 1, "[a-c--]": 1, "[a-c-]": 1, "[\\0-\\d]": 0, "[\\0-\\w]": 0,
    "[\\0-\\p{L}]": 0, "[\\d-\\w]": 0, "[\\b-\\x08]": 1, "[\\x08-\\b]": 1, "[\\x09-\\b]": 0, "[\\b-\\x07]": 0,
    "[\\a": 0, "[\\B": 0, "[\\k": 0, "[\\a|b": 0, "[\\B|b": 0, "[a-\\uD83D\\uDE00-b]": 1, "[a-\\u{1F600}-b]": 1}
RANGES_OF_SURROGATES = {
    "[a-\\uD83D-b]": 1, "[a-\\u{D83D}-b]": 1, "[\\d\\uDC00-\\uFFFF]": 1, "[a\\uDC00-\\uFFFF]": 1,
    "[-\\uDC00-\\uFFFF]": 1, "[\\uD800\\d]": 1, "[\\uD800\\d-\\u{10FFFF}]": 0, "[\\uD800\\d-\\uFFFF]": 0,
    "[\\0-\\uD83D]": 1, "[\\0-\\uD83D\\d]": 1, "[\\uD83E-\\uD83D\\d]": 0}
REFERENCES = {"(a)\\2\\1": 0, "\\2\\1(a)": 0, "\\3\\1\\2(a)(b)": 0, "(a)\\1\\1": 1, "(a)(b)\\1\\2\\1": 1,
              "(a)(b)\\3\\1": 0}
# Classes of ranges about the ends of the surrogates: a leading one makes one character of a class with a trailing one
# behind it, and all others stand for themselves.
PAIRS_IN_CLASSES = {
    "[\\uD7FF\\uDC00-\\uFFFF]": 1, "[\\uD800\\uDC00-\\uFFFF]": 0, "[\\uDBFF\\uDC00-\\uFFFF]": 0,
    "[\\uDC00\\uDC00-\\uFFFF]": 1, "[\\uD800\\uDBFF-\\uFFFF]": 1, "[\\uD800\\uDFFF-\\uFFFF]": 0,
    "[\\uD800\\uE000-\\uFFFF]": 1, "[\\uDBFF\\uDBFF-\\uFFFF]": 1, "[\\uDBFF\\uE000-\\uFFFF]": 1,
    "[\\uDBFF\\uDFFF-\\uFFFF]": 0, "[\\u{D800}\\uDC00-\\uFFFF]": 1, "[\\uD800\\u{DC00}-\\uFFFF]": 1,
    "[\\uFFFF-\\uD7FF\\uDC00]": 0, "[\\uFFFF-\\uD800\\uDC00]": 1, "[\\uFFFF-\\uDBFF\\uDFFF]": 1,
    "[\\uFFFF-\\uDC00\\uDFFF]": 0, "[\\uFFFF-\\uD800\\uDBFF]": 0, "[\\uFFFF-\\uD800\\uE000]": 0}
# Atoms of a class, each with the code point that it stands for, if it does.
CLASS_ATOMS = {"a": 0x61, "z": 0x7A, "\\x05": 5, "-": 0x2D, "\\uD83D": 0xD83D, "\\uDE00": 0xDE00, "\\u{DE00}": 0xDE00,
               "\\uE000": 0xE000, "\\d": None}


def are_class_contents(atoms):
    """Whether atoms one behind another are ClassContents (section 22.2.1), whose ranges are in order."""
    written = "\0".join(atoms).replace("\\uD83D\0\\uDE00", "\\u{1F600}").split("\0")
    values = [0x1F600 if atom == "\\u{1F600}" else CLASS_ATOMS[atom] for atom in written]
    place = 0
    while place < len(values):
        is_range = written[place + 1:place + 2] == ["-"] and place + 2 < len(values)
        if is_range and not (None not in values[place:place + 3] and values[place] <= values[place + 2]):
            return False
        place += 3 if is_range else 1
    return True


def is_taken_pair(one, other):
    """Whether both units are no surrogates, or are those of one character, the first the leading one."""
    is_alone = [not "D800" <= unit <= "DFFF" for unit in (one, other)]
    return all(is_alone) or "D800" <= one <= "DBFF" and "DC00" <= other <= "DFFF"


def place_rows():
    """What may stand at each place of what is read, and what ends within it."""
    yield "each character of ASCII at each place of what a pattern is read by (section 22.2.1)"
    for of, more in ((PATTERNS, PLACES_OF_PAIRS), (WHOLE_PATTERNS, PLACES_OF_WHOLE_PATTERNS)):
        places = PLACES_OF_PATTERNS + more
        for before, behind, accepted in places:
            yield characters(of, accepted, [[before, behind]])
    yield "patterns that end within a term"
    unfinished = [text[:end] for text, least in UNFINISHED for end in range(least, len(text))]
    unordered = [f"[b-{end}" for end in ("a", "\\x61", "\\cA", "\\0", "\\d", "\\p{L}", "a|c", "a]", "\\b]", "\\d]")]
    for of in (PATTERNS, WHOLE_PATTERNS):
        yield texts(of, unfinished + unordered, never)
        yield texts(of, [text for text, _ in UNFINISHED], lambda text: True)
    yield "ranges by their ends"
    controls = {f"\\c{letter}": ord(letter) % 32 for letter in LETTERS}
    ranges = {f"[{one}-\\x{number + step:02x}]": step >= 0 for one, number in controls.items() for step in (-1, 0, 1)}
    ranges |= {f"[\\x{number + step:02x}-{one}]": step <= 0 for one, number in controls.items() for step in (-1, 0, 1)}
    for of in (PATTERNS, WHOLE_PATTERNS):
        yield texts(of, RANGES, RANGES.get)
        yield texts(of, ranges, ranges.get)
    yield "the whole grammar: ranges by their ends, surrogates among them, and back references above the last"
    for line in class_rows():
        if not isinstance(line, str) and line[0]["ask"] == "texts":
            yield {**line[0], "of": WHOLE_PATTERNS}, line[1]
    yield texts(WHOLE_PATTERNS, RANGES_OF_SURROGATES, RANGES_OF_SURROGATES.get)
    yield texts(WHOLE_PATTERNS, REFERENCES, REFERENCES.get)
    yield "pairs of surrogates: one unit of each kind beside one of each kind"
    units = ("0041", "D7FF", "D800", "DBFF", "DC00", "DFFF", "E000", "FFFF")
    pairs = {f"\\u{one}\\u{other}": is_taken_pair(one, other) for one in units for other in units}
    yield texts(PATTERNS, pairs, pairs.get)
    yield texts(PATTERNS, [f"[{pair}]" for pair in pairs], lambda text: pairs[text[1:-1]])
    yield texts(WHOLE_PATTERNS, [*pairs, *(f"[{pair}]" for pair in pairs)], lambda text: True)
    yield "the whole grammar: ranges about the ends of the surrogates"
    yield texts(WHOLE_PATTERNS, PAIRS_IN_CLASSES, PAIRS_IN_CLASSES.get)
    yield "the whole grammar: atoms of a class one behind another, surrogates among them"
    fronts = [(), ("a", "-", "\\uD83D"), ("\\uD83D", "-", "\\uD83D"), ("\\uE000", "-", "\\uD83D")]
    tails = [tail for size in range(1, 4) for tail in itertools.product(CLASS_ATOMS, repeat=size)]
    classes = {"[" + "".join(front + tail) + "]": are_class_contents(front + tail) for front in fronts
               for tail in tails}
    yield texts(WHOLE_PATTERNS, classes, classes.get)
