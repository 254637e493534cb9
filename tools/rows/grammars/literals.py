"""Literal patterns, by what `RegExp` of ECMA-262 means by them."""
import itertools
import re

from rows.grammars.common import ASCII, WHITE_SPACE, analyses, around, in_forms, matches, sums, words

NO_WHITE_SPACE = ("\u0000\u0008\u000e\u001c\u001f!\u0085\u009f\u00a1\u180e\u167f\u1681\u1fff\u200b\u2027\u202a\u202e"
                  "\u2030\u205e\u2060\u2fff\u3001\ufefe\uff00")
ANALYSES = [
    ["^\n", "none"], ["^a\n", "none"], ["^a\n$", "none"], ["^a$\n", "none"], ["\n^a$", "none"], ["^(a|b)$\n", "none"],
    ["^(a\n|b)$", "none"], ["^\\S*$\n", "none"], ["^\\s*$", "none"], ["^\\S*", "none"], ["\\S*$", "none"],
    ["^\\S+$", "none"], ["^\\\n$", "none"], ["^a\r", "none"], ["^aB", "prefix aB"], ["^aB$", "exact aB"],
    ["^(aB|Ab)$", "alternation Ab·aB"], ["^AZaz09$", "exact AZaz09"], ["^Ref$", "exact Ref"], ["\ufeff^a$", "none"],
    ["^\ufeffa$", "none"], ["^a$\ufeff", "none"], ["^a\u0000", "none"], ["^a\t", "none"], ["^a\u007f", "none"],
    ["^a\u2028$", "none"], ["^é$", "none"], ["^`$", "none"], ["^\\`$", "none"], ["^\\n$", "none"], ["^\\A$", "none"],
    ["^a$$", "none"], ["^^a$", "none"], ["^()$", "none"], ["^(a)", "none"], ["^(a|)$", "none"], ["^(|a)$", "none"],
    ["^(a)$a", "none"], ["^(a$", "none"], ["^a)$", "none"], ["^(?:a)$", "none"], ["^(a|(b))$", "none"],
    ["^(a|b$)", "none"], ["^\\(a\\)$", "exact (a)"], ["^a|b$", "none"], ["^a\\|b$", "exact a|b"]]
# An item: a letter, a digit, a space or one of these marks, or a backslash before a SyntaxCharacter of ECMA-262 or `/`.
ITEM = r"(?:[A-Za-z0-9 _/:@#%&=,;~!'\"<>-]|\\[\^$\\.*+?()\[\]{}|/])"


def analysis(pattern):
    """Which literal a pattern stands for, but for the one without white space."""
    found = re.fullmatch(rf"\^(?:(?P<run>{ITEM}+)(?P<end>\$?)|\((?P<some>{ITEM}+(?:\|{ITEM}+)*)\)\$)", pattern)
    if found is None:
        return "none"
    runs = [re.sub(r"\\(.)", r"\1", run) for run in re.findall(f"{ITEM}+", found["run"] or found["some"])]
    kind = "alternation" if found["some"] else "exact" if found["end"] else "prefix"
    return f"{kind} " + "\u00b7".join(sorted(runs))


def placed_items():
    """Each character of ASCII, as it is and behind a backslash, at each place of each form of a literal."""
    forms = ("^{}", "^{}a", "^a{}", "^a{}b", "^{}$", "^{}a$", "^a{}$", "^({})$", "^({}a|b)$", "^(a{}|b)$", "^(b|{}a)$",
             "^(b|a{})$", "^(a|b|{})$")
    for sign in ASCII:
        yield from (form.replace("{}", item) for form in forms for item in (sign, f"\\{sign}"))


def literal_rows():
    """What whole literals and prefixes match, and what they do not."""
    for pattern, literal in (("^ab$", "ab"), ("^aB\\.c$", "aB.c"), ("^a b$", "a b")):
        other_case = literal.lower() if literal != literal.lower() else literal.swapcase()
        spoilt = [literal.upper(), other_case, literal[:-1], literal[1:], literal * 2, "", literal + literal[-1]]
        yield matches(pattern, [literal], around(literal) + spoilt)
    for pattern, literal in (("^ab", "ab"), ("^x-", "x-"), ("^aB\\/", "aB/")):
        others = around(literal)
        begun = [text for text in others if text.startswith(literal)]
        spoilt = [text for text in others if not text.startswith(literal)] + [literal[:-1], literal.upper(), ""]
        yield matches(pattern, [literal, literal + "é", literal * 2] + begun, spoilt)
    others = ["GET", "put", "PUT", "get\n", "\nget", "getPut", "get|Put", "", "ge", "ets", "a  b", "\ufeffget"]
    yield matches("^(get|Put|a b)$", ["get", "Put", "a b"], others)


def short_patterns():
    """Words of the signs that literal patterns are made of, whole and behind what begins one."""
    yield from ["", *words("^$()|\\aS*/ ", (1, 2, 3))]
    yield from ("^" + word for word in words("$()|\\aS*", (3, 4)))
    yield from ("^(" + word for word in words("|)$\\a(", (1, 2, 3, 4, 5)))
    yield from ("^" + word + "$" for word in words("\\S*sd.a", (2, 3)))


def matched_rows():
    """Literal patterns of few letters, and which words of these letters each matches."""
    yield "exact texts, prefixes and alternations of one to three: which words they match"
    some = words("ab-", range(4))
    some += ["A", "aB", "Ab", "a\n", "\na", "ab\n", "a|b", "(a|b)", "^a", "a$", "\\a", "\u00e9", "a\u00e9"]
    literals = ["a", "b", "ab", "ba", "aa", "a-"]
    for literal in literals:
        yield matches(f"^{literal}$", [literal], [word for word in some if word != literal])
        yield matches(f"^{literal}", *[[word for word in some if word.startswith(literal) == is_right]
                                       for is_right in (True, False)])
    for size in (1, 2, 3):
        for at, chosen in enumerate(itertools.permutations(literals, size)):
            if size < 3 or at % 5 == 0:
                yield matches(f"^({'|'.join(chosen)})$", list(chosen), [word for word in some if word not in chosen])


def short_pattern_rows():
    """What short patterns are analyzed as."""
    yield "short patterns: each word of the signs of which literal ones are made"
    others = {"^\\S*$": "no whitespace"}
    patterns = list(dict.fromkeys(short_patterns()))
    yield analyses([[pattern, others.get(pattern) or analysis(pattern)] for pattern in patterns])


def pattern_rows():
    """The rows of literal patterns."""
    yield "literal patterns with line feeds, with both letter cases, and with a byte order mark"
    yield analyses(ANALYSES)
    yield "each character of ASCII, plain and escaped, at each place of each form"
    yield analyses([[pattern, analysis(pattern)] for pattern in dict.fromkeys(placed_items())])
    yield "characters past ASCII make no literal pattern, alone or behind a backslash, and no length is too great"
    forms = ("^{}", "^\\{}", "^a{}", "^{}$", "^a\\{}$", "^({}|a)$", "^(a|\\{})$", "^(a{}|b)$")
    wide = "\u0080\u00a0\u00aa\u00b5\u00e9\u00ff\u0430\u4e00\uff41\U0001d41a"
    yield analyses([[pattern, "none"] for pattern in in_forms(forms, wide)])
    long_ones = []
    for size in (31, 32, 33, 63, 64, 65, 127, 128, 129, 255, 256, 257, 1000, 1024, 5000):
        long_ones += [["^" + "a" * size, "prefix " + "a" * size], ["^" + "\\." * size + "$", "exact " + "." * size],
                      ["^" + "a" * size + "+", "none"]]
    for size in (2, 3, 8, 9, 10, 16, 17, 32, 33, 64, 65, 100, 101, 128, 129, 256, 257, 1000):
        chosen = [f"b{number:03}" for number in range(size)]
        long_ones += [["^(" + "|".join(reversed(chosen)) + ")$", "alternation " + "\u00b7".join(chosen)],
                      ["^(" + "|".join(chosen) + "|)$", "none"]]
    yield analyses(long_ones)
    yield from literal_rows()
    yield from short_pattern_rows()
    yield from matched_rows()
    yield "`^\\S*$` with a member of white space, or a character beside one, at each place of a block"
    for length in (0, 1, 31, 32, 33, 64):
        places = [at for at in sorted({0, 1, length // 2, length - 1, length}) if 0 <= at <= length]
        of_each = [[f"{'a' * at}{sign}{'a' * (length - at)}" for at in places for sign in signs]
                   for signs in (NO_WHITE_SPACE, WHITE_SPACE)]
        yield matches("^\\S*$", *of_each)
    yield "all code points: which are white space"
    yield sums("texts with white space", [["a", ""]], lambda point: chr(point) in WHITE_SPACE, 0x1000)
