"""Literal patterns, and others by each outcome of an engine."""
from itertools import product

from rows.keywords.common import asked, requested
from rows.keywords.entries import literal_pattern
from rows.keywords.texts import DRAFTS
from rows.keywords.verdicts import rows_of_grammars

LITERAL = (
    ("^foo", ("foo", "foobar", "barfoo", "fo", "Foo", "")), ("^/", ("/", "/a", "a/")), ("^x-", ("x-a", "xa")),
    (r"^\/", ("/", "a")), (r"^\$ref$", ("$ref", "$refs", "ref", "\\$ref")),
    ("^foo$", ("foo", "foo\n", "foobar", "afoo")), ("^(b|a|b)$", ("a", "b", "ab")),
    ("^(get|put|post)$", ("get", "put", "post", "patch", "GET", "gets", "get|put", "")),
    (r"^(a\|b|\(c\))$", ("a|b", "(c)", "a", "b")), ("^(single)$", ("single", "singl")),
    (r"^\S*$", ("", "hello", "hello world", "a\tb", "a\u00a0", "\u1680", "\u2028", "\u3000", "\ufeff", "\u0085",
                "\u180e")),
    ("^0123456789$", ("0123456789", "012345678")), ("^" + "".join(map(chr, range(97, 123))), ("abc",)),
    ("^" + "".join(map(chr, range(65, 91))) + "$", ("ABC",)), (r"^(\\|\/|\||\$)$", ("\\", "/", "|", "$", "\\\\")),
    ("^a\"b'<>$", ("a\"b'<>", "ab")), (r"^\^\.\*\+\?\(\)\[\]\{\}\\", ("^.*+?()[]{}\\", "^")),
    ("^A-Z a_z/:@#%&=,;~!", ("A-Z a_z/:@#%&=,;~!", "A")),
)
# White space of ECMA-262, and what lies near it or is white space to others.
SPACES = ("\t\n\v\f\r \xa0\u1680\u2000\u2001\u2002\u2003\u2004\u2005\u2006\u2007\u2008\u2009\u200a\u2028\u2029\u202f"
          "\u205f\u3000\ufeff")
NO_SPACES = ("\x00\x08\x0e\x1b\x1c\x1d\x1e\x1f!\x7f\x84\x85\x86\x9f\xa1\xad\u034f\u115f\u167f\u1681\u180e\u1fff\u200b"
             "\u200c\u200d\u2027\u202a\u202e\u2030\u205e\u2060\u2061\u2800\u2fff\u3001\u3164\ufefe\uff00\ufffd\ufffe"
             "\U000e0020")
NOT_LITERAL = ("", "a+", "foo", "^", "^$", "^()$", "^(a)", "^a$b", r"^\d", r"^\S*", "^\u00e9", "^(a|b|c^)$", "^a+",
               "^a.b$", "^[a]$", "a\"b", "^a|b$", r"^\S+$", "^(a|)$", "(?<=a)b", r"^[^\s]*$", "^(?:a|b)$",
               r"^a\-b", r"^\_", r'^\"', r"^\a", r"^\ ", "^a\tb$", "^a`b$", "abc$", r"^\u0061$", "^a{2}$", "^a?$",
               r"^\\$|^a", "^(a)|(b)$", "^((a))$", "(^a$)", "\n^a", "^ a$ ", "^a\u00e9$", "^\U0001f4a9a")


def patterns():
    """Literal patterns, which no builder is asked for, and others by each outcome of an engine."""
    for draft, (pattern, texts) in product(DRAFTS, LITERAL):
        yield asked(draft, {"pattern": pattern}, texts if draft in (4, 202012) else texts[:2])
    for sign in SPACES + NO_SPACES:
        yield asked(7, {"pattern": r"^\S*$"}, [sign, "a" * 40 + sign + "b" * 40])
    for pattern, texts in LITERAL:
        around = product(("", "a", "\n", " "), ("", "\n", "a"))
        yield asked(7, {"pattern": pattern}, [front + texts[0] + tail for front, tail in around])
    for pattern, texts in LITERAL:
        yield asked(7, {"pattern": pattern}, keyword="pattern", patterns=[[pattern, texts[0], "failed"]])
    for draft, pattern in product(DRAFTS, NOT_LITERAL):
        rows = [[pattern, "aa", "match"], ["other", "b", "match"], [pattern, "b", "backtracking"],
                [pattern, "b", "match"], [pattern, "c", "failed"]]
        yield asked(draft, {"pattern": pattern}, ["x"])
        if draft == 7 or pattern == "a+":
            yield asked(draft, {"pattern": pattern}, ["aa", "b", "c", "", 5], patterns=rows)
            yield asked(draft, {"pattern": pattern}, ["aa"], keyword="pattern", patterns=rows)
            yield asked(draft, {"pattern": pattern}, keyword="pattern", patterns=rows[1:2])
            yield asked(draft, {"pattern": pattern}, ["aa"], left_out=["pattern"])


# Parts of patterns that are next to literal ones: what stands before, in the middle and behind.
PATTERN_FRONTS = ("", "^", "^^", "(?:^)", r"\b", r"\A", "^ ", ".*^", "(?<=^)", "(?<!b)", "(?=a)")
PATTERN_MIDDLES = ("a", ".*", ".+", ".", ".*a", "a.*", "(a)", "(?:a)", "(?:)", "()", "(?:)a", "[a]", "[^]", "[^]*",
                   r"[\s\S]*", "[]", r"\d", r"\x61", r"\u0061", r"\t", r"\n", r"\0", r"\cA", "a{1}", "a{0}", "a{0,}",
                   "a*", "a?", "a+", "a|b", "a|", "|", "(a|b)", "(?:a|b)", "(a|b|)", r"\S*", r"\S+", r"\S", r"\^a",
                   r"\.a", r"a\$", "ab", "a b")
PATTERN_TAILS = ("", "$", "$$", r"\b", r"\B", "(?=b)", r"\z", r"\Z", "$ ", ".*$", "|^b$")


def patterns_next_to_literals():
    """A pattern that is next to a literal one is shown to the builder as it stands."""
    for parts in product(PATTERN_FRONTS, PATTERN_MIDDLES, PATTERN_TAILS):
        if "" in parts[::2] or parts in product("^", PATTERN_MIDDLES, PATTERN_TAILS):
            yield asked(7, {"pattern": "".join(parts)}, keyword="pattern")
    for middle in PATTERN_MIDDLES:
        for pattern in (middle, f"^{middle}", f"{middle}$", f"^{middle}$"):
            yield asked(202012, {"pattern": pattern}, ["a", "b", "", "a.*"])


# Patterns as other languages and libraries write them.
OTHER_SYNTAX = (
    "/^a/", "/^a$/", "/^a/i", "/a/", "^a/i", "(?i)^a", "(?i:^a)", "(?s)^a", "(?x)^ a", r"\Aa", r"\Aa\z", r"^a\Z",
    r"^a\z", r"\A\S*\z", r"^\S*\Z", "^[[:alpha:]]", r"^\p{L}", r"^\Qa\E", "^a(?#x)", r"^a\b", r"\ba", "*a", "a*", "a?",
    "%a%", "^*", "^a*$", 'r"^a"', "^(?<x>a)$", "^(?P<x>a)$", "^(?:a)$", "^(a)$|^b", "^a$|^b$", "^a|^b", "^(^a)$",
    "^a\\", "^a[", "^(a", "^a)$", r"^\S*$ ", r" ^\S*$", r"^\S*$\n", r"^\s*$", r"^\W*$", r"^\S{0,}$", r"^[\S]*$",
    r"^(\S*)$", "^a++", "^a$$", "^^a", "^(a||b)$")


def patterns_of_other_languages():
    """Each is shown to the builder as it stands, or compared where it is literal as it stands."""
    for pattern in OTHER_SYNTAX:
        yield asked(7, {"pattern": pattern}, ["a", "^a", "/^a/", "x"])
        yield requested(7, {"pattern": pattern}, "a")
        yield asked(7, {"pattern": pattern}, ["a", "x"], patterns=[[pattern, "a", "match"]])


def patterns_shown_whole():
    """A pattern stands whole in its errors, with what ends a text or a line elsewhere."""
    for sign in ("\0", "\n", "\r", "\x1a", "\x1b[0m", "\"", "\\\\", "\u2028", "\ufeff", "/", "%", "'"):
        for pattern in (f"^a{sign}b", f"^a{sign}b$", f"^(a{sign}b|c)$", f"a{sign}+b", f"{sign}*a", f"b+{sign}"):
            texts = ["x", "a", f"a{sign}b"]
            yield asked(7, {"pattern": pattern}, texts)
            if literal_pattern(pattern) is None:
                for outcome in ("match", "backtracking", "failed"):
                    yield asked(7, {"pattern": pattern}, texts[:2], patterns=[[pattern, "x", outcome]])
            yield requested(7, {"pattern": pattern}, "x")


def patterns_of_grammars():
    """A pattern is a literal one, of its kind, where the rows of patterns say so, and matches the same texts."""
    kinds = {"alternation": "AlternationPattern", "prefix": "PrefixPattern", "exact": "ExactPattern",
             "no": "NoWhitespacePattern"}
    for row in rows_of_grammars():
        for pattern, kind in row["rows"] if row["ask"] == "analyses" else ():
            found = literal_pattern(pattern)
            assert (found[0] if found else None) == kinds.get(kind.split(" ")[0]), pattern
            yield asked(7, {"pattern": pattern}, keyword="pattern")
        if row["ask"] == "matches":
            assert all(literal_pattern(row["of"])[1](text) for text in row.get("yes", ()))
            assert not any(literal_pattern(row["of"])[1](text) for text in row.get("no", ()))
            yield asked(202012, {"pattern": row["of"]}, [*row.get("yes", ()), *row.get("no", ())])


# Patterns that are literal, and patterns that are near to these.
NEAR_LITERALS = (
    "^(get|put|post)$", "^(single)$", r"^\$ref$", "^(a|b|c^)$", "foo", "^(b|a|b)$", r"^a\.b$", "^(x-foo|x-bar)$", "^x-",
    "^foo", "^(?!eo:)", "^[a-z]+$", r"^\-?\d+$", "^[a-z&&^b]+$", "^[a-z--b]$", r"^[\w--z]$", r"^[\d--z]$", "^[a~~b]$",
    "^[[a]]$", r"^[\s]$", r"^[^\s]$", r"^[a\s]$", r"^[\S]{1,5}$", "^.{0,404600}$", "(?<=ab)c", "(?<=a)b",
    r"^(\-?\d+(\.\d+)?),\s*(\-?\d+(\.\d+)?)$", r"^(?=\-?\d)\-?\d+$", r"\:", r"\@", r"[\:\@]", "[a-z&&^b]", "[a-z--b]",
    "[a~~b]", "[[a]]", r"\p{Letter}", "[", r"\u{110000}", "^a.*", r"^a\S*$", r"^[^\s]*$", r"^[\S]*$", "^(?:a|b)$",
    "^(a|b)", "^(a|b", "(a)$", "^(a|b)$$", "^(b|A|a|B)$", "^(Zebra|apple|Apple|zebra)$", "^(a|_|Z|~|0| |-)$",
    r"^(a|\^|Z|\]|\{|\/|9)$", "^(aB|Ab|ab|AB)$", "^(a|a-|a0|aA|a_|aa)$", "^a b$", "^a-b$", "^a/b$", r"^a\/b$", "^a@b$",
    "^a&b;", "^\"a\"$", "^'a'$", "^<a>$", r"^(\(|\))$", "^(b|a)$", "^(B|a)$", "^(ab|a)$", "^(10|9)$", r"^(\||a)$",
    r"^\{a\}", r"^\[\]", r"^\?\*\+$", "^%41", r"\Aa", "(?i)^a$", "^(?i)a$", "^[a]$", "^a{1}$", "^(a)|(b)$", "^a|^b",
    "(a|b)$", "^(?<n>a|b)$", "^(?:a|b)", "^(?=a)", "^(?=a)a$", "^(?!a)$", "^a.b$", r"^\x61$", r"^\u0061$", r"^\u{61}$",
    r"^\141$", "^.+$", r"^\S*?$", r"^\S{0,}$", r"^(\S*)$", r"^(?:\S*)$", r"^\S*\S*$", r"^\S*$$", r"^^\S*$", r"^\w*$",
    r"^\W*$", r"^\D*$", r"^\d+$", r"^\S\S*$", r"^\S*a$", r"^\S*|a$", r"^\S*$|a", r"^a\ b$", r"^a\tb$", r"^a\nb$",
    "^a\nb$", "^a\tb$", r"^a\-b$", r"^a\@b$", r"^\<a\>$", r"^(a|b\)$", "^(a|b)$c", "^(a|b)c$", "^c(a|b)$", "^(a|b)(c)$",
    "^(a|b+)$", "^(a|b)*$", "^(a|b)+$", "^(a|b)?$", "^(a|b){1}$", "^(a|^b)$", "^(a$|b$)", "^(a|b$)$", "^(a|[b])$",
    r"^(a|\d)$", r"^(a|\S*)$", "^a{2}", "^{a}$", "^ a$ ")
# Texts that are near to those that literal patterns with `a` and `b` match.
NEAR_TEXTS = (
    "Ab", "aB", "\0ab", "ab\r", "ab\nab", "ab\u0085", "a b", "a\nb", "\uff41b", "a\u00adb", "a\u200bb", "\u200bab",
    "ab\u200b", "ab\u0301", "a\u0301b", "aab", "ba", "^ab$", "^ab", "ab$", "\"ab\"", "/ab/", "\u0430b", "a\U0001d41b",
    "c", "C", "c ", "abc", "cab", "ab|c", "(ab|c)", "a.b", "a.b\n", "axb", "a\\.b", "A.B", "a\u3002b", "a\uff0eb", "$",
    "$$", "\\$", "$a", "a$", "\n$", "aa", "aaa", "aA", "abc$", "abb", "b", "ab", "AB", "ab ", " ab", "ab\0", "ab\n",
    "ab\r\n", "\nab", "ab\u2028", "abab", "a", "")
MATCHED = ("^ab$", "^ab", "^(ab|c)$", "^(c|ab)$", r"^a\.b$", r"^\$", "^(a|aa|ab)$", "^a b$", r"^\^ab\$$", "^f")


def near_literals():
    """A pattern is a literal one or another, and a literal one matches its own texts and none that is near."""
    yield from (asked(7, {"pattern": it}, keyword="pattern") for it in NEAR_LITERALS)
    yield from (asked(202012, {"pattern": it}, NEAR_TEXTS) for it in MATCHED)
