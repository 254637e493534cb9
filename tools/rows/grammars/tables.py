"""Patterns whose tables are as large as they may be, and characters that share a column."""
import itertools
import re

from rows.grammars.common import LETTERS, THREE_STEPS, TWO_STEPS, long_searches, searches, tables
from rows.grammars.looks import classes_of_bits

# How large a table may be (docs/DECISIONS.md): its rows times its columns times the steps of the pattern's instructions
# and classes, its rows, and its entries. The end of a text is a column too.
MOST_WORK, MOST_ROWS, MOST_ENTRIES = 2 << 20, 1024, 12288
# Patterns with a count: how many rows the table has for each that is counted and beside them, how many columns, and how
# many steps the same. A row is a state of the search: what the end of the text so far may be the beginning of. At the
# beginning of a text it is one of its own, and where nothing is read that may go on, there is one more.
COUNTED_TABLES = {
    "a{%d}": (1, 2, 3, 1, 1), "^a{%d}": (1, 2, 3, 1, 2), "a{%d}$": (1, 2, 3, 1, 2), "^a{%d}$": (1, 2, 3, 1, 3),
    ".{%d}": (1, 2, 3, 1, 1), "^a{0,%d}$": (1, 2, 3, 1, 3), "^a{%d}[^a]$": (1, 3, 3, 1, 5),
    "[^]{1000}[^]{%d}": (1, 1001, 2, 1, 1002), "\\p{L}{%d}": (1, 2, 3, 1, 1), f"{TWO_STEPS}{{%d}}": (1, 2, 3, 1, 2),
    "[\\p{L}\\p{N}]{600}[\\p{L}\\p{N}]{%d}": (1, 602, 3, 1, 602),
    f"{TWO_STEPS}{{600}}{TWO_STEPS}{{%d}}": (1, 602, 3, 1, 604),
    f"{THREE_STEPS}{{600}}{THREE_STEPS}{{%d}}": (1, 602, 3, 1, 606),
    f"[{LETTERS}0123456789_.]{{600}}[{LETTERS}0123456789_.]{{%d}}": (1, 602, 3, 1, 606),
    f"[{LETTERS}0123456789_]{{600}}[{LETTERS}0123456789_]{{%d}}": (1, 602, 3, 1, 604),
    f"^^[{LETTERS[:31]}]{{%d}}$": (1, 2, 3, 1, 4), f"^^[{LETTERS[:32]}]{{%d}}$": (1, 2, 3, 1, 5),
    "(?:ab){%d}": (2, 2, 4, 2, 2), "(?:a|b){%d}": (2, 2, 4, 5, 2), "^(?:a|b|c)d{%d}$": (1, 5, 6, 1, 13),
    "^[ab]+c{%d}$": (1, 3, 4, 1, 5), "^(?:ab)*c{%d}$": (1, 4, 5, 1, 9), "^(?:ab)+c{%d}$": (1, 4, 5, 1, 9),
    "\\ba{%d}": (1, 3, 4, 1, 2), "(?<=a)b{%d}": (1, 3, 4, 1, 5), "^a{%d}(?=b)": (1, 2, 4, 1, 6),
    "a{%d}(?=bc)": (1, 4, 5, 1, 7), "^(?=a{%d})": (1, 2, 3, 1, 2), "^(?!a{%d})": (1, 2, 3, 1, 2),
    "^(?=a{%d}b)^": (1, 3, 4, 1, 4), "^(?=.*\\d)a{%d}$": (1, 2, 3, 1, 3)}


def most_counted(rows_each, rows_beside, columns, steps_each, steps_beside):
    """The greatest count for which a table takes no more than it may."""
    def work(count):
        return (rows_each * count + rows_beside) * columns * (steps_each * count + steps_beside)
    return next(count for count in itertools.count() if work(count + 1) > MOST_WORK)


def table_limit_rows():
    """Patterns whose tables are as large as they may be, and those a count further."""
    yield ("the largest tables that there are, and a count more (docs/DECISIONS.md): rows times columns times the "
           "steps of instructions and classes up to 2,097,152, 1,024 rows, 12,288 entries")
    rows, long = [], []
    for pattern, size in COUNTED_TABLES.items():
        most = most_counted(*size)
        rows += [[pattern % (most + more), more < 1] for more in (-1, 0, 1, 2)]
    # 512 rows, four columns and 1,024 steps.
    rows += [["^" * (511 + more) + "ab{509}$", more < 1] for more in (-1, 0, 1)]
    # Nine characters back, and ten: the states are which of these characters are an `a`.
    rows += [["a[^]{8}", True], ["a[^]{9}", False], ["a[^]{9}|a{9}", True], ["a[^]{9}|a{10}", False]]
    for more in (-1, 0, 1, 2):
        rows.append([f"a[^]{{8}}[^a]|^b{{{MOST_ROWS - 1 - 768 + more}}}", more < 1])
    for columns in (96, 128, 256):
        classes = [f"[{sets}]" for sets in classes_of_bits(columns - 1) if sets]
        # The chain of classes, the state before it, and that behind another character.
        most = MOST_ENTRIES // columns - 2 - len(classes)
        rows += [[f"^{''.join(classes)}{classes[0]}{{{most + more}}}$", more < 1] for more in (-1, 0, 1, 2)]
    # Where each class has all characters, no state is left in which nothing goes on: so there is one row fewer.
    for beside, form in itertools.product((0, 1, 3), ("{0}[^]{{{1}}}[^]*", "[^]{{{1}}}{0}[^]+", "{0}[^]{{{1},}}")):
        most = most_counted(1, beside + 2, 2, 1, 2 * beside + 5)
        rows += [[f"^{form.format('[^]' * beside, most + more)}$", more < 1] for more in (0, 1)]
    yield tables(rows)
    yield "searches for these patterns"
    for more in (0, 1):
        for count, pattern in ((834 + more, "a{%d}"), (834 + more, "^a{%d}"), (833 + more, "^a{%d}$")):
            is_whole = pattern.endswith("$")
            for text, is_found in (
                    ([["a", count]], True), ([["a", count - 1]], False), ([["a", count + 1]], not is_whole),
                    ([["b", 1], ["a", count]], pattern[0] == "a"), ([["a", count], ["b", 1]], not is_whole),
                    ([["a", count - 1], ["\u00e9", 1]], False),
                    ([["a", count - 1], ["b", 1], ["a", count - 1]], False)):
                long.append([[[pattern % count, 1]], text, is_found])
        count = 361 + more
        for text, is_found in (([["ab", count]], True), ([["ab", count - 1], ["a", 1]], False),
                               ([["ab", count - 1], ["ba", count]], False), ([["ba", count], ["b", 1]], True)):
            long.append([[[f"(?:ab){{{count}}}", 1]], text, is_found])
        count = 22 + more
        for letter in ("a", "\u00e9", "\u4e00", "\U0001f600"):
            long += [[[[f"[^]{{1000}}[^]{{{count}}}", 1]], [[letter, 1000 + count]], True],
                     [[[f"[^]{{1000}}[^]{{{count}}}", 1]], [[letter, 999 + count]], False]]
        count = 255 + more
        for text, is_found in (
                ([["b", count]], True), ([["b", count - 1]], False), ([["c", 1], ["b", count]], False),
                ([["b", count - 1], ["a", 1], ["b", 8]], False), ([["b", count - 1], ["a", 1], ["b", 9]], True),
                ([["a", 10]], False), ([["a", 10], ["b", 1]], True), ([["ba", 8]], True), ([["a", 9], ["b", 1]], True)):
            long.append([[[f"a[^]{{8}}[^a]|^b{{{count}}}", 1]], text, is_found])
        count = 642 + more
        for text, is_found in (([["a", count], ["bc", 1]], True), ([["a", count - 1], ["bc", 1]], False),
                               ([["a", count + 9], ["bc", 1]], True), ([["a", count], ["cb", 1]], False),
                               ([["a", count], ["b", 1]], False), ([["bca", 2], ["a", count], ["bcb", 1]], True)):
            long.append([[[f"a{{{count}}}(?=bc)", 1]], text, is_found])
    yield long_searches(long)


# Properties of each kind, and of some characters those that have each (UnicodeData.txt, Scripts.txt, PropList.txt and
# DerivedCoreProperties.txt).
CHARACTERS_OF_KINDS = "Aa1.\u00aa\u00e9\u03a9\u2160\u4e00\uffff"
KINDS = {
    "Any": CHARACTERS_OF_KINDS, "ASCII": "Aa1.", "Assigned": CHARACTERS_OF_KINDS[:-1],
    "Alphabetic": "Aa\u00aa\u00e9\u03a9\u2160\u4e00", "Lowercase": "a\u00aa\u00e9", "ASCII_Hex_Digit": "Aa1",
    "Lu": "A\u03a9", "Ll": "a\u00e9", "Nl": "\u2160", "L": "Aa\u00aa\u00e9\u03a9\u4e00", "N": "1\u2160",
    "sc=Latn": "Aa\u00aa\u00e9\u2160", "sc=Grek": "\u03a9", "sc=Zyyy": "1."}
# Classes that differ in one end of a range, in a range more, in their order, in a sign or in a property.
LIKE_CLASSES = ["[b-d]", "[a-d]", "[b-e]", "[b-c]", "[c-d]", "[b-dx]", "[xb-d]", "[b-dy]", "[bd]", "[b]", "[bb-d]",
                "[^b-d]", "[^b-e]", "\\p{Lu}", "\\P{Lu}", "\\p{Ll}", "\\p{L}", "\\p{sc=Latn}", "\\p{sc=Grek}",
                "\\P{sc=Grek}", "\\p{Alpha}", "\\p{Lower}", "\\p{Any}", "\\p{ASCII}", "\\p{Assigned}",
                "[\\p{Lu}b-d]", "[\\p{Lu}b-e]"]
# What has each property of them, of the characters below.
OF_LIKE_CLASSES = "abcdexyA\u03a9\u03b1.\uffff"
HAVING = {"\\p{Lu}": "A\u03a9", "\\p{Ll}": "abcdexy\u03b1", "\\p{L}": "abcdexyA\u03a9\u03b1",
          "\\p{sc=Latn}": "abcdexyA",
          "\\p{sc=Grek}": "\u03a9\u03b1", "\\p{Alpha}": "abcdexyA\u03a9\u03b1", "\\p{Lower}": "abcdexy\u03b1",
          "\\p{Any}": OF_LIKE_CLASSES, "\\p{ASCII}": "abcdexyA.", "\\p{Assigned}": OF_LIKE_CLASSES[:-1]}


def is_in_like_class(name, character):
    """Whether one of these classes has a character."""
    for written, having in HAVING.items():
        if name == written.replace("p", "P", 1):
            return character not in having
        name = name.replace(written, having if name[0] == "[" else f"[{having}]")
    return re.fullmatch(name, character) is not None


def like_class_rows():
    """Classes that are nearly the same, one behind another."""
    yield "classes that differ little, one behind another"
    rows = []
    for one, other in itertools.product(LIKE_CLASSES, repeat=2):
        ones, others = ([character for character in OF_LIKE_CLASSES if is_in_like_class(name, character)]
                        for name in (one, other))
        alone = [character for character in ones if character not in others][:1]
        alone += [character for character in others if character not in ones][:1]
        rows += [[f"^{one}{other}$", ones[0] + character, character in others] for character in alone]
        rows += [[f"^{one}{other}$", character + others[-1], character in ones] for character in alone]
    yield searches(rows)


def kind_rows():
    """Properties of each kind behind those of each kind."""
    yield "a property of each kind behind one of each kind, and each behind what lacks it"
    rows = []
    for (one, having), (other, also) in itertools.product(KINDS.items(), repeat=2):
        without_it = having[0] + "".join(character for character in CHARACTERS_OF_KINDS if character not in also)
        rows += [[f"^\\p{{{one}}}\\p{{{other}}}+$", having[0] + also, True],
                 [f"^\\p{{{one}}}.*\\p{{{other}}}", without_it, False]]
    for name, having in KINDS.items():
        lacking = "".join(character for character in CHARACTERS_OF_KINDS if character not in having)
        rows += [[f"^\\p{{{name}}}+\\P{{{name}}}+$", having + lacking, bool(lacking)],
                 [f"^\\P{{{name}}}+\\p{{{name}}}+$", lacking + having, bool(lacking)],
                 [f"^\\P{{{name}}}*\\p{{{name}}}{{2,}}", lacking + having[0], False]]
    yield searches(rows)
    yield "a property and a character behind what lacks the property, and the same character"
    rows = []
    for (name, having), one, character in itertools.product(KINDS.items(), "1.\u03a9", CHARACTERS_OF_KINDS):
        rows += [[f"^[\\p{{{name}}}{one}]+[\\P{{{name}}}{one}]$", one + character,
                  character == one or character not in having]]
    yield searches(rows)
