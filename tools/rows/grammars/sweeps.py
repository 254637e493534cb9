"""What `\\s`, `\\d`, `\\w` and `.` have not, and the ends of runs of categories and of what has no script."""
import unicodedata

from rows.grammars.labels import ADDED_POINTS
from rows.grammars.members import ADDED_SCRIPTS, CHANGED, SCRIPT_RUNS, UNLIKE_17, table_of
from rows.grammars.common import searches
from rows.grammars.shared import LISTED, UNLIKE_18, points_in
from rows.grammars.sizes import CHANGED_POINTS, LETTERS_AND_MARKS

# WhiteSpace and LineTerminator of ECMA-262 2024 (sections 12.2 and 12.3); USP is each character of the category Zs, the
# same ones since Unicode 6.3.
SPACES = "\t\n\v\f\r \u00a0\u1680\u2000\u2001\u2002\u2003\u2004\u2005\u2006\u2007\u2008\u2009\u200a\u2028\u2029\u202f" \
    "\u205f\u3000\ufeff"
ENDS_OF_LINES = "\n\r\u2028\u2029"
# CharacterClassEscape :: d, and WordCharacters without the flag i (sections 22.2.2.9 and 22.2.2.9.3).
DIGITS = "0123456789"
WORD_CHARACTERS = DIGITS + "ABCDEFGHIJKLMNOPQRSTUVWXYZ_abcdefghijklmnopqrstuvwxyz"
# The characters of Unicode 3.2, which each later edition has too.
OLD = unicodedata.ucd_3_2_0
# Categories whose characters are blank, join words, have no glyph, or have a numeric value.
TELLING = frozenset(("Cc", "Cf", "Zs", "Zl", "Zp", "Pc", "Nd", "Nl", "No"))
# Blocks of which each character is tried: Latin 1 and Latin Extended A, spacing modifiers, fillers, general
# punctuation, letters and numbers in other forms, Braille, variation selectors, tags, and the last characters of all.
BLOCKS = (
    (0, 0x180), (0x2B0, 0x371), (0x600, 0x61D), (0x115F, 0x1161), (0x17B4, 0x17B6), (0x180A, 0x1810), (0x1D80, 0x1DC0),
    (0x2000, 0x2190), (0x2460, 0x2500), (0x2800, 0x2801), (0x3000, 0x3040), (0x3164, 0x3165), (0xFE00, 0xFE10),
    (0xFEFE, 0x10002), (0xE0000, 0xE0080), (0xE0100, 0xE01F0), (0x10FFFE, 0x110000))


def is_tried(point):
    """Whether a character stands in the rows: one of the blocks, a telling one, or the first or last of 256."""
    if 0xD800 <= point <= 0xDFFF:
        return False
    return (any(low <= point < high for low, high in BLOCKS) or OLD.category(chr(point)) in TELLING
            or (unicodedata.category(chr(point)) == "Nd" and point not in ADDED_POINTS)
            or (point % 256 in (0, 255) and point < 0x20000) or point % 0x10000 in (0, 1, 0xFFFE, 0xFFFF)
            or point in (0xD7FF, 0xE000, 0xF8FF))


def set_sweep_rows():
    """Each character that is tried, but those of the set, in one text."""
    tried = "".join(chr(point) for point in range(0x110000) if is_tried(point))
    yield ("\\s, \\d, \\w and . (ECMA-262 2024, 22.2.2.9, 12.2 and 12.3): no other character is of the set, of all "
           "categories of numbers, blanks and controls, of blocks with fillers, joiners and other forms of letters, "
           "and of the ends of each 256; and each of the set is")
    rows = []
    for letter, members in (("s", SPACES), ("d", DIGITS), ("w", WORD_CHARACTERS)):
        others = "".join(character for character in tried if character not in members)
        outside = letter.upper()
        rows += [[f"\\{letter}", others, False], [f"^[^\\{letter}]+$", others, True], [f"^\\{outside}+$", others, True],
                 [f"[\\{letter}]", others, False], [f"^[\\{outside}]*$", others, True]]
        rows += [[f"^\\{letter}+$", members, True], [f"^[\\{letter}]+$", members, True],
                 [f"\\{outside}", members, False], [f"[\\{outside}]", members, False],
                 [f"[^\\{letter}]", members, False], [f"^[^\\{outside}]*$", members, True]]
    others = "".join(character for character in tried if character not in WORD_CHARACTERS)
    rows += [["\\b", others, False], ["^(?:\\B[^])*\\B$", others, True]]
    others = "".join(character for character in tried if character not in ENDS_OF_LINES)
    rows += [["^.+$", others, True], ["[.]", others.replace(".", ""), False], [".", ENDS_OF_LINES, False]]
    yield searches(rows)


# What is for private use (section 23.5 of the Unicode Standard), and surrogates, which no text has.
PRIVATE_USE = "E000-F8FF F0000-FFFFD 100000-10FFFD"
SURROGATES = "D800-DFFF"


def gaps():
    """The first, a middle and the last of each run of code points that have no script, but the surrogates.

    Runs are left out in which Unicode 18 has more than Unicode 17.
    """
    tables = ((SCRIPT_RUNS, set(points_in(SURROGATES))), (ADDED_SCRIPTS, UNLIKE_17 | ADDED_POINTS))
    for table, points in tables:
        for entry in " ".join(table.split()).split(" / "):
            points.update(points_in(entry.split(": ")[1]))
    known, added = (points for _, points in tables)
    found, run = [], []
    for point in range(0x110001):
        if point < 0x110000 and point not in known:
            run.append(point)
        elif run:
            if added.isdisjoint(run):
                found += [run[0], run[len(run) // 2], run[-1]]
            run = []
    return [*dict.fromkeys(found)]


def gap_rows():
    """What is not assigned, between the runs of all scripts."""
    yield ("code points without a script are of the script Unknown, and but for those of private use not assigned (UAX "
           "#24, and table 2-3 of the Unicode Standard): the first, a middle and the last of each run of them")
    private = set(points_in(PRIVATE_USE))
    unknown = "".join(map(chr, gaps()))
    unassigned = "".join(character for character in unknown if ord(character) not in private)
    rows = [[f"^\\p{{{name}}}+$", unknown, True] for name in ("sc=Zzzz", "scx=Zzzz", "C", "Other")]
    rows += [[f"\\P{{{name}}}", unknown, False] for name in ("Script=Unknown", "Script_Extensions=Zzzz", "gc=C")]
    rows += [[f"\\p{{{name}}}", unknown, False]
             for name in ("L", "M", "N", "P", "S", "Z", "Cc", "Cf", "sc=Zyyy", "sc=Zinh", "scx=Zyyy", "scx=Zinh")]
    rows += [["^\\p{Cn}+$", unassigned, True], ["^\\P{Assigned}+$", unassigned, True], ["\\P{Cn}", unassigned, False],
             ["\\p{Assigned}", unassigned, False], ["^[^\\p{Co}\\p{Assigned}]+$", unassigned, True]]
    yield searches(rows)


# All values of General_Category that a character of a text may have, but for Cn.
CATEGORIES = ("Lu Ll Lt Lm Lo Mn Mc Me Nd Nl No Pc Pd Ps Pe Pi Pf Po Sm Sc Sk So Zs Zl Zp Cc Cf Co").split()
GROUPS = {"L": "L", "M": "M", "N": "N", "P": "P", "S": "S", "Z": "Z", "LC": ("Lu", "Ll", "Lt")}


def category_of_each():
    """The categories of letters, marks and digits up to Unicode 14, and of what Unicode 3.2 had, where none changed."""
    found = {}
    for point in {*range(0x110000)}.difference(CHANGED, CHANGED_POINTS, ADDED_POINTS):
        category, before = unicodedata.category(chr(point)), OLD.category(chr(point))
        if category in LETTERS_AND_MARKS or category == before != "Cn":
            found[point] = category
    return found


def category_run_rows():
    """The characters of each category, and those of another beside them."""
    yield ("the first, a middle and the last character of each run of one category, of letters, marks and digits of "
           "Unicode 14, and of all characters of Unicode 3.2, none of which has changed; and what stands beside them")
    known = category_of_each()
    runs = {category: [] for category in CATEGORIES}
    first = 0
    for point in range(1, 0x110001):
        if known.get(point) != known.get(first):
            if known.get(first) in runs:
                runs[known[first]] += [first, (first + point - 1) // 2, point - 1]
            first = point
    named = {name: [category for category in CATEGORIES if category.startswith(start)]
             for name, start in {**{category: category for category in CATEGORIES}, **GROUPS}.items()}
    rows = []
    for name, categories in named.items():
        points = sorted({point for category in categories for point in runs[category]})
        inside = "".join(map(chr, points))
        beside = sorted({point + off for point in points for off in (-1, 1)})
        outside = "".join(chr(point) for point in beside if known.get(point) in CATEGORIES
                          and known[point] not in categories)
        rows += [[f"^\\p{{{name}}}+$", inside, True], [f"\\P{{gc={name}}}", inside, False],
                 [f"[\\p{{General_Category={name}}}]", outside, False]]
    yield searches(rows)


def extension_end_rows():
    """Script_Extensions of characters without a list, at the ends of the runs of each script."""
    yield ("characters for which no scripts are listed have their own script alone by Script_Extensions (UAX #24, "
           "2.9): those at both ends of each run of each script, and those beside them")
    left_out = {*LISTED, *map(chr, UNLIKE_18)}
    rows = []
    added = table_of(ADDED_SCRIPTS, frozenset(), frozenset())
    for name, (inside, outside) in {**table_of(SCRIPT_RUNS), **added}.items():
        own, others = ("".join(one for one in some if one not in left_out) for some in (inside, outside))
        rows += [[f"^\\p{{scx={name}}}+$", own, True], [f"\\P{{Script_Extensions={name}}}", own, False],
                 [f"\\p{{scx={name}}}", others, False]]
    yield searches([row for row in rows if row[1]])
