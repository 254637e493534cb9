"""Other notations of characters, classes and properties, and what stands in a class."""
import itertools
import unicodedata

from rows.grammars.common import DIGITS, in_forms, never, refusals, searches, texts
from rows.grammars.properties import LINE_ENDS, PATTERNS, SYNTAX, escaped
from rows.grammars.limits import NOT_A_PATTERN, NOT_TAKEN
from rows.grammars.whole_patterns import HARDLY_SEEN, WHOLE_PATTERNS
from rows.grammars.edges import JOINED
from rows.grammars.likeness import alone_in_pattern, quoted

# Spellings of a character by its code; where they may stand, whatever the character is, and where none may.
BY_CODES = ("\\x{:02x}", "\\x{:02X}", "\\u{:04X}", "\\u{{{:x}}}", "\\u{{0{:X}}}")
PLACES_OF_CODES = (
    "{}", "a{}", "{}a", "{0}{0}", "({})", "(?:{}a)", "(?={}a)", "(?<=a{})", "a|{}", "{}|", "^{}$", "a*{}", "{}*",
    "a{{2}}{}", "[{}]", "[^{}]", "[{}a]", "[a{}]", "[z{}a]", "[^z{}a]", "[a-c{}]", "[a-c{}b]", "[\\d{}a]", "[a{}\\d]",
    "[{0}{0}]", "[{0}-{0}]", "[\\0-{}]", "[{}-\\x7f]", "[{}-]", "[-{}]", "[{}^]", "[\\]{}]")
NO_PLACES_OF_CODES = ("(?:{}", "a{{{}}}", "(?{}a)", "[{}-\\0]", "[\\d-{}]", "[b-a{}]", "\\p{{{}}}")


def sign_code_rows():
    """Signs of a pattern by their codes, which are characters that stand for themselves."""
    yield ("a sign of a pattern or of a class by its code is that character and no sign (22.2.1, CharacterEscape), in "
           "a pattern, in a class, and where no character may stand")
    signs = SYNTAX + "-&~,:=!<>#@%0acdkpuwx\n "
    written = [spelling.format(ord(sign)) for sign in signs for spelling in BY_CODES]
    right, wrong = PLACES_OF_CODES, NO_PLACES_OF_CODES
    for of in (PATTERNS, WHOLE_PATTERNS):
        yield texts(of, in_forms(right, written), lambda text: True)
        yield texts(of, in_forms(wrong, written), never)
    yield "what such a sign matches, and what a class has that has it"
    rows = []
    for sign, spelling in itertools.product(signs, BY_CODES):
        one = spelling.format(ord(sign))
        for text in dict.fromkeys((sign, "b", "a", "^", "\x01")):
            rows += [[f"^{one}$", text, text == sign], [f"^[{one}]$", text, text == sign],
                     [f"^[^{one}]$", text, text != sign], [f"^[a{one}c]$", text, text in ("a", sign, "c")],
                     [f"^[{one}a-b]$", text, text in (sign, "a", "b")],
                     [f"^[\\d{one}c]$", text, text == sign or text in DIGITS + "c"],
                     [f"^[{one}-{one}]$", text, text == sign], [f"^a{one}$", f"a{text}", text == sign],
                     [f"^a{one}$", "aa", sign == "a"], [f"^a{one}?b$", "ab", True],
                     [f"^(?:{one}|b)$", text, text in (sign, "b")]]
    yield searches(rows)


# Several characters that are one sign to a reader, or one and the same in another normal form.
CLUSTERS = (
    "e\u0301", "A\u030a", "\u1100\u1161", "\u1100\u1161\u11a8", "\uac00\u11a8", "\u0915\u093f", "\u0e01\u0e33",
    "\u2764\ufe0f", "#\ufe0f\u20e3", "\U0001f1e9\U0001f1ea", "\U0001f44d\U0001f3fd", "\U0001f469\u200d\U0001f4bb",
    "\r\n", "\u05d0\u05b8", "q\u0323\u0307", "\u4e00\U000e0100", "a\u200d", "\u0600\u0661", "fi", "ss", "...", "IJ",
    "dz", "1\u20442", "\u0969\u094d", "x\u0300\u0300", "\u304b\u3099", "\uff76\uff9e")
# Characters that are several in another normal form or letter case.
SEVERAL_ELSEWHERE = (
    "\u00e9\u00c5\u1e69\uac00\uac01\ufb01\u00df\u01c6\u2026\u00bd\u2460\u304c\u212b\u2126\u0958\ufb4f\u0149\u1f80")


def cluster_rows():
    """Several characters that are one sign, of which each is a character."""
    yield ("several characters that make one sign are as many characters as code points (22.2.2): in counts, before a "
           "quantifier, in a class, and beside the one character that they are in another normal form")
    rows = []
    for cluster in CLUSTERS:
        size, last = len(cluster), cluster[-1]
        first, single, members = alone_in_pattern(cluster[0]), alone_in_pattern(last), "".join(map(quoted, cluster))
        written = "".join(map(alone_in_pattern, cluster))
        for many in range(1, 6):
            rows += [[f"^[^]{{{many}}}$", cluster, many == size], [f"^\\p{{Any}}{{{many}}}$", cluster, many == size],
                     [f"^(?:[^][^]?){{{many}}}$", cluster, many <= size <= 2 * many]]
        for form, others in {
                f"^{written}?$": {cluster: 1, cluster[:-1]: 1, "": 0},
                f"^{written}+$": {cluster + last: 1, cluster * 2: {*cluster} == {last}},
                f"^{written}{{2}}$": {cluster + last: 1, cluster * 2: 0, cluster: 0},
                f"^(?:{written}){{2}}$": {cluster * 2: 1, cluster + last: 0},
                f"^[{members}]$": {cluster: 0, last: 1, cluster[0]: 1},
                f"^[^{members}]$": {cluster: 0, last: 0, "b": 1},
                f"^[{members}]{{{size}}}$": {cluster: 1, cluster[::-1]: 1}, f"(?<=^{first})[^]": {cluster: 1},
                f"^[^](?={single}$)": {cluster: size == 2}, f"^(?!{written}$)": {cluster: 0, cluster[:-1]: 1},
                first: {cluster: 1}, f"^{written}$": {cluster: 1, cluster + "a": 0}}.items():
            rows += [[form, text, bool(found)] for text, found in others.items()]
        for normal in ("NFC", "NFD", "NFKC", "NFKD"):
            other = unicodedata.normalize(normal, cluster)
            forms = "".join(map(alone_in_pattern, other))
            rows += [[f"^{written}$", other, other == cluster], [f"^{forms}$", cluster, other == cluster]]
    for one in SEVERAL_ELSEWHERE:
        others = [unicodedata.normalize(form, one) for form in ("NFD", "NFKD")] + [one.upper(), one.casefold()]
        for other in dict.fromkeys(others):
            if other != one:
                written, members = ("".join(map(form, other)) for form in (alone_in_pattern, quoted))
                rows += [[f"^{one}$", other, False], [f"^{written}$", one, False], [f"^[{one}]$", other, False],
                         [f"^[^{one}]$", other, len(other) == 1], [f"^[{members}]$", one, False]]
    yield searches(rows)


# What is passed over, or shown as nothing, where texts are compared or shown.
PASSED_OVER = dict.fromkeys((*map(chr, range(33)), *HARDLY_SEEN, *JOINED, *(
    "\u007f\u0085\u00a0\u115f\u1160\u17b4\u180b\u180f\u200c\u200f\u2028\u2029\u202a\u202e\u2061\u2064\u2066\u206f\u3164"
    "\ufe00\uffa0\ufff9\ufffb\ufffc\U0001bca0\U0001d173\U000e0001\U000e007f\U000e01ef\ue000\U0010fffd-'.")))


def passed_over_rows():
    """Characters of a text that other ways of comparing pass over."""
    yield "no character of a text is passed over: controls, what joins, marks, blanks and what is for private use"
    rows = []
    for one in PASSED_OVER:
        rows += [["^ab$", f"a{one}b", False], ["ab", f"a{one}b", False], ["^a[^]b$", f"a{one}b", True],
                 ["^a$", f"{one}a", False], ["^a+$", f"a{one}a", False], ["^$", one, False],
                 ["(?<=a)b", f"a{one}b", False], ["a(?=b)", f"a{one}b", False],
                 ["a(?!b)", f"a{one}b", True], ["^[ab]+$", f"a{one}b", False], ["^(?:ab|b)", f"{one}ab", False],
                 ["^\\w+$", f"a{one}b", False], ["^[^]{2}$", f"a{one}b", False], ["^a\\b[^]\\bb$", f"a{one}b", True],
                 ["^\\p{L}+$", f"a{one}b", one.isalpha()], ["^(?!.*b)", f"a{one}b", one in LINE_ENDS]]
    yield searches(rows)


# Other notations of a character, and the character.
OTHER_NOTATIONS = {
    "%41": "A", "&#65;": "A", "&#x41;": "A", "&amp;": "&", "&lt;": "<", "&quot;": "\"", "=41": "A", "0x41": "A",
    "u0041": "A", "x41": "A", "~A": "A", "%u0041": "A", "&AMP": "&", "%0A": "\n", "<LF>": "\n", "<0x0A>": "\n",
    "%%": "%", "''": "'", "\"\"": "\"", "&&": "&", "~~": "~", "@@": "@", "#A": "A", ":A:": "A", "{A}": "A",
    "[A]": "A", "(A)": "A", "\\A": "A", "\\u0041": "A", "\\x41": "A", "\\n": "\n", "\\\\": "\\", "$1": "A", "$&": "A",
    "${A}": "A", "^A": "\x01", "^J": "\n", "\\101": "A", "U+0041": "A", "\\cA": "\x01", "\\0": "\0", "\\t": "\t",
    "\\/": "/", "\\\"": "\"", "\\u{41}": "A"}


def notation_rows():
    """Characters as other notations write them."""
    yield ("what other notations write for a character stands for itself, in a text and, where a pattern may have it, "
           "in a pattern")
    rows = []
    for written, one in OTHER_NOTATIONS.items():
        itself, single = "".join(map(alone_in_pattern, written)), alone_in_pattern(one)
        members = "".join(map(quoted, written))
        rows += [[f"^{itself}$", written, True], [f"^{itself}$", one, False], [f"^{single}$", written, False],
                 [f"^[^]{{{len(written)}}}$", written, True], [f"^[{quoted(one)}]$", written, False],
                 [f"^[{members}]{{{len(written)}}}$", written, True], [f"^[{members}]$", one, one in written],
                 [f"^[^{members}]$", one, one not in written], [f"(?<=^{itself})", one, False]]
        if itself == written:
            rows += [[f"^(?:{written}|b)$", one, False], [f"{written}", f"b{written}b", True]]
    yield searches(rows)


# Classes of other notations (POSIX, UTS #18, the flag v, Java and others), and whether they are patterns here.
OTHER_CLASSES = {
    "[[:alpha:]]": 0, "[[:^alpha:]]": 0, "[[:word:]a]": 0, "[^[:digit:]]": 0, "[[=a=]]": 0, "[[.a.]]": 0,
    "[[:alpha:]": 1, "[:alpha:]": 1, "[[:]": 1, "[[.a.]": 1, "[[=a=]": 1, "[[a]b]": 0, "[a[b]]": 0, "[[a]&&[b]]": 0,
    "[a&&b]": 1, "[a&&[b]]": 0, "[a&&[^b]]": 0, "[a--b]": 0, "[b--a]": 0, "[a~~b]": 1, "[a||b]": 1, "[[a-z]--[b]]": 0,
    "[a-z--b]": 1, "[\\w--b]": 0, "[\\w--[b]]": 0, "[\\w&&\\d]": 1, "[\\p{L}&&\\p{N}]": 1, "[\\p{L}--\\p{N}]": 0,
    "[\\q{abc}]": 0, "[\\q{a|b}]": 0, "[a-z-[b]]": 0, "[a-z-[b]": 1, "[a-]]": 0, "[]a]": 0, "[^]a]": 0, "[a]]": 0,
    "[[]": 1, "[[[]": 1, "[[]]": 0, "[(a)]": 1, "[(?:a)]": 1, "[a|b]": 1, "[{2}]": 1, "[a{2}]": 1, "[a*+?]": 1,
    "[.]": 1, "[$^]": 1, "[^^$]": 1, "[\\R]": 0, "[\\h]": 0, "[\\X]": 0, "[\\N{DIGIT ONE}]": 0, "[\\N]": 0,
    "[\\Q*\\E]": 0, "[\\A]": 0, "[\\e]": 0, "[\\a]": 0, "[\\x{41}]": 0, "[\\o{101}]": 0, "[\\101]": 0, "[\\p L]": 0,
    "[\\pL]": 0, "[\\p{^L}]": 0, "[\\P{^L}]": 0, "[!a]": 1, "[a!b]": 1, "[#a]": 1, "[ a ]": 1, "[a b]": 1, "[a,b]": 1,
    "[\"a\"]": 1, "[/a/]": 1, "[a-z/]": 1, "[/*]": 1, "[//]": 1, "[a\nb]": 1, "[a#b]": 1, "[%]": 1, "[&]": 1,
    "[&&]": 1, "[&&&]": 1, "[!!]": 1, "[##]": 1, "[$$]": 1, "[%%]": 1, "[**]": 1, "[++]": 1, "[,,]": 1, "[..]": 1,
    "[::]": 1, "[;;]": 1, "[<<]": 1, "[==]": 1, "[>>]": 1, "[??]": 1, "[@@]": 1, "[^^^]": 1, "[``]": 1, "[~~]": 1}
# What some of them have, of the characters below.
HAVING_OTHERS = {
    "[:alpha:]": ":alph", "[[:alpha:]": "[:alph", "[[.a.]": "[.a", "[[=a=]": "[=a", "[a&&b]": "ab&", "[a~~b]": "ab~",
    "[a||b]": "ab|", "[a-z--b]": "abhlpz[].:=-?^21", "[a-z-[b]": "abhlpz-[", "[(a)]": "(a)", "[a{2}]": "a{2}",
    "[a*+?]": "a*+?", "[^^$]": "abhlpz[].:=&~|-(){}2*+? #\n,1", "[ a ]": " a", "[a\nb]": "a\nb", "[a#b]": "a#b",
    "[\\w&&\\d]": "abhlpz21&", "[a,b]": "a,b"}
TRIED_IN_OTHERS = "abhlpz[].:=&~|-(){}2*+?^$ #\n,1"


def other_class_rows():
    """Classes as other notations write them."""
    yield ("classes of other notations: a `[` in a class is a character, the first `]` ends it, and no two signs are "
           "one (22.2.1, CharacterClass without the flag `v`)")
    forms = ("{}", "a{}*", "({})|b", "(?={})", "(?<!{})")
    expected = {form.format(one): bool(is_right) for one, is_right in OTHER_CLASSES.items() for form in forms}
    for of in (PATTERNS, WHOLE_PATTERNS):
        yield texts(of, expected, expected.get)
    yield searches([[f"^{one}$", character, character in having]
                    for one, having in HAVING_OTHERS.items() for character in TRIED_IN_OTHERS])
    signs = "!#$%&*+,.:;<=>?@^`~-|(){}/\"'_ a0"
    doubled = {f"[a{one}{other}b]": one != "-" or other != "-" for one, other in itertools.product(signs, repeat=2)
               if "-" not in (one, other)}
    doubled |= {f"[a{one}{one}{one}b]": True for one in signs if one != "-"}
    for of in (PATTERNS, WHOLE_PATTERNS):
        yield texts(of, doubled, doubled.get)
    yield searches([[f"^[a{one}{other}b]$", text, text in ("a", "b", one, other)] for one, other in
                    itertools.product(signs.replace("-", ""), repeat=2) for text in ("a", "b", one, other, "c", "")])


# Properties that are not known here, and what may stand around one in a class.
UNKNOWN_PROPERTIES = (
    "\\p{Foo}", "\\P{Foo}", "\\p{gc=Foo}", "\\p{Script=Latim}", "\\p{scx=Latim}", "\\P{lu}", "\\p{a=b}", "\\p{Is_L}",
    "\\p{CWKCF}", "\\P{scx=Lu}")
PLACES_IN_CLASSES = (
    "[{}]", "[^{}]", "[a{}]", "[^a{}]", "[a-{}]", "[^a-{}]", "[\\d{}]", "[\\d-{}]", "[a-z{}]", "[a-z-{}]", "[-{}]",
    "[--{}]", "[\\p{{L}}{}]", "[\\P{{sc=Latn}}-{}]", "[{}b]", "[{}-b]", "[{}-]", "[{}", "[^{}", "[a-{}", "(?:[{}])",
    "(?=[^{}])", "(?<![a{}])", "[a][{}]", "[^][{}]", "[]{}", "[\\]{}]", "[[{}]", "[\\u0041{}]", "[\\cA-{}]",
    "[\\--{}]", "[\\0{}]", "[\\b{}]", "[b{}-a]", "[{0}{0}]", "[{}\\!]", "[{}b-a]", "[\\x41-\\x5a{}", "a*[{}]",
    "(?<n>[{}])", "[/{}]", "[^^{}]")


def class_reason_rows():
    """Properties that are not known here, at each place of a class."""
    yield "a property that is not known here is told at each place of a class, whatever stands behind it"
    yield refusals("it has a property that is not known here", in_forms(PLACES_IN_CLASSES, UNKNOWN_PROPERTIES))
    yield "and what makes no pattern before it is told first"
    spoilt = ("[b-a{}]", "[\\!{}]", "[\\d-a{}]", "[a-\\d{}]", "[\\c1{}]", "[\\u{{}}{}]", "[\\1{}]",
              "[\\k{}]", "[\\x4{}]", "[\\p{{L{}]", "]{}", "[^b-a{}]", "[\\B{}]", "[\\u{{110000}}{}]")
    yield refusals(NOT_A_PATTERN, in_forms(spoilt, UNKNOWN_PROPERTIES))
    # Behind a surrogate alone the one of them that ECMA-262 knows makes a pattern.
    yield refusals(NOT_TAKEN, ["[\\ud83d\\p{CWKCF}]"])
    unknown = [escape for escape in UNKNOWN_PROPERTIES if escape != "\\p{CWKCF}"]
    yield refusals(NOT_A_PATTERN, in_forms(("[\\ud83d{}]",), unknown))


# Code points at the ends of 64, 4,096 and more, where the bytes of a text are others.
FURTHER_ENDS = [place + more for place in (0x1F000, 0x40000, 0x80000, 0x100000) for more in (0, 0x40, 0x400, 0x800)]
ENDS_OF_POINTS = sorted({
    *range(0x40, 0x1000, 0x40), *range(0x1000, 0x11000, 0x1000), *range(0x10400, 0x20000, 0x400),
    *range(0x20000, 0x110000, 0x10000), *FURTHER_ENDS, 0x10FFC0} - {*range(0xD800, 0xE001)})


def page_edge_rows():
    """Ranges that begin or end at each of many code points."""
    yield ("ranges that begin before and behind the ends of 64, 4,096 and 65,536 code points: what is in them, in a "
           "class and a negated one, alone and beside others")
    rows = []
    for point in ENDS_OF_POINTS:
        before, at, behind, further = chr(point - 2), chr(point - 1), chr(point), chr(point + 1)
        for low, high in ((at, behind), (behind, further), (before, at)):
            low_written, high_written = escaped(low), escaped(high)
            others = [one for one in (before, at, behind, further) if one not in (low, high)]
            for text in (before, at, behind, further):
                is_in = low <= text <= high
                rows.append([f"^[{low_written}-{high_written}]$", text, is_in])
            rows += [[f"^[^{low_written}-{high_written}]+$", before + at + behind + further, False],
                     [f"^(?:a|[{low_written}-{high_written}])+$", f"{low}a{high}", True],
                     [f"[{low_written}-{high_written}]", "".join(others), False]]
    yield searches(rows)


# What stands in a class as it may be written, and what of the characters below it has; a set has no code point.
ATOMS_OF_CLASSES = {
    "a": "a", "z": "z", "-": "-", "^": "^", "\\x2d": "-", "\\-": "-", "\\d": "5", "\\p{Lu}": "M"}
SETS_AMONG_ATOMS = ("\\d", "\\p{Lu}")
TRIED_IN_CLASSES = "-.5Mam^z~"


def contents_of_class(atoms):
    """What atoms one behind another have, as those of a class (22.2.1, ClassContents); `None` where they are none."""
    having, place = "", 0
    while place < len(atoms):
        one = atoms[place]
        if atoms[place + 1:place + 2] == ("-",) and place + 2 < len(atoms):
            low, high = ATOMS_OF_CLASSES[one], ATOMS_OF_CLASSES[atoms[place + 2]]
            if one in SETS_AMONG_ATOMS or atoms[place + 2] in SETS_AMONG_ATOMS or low > high:
                return None
            having += "".join(character for character in TRIED_IN_CLASSES if low <= character <= high)
            place += 3
        else:
            having += ATOMS_OF_CLASSES[one]
            place += 1
    return having


def class_content_rows():
    """Characters, sets and hyphens one behind another in a class."""
    yield ("up to four characters, hyphens, signs by their codes and sets one behind another in a class and in a "
           "negated one: which are a class, and what up to three have")
    every = [atoms for size in range(1, 5) for atoms in itertools.product(ATOMS_OF_CLASSES, repeat=size)]
    told = {atoms: contents_of_class(atoms) for atoms in every}
    expected = {f"[{''.join(atoms)}]": having is not None for atoms, having in told.items() if atoms[0] != "^"}
    expected |= {f"[^{''.join(atoms)}]": having is not None for atoms, having in told.items() if len(atoms) < 4}
    for of in (PATTERNS, WHOLE_PATTERNS):
        yield texts(of, expected, expected.get)
    rows = []
    for atoms, having in told.items():
        if having is not None and len(atoms) < 4:
            has = "".join(character for character in TRIED_IN_CLASSES if character in having)
            lacks = "".join(character for character in TRIED_IN_CLASSES if character not in having)
            class_of, negated = f"[{''.join(atoms)}]", f"[^{''.join(atoms)}]"
            if atoms[0] != "^":
                rows += [[f"^{class_of}+$", has, True], [class_of, lacks, False]]
            rows += [[f"^{negated}*$", lacks, True], [negated, has, False]]
    yield searches(rows)
