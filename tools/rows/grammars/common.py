"""Rows, words of signs, and texts in many places, which the other parts have in common."""
import itertools
import re
import unicodedata

LETTERS = "ABCDEFGHIJKLMNOPQRSTUVWXYZabcdefghijklmnopqrstuvwxyz"
DIGITS = "0123456789"
ASCII = "".join(map(chr, range(128)))
BYTE_ORDER_MARK = "\ufeff"
# Classes of patterns that take two steps and three, by their properties: both are characters of every sort, not all.
TWO_STEPS = "[\\p{Lu}\\p{Ll}\\p{Lo}\\p{N}]"
THREE_STEPS = "[\\p{Lu}\\p{Ll}\\p{Lt}\\p{Lm}\\p{Lo}\\p{Nd}\\p{Nl}\\p{No}]"
# Ranges of two letters, which have no letter in common, and which have one.
PAIRS = "".join(f"{chr(start)}-{chr(start + 1)}" for start in range(0x4E00, 0x4E80, 3))
NEIGHBOURS = "".join(f"{one}-{other}" for one, other in itertools.pairwise(LETTERS))


# A row is its JSON and the number of its answers.

def texts(of, candidates, is_right):
    """The texts, each by what the rule says of it."""
    candidates = list(dict.fromkeys(candidates))
    row = {"ask": "texts", "of": of, "yes": [], "no": []}
    for text in candidates:
        row["yes" if is_right(text) else "no"].append(text)
    return row, len(candidates)


def characters(of, accepted, places, tried=None):
    """Which characters of those tried, or of ASCII, are accepted between the first two texts of each place.

    Those of a third text of a place are accepted there too.
    """
    row = {"ask": "characters", "of": of, "accepted": accepted, "places": places}
    if tried is not None:
        row["tried"] = tried
    return row, len(places) * len(ASCII if tried is None else tried)


def counts(of, part, low, high, below, places):
    """The part so many times over, from none to one less than `below`: right from `low` to `high` times."""
    row = {"ask": "counts", "of": of, "part": part, "from": low, "to": high, "below": below, "places": places}
    return row, below * len(places)


def searches(rows):
    """A pattern, a text, and whether it is found there; `None` for a pattern that is not taken."""
    return {"ask": "searches", "rows": rows}, len(rows)


def lenient(row):
    """The same row, for the engine that takes escapes of patterns without the flag `u`."""
    made, answers = row
    return {**made, "lenient": True}, answers


def long_searches(rows):
    """Searches whose patterns and texts are lists of parts, each with how many times it stands."""
    rows = [{"pattern": pattern, "text": text, "found": found} for pattern, text, found in rows]
    return {"ask": "long searches", "rows": rows}, len(rows)


def tables(rows):
    """A pattern, and whether it is searched by a table."""
    return {"ask": "tables", "rows": rows}, len(rows)


def decoded(of, rows):
    """A text and the bytes that it encodes, in hexadecimal. Each row has three answers."""
    return {"ask": "decoded", "of": of, "rows": rows}, 3 * len(rows)


def names(of, rows):
    """A name, and what it is the name of; `None` for nothing."""
    return {"ask": "names", "of": of, "rows": rows}, len(rows)


def analyses(rows):
    """A pattern, and which literal it stands for."""
    return {"ask": "analyses", "rows": rows}, len(rows)


def first_labels(rows):
    """A text, and the label at its front; `None` where there is none."""
    return {"ask": "first labels", "rows": rows}, len(rows)


def payloads(rows):
    """Texts of Punycode, and behind them what they encode; `None` for nothing."""
    return {"ask": "payloads", "rows": rows}, sum(len(row) - 1 for row in rows)


def refusals(of, patterns):
    """Patterns that are not taken for the same reason, or that are all taken."""
    return {"ask": "refusals", "of": of, "patterns": patterns}, len(patterns)


def matches(of, yes, no):
    """Texts that a pattern matches, and texts that it does not match."""
    return {"ask": "matches", "of": of, "yes": yes, "no": no}, len(yes) + len(no)


def whole(rule):
    """Whether the rule derives a text."""
    compiled = re.compile(rule)
    return lambda text: compiled.fullmatch(text) is not None


def never(text):
    """The rule that derives no text."""
    return False


def span(first, last):
    """The characters from one code point to another."""
    return "".join(map(chr, range(first, last + 1)))


def in_forms(forms, parts):
    """Each part, put into each form."""
    return [form.format(part) for part in parts for form in forms]


def with_each(constructs, places):
    """Each construct between the two texts of each place."""
    return [before + construct + behind for before, behind in places for construct in constructs]


def words(letters, sizes):
    """All words of these letters, of each of these sizes."""
    return ["".join(word) for size in sizes for word in itertools.product(letters, repeat=size)]


def at_places(labels, other, most=4):
    """Each label at each place of a name of up to so many, the other label at all others."""
    places = [(before, behind) for before in range(most) for behind in range(most - before)]
    return [".".join([other] * before + [label] + [other] * behind) for label in labels for before, behind in places]


def by_pairs(parts, turns=2):
    """Each choice of each part with each choice of each other part, so many times over.

    A part is two lists: choices that may stand there, and choices that may not. Of these a text has one at most. What
    the other parts have is told by turns from the first list of each.
    """
    made = {}
    for (one, ones), (other, others) in itertools.combinations(enumerate(parts), 2):
        pairs = [*itertools.product(ones[0], others[0] + others[1]), *itertools.product(ones[1], others[0])]
        for count, pair in enumerate(turns * pairs):
            chosen = [rights[(count * (at + 1) + count // len(pairs) + at) % len(rights)]
                      for at, (rights, _) in enumerate(parts)]
            chosen[one], chosen[other] = pair
            made["".join(chosen)] = None
    return list(made)


def repeated(of, parts, places, is_right):
    """Each part at each place, some times over."""
    return texts(of, [before + part * number + behind for before, behind in places for part in parts
                      for number in (2, 3, 4, 5, 9, 17)], is_right)


# Each sign of ASCII, and a character of each other kind.
SIGNS = "".join(sign for sign in ASCII[33:127] if not sign.isalnum()) + "a1 \n\u00e9"


def short_rows(rules, letters=SIGNS):
    """Of each format the empty text, each character of ASCII alone, and each pair of some characters."""
    yield "the shortest texts: none, one character and two"
    for of, is_right in rules.items():
        yield texts(of, ["", *ASCII, *words(letters, (1, 2))], is_right)


def rows_of(*parts):
    """The rows that each of these functions makes, in their order."""
    return itertools.chain.from_iterable(part() for part in parts)


def around(text):
    """What may not stand around a text that is whole."""
    return [f"{BYTE_ORDER_MARK}{text}", f"{text}{BYTE_ORDER_MARK}", f"{text}\n", f"\n{text}", f"{text}\r\n", f"{text} ",
            f" {text}", f"{text}\u0000", f"{text}\u2028"]


# What other programs take away from a text or put around it, and what they take for one of its characters.
WRAPS = ("<{}>", "[{}]", "{{{}}}", "({})", '"{}"', "'{}'", "`{}`", "|{}|", "{}.", ".{}", "{}..", "{}/", "/{}", "{}\\",
         "+{}", "-{}", "{}-", "_{}", "{}_", "{},", "{};", "{}:", ":{}", "{}?", "?{}", "{}#", "#{}", "{}=", "{}*",
         "*.{}", "*{}", "${}", "~{}", "{}~", "!{}", "&{}", "^{}$", "{}%", "%{}", "{}%20", "mailto:{}", "urn:uuid:{}",
         "uuid:{}", "http://{}", "//{}", "a:{}", "{}:80", "{}/24", "{}%1", "{}(a)", "(a){}", "a@{}", "{}@a", "{}T",
         "{}Z", "0{}", "{}0", "{}{}", "{} {}", "{}\n{}", "{},{}", "{}\u000b", "\u000b{}", "{}\f", "{}\t", "\t{}",
         "{}\u0085", "{}\u2029", "\u00a0{}", "{}\u3000")
UNSEEN = ("\u0000\b\u001b\u007f\u0080\u0085\u009f\u00ad\u034f\u061c\u180e\u200b\u200c\u200d\u200e\u202a\u202c"
          "\u2060\u2066\ufe0f\ufeff\ufff9\ufffd\ufffe\u0301\u20dd\ue000 \U000e0041\U000e0100\U0001f3fb\U0010ffff")
LIKE = {"-": "\u2010\u2011\u2013\u2212\ufe63\uff0d_", ".": "\u3002\uff0e\uff61\u2024\u00b7,",
        ":": "\uff1a\u2236\ua789;", "/": "\\\uff0f\u2044\u2215", "@": "\uff20\ufe6b", "%": "\uff05\u066a",
        "#": "\uff03\u266f", "?": "\uff1f\u037e", "+": "\uff0b\ufe62", "=": "\uff1d", "[": "\uff3b(", "]": "\uff3d)",
        "{": "\uff5b(", "}": "\uff5d)", "~": "\uff5e\u223c", "\"": "\u201c\u201d\uff02'", "*": "\uff0a",
        ",": "\uff0c;"}


def decorated(text):
    """A text with something around it, with a character that is not seen, and with one that is like another."""
    yield from (wrap.replace("{}", text) for wrap in WRAPS)
    places = sorted({0, 1, len(text) // 2, len(text)})
    yield from (text[:at] + sign + text[at:] for at in places for sign in UNSEEN if at <= len(text))
    for at, character in enumerate(text):
        others = LIKE.get(character, "") + character.swapcase()
        if character.isascii() and character.isalnum():
            others += chr(ord(character) + 0xFEE0)
        if character.isdigit():
            others += chr(0x660 + int(character)) + chr(0x966 + int(character)) + "\u00b2OolI"
        yield from (text[:at] + other + text[at + 1:] for other in others)
        yield f"{text[:at]}{character * 2}{text[at + 1:]}"
        yield f"{text[:at]}%{ord(character):02X}{text[at + 1:]}"
        yield text[:at] + text[at + 1:]
    yield from (text.lower(), text.upper(), text.title(), text[::-1], unicodedata.normalize("NFD", text))


def decorated_row(of, wholes, is_right):
    """Right texts of a format, and each with what is around it or in it."""
    return texts(of, [other for text in wholes for other in [text, *decorated(text)]], is_right)


def changed_row(of, wholes, is_right):
    """Each character of ASCII in the place of each character of right texts, and before each and behind the last."""
    places = [[text[:at], text[at + size:]] for text in wholes for size in (1, 0) for at in range(len(text) + 1 - size)]
    rows = [[before, behind, accepted_between(is_right, ASCII, before, behind)] for before, behind in places]
    return characters(of, "", rows)


def word_rows(rules):
    """Words of the signs of each format, at places of a text. A rule has its forms, their signs and their sizes."""
    yield "words of the signs that a format has rules for, at places of a text: in each order, and so many of each"
    for of, is_right, forms in rules:
        made_words = [form.format(word) for form, letters, sizes in forms for word in words(letters, sizes)]
        yield texts(of, made_words, is_right)


def pair_rows(rules):
    """Two signs of each kind beside each other, at places of a text. A rule has the forms of its texts."""
    yield "each two signs beside each other, at each place of a text: what a rule admits it admits beside any other"
    for of, is_right, forms in rules:
        yield texts(of, in_forms(forms, words(SIGNS, (2,))), is_right)


def accepted_between(is_right, tried, before, behind):
    """The characters that make a right text between the two others."""
    return "".join(character for character in tried if is_right(before + character + behind))


# Literal patterns: what `RegExp` of ECMA-262 means by them.

WHITE_SPACE = "\t\n\u000b\u000c\r \u00a0\u1680" + span(0x2000, 0x200A) + "\u2028\u2029\u202f\u205f\u3000\ufeff"


def sums(of, places, is_right, step, end=0x110000):
    """Of each so many characters, how many are right, and the sum of their numbers."""
    rows = []
    for low in range(0, end, step):
        right = [point for point in range(low, low + step) if not 0xD800 <= point <= 0xDFFF and is_right(point)]
        if rows and not right and rows[-1][2] == 0:
            rows[-1][1] = low + step
        else:
            rows.append([low, low + step, len(right), sum(right)])
    return {"ask": "sums", "of": of, "places": places, "rows": rows}, len(rows) * len(places)


MOST_STEPS, MOST_STEPS_OF_ALL, MOST_TIMES = 5200, 5200, 5000
MORE_STEPS, MORE_STEPS_OF_ALL, MORE_TIMES = (
    f"a counted term takes more than {MOST_STEPS} steps", f"it takes more than {MOST_STEPS_OF_ALL} steps",
    f"it has a count above {MOST_TIMES}")
# Half of it: two terms that stand so often leave few steps of a whole pattern.
MANY_TIMES = 2500


def but(left_out):
    """The characters of ASCII without these."""
    return "".join(character for character in ASCII if character not in left_out)


def choices(number=22):
    """What chooses one of a list, by numbers that are the same each time."""
    def choose(offered):
        nonlocal number
        number = (number * 6364136223846793005 + 1442695040888963407) % (1 << 64)
        return offered[(number >> 33) % len(offered)]

    return choose
