"""Escapes of patterns that are written for regular expressions without the flag `u`."""
import itertools

from rows.grammars.common import ASCII, DIGITS, LETTERS, in_forms, lenient, refusals, searches

SIGNS = [character for character in ASCII if character not in LETTERS + DIGITS]
# Letters that have a meaning behind a backslash in Unicode mode with nothing behind them, in a class too.
MEANT = "bdDsSwWfnrtv"
# Those that have one with something behind them, or outside of classes alone.
MEANT_IN_PART = "BckpPux"
NOT_A_PATTERN = "it is no pattern of ECMA-262 in Unicode mode"


def sign_searches():
    """Each sign behind a backslash, at each of some places, with texts of which one is found."""
    places = ("^{}$", "^(?:{})$", "^{}{{1}}$", "^[{}]$", "^[0{}1]$", "^(?<=^){}(?=$)$")
    return [[place.format(f"\\{sign}"), text, text == sign] for place, sign in itertools.product(places, SIGNS)
            for text in dict.fromkeys((sign, chr(ord(sign) ^ 1), "\\", f"\\{sign}"))]


def range_searches():
    """Each sign behind a backslash at both ends of a range, and a hyphen behind one between two characters."""
    rows = []
    for sign in SIGNS:
        for off in (-1, 0, 1):
            text = chr(max(0, ord(sign) + off))
            rows.append([f"^[\\{sign}-\u00ff]$", text, text >= sign])
            rows.append([f"^[\0-\\{sign}]$", text, text <= sign])
    for first, last in ("az", "AZ", "!~", "09"):
        rows += [[f"^[{first}\\-{last}]$", text, text in (first, "-", last)]
                 for text in (first, "-", last, chr(ord(first) + 1), chr(ord(last) - 1))]
    return rows


def lenient_rows():
    """The rows of the engine that takes such escapes."""
    yield ("without the flag `u` each character of ASCII but letters and digits stands for itself behind a backslash "
           "(IdentityEscape, ECMA-262 2024, B.1.2), in a pattern and in a class")
    yield lenient(searches(sign_searches()))
    yield "such an escape is an end of a range where one stands, and no sign of a range"
    yield lenient(searches(range_searches()))
    yield "backslashes before a sign: an even number of them is no escape of it"
    yield lenient(searches([["^" + "\\" * count + f"{sign}$", "\\" * (count // 2) + sign, True]
                            for count in range(1, 7) for sign in "-_@ \"#"]))
    yield ("letters, digits and characters past ASCII behind a backslash are those of Unicode mode, beside such a sign "
           "too")
    forms = ("\\{}", "a\\{}b", "[\\{}]", "[a\\{}b]", "(?:\\-\\{})", "[\\_\\{}]")
    unmeant = [letter for letter in LETTERS if letter not in MEANT + MEANT_IN_PART]
    yield lenient(refusals(NOT_A_PATTERN, in_forms(forms, unmeant + ["\u00e9", "\u017f", "\u2028", "\U0001f600"])))
    yield lenient(refusals("taken", in_forms(forms, MEANT)))
    yield lenient(refusals("it has a back reference", [f"(a)\\-\\{digit}" for digit in DIGITS[1:]]))
