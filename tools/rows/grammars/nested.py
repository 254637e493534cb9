"""Look-arounds in look-arounds, and assertions among terms that may be nothing, by the meaning of patterns.

A pattern is a tuple of what it is and of its parts: of `one` the characters, of `times` the least number and the
greatest, or none. The functions below are those of ECMA-262 2024, section 22.2.2, without captures.
"""
import itertools

from rows.grammars.common import searches, words


def one(characters):
    return ("one", characters)


def row(*parts):
    return ("row", *parts)


def either(*parts):
    return ("either", *parts)


def times(low, high, part):
    return ("times", low, high, part)


def is_word(text, place):
    """Whether a word character stands at a place, of the letters and signs of the texts below."""
    return 0 <= place < len(text) and text[place] in "ab"


def ends(pattern, text, start):
    """The places up to which a pattern matches from a place on."""
    kind, *parts = pattern
    if kind == "one":
        return {start + 1} if start < len(text) and text[start] in parts[0] else set()
    if kind == "row":
        found = {start}
        for part in parts:
            found = {end for place in found for end in ends(part, text, place)}
        return found
    if kind == "either":
        return {end for part in parts for end in ends(part, text, start)}
    if kind == "times":
        low, high, part = parts
        found, rounds = ({start} if low == 0 else set()), {start}
        for turn in range(1, (low + len(text) + 1 if high is None else high) + 1):
            rounds = {end for place in rounds for end in ends(part, text, place)}
            found |= rounds if turn >= low else set()
        return found
    if kind in ("(?=", "(?!"):
        return {start} if bool(ends(parts[0], text, start)) == (kind == "(?=") else set()
    if kind in ("(?<=", "(?<!"):
        is_behind = any(start in ends(parts[0], text, place) for place in range(start + 1))
        return {start} if is_behind == (kind == "(?<=") else set()
    holds = {"^": start == 0, "$": start == len(text), "\\b": is_word(text, start - 1) != is_word(text, start),
             "\\B": is_word(text, start - 1) == is_word(text, start)}[kind]
    return {start} if holds else set()


def spelled(pattern):
    """A pattern as it is written."""
    kind, *parts = pattern
    if kind == "one":
        return {"a": "a", "b": "b", "ab-": "."}[parts[0]]
    if kind == "row":
        return "".join(f"(?:{spelled(part)})" if part[0] == "either" else spelled(part) for part in parts)
    if kind == "either":
        return "|".join(spelled(part) for part in parts)
    if kind == "times":
        low, high, part = parts
        sign = {(0, 1): "?", (0, None): "*", (1, None): "+"}.get((low, high))
        body = spelled(part) if part[0] == "one" else f"(?:{spelled(part)})"
        return body + (sign or (f"{{{low}}}" if low == high else f"{{{low},{'' if high is None else high}}}"))
    return f"{kind}{spelled(parts[0])})" if parts else kind


def answer(pattern, text):
    """A pattern, a text, and whether it is found there."""
    return [spelled(pattern), text, any(ends(pattern, text, start) for start in range(len(text) + 1))]


A, B, ANY, START, END, EDGE, NO_EDGE = one("a"), one("b"), one("ab-"), ("^",), ("$",), ("\\b",), ("\\B",)
NOTHING = row()
SIGNS = ("(?=", "(?!", "(?<=", "(?<!")
INNER = (
    row(times(1, 2, A), B), row(times(2, 2, A), B), row(times(2, None, A), B), row(B, times(0, 2, A), B),
    either(A, NOTHING), either(NOTHING, A),
    either(row(A, B), B), row(times(0, 1, A), B), row(times(0, None, A), B), row(times(1, None, A), B), row(START, A),
    row(A, END), row(EDGE, A), row(B, NO_EDGE), row(times(0, 1, row(A, B)), A), times(1, 2, either(A, row(B, B))),
    either(A, row(B, A), NOTHING), NOTHING, row(ANY, times(0, 1, B), A))
# A look-around that looks for one alone, for one before a term and behind it, in a group and beside an alternative.
WITHIN = (
    lambda look: look, lambda look: row(look, B), lambda look: row(A, look),
    lambda look: row(look, times(0, None, A)), lambda look: row(times(0, 1, A), look, ANY),
    lambda look: either(look, B), lambda look: times(0, 1, look), lambda look: row(times(0, 2, row(look, A)), B))
TEXTS = (*words("ab", range(5)), "a-a", "-b", "b-", "ab-")


def inner_body_rows():
    """Each body of a look-around within another one."""
    yield ("a look-around within a look-around, each of the four in each, with each body, and what stands beside it "
           "(ECMA-262 2024, 22.2.2.4)")
    rows = []
    for turn, (outer, inner, within, body) in enumerate(itertools.product(SIGNS, SIGNS, WITHIN, INNER)):
        look = (outer, within((inner, body)))
        forms = row(START, times(0, 1, ANY), look), row(look, times(0, 1, ANY), END), row(A, look, times(0, None, B))
        for form, pattern in enumerate(forms):
            rows += [answer(pattern, text) for text in TEXTS[(turn + 5 * form) % 23::23]]
    yield searches(rows)


# Terms in a row, some of which may be nothing and some of which read nothing.
ROWED = (A, times(0, 1, A), times(0, None, B), ANY, times(0, None, ANY), START, END, EDGE, NO_EDGE, either(A, NOTHING),
         times(1, None, B))


def rowed_assertion_rows():
    """Assertions beside terms that may be nothing, where a look-around looks for them and without one."""
    yield ("three terms in a row, among them assertions and such that may be nothing: alone, behind `^` and in each "
           "look-around, at the front and elsewhere")
    rows = []
    for turn, parts in enumerate(itertools.product(ROWED, repeat=3)):
        body = row(*parts)
        forms = (body, row(START, body, END), row(START, ("(?=", body), ANY),
                 row(START, ("(?!", body), times(0, 1, ANY)), row(("(?<=", body), B), row(A, ("(?<!", body)),
                 row(("(?=", body), B), times(1, 2, body), row(START, body, ("(?=", row(A, B))),
                 row(("(?<=", row(B, A)), body, END))
        for form, pattern in enumerate(forms):
            rows += [answer(pattern, text) for text in TEXTS[(turn + 7 * form) % 31::31]]
    yield searches(rows)
