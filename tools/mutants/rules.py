"""Changes that rules make of the sources: of each constant, bound, comparison, arm of a match and element of a list."""
import random
import re

import unproved
from mutants import table
from mutants.source import CLAUSES, Source
from mutants.stored import Mutant

CRATES = unproved.TOP / "crates"
OTHERS = {"<": "<=", "<=": "<", ">": ">=", ">=": ">", "==": "!=", "!=": "==", "&&": "||", "||": "&&",
          "+": "-", "-": "+", "true": "false", "false": "true"}
PAIRS = [("is_some", "is_none"), ("is_ok", "is_err"), ("any", "all"), ("max", "min"), ("first", "last"),
         ("starts_with", "ends_with"), ("position", "rposition")]
METHODS = dict([*PAIRS, *(pair[::-1] for pair in PAIRS)])
LONGEST = 160
NUMBER = re.compile(r"(0x[0-9A-Fa-f_]+|0b[01_]+|[0-9][0-9_]*)([iu](?:8|16|32|64|128|size))?")
LETTER = re.compile(r"(b?)'(.)'|'\\u\{([0-9A-Fa-f]+)\}'", re.S)


def crates_below():
    """The crates that the programs of rows and the tests are built over."""
    uses = unproved.uses_of(CRATES)
    return sorted({name for program in table.PROGRAMS + table.TESTS for name in unproved.below(program, uses)
                   if not name.startswith("strkw_test")})


def sample(crates, seed, count):
    """So many changes of the crates, drawn by a seed: of each item one before any has a second."""
    items = {}
    for crate in crates or crates_below():
        for mutant, item in made(crate):
            items.setdefault((crate, item), []).append(mutant)
    drawn, order = random.Random(seed), [*items.values()]
    for mutants in [*order, order]:
        drawn.shuffle(mutants)
    rounds = [mutants[at] for at in range(max(map(len, order))) for mutants in order if at < len(mutants)]
    return rounds[:count]


def made(crate):
    """All changes that the rules make of a crate, each with the item that it changes."""
    number = 0
    for file in sorted((CRATES / crate / "src").rglob("*.rt")):
        path = file.relative_to(CRATES / crate).as_posix()
        if "test" in path:
            continue
        source = Source(file.read_text(encoding="utf-8"))
        for item, start, end, new in changes(source):
            line, old = source.text.count("\n", 0, start) + 1, " ".join(source.text[start:end].split())
            said = f"`{' '.join(new.split())}` for `{old}`" if new else f"without `{old}`"
            number += 1
            yield Mutant(crate, number, f"{path}:{line}: {said}"[:LONGEST], [(path, (start, end), new)]), (path, item)


def changes(source):
    """The changes of a source, each with its item and the places between which another text is to stand."""
    spans = [(item.key, item.body, item.end) for item in source.functions]
    spans += [(item.key, source.text.index("=", item.start), item.end) for item in source.constants]
    for key, start, end in spans:
        places = [at for at, token in enumerate(source.tokens) if start <= token.start < end]
        if places:
            for begins, ends, new in changes_between(source, places[0], places[-1] + 1):
                # A pattern that stands twice is refused.
                is_there = "'" in new and new in source.text[start:end]
                if source.text[begins:ends] != new and not is_there:
                    yield key, begins, ends, new


def changes_between(source, first, end):
    """The changes of the tokens between two places, but for those of clauses."""
    at = first
    while at < end:
        token = source.tokens[at]
        if token.text in CLAUSES:
            while source.tokens[at].text != "{":
                at += 1
            at = source.closing[at] + 1
            continue
        yield from ((token.start, token.end, new) for new in other_texts(source, at))
        if token.text == "match":
            yield from arms_changed(source, at)
        elif token.text == "|":
            yield from alternative_left_out(source, at)
        elif token.text == "[" and at in source.closing:
            yield from elements_changed(source, at)
        at += 1


def other_texts(source, at):
    """What may stand in the place of a token."""
    if at + 1 == len(source.tokens):
        return []
    token, before, after = source.tokens[at], source.tokens[at - 1], source.tokens[at + 1]
    is_between_blanks = source.text[token.start - 1].isspace() and source.text[token.end].isspace()
    if token.text in OTHERS and (is_between_blanks or token.kind == "word"):
        # Behind a cast `<` begins the arguments of a type.
        is_behind_cast = OTHERS[token.text] == "<" and source.tokens[at - 2].text == "as"
        return [] if is_behind_cast else [OTHERS[token.text]]
    if token.text in METHODS and before.text == "." and after.text == "(":
        return [METHODS[token.text]]
    if token.text == "!" and after.kind in ("word", "sign") and before.kind == "sign" and after.start == token.end:
        return [""]
    if token.kind == "number" and before.text not in (".", ";"):
        return numbers_beside(token)
    return letters_beside(token) if token.kind == "char" else []


def numbers_beside(token):
    """The numbers beside a number."""
    found = NUMBER.fullmatch(token.text)
    if not found:
        return []
    number = int(found[1].replace("_", ""), 0)
    return [f"{other}{found[2] or ''}" for other in (number + 1, number - 1) if other >= 0]


def letters_beside(token):
    """The characters beside a character."""
    found = LETTER.fullmatch(token.text)
    if not found or found[2] == "\\":
        return []
    code = ord(found[2]) if found[2] else int(found[3], 16)
    return [written(other, found[1]) for other in (code + 1, code - 1)
            if other >= 0 and not 0xD800 <= other <= 0xDFFF]


def written(code, prefix):
    """A character or, with the prefix of one, a byte, as a source has it."""
    if 0x20 <= code < 0x7F and chr(code) not in "\\'":
        return f"{prefix}'{chr(code)}'"
    return f"{code}u8" if prefix else f"'\\u{{{code:X}}}'"


def arms_changed(source, at):
    """A match without one of its arms, where the last takes all that is left; or with one that does as the next."""
    while source.tokens[at].text != "{":
        at = source.closing.get(at, at) + 1
    arms = list(arms_between(source, at + 1, source.closing[at]))
    takes_all = bool(arms) and source.tokens[arms[-1][0]].text == "_"
    for (first, arrow, last), (next_first, next_arrow, next_last) in zip(arms, arms[1:]):
        if takes_all:
            yield source.tokens[first].start, source.tokens[last].end, ""
        elif not names(source.tokens[next_first:next_arrow]) & names(source.tokens[next_arrow:next_last + 1]):
            yield (source.tokens[arrow].end, source.tokens[last].end,
                   source.text[source.tokens[next_arrow].end:source.tokens[next_last].end])


def names(tokens):
    """The words that may name what a pattern binds."""
    return {token.text for token in tokens if token.kind == "word" and token.text[0].islower()}


def arms_between(source, at, end):
    """The places of the first token of each arm, of its arrow and of the last."""
    while at < end:
        first = at
        while source.tokens[at].text != "=>":
            at = source.closing.get(at, at) + 1
        arrow, at = at, at + 1
        is_block = source.tokens[at].text == "{"
        if is_block:
            at = source.closing[at] + 1
        while not is_block and at < end and source.tokens[at].text != ",":
            at = source.closing.get(at, at) + 1
        if at < end and source.tokens[at].text == ",":
            at += 1
        yield first, arrow, at - 1


def alternative_left_out(source, at):
    """A pattern without the alternative before a bar."""
    before, bar = source.tokens[at - 1], source.tokens[at]
    if before.kind in ("char", "number", "string"):
        start = source.tokens[at - 3].start if source.tokens[at - 2].text in ("..", "..=") else before.start
        yield start, bar.end, ""


def elements_changed(source, at):
    """A list in which an element stands in the place of the one before."""
    elements, start, place = [], at + 1, at + 1
    while place < source.closing[at]:
        if source.tokens[place].text == ",":
            elements.append((source.tokens[start].start, source.tokens[place - 1].end))
            start = place + 1
        place = source.closing.get(place, place) + 1
    if elements and start < source.closing[at]:
        elements.append((source.tokens[start].start, source.tokens[source.closing[at] - 1].end))
    for (begins, ends), (next_begins, next_ends) in zip(elements, elements[1:]):
        yield begins, ends, source.text[next_begins:next_ends]
