"""How many steps a pattern takes, by what `EcmaPatterns` says of steps (crates/strkw_ecma/src/engine.rt)."""
import itertools
import re

from rows.grammars.common import (MORE_STEPS, MORE_STEPS_OF_ALL, MOST_STEPS, MOST_STEPS_OF_ALL, MOST_TIMES, THREE_STEPS,
                                  TWO_STEPS, choices)
from rows.grammars.reasons import by_reason

# A pattern is a tree of lists: `empty`; a class with its steps; an assertion; two patterns one behind the other, or as
# alternatives; one with the least and the most of its quantifier; and a look-around, which looks back or ahead.
EMPTY = ["empty"]
STEPS_OF_MEMBERS = {TWO_STEPS: 2, THREE_STEPS: 3}
LEXEMES = re.compile(
    r"\(\?<?[=!]|\(\?:|\(\?<\w+>|[()|]|(?:\*|\+|\?|\{\d+(?:,\d*)?\})\??|\[[^]]*\]|\\[pP]\{[^}]*\}|\\.|.", re.DOTALL)
EDGES = ("^", "$", "\\b", "\\B")
# The bounds of the quantifiers that have a sign of their own.
SIGNS = {"*": (0, None), "+": (1, None), "?": (0, 1)}


def quantified(body, sign):
    """A term with its quantifier, by its bounds alone; the most is `None` where it has no end."""
    sign = sign.rstrip("?") or "?"
    if sign[0] == "{":
        least, *most = sign.strip("{}").split(",")
        bounds = int(least), int(least) if not most else int(most[0]) if most[0] else None
    else:
        bounds = SIGNS[sign]
    kinds = {bounds: sign for sign, bounds in SIGNS.items()}
    return ["repeat", kinds.get(bounds, "=" if bounds[0] == bounds[1] else ","), body, *bounds]


def tree_of(pattern):
    """The tree of a pattern of letters, classes, escapes, groups and look-arounds."""
    lexemes = LEXEMES.findall(pattern) + [")"]
    place = 0

    def disjunction():
        nonlocal place
        whole, current = None, EMPTY
        while True:
            lexeme = lexemes[place]
            place += 1
            if lexeme in (")", "|"):
                whole = current if whole is None else ["or", whole, current]
                if lexeme == ")":
                    return whole
                current = EMPTY
                continue
            if lexeme[0] == "(":
                term = disjunction()
                if lexeme[-1] in "=!":
                    term = ["look", "<" in lexeme, term]
            elif lexeme in EDGES:
                term = ["edge", lexeme]
            else:
                term = ["class", STEPS_OF_MEMBERS.get(lexeme, 1)]
            if lexemes[place][0] in "*+?{":
                term = quantified(term, lexemes[place])
                place += 1
            current = ["then", current, term]

    return disjunction()


def is_empty(tree):
    """Whether it is nothing, or stands no times by one count."""
    return tree == EMPTY or tree[0] == "repeat" and tree[1] == "=" and tree[3] == 0


def around(steps, body, more):
    """A loop, or what may be missing: of a class it is one instruction with it."""
    return steps if body[0] == "class" else steps + more


def steps_of(tree, is_spread):
    """The steps of a pattern; where a part looks far both ways, with a mark beside what each look-around looks for."""
    kind, *rest = tree
    if kind in ("empty", "edge"):
        return int(kind == "edge")
    if kind == "class":
        return rest[0]
    if kind == "then":
        return steps_of(rest[0], is_spread) + steps_of(rest[1], is_spread)
    if kind == "or":
        # Three around the first two alternatives, and one before each further one.
        steps = steps_of(rest[0], is_spread) + steps_of(rest[1], is_spread)
        return steps + (1 if rest[0][0] == "or" else 3)
    if kind == "look":
        is_back, body = rest
        if is_spread or is_back:
            return 2 + int(is_spread) + steps_of(body, is_spread)
        return 2 + glance_of(body)
    sign, body, least, most = rest
    own = steps_of(body, is_spread)
    if sign in "*+?":
        return around(own, body, 3 if sign == "?" else 2)
    if most is None:
        return least * own + around(own, body, 2)
    return least * own + (most - least) * around(own, body, 3)


def glance_of(tree):
    """The steps of what a look-ahead looks for, as counted terms count it: the last term of a sequence alone."""
    kind, *rest = tree
    if kind in ("class", "edge"):
        return steps_of(tree, False)
    if kind == "then":
        return glance_of(rest[1])
    if kind == "or":
        return 3 + glance_of(rest[0]) + glance_of(rest[1])
    if kind == "look":
        return 0 if rest[0] else 2 + glance_of(rest[1])
    return 3 + glance_of(rest[1]) if kind == "repeat" and rest[0] == "?" else 0


def is_near(tree):
    """Whether the next character tells what a look-ahead for it finds."""
    kind, *rest = tree
    if kind == "then":
        return is_empty(rest[0]) and is_near(rest[1])
    if kind == "or":
        return is_near(rest[0]) and is_near(rest[1])
    if kind == "look":
        return not rest[0] and is_near(rest[1])
    if kind == "repeat":
        sign, body, _, most = rest
        return is_near(body) if sign == "?" else most == 0 or sign == "=" and is_empty(body)
    return True


def are_near(tree):
    """Whether that is so of each look-ahead."""
    kind, *rest = tree
    if kind in ("then", "or"):
        return are_near(rest[0]) and are_near(rest[1])
    if kind == "look":
        return are_near(rest[1]) if rest[0] else is_near(rest[1])
    return kind != "repeat" or rest[3] == 0 or are_near(rest[1])


def turned(tree):
    """The same from the end of a text on."""
    kind, *rest = tree
    if kind == "then":
        one, other = turned(rest[0]), turned(rest[1])
        return ["then", one, other] if is_empty(rest[0]) or is_empty(rest[1]) else ["then", other, one]
    if kind == "or":
        return ["or", turned(rest[0]), turned(rest[1])]
    if kind == "look":
        return ["look", not rest[0], turned(rest[1])]
    return ["repeat", rest[0], turned(rest[1]), *rest[2:]] if kind == "repeat" else tree


def search_steps(part):
    """The steps of one part, in the direction in which it is looked for."""
    if not are_near(part) and are_near(turned(part)):
        part = turned(part)
    return steps_of(part, not are_near(part))


def parts_of(tree):
    """The look-aheads at the front that look far, and what is left."""
    terms, fronts = [], []
    while tree[0] == "then":
        terms.insert(0, tree[2])
        tree = tree[1]
    rest, is_anchored, is_past = tree, False, tree != EMPTY
    for term in terms:
        if is_anchored and not is_past and term[0] == "look" and not term[1] and not is_near(term[2]):
            fronts.append(["then", ["edge", "^"], term[2]])
            continue
        if is_anchored:
            is_past = is_past or not (is_empty(term) or term[0] in ("edge", "look"))
        elif term == ["edge", "^"]:
            is_anchored = True
        elif not is_empty(term):
            is_past = True
        rest = ["then", rest, term]
    return [rest, *fronts]


def whole_steps(pattern):
    """The steps of all parts of a pattern."""
    return sum(map(search_steps, parts_of(tree_of(pattern))))


# Terms of each kind, and where two of them may stand.
TERMS_OF_STEPS = (
    "a", "a*", "a?", TWO_STEPS, "(?:ab)*", "(?:ab)+?", "(?:ab)?", "(a)?", "(?:a|b)", "(?:a|bc|)", "(?:|a)", "a{3}",
    "a{0,2}", "(?:ab){2,}", "(?:ab){1,3}", "(?:ab){0}", "^", "\\B", "()", "(?=a)", "(?!ab)", "(?<=a)", "(?<!ab)",
    "(?=a|b|)", "(?=a?)", "(?!(?=a))", "(?=a*)", "(?<=(?!a))", "(?=(?<=a))", "(?<!a(?=bc))", "(?=b{0})",
    "(?!(?:a|bc)?)", "(?<=(?:ab)+)")
FORMS_OF_STEPS = (
    "{}{}", "(?:{}|{})", "(?:{}|c|{})", "(?:{}{})*", "(?:{}|{})?", "(?={}{})", "(?!{}|{})", "(?<={}{})", "(?<!{}|{})",
    "^{}{}", "^(?={})(?!{})", "(?:{}{}){{2,3}}", "(?:{}c{}){{3,}}", "(?={})c(?<={})", "(?:{}(?:{})){{0}}",
    "^{}(?=cd){}")


def step_rows():
    """Terms of each kind beside each other, at the most steps of a whole pattern and of a counted term."""
    yield ("the steps of each two terms, within loops, alternatives and look-arounds: at the most of a whole pattern, "
           "at the most of a counted term, and one more of each")
    told = {}
    for at, (one, other) in enumerate(itertools.product(TERMS_OF_STEPS, repeat=2)):
        for turn in range(2):
            form = FORMS_OF_STEPS[(at + at // len(FORMS_OF_STEPS) + 5 * turn) % len(FORMS_OF_STEPS)]
            pattern = form.format(one, other)
            left = MOST_STEPS_OF_ALL - whole_steps(f"{pattern}x{{2600}}")
            told[f"{pattern}x{{2600}}y{{{left}}}"] = "taken"
            told[f"{pattern}x{{2600}}y{{{left + 1}}}"] = MORE_STEPS_OF_ALL
            own = steps_of(tree_of(pattern), False)
            most = min(MOST_TIMES, MOST_STEPS // own) if own else 0
            for counted in (f"(?:{pattern}){{{most}}}", f"(?:{pattern}){{0,{most}}}"):
                if own and whole_steps(counted) > MOST_STEPS_OF_ALL:
                    told[counted] = MORE_STEPS_OF_ALL
                elif own:
                    told[counted] = "taken"
            if own > 1:
                told[f"(?:{pattern}){{{most + 1}}}"] = MORE_STEPS
                told[f"(?:{pattern}){{{most},}}"] = told[f"(?:{pattern}){{1,{most + 1}}}"] = MORE_STEPS
    yield from by_reason(told)


QUANTIFIERS_OF_STEPS = ("", "", "", "*", "+", "?", "*?", "{2}", "{0}", "{1,}", "{2,}", "{0,2}", "{1,3}")


def nested(choose, deep):
    """A pattern of terms in one another, so many deep at most."""
    terms = []
    for _ in range(choose((1, 2, 3))):
        kind = choose(("atom", "atom", "edge", *("group", "group", "group", "look", "look")[:5 * bool(deep)]))
        if kind == "edge":
            terms.append(choose(EDGES))
        elif kind == "look":
            terms.append(choose(("(?=", "(?!", "(?<=", "(?<!")) + nested(choose, deep - 1) + ")")
        else:
            term = choose(("a", "b", TWO_STEPS, "\\d", "[ab]"))
            if kind == "group":
                alternatives = [nested(choose, deep - 1) for _ in range(choose((1, 2, 3)))]
                term = choose(("(", "(?:")) + "|".join(alternatives) + ")"
            terms.append(term + choose(QUANTIFIERS_OF_STEPS))
    return "".join(terms)


def nested_step_rows():
    """Terms in one another, at the most steps of a whole pattern and of a counted term."""
    yield ("the steps of terms in one another, four deep: at the most of a whole pattern and of a counted term, and "
           "one more of each")
    choose, told = choices(), {}
    while len(told) < 6000:
        pattern = choose(("", "^", "^(?=ab)")) + nested(choose, 4)
        left = MOST_STEPS_OF_ALL - whole_steps(f"{pattern}x{{2600}}")
        own = steps_of(tree_of(pattern), False)
        if len(pattern) > 90 or not 0 < left < 2600 or not own:
            continue
        told |= {f"{pattern}x{{2600}}y{{{left}}}": "taken", f"{pattern}x{{2600}}y{{{left + 1}}}": MORE_STEPS_OF_ALL}
        most = min(MOST_TIMES, MOST_STEPS // own)
        told[f"(?:{pattern}){{{most}}}"] = (
            "taken" if whole_steps(f"(?:{pattern}){{{most}}}") <= MOST_STEPS_OF_ALL else MORE_STEPS_OF_ALL)
        if most < MOST_TIMES:
            told[f"(?:{pattern}){{{most + 1}}}"] = MORE_STEPS
    yield from by_reason(told)
