"""Members of requests and of their schema objects: their order, and members that stand more than once."""
from itertools import combinations, permutations, product

from rows.keywords.common import (BAD, NO_REQUEST, ONE_REQUEST, RIGHT, RIGHT_MEMBERS, SHAPES, fed, lined, needed_by,
                                  numbered)
from rows.keywords.entries import KEYWORDS
from rows.keywords.meaning import MEMBERS, answer_to_line
from rows.keywords.values import compact, parsed


def members_in_each_order():
    """The members of a request stand in any order (RFC 8259, section 4), also where lines share a schema object."""
    every = {"draft": 202012, "schema": {"format": "date", "maxLength": 1}, "instance": "x",
             "validate_formats": True, "ignore_unknown_formats": False, "fold": True}
    unknown = {**every, "schema": {"format": "nonsense"}}
    for line, most, counts in ((every, 24, range(4)), (unknown, 20, range(2))):
        for more in (more for count in counts for more in combinations(list(every)[3:], count)):
            orders = list(permutations((*list(every)[:3], *more)))
            for at in range(0, len(orders), most):
                yield lined(*({name: line[name] for name in names} for names in orders[at:at + most]))


# For each member two values that change the answer, and one that is not of its kind, if there is such a one.
TWICE = {"draft": ("4", "201909", "5"), "schema": ('{"maxLength":1}', '{"minLength":3}', "[]"),
         "instance": ('"ab"', '"x"', "5"), "validate_formats": ("true", "false", "null"),
         "ignore_unknown_formats": ("true", "false", "0"), "fold": ("true", "false", '"true"')}
# For each keyword another right value.
ALSO_RIGHT = {"contentMediaType": "a/b", "contentEncoding": "base16", "contentSchema": True, "format": "time",
              "minLength": 0, "maxLength": 0, "pattern": "^b"}
# What stands over and over around a value, within it, and behind it.
NESTS = (("[", "", "]"), ('{"a":', "1", "}"))


def joined(*members):
    """The JSON text of an object: of each member its name as it is written, and its value."""
    return "{" + ",".join(f"{name}:{compact(value)}" for name, value in members) + "}"


def quoted(*members):
    """Members with their names as JSON strings."""
    return [(compact(name), value) for name, value in members]


def with_escapes(name):
    """A name as a JSON string in which each character is escaped."""
    return '"' + "".join(f"\\u{ord(it):04x}" for it in name) + '"'


def with_schema(row, schema):
    """The line of a request without keywords, with this JSON text as its schema object."""
    return compact(row).replace('"schema":{}', f'"schema":{schema}')


def members_that_stand_twice():
    """Of a member that stands twice the last counts, in a request and in its schema object, whatever the first is."""
    for name, values in TWICE.items():
        row = numbered({"draft": 202012, "schema": {"format": "date"}, "instance": "ab"})
        if name == "ignore_unknown_formats":
            row = {**row, "validate_formats": True, "schema": {"format": "nonsense"}}
        others = quoted(*((it, row[it]) for it in row if it != name))
        for one, other in product(map(parsed, values), repeat=2):
            first, last = quoted((name, one), (name, other))
            for members in ([first, *others, last], [*others, first, last]):
                yield fed([joined(*members)], answer_to_line({**row, name: other}))
    for draft, keyword in product((7, 202012), KEYWORDS):
        for some in product(numbered([RIGHT[keyword], ALSO_RIGHT[keyword], BAD[keyword]]), repeat=2):
            yield of_keyword_more_than_once(draft, keyword, some)


def of_keyword_more_than_once(draft, keyword, values):
    """The row of a request in whose schema object a keyword stands with each of these values, and others between."""
    row, beside = numbered({"draft": draft, "schema": {}, "instance": "x"}), needed_by(keyword)
    schema = joined(*quoted((keyword, values[0]), *beside.items(), *((keyword, it) for it in values[1:])))
    return fed([with_schema(row, schema)], answer_to_line({**row, "schema": {**beside, keyword: values[-1]}}))


def names_with_escapes():
    """A name that is written with escapes is the same name (RFC 8259, section 7)."""
    every = numbered({**ONE_REQUEST, "validate_formats": True, "ignore_unknown_formats": False, "fold": True})
    for name in MEMBERS:
        members = [(with_escapes(it) if it == name else compact(it), every[it]) for it in every]
        yield fed([joined(*members)], answer_to_line(every))
        for value in map(parsed, TWICE[name]):
            last = (with_escapes(name), value)
            yield fed([joined(*quoted(*every.items()), last)], answer_to_line({**every, name: value}))
    for draft, keyword in product((7, 202012), KEYWORDS):
        row, beside = numbered({"draft": draft, "schema": {}, "instance": "x"}), needed_by(keyword)
        for value in numbered([RIGHT[keyword], BAD[keyword]]):
            schema = joined(*quoted(*beside.items()), (with_escapes(keyword), value))
            yield fed([with_schema(row, schema)], answer_to_line({**row, "schema": {**beside, keyword: value}}))
        if isinstance(RIGHT[keyword], str):
            schema = f'{{"{keyword}":{with_escapes(RIGHT[keyword])}}}'
            yield fed([with_schema(row, schema)], answer_to_line({**row, "schema": {keyword: RIGHT[keyword]}}))


def deep_members():
    """A line may nest 127 deep (docs/PROGRAMS.md), also at a member that stands there again."""
    for name, (begin, inner, end) in product(MEMBERS, NESTS):
        right = {**ONE_REQUEST, "validate_formats": False, "ignore_unknown_formats": False, "fold": True}
        rest = compact({name: right.pop(name), **right})[1:]
        for depth, is_read in ((126, True), (127, False)):
            parts = [f'{{"{name}":', [begin, depth], inner, [end, depth], "," + rest]
            yield fed(parts, answer_to_line(parsed("{" + rest)) if is_read else NO_REQUEST)


def deep_members_of_schemas():
    """A value of a schema object may nest 125 deep, two less than a line, at a keyword and at any other member."""
    for draft, name, (begin, inner, end) in product((7, 202012), (*KEYWORDS, "x"), NESTS):
        front = f'{{"draft":{draft},"schema":{{"contentMediaType":"x","{name}":'
        for depth, is_read in ((125, True), (126, False)):
            parts = [front, [begin, depth], inner, [end, depth], '},"instance":"x"}']
            schema = {"contentMediaType": "x", name: parsed(begin * depth + inner + end * depth)}
            row = numbered({"draft": draft, "schema": schema, "instance": "x"})
            yield fed(parts, answer_to_line(row) if is_read else NO_REQUEST)


def members_that_stand_three_times():
    """Of a member that stands three times the last counts, in a request and in its schema object."""
    for name, values in TWICE.items():
        row = numbered({"draft": 202012, "schema": {"format": "date"}, "instance": "ab"})
        others = quoted(*((it, row[it]) for it in row if it != name))
        for values in permutations(map(parsed, values)):
            first, *more = quoted(*((name, it) for it in values))
            for members in ([first, *more, *others], [*others, first, *more], [first, *others, *more]):
                yield fed([joined(*members)], answer_to_line({**row, name: values[-1]}))
    for draft, keyword in product((7, 202012), KEYWORDS):
        for some in permutations(numbered([RIGHT[keyword], ALSO_RIGHT[keyword], BAD[keyword]])):
            yield of_keyword_more_than_once(draft, keyword, some)


def twice_with_each_shape():
    """Of a member that stands twice the last counts, of whatever shape the first and the last are."""
    for name, shape in product(MEMBERS, SHAPES):
        row = numbered({**ONE_REQUEST, name: RIGHT_MEMBERS[name]})
        others = quoted(*((it, row[it]) for it in row if it != name))
        for first, last in ((shape, row[name]), (row[name], shape)):
            members = [*quoted((name, first)), *others, *quoted((name, last))]
            yield fed([joined(*members)], answer_to_line({**row, name: last}))
    for draft, keyword, shape in product((7, 202012), KEYWORDS, SHAPES):
        right = numbered(RIGHT[keyword])
        yield of_keyword_more_than_once(draft, keyword, (shape, right))
        yield of_keyword_more_than_once(draft, keyword, (right, shape))
