"""Lines that share a schema object, and lines that are told by their ends."""
from itertools import product, zip_longest

from rows.keywords.common import CHECKED, LONGEST_SHOWN, around_text, cut, fed, fed_lines, in_parts, lined, told_of
from rows.keywords.texts import DRAFTS
from rows.keywords.values import compact, parsed

SHARED = [parsed(it) for it in (
    '{"maxLength":1}', '{"minLength":3,"format":"uuid"}', '{"contentMediaType":"application/json","maxLength":1}',
    '{"format":"nonsense"}', '{"pattern":"a+"}', '{"x":[1,{"y":null}],"z":[true,false,""],"pattern":"^x"}',
    '{"contentMediaType":"a","contentSchema":{"b":[2,1]}}')]
# The same length, and another text.
OTHERS = [parsed(it) for it in (
    '{"maxLength":2}', '{"minLength":1,"format":"uuid"}', '{"contentMediaType":"application/jsox","maxLength":1}',
    '{"format":"datedate"}', '{"pattern":"^a"}', '{"x":[1,{"y":null}],"z":[true,false,""],"pattern":"^y"}',
    '{"contentMediaType":"b","contentSchema":{"b":[1,1]}}')]
# A text that is no UUID.
LONGER = "f81d4fae7dec11d0a76500a0c91e6bf6"


def lines_that_share_a_schema():
    """Each line is answered by itself, whatever many lines before it had and asked."""
    choices = (CHECKED, {"validate_formats": False}, {"ignore_unknown_formats": False})
    for schema, other in zip(SHARED, OTHERS):
        assert len(compact(schema)) == len(compact(other))
        for draft in DRAFTS:
            first = {"draft": draft, "schema": schema, "instance": 5}
            yield lined((first, 17), {**first, "instance": "x"}, {**first, "schema": other, "instance": "x"},
                        {**first, "instance": LONGER}, {**first, "schema": {}}, {**first, "instance": "", "fold": True})
            yield lined((first, 17), *({**first, "draft": it, "instance": "x"} for it in DRAFTS),
                        {**first, "instance": "x"})
        first = {"draft": 7, "schema": schema, "instance": 5}
        for more in choices:
            yield lined((first, 17), *({**first, **it, "instance": "x"} for it in (more, {}, more)))
            yield lined(({**first, **more}, 17), *({**first, **it, "instance": "x"} for it in ({}, more, {})))
        yield lined((first, 17), ({**first, "schema": other}, 40), {**first, "instance": "x"},
                    {**first, "schema": other, "instance": "x"})
    first = {"draft": 7, "schema": SHARED[0], "instance": 5}
    yield lined(*[first, {**first, "schema": OTHERS[0]}] * 10, {**first, "instance": LONGER})
    yield lined(*[{**first, "draft": it} for it in DRAFTS] * 8, {**first, "instance": LONGER})


# The texts of an instance as they are written between quotation marks: without an escape, with one, and no JSON.
WRITTEN = ("", "x", "xx", "2024-02-29", LONGER, "\u00e9", "\u6f22", "\U0001f600", "x" * 15, "x" * 16, "x" * 17,
           "x" * 300, "\u00e9" * 40, "}", "{", ":", ",", "[1]", "'", "/", "\x7f", "\u0080", "\u2028", r"\"",
           r"\\", r"\/", r"\b", r"\f", r"\n", r"\r", r"\t", r"\u0041", r"\u00E9", r"\uD83D\uDE00", r"x\"}",
           r"\"}", r"xxxx\\", r"\"},\"", r"\x", r"\u12", r"\uD83D", r"\uDE00", "\\", "x\\", '"', '""', 'x"x', '"x',
           'x"', '"}', 'x","instance":"xx', 'x","draft":"7', 'x","other":"x', 'x","schema":"x',
           'x","fold":true,"instance":"xx', 'x","fold":"true', 'x"},{"a":"x', 'x"}{"a":"x',
           *(chr(it) for it in range(1, 32) if it != 10), *(chr(it) for it in range(32, 127) if it not in (34, 92)))


def behind_alike(first, *lines):
    """The row of an input to `run`: so many lines alike that they share an object, and then others, as they stand."""
    told = told_of([first] * 17 + list(lines))
    assert len("\n".join(told)) < LONGEST_SHOWN
    return fed([[first + "\n", 17], *(line + "\n" for line in lines)], told)


def texts_of_a_shared_schema():
    """A line whose text stands in it as it is, and one that is written in another way, mean the same."""
    for schema in (SHARED[0], SHARED[1], SHARED[2], SHARED[4], SHARED[5],
                   parsed('{"\u00e9\\n":"\\u0001\\"","minLength":2}'),
                   parsed('{"maxLength":"1"}'), parsed('{"format":"date","minLength":2.5}')):
        for draft in (7, 202012):
            front, end = around_text(draft, schema)
            for some in in_parts(WRITTEN, 8):
                yield behind_alike(f"{front[:-1]}5}}", *(front + text + end for text in some))
    schema = compact(SHARED[1])
    first = f'{{"draft":7,"schema":{schema},"instance":5}}'
    for text, some in product(("", "x", "x" * 40), in_parts(WRITTEN_OTHERWISE, 9)):
        yield behind_alike(first, *(it.replace("O", schema).replace("T", text) for it in some))
    for more in ('"validate_formats":false', '"ignore_unknown_formats":false', '"validate_formats":true'):
        kept = f"{first[:-1]},{more}}}"
        yield behind_alike(kept, f'{first[:-2]}"x"}}', f'{kept[:-1]},"instance":"x"}}')


# Lines that ask the object O of the text T, and lines that are near to these.
WRITTEN_OTHERWISE = (
    '{"draft":7,"schema":O,"instance":"T"} ', ' {"draft":7,"schema":O,"instance":"T"}',
    '{"draft":7,"schema":O,"instance":"T" }', '{"draft":7,"schema":O,"instance": "T"}',
    '{"draft":7,"schema":O,"instance" :"T"}', '{"draft":7,"schema":O ,"instance":"T"}',
    '{"draft":7,"schema": O,"instance":"T"}', '{"draft": 7,"schema":O,"instance":"T"}',
    '{"draft":7.0,"schema":O,"instance":"T"}', '{"draft":7e0,"schema":O,"instance":"T"}',
    '{"draft":4,"schema":O,"instance":"T"}', '{"draft":77,"schema":O,"instance":"T"}',
    '{"schema":O,"draft":7,"instance":"T"}', '{"instance":"T","draft":7,"schema":O}',
    '{"draft":7,"schema":O,"instance":"T"', '{"draft":7,"schema":O,"instance":"T"}}',
    '{"draft":7,"schema":O,"instance":"T}', '{"draft":7,"schema":O,"instance":T"}',
    '{"draft":7,"schema":O,"instance":["T"]}', '{"draft":7,"schema":O,"instance":{"":"T"}}',
    '{"draft":7,"schema":O,"Instance":"T"}', '{"draft":7,"schema":O,"instance":"T","fold":true}',
    '{"draft":7,"schema":O,"instance":"T","validate_formats":true}',
    '{"draft":7,"schema":O,"instance":"T"}\r', '{"draft":7,"schema":O,"instance":"T"}\t')


# The tokens of a line that asks an object O of a text T.
ASKING = ("{", '"draft"', ":", "7", ",", '"schema"', ":", "O", ",", '"instance"', ":", '"T"', "}")
# Objects as they stand, one with gaps, and one with escapes.
OBJECTS = ('{"maxLength":1}', '{ "maxLength" : 1 }', '{"pattern":"\\u005ea\\/","x":"\\\\\\""}')


def with_gaps(schema, text, gaps):
    """A line that asks an object of a text, with these gaps before its tokens and behind the last."""
    line = "".join(gap + token for gap, token in zip_longest(gaps, ASKING, fillvalue=""))
    return line.replace("O", schema).replace("T", text)


def texts_behind_each_front():
    """Lines that share an object and have a gap at one place or at all of them, and lines that have it elsewhere."""
    count = len(ASKING) + 1
    alike = [[""] * count, [" "] * count, [" " if at and ASKING[at - 1] in ":," else "" for at in range(count)]]
    alike += [["\t\r"[at % 2] if at == place else "" for at in range(count)] for place in range(count)]
    for schema, gaps in product(OBJECTS, alike):
        others = [with_gaps(schema, text, gaps) for text in ("", "xx", r"x\"", "x\u00e9", r"\u0078")]
        others += [with_gaps(schema, "xx", it) for it in (alike[0], alike[1])]
        others += [with_gaps(schema, "xx", gaps).replace("7", draft, 1) for draft in ("6", "77", "7.0")]
        others += [with_gaps(it, "xx", gaps) for it in ('{"maxLength":2}', "5")]
        yield behind_alike(with_gaps(schema, "x", gaps), *others)


def line(draft, schema, text):
    """The line of a request, each of its values as it stands."""
    return f'{{"draft":{draft},"schema":{schema},"instance":"{text}"}}'


def lines_told_by_their_ends():
    """Lines that share no object: what stands where the draft is, the object and the text, each as it stands."""
    drafts = ("4", "6", "7", "201909", "202012", "2019", "20201", "2020120", "70", "07", "-7", "7.0", "7e0", "7E0",
              '"7"', "[7]", "null", "", " 7", "7 ", "4,6", '7,"draft":4', '7,"fold":true', '"\\u0037"')
    schemas = ("{}", " {}", "{} ", "{}{}", "{},{}", "{},", ",{}", "[]", "5", '""', "true", "null", "", "{", "}",
               '{"a"', '{"a":}', '{"maxLength":01}', '{"maxLength":1}', '{"maxLength":1,"maxLength":3}',
               '{"max\\u004cength":1}', '{"a":"}"}', '{"a":"\\""}', '{"a":"\\\\"}', '{"a":{"maxLength":1}}',
               '{"instance":"z","maxLength":1}', '[{"maxLength":1}]', '{"maxLength":1},"draft":4',
               '{"maxLength":1},"instance":"y"', '{"maxLength":1},"instance":5', '{"maxLength":1},"fold":true',
               '{"maxLength":1},"other":1', '{"maxLength":1},"schema":{}', '{"maxLength":1},"schema":5',
               '{"maxLength":1.5}', '{"minLength":-1,"maxLength":1}', '{"maxLength":1}]')
    texts = ("", "x", "xx", "\u00e9", r"\"", r"x\\", r"\u0041", '"', 'x","fold":true,"instance":"xx', "x\t", "}", '"}')
    for lines in ([line(draft, '{"maxLength":1}', "xx") for draft in drafts],
                  [line("7", schema, text) for schema in schemas for text in ("x", "xx", r"\u0041")],
                  [line(draft, schema, text) for draft in ("4", "202012") for schema in ("{}", '{"maxLength":1}')
                   for text in texts]):
        yield from map(fed_lines, in_parts(lines, 6))


def long_texts_of_a_shared_schema():
    """A long text is asked of an object that lines share as others are."""
    for schema, inner, tail in product(({"maxLength": 1}, {"minLength": 9999}, {"pattern": "^y"}),
                                       ("x", "\u00e9", "\\n", "\\u0078", " ", "\\\""), ("", "\\n", " ")):
        front, end = around_text(7, schema)
        first = f"{front}y{end}"
        for times in (15, 31, 300, 1500, 9000):
            told = told_of([first] * 17 + [front + inner * times + tail + end])
            yield fed([[first + "\n", 17], front, [inner, times], f"{tail}{end}\n"], cut("\n".join(told)))
