"""Lines of a run: with a bound, in other forms, after others, and across the pieces that are read."""
from itertools import product

from rows.keywords.alike import behind_alike
from rows.keywords.common import (BAD, LONGEST_SHOWN, NO_REQUEST, ONE_REQUEST, RIGHT, RIGHT_MEMBERS, answer_to_text,
                                  around_text, fed, fed_lines, in_parts, lined, some_of, told_of)
from rows.keywords.entries import KEYWORDS
from rows.keywords.meaning import MEMBERS
from rows.keywords.texts import is_json
from rows.keywords.values import MOST, compact, parsed
from rows.keywords.verdicts import verdicts_of


def bounded(parts, longest):
    """The row of an input with a bound of its lines: one that is longer ends the run, and the fault is told."""
    told = []
    text = "".join(part if isinstance(part, str) else part[0] * part[1] for part in parts)
    for line in text.removesuffix("\n").split("\n") if text else ():
        if len(line.encode()) > longest:
            return fed(parts, [*told, f"strkw: a line is longer than {longest} bytes"], longest=longest)
        told += answer_to_text(line)
    return fed(parts, told, longest=longest)


def bounded_lines():
    """A line longer than the bound ends the run: the lines before it are answered, and the fault is told."""
    request = {"draft": 7, "schema": {"maxLength": 1}}
    one, two = (compact({**request, "instance": it}) for it in ("x", "\u00e9\u20ac"))
    for lines in ([one, two], [two, one, ""], ["", one, ""], [one], ["", "", ""], [two, two, one]):
        for end in ("\n", ""):
            for longest in sorted({0, 1, len(one), len(one) - 1, *(len(two.encode()) + it for it in (-2, -1, 0, 1))}):
                yield bounded(["\n".join(lines) + end], longest)
    # White space counts, also a carriage return before the line feed.
    for front, tail, end in product(("", " "), ("\r", " ", "\t", "\r\r", "\r \r"), ("", "\n", "\n\r\n")):
        line = front + one + tail
        for longest in (len(one), len(line) - 1, len(line), len(line) + 1, 2 ** 32, 2 ** 63, MOST):
            yield bounded([line + end], longest)
    # The program reads pieces of 64 KiB.
    for size in (65535, 65536, 65537, 131072, 150000):
        for longest, begin, end in product((size - 1, size, size + 1), ("", "\n"), ("", "\n", "\n\n")):
            yield bounded([begin, ["x", size], end], longest)


def signs_in_texts():
    """A text has no control character as it stands (RFC 8259, section 7), whichever lines before it were alike."""
    for schema in ({"maxLength": 1}, {"minLength": 3, "contentMediaType": "x"}):
        front, end = around_text(7, schema)
        for sign in (*map(chr, (it for it in range(32) if it != 10)), '"', "\\", "\x7f", "\x80", "\u2028", " ", "/"):
            texts = (sign, "x" + sign, sign + "x", "x" * 40 + sign, "x" * 15 + sign + "x" * 16)
            lines = [front + text + end for text in texts]
            yield fed_lines(lines)
            yield behind_alike(f"{front}x{end}", front + end, *lines)


# What stands before or behind a line in other forms of lines, and is no white space of JSON (RFC 8259, section 2).
NO_SPACES_OF_JSON = (
    *map(chr, (*range(9), 11, 12, *range(14, 32), 127)), "\x85", "\xa0", "\xad", "\u1680", "\u180e", "\u2000", "\u200b",
    "\u200e", "\u2028", "\u2029", "\u202f", "\u205f", "\u2060", "\u3000", "\ufeff", "\ufffd", "\ufffe", ",", ";", ".",
    "#", "//", "/**/", "--", "data: ", "data:", ")]}'", "&&", "x", "0", "null", "'", '"', "`", "\\", "\\n", "$", "-",
    "+", "=", ":", "!", "?", "*", "(", ")", "<", ">", "[", "]", "{", "}", "|", "\x1b[0m", "\r\x1a", "END", "end")


def lines_in_other_forms():
    """A request with anything but white space of JSON around it is none, nor is one inside another value."""
    one, schema = compact(ONE_REQUEST), compact(ONE_REQUEST["schema"])
    for sign in NO_SPACES_OF_JSON:
        lines = [sign + one, one + sign, sign + one + sign]
        yield fed([*(line + "\n" for line in lines), one], told_of([*lines, one]))
        yield behind_alike(one, *lines)
    spaces = product(("", " ", "\t", "\r", " \t\r "), repeat=2)
    for line in (*(front + one + tail for front, tail in spaces),
                 f"[{one}]", f"[{one},{one}]", f"[[{one}]]", f'{{"request":{one}}}', f'{{"requests":[{one}]}}',
                 f'{{"":{one}}}', compact(one), compact([one]), f'[7,{schema},"x"]',
                 f'{{"0":7,"1":{schema},"2":"x"}}', f'{{"draft":7}},{one}', f"{one},", f"{{{one}}}", f"({one})",
                 f"{one}{one}", f'{{"draft":7,"schema":{schema},"instance":"x",}}'):
        yield fed([line], answer_to_text(line))
    plain = {"draft": 7, "schema": {"maxLength": 1}, "instance": "x"}
    for name in MEMBERS:
        for value in (schema, f"[{schema}]", "{}", "[{}]", "true", "false", "7", "date", "x", "null", "[7]", "2020-12",
                      "", [parsed(schema)], {name: RIGHT_MEMBERS[name]}, [RIGHT_MEMBERS[name]],
                      {"": RIGHT_MEMBERS[name]}):
            yield lined({**plain, name: value})
    for line in ("# x", "// x", "-- x", "; x", "---", "...", "[DONE]", "quit", "exit", "end", "help", "?", "EOF",
                 "valid", "fold", "{", "draft", "true", "false", '"end"', "\x04", "\x1a", "GET / HTTP/1.1", "<x/>",
                 "7,{},x", "draft=7", "--help"):
        yield fed([line + "\n", one], told_of([line, one]))


def lines_after_lines():
    """Nothing of a line stays for the next one: what that leaves out is missing, or as it is without it."""
    every = {**RIGHT_MEMBERS, "schema": {"format": "uuid", "maxLength": 1}, "instance": "xx"}
    few = {"draft": 202012, "schema": {"pattern": "^a", "minLength": 3}, "instance": "b"}
    for name in MEMBERS:
        without, other = ({it: line[it] for it in line if it != name} for line in (every, few))
        yield lined(every, without, few, without, other, every)
        yield lined((every, 17), without, every, other, without)
        yield lined((few, 17), other, without, few, other)
        for value in (None, parsed("[]"), parsed("{}"), "x"):
            yield lined(every, {**few, name: value}, other, {**every, name: value}, without, few)
    # A schema object is kept behind 16 lines that share it. It means another thing under the terms of the next line.
    for schema, more, times in product(
            ({"format": "date"}, {"format": "x"}, {"contentMediaType": "application/json"}),
            ({"draft": 202012}, {"validate_formats": False}, {"ignore_unknown_formats": False}), (15, 16, 17)):
        one = {"draft": 7, "schema": schema, "instance": "x"}
        yield lined((one, times), {**one, **more}, one)
        yield lined(({**one, **more}, times), one, {**one, **more})
    for first, second in product(({}, {"validate_formats": True}, {"validate_formats": False},
                                  {"ignore_unknown_formats": False}, {"fold": True}), repeat=2):
        lines = [{"draft": draft, "schema": {"format": "date", "maxLength": 9}, "instance": "x", **more}
                 for draft in (7, 202012) for more in (first, second, {})]
        yield lined(*lines, *lines[::-1])
    for keyword, other in product(KEYWORDS, repeat=2):
        lines = [{"draft": draft, "schema": {it: RIGHT[it]}, "instance": "!"}
                 for draft in (7, 202012) for it in (keyword, other)]
        bad = {**lines[0], "schema": {keyword: BAD[keyword]}}
        yield lined(*lines, {**lines[0], "schema": {}}, bad, *lines[::-1])


# Lines of a run whose answers differ, the first two with characters of two to four bytes.
APART = (
    '{"draft":7,"schema":{"maxLength":1},"instance":"\u00e9\u20ac"}',
    '{"draft":202012,"schema":{"format":"\U0001f600"},"instance":"x"}',
    '{"draft":7,"fold":true,"schema":{"format":"date"},"instance":5}',
    '{"instance":"","schema":{"minLength":1},"draft":4}')
# Bytes of which none is UTF-8 (Unicode's table 3-7): of a character too few, too many, too low and too high.
OTHER_BYTES = ("80", "C3", "C0 AF", "E2 82", "E0 9F BF", "ED A0 80", "F0 9F 98", "F4 90 80 80", "FF",
               "C3 A9 A9", "E2 28 AC")


def parts_of(*pieces):
    """Texts and bytes as the parts of an input."""
    return [part for it in pieces for part in ([it] if isinstance(it, (str, list)) else it)]


def lines_beside_no_utf8():
    """A line that is no UTF-8 is no request, and changes no answer of another line."""
    one, two, three, four = APART
    front, back = '{"draft":7,"schema":{"maxLength":1},"instance":"', '"}'
    for wrong in map(bytes.fromhex, OTHER_BYTES):
        # Within a text, alone, before a request and behind one; with others before, behind and on both sides.
        for before, behind in ((front, back), ("", ""), ("", three), (three, "")):
            for lines in ((wrong, one, two, four), (one, wrong, two, three), (two, three, wrong), (wrong, wrong, two),
                          (one, wrong, four, wrong, two)):
                for end in ("\n", ""):
                    parts = parts_of(*(piece for at, line in enumerate(lines) for piece in (
                        *((line,) if isinstance(line, str) else (before, line, behind)),
                        "\n" if at + 1 < len(lines) else end)))
                    yield fed(parts, told_of(lines))
        # Between lines that share a schema object.
        for shared in (one, two, four):
            parts = parts_of([shared + "\n", 17], front, wrong, back + "\n", shared + "\n", three + "\n")
            yield fed(parts, told_of(17 * (shared,) + (wrong, shared, three)))
        # Where a piece of 64 KiB ends before, within and behind these bytes.
        for spare in range(-1, len(wrong) + 2) if len(wrong) > 2 else ():
            size = 65536 - len(f"{one}\n{front}".encode()) - spare - 1
            parts = parts_of(["x", size], f"\n{one}\n" + front, wrong, back + f"\n{two}\n{three}")
            yield fed(parts, told_of(("x", one, wrong, two, three)))


def lines_at_the_ends_of_pieces():
    """A piece of 64 KiB may end anywhere in a line, behind it and behind its line feed: the answers are the same."""
    one, two, three, four = APART
    for text, step in ((f"{one}\n\n{four}", 1), (f"{two}\n{three}\n", 3)):
        told = told_of(["x", *text.removesuffix("\n").split("\n")])
        for at in range(0, len(text.encode()) + 1, step):
            yield fed([["x", 65536 - at - 1], "\n" + text], told)
    # The line before it goes over two pieces, and is a request all the same.
    first = '{"draft":7,"schema":{},"instance":1}'
    for at in (-2, -1, 0, 1, 2, 60):
        parts = [first, [" ", 131072 - at - 1 - len(first)], f"\n{two}\n{three}"]
        yield fed(parts, told_of((first, two, three)))


def lines_of_one_sign():
    """A line of white space, or of another sign, is a line wherever it stands, and no request, ended or not."""
    one, two = APART[0], APART[2]
    for sign in ("\t", "\r", "\r\r", " \r", "\t ", *" \0\x04\x0b\x0c\x1a\x1e\x7f\x85\u00a0\u2028\ufeff#;,[]{}"):
        for lines in ((sign, one, two), (one, sign, two), (one, two, sign), (sign,), (one, sign, sign)):
            yield from (fed(["\n".join(lines) + end], told_of(lines)) for end in ("\n", ""))


def lines_of_grammars():
    """A line is JSON where the values in it are, wherever they stand, and is no request where one of them is none."""
    forms = ('{"draft":7,"schema":{"maxLength":0},"instance":%s}',
             '{"draft":202012,"schema":{"contentMediaType":"a","contentSchema":%s,"x":%s},"instance":"x"}')
    verdicts = verdicts_of("json")
    # A text such as `0,"a":0` is none, and more than one member where it stands behind a name.
    texts = some_of([it for it in verdicts if len(it) < 200 and "\n" not in it
                     and (verdicts[it] or not is_json(f'{{"a":{it}}}'))], 1200)
    for form, some in product(forms, in_parts(texts, 8)):
        lines = [form.replace("%s", text) for text in some]
        told = [it for text, line in zip(some, lines)
                for it in (answer_to_text(line) if verdicts[text] else NO_REQUEST)]
        assert len("\n".join(told).encode()) < LONGEST_SHOWN
        yield fed([line + "\n" for line in lines], told)
