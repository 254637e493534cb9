"""Files by product: fields, quotes, what is beside them, line ends and delimiters; a byte each character."""
import json
from itertools import product

from rows.records.reading import told

# Fields as they stand in a file: each of them is not UTF-8, is empty, or has a blank or more.
FIELDS = ("", '""', " ", "x", "xx", "\u00ff", "x\u00ff", "\u00c3\u00a9", "\u00c2\u00a0", "\u00ef\u00bb\u00bf",
          "\u00e2\u0080\u008b", "\t")
# Fields in quotes, and what follows the closing quote: with it the quote is misplaced.
QUOTED = ('""', '"a"', '"a""b"', '"a,b"', '"a\nb"', '" "', '"a "')
BEHIND_QUOTES = (" ", "  ", "\t", " x", "x ", "x", ' "', ' "x"', 'x"y"', "'", "\\", ";",
                 "\u00c2\u00a0", "\u00ff", "\u00e2\u0080\u008b")
# Line ends, of which each is one.
ENDS = ("\n", "\r", "\r\n")
# Files whose fields ~ parts, with commas, quotes, blank lines and a field that is not UTF-8.
PARTED = ('a~b\n1,~"~"\n22~\n', '"a"~b\r"2~2"~"3""3"\r\n\r\n4~\u00ff\n', 'a~b\n\n,~"1"1\n"1~"\n')
# A byte order mark.
MARK = "\u00ef\u00bb\u00bf"


def as_row(text, **given):
    """The row of a file, as JSON."""
    return json.dumps({**given, "records": text}, separators=(",", ":"))


def of_file(text, **given):
    """The row of a file, and what it comes to."""
    return as_row(text, **given), told(text, **given)


def fields():
    """Fields of each kind beside one another."""
    for first, second in product(FIELDS, repeat=2):
        yield of_file(f"a,b\n{first},{second}\n{second},x\n")
    for broken in product(("x", "\u00ff", "\u00c3"), repeat=3):
        yield of_file(",".join(broken) + "\na,b,c\n")


def widths():
    """Records of more fields than the first and of fewer."""
    for counts in product((1, 2, 3), repeat=3):
        yield of_file("".join(",".join("x" * count) + "\n" for count in counts))


def parted():
    """Files whose fields another delimiter separates."""
    for delimiter, text in product((";", "\t", "x", "\x7f"), PARTED):
        yield of_file(text.replace("~", delimiter), delimiter=delimiter)


def delimiters():
    """Each character of ASCII parts fields, but a quote, CR and LF: a comma stands for these, and for one past ASCII."""
    for delimiter in (*map(chr, range(128)), "\u00e9"):
        parts = "," if delimiter in '"\r\n\u00e9' else delimiter
        text = f"a{parts}b\n1{parts}{parts}\n"
        yield as_row(text, delimiter=delimiter), told(text, delimiter=parts)


def marked():
    """Files behind a byte order mark, which is no part of their first record, and marks elsewhere."""
    for text in ("a", "ab", '"a"', "a,b", "\u00e9"):
        yield as_row(MARK + text + "\nab\n"), told(text + "\nab\n")
    for text in (f"a\n{MARK}b\n", f"\n{MARK}a\n", f"a,{MARK}\n", f"{MARK[:2]}a\n", f"{MARK[:1]}", f"a{MARK}"):
        yield of_file(text)
    yield as_row(2 * MARK + "a\n"), told(MARK + "a\n")


def ends():
    """Line ends in quotes, with what stands between them, and between records, before the first and behind the last."""
    for parts in product(("\r", "\n", "x"), repeat=3):
        yield of_file(f'b,a\n"{"".join(parts)}",x\n,xx\n')
    for front, behind in product(product("\r\n", repeat=2), repeat=2):
        yield of_file(f'{"".join(front)}a\n{"".join(behind)}xx\r')
    for text in ("", "\n", "\r\n\r", "a", "a,", '"a"', '""', '"",""', "a\n\n", " \n", "\t\n", '""\n'):
        yield of_file(text)


def behind_quotes():
    """Fields in quotes with text behind the closing quote or before the opening one, by which it is misplaced."""
    for front, quoted, behind in product(("", " ", "\t"), QUOTED, ("", *BEHIND_QUOTES)):
        if not front or quoted[1] not in "a" or quoted == '"a"':
            yield of_file(f"a,b\n{front}{quoted}{behind},x\nx,{front}{quoted}{behind}\n")
        if not front:
            yield of_file(f"a\n{quoted}{behind}\n{quoted}{behind}\r\n")
            yield of_file(f"{quoted}{behind},x\n")


def bytes_in_fields():
    """Each byte but a quote in fields, at their ends and alone, with quotes and without."""
    for c in (*map(chr, range(256)), "\u00c2\u0085", "\u00e2\u0080\u00a8"):
        if c != '"':
            yield of_file(f"a,b\nx{c}y,{c}\n{c}x,x{c}\n")
            yield of_file(f'a,b\n"x{c}y","{c}"\n"{c}x","x{c}"\n')
            # The bytes of a record are looked at by sixteen.
            long = ["x" * before + c + "x" * behind for before, behind in ((0, 16), (9, 30), (15, 16), (16, 0), (31, 0))]
            yield of_file("\n".join(["a", *long, ""]))


def open_quotes():
    """A quote that stays open, behind line ends of each kind and two of them, and a delimiter."""
    for front in ("".join(ends) for count in (1, 2) for ends in product(ENDS, repeat=count)):
        line = 1 + len(front.replace("\r\n", "\n").replace("\r", "\n"))
        for before, behind in product(("", "b,"), ("x", "", 'x""', "x\n,")):
            yield (as_row(f'a{front}{before}"{behind}'),
                   ['1: ["a"]', f"{line}: a quote that begins here is not closed"])
