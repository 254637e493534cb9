#!/usr/bin/env python3
"""Times what the package of Python checks a second, beside python-jsonschema's own format checker and an expression
for `re` that is written by hand.

    python3 bench/python_checks.py [COUNT [ROUNDS]]      20000 texts and 7 rounds, unless it is said otherwise

Run bindings/build first; python-jsonschema has to be installed. For each kind of text it writes a row of the table in
bench/README.md: thousands of texts a second, by the least processor time of the rounds.

- In one call: `Schema.are_valid` on all texts, by a schema object that is compiled once.
- One a call: `is_format` on each text, and `Schema.is_valid` where the kind is a pattern.
- In jsonschema: `strkw.jsonschema_format_checker().conforms`.
- jsonschema's own: `FormatChecker().conforms`, of what its checks do without further packages; its `pattern` is `re`.
- `re`: `fullmatch` of an expression that was compiled before. What it admits beside the format stands in KINDS.

Half of the texts of a kind are right, and each differs from the others. Where a way judges texts otherwise than they
were made, a line on the standard error says how many.
"""
import re
import sys
import time
import warnings
from pathlib import Path

sys.path.insert(0, str(Path(__file__).resolve().parent.parent / "bindings" / "python"))

import strkw

try:
    from jsonschema import FormatChecker
except ImportError:
    sys.exit("bench/python_checks.py: python-jsonschema is not installed")

DEFAULTS = (20000, 7)

SLUG = "^[a-z0-9]+(-[a-z0-9]+)*$"
OCTET = "(25[0-5]|2[0-4][0-9]|1[0-9][0-9]|[1-9]?[0-9])"

# The draft, the keyword and its value, a right and a wrong text of a number, and an expression for `re`.
KINDS = {
    # A day from 29 on is admitted in each month.
    "date": (7, "format", "date",
             lambda number: f"{number % 9000 + 1000:04}-{number % 12 + 1:02}-{number % 28 + 1:02}",
             lambda number: f"{number % 9000 + 1000:04}-02-30",
             "[0-9]{4}-(0[1-9]|1[0-2])-(0[1-9]|[12][0-9]|3[01])"),
    "ipv4": (7, "format", "ipv4",
             lambda number: f"10.{number % 256}.{number // 256 % 256}.{number % 99}",
             lambda number: f"10.{number % 256}.256.{number % 99}",
             rf"{OCTET}(\.{OCTET}){{3}}"),
    "uuid": (201909, "format", "uuid",
             lambda number: f"{number:08x}-7dec-11d0-a765-00a0c91e6bf6",
             lambda number: f"{number:08x}-7dec-11d0-a765-00a0c91e6bfg",
             "[0-9A-Fa-f]{8}(-[0-9A-Fa-f]{4}){3}-[0-9A-Fa-f]{12}"),
    # Labels of any length, in a name of any length.
    "hostname": (7, "format", "hostname",
                 lambda number: f"www.n{number}.example.com", lambda number: f"www.-n{number}.example.com",
                 r"[A-Za-z0-9]([A-Za-z0-9-]*[A-Za-z0-9])?(\.[A-Za-z0-9]([A-Za-z0-9-]*[A-Za-z0-9])?)*"),
    "pattern": (7, "pattern", SLUG,
                lambda number: f"a-slug-of-{number}", lambda number: f"a--slug-of-{number}", SLUG),
}


def texts_of(right, wrong, count):
    """So many texts, a wrong one and a right one by turns."""
    return [right(number) if number % 2 else wrong(number) for number in range(count)]


def timed(call, rounds):
    """What a call answers, and its least processor time."""
    best = None
    for _ in range(rounds):
        start = time.process_time()
        answer = call()
        taken = time.process_time() - start
        best = taken if best is None else min(best, taken)
    return answer, best


def each(check, texts):
    """A way to check the texts, one call for each."""
    return lambda: [check(text) for text in texts]


def ways(draft, keyword, value, expression, texts):
    """Each way to check the texts, by its name; None where there is none."""
    schema = strkw.Schema(draft, {keyword: value})
    search = re.compile(expression).fullmatch
    made, own = strkw.jsonschema_format_checker(), FormatChecker()
    is_format = keyword == "format"
    return {
        "in one call": lambda: schema.are_valid(texts),
        "one a call": each((lambda text: strkw.is_format(value, text)) if is_format else schema.is_valid, texts),
        "in jsonschema": each(lambda text: made.conforms(text, value), texts) if is_format else None,
        "jsonschema's own": each(lambda text: own.conforms(text, value), texts)
        if is_format and value in own.checkers else None,
        "re": each(lambda text: search(text) is not None, texts),
    }


def row(name, kind, count, rounds):
    """The line of the table that tells the times of a kind."""
    draft, keyword, value, right, wrong, expression = kind
    texts = texts_of(right, wrong, count)
    shown, wanted, other = [], [number % 2 == 1 for number in range(count)], 0
    for way in ways(draft, keyword, value, expression, texts).values():
        if way is None:
            shown.append("-")
            continue
        answers, taken = timed(way, rounds)
        shown.append(f"{count / taken / 1000:,.0f}")
        other = max(other, sum(got != want for got, want in zip(answers, wanted)))
    if other:
        print(f"{name}: {other:,} texts are judged otherwise by one of them", file=sys.stderr)
    return f"| {name} | " + " | ".join(shown) + " |"


def main():
    """Prints the table."""
    words = sys.argv[1:]
    if len(words) > 2 or not all(word.isdigit() and int(word) > 0 for word in words):
        print(__doc__.split("\n\n")[1].strip(), file=sys.stderr)
        return 2
    count, rounds = (*map(int, words), *DEFAULTS[len(words):])
    warnings.simplefilter("ignore")
    print("| Texts | In one call | One a call | In jsonschema | jsonschema's own | `re` |\n|---|---|---|---|---|---|")
    for name, kind in KINDS.items():
        print(row(name, kind, count, rounds), flush=True)
    return 0


if __name__ == "__main__":
    sys.exit(main())
