#!/usr/bin/env python3
"""Times calls from C and from Python: a text a call, and a million texts in one call.

    python3 bench/calls.py [ROUNDS]      each as the least of 1000 rounds, unless it is said otherwise; 40 at least

Run bindings/build first. It builds bench/calls.c over bindings/out/libstrkw.a and runs it, and then checks the same
million dates by the package of Python, as the least of a fortieth of the rounds. It prints the tables of
bench/README.md: nanoseconds a text, and milliseconds for a million.
"""
import os
import subprocess
import sys
import time
from array import array
from pathlib import Path
from tempfile import TemporaryDirectory

HERE = Path(__file__).resolve().parent
BINDINGS = HERE.parent / "bindings"
sys.path.insert(0, str(BINDINGS / "python"))

import strkw

ROUNDS, LEAST_ROUNDS, MILLION, DATE = 1000, 40, 1_000_000, 10


def right(number):
    """A date."""
    return f"{number % 9000 + 1000:04}-{number % 12 + 1:02}-{number % 28 + 1:02}"


def wrong(number):
    """A text that is none."""
    return f"{number % 9000 + 1000:04}-02-30"


def ways():
    """Each way to check a million texts from Python, by its name, and how it answers that the first two are so."""
    schema = strkw.Schema(7, {"format": "date"})
    listed = [right(number) if number % 2 else wrong(number) for number in range(MILLION)]
    texts = "".join(listed).encode()
    narrow, wide = (array(word, range(0, DATE * MILLION + 1, DATE)) for word in "iq")
    # All but every eighth text.
    bits = b"\x7f" * (MILLION // 8)
    return {
        "`check_array` from Python": lambda: schema.check_array(texts, narrow),
        "`check_array` from Python, `large=True`": lambda: schema.check_array(texts, wide, large=True),
        "`check_array` from Python, an eighth null": lambda: schema.check_array(texts, narrow, bits),
        "`are_valid` from Python, a list of `str`": lambda: schema.are_valid(listed),
    }


def milliseconds(call, rounds):
    """The least time of a call, whose first two answers are no and yes."""
    best = None
    for _ in range(rounds):
        start = time.perf_counter()
        answers = call()
        taken = time.perf_counter() - start
        assert list(answers[:2]) == [False, True]
        best = taken if best is None else min(best, taken)
    return best * 1000


def from_c(rounds):
    """Prints what the program of C prints; whether it ended well."""
    with TemporaryDirectory() as folder:
        program = Path(folder) / "calls"
        words = [os.environ.get("CC") or "cc", "-std=c11", "-O2", f"-I{BINDINGS}", "-o", program, HERE / "calls.c",
                 BINDINGS / "out" / "libstrkw.a"]
        return all(subprocess.run(words, check=False).returncode == 0 for words in (words, [program, str(rounds)]))


def main():
    """Prints the tables."""
    words = sys.argv[1:]
    if len(words) > 1 or not all(word.isdigit() and int(word) >= LEAST_ROUNDS for word in words):
        print(__doc__.split("\n\n")[1].strip(), file=sys.stderr)
        return 2
    rounds = int(words[0]) if words else ROUNDS
    if not from_c(rounds):
        return 1
    for name, call in ways().items():
        print(f"| {name} | {milliseconds(call, rounds // LEAST_ROUNDS):.1f} |", flush=True)
    return 0


if __name__ == "__main__":
    sys.exit(main())
