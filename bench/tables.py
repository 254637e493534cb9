#!/usr/bin/env python3
"""Times how long the table of a pattern takes to build.

    python3 bench/tables.py [ROUNDS]     the least of so many rounds, 9 if none is given

`neldrafi check` compiles each subschema of a schema once. It is run on a schema of 400 properties with one pattern and
on a document without any of them, so that the program builds the pattern's engine 400 times and searches nothing. The
time of the pattern `^a$` is taken off, for which there is little to build. The program is the one that the last `rt ci`
or `rt run` left in crates/neldrafi/out.
"""
import json
import resource
import subprocess
import sys
import tempfile
from pathlib import Path

PROGRAM = Path(__file__).resolve().parent.parent / "crates/neldrafi/out/neldrafi"
PROPERTIES = 400
LABEL = "[a-zA-Z0-9](?:[a-zA-Z0-9-]{0,61}[a-zA-Z0-9])?"
SMALL = "^a$"
PATTERNS = [
    "^.{1,128}$", "^.{1,255}$", "^[a-zA-Z0-9._-]{1,128}$", r"^[\w+=,.@-]{1,200}$", "^sha512-[A-Za-z0-9+/]{86}==$",
    rf"^(?:{LABEL}\.)*{LABEL}$", rf"^[a-zA-Z0-9.!#$%&'*+\/=?^_`{{|}}~-]+@{LABEL}(?:\.{LABEL})*$",
    r"^\p{L}+$", r"^[\p{L}\p{N} ]{1,64}$", r"^\S{1,64}$", "(?:" * 250 + "ab" + ")*" * 250,
]


def processor_seconds():
    """The processor time of all runs that have ended."""
    used = resource.getrusage(resource.RUSAGE_CHILDREN)
    return used.ru_utime + used.ru_stime


def build_seconds(pattern, folder, rounds):
    """The processor time of a run that builds the engine of a pattern for each property."""
    schema = Path(folder) / "schema.json"
    properties = {f"p{number}": {"pattern": pattern} for number in range(PROPERTIES)}
    schema.write_text(json.dumps({"properties": properties}), encoding="utf-8")
    least = float("inf")
    for _ in range(rounds):
        began = processor_seconds()
        subprocess.run([PROGRAM, "check", schema], input="{}", text=True, stdout=subprocess.PIPE, check=True)
        least = min(least, processor_seconds() - began)
    return least


def main():
    """Prints how long the table of each pattern takes."""
    rounds = int(sys.argv[1]) if sys.argv[1:] else 9
    with tempfile.TemporaryDirectory() as folder:
        small = build_seconds(SMALL, folder, rounds)
        for pattern in PATTERNS:
            taken = build_seconds(pattern, folder, rounds) - small
            print(f"{taken / PROPERTIES * 1e6:6.0f} microseconds  {pattern[:60]}")


if __name__ == "__main__":
    main()
