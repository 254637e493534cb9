"""The programs and scripts that take tables of bench/README.md, and how the figures are read in what they print.

Each of them gives its figures by names, which `named.py` sets beside the rows and columns of the tables.
"""
import os
import re
import subprocess
import sys
import time
from pathlib import Path
from statistics import median
from typing import Callable, NamedTuple

import growth
from figures import cells_of
from tables import PATTERNS

TOP = Path(__file__).resolve().parent.parent
RUNS = 5
LONG_SECONDS = 5
LINE = re.compile(r"( *)(.+): ([\d.]+) (?:ns|MB/s)(?:, \d+ accepted)?")
REQUESTS = re.compile(r"(.+?) +\d+ bytes a line +([\d.]+) thousand/s +(\d+) MB/s.*?(?:ratio ([\d.]+))?")


class Options(NamedTuple):
    """What the arguments say of a run: another program for requests, and the megabytes that inputs have at most."""
    beside: str | None = None
    up_to: float = 256


class Run(NamedTuple):
    """What is run: which programs have to be there, and a call that gives each printed figure by its name."""
    needs: tuple[str, ...]
    figures: Callable[[Options], dict[str, float]]


def output_of(words, given=""):
    """The lines that a program prints on such an input. It is an error if it fails."""
    run = subprocess.run(words, input=given.encode(), stdout=subprocess.PIPE, check=True)
    return run.stdout.decode().splitlines()


def script(name, *words):
    """The lines that a script of bench/ prints."""
    return output_of([sys.executable, TOP / "bench" / name, *words])


def topic_figures(topic):
    """The figures of a topic of strkw_bench. One below a heading has the heading and `/` in front of its name."""
    heading, found = "", {}
    for line in output_of([TOP / "crates/strkw_bench/out/strkw_bench", topic]):
        if figure := LINE.fullmatch(line):
            name = re.sub(r", \d+ bytes$", "", figure[2]) if topic == "time_net" else figure[2]
            found[f"{heading}/{name}" if figure[1] else name] = float(figure[3])
        else:
            heading = line
    return found


def line_figures(line):
    """The figures of a line of bench/patterns.tsv: PATTERN/here and PATTERN/regex. A dash stands for none."""
    (printed,) = output_of([TOP / "crates/strkw_bench/out/strkw_bench", "patterns"], line)
    pattern, _, *engines = printed.split("\t")
    pairs = (engine.split(" ")[:2] for engine in engines)
    return {f"{pattern}/{name}": float(value) for name, value in pairs if value != "-"}


def pattern_figures(options):
    """The figures of all lines of bench/patterns.tsv, by the median of some runs. One that takes long is run once."""
    found = {}
    for line in (TOP / "bench/patterns.tsv").read_text(encoding="utf-8").splitlines():
        began, runs = time.monotonic(), [line_figures(line)]
        is_long = time.monotonic() - began > LONG_SECONDS
        runs += [line_figures(line) for _ in range(0 if is_long else RUNS - 1)]
        found |= middle(runs)
    return found


def request_figures(options):
    """The figures of bench/requests.py: KIND/requests, KIND/MB, and KIND/ratio where there is another program."""
    beside, found = ["--beside", options.beside] if options.beside else [], {}
    for line in script("requests.py", *beside, "100000", "5"):
        kind, thousands, megabytes, ratio = REQUESTS.fullmatch(line).groups()
        found |= {f"{kind}/requests": float(thousands) * 1000, f"{kind}/MB": float(megabytes)}
        if ratio:
            found[f"{kind}/ratio"] = float(ratio)
    return found


def building_figures(options):
    """The figures of bench/tables.py, by the pattern: a line for each in their order."""
    return {pattern: float(line.split()[0]) for pattern, line in zip(PATTERNS, script("tables.py"), strict=True)}


def python_figures(options):
    """The figures of bench/python_checks.py, which prints the table: KIND/COLUMN."""
    head, _, *rows = map(cells_of, script("python_checks.py", "20000", "11"))
    return {f"{row[0]}/{column}": float(cell.replace(",", "")) for row in rows
            for column, cell in zip(head[1:], row[1:]) if cell != "-"}


def growth_figures(options):
    """The figures of growth.py: PROGRAM/SIZE/time and PROGRAM/SIZE/memory."""
    return growth.figures(options.up_to)


def middle(runs):
    """The median figure of each name in some runs."""
    return {name: median(found[name] for found in runs) for name in runs[0]}


def topic(name):
    """The run of a topic of strkw_bench, which is a crate."""
    return Run(("strkw_bench",), lambda options: middle([topic_figures(name) for _ in range(RUNS)]))


PATTERN_SEARCHES = Run(("strkw_bench",), pattern_figures)
BUILDING_OF_TABLES = Run(("neldrafi",), building_figures)
REQUEST_LINES = Run(("strkw",), request_figures)
PYTHON_CHECKS = Run(("bindings",), python_figures)
GROWTH = Run(growth.CRATES, growth_figures)
