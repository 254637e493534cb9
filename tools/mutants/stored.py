"""Changes of code as the files tools/mutants/CRATE.mutants have them.

    ## 3 every fourth year is a leap year
    src/date.rt
    -     year % 4 == 0 && (year % 100 != 0 || year % 400 == 0)
    +     year % 4 == 0

A change has a number that stays its own, and a line that says what is wrong. Below it stand paths from the crate's
folder, each with replacements: lines behind `- `, which stand in the file once, where blanks and ends of lines count as
one blank, and lines behind `+ ` in their place. A line `not noticed: ..` says why no row is expected to notice it.
"""
import re
from dataclasses import dataclass, field
from pathlib import Path

STORED = Path(__file__).resolve().parent


class Broken(Exception):
    """A change that cannot be made."""


@dataclass
class Mutant:
    """A change of a crate's code: replacements, each with its file, the old text and the new one."""
    crate: str
    number: int
    wrong: str
    replacements: list = field(default_factory=list)
    reason: str = ""

    @property
    def name(self):
        """What names it on a command line and in the table."""
        return f"{self.crate}:{self.number}"

    def files(self, crates):
        """The texts of the files before and after the change, by the files."""
        before, after = {}, {}
        for path, old, new in self.replacements:
            file = crates / self.crate / path
            text = after.get(file) or before.setdefault(file, file.read_text(encoding="utf-8"))
            start, end = place_of(old, text, path)
            after[file] = text[:start] + new.strip() + text[end:]
        return {file: (text, after[file]) for file, text in before.items()}


def place_of(old, text, path):
    """Where an old text stands in a file: a text, or a pair of places."""
    if isinstance(old, tuple):
        return old
    places = [*re.finditer(r"\s+".join(map(re.escape, old.split())), text)]
    if len(places) != 1:
        raise Broken(f"{path} has {len(places)} times {old!r}")
    return places[0].span()


def read(crate):
    """The changes of a crate."""
    mutants, path, old, new = [], None, [], []

    def close():
        if old:
            mutants[-1].replacements.append((path, "\n".join(old), "\n".join(new)))
            old.clear()
            new.clear()

    for line in (STORED / f"{crate}.mutants").read_text(encoding="utf-8").splitlines():
        if line.startswith("-"):
            if new:
                close()
            old.append(line[2:])
        elif line.startswith("+"):
            new.append(line[2:])
        elif line.startswith("## "):
            close()
            number, wrong = line[3:].split(" ", 1)
            mutants.append(Mutant(crate, int(number), wrong))
        elif line.startswith("not noticed: "):
            mutants[-1].reason = line.removeprefix("not noticed: ")
        elif line and not line.startswith("# "):
            close()
            path = line
    close()
    return mutants


def crates():
    """The crates that have changes."""
    return sorted(file.stem for file in STORED.glob("*.mutants"))
