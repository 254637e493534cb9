"""Sections: rows under one name, each with the lines that are expected of it."""
import hashlib
from dataclasses import dataclass


@dataclass(frozen=True)
class Section:
    """Rows for one program, as they are fed to it, and how many calls it answers over them."""
    program: str
    name: str
    text: str
    rows: int
    answers: int

    @classmethod
    def of(cls, program, name, rows):
        """A section of rows, each with the lines that are expected below it. An answer that is nothing at all is told
        as an empty line."""
        rows = [(row, list(expected) or [""]) for row, expected in rows]
        lines = [line for row, expected in rows for line in (row, *(f"> {it}" for it in expected))]
        return cls(program, name, in_lines(lines), len(rows), sum(len(expected) for _, expected in rows))

    @classmethod
    def of_counted(cls, program, name, rows):
        """A section of rows that have the expected answers in them, each with the number of its answers."""
        rows = list(rows)
        return cls(program, name, in_lines(row for row, _ in rows), len(rows), sum(count for _, count in rows))

    @property
    def sha256(self):
        """The checksum of the text."""
        return hashlib.sha256(self.text.encode()).hexdigest()

    @property
    def title(self):
        """The section's name behind that of its program."""
        return f"{self.program}: {self.name}"


def in_lines(lines):
    """Lines as one text."""
    return "".join(f"{line}\n" for line in lines)
