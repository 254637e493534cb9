"""How time and memory of the programs grow with the input, from 1 KB to 256 MB.

An input is made while its program reads it, from a pipe: records of one length, all of them valid. The time is the
processor time (user and system) of the whole program, as the least of some runs. The memory is the peak of what is
resident, in one more run under /usr/bin/time. Where that is not installed it is what the system counts for a child, of
which some 12 MB are this script's own.
"""
import json
import os
import subprocess
import tempfile
from dataclasses import dataclass
from itertools import chain
from pathlib import Path

TOP = Path(__file__).resolve().parent.parent
MEGABYTE = 10 ** 6
SIZES = {"1 KB": 1_000, "16 KB": 16_000, "256 KB": 256_000, "4 MB": 4_000_000, "64 MB": 64_000_000,
         "256 MB": 256_000_000}
FEW_ROUNDS, ROUNDS = 3, 15
LARGE = 10_000_000
RECORDS_OF_A_PIECE = 4096
DIFFERENT_RECORDS = 1_000_000
TIME = "/usr/bin/time"


def born(number):
    """A date."""
    return b"19%02d-%02d-%02d" % (number % 100, number % 12 + 1, number % 28 + 1)


def site(number):
    """A URI."""
    return b"https://example.com/people/%06d?page=2" % number


def request(number):
    """A line for `strkw`."""
    return b'{"draft":7,"schema":{"format":"date"},"instance":"%b"}\n' % born(number)


@dataclass(frozen=True)
class Kind:
    """A program with a file that its command names, and its input: a head, records, and a tail."""
    crate: str
    words: tuple
    file: dict
    record: object
    head: bytes = b""
    tail: bytes = b""
    answer: bytes = b""

    def pieces(self, size):
        """An input of as many records as make at most so many bytes, and at least one."""
        room = size - len(self.head) - len(self.tail)
        count = max(1, room // len(self.record(0)))
        yield self.head
        for first in range(0, count, RECORDS_OF_A_PIECE):
            last = min(first + RECORDS_OF_A_PIECE, count)
            yield b"".join(self.record(number % DIFFERENT_RECORDS) for number in range(first, last))
        yield self.tail


KINDS = {
    "`strkw`": Kind("strkw", (), {}, request, answer=b'valid\nnote /format: "date"\nend\n'),
    "`neldrafi check`": Kind("neldrafi", ("check", "--as", "text", "--draft", "7", "FILE"), {"format": "uri"},
                             lambda number: site(number) + b"\n"),
}
CRATES = tuple(kind.crate for kind in KINDS.values())


def outcome(words, kind, size, written):
    """Runs a program on an input: its processor time in milliseconds, and the peak of memory in megabytes."""
    with open(written, "wb") as sink:
        run = subprocess.Popen(words, stdin=subprocess.PIPE, stdout=sink)
        try:
            with run.stdin as given:
                for piece in kind.pieces(size):
                    given.write(piece)
        except BrokenPipeError:
            pass  # It ended early: its status tells.
        _, status, used = os.wait4(run.pid, 0)
    run.returncode = os.waitstatus_to_exitcode(status)
    if run.returncode:
        raise subprocess.CalledProcessError(run.returncode, words)
    return (used.ru_utime + used.ru_stime) * 1000, used.ru_maxrss * 1024 / MEGABYTE


def check_answers(words, kind, size, written):
    """Whether a program answers what valid records are to be answered."""
    outcome(words, kind, size, written)
    count = sum(piece.count(b"\n") for piece in kind.pieces(size))
    if written.read_bytes() != kind.answer * count:
        raise ValueError(f"{words[0]} does not answer that all records of {size} bytes are valid")


def peak(words, kind, size, folder):
    """The peak of memory in megabytes."""
    if not os.path.exists(TIME):
        return outcome(words, kind, size, os.devnull)[1]
    told = folder / "peak"
    outcome([TIME, "--format", "%M", "--output", told, *words], kind, size, os.devnull)
    return int(told.read_text()) * 1024 / MEGABYTE


def figures_of(name, kind, up_to, folder):
    """The figures of a program: NAME/SIZE/time and NAME/SIZE/memory."""
    file = folder / "file.json"
    file.write_text(json.dumps(kind.file))
    program = TOP / "crates" / kind.crate / "out" / kind.crate
    words = [program, *(file if word == "FILE" else word for word in kind.words)]
    check_answers(words, kind, SIZES["1 KB"], folder / "written")
    for size, length in SIZES.items():
        if length <= up_to * MEGABYTE:
            rounds = ROUNDS if length < LARGE else FEW_ROUNDS
            times = [outcome(words, kind, length, os.devnull)[0] for _ in range(rounds)]
            yield f"{name}/{size}/time", min(times)
            yield f"{name}/{size}/memory", peak(words, kind, length, folder)


def figures(up_to):
    """The figures of all programs, on inputs of at most so many megabytes."""
    with tempfile.TemporaryDirectory() as folder:
        found = (figures_of(name, kind, up_to, Path(folder)) for name, kind in KINDS.items())
        return dict(chain.from_iterable(found))
