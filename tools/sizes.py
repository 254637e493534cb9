#!/usr/bin/env python3
"""Runs the built programs on large inputs, on outputs that take nothing, and under limits of memory.

    python3 tools/sizes.py              on crates/strkw/out/strkw, sizes as named (two minutes, 3 GB of memory)
    python3 tools/sizes.py --small      the rows without a limit of memory, at a thousandth of the size (seconds)
    python3 tools/sizes.py --bounded    lines of 16 MB under a limit of memory of three times their length (seconds; the
                                        gate runs it)
    python3 tools/sizes.py --shares     how many times a line's length is held at most, for each kind of value: a table
    python3 tools/sizes.py --growth     time and memory for inputs of 1, 2, 4 and 8 times a size: a table (minutes)
    python3 tools/sizes.py PROGRAM      on a program that stands elsewhere, in place of strkw

A row passes where the program ends with the wanted status, says what is wanted on standard error, and writes what is
wanted: the answers, or whole ones before a fault. A crash is never wanted. Each line has the peak of resident memory,
of which some 12 MB are this script's own (a program that is started has its starter's at first).
"""
import json
import os
import resource
import subprocess
import sys
import tempfile
from functools import partial
from itertools import product
from pathlib import Path

TOP = Path(__file__).resolve().parent.parent
SECONDS_FOR_A_RUN = 300
MEGABYTE = 10 ** 6
VALID = b"valid\nend\n"
BAD = b"bad request\nend\n"
WRITE_FAULT, MEMORY_FAULT = b"strkw: write failed\n", b"strkw: out of memory\n"


def request(schema, instance, more=b""):
    """A request line."""
    return b'{"draft":7,%s"schema":%s,"instance":%s}\n' % (more, schema, instance)


def text_of(size):
    """A JSON string of so many letters."""
    return b'"' + b"a" * size + b'"'


def error(size, said):
    """The line of an error, with a text of so many letters in place of `@`."""
    return b"error %s\n" % said.replace(b"@", text_of(size))


class Row:
    """A large input, what is written for it, and what the program says and ends with. Input and output are made when
    they are asked for, so that this script is small while the program runs."""

    def __init__(self, name, given, wanted, said=b"", status=0, room=None, output=None, program="strkw", schema=None):
        self.name, self.given, self.wanted, self.said, self.status = name, given, wanted, said, status
        self.room, self.output, self.program, self.schema = room, output, program, schema


def four_errors(half):
    """The answer to a text of so many letters that breaks four keywords."""
    return b"".join((error(half, b'/format: @ is not a "date"'),
                     error(half, b"/minLength: @ is shorter than %d characters" % (half + 1)),
                     error(half, b"/maxLength: @ is longer than 5 characters"),
                     error(half, b'/pattern: @ does not match "^x"'), b'note /format: "date"\nend\n'))


def members_of(count):
    """A JSON object of so many members."""
    return b"{" + b",".join(b'"m%d":%d' % (number, number) for number in range(count)) + b"}"


def list_of(count, value):
    """A request whose instance is a list of so many values."""
    return request(b"{}", b"[" + b",".join([value] * count) + b"]")


def rows(unit):
    """The rows, where a line of 100 MB has 100,000 units of bytes, and so on."""
    line, lines, members, depth = 100_000 * unit, 1_000 * unit, 100 * unit, max(200, 100 * unit)
    half = line // 2
    four = b'{"minLength":%d,"maxLength":5,"format":"date","pattern":"^x"}' % (half + 1)
    short = request(b'{"minLength":5}', b'"a"')
    answer = b'error /minLength: "a" is shorter than 5 characters\nend\n'
    room = 8 * MEGABYTE
    return [
        Row("a line that is no JSON", lambda: b"x" * line, lambda: BAD),
        Row("a line of spaces", lambda: b" " * line + b"\n", lambda: BAD),
        Row("a text, valid", lambda: request(b"{}", text_of(line)), lambda: VALID),
        Row("half as long a text, four errors", lambda: request(four, text_of(half)), lambda: four_errors(half)),
        Row("escapes", lambda: request(b"{}", b'"' + b"\\u00e9" * (line // 6) + b'"'), lambda: VALID),
        Row("numbers", lambda: list_of(line // 20, b"1"), lambda: VALID),
        Row("objects of one member", lambda: list_of(line // 80, b'{"a":1}'), lambda: VALID),
        Row("many lines", lambda: short * lines, lambda: answer * lines),
        Row("many empty lines", lambda: b"\n" * lines, lambda: BAD * lines),
        Row("members of a schema object", lambda: request(members_of(members), b'"a"'), lambda: VALID),
        Row("members of an instance", lambda: request(b"{}", members_of(members)), lambda: VALID),
        Row("nested arrays", lambda: request(b"{}", b"[" * depth + b"]" * depth), lambda: BAD),
        Row("nested objects", lambda: request(b"{}", b'{"a":' * depth + b"1" + b"}" * depth), lambda: BAD),
        Row("open brackets", lambda: b"[" * depth, lambda: BAD),
        Row("a full disk", lambda: short * lines, bytes, WRITE_FAULT, 1, output="/dev/full"),
        Row("a closed output", lambda: short * lines, bytes, WRITE_FAULT, 1, output="closed"),
        Row("a text without room", lambda: request(four, text_of(line)), bytes, MEMORY_FAULT, 1, room=line + room),
        Row("answered, then a line without room", lambda: short * lines + b"x" * line, lambda: answer * lines,
            MEMORY_FAULT, 1, room=line // 2 + room),
    ]


VALUES = {
    "a text": text_of,
    "a text of escapes": lambda size: b'"' + b"\\u00e9" * (size // 6) + b'"',
    "a number": lambda size: b"1" + b"0" * 300 + b"." + b"0" * size,
    "an array of digits": lambda size: b"[" + b",".join([b"1"] * (size // 2)) + b"]",
    "nested arrays": lambda size: b"[" + b",".join([b"[" * 60 + b"]" * 60] * (size // 121)) + b"]",
    "an object": lambda size: members_of(size // 16),
}
MEMBERS = ("draft", "fold", "validate_formats", "ignore_unknown_formats", "schema", "instance", "another member")


def line_with(member, kind, size):
    """A request with a value of this kind, of about so many bytes, at this member, whatever else it has."""
    parts = {b"draft": b"7", b"schema": b"{}", b"instance": b'"a"'}
    parts[member.encode()] = VALUES[kind](size)
    return b"{" + b",".join(b'"%s":%s' % part for part in parts.items()) + b"}\n"


def is_request(member, kind):
    """Whether a line with such a value at a member is a request."""
    return member == "instance" or member == "schema" and kind == "an object"


def bounded_rows(size):
    """Lines whose values are not kept: three times their length has to be room enough, and what the program needs."""
    for member, kind in product(MEMBERS, VALUES):
        if member != "schema" or kind != "an object":
            yield Row(f"{member}: {kind}", partial(line_with, member, kind, size),
                      partial(lambda ok: VALID if ok else BAD, is_request(member, kind)),
                      room=lambda longest: 3 * longest + 8 * MEGABYTE)


NESTED = "(([a-z]{1,9}[0-9]{1,9})*-)*"


def growing_rows(times):
    """The inputs of strangers that were slow, so many times as large: what is asked is how time and memory grow."""
    def check(schema):
        """A row for `neldrafi check` of lines of text by this schema."""
        return {"program": "neldrafi", "schema": schema}
    size = times * MEGABYTE
    yield Row("nested arrays as `draft`", lambda: line_with("draft", "nested arrays", size), lambda: BAD)
    yield Row("an object as `fold`", lambda: line_with("fold", "an object", size), lambda: BAD)
    yield Row("a line, and a pattern of nested loops", lambda: b"a1" * (size // 80) + b"-\n", bytes,
              **check({"pattern": "^" + NESTED + "$"}))
    yield Row("lines, and a count of 128", lambda: (b"x" * 30 + b"\n") * (size // 31), bytes,
              **check({"pattern": "^.{1,128}$"}))
    yield Row("a pattern of many counts", lambda: b"a\n", bytes, None, 2, **check({"pattern": "a{0,999}" * (30 * times)}))


def print_growth(folder):
    """Prints the seconds and the megabytes of each row at each size. A row passes where eight times the input takes at
    most eight times of both, but for a tenth of a second."""
    print("| | " + " | ".join(f"{times} s, MB" for times in (1, 2, 4, 8)) + " |")
    print("|---" * 5 + "|")
    failed = 0
    for rows_of_all in zip(*(growing_rows(times) for times in (1, 2, 4, 8))):
        taken = []
        for row in rows_of_all:
            given, written = Path(folder) / "given", Path(folder) / "written"
            write_input(row, given)
            status, output, said, seconds, peak = outcome(row, built(row), given, written)
            taken.append((seconds, peak, status == row.status and output == row.wanted()))
        right = (all(right for *_, right in taken) and taken[3][0] <= 8 * taken[0][0] + 0.1
                 and taken[3][1] <= 8 * taken[0][1])
        failed += not right
        cells = " | ".join(f"{seconds:.2f}, {peak / MEGABYTE:.0f}" for seconds, peak, _ in taken)
        print(f"| {rows_of_all[0].name} | {cells} |{'' if right else ' WRONG'}", flush=True)
    return 1 if failed else 0


def built(row):
    """The program of a row, as it was built."""
    return TOP / "crates" / row.program / "out" / row.program


def print_shares(program, folder, size=16 * MEGABYTE):
    """Prints how many times the length of a line the program held at most, by member and kind of value, what it takes
    for a short line aside."""
    given, written = Path(folder) / "given", Path(folder) / "written"

    def peak_of(member, kind, size):
        """The length of a line, and the most memory that its run takes."""
        row = Row(member, partial(line_with, member, kind, size), bytes)
        return write_input(row, given)[1], outcome(row, program, given, written)[4]
    print("| | " + " | ".join(VALUES) + " |")
    print("|---" * (len(VALUES) + 1) + "|")
    for member in MEMBERS:
        shares = []
        for kind in VALUES:
            (short, least), (longest, most) = peak_of(member, kind, 1000), peak_of(member, kind, size)
            shares.append(f"{(most - least) / (longest - short):.1f}")
        print(f"| `{member}` | " + " | ".join(shares) + " |", flush=True)


def limited(room):
    """What a run does before it begins: it limits its processor time, and its memory where there is a limit."""
    def limit():
        """Sets the limits of this process."""
        resource.setrlimit(resource.RLIMIT_CPU, (SECONDS_FOR_A_RUN, SECONDS_FOR_A_RUN))
        if room is not None:
            resource.setrlimit(resource.RLIMIT_AS, (room, room))
    return limit


def write_input(row, path):
    """Writes the input of a row, in a process of its own: a program has what its starter holds at its peak. Answers its
    length and that of its longest line."""
    writer = os.fork()
    if writer == 0:
        status = 1
        try:
            path.write_bytes(row.given())
            status = 0
        finally:
            os._exit(status)
    if os.waitpid(writer, 0)[1]:
        raise OSError(f"the input of the row {row.name!r} could not be written")
    longest = line = 0
    with open(path, "rb") as file:
        while piece := file.read(1 << 16):
            first, *more = piece.split(b"\n")
            line += len(first)
            for part in more:
                longest, line = max(longest, line), len(part)
    return path.stat().st_size, max(longest, line)


def outcome(row, program, given, written, longest=0):
    """Runs a row: status, output, standard error, seconds, and the peak of memory in bytes."""
    room = row.room(longest) if callable(row.room) else row.room
    words = [program]
    if row.schema is not None:
        schema = given.with_name("schema.json")
        schema.write_text(json.dumps(row.schema))
        words += ["check", "--as=text", schema]
    with open(given, "rb") as source, open(row.output if row.output == "/dev/full" else written, "wb") as sink:
        run = subprocess.Popen(words, stdin=source, stdout=sink, stderr=subprocess.PIPE, env={},
                               preexec_fn=lambda: (limited(room)(), os.close(1) if row.output == "closed" else None))
        said = run.stderr.read()
        _, status, used = os.wait4(run.pid, 0)
        run.returncode = os.waitstatus_to_exitcode(status)
    output = b"" if row.output else written.read_bytes()
    return run.returncode, output, said, used.ru_utime + used.ru_stime, used.ru_maxrss * 1024


def is_right(row, status, output, said):
    """Whether a run ended as the row says."""
    if (status, said) != (row.status, row.said):
        return False
    if row.said != MEMORY_FAULT and row.said != WRITE_FAULT:
        return output == row.wanted()
    # After a fault of memory, whole answers to some of the lines.
    return row.wanted().startswith(output) and (not output or output.endswith(b"\nend\n"))


def main():
    """Runs the rows, and tells how time and memory grow."""
    words = [word for word in sys.argv[1:] if not word.startswith("--")]
    small, bounded = "--small" in sys.argv[1:], "--bounded" in sys.argv[1:]
    program = Path(words[0]).resolve() if words else TOP / "crates/strkw/out/strkw"
    passed = failed = 0
    with tempfile.TemporaryDirectory() as folder:
        if "--shares" in sys.argv[1:]:
            print_shares(program, folder)
            return 0
        if "--growth" in sys.argv[1:]:
            return print_growth(folder)
        for row in bounded_rows(16 * MEGABYTE) if bounded else rows(1 if small else 1000):
            if small and row.room is not None:
                continue
            given, written = Path(folder) / "given", Path(folder) / "written"
            size, longest = write_input(row, given)
            path = program if row.program == "strkw" else built(row)
            status, output, said, seconds, peak = outcome(row, path, given, written, longest)
            right = is_right(row, status, output, said)
            passed, failed = passed + right, failed + (not right)
            told = "" if right else f" WRONG: status {status}, {len(output)} bytes, {said[:80]!r}"
            print(f"{row.name}: {size / MEGABYTE:.1f} MB, longest line {longest / MEGABYTE:.1f} MB: "
                  f"{seconds:.1f} s, peak {peak / MEGABYTE:.0f} MB{told}", flush=True)
            del output
    print(f"{passed} passed, {failed} failed")
    return 1 if failed else 0


if __name__ == "__main__":
    sys.exit(main())
