#!/usr/bin/env python3
"""Times the program on files of request lines, each file answered in one run.

    python3 bench/requests.py [--beside PROGRAM] [COUNT [ROUNDS]]

There are 200,000 lines and 5 rounds, unless it is said otherwise. It runs crates/strkw/out/strkw, which `rt run strkw`
builds, with each kind of line in turn, and prints the requests and the megabytes (a million bytes) a second by the
least processor time (user and system) of the rounds, and by the clock. The lines differ from one another only in the
instance; long lines are fewer, 64 MB in all. The output is counted: each request ends with `end`. Another program, as
one of an earlier commit, is run in turn with it, and the ratio of their processor times is printed, if both answer the
same.
"""
import argparse
import os
import resource
import subprocess
import tempfile
import time
from base64 import b64encode
from pathlib import Path

TOP = Path(__file__).resolve().parent.parent
PROGRAM = TOP / "crates/strkw/out/strkw"
MOST_BYTES = 64_000_000

TWENTY_MEMBERS = "{" + ",".join(f'"member{at}":{{"type":"string","maxLength":{at}}}' for at in range(20)) + "}"
LARGE_VALUE = "{" + ",".join(f'"k{at}":[{at},"v{at}",null,true]' for at in range(8)) + "}"
LONG_PATH = "/segment-of-a-path" * 50


def asking(draft, schema, instance):
    """A request line with that text as its instance."""
    return f'{{"draft":{draft},"schema":{schema},"instance":"{instance}"}}'


def date(number):
    """A request for a date."""
    return asking(7, '{"format":"date"}', f"{number % 10000:04}-{number % 12 + 1:02}-{number % 28 + 1:02}")


def date_time(number):
    """A request for a date with a time."""
    day, second, thousandth = number % 28 + 1, number % 60, number % 1000
    return asking(7, '{"format":"date-time"}', f"2023-02-{day:02}T12:34:{second:02}.{thousandth:03}Z")


def uri(number):
    """A request for a short URI."""
    return asking(7, '{"format":"uri"}', f"https://example.com/items/{number:06}?page=2#top")


def long_uri(number):
    """A request for a URI with a long path."""
    return asking(7, '{"format":"uri"}', f"https://example.com{LONG_PATH}/{number:06}")


def length(number):
    """A request for two lengths."""
    return asking(202012, '{"minLength":1,"maxLength":100}', "é" * 30 + f"{number:06}")


def base64_with_json(number):
    """A request for an encoding and a media type."""
    schema = '{"contentMediaType":"application/json","contentEncoding":"base64"}'
    return asking(7, schema, b64encode(b'{"id":%06d,"tags":["a","b"]}' % (100000 + number % 900000)).decode())


def host_name(number):
    """A request for a host name with an A-label."""
    return asking(7, '{"format":"hostname"}', f"www.xn--ll-0ea.n{number:06}.example")


def literal_pattern(number):
    """A request for a pattern of literals, which three of four texts match."""
    return asking(7, '{"pattern":"^(get|head|post|put)$"}', ("get", "head", "post", "patch")[number % 4])


def note(number):
    """A request for keywords that draft 2020-12 only notes."""
    schema = '{"format":"date","contentMediaType":"text/plain","contentEncoding":"base64"}'
    return asking(202012, schema, f"text{number:06}")


def content_schema(number):
    """A request with a large schema for what a text holds."""
    schema = f'{{"contentMediaType":"application/json","contentSchema":{TWENTY_MEMBERS}}}'
    return asking(202012, schema, f"{number:06}")


def four_errors(number):
    """A request for four keywords, at each of which the text fails."""
    schema = '{"format":"date","minLength":20,"maxLength":5,"pattern":"^public"}'
    return asking(7, schema, f"secret{number:06}")


KINDS = {
    "dates": date,
    "date-times": date_time,
    "URIs": uri,
    "long URIs": long_uri,
    "lengths": length,
    "base64 with JSON": base64_with_json,
    "host names": host_name,
    "literal patterns": literal_pattern,
    "notes": note,
    "large values": lambda number: f'{{"draft":7,"schema":{{"minLength":{number}}},"instance":{LARGE_VALUE}}}',
    "refused": lambda number: asking(7, f'{{"minLength":5,"maxLength":{number}.5}}', "a"),
    "unknown members": lambda number: f'{{"draft":7,"schema":{{}},"instance":"a","other":{number}}}',
    "broken JSON": lambda number: f'{{"draft":7,"schema":{{"format":"date"}},"instance":"{number:06}',
    "texts of 1 MB": lambda number: asking(7, '{"maxLength":2000000}', "a" * 1_000_000 + f"{number:06}"),
    "contentSchema": content_schema,
    "four errors": four_errors,
}


def timed(program, lines, written):
    """The processor seconds and the seconds by the clock of one run."""
    before, begun = resource.getrusage(resource.RUSAGE_CHILDREN), time.monotonic()
    with open(lines, "rb") as given, open(written, "wb") as taken:
        subprocess.run([program], stdin=given, stdout=taken, check=True)
    after, ended = resource.getrusage(resource.RUSAGE_CHILDREN), time.monotonic()
    return after.ru_utime - before.ru_utime + after.ru_stime - before.ru_stime, ended - begun


def least(times):
    """The least processor time and the least time by the clock of the rounds."""
    return min(processor for processor, _ in times), min(clock for _, clock in times)


def compared(kind, line, options, folder):
    """The line that tells the times of a kind."""
    count = min(options.count, max(1, MOST_BYTES // len(line(0))))
    lines, written, others = (folder / name for name in ("lines", "answers", "others"))
    lines.write_text("".join(line(number) + "\n" for number in range(count)))
    size, times, beside = os.path.getsize(lines), [], []
    for _ in range(options.rounds):
        times.append(timed(PROGRAM, lines, written))
        if options.beside:
            beside.append(timed(options.beside, lines, others))
    answers = written.read_bytes()
    ends = sum(answer == b"end" for answer in answers.split(b"\n"))
    assert ends == count, f"{kind}: {ends} answers to {count} requests"
    assert not beside or others.read_bytes() == answers, f"{kind}: the answers differ"
    speeds = (f"{count / seconds / 1000:8.1f} thousand/s {size / seconds / 1e6:6.0f} MB/s" for seconds in least(times))
    told = f"{kind:16} {size // count:7} bytes a line  " + "  by the clock ".join(speeds)
    return told + (f"  ratio {least(times)[0] / least(beside)[0]:.2f}" if beside else "")


def main():
    """Times each kind of line in turn."""
    asked = argparse.ArgumentParser(usage=__doc__)
    asked.add_argument("--beside")
    asked.add_argument("count", nargs="?", type=int, default=200_000)
    asked.add_argument("rounds", nargs="?", type=int, default=5)
    options = asked.parse_args()
    with tempfile.TemporaryDirectory() as folder:
        for kind, line in KINDS.items():
            print(compared(kind, line, options, Path(folder)), flush=True)


if __name__ == "__main__":
    main()
