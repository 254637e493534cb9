#!/usr/bin/env python3
"""Times `neldrafi_schema` on JSON Lines beside ajv and python-jsonschema, and how its time grows.

    python3 bench/schemas.py [RECORDS [ROUNDS]]      200000 records and 5 rounds, unless it is said otherwise
    python3 bench/schemas.py --growth                only how the time grows

A program reads a schema, and then records of some 500 bytes, one a line, and counts the valid ones by
`Schema::is_valid`. Each third record has one error. `tools/unproved.py` builds it as a proof would have it built,
without checks. ajv is Debian's (node-ajv): it compiles the schema once, and reads a record by `JSON.parse`.
python-jsonschema has a part of the records, of PART, and its time is scaled. Both are left out where they are not
installed. A time is the least processor time (user and system) of the rounds, with reading, and without what an empty
input takes.
"""
import argparse
import importlib.util
import json
import os
import resource
import shutil
import subprocess
import sys
import tempfile
import time
from pathlib import Path

TOP = Path(__file__).resolve().parent.parent
sys.path.insert(0, str(TOP / "tools"))
import unproved  # noqa: E402

RECORDS, ROUNDS, PART, GROWTH_ROUNDS = 200_000, 5, 2_000, 3
MODULES = "/usr/share/nodejs"  # where Debian has ajv
PROGRAM = "schema_lines"
USES = f"{PROGRAM}: neldrafi_schema strkw_ecma strkw_json json serde_json\n"
MAIN = """//! Reads a schema, and then instances, one a line, and prints how many are valid.
#![tactic(auto)]

use json::{Reader, Scratch};
use neldrafi_schema::{Config, Schema};
use serde_json::Value;
use std::alloc::Global;
use std::io::{BufRead, BufReader};
use std::process::ExitCode;
use strkw_ecma::EcmaPatterns;
use strkw_json::build_json;

// The value of a line.
fn read(alloc: Global, line: &str, scratch: &mut Scratch) -> Option<Value> {
    let mut tokens = Reader::new(line, scratch).ok()?;
    let value = build_json(alloc, &mut tokens, 127).ok()?;
    match tokens.next() {
        Some(_) => None,
        None => Some(value),
    }
}

fn main(rt: HostRuntime) -> ExitCode {
    let Ok(reader) = BufReader::new(rt.alloc(), rt.reader()) else {
        return ExitCode::FAILURE;
    };
    let config = Config::new(&EcmaPatterns);
    let mut schema = None;
    let mut valid: u64 = 0;
    let mut scratch = Scratch::new(rt.alloc());
    for line in reader.lines(rt.alloc()) {
        let Ok(line) = line else {
            return ExitCode::FAILURE;
        };
        let Some(value) = read(rt.alloc(), line.as_str(), &mut scratch) else {
            return ExitCode::FAILURE;
        };
        let Some(compiled) = &schema else {
            let Ok(compiled) = Schema::compile(rt.alloc(), &value, &config) else {
                return ExitCode::FAILURE;
            };
            schema = Some(compiled);
            continue;
        };
        match compiled.is_valid(rt.alloc(), &value) {
            Ok(true) => valid = valid.wrapping_add(1),
            Ok(false) => {}
            Err(_) => return ExitCode::FAILURE,
        }
    }
    let _ = println!(rt; "{valid}");
    ExitCode::SUCCESS
}
"""
AJV = """
const Ajv = require("ajv");
const lines = require("readline").createInterface({input: process.stdin, crlfDelay: Infinity});
let check = null, valid = 0;
lines.on("line", line => {
  const value = JSON.parse(line);
  if (check === null) check = new Ajv().compile(value);
  else if (check(value)) valid += 1;
});
lines.on("close", () => console.log(valid));
"""
# Thirteen properties, by keywords that draft 7 and the later drafts have.
SCHEMA = {
    "$schema": "http://json-schema.org/draft-07/schema#",
    "type": "object",
    "required": ["id", "name", "email", "born", "address", "tags", "active"],
    "additionalProperties": False,
    "properties": {
        "id": {"type": "integer", "minimum": 1},
        "name": {"type": "string", "minLength": 1, "maxLength": 60},
        "email": {"type": "string", "maxLength": 100},
        "born": {"type": "string", "pattern": "^[0-9]{4}-[0-9]{2}-[0-9]{2}$"},
        "active": {"type": "boolean"},
        "score": {"type": "number", "minimum": 0, "maximum": 100},
        "role": {"enum": ["admin", "editor", "reader"]},
        "phone": {"type": ["string", "null"], "maxLength": 20},
        "address": {
            "type": "object",
            "required": ["street", "city"],
            "properties": {"street": {"type": "string"}, "city": {"type": "string", "minLength": 1},
                           "zip": {"type": "string", "maxLength": 10}},
        },
        "tags": {"type": "array", "maxItems": 8, "items": {"type": "string", "minLength": 1}},
        "orders": {
            "type": "array",
            "items": {
                "type": "object",
                "required": ["sku", "count"],
                "properties": {"sku": {"type": "string"}, "count": {"type": "integer", "minimum": 1},
                               "price": {"type": "number", "exclusiveMinimum": 0}},
            },
        },
        "notes": {"type": "string"},
        "updated": {"type": "integer"},
    },
}


def record(number):
    """A record of some 500 bytes; each third one has one error."""
    orders = [{"sku": f"SKU-{number + at:06}", "count": at + 1, "price": 12.5 + at} for at in range(3)]
    made = {
        "id": number + 1, "name": f"Person {number:07}", "email": f"person{number:07}@example.com",
        "born": f"19{number % 100:02}-{number % 12 + 1:02}-{number % 28 + 1:02}", "active": number % 2 == 0,
        "score": number % 1000 / 10, "role": ("admin", "editor", "reader")[number % 3],
        "phone": None if number % 5 == 0 else f"+49 30 {number:07}",
        "address": {"street": f"Long Street {number % 500}", "city": "Berlin", "zip": f"{number % 100000:05}"},
        "tags": ["new", "verified", f"group{number % 40}"], "orders": orders,
        "notes": "A text of some length, as a record has one. " * 2, "updated": 1_700_000_000 + number,
    }
    if number % 3 == 2:
        made.update([{"id": 0}, {"born": "yesterday"}, {"extra": True}, {"tags": [""]}][number // 3 % 4])
    return made


def write_lines(path, schema, instances):
    """A file of a schema and instances."""
    with open(path, "w", encoding="utf-8") as file:
        for value in (schema, *instances):
            file.write(json.dumps(value, separators=(",", ":")) + "\n")


def built(folder):
    """The path of the program, built over the crates of the repository."""
    crates = folder / "crates"
    crates.mkdir()
    for crate in (TOP / "crates").iterdir():
        (crates / crate.name).symlink_to(crate)
    (crates / PROGRAM / "src").mkdir(parents=True)
    (crates / PROGRAM / "src" / "main.rt").write_text(MAIN)
    (folder / "crates.txt").write_text((TOP / "crates.txt").read_text() + USES)
    return unproved.build(PROGRAM, crates, level=2, checked=False)


def run(words, path):
    """The processor time of a program that reads a file, and what it counts."""
    before = resource.getrusage(resource.RUSAGE_CHILDREN)
    with open(path, "rb") as source:
        told = subprocess.run(words, stdin=source, stdout=subprocess.PIPE, check=True,
                              env={**os.environ, "NODE_PATH": MODULES})
    after = resource.getrusage(resource.RUSAGE_CHILDREN)
    return after.ru_utime + after.ru_stime - before.ru_utime - before.ru_stime, int(told.stdout)


def run_jsonschema(path):
    """The same of python-jsonschema."""
    from jsonschema import Draft7Validator
    start, valid = time.process_time(), 0
    with open(path, encoding="utf-8") as lines:
        validator = Draft7Validator(json.loads(next(lines)))
        for line in lines:
            valid += validator.is_valid(json.loads(line))
    return time.process_time() - start, valid


def compare(program, folder, records, rounds):
    """Prints the times of all programs on the records."""
    path, part, empty = (folder / name for name in ("records", "part", "empty"))
    write_lines(path, SCHEMA, map(record, range(records)))
    write_lines(part, SCHEMA, map(record, range(PART)))
    write_lines(empty, SCHEMA, ())
    programs = {"neldrafi_schema": [program]}
    if shutil.which("node") and os.path.isdir(f"{MODULES}/ajv"):
        programs["ajv"] = ["node", "-e", AJV]
    taken = {}
    for _ in range(rounds):  # by turns
        for name, words in programs.items():
            seconds, valid = run(words, path)
            taken.setdefault(name, []).append((seconds - run(words, empty)[0], valid))
    if importlib.util.find_spec("jsonschema"):
        run_of_part = [run_jsonschema(part) for _ in range(rounds)]
        assert run_of_part[0][1] == run([program], part)[1], "python-jsonschema counts otherwise"
        taken["python-jsonschema"] = [(seconds * records / PART, None) for seconds, _ in run_of_part]
    assert len({valid for pairs in taken.values() for _, valid in pairs if valid is not None}) == 1, taken
    here = min(taken["neldrafi_schema"])[0]
    print("| Program | Seconds | Microseconds a record | MB a second | Time here to it |\n|---|---|---|---|---|")
    for name, pairs in taken.items():
        seconds = min(pairs)[0]
        print(f"| {name} | {seconds:.2f} | {seconds / records * 1e6:.2f} | {path.stat().st_size / seconds / 1e6:,.0f} "
              f"| {here / seconds:.3f} |", flush=True)


def compare_command(folder, records, rounds):
    """Prints the times of `neldrafi check` and of ajv on records without an error."""
    program = unproved.build("neldrafi", TOP / "crates", level=2, checked=False)
    schema, valid, lines = (folder / name for name in ("schema.json", "valid.jsonl", "valid"))
    schema.write_text(json.dumps(SCHEMA), encoding="utf-8")
    write_lines(lines, SCHEMA, (record(3 * number) for number in range(records)))
    valid.write_text(lines.read_text(encoding="utf-8").partition("\n")[2], encoding="utf-8")
    taken = {"neldrafi check": [], "ajv": []}
    for _ in range(rounds):  # by turns
        before = resource.getrusage(resource.RUSAGE_CHILDREN)
        subprocess.run([program, "check", schema, valid], check=True)
        after = resource.getrusage(resource.RUSAGE_CHILDREN)
        taken["neldrafi check"].append(after.ru_utime + after.ru_stime - before.ru_utime - before.ru_stime)
        taken["ajv"].append(run(["node", "-e", AJV], lines)[0])
    print("| Program | Seconds |\n|---|---|")
    for name, seconds in taken.items():
        print(f"| {name} | {min(seconds):.2f} |", flush=True)


def members(count):
    """An object of so many members."""
    return {f"member{at:06}": at for at in range(count)}


def nested(depth):
    """Conditions, each in the one around it."""
    return {"if": nested(depth - 1), "then": {"minimum": 0}, "else": {"minimum": 0}} if depth else {"minimum": 1}


def alternatives(depth):
    """An `anyOf` beside `unevaluatedProperties`, each in the one around it."""
    if not depth:
        return {"properties": {"a": True}}
    return {"anyOf": [alternatives(depth - 1)], "unevaluatedProperties": False}


def doubled(depth):
    """Schemas of which each refers twice to the next."""
    twice = {f"s{at}": {"allOf": [{"$ref": f"#/definitions/s{at + 1}"}] * 2} for at in range(depth)}
    return {"$ref": "#/definitions/s0", "definitions": {**twice, f"s{depth}": {"minimum": 0}}}


# A schema and an instance by a number, and the numbers.
GROWTH = {
    "`additionalProperties` beside n `properties`, n members": (lambda n: (
        {"additionalProperties": False, "properties": dict.fromkeys(members(n), True)}, members(n)),
        (1000, 2000, 4000, 8000)),
    "`unevaluatedProperties` beside n `properties`, n members": (lambda n: (
        {"unevaluatedProperties": False, "properties": dict.fromkeys(members(n), True)}, members(n)),
        (1000, 2000, 4000, 8000)),
    "`required` of n names, n members": (lambda n: (
        {"required": [*members(n)]}, members(n)), (1000, 2000, 4000, 8000)),
    "`uniqueItems` on n numbers": (lambda n: ({"uniqueItems": True}, [*range(n)]), (1000, 2000, 4000, 8000)),
    "`uniqueItems` on n objects": (lambda n: (
        {"uniqueItems": True}, [{"a": {"b": at}} for at in range(n)]), (1000, 2000, 4000, 8000)),
    "`enum` of n texts": (lambda n: ({"enum": [*members(n)]}, "another"), (1000, 2000, 4000, 8000)),
    "`oneOf` of n schemas": (lambda n: (
        {"oneOf": [{"const": at} for at in range(n)]}, 0), (1000, 2000, 4000, 8000)),
    "n `if`s, each in the one around it": (lambda n: (nested(n), 1), (4, 8, 16)),
    "n `anyOf`s beside `unevaluatedProperties`, each in the one around it": (
        lambda n: (alternatives(n), {"a": 1}), (4, 8, 16)),
    "n schemas of which each refers twice to the next": (lambda n: (doubled(n), 1), (4, 8, 16)),
}
ENOUGH, MOST = 0.05, 1024  # a time of so many seconds is measured, by at most so many instances
SHORT = 0.2, 0.001  # milliseconds of compiling, and of an instance, to which no ratio is told


def seconds_of(program, path, schema, instances):
    """The least time of a schema and instances."""
    write_lines(path, schema, instances)
    return min(run([program], path)[0] for _ in range(GROWTH_ROUNDS))


def milliseconds_of(program, path, schema, instance):
    """The times of compiling a schema, and of an instance without its reading."""
    start, compiled, count = seconds_of(program, path, True, ()), seconds_of(program, path, schema, ()), 1
    while True:
        instances = [instance] * count
        seconds = seconds_of(program, path, schema, instances) - compiled
        seconds -= seconds_of(program, path, True, instances) - start
        if seconds > ENOUGH or count == MOST:
            return 1000 * (compiled - start), 1000 * seconds / count
        count *= 4


def grow(program, folder):
    """Prints how the times grow."""
    print("| Schema and instance | n | Compiling, ms | To half of n | An instance, ms | To half of n |")
    print("|---|---|---|---|---|---|")
    for name, (made, numbers) in GROWTH.items():
        before = 0, 0
        for number in numbers:
            times = milliseconds_of(program, folder / "growth", *made(number))
            ratios = (f"{now / last:.1f}" if last > short else "" for now, last, short in zip(times, before, SHORT))
            cells = (f"{time:.3f} | {ratio}" for time, ratio in zip(times, ratios))
            print(f"| {name} | {number:,} | " + " | ".join(cells) + " |", flush=True)
            before = times


def main():
    """Prints the tables."""
    parser = argparse.ArgumentParser(description=__doc__.splitlines()[0], prog="bench/schemas.py")
    parser.add_argument("records", nargs="?", type=int, default=RECORDS)
    parser.add_argument("rounds", nargs="?", type=int, default=ROUNDS)
    parser.add_argument("--growth", action="store_true")
    options = parser.parse_args()
    with tempfile.TemporaryDirectory(dir=os.environ.get("TMPDIR")) as name:
        folder = Path(name)
        program = built(folder)
        if not options.growth:
            compare(program, folder, options.records, options.rounds)
            print()
            compare_command(folder, options.records, options.rounds)
            print()
        grow(program, folder)
    return 0


if __name__ == "__main__":
    sys.exit(main())
