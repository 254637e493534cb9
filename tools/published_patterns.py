#!/usr/bin/env python3
"""Counts which patterns that others have published are taken here, and compares their matches with a JavaScript engine.

    python3 tools/published_patterns.py                     the patterns of some packages of Python
    python3 tools/published_patterns.py cfnlint botocore    those of these packages
    --program PATH                                          this build of `neldrafi`

The patterns are the members `pattern` and the names in `patternProperties` of the JSON files that a package brings,
compressed or not: models of cloud services and schemas. Packages that are not installed have none. Each pattern is
given to `neldrafi check` in a schema. It is taken strictly if it is its own strict form, and so has only escapes of
mode `u`, and else leniently. Of those that are not taken each reason is counted.

Of those that are taken, texts are made that the pattern should match, and texts that are one character off. Node is
asked whether the pattern is found in them: by `new RegExp(pattern, "u")` if it takes that, and else without the flag,
if what the pattern has means the same there. Each difference is told, and the status is then 1. It wants `node` on the
path, and the built program `neldrafi` (`rt run` in `crates/neldrafi` builds it). It is no part of the gate.
"""
import argparse
import gzip
import importlib.util
import json
import random
import subprocess
import sys
import tempfile
from collections import Counter
from concurrent.futures import ThreadPoolExecutor
from pathlib import Path
from re import _parser as reader
from warnings import simplefilter

from ecma_compare import MOST_TOLD, OF_MODE_U, PROGRAM, REFUSED, strict_form

PACKAGES = ["botocore", "cfnlint", "samtranslator", "jsonschema_specifications", "openapi_spec_validator", "jsonschema"]
SEED, TEXTS, MOST_TIMES = 1, 8, 3
# What Python's reader of patterns calls the sets, and characters of each.
SETS = {reader.CATEGORY_DIGIT: "0379", reader.CATEGORY_NOT_DIGIT: "a_- ", reader.CATEGORY_SPACE: " \t\n",
        reader.CATEGORY_NOT_SPACE: "aZ0-", reader.CATEGORY_WORD: "aZ_9", reader.CATEGORY_NOT_WORD: "-. @"}
OTHERS = "aZ09-_.:/@ \n\u00e9"
SURROGATES = range(0xD800, 0xE000)
NODE = r"""
const told = [];
for (const [pattern, isPlain, texts] of JSON.parse(require("fs").readFileSync(0, "utf8"))) {
  let search = null, mode = "mode u";
  try { search = new RegExp(pattern, "u"); } catch (e) {
    mode = "no flag";
    try { search = isPlain ? new RegExp(pattern) : null; } catch (e) {}
  }
  told.push(search && [mode, texts.map(text => search.test(text))]);
}
console.log(JSON.stringify(told));
"""


def patterns_in(value, found):
    """Adds the patterns of a document to those that were found."""
    if isinstance(value, dict):
        if isinstance(value.get("pattern"), str):
            found.add(value["pattern"])
        if isinstance(value.get("patternProperties"), dict):
            found.update(value["patternProperties"])
        value = list(value.values())
    for item in value if isinstance(value, list) else []:
        patterns_in(item, found)


def patterns_of(package):
    """The patterns that a package brings; none if it is not installed."""
    found = set()
    spec = importlib.util.find_spec(package)
    for folder in spec.submodule_search_locations if spec else []:
        for file in sorted(Path(folder).rglob("*.json*")):
            try:
                data = file.read_bytes()
                patterns_in(json.loads(gzip.decompress(data) if file.suffix == ".gz" else data), found)
            except ValueError:
                continue
    return found


class Maker:
    """Makes texts, the same ones for the same seed."""

    def __init__(self, seed):
        self.random = random.Random(seed)

    def member(self, items):
        """A character of a class."""
        if items[0][0] == reader.NEGATE:
            left_out = {value for kind, value in items if kind == reader.LITERAL}
            return self.random.choice([other for other in OTHERS if ord(other) not in left_out] or ["~"])
        kind, value = self.random.choice(items)
        if kind == reader.RANGE:
            return chr(self.random.randint(*value))
        return self.random.choice(SETS[value]) if kind == reader.CATEGORY else chr(value)

    def piece(self, kind, value):
        """A text for one piece of a pattern."""
        if kind == reader.LITERAL:
            return chr(value)
        if kind == reader.IN:
            return self.member(value)
        if kind in (reader.ANY, reader.NOT_LITERAL):
            return self.random.choice(OTHERS.replace("\n", ""))
        if kind == reader.BRANCH:
            return self.whole(self.random.choice(value[1]))
        if kind == reader.SUBPATTERN:
            return self.whole(value[3])
        if kind in (reader.MAX_REPEAT, reader.MIN_REPEAT):
            least, most, body = value
            return "".join(self.whole(body) for _ in range(self.random.randint(least, min(most, least + MOST_TIMES))))
        return ""

    def whole(self, pieces):
        """A text for pieces in a row."""
        return "".join(self.piece(kind, value) for kind, value in pieces)

    def off(self, text):
        """The text with a character left out, put in or changed."""
        at = self.random.randrange(len(text) + 1)
        put = self.random.choice(["", self.random.choice(OTHERS)])
        return text[:at] + put + text[at + self.random.randrange(2):]

    def texts(self, pattern):
        """Texts that the pattern should match, and others."""
        try:
            pieces = reader.parse(pattern)
            made = [self.whole(pieces) for _ in range(TEXTS // 2)]
        except (ValueError, KeyError, IndexError, OverflowError, RecursionError, reader.error):
            made = ["".join(self.random.choices(OTHERS + pattern, k=count)) for count in range(TEXTS // 2)]
        texts = ["", *made, *map(self.off, made)]
        return [text for text in texts if not any(ord(character) in SURROGATES for character in text)]


def here(program, folder, number, pattern, texts):
    """Why the program does not take the pattern, or its verdict on each text."""
    schema = Path(folder) / f"{number}.json"
    schema.write_text(json.dumps({"pattern": pattern}))
    given = "".join(f"{json.dumps(text)}\n" for text in texts).encode()
    run = subprocess.run([program, "check", "--as=jsonl", schema], input=given, stdout=subprocess.PIPE,
                         stderr=subprocess.PIPE)
    told = run.stderr.decode(errors="replace")
    if run.returncode == 2 and REFUSED in told:
        return told.rsplit(REFUSED, 1)[1].strip(), None
    if run.returncode not in (0, 1):
        raise SystemExit(f"published_patterns: {pattern!r}: {told.strip()}")
    missed = {int(line.split(b":")[1]) for line in run.stdout.splitlines()}
    return None, [line not in missed for line in range(1, len(texts) + 1)]


def node(rows):
    """What Node answers of each pattern: in which mode, and on each text; `None` if it is not asked."""
    asked = [(pattern, not any(map(OF_MODE_U.search, [pattern, *texts])), texts) for pattern, texts in rows]
    run = subprocess.run(["node", "-e", NODE], input=json.dumps(asked), stdout=subprocess.PIPE, text=True, check=True)
    return json.loads(run.stdout)


def main():
    """Counts the patterns, and tells the differences."""
    parser = argparse.ArgumentParser(prog="published_patterns", description=__doc__.split("\n")[0])
    parser.add_argument("packages", nargs="*", default=PACKAGES)
    parser.add_argument("--program", type=Path, default=PROGRAM)
    given = parser.parse_args()
    simplefilter("ignore")
    found = set()
    for package in given.packages:
        patterns = patterns_of(package)
        print(f"published_patterns: {package}: {len(patterns)} patterns, {len(patterns - found)} of them new")
        found |= patterns
    maker = Maker(SEED)
    rows = [(pattern, maker.texts(pattern)) for pattern in sorted(found)]
    with tempfile.TemporaryDirectory() as folder, ThreadPoolExecutor() as pool:
        ours = list(pool.map(lambda it: here(given.program, folder, it[0], *it[1]), enumerate(rows)))
    counts, why, wrong = Counter(), Counter(), []
    for (pattern, texts), (reason, mine), other in zip(rows, ours, node(rows)):
        if mine is None:
            why[reason] += 1
            continue
        counts["taken strictly" if strict_form(pattern) == pattern else "taken leniently alone"] += 1
        for text, is_mine, is_other in zip(texts, mine, other[1] if other else []):
            counts[f"texts compared with Node, {other[0]}"] += 1
            counts["of them match"] += is_other
            if is_mine != is_other:
                wrong.append((pattern, text, f"here {is_mine}, Node ({other[0]}) {is_other}"))
    taken = counts["taken strictly"] + counts["taken leniently alone"]
    print(f"published_patterns: {taken} of {len(rows)} patterns are taken")
    for what, count in [*counts.items(), *((f"not taken: {reason}", count) for reason, count in why.most_common())]:
        print(f"  {count} {what}")
    for pattern, text, what in sorted(wrong, key=lambda it: len(it[0]) + len(it[1]))[:MOST_TOLD]:
        print(f"{json.dumps(pattern)} on {json.dumps(text)}: {what}")
    print(f"published_patterns: {len(wrong)} differences")
    return 1 if wrong else 0


if __name__ == "__main__":
    sys.exit(main())
