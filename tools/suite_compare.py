#!/usr/bin/env python3
"""Asks `neldrafi check` the cases of the public JSON Schema test suite that are about strings.

    python3 tools/suite_compare.py                 the suite of Debian's package libtest-json-schema-acceptance-perl
    python3 tools/suite_compare.py FOLDER          another copy: the folder that has `draft7`, `draft2020-12`, ..

It wants the program that `rt run` has built in `crates/neldrafi`. A case counts if its schema object has no keyword but
those of this library, and at most `"type": "string"` beside them. Its instances are lines of JSON, and each line with
an error is an instance that is not valid. Formats are checked, so the file `format.json` of 2019-09 and 2020-12, by
which no format is, is left out.

Each case with another answer is told. `KNOWN` lists those that docs/DIFFERENCES.md names with the rule that decides.
The status is 1 if one is not listed, or if one that is listed agrees. It is no part of the gate.
"""
import json
import subprocess
import sys
import tempfile
from collections import Counter
from pathlib import Path

SUITE = "/usr/share/perl5/auto/share/dist/Test-JSON-Schema-Acceptance/tests"
PROGRAM = Path(__file__).resolve().parent.parent / "crates" / "neldrafi" / "out" / "neldrafi"
DRAFTS = {"draft4": "4", "draft6": "6", "draft7": "7", "draft2019-09": "2019-09", "draft2020-12": "2020-12"}
ANNOTATED = {"draft2019-09/format.json", "draft2020-12/format.json"}
KEYWORDS = {"format", "minLength", "maxLength", "pattern", "contentEncoding", "contentMediaType", "contentSchema"}
# Schema objects with another answer in optional cases of draft 7: the content keywords only annotate.
KNOWN = {'{"contentMediaType": "application/json"}', '{"contentEncoding": "base64"}',
         '{"contentMediaType": "application/json", "contentEncoding": "base64"}'}


def groups_in(suite):
    """Each group about strings alone: its file, its draft, its schema object and its tests."""
    for folder in DRAFTS:
        for path in sorted((suite / folder).rglob("*.json")):
            name = path.relative_to(suite).as_posix()
            for group in json.loads(path.read_text("utf-8")) if name not in ANNOTATED else []:
                schema, tests = group["schema"], group["tests"]
                if not isinstance(schema, dict):
                    continue
                asked = {word: value for word, value in schema.items() if word != "$schema"}
                if asked.get("type") == "string":
                    del asked["type"]
                    tests = [test for test in tests if isinstance(test["data"], str)]
                if asked and set(asked) <= KEYWORDS and tests:
                    yield name, DRAFTS[folder], asked, tests


def verdicts(draft, schema, tests):
    """Whether each instance is valid here, or why the schema object is refused."""
    with tempfile.NamedTemporaryFile("w", suffix=".json") as file:
        json.dump(schema, file)
        file.flush()
        lines = "".join(json.dumps(test["data"]) + "\n" for test in tests)
        run = subprocess.run([PROGRAM, "check", "--as", "jsonl", "--allow-unknown", "--output", "json", "--draft", draft,
                              file.name], input=lines, capture_output=True, text=True)
    if run.returncode > 1:
        return [run.stderr.strip()] * len(tests)
    # A line ends at a line feed alone: an instance may have other line ends.
    wrong = {json.loads(line).get("line") for line in run.stdout.split("\n") if line}
    return [number not in wrong for number in range(1, len(tests) + 1)]


def main():
    suite = Path(sys.argv[1] if sys.argv[1:] else SUITE)
    if not (suite / "draft7").is_dir():
        raise SystemExit(f"{suite} has no draft7: install libtest-json-schema-acceptance-perl, or name a folder")
    cases, others, listed = Counter(), 0, set()
    new = 0
    for name, draft, schema, tests in groups_in(suite):
        cases[name] += len(tests)
        for test, valid in zip(tests, verdicts(draft, schema, tests)):
            if valid == test["valid"]:
                continue
            others += 1
            listed.add(json.dumps(schema))
            if json.dumps(schema) not in KNOWN:
                new += 1
                print(f"{name}: {json.dumps(schema)} of {json.dumps(test['data'])}: here {valid}, "
                      f"there {test['valid']} ({test['description']})")
    for schema in sorted(KNOWN - listed):
        print("listed, and agrees:", schema)
    print(f"{sum(cases.values())} cases of {len(cases)} files, {others} with another answer, {new} of them not listed")
    return 1 if new or KNOWN - listed else 0


if __name__ == "__main__":
    sys.exit(main())
