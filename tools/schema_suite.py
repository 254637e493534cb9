#!/usr/bin/env python3
"""Asks `neldrafi_schema` the required cases of the public JSON Schema test suite, and large ones.

    python3 tools/schema_suite.py                  the suite of Debian's package libtest-json-schema-acceptance-perl
    python3 tools/schema_suite.py FOLDER           another copy: the folder that has `draft7`, `draft6`, ..
    python3 tools/schema_suite.py --told           each case with another answer, too
    python3 tools/schema_suite.py --if-there       as a step of the gate: asks the large ones alone where the suite is
                                                   not installed

A program without a proof (`tools/unproved.py`) answers: it compiles each schema document by its draft, with the engine
`strkw_ecma`, and says of each instance whether it is valid. A file fails if it has more or fewer cases with another
answer, or of documents that are refused, than `KNOWN` says. The large cases are made here: `rt try` would take minutes
for them as tests.
"""
import argparse
import json
import subprocess
import sys
import tempfile
from pathlib import Path

import unproved

TOP = Path(__file__).resolve().parent.parent
SUITE = "/usr/share/perl5/auto/share/dist/Test-JSON-Schema-Acceptance/tests"
DRAFTS = {"draft4": 4, "draft6": 6, "draft7": 7, "draft2019-09": 201909, "draft2020-12": 202012}
SERVED_AT = "http://localhost:1234/"  # where the suite says that its documents are
LARGE, MEMBERS = "large", 10_000  # what stands for a folder of the large cases; how many members these have
PROGRAM = "schema_answers"
USES = f"{PROGRAM}: neldrafi_schema neldrafi_meta_schemas strkw_ecma strkw_report serde_json\n"
MAIN = """//! Answers lines `[DRAFT, SCHEMA, [INSTANCE, ..]]`, each by one line. The first line has the documents to which
//! references may lead, besides the draft's meta-schemas: `{DRAFT: {URI: DOCUMENT, ..}, ..}`.
#![tactic(auto)]

use neldrafi_meta_schemas::{MetaSchema, meta_schemas};
use neldrafi_schema::{Config, Document, Schema, SchemaErrorKind};
use serde_json::Value;
use std::alloc::{AllocError, Global};
use std::io::{BufRead, BufReader};
use std::process::ExitCode;
use strkw_ecma::EcmaPatterns;
use strkw_report::draft_in;

fn name_of(kind: &SchemaErrorKind) -> &'static str {
    match kind {
        SchemaErrorKind::WrongType => "WrongType",
        SchemaErrorKind::UnresolvedReference => "UnresolvedReference",
        SchemaErrorKind::CircularReference => "CircularReference",
        SchemaErrorKind::UnknownDialect => "UnknownDialect",
        SchemaErrorKind::Text(_) => "Text",
        SchemaErrorKind::Memory => "Memory",
    }
}

fn metas_of(alloc: Global, draft: &Value) -> Result<Vec<MetaSchema>, AllocError> {
    let Some(draft) = draft_in(draft) else {
        return Ok(Vec::new(alloc));
    };
    match meta_schemas(alloc, draft) {
        Ok(metas) => Ok(metas),
        Err(_) => Err(AllocError),
    }
}

fn documents_of<'v>(
    alloc: Global,
    library: &'v Value,
    metas: &'v [MetaSchema],
    draft: &Value,
) -> Result<Vec<Document<'v>>, AllocError> {
    let mut documents = Vec::new(alloc);
    for meta in metas {
        documents.push(meta.document())?;
    }
    let draft = draft.to_string(alloc)?;
    if let Some(Value::Object(members)) = library.get(draft.as_str()) {
        for (uri, value) in members.iter() {
            let uri = uri.as_str();
            documents.push(Document { uri, value })?;
        }
    }
    Ok(documents)
}

fn answer(alloc: Global, library: &Value, line: &str) -> Result<String, AllocError> {
    let Ok(group) = Value::from_str(alloc, line) else {
        return String::from_str(alloc, "no JSON");
    };
    let Some(draft) = group.get(0) else {
        return String::from_str(alloc, "no group");
    };
    let metas = metas_of(alloc, draft)?;
    let documents = documents_of(alloc, library, &metas, draft)?;
    let mut config = Config::new(&EcmaPatterns);
    config.draft = draft_in(draft);
    config.documents = &documents;
    let (Some(document), Some(Value::Array(instances))) = (group.get(1), group.get(2)) else {
        return String::from_str(alloc, "no group");
    };
    let schema = match Schema::compile(alloc, document, &config) {
        Ok(schema) => schema,
        Err(error) => {
            let (kind, place) = (name_of(&error.kind), error.location.as_str());
            return format!(in alloc; "{kind} at '{place}'");
        }
    };
    let mut answers = String::new(alloc);
    for instance in instances {
        let mut errors = Vec::new(alloc);
        schema.collect_errors(alloc, instance, &mut errors)?;
        let is_valid = schema.is_valid(alloc, instance)?;
        answers.push_str(match (is_valid, errors.is_empty()) {
            (true, true) => "1",
            (false, false) => "0",
            _ => "?",
        })?;
    }
    Ok(answers)
}

fn main(rt: HostRuntime) -> ExitCode {
    let Ok(reader) = BufReader::new(rt.alloc(), rt.reader()) else {
        return ExitCode::FAILURE;
    };
    let mut library = None;
    for line in reader.lines(rt.alloc()) {
        let Ok(line) = line else {
            return ExitCode::FAILURE;
        };
        let Some(documents) = &library else {
            let Ok(value) = Value::from_str(rt.alloc(), line.as_str()) else {
                return ExitCode::FAILURE;
            };
            library = Some(value);
            continue;
        };
        let Ok(told) = answer(rt.alloc(), documents, line.as_str()) else {
            return ExitCode::FAILURE;
        };
        let _ = rt.println(told.as_str());
    }
    ExitCode::SUCCESS
}
"""
# Files with cases that need vocabularies, with the number of such cases.
KNOWN = {"draft2019-09/vocabulary.json": 5, "draft2020-12/vocabulary.json": 5}


def built(folder):
    """The path of the program, built over the crates of the repository."""
    crates = folder / "crates"
    crates.mkdir()
    for crate in (TOP / "crates").iterdir():
        (crates / crate.name).symlink_to(crate)
    (crates / PROGRAM / "src").mkdir(parents=True)
    (crates / PROGRAM / "src" / "main.rt").write_text(MAIN)
    (folder / "crates.txt").write_text((TOP / "crates.txt").read_text() + USES)
    return unproved.build(PROGRAM, crates)


def documents_of(suite, folder):
    """The documents that the suite serves to a draft, by their URIs: those of its own, and those of no draft."""
    remotes = suite.parent / "remotes"
    of_drafts = {path.name for path in remotes.glob("draft*")} - {folder}
    paths = [path.relative_to(remotes) for path in sorted(remotes.rglob("*.json"))]
    return {f"{SERVED_AT}{path.as_posix()}": json.loads((remotes / path).read_text("utf-8"))
            for path in paths if path.parts[0] not in of_drafts}


def groups_in(suite):
    """Each group of required cases: its file, its draft, its schema document, and its tests."""
    for folder, draft in DRAFTS.items():
        for path in sorted((suite / folder).glob("*.json")):
            for group in json.loads(path.read_text("utf-8")):
                yield f"{folder}/{path.name}", draft, group


def large_groups():
    """The same of schemas with as many properties as `MEMBERS` says: each allowed, and each required, by its name."""
    names = [str(number) for number in range(MEMBERS)]
    properties, whole = dict.fromkeys(names, {"type": "integer"}), dict.fromkeys(names, 5)
    more, wrong, fewer = whole | {"a": 5}, whole | {names[-1]: "5"}, {name: 5 for name in names[:-1]}
    for schema, valid in [({"additionalProperties": False, "properties": properties}, [whole, fewer]),
                          ({"required": names, "properties": properties}, [whole, more])]:
        tests = [{"description": f"{len(instance)} members", "data": instance, "valid": instance in valid}
                 for instance in (whole, more, wrong, fewer)]
        group = {"description": ", ".join(schema), "schema": schema, "tests": tests}
        yield f"{LARGE}/members", DRAFTS["draft2020-12"], group


def answers(program, suite, groups):
    """The line that answers each group."""
    library = {str(draft): documents_of(suite, folder) for folder, draft in DRAFTS.items()}
    lines = json.dumps(library) + "\n" + "".join(json.dumps([draft, group["schema"], [test["data"] for test in group["tests"]]]) + "\n"
                    for _, draft, group in groups)
    run = subprocess.run([program], input=lines, capture_output=True, text=True, check=True)
    return run.stdout.splitlines()


def others_of(groups, lines, tell):
    """How many cases each draft has, and how many of each file have another answer than the suite's."""
    cases, others = dict.fromkeys([*DRAFTS, LARGE], 0), {}
    for (file, _, group), line in zip(groups, lines, strict=True):
        told = line if len(line) == len(group["tests"]) and set(line) <= set("01?") else "-" * len(group["tests"])
        cases[file.partition("/")[0]] += len(told)
        for test, given in zip(group["tests"], told):
            if given == str(int(test["valid"])):
                continue
            others[file] = others.get(file, 0) + 1
            if tell:
                print(f"{file}: {group['description']}: {test['description']}: {line}")
    return cases, others


def main():
    """Prints how many cases each draft has, and the files with other answers."""
    parser = argparse.ArgumentParser(description=__doc__.split("\n")[0])
    parser.add_argument("suite", nargs="?", type=Path, default=Path(SUITE))
    parser.add_argument("--told", action="store_true", help="tell each case with another answer")
    parser.add_argument("--if-there", action="store_true", help="pass without the suite if it is not installed")
    wanted = parser.parse_args()
    is_there = (wanted.suite / "draft7").is_dir()
    if not is_there:
        print(f"{wanted.suite} has no draft7: install libtest-json-schema-acceptance-perl, or name a folder")
    groups = [*(groups_in(wanted.suite) if is_there else []), *large_groups()]
    with tempfile.TemporaryDirectory() as folder:
        lines = answers(built(Path(folder)), wanted.suite, groups)
    cases, others = others_of(groups, lines, wanted.told)
    known = KNOWN if is_there else {}
    unlike = [file for file in sorted({*others, *known}) if others.get(file, 0) != known.get(file, 0)]
    for file in unlike:
        print(f"{file}: {others.get(file, 0)} cases with another answer, {known.get(file, 0)} are listed")
    for draft, number in cases.items():
        other = sum(count for file, count in others.items() if file.startswith(f"{draft}/"))
        print(f"{draft}: {number} cases, {other} with another answer")
    print(f"{sum(cases.values()) - sum(others.values())} passed, {len(unlike)} failed")
    return 0 if not unlike and (is_there or wanted.if_there) else 1


if __name__ == "__main__":
    sys.exit(main())
