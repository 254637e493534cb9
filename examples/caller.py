"""Calls the library from Python: every row of a table, also as texts by one schema, a file of requests against its
stored answers, and, where the package jsonschema is installed, a schema by its FormatChecker.

caller.py FORMATS REQUESTS ANSWERS; status 1 where something is not as it is stored, 2 where it cannot be asked.
"""
import sys
from pathlib import Path

import strkw


def check(holds, what):
    """Ends with a message where something is not as it is to be."""
    if not holds:
        sys.exit(f"caller.py: {what}")


def check_rows(path):
    """Asks of each row of the table what it says; answers the rows."""
    rows = [row.split("\t", 2) for row in Path(path).read_text().split("\n") if row]
    for name, want, text in rows:
        ask = strkw.is_encoded if name in strkw.ENCODINGS else strkw.is_format
        check(ask(name, text) == (want == "yes"), f"{name}: {text}")
    check(not strkw.is_format("iri", b"a:\xc3\x28"), "bytes that are not UTF-8")
    check(not strkw.is_format("iri-reference", "\ud800"), "a lone surrogate")
    return rows


def check_answers(requests, answers):
    """Answers a file of requests, and no request at all."""
    answered = strkw.answer(Path(requests).read_bytes())
    check(answered == Path(answers).read_bytes(), "the answers are not the stored ones")
    check(strkw.answer(b"") == b"", "no request has an answer")


def check_refused(draft, schema):
    """Asks a schema that is not taken."""
    try:
        strkw.check_texts(draft, schema, ["a"])
    except ValueError:
        return
    check(False, f"draft {draft}: {schema} is taken")


def check_many(rows):
    """The rows of each format and companion by one schema object; as the draft says, 2020-12 only notes formats."""
    for name in strkw.FORMATS + ("hostname-draft4",):
        texts = [(text, want == "yes") for row, want, text in rows if row == name]
        schema = {"format": name.removesuffix("-draft4")}
        draft = 4 if name == "hostname-draft4" else 7 if name not in ("duration", "uuid") else 201909
        found = strkw.check_texts(draft, schema, [text for text, _ in texts])
        check(found == [want for _, want in texts], f"draft {draft}, {name}")
        noted = strkw.check_texts(202012, schema, [text for text, _ in texts], formats="as-draft")
        check(all(noted), f"draft 2020-12, {name}")
    for name in ("email", "regex", "idn-email", "idn-hostname"):
        texts = [(text, want == "yes") for row, want, text in rows if row == name]
        found = strkw.check_texts(7, {"format": name}, [text for text, _ in texts], companion_formats=True)
        check(found == [want for _, want in texts], f"the companion {name}")
    found = strkw.check_texts(7, b'{"maxLength":1}', [b"\xff", "\ud800", "", "\u00e9", "ab"])
    check(found == [None, None, True, True, False], "texts and bytes")
    check(strkw.check_texts(7, {}, []) == [], "no text has no verdict")
    check_refused(5, {})
    check_refused(7, "[]")
    check_refused(7, {"maxLength": -1})
    check_refused(7, {"format": "uuid"})
    found = strkw.check_texts(7, {"format": "uuid"}, ["a"], unknown_formats="ignore")
    check(found == [True], "draft 7 knows no uuid")


def check_schemas(rows):
    """Each row of a format as a schema of draft 7; answers how many there were, or None without jsonschema."""
    try:
        from jsonschema import Draft7Validator
    except ImportError:
        return None
    formats = [row for row in rows if row[0] in strkw.FORMATS]
    for name, want, text in formats:
        validator = Draft7Validator({"format": name}, format_checker=strkw.jsonschema_format_checker())
        check(validator.is_valid(text) == (want == "yes"), f"jsonschema, {name}: {text}")
        check(validator.is_valid(5), f"jsonschema, {name}: a number")
    return len(formats)


def main():
    """Makes all checks, and tells how many rows there were."""
    rows = check_rows(sys.argv[1])
    check_answers(sys.argv[2], sys.argv[3])
    check_many(rows)
    schemas = check_schemas(rows)
    told = "jsonschema is not installed" if schemas is None else f"{schemas} by jsonschema"
    print(f"caller.py: {len(rows)} rows, {told}")


if __name__ == "__main__":
    if len(sys.argv) != 4:
        print("caller.py FORMATS REQUESTS ANSWERS", file=sys.stderr)
        sys.exit(2)
    try:
        main()
    except OSError as why:
        print(f"caller.py: {why}", file=sys.stderr)
        sys.exit(2)
