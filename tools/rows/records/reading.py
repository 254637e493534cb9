"""What the records of a file are (RFC 4180, section 2; docs/CALLING.md), read byte by byte."""
import json


def escaped(text, at):
    """The value of the escaped field that begins at a place, and the place behind its closing quote."""
    value, at = "", at + 1
    while text[at] != '"' or text[at + 1: at + 2] == '"':
        at += text[at] == '"'
        value, at = value + text[at], at + 1
    return value, at + 1


def field_at(text, at, delimiter):
    """The value of the field that begins at a place, or none if a quote in it is misplaced, and the place behind it."""
    value, behind = escaped(text, at) if text[at: at + 1] == '"' else (None, at)
    end = behind
    while end < len(text) and text[end] not in delimiter + "\r\n":
        end += 1
    if value is not None:
        return (value if end == behind else None), end
    return (None if '"' in text[at:end] else text[at:end]), end


def line_of(text):
    """The line behind a text."""
    return 1 + len(text.replace("\r\n", "\n").replace("\r", "\n").split("\n")[1:])


def records_of(text, delimiter):
    """The records of a file without an open quote, whose fields a delimiter separates: each with its line and values."""
    at = 0
    while at < len(text):
        if text[at] in "\r\n":
            at += 1
            continue
        first, values = at, []
        while True:
            value, at = field_at(text, at, delimiter)
            values.append(value)
            if text[at: at + 1] != delimiter:
                break
            at += 1
        yield line_of(text[:first]), values


def told(text, delimiter=","):
    """The lines below a row: of each record its line and values, and how many records there are."""
    lines = [f"{line}: {json.dumps(values, ensure_ascii=False, separators=(',', ':'))}"
             for line, values in records_of(text, delimiter)]
    return [*lines, f"{len(lines)} records"]
