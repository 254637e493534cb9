#!/usr/bin/env python3
"""Writes the lines of each format into the files that tell callers of it.

    python3 tools/formats.py            writes them
    python3 tools/formats.py --check    compares them; the last line is `N passed, M failed`, one count for each file

What the library has of a format is read from `crates/strkw_formats`: its name, drafts, example and the texts at the
ends of its window from `specs/Formats.antt`, and its order and recogniser from `src/builtin.rt`. What the rows of
programs expect is not read there: the drafts, the window and the verdict on the empty text are those of
`tools/rows/keywords/texts.py`, which has them from the standards. `TOLD` below has what stands nowhere else, and
`FILES` at the end has the files, each with what writes its lines.

The lines of a file are found by their shape, so that no file is marked. Most files have them in the order of the
library or of the alphabet. Where a file has an order of its own, it keeps it, and a new format comes in behind the one
that stands before it in the library.
"""
import itertools
import json
import re
import sys
import textwrap
from dataclasses import dataclass
from pathlib import Path

from rows.keywords import texts as tables

TOP = Path(__file__).resolve().parent.parent
BUILTIN, DEFINITIONS = "crates/strkw_formats/src/builtin.rt", "crates/strkw_formats/specs/Formats.antt"
COLUMNS, COLUMNS_OF_CODE = 120, 100
WORDS = ("no one two three four five six seven eight nine ten eleven twelve thirteen fourteen fifteen sixteen "
         "seventeen eighteen nineteen twenty").split()


# ---- what is told of the formats

@dataclass(frozen=True)
class Told:
    """What is told of a format that the library does not have."""
    is_what: str  # the comment of its function for C, behind "Whether the bytes are"
    grammar: str  # the comment of its variant for Rust
    right: str  # a text of the format, and one that is not
    wrong: str
    called: str = ""  # what callers ask it by, where that is not its name


TOLD = {
    "Date": Told("a date: `full-date` of RFC 3339, section 5.6.", "`full-date` of RFC 3339.",
                 "2024-02-29", "2023-02-29"),
    "DateTime": Told("a `date-time` of RFC 3339, section 5.6.", "`date-time` of RFC 3339.",
                     "1985-04-12T23:20:50.52Z", "1985-04-12T24:00:00Z"),
    "Duration": Told("a duration of RFC 3339, appendix A, its letters in upper case.",
                     "`duration` of RFC 3339, appendix A.", "P4DT12H30M5S", "P4DT"),
    "Hostname": Told("a host name of drafts 7 and later: an ASCII one in which each label `xn--` encodes an admitted "
                     "text (RFC 3492).", "The host names of draft 7 and later.", "www.example.com", "-a.example"),
    "HostnameDraft4": Told("a host name of drafts 4 and 6: RFC 1034, section 3.5, with RFC 1123, section 2.1.",
                           "The host names of drafts 4 and 6.", "ab--c", "a_b", called="hostname-draft4"),
    "Ipv4": Told("an IPv4 address: `IPv4address` of RFC 3986, section 3.2.2.", "`dotted-quad` of RFC 2673.",
                 "192.0.2.1", "192.0.2.256"),
    "Ipv6": Told("an IPv6 address of RFC 4291, section 2.2.", "RFC 4291, section 2.2.",
                 "2001:db8::1", "2001:db8::1::2"),
    "Iri": Told("an IRI of RFC 3987.", "`IRI` of RFC 3987.",
                "http://example.org/r\u00e9sum\u00e9", "/r\u00e9sum\u00e9"),
    "IriReference": Told("an IRI reference of RFC 3987.", "`IRI-reference` of RFC 3987.", "/r\u00e9sum\u00e9", "/a b"),
    "JsonPointer": Told("a JSON pointer of RFC 6901.", "RFC 6901.", "/a~1b", "/a~2b"),
    "RelativeJsonPointer": Told("a relative JSON pointer.", "A relative JSON pointer.", "1/foo", "01/foo"),
    "Time": Told("a time: `full-time` of RFC 3339, section 5.6.", "`full-time` of RFC 3339.",
                 "23:20:50.52Z", "23:20:50.52"),
    "Uri": Told("a URI of RFC 3986.", "`URI` of RFC 3986.",
                "ftp://ftp.is.co.za/rfc/rfc1808.txt", "http://example.org/\u00e9"),
    "UriReference": Told("a URI reference of RFC 3986.", "`URI-reference` of RFC 3986.",
                         "//example.com/a?b#c", "http://[::1"),
    "UriTemplate": Told("a URI template of RFC 6570, with wider literals.", "RFC 6570.", "/{var}{?q*}", "/{var"),
    "Uuid": Told("a UUID of RFC 9562, section 4.", "RFC 4122.",
                 "f81d4fae-7dec-11d0-a765-00a0c91e6bf6", "f81d4fae7dec11d0a76500a0c91e6bf6"),
    # No format of the library, but callers ask it as they ask those. Its export is written by hand.
    "Email": Told("", "A mail address: `Mailbox` of RFC 5321, section 4.1.2. A schema object knows it where its "
                  "options say so.", "a.b@example.com", "a..b@example.com"),
}


@dataclass(frozen=True)
class Format:
    """A format: what the library has of it, and what is told of it here."""
    variant: str
    name: str
    told: Told
    first: str = ""
    last: str = ""
    example: str = ""
    window_texts: tuple = ()
    definition: str = ""
    recogniser: str = ""

    @property
    def called(self):
        """What callers ask it by."""
        return self.told.called or self.name

    @property
    def function(self):
        """Its function for C, without what stands before each."""
        return "is_" + self.called.replace("-", "_")

    @property
    def crate(self):
        """The crate of its recogniser."""
        crates = {name: crate for crate, names in used(stored(BUILTIN)).items() for name in names}
        return row_of(self.recogniser, crates, BUILTIN)

    @property
    def in_tables(self):
        """What the tables of texts have of it."""
        return row_of(self.variant, {it.variant: it for it in tables.FORMATS}, "tools/rows/keywords/texts.py")

    @property
    def drafts_in_tables(self):
        """The first and the last draft in those tables, as documents write them."""
        return tuple(draft_of(tables.DRAFTS[it]) for it in (self.in_tables.first, self.in_tables.last))


MAIL = Format("Email", "email", TOLD["Email"])


# ---- what the library has

def stored(name):
    """A file of the repository, each byte as it stands there."""
    return (TOP / name).read_bytes().decode()


def row_of(name, rows, file):
    """What a table that is written by hand has of a name."""
    if name not in rows:
        raise SystemExit(f"formats: {file} has no row of {name}")
    return rows[name]


def used(code):
    """The names that a file of code takes from each crate of this library."""
    statements = re.findall(r"^use (strkw_\w+)::([^;]+);", code, re.M)
    return {crate: re.findall(r"\w+", names) for crate, names in statements}


def draft_of(variant):
    """A draft as documents write it, by its variant: `7`, `2019-09`."""
    digits = variant.removeprefix("Draft")
    return f"{digits[:4]}-{digits[4:]}" if len(digits) == 6 else digits


def texts_of(value):
    """The texts in a value of `specs/Formats.antt`, written out or as the constant of such a name."""
    constants = dict(re.findall(r'^const (\w+): &str =\s*"(.*?)";', stored(BUILTIN), re.M))
    atoms = re.findall(r'codes\s+"(.*?)"|\b([a-z]\w*_\w+)\b', value)
    return tuple(constants[constant.upper()] if constant else text for text, constant in atoms)


def rows_of(definitions):
    """The row of each variant in `specs/Formats.antt`: its fields by their names."""
    for variant, row in re.findall(r"^format_row (\w+) = record \{\n(.*?)^\}", definitions, re.M | re.S):
        yield variant, dict(re.findall(r"^  (\w+) = (.*?);$", row, re.M | re.S))


def formats_of_library():
    """The formats of the library, in its order."""
    code, definitions = stored(BUILTIN), stored(DEFINITIONS)
    rows = dict(rows_of(definitions))
    grammars = dict(re.findall(r"^IsOfBuiltin (\w+) text = (\w+) text$", definitions, re.M))
    recognisers = dict(re.findall(r"^ +Self::(\w+) => (is_valid_\w+)\(text\),$", code, re.M))
    for variant in re.findall(r"^ +BuiltinFormat::(\w+),$", code, re.M):
        row = row_of(variant, rows, DEFINITIONS)
        (name,), (example,) = texts_of(row["name"]), texts_of(row["example"])
        yield Format(variant, name, row_of(variant, TOLD, "tools/formats.py"), draft_of(row["first"]),
                     draft_of(row["last"]), example, texts_of(row["window_texts"]),
                     row_of(variant, grammars, DEFINITIONS), row_of(variant, recognisers, BUILTIN))


# ---- lines in a file

def with_words(text, shape, words):
    """The text with other words in place of the first that have the shape, a regular expression."""
    found = re.search(shape, text, re.M)
    if found is None:
        raise LookupError(shape)
    return text[:found.start()] + words + text[found.end():]


def with_lines(text, shape, lines):
    """The same for whole lines."""
    return with_words(text, shape, "".join(f"{line}\n" for line in lines))


def wrapped(text, width, indent="    "):
    """The words of a text on lines of at most so many columns."""
    return textwrap.wrap(text, width, initial_indent=indent, subsequent_indent=indent, break_on_hyphens=False,
                         break_long_words=False)


def listed(words):
    """The words with a comma behind each."""
    return " ".join(f"{word}," for word in words)


def of_alphabet(formats):
    """The formats and mail addresses, by what callers ask them by."""
    return sorted([*formats, MAIL], key=lambda it: it.function)


def with_new(have, keys):
    """The keys in the order in which a file has them; one that it has not comes behind the one before it."""
    order = list(have)
    for place, key in enumerate(keys):
        if key not in order:
            order.insert(order.index(keys[place - 1]) + 1 if place else 0, key)
    return order


# ---- code in Rattle

EXPORT = (r'(?:^/// .*\n)+^#\[unsafe\(no_mangle\)\]\n^pub extern "C" fn strkw_nonnull_(\w+)\(text: &\[u8\]\) -> bool\n'
          r"(?:.*\n)*?^\}\n")


def export(it):
    """The function of a format for C."""
    comment = "\n".join(wrapped(f"Whether the bytes are {it.told.is_what}", COLUMNS, "/// "))
    return f"""{comment}
#[unsafe(no_mangle)]
pub extern "C" fn strkw_nonnull_{it.function}(text: &[u8]) -> bool
    ensures {{ IsTrue result ↔ (IsUtf8 text.now × {it.definition} (chars text.now)) }}
{{
    match text_of(text) {{
        Some(text) => {it.recogniser}(text),
        None => false,
    }}
}}
"""


def exports(text, formats):
    """The functions for C, with what they take from other crates. That of another text stays as it is."""
    found = list(re.finditer(EXPORT, text, re.M))
    made = {it.function: export(it) for it in formats}
    functions = {it[1]: it[0] for it in found} | made
    order = with_new([it[1] for it in found], list(made))
    head = with_words(text[:found[0].start()], r"(?<=^//! The )\w+(?= formats)", word_of(len(formats)))
    head = with_recognisers(with_definitions(head, formats), formats)
    return head + "\n".join(functions[it] for it in order) + text[found[-1].end():]


def with_definitions(head, formats):
    """The head of a file that takes the definition of each format from the module that `specs/Formats.antt` names."""
    places = re.findall(r"^use Rattle\.(strkw_[\w.]+)\.\{(.*?)\}$", stored(DEFINITIONS), re.M)
    modules = {name: module for module, names in places for name in names.split(", ")}
    for it in formats:
        module = row_of(it.definition, modules, DEFINITIONS)
        line = re.search(rf"^ghost use Rattle\.{module}\.\{{(.*?)\}};$", head, re.M)
        if line is None:
            last = [*re.finditer(r"^ghost use .*\n", head, re.M)][-1]
            head = f"{head[:last.end()]}ghost use Rattle.{module}.{{{it.definition}}};\n{head[last.end():]}"
        elif it.definition not in line[1].split(", "):
            head = f"{head[:line.end(1)]}, {it.definition}{head[line.end(1):]}"
    return head


def with_recognisers(code, formats):
    """The code that takes the recogniser of each format from its crate."""
    statements = {crate: set(names) for crate, names in used(code).items()}
    for it in formats:
        statements.setdefault(it.crate, set()).add(it.recogniser)
    lines = [line for crate, names in sorted(statements.items()) for line in use_of(crate, sorted(names))]
    return with_lines(code, r"(?:^use strkw_\w+::[^;]+;\n)+", lines)


def use_of(crate, names):
    """The lines that take these names from a crate."""
    line = f"use {crate}::{names[0]};" if len(names) == 1 else f"use {crate}::{{{', '.join(names)}}};"
    return [line] if len(line) <= COLUMNS_OF_CODE else block(f"use {crate}", names)


def block(head, names):
    """A statement that takes these names, over several lines."""
    return [f"{head}::{{", *wrapped(listed(names), COLUMNS_OF_CODE), "};"]


def exported(text, formats):
    """What the library for C names of its functions."""
    names = [f"strkw_nonnull_{it.function}" for it in of_alphabet(formats)]
    return with_lines(text, r"^pub use formats::\{\n(?:^ .*\n)+^\};\n", block("pub use formats", names))


def word_of(number):
    """The word for a number."""
    return WORDS[number]


def counted(text, formats):
    """The head of the crate of the formats, which says how many there are."""
    return with_words(text, r"(?<=^//! The built-in formats: )\w+", word_of(len(formats)))


def asked_by_rows(text, formats):
    """The recognisers that the rows of texts ask, each by a name of that file, or by what callers ask it by."""
    shape = r'^ +"([\w -]+)" => (is_valid_\w+)\(text\),\n'
    had = {recogniser: name for name, recogniser in re.findall(shape, text, re.M)}
    names = {it.recogniser: it.called for it in formats} | had
    order = with_new(had, [it.recogniser for it in formats])
    lines = [f'        "{names[it]}" => {it}(text),' for it in order]
    return with_recognisers(with_lines(text, f"(?:{shape})+", lines), formats)


# ---- for C, Python and Rust

def header(text, formats):
    """The functions that the header declares."""
    lines = [f"bool strkw_{it.function}(const uint8_t *text, size_t count);" for it in formats]
    return with_lines(text, r"(?:^bool strkw_is_\w+\(const uint8_t \*text, size_t count\);\n)+", lines)


def functions(text, formats):
    """The functions that see to it that no pointer is NULL."""
    return with_lines(text, r"(?:^FORMAT\(\w+\)\n)+", [f"FORMAT({it.function})" for it in [*formats, MAIL]])


def names_for_python(text, formats):
    """The names that schemas have for the formats."""
    names = dict.fromkeys(f'"{it.name}"' for it in formats)
    return with_lines(text, r'(?<=^FORMATS = \(\n)(?:^    ".*\n)+', wrapped(listed(names), COLUMNS))


def declared_for_rust(text, formats):
    """The functions that the crate `strkw-sys` declares."""
    names = listed(f"strkw_{it.function}" for it in of_alphabet(formats))
    return with_lines(text, r"^    bool: (?:.*,\n)+", wrapped(f"bool: {names}", COLUMNS - 1))


def variants_for_rust(text, formats):
    """The variants of the crate `strkw`."""
    lines = [line for it in of_alphabet(formats)
             for line in (f"    /// {it.told.grammar}", f'    {it.variant} "{it.called}" strkw_{it.function},')]
    return with_lines(text, r'(?:^    /// .*\n^    \w+ "[\w-]+" strkw_\w+,\n)+', lines)


def page(text, formats):
    """The functions in the page of the manual."""
    names = [it.function for it in of_alphabet(formats)]
    lines = [f".Fn strkw_{name} {'.' if name == names[-1] else ','}" for name in names]
    return with_lines(text, r"(?:^\.Fn strkw_is_\w+ [,.]\n)+", lines)


def in_c(text):
    """A text as C writes it."""
    escaped = text.replace("\\", "\\\\").replace('"', '\\"')
    return '"' + "".join(chr(byte) if 32 <= byte < 127 else f"\\{byte:03o}" for byte in escaped.encode()) + '"'


def rows_for_c(text, formats):
    """The rows that call each function."""
    lines = [f'    {{"{it.function}", strkw_{it.function}, {in_c(it.told.right)}, {in_c(it.told.wrong)}}},'
             for it in of_alphabet(formats)]
    return with_lines(text, r'(?:^    \{"is_\w+", strkw_\w+, ".*", ".*"\},\n)+', lines)


# ---- examples and documents

def called_in_c(text, formats):
    """The functions by their names, of the caller in C."""
    lines = [f'    {{"{it.called}", strkw_{it.function}}},' for it in [*formats, MAIL]]
    return with_lines(text, r'(?:^    \{"[\w-]+", strkw_\w+\},\n)+', lines)


def called_in_rust(text, formats):
    """The functions by their names, of the caller in Rust."""
    lines = [f'        "{it.called}" strkw_{it.function},' for it in [*formats, MAIL]]
    return with_lines(text, r'(?:^        "[\w-]+" strkw_\w+,\n)+', lines)


def called_in_python(text, formats):
    """The formats that the caller in Python asks by draft 2019-09, and not by draft 7."""
    names = ", ".join(f'"{it.name}"' for it in formats if it.first == "2019-09")
    return with_words(text, r"(?<=7 if name not in \().*?(?=\) else 201909$)", names)


def texts_in_table(text, formats):
    """The rows of each format: those that stand there, and of a new one its right and its wrong text."""
    had = {}
    for line in text.split("\n")[:-1]:
        had.setdefault(line.partition("\t")[0], []).append(line)
    made = {it.called: [f"{it.called}\tyes\t{it.told.right}", f"{it.called}\tno\t{it.told.wrong}"] for it in formats}
    rows = made | had
    return "".join(f"{line}\n" for name in with_new(had, list(made)) for line in rows[name])


def drafts_told(it):
    """The drafts of a format in words."""
    drafts = [draft_of(draft) for draft in tables.DRAFTS.values()]
    some = drafts[drafts.index(it.first):drafts.index(it.last) + 1]
    return f"{it.first} on" if it.last == drafts[-1] else " and ".join(some)


def table_for_readers(text, formats):
    """The table of the formats for who calls the library."""
    shape = r"^\| `[\w-]+` \| .* \| `(\w+)` \| `strkw_\w+::is_valid_\w+` \|\n"
    rows = {it.variant: f"| `{it.name}` | {drafts_told(it)} | `{it.example}` | `{it.variant}` "
                        f"| `{it.crate}::{it.recogniser}` |" for it in formats}
    order = with_new(re.findall(shape, text, re.M), list(rows))
    return with_lines(text, f"(?:{shape})+", [rows[it] for it in order])


# ---- rows of programs

def in_toml(line):
    """A line as the text of several lines has it in TOML."""
    return line.replace("\\", "\\\\")


def written_by_command(text, formats):
    """What `neldrafi formats` writes, as a table and as JSON; the formats of other crates stay behind them."""
    return as_json(as_table(text, formats), formats)


def as_table(text, formats):
    """The rows of the table, the names in a column as wide as the longest needs."""
    shape = r"^name +first +last +example\n(?:^.+ +\d.* .*\n)+"
    names = {it.name for it in formats}
    had = [line.split(maxsplit=3) for line in re.findall(".+", re.search(shape, text, re.M)[0])]
    rows = [had[0], *((it.name, *it.drafts_in_tables, in_toml(it.example)) for it in formats),
            *(row for row in had[1:] if row[0] not in names)]
    width = max(len(row[0]) for row in rows)
    lines = [f"{name:{width}}  {first:7}  {last:7}  {example}" for name, first, last, example in rows]
    return with_lines(text, shape, lines)


def as_json(text, formats):
    """The objects of JSON, one a line."""
    shape = r'^\{"example":.*"name":"([\w-]+)"\}\n'
    names = {it.name for it in formats}
    others = [line[0].rstrip() for line in re.finditer(shape, text, re.M) if line[1] not in names]
    rows = [in_json({"example": it.example, "first": first, "last": last, "name": it.name})
            for it in formats for first, last in [it.drafts_in_tables]]
    return with_lines(text, f"(?:{shape})+", [*map(in_toml, rows), *others])


def in_json(value):
    """A value of JSON without white space."""
    return json.dumps(value, ensure_ascii=False, separators=(",", ":"))


# ---- the files

FILES = {
    "crates/strkw_formats/src/lib.rt": counted,
    "crates/strkw_c/src/formats.rt": exports,
    "crates/strkw_c/src/lib.rt": exported,
    "crates/strkw_test_grammars/src/texts.rt": asked_by_rows,
    "bindings/strkw.h": header,
    "bindings/strkw.c": functions,
    "bindings/calls.c": rows_for_c,
    "bindings/python/strkw/_formats.py": names_for_python,
    "bindings/rust/strkw-sys/src/lib.rs": declared_for_rust,
    "bindings/rust/strkw/src/format.rs": variants_for_rust,
    "packaging/man/strkw.3": page,
    "examples/formats.tsv": texts_in_table,
    "examples/caller.c": called_in_c,
    "examples/caller.rs": called_in_rust,
    "examples/caller.py": called_in_python,
    "docs/CALLING.md": table_for_readers,
    "tools/programs/neldrafi.toml": written_by_command,
}


def wanted(name, formats):
    """A file as it is to be."""
    try:
        return FILES[name](stored(name), formats)
    except LookupError as shape:
        raise SystemExit(f"formats: {name} has nothing of the shape {shape}") from None


def is_as_wanted(name, text):
    """Whether a file is as it is to be; where it is not, its first line that is not is told."""
    pairs = itertools.zip_longest(stored(name).split("\n"), text.split("\n"))
    wrong = [place for place, (one, other) in enumerate(pairs, 1) if one != other]
    if wrong:
        print(f"formats: {name}, line {wrong[0]} is not what the table of the formats makes")
    return not wrong


def main():
    """Writes the files, or compares them with what is made."""
    if sys.argv[1:] not in ([], ["--check"]):
        raise SystemExit(__doc__)
    formats = list(formats_of_library())
    files = {name: wanted(name, formats) for name in FILES}
    if not sys.argv[1:]:
        for name, text in files.items():
            (TOP / name).write_bytes(text.encode())
        return 0
    counts = [is_as_wanted(name, text) for name, text in files.items()]
    print(f"{counts.count(True)} passed, {counts.count(False)} failed")
    return 1 if False in counts else 0


if __name__ == "__main__":
    sys.exit(main())
