"""The manifest: what each section has to come to, so that a generator that changes in silence is noticed."""
import unicodedata
from pathlib import Path

FILE = Path(__file__).resolve().parent / "manifest.tsv"
# The edition of Unicode by whose tables in Python the rows are made. Another one makes other rows.
UNICODE = "14.0.0"
HEADING = ("program", "section", "rows", "answers", "sha256", "unicode")


def require_edition():
    """Ends the run where Python has the tables of another edition of Unicode."""
    if unicodedata.unidata_version != UNICODE:
        raise SystemExit(f"rows: Python has the tables of Unicode {unicodedata.unidata_version}, and the rows are made "
                         f"by those of {UNICODE}: run this by a Python whose `unicodedata.unidata_version` is {UNICODE}")


def line_of(section):
    """The line of a section."""
    return "\t".join([section.program, section.name, str(section.rows), str(section.answers), section.sha256, UNICODE])


def stored():
    """The lines of the manifest, by program and section."""
    lines = FILE.read_text(encoding="utf-8").split("\n")[1:-1]
    return {tuple(line.split("\t")[:2]): line for line in lines}


def store(sections):
    """Writes the manifest anew."""
    lines = ["\t".join(HEADING), *map(line_of, sections)]
    FILE.write_text("".join(f"{line}\n" for line in lines), encoding="utf-8")


def differences(sections):
    """What the manifest has otherwise than these sections, a line for each."""
    lines = stored()
    for section in sections:
        line = lines.pop((section.program, section.name), None)
        if line is None:
            yield f"{section.title}: not in the manifest"
        elif line != line_of(section):
            yield f"{section.title}: made otherwise than the manifest has it: {line_of(section)}"
    for program, name in lines:
        yield f"{program}: {name}: in the manifest, and not made"
