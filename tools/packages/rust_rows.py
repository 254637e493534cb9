"""The Rust crates of bindings/rust: their declarations beside the header, their tests, and the lines of a README."""
import os
import re

from packages.rows import TOP, having, run, with_variables

RUST = TOP / "bindings/rust"
RESULT = re.compile(r"^test result: \w+\. (\d+) passed; (\d+) failed", re.M)
# Nobody who calls the crate writes `unsafe`: neither its tests nor its README do.
CALLERS = [RUST / "strkw/tests/rows.rs", RUST / "strkw/README.md"]


def parameters(text, separator):
    """The functions that a text declares, each with how many arguments it has."""
    found = re.findall(r"\b(strkw_\w+)\(([^()]*?),?\s*\)\s*(?:;|->)", text)
    return {name: len([one for one in words.split(",") if separator in one]) for name, words in found}


def declarations(rows):
    """The header's functions, statuses and options are those that strkw-sys declares."""
    header = (TOP / "bindings/strkw.h").read_text(encoding="utf-8")
    declared = (RUST / "strkw-sys/src/lib.rs").read_text(encoding="utf-8")
    judges = re.findall(r"judges! \{\n    \w+: (.*?)\n\}", declared, re.S)
    named = {name: 2 for words in judges for name in re.findall(r"strkw_\w+", words)}
    rows.equal("strkw-sys declares the functions", {**named, **parameters(declared, ":")}, parameters(header, " "))
    statuses = dict(re.findall(r"^    (STRKW_\w+) = (\d+)", header, re.M))
    options = dict(re.findall(r"^#define (STRKW_\w+) UINT32_C\((\d+)\)", header, re.M))
    constants = dict(re.findall(r"^pub const (STRKW_\w+): u\w+ = (\d+);", declared, re.M))
    rows.equal("strkw-sys has the statuses and options", constants, {**statuses, **options})


def tests(rows):
    """Each test of the crates, and each example of their documents, is a row."""
    where = with_variables(CARGO_TERM_COLOR="never", CARGO_BUILD_JOBS=os.environ.get("CARGO_BUILD_JOBS", "2"))
    done = run(["cargo", "test", "--offline", "--quiet", "--no-fail-fast"], cwd=RUST, env=where)
    counts = RESULT.findall(done.stdout)
    passed, failed = (sum(int(count[which]) for count in counts) for which in (0, 1))
    rows.passed += passed
    rows.row("the tests of the Rust crates", done.returncode == 0 and failed == 0 and passed > 0,
             (done.stdout + done.stderr)[-1800:])


def rows_of(rows):
    """Asks the crates for Rust."""
    declarations(rows)
    for path in CALLERS:
        rows.row(f"{path.name} has no unsafe code", not re.search(r"unsafe\b *[{f(]", path.read_text(encoding="utf-8")))
    if having("cargo", "the tests of the Rust crates"):
        tests(rows)
