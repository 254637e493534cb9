"""The programs that answer rows, and whether they answer a section as it expects."""
import subprocess
from pathlib import Path

TOP = Path(__file__).resolve().parents[2]
# What LLVM builds, and what Rattle's own compiler does, by the ends of their names in `out`.
BUILDS = ("", ".by-rattle")
SECONDS_FOR_A_SECTION = 300


def built(name, given):
    """The builds of a program: those that `rt ci` left, or the one that the caller names."""
    if name in given:
        return [Path(given[name])]
    builds = [TOP / "crates" / name / "out" / f"{name}{end}" for end in BUILDS]
    missing = [build for build in builds if not build.exists()]
    if missing:
        raise SystemExit(f"rows: {missing[0].relative_to(TOP)} is not built: run `rt ci` first")
    return builds


def stored(name, file):
    """A file of a program's crate, as bytes."""
    return (TOP / "crates" / name / file).read_bytes()


def wrong_row(name):
    """The row by hand that is wrong on purpose, with what it expects: it stands last."""
    lines = stored(name, "stdin").decode().removesuffix("\n").split("\n")
    start = max(place for place, line in enumerate(lines) if line and not line.startswith(("#", "> ")))
    return "".join(f"{line}\n" for line in lines[start:])


def answer(build, section):
    """What a program writes on a section, behind which stands the row that is wrong on purpose."""
    given = section.text + wrong_row(section.program)
    return subprocess.run([build], input=given.encode(), stdout=subprocess.PIPE, stderr=subprocess.PIPE,
                          timeout=SECONDS_FOR_A_SECTION)


def failure(build, section):
    """What is wrong with the answers of a program to a section, or nothing: it has to tell the wrong row alone, and to
    have answered each row."""
    run = answer(build, section)
    counts = run.stderr.decode(errors="replace").split()
    if run.returncode != 0:
        return f"ended with status {run.returncode}: {run.stderr.decode(errors='replace')[:200]}"
    if counts[:1] != [str(section.rows + 1)]:
        return f"answered {' '.join(counts)}, and the section has {section.rows} rows"
    if run.stdout != stored(section.program, "stdout"):
        return run.stdout.decode(errors="replace")[:2000]
    return ""
