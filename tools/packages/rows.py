"""What the rows of all packages share: they are counted, and what is not installed is named."""
import os
import shutil
import subprocess
from pathlib import Path

TOP = Path(__file__).resolve().parents[2]
VERSION = (TOP / "VERSION").read_text(encoding="utf-8").strip()
SECONDS_FOR_A_RUN = 300


class Rows:
    """How many rows passed and failed."""

    def __init__(self):
        self.passed, self.failed = 0, 0

    def row(self, name, holds, told=""):
        """Counts a row, and tells of one that failed. Answers whether it holds."""
        if holds:
            self.passed += 1
        else:
            self.failed += 1
            print(f"packages: {name} failed: {told}"[:2000], flush=True)
        return bool(holds)

    def equal(self, name, found, wanted):
        """A row that holds where both are equal."""
        return self.row(name, found == wanted, f"{found!r}, and not {wanted!r}")

    def ran(self, name, words, output=None, status=0, **how):
        """A row of a command: its status, and its output where one is wanted. Answers the run."""
        done = run(words, **how)
        is_right = done.returncode == status and output in (None, done.stdout)
        self.row(name, is_right, f"{[*map(str, words)]}: status {done.returncode}: {done.stdout}{done.stderr}")
        return done


def run(words, **how):
    """A command with no input, as its status and its texts."""
    given = {"stdin": subprocess.DEVNULL} if "input" not in how else {}
    return subprocess.run([*map(str, words)], capture_output=True, text=True, check=False,
                          timeout=SECONDS_FOR_A_RUN, **given, **how)


def shell(script, *words, **how):
    """The words of a script of `sh`, in which the words behind it are "$1" and so on."""
    return run(["sh", "-c", script, "sh", *words], **how)


def with_variables(**variables):
    """The environment without what would lead to another library, and with more variables."""
    kept = {name: value for name, value in os.environ.items()
            if name not in ("STRKW_LIBRARY", "STRKW_LIB_DIR", "PYTHONPATH", "DESTDIR", "PREFIX", "MAKEFLAGS")}
    return {**kept, **{name: str(value) for name, value in variables.items()}}


def having(program, what):
    """Whether a program is installed; where it is not, a line says what is left out."""
    if shutil.which(program):
        return True
    print(f"packages: {what} is left out: {program} is not installed", flush=True)
    return False


def files_below(folder):
    """The files, links and folders below a folder, by their paths in it."""
    return sorted(str(path.relative_to(folder)) for path in Path(folder).rglob("*"))
