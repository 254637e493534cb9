#!/usr/bin/env python3
"""Runs the examples of documents over what `tools/install` installs, in a folder of their own.

    python3 tools/run_document.py docs/COOKBOOK.md ..

It installs below a temporary prefix, and the commands find the programs, the libraries, the package for Python and the
folder `examples` there. The last line is `N passed, M failed`. `examples/run` calls it; it is no part of the gate.
"""
import os
import subprocess
import sys
import tempfile
from pathlib import Path

from packages.console import commands_of, judged, script_of
from packages.rows import TOP, Rows, run, with_variables


def installed(prefix):
    """The environment in which what is installed below a prefix is found."""
    return with_variables(
        PATH=f"{prefix}/bin:{os.environ['PATH']}", PKG_CONFIG_PATH=f"{prefix}/lib/pkgconfig",
        LD_LIBRARY_PATH=f"{prefix}/lib", STRKW_LIBRARY=f"{prefix}/lib/libstrkw.so", PYTHONPATH=TOP / "bindings/python")


def run_document(rows, document, prefix, folder):
    """Runs the commands of a document, with a row for each."""
    commands = commands_of(document.read_text(encoding="utf-8"))
    results = folder / "results"
    results.mkdir()
    (folder / "examples").symlink_to(TOP / "examples")
    subprocess.run(["sh", "-c", script_of(commands, results, results)], cwd=folder, env=installed(prefix), check=False)
    for command, holds, told in judged(commands, results):
        rows.row(f"{document.name}: {command.words}", holds, told)
    rows.row(f"{document.name} has examples", commands)


def main():
    """Runs the documents that the arguments name."""
    if not sys.argv[1:]:
        print(__doc__, file=sys.stderr)
        return 2
    rows = Rows()
    with tempfile.TemporaryDirectory() as made:
        prefix = Path(made) / "prefix"
        done = run([TOP / "tools/install", prefix])
        if rows.row("install", done.returncode == 0, done.stderr):
            for number, name in enumerate(sys.argv[1:]):
                folder = Path(made) / str(number)
                folder.mkdir()
                run_document(rows, Path(name), prefix, folder)
    print(f"{rows.passed} passed, {rows.failed} failed")
    return 1 if rows.failed else 0


if __name__ == "__main__":
    sys.exit(main())
