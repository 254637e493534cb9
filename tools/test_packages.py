#!/usr/bin/env python3
"""Tries the packages: what `tools/install` installs, the wheel, the Rust crates, and the archive of a release.

    python3 tools/test_packages.py           all of them, in a minute or less
    python3 tools/test_packages.py NAME ..   those of install, wheel, rust, release

It builds and proves nothing: run `rt ci` and `bindings/build` first. It works in temporary folders and installs nothing
on the machine. What a row needs and is not installed is named, and the row is left out:

    apt-get install gcc binutils make pkg-config man-db mandoc zsh fish python3-pip python3-venv cargo

The last line is `N passed, M failed`, and the status is 1 where a row fails.
"""
import importlib
import sys

from packages.rows import Rows

PARTS = ["install", "wheel", "rust", "release"]


def main():
    """Runs the rows of the parts that the arguments name, or of all."""
    wanted = sys.argv[1:] or PARTS
    if not set(wanted) <= set(PARTS):
        print(__doc__, file=sys.stderr)
        return 2
    rows = Rows()
    for part in wanted:
        importlib.import_module(f"packages.{part}_rows").rows_of(rows)
    print(f"{rows.passed} passed, {rows.failed} failed")
    return 1 if rows.failed else 0


if __name__ == "__main__":
    sys.exit(main())
