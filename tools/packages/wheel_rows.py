"""The wheel of `pip wheel bindings/python`: in a fresh virtual environment it answers, without the toolchain."""
import re
import sys
import tempfile
import zipfile
from pathlib import Path

from packages.rows import TOP, VERSION, run, with_variables

# Nothing is fetched.
QUIET = ["--quiet", "--disable-pip-version-check", "--no-index"]
# Asked of the installed package: where its library lies, its version, an answer, and the examples of its own documents.
ASKED = """
import doctest, importlib, pathlib, strkw
from strkw import _formats, _library, _schemas
folder = pathlib.Path(strkw.__file__).parent
print(_library.LIBRARY._name == str(folder / "libstrkw.so"), (folder / "py.typed").exists(), strkw.__version__)
print(strkw.check_texts(7, {"format": "date"}, ["2024-02-29", "2023-02-29"]))
names = {name: getattr(strkw, name) for name in strkw.__all__}
print(sum(doctest.testmod(module, extraglobs=names).failed for module in (strkw, _formats, _schemas)))
"""
ANSWERED = f"True True {VERSION}\n[True, False]\n0\n"
WHEEL = re.compile(rf"strkw-{re.escape(VERSION)}-py3-none-manylinux_2_\d+_x86_64\.whl")


def made(rows, folder):
    """The wheel that pip makes, twice with the same bytes; or nothing, which is told."""
    for time in ["one", "other"]:
        # The build of pip is a process of its own: it finds no toolchain, since none is on its path.
        source = TOP / "bindings/python"
        words = [sys.executable, "-m", "pip", "wheel", *QUIET, "--no-deps", "-w", folder / time, source]
        if rows.ran(f"pip wheel, {time}", words, env=with_variables(PATH="/usr/bin:/bin")).returncode:
            return None
    one, other = (list((folder / time).iterdir()) for time in ["one", "other"])
    rows.row("the name of the wheel", len(one) == 1 and WHEEL.fullmatch(one[0].name), one)
    rows.row("pip wheel makes the same bytes", one[0].read_bytes() == other[0].read_bytes())
    with zipfile.ZipFile(one[0]) as opened:
        entries = opened.infolist()
    names, times = [entry.filename for entry in entries], {entry.date_time for entry in entries}
    rows.row("its files are in the order of their names, and of one time", names == sorted(names), names)
    rows.row("which is the first that an archive may have", times == {(1980, 1, 1, 0, 0, 0)}, times)
    return one[0]


def rows_of(rows):
    """Builds the wheel, installs it into an environment, and calls it there."""
    for module in ["pip", "venv", "ensurepip"]:
        if run([sys.executable, "-c", f"import {module}"]).returncode:
            print(f"packages: the wheel is left out: {module} of Python is not installed", flush=True)
            return
    with tempfile.TemporaryDirectory() as name:
        folder = Path(name)
        wheel = made(rows, folder)
        if wheel is None:
            return
        environment = folder / "an environment"
        rows.ran("a virtual environment", [sys.executable, "-m", "venv", environment])
        python = environment / "bin/python"
        rows.ran("pip install", [python, "-m", "pip", "install", *QUIET, wheel], "")
        alone = with_variables(PATH="/nowhere")
        rows.ran("the installed package", [python, "-c", ASKED], ANSWERED, cwd=folder, env=alone)
        rows.ran("pip uninstall", [python, "-m", "pip", "uninstall", "--quiet", "--yes", "strkw"])
        rows.row("pip uninstall leaves nothing", not list(environment.glob("lib/*/site-packages/strkw*")))
