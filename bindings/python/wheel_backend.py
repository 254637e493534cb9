"""Makes the wheel of strkw, with the shared library that bindings/build made inside, for `pip wheel bindings/python`.

It needs no other package, and the same files give the same bytes: names are sorted, and times are fixed.
"""
import ast
import base64
import hashlib
import re
import sys
import zipfile
from pathlib import Path

HERE = Path(__file__).resolve().parent
TOP = HERE.parents[1]
VERSION = (TOP / "VERSION").read_text(encoding="utf-8").strip()
LIBRARY = TOP / "bindings" / "out" / f"libstrkw.so.{VERSION}"
INFO = f"strkw-{VERSION}.dist-info"
EARLIEST = (1980, 1, 1, 0, 0, 0)
# Of the C library, the first number of which a wheel's tag may speak.
OLDEST_MINOR = 17
WHEEL = f"""\
Wheel-Version: 1.0
Generator: strkw {VERSION}
Root-Is-Purelib: false
"""
METADATA = f"""\
Metadata-Version: 2.1
Name: strkw
Version: {VERSION}
Summary: The string keywords of JSON Schema: formats, lengths, patterns and encodings
License: MIT
Requires-Python: >=3.9
Classifier: Operating System :: POSIX :: Linux
Classifier: Programming Language :: Python :: 3
Classifier: Typing :: Typed
Description-Content-Type: text/plain

"""


def get_requires_for_build_wheel(config_settings=None):
    """The packages that a build needs: none."""
    return []


def platform_tag(library):
    """The tag of the oldest C library that has all that the library needs: the newest that one of its names tells."""
    minors = [int(minor) for minor in re.findall(rb"\0GLIBC_2\.(\d+)", library)]
    return f"manylinux_2_{max([OLDEST_MINOR, *minors])}_x86_64"


def contents(tag):
    """The files of the wheel but for its record, by their names in it."""
    if not LIBRARY.exists():
        sys.exit(f"{LIBRARY} is missing: bindings/build builds it")
    sources = {f"strkw/{path.name}": path.read_bytes() for path in (HERE / "strkw").iterdir()
               if path.suffix == ".py" or path.name == "py.typed"}
    described = ast.get_docstring(ast.parse(sources["strkw/__init__.py"]))
    return {
        **sources,
        "strkw/libstrkw.so": LIBRARY.read_bytes(),
        f"{INFO}/LICENSE": (TOP / "LICENSE").read_bytes(),
        f"{INFO}/METADATA": f"{METADATA}{described}\n".encode(),
        f"{INFO}/WHEEL": f"{WHEEL}Tag: {tag}\n".encode(),
    }


def recorded(files):
    """The record: each file with its digest and its size, and itself with neither."""
    def digest(data):
        """The digest of a file, as a record has it."""
        return base64.urlsafe_b64encode(hashlib.sha256(data).digest()).rstrip(b"=").decode()

    lines = [f"{name},sha256={digest(data)},{len(data)}\n" for name, data in sorted(files.items())]
    return "".join([*lines, f"{INFO}/RECORD,,\n"]).encode()


def build_wheel(wheel_directory, config_settings=None, metadata_directory=None):
    """Writes the wheel into a folder, and answers its name."""
    tag = f"py3-none-{platform_tag(LIBRARY.read_bytes() if LIBRARY.exists() else b'')}"
    files = contents(tag)
    files[f"{INFO}/RECORD"] = recorded(files)
    name = f"strkw-{VERSION}-{tag}.whl"
    with zipfile.ZipFile(Path(wheel_directory) / name, "w", zipfile.ZIP_DEFLATED) as wheel:
        for file, data in sorted(files.items()):
            entry = zipfile.ZipInfo(file, EARLIEST)
            entry.external_attr = (0o100755 if file.endswith(".so") else 0o100644) << 16
            entry.compress_type = zipfile.ZIP_DEFLATED
            wheel.writestr(entry, data)
    return name
