"""`tools/release`: the archive has what it has to, the same bytes each time, right digests, and a whole SBOM."""
import hashlib
import json
import re
import tarfile
import tempfile
from pathlib import Path

from packages.install_rows import INSTALLED
from packages.rows import TOP, VERSION, files_below, having
from packages.sbom import RELEASED, identity_of_kit, own_crates

NAME = f"neldrafi-{VERSION}-linux-x86_64"
SBOM = f"neldrafi-{VERSION}.spdx.json"
# 1980-01-01, the time of each entry.
EARLIEST = 315532800
# Beside what an install puts.
FILES = {"README.md", "LICENSE", "CHANGELOG.md", "SHA256SUMS", SBOM, "docs/PROGRAMS.md", "docs/COOKBOOK.md",
         "examples/caller.c", "examples/formats.tsv", "rust/Cargo.toml", "rust/strkw/src/lib.rs",
         "rust/strkw-sys/build.rs"}


def contents(rows, tree):
    """What lies in the archive, and the digest of each file."""
    found = {str(path.relative_to(tree)) for path in tree.rglob("*") if not path.is_dir()}
    wanted = {*FILES, *INSTALLED} - {"share/neldrafi/manifest"}
    rows.equal("the archive has what it has to", sorted(wanted - found), [])
    rows.equal("the archive has one wheel", len([path for path in found if path.startswith("python/")]), 1)
    lines = [line.split("  ", 1) for line in (tree / "SHA256SUMS").read_text("utf-8").splitlines()]
    told = {path: digest for digest, path in lines}
    files = {path for path in found if path != "SHA256SUMS" and not (tree / path).is_symlink()}
    rows.equal("SHA256SUMS has each file", sorted(told), sorted(files))
    wrong = [path for path in files if hashlib.sha256((tree / path).read_bytes()).hexdigest() != told.get(path)]
    rows.equal("SHA256SUMS has the digests", wrong, [])
    return found


def bill(rows, tree, found):
    """The SBOM: each crate once, each relationship between what it has, the kit, and the licences of its crates."""
    document = json.loads((tree / SBOM).read_text("utf-8"))
    names = [package["name"] for package in document["packages"]]
    marks = {"SPDXRef-DOCUMENT", *(package["SPDXID"] for package in document["packages"])}
    rows.equal("the SBOM has each crate once", len(names), len(set(names)))
    rows.row("the SBOM has what is released", set(RELEASED) < set(names), names)
    rows.row("the SBOM has no crate for tests alone", not [name for name in names if name.startswith("strkw_test_")])
    dangling = [one for one in document["relationships"]
                if not {one["spdxElementId"], one["relatedSpdxElement"]} <= marks]
    rows.equal("the SBOM relates what it has", dangling, [])
    needed = {other for name, below in own_crates().items() if name in names for other in below}
    rows.equal("the SBOM has what its crates stand on", sorted(needed - set(names)), [])
    kit = [package["comment"] for package in document["packages"] if package["name"] == "rattle-kit"]
    rows.row("the SBOM has the identity of the kit", kit and kit[0].endswith(identity_of_kit()), kit)
    licensed = {path.split("/")[1] for path in found if path.startswith("licenses/")}
    told = {package["name"] for package in document["packages"] if "LICENSE" in package["comment"]}
    rows.equal("each licence that the SBOM names lies in the archive", sorted(told), sorted(licensed))


def c_library(rows, tree):
    """README.md names a C library that has all that the programs and the library need."""
    named = re.search(r"glibc 2\.(\d+) or later", (tree / "README.md").read_text("utf-8"))
    files = [*(tree / "bin").iterdir(), tree / f"lib/libstrkw.so.{VERSION}"]
    needed = max(int(minor) for path in files for minor in re.findall(rb"\0GLIBC_2\.(\d+)", path.read_bytes()))
    rows.row("README.md names the C library that is needed", named and needed <= int(named[1]), needed)


def installs(rows, tree, prefix):
    """The archive installs itself, and takes that away again."""
    rows.ran("install of the archive", [tree / "tools/install", prefix], "")
    found = {path for path in files_below(prefix) if not (prefix / path).is_dir()}
    rows.equal("install of the archive puts the files", sorted(found), INSTALLED)
    for path in sorted(found - {"share/neldrafi/manifest"}):
        is_same = (prefix / path).read_bytes() == (tree / path).read_bytes()
        rows.row(f"install of the archive puts {path} as it is", is_same)
    rows.ran("uninstall of the archive", [tree / "tools/install", "--uninstall", prefix], "")
    rows.row("uninstall of the archive leaves nothing", not prefix.exists())


def rows_of(rows):
    """Packs a release twice, and asks what is in it."""
    if not having("rt", "the archive of a release"):
        return
    with tempfile.TemporaryDirectory() as made:
        folders = [Path(made) / "one", Path(made) / "other"]
        archives = [folder / f"{NAME}.tar.gz" for folder in folders]
        for folder, archive in zip(folders, archives):
            if rows.ran("release", [TOP / "tools/release", folder], f"{archive}\n").returncode:
                return
        digests = [hashlib.sha256(archive.read_bytes()).hexdigest() for archive in archives]
        rows.row("release makes the same bytes", digests[0] == digests[1], digests)
        rows.equal("the digest of the archive", Path(f"{archives[0]}.sha256").read_text("utf-8"),
                   f"{digests[0]}  {NAME}.tar.gz\n")
        with tarfile.open(archives[0]) as archive:
            told = {(one.mtime, one.uid, one.gid, one.uname) for one in archive}
        rows.equal("no entry tells a time or an owner", told, {(EARLIEST, 0, 0, "")})
        rows.ran("the archive is unpacked", ["tar", "-xzf", archives[0], "-C", made])
        found = contents(rows, Path(made) / NAME)
        bill(rows, Path(made) / NAME, found)
        c_library(rows, Path(made) / NAME)
        installs(rows, Path(made) / NAME, Path(made) / "a prefix")
