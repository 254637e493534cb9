"""The list of the crates of which a release is made, as SPDX 2.3 in JSON: its own and those of Rattle's kit."""
import json
import re
import subprocess
from pathlib import Path

from packages.rows import TOP, VERSION

# What is released: the programs, and the library for C.
RELEASED = ["neldrafi", "strkw", "strkw_c"]
# Nothing of a release tells when it was made.
CREATED = "1980-01-01T00:00:00Z"


def identity_of_kit():
    """What `rt version` prints."""
    return subprocess.run(["rt", "version"], cwd=TOP, capture_output=True, text=True, check=True).stdout.strip()


def folder_of_kit():
    """The folder of the kit, in which the first page of its guide stands."""
    told = subprocess.run(["rt", "doc"], cwd=TOP, capture_output=True, text=True, check=True).stdout
    return Path(told.split()[0]).parent


def own_crates():
    """Each crate of crates.txt, with what it stands on."""
    lines = (line.partition("#")[0].partition(":") for line in (TOP / "crates.txt").read_text("utf-8").splitlines())
    return {head.split()[0]: tail.split() for head, _, tail in lines if head.strip()}


class Crates:
    """The crates that a release is made of, each with those that it stands on."""

    def __init__(self, kit):
        self.kit, self.own, self.below = kit, own_crates(), {}
        todo = list(RELEASED)
        while todo:
            name = todo.pop()
            if name not in self.below:
                self.below[name] = sorted(self.stands_on(name))
                todo += self.below[name]

    def stands_on(self, name):
        """What a crate stands on: by crates.txt and on `std`, or by the format of a library of the kit."""
        if name in self.own:
            return {*self.own[name], "std"}
        told = (self.kit / "rlibs" / f"{name}.rlib" / "format").read_text("utf-8")
        return set(re.findall(r"^dep (\w+)$", told, re.M))

    def licences(self, name):
        """The files of the licences of a crate of the kit, as they stand in its folder."""
        return sorted((self.kit / "rattle" / name).glob("LICENSE*"))


def package(name, version, licence, comment, supplier="NOASSERTION"):
    """The entry of a package."""
    return {
        "SPDXID": f"SPDXRef-{name.replace('_', '-')}", "name": name, "versionInfo": version, "supplier": supplier,
        "downloadLocation": "NOASSERTION", "filesAnalyzed": False, "licenseConcluded": "NOASSERTION",
        "licenseDeclared": licence, "copyrightText": "NOASSERTION", "comment": comment,
    }


def packages(crates, identity):
    """The release, the kit, and each crate."""
    version = identity.split()[0]
    yield package("neldrafi-release", VERSION, "MIT", "What the archive has.")
    yield package("rattle-kit", version, "NOASSERTION", f"The toolchain that proved and built the binaries: {identity}")
    for name in sorted(crates.below):
        if name in crates.own:
            yield package(name, VERSION, "MIT", "A crate of this repository.")
        else:
            files = ", ".join(path.name for path in crates.licences(name)) or "none in its folder"
            yield package(name, version, "NOASSERTION", f"A crate of the kit. Its licence texts: {files}")


def relationships(crates):
    """What describes, contains, is built by and depends on what."""
    def related(one, kind, other):
        """The entry of a relationship between two packages."""
        first, second = (f"SPDXRef-{end.replace('_', '-')}" for end in (one, other))
        return {"spdxElementId": first, "relationshipType": kind, "relatedSpdxElement": second}

    yield related("DOCUMENT", "DESCRIBES", "neldrafi-release")
    yield related("rattle-kit", "BUILD_TOOL_OF", "neldrafi-release")
    for name in sorted(crates.below):
        yield related("neldrafi-release" if name in crates.own else "rattle-kit", "CONTAINS", name)
    for name, below in sorted(crates.below.items()):
        yield from (related(name, "DEPENDS_ON", other) for other in below)


def sbom(crates, identity, digest):
    """The document, for files that have this digest together."""
    return json.dumps({
        "spdxVersion": "SPDX-2.3", "dataLicense": "CC0-1.0", "SPDXID": "SPDXRef-DOCUMENT",
        "name": f"neldrafi-{VERSION}", "documentNamespace": f"https://spdx.org/spdxdocs/neldrafi-{VERSION}-{digest}",
        "creationInfo": {"created": CREATED, "creators": ["Tool: tools-release"]},
        "packages": list(packages(crates, identity)), "relationships": list(relationships(crates)),
    }, indent=1) + "\n"
