#!/usr/bin/env python3
"""Compares what the documents say of the repository with the repository.

    python3 tools/claims.py            compares; it needs no proof and no built program, and takes a second
    python3 tools/claims.py --write    first writes the generated parts of the documents

For each document it checks that

- the paths in its code spans exist;
- its links lead to a file, and to a heading of that file if they name one;
- its quotations are in the files that they name: a quotation is a block of code below a line that ends in the path of
  a file, as "`PATH`:", or below a comment `<!-- quoted from PATH -->`;
- its generated parts are up to date: the lines between `<!-- generated: NAME -->` and `<!-- end -->`, for each NAME of
  `GENERATED`. The README of each crate ends with the part `dependencies`.

It also checks that the version and the logic of the toolchain are the same wherever they are written, and that
bench/README.md and its pictures have the figures of bench/taken. The last line is `N passed, M failed`; a line before
it names each claim that does not hold.
"""
import functools
import itertools
import os
import re
import shutil
import subprocess
import sys
import textwrap
from pathlib import Path
from typing import NamedTuple

TOP = Path(__file__).resolve().parent.parent
sys.path.insert(0, str(TOP / "bench"))

from figures import stored, tables_of
from named import LABELS
from pictures import PICTURES

COLUMNS = 120
# A name that ends in one of these is a file of the repository, whichever document names it.
SOURCES = {".rt", ".antt", ".md", ".py", ".edit", ".jsonl", ".toml", ".tsv", ".c", ".h", ".rs"}
PATH = re.compile(r"[\w.+-]+(/[\w.+-]+)*")
BUILT = "out"
# Paths of a caller's repository.
EXAMPLES = {"crates/my_crate"}
# A code span ends with as many backquotes as it begins with.
CODE_SPAN = re.compile(r"(?<!`)(`+)(?!`)(.+?)(?<!`)\1(?!`)", re.DOTALL)
FENCE = "```"
QUOTED, GENERATED_MARK, END_MARK = "<!-- quoted from ", "<!-- generated: ", "<!-- end -->\n"
# By how many columns more a quotation may be indented in its file.
INDENTS = (0, 4, 8)
# Where the version is written: the file, and the text before and behind it there.
VERSIONS = [
    ("README.md", "Version ", " "),
    ("README.md", "neldrafi-", "-linux"),
    ("crates/neldrafi/src/commands.rt", 'const VERSION: &str = "', '"'),
    ("bindings/python/strkw/__init__.py", '__version__ = "', '"'),
    ("bindings/rust/Cargo.toml", '\nversion = "', '"'),
    ("bindings/rust/Cargo.lock", '\nversion = "', '"'),
    ("bindings/rust/strkw/Cargo.toml", '"../strkw-sys", version = "', '"'),
]
# Where `tools/install` writes it in place of `@VERSION@`.
INSTALLED = [
    ("packaging/strkw.pc", "Version: ", "\n"),
    *((f"packaging/man/{page}", ".Os Neldrafi ", "\n") for page in ("neldrafi.1", "strkw.1", "strkw.3")),
]


class Block(NamedTuple):
    """A block of code: the line of the document at which it begins, the line of text above it, and its own text."""
    line: int
    above: str
    code: str


class Document:
    """A Markdown document: its lines and paragraphs outside blocks of code, and these blocks."""

    def __init__(self, name, text):
        self.name, self.lines, self.blocks = name, [], []
        above, code = "", None
        for number, line in enumerate(text.splitlines(), 1):
            if not line.startswith(FENCE):
                (self.lines if code is None else code).append(line)
                above = line or above
            elif code is None:
                begin, introduction, code = number, above, []
            else:
                self.blocks.append(Block(begin, introduction, "\n".join(code)))
                above, code = "", None
        self.paragraphs = "\n".join(self.lines).split("\n\n")

    def paths(self):
        """The words of its code spans that have the form of a path."""
        spans = (span for paragraph in self.paragraphs for _, span in CODE_SPAN.findall(paragraph))
        words = (word.strip("(),;:").removesuffix("/") for span in spans for word in span.split())
        return [word for word in words if PATH.fullmatch(word)]

    def links(self):
        """The targets of its links and pictures."""
        pieces = (piece for it in self.paragraphs for piece in CODE_SPAN.sub("", it).split("](")[1:])
        return [piece.partition(")")[0].partition(" ")[0] for piece in pieces]

    def anchors(self):
        """The names by which links reach its headings, as GitHub makes them."""
        found = []
        for line in self.lines:
            hashes, _, heading = line.partition(" ")
            if hashes and set(hashes) == {"#"}:
                name = "".join(it for it in heading.lower() if it.isalnum() or it in " -_").replace(" ", "-")
                earlier = found.count(name)
                found.append(f"{name}-{earlier}" if earlier else name)
        return found

    def quotations(self, files):
        """The paths of the files that it quotes, each with the block of code."""
        for block in self.blocks:
            if block.above.startswith(QUOTED):
                yield block.above.removeprefix(QUOTED).removesuffix(" -->"), block
            elif block.above.endswith(("`:", "`):")):
                path = block.above.split("`")[-2]
                if path in files:
                    yield path, block


def files_below(top):
    """The paths of the files in a folder, without those that .gitignore names."""
    ignored = {".git", *(line.strip("/") for line in (top / ".gitignore").read_text(encoding="utf-8").split())}
    for folder, folders, files in os.walk(top):
        folders[:] = [name for name in folders if name not in ignored]
        yield from (os.path.relpath(os.path.join(folder, file), top) for file in files)


def uses_of(text):
    """The crates of crates.txt in order, each with those that it depends on."""
    lines = [line.partition(":") for line in text.splitlines() if line and not line.startswith("#")]
    return {head.split()[0]: tail.split() for head, _, tail in lines}


class Repository:
    """The files of the repository. A text is read when it is first needed."""

    def __init__(self, top):
        self.top, self.files = top, sorted(files_below(top))
        paths = [file.split("/") for file in self.files]
        self.names = {name for path in paths for name in path}
        # Each end of the path of each file and folder.
        self.ends = {"/".join(path[first:last]) for path in paths for first in range(len(path))
                     for last in range(first + 1, len(path) + 1)}
        self.uses = uses_of(self.text("crates.txt"))
        self.documents = {name: Document(name, self.text(name)) for name in self.files if name.endswith(".md")}

    @functools.cache
    def text(self, name):
        """The text of a file; the empty text if there is no such file."""
        path = self.top / name
        return path.read_text(encoding="utf-8") if path.is_file() else ""

    def texts_below(self, folder):
        """The texts of the files in a folder."""
        return [self.text(name) for name in self.files if name.startswith(f"{folder}/")]

    def path_meant(self, word):
        """The path of this repository that a word stands for, without what is built, or `None`. Such a path begins with
        the name of a file or folder, or ends as a source does. A part in capitals stands for any name."""
        parts = word.replace("../", "").split("/")
        parts = parts[:parts.index(BUILT)] if BUILT in parts else parts
        path = "/".join(parts)
        if path in EXAMPLES or any(part.isupper() and part not in self.names for part in parts):
            return None
        is_meant = len(parts) > 1 and parts[0] in self.names or Path(path).suffix in SOURCES
        return path if is_meant else None

    def own_dependencies(self, crate):
        """The crates of this repository that a crate depends on."""
        return [name for name in self.uses[crate] if name in self.uses]

    def readmes(self):
        """The paths of the READMEs of the crates."""
        return [f"crates/{crate}/README.md" for crate in self.uses]


# ---- generated parts: each function has the text of a part in the document of this name

def listed(names):
    """Names as code spans with commas."""
    return ", ".join(f"`{name}`" for name in names)


def item(text):
    """An item of a list, on as many lines as it needs."""
    return textwrap.fill(f"- {text}", COLUMNS, subsequent_indent="  ", break_on_hyphens=False) + "\n"


def dependencies(repository, document):
    """What the crate of a README depends on, and which crates depend on it."""
    crate = document.split("/")[1]
    own = repository.own_dependencies(crate)
    kit = [name for name in repository.uses[crate] if name not in own]
    users = [name for name, uses in repository.uses.items() if crate in uses]
    first = listed(own) or ("no crate of this repository" if kit else "the standard library only")
    of_kit = f"; from Rattle's kit: {listed(kit)}" if kit else ""
    return item(f"Depends on: {first}{of_kit}.") + item(f"Used by: {listed(users) or 'no other crate'}.")


def crates(repository, document):
    """The crates of this repository that each crate depends on."""
    return "".join(item(f"`{crate}`: {listed(repository.own_dependencies(crate)) or 'none'}.")
                   for crate in repository.uses)


def names_of_bodies(texts):
    """The lines with the names of wrong bodies."""
    return [line for text in texts for line in text.splitlines() if line.startswith("# ")]


def evidence_of(repository, crate):
    """The numbers of a crate's row in the part `evidence`."""
    return (len(names_of_bodies(repository.texts_below(f"crates/{crate}/must-fail"))),
            len(names_of_bodies([repository.text(f"tools/wrong_bodies/{crate}.edit")])),
            repository.text(f"tools/mutants/{crate}.mutants").count("\n## "),
            sum(text.count("#[test]") for text in repository.texts_below(f"crates/{crate}/src")))


def evidence(repository, document):
    """How many wrong bodies, wrong definitions and tests each crate has, and all crates."""
    rows = {f"`{crate}`": evidence_of(repository, crate) for crate in repository.uses}
    rows["all"] = [sum(column) for column in zip(*rows.values())]
    lines = [f"| {name} | {' | '.join(map(str, row))} |\n" for name, row in rows.items() if any(row)]
    head = "| Crate | Wrong bodies in the gate | Other wrong bodies | Wrong definitions | Tests |\n"
    return head + "|---|---|---|---|---|\n" + "".join(lines)


GENERATED = {"dependencies": dependencies, "crates": crates, "evidence": evidence}


def part_of(repository, document, name):
    """A generated part with its marks, or the empty text if `GENERATED` does not have its name."""
    made = GENERATED.get(name)
    return f"{GENERATED_MARK}{name} -->\n{made(repository, document)}{END_MARK}" if made else ""


def parts_in(text):
    """The generated parts of a document as it has them, by their names: with their marks, or only the first mark if
    the other is missing."""
    found = {}
    for piece in text.split(f"\n{GENERATED_MARK}")[1:]:
        name, _, rest = piece.partition(" -->\n")
        body, end, _ = rest.partition(END_MARK)
        found[name] = f"{GENERATED_MARK}{name} -->\n" + (body + end if end else "")
    return found


def write(repository):
    """Writes each generated part, and adds the dependencies to each README of a crate that lacks them."""
    for name in repository.documents:
        text = repository.text(name)
        parts = parts_in(text)
        for part, old in parts.items():
            text = text.replace(old, part_of(repository, name, part) or old)
        if name in repository.readmes() and "dependencies" not in parts:
            text += "\n" + part_of(repository, name, "dependencies")
        if text != repository.text(name):
            (repository.top / name).write_text(text, encoding="utf-8")
            print(f"claims: {name} is written", flush=True)


# ---- claims: each is whether it holds, and what is wrong if it does not

def of_paths(repository):
    """The paths that documents name exist."""
    for document in repository.documents.values():
        for path in filter(None, map(repository.path_meant, document.paths())):
            yield path in repository.ends, f"{document.name}: there is no file or folder `{path}`"


def is_link(repository, document, target):
    """Whether the file and the heading exist to which a link leads."""
    path, _, anchor = target.partition("#")
    name = os.path.normpath(os.path.join(os.path.dirname(document.name), path)) if path else document.name
    anchors = repository.documents[name].anchors() if name in repository.documents else []
    return (repository.top / name).exists() and (not anchor or anchor in anchors)


def of_links(repository):
    """The links of documents within the repository lead to a file, and to a heading if they name one."""
    for document in repository.documents.values():
        for target in document.links():
            if not re.match(r"\w+:", target):
                yield is_link(repository, document, target), f"{document.name}: the link to `{target}` leads nowhere"


def of_quotations(repository):
    """What documents quote is in the file that they name."""
    files = set(repository.files)
    for document in repository.documents.values():
        for path, block in document.quotations(files):
            is_in_file = any(textwrap.indent(block.code, " " * by) in repository.text(path) for by in INDENTS)
            yield is_in_file, f"{document.name}: the block at line {block.line} is not in {path}"


def first_difference(old, new):
    """The first line of each text that the other does not have there."""
    lines = itertools.zip_longest(old.splitlines(), new.splitlines(), fillvalue="")
    return next((pair for pair in lines if pair[0] != pair[1]), ("", ""))


def of_generated_parts(repository):
    """The generated parts of documents are up to date, and each README of a crate ends with its dependencies."""
    for name in repository.documents:
        for part, old in parts_in(repository.text(name)).items():
            new = part_of(repository, name, part)
            has, wanted = first_difference(old, new)
            yield old == new, f"{name}: the part `{part}` has {has!r}, and `--write` gives {wanted!r}"
    for name in repository.readmes():
        text = repository.text(name)
        part = parts_in(text).get("dependencies")
        yield part is not None and text.endswith(part), f"{name}: it does not end with the part `dependencies`"


def between(text, before, behind):
    """Each text that these two enclose."""
    return [piece.partition(behind)[0] for piece in text.split(before)[1:]]


def of_versions(repository):
    """The version is the same wherever it is written."""
    version = repository.text("VERSION").strip()
    places = [(*place, version) for place in VERSIONS] + [(*place, "@VERSION@") for place in INSTALLED]
    for name, before, behind, wanted in places:
        found = sorted(set(between(repository.text(name), before, behind)))
        yield found == [wanted], f"{name}: the version behind `{before.strip()}` is {found}, and not {wanted}"
    newest = between(repository.text("CHANGELOG.md"), "\n## ", ",")[:1]
    yield newest == [version], f"CHANGELOG.md: the newest version is {newest}, and not {version}"


def of_the_toolchain(repository, kit):
    """The logic of the toolchain is that of README.md in each document that names it, and in the kit here."""
    line = next(iter(between(repository.text("README.md"), "\nlogic ", "\n")), "")
    yield line != "", "README.md: it does not name the logic of the toolchain"
    for name in repository.documents:
        for logic in between(repository.text(name), "logic `", "`"):
            yield logic == line, f"{name}: the logic of the toolchain is {logic}, and README.md has {line}"
    if kit is not None:
        version = kit.communicate()[0].strip()
        yield version.endswith(f"logic {line}"), f"README.md: `rt version` is {version}, and not logic {line}"


def of_figures(repository):
    """The tables of bench/README.md have the stored figures, and the pictures are those that bench/plot draws."""
    tables = tables_of(repository.text("bench/README.md"), LABELS)
    files = {Path(name).stem for name in repository.files if name.startswith("bench/taken/")}
    is_complete = set(tables) == files == set(LABELS)
    yield is_complete, "bench/README.md: its named tables are not those of bench/named.py and bench/taken"
    for name in sorted(files & set(tables)):
        numbers, figures = tables[name].numbers(), {key: figure.value for key, figure in stored(name).items()}
        for key in sorted(numbers.keys() | figures.keys()):
            number, figure = numbers.get(key), figures.get(key)
            yield number == figure, (f"bench/README.md: {', '.join(key)}: the figure is {number}, "
                                     f"and bench/taken/{name}.tsv has {figure}")
    for name, drawn in PICTURES.items():
        yield repository.text(name) == drawn(), f"{name}: it is not the picture that bench/plot draws"


def all_claims(repository):
    """Each claim. The kit's version is queried while the others are compared."""
    kit = subprocess.Popen(["rt", "version"], stdout=subprocess.PIPE, text=True) if shutil.which("rt") else None
    for claims in [of_paths, of_links, of_quotations, of_generated_parts, of_versions, of_figures]:
        yield from claims(repository)
    yield from of_the_toolchain(repository, kit)


def main():
    """Writes the generated parts if the arguments say so, and compares."""
    if "--write" in sys.argv[1:]:
        write(Repository(TOP))
    passed, failed = 0, 0
    for holds, message in all_claims(Repository(TOP)):
        passed, failed = passed + holds, failed + (not holds)
        if not holds:
            print(f"claims: {message}", flush=True)
    print(f"{passed} passed, {failed} failed")
    return 1 if failed else 0


if __name__ == "__main__":
    sys.exit(main())
