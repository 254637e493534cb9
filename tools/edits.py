#!/usr/bin/env python3
"""Tries the wrong bodies, and compares the list of those that were refused with the crates.

    python3 tools/edits.py NAME ..            tries those of the crates crates/NAME
    python3 tools/edits.py NAME:BODY ..       tries one, by its name
    python3 tools/edits.py --store NAME ..    tries those of the crates, and writes what came of it into
                                              tools/wrong_bodies/tried.txt
    python3 tools/edits.py --check            asks whether that list has each wrong body as refused, over the files as
                                              they are now, and whether each change of tools/mutants applies to these: a
                                              part of the gate, which takes two seconds

A wrong body is some lines below its name, `# NAME`: pairs of `old:` and `new:`, each in the `file:` above. They stand
in `crates/NAME/must-fail/wrong_bodies.edit`, which `rt ci` tries as a whole too, or in `tools/wrong_bodies/NAME.edit`.

The prover proves a function from the contracts of what it calls. So several wrong bodies share a check of a copy of
the crate, no two in one function or in one cycle of calls. Each has to be refused by a goal of its own function: what
is not proved only because it calls another function does not count. One that changes no function's body, but a
constant, has a check to itself, and some function has to be refused. What is unchanged is taken from the crate's last
check, so wanted are the crates below as a check has left them (`out`). The last line is 'N passed, M failed'.

The list has a sum of what the answers stand on: the crate, its wrong bodies, and what the prover reads of the crates
below it, which is their definitions, types, clauses and exported lemmas. Neither what is only a comment counts, nor the
body of a function or of a lemma below.
"""
import functools
import hashlib
import os
import re
import shutil
import subprocess
import sys
import tempfile
from collections import namedtuple
from pathlib import Path

from mutants import stored as changes

TOP = Path(__file__).resolve().parent.parent
FURTHER = TOP / "tools/wrong_bodies"
TRIED = FURTHER / "tried.txt"
HEADING, FILE, OLD, NEW = "# ", "file: ", "old: ", "new:"
FUNCTION = re.compile(r"\s*(?:pub(?:\([a-z]+\))? )?(?:final )?(?:const )?(?:unsafe )?(?:extern \"C\" )?fn (\w+)")
CYCLE = re.compile(r"#\[cycle\((\w+)\)\]")
OWNER = re.compile(r"(?:impl(?:<.*?>)? (?:.* for )?&?(?:\w+::)*|(?:pub(?:\(\w+\))? )?trait )(\w+)")
LONG_OWNER = re.compile(r"(\w+)<$")  # of an `impl` whose parameters have lines of their own
COMMENT = re.compile(r"\s*(//|--|$)")
# In a file of lemmas: what is declared, where its meaning is open to all, and a line that says how it is proved.
DECLARED = re.compile(r"(abbrev |record |data |mutual|module |simp )?\s*(?:pub )?(\S+) :")
CLAUSE = re.compile(r"(?!use |pub |abbrev |record |data |mutual|module |simp |infix)\S.* =( |$)|\S+ =( |$)")
UNFOLDING = re.compile(r"\s*unfolding (.+)")
# What a check says: where a goal of a function is left open, which file of proofs is refused, and how it ended.
OPEN_GOAL = re.compile(r"^(?:note: )?(src/[\w/]+\.rt):(\d+):\d+: ", re.MULTILINE)
REFUSED_PROOF = re.compile(r"^(?:note: )?(?:\./)?proofs/([\w+/]+)/\w+\.antt:\d+:\d+: (?:error|note)", re.MULTILINE)
NOT_PROVED = re.compile(r"^fn (\S+): (?:not proved|no proof|could not tell)", re.MULTILINE)
ENDED = re.compile(r"^(only=\d+ proved=\d+|logic=(not-)?proved)", re.MULTILINE)

# A wrong body: its name, and its (file, old, new).
WrongBody = namedtuple("WrongBody", "name pairs")
# A function of a crate: its file, its name, the type or trait of which it is a method and the cycle of calls that it is
# in, each or "", and its lines, the last excluded.
Function = namedtuple("Function", "file name type cycle first last")


def wrong_bodies(name):
    """The wrong bodies of a crate, in order: first those of its must-fail edit."""
    found, file, old = [], "", ""
    edits = sorted((TOP / "crates" / name).glob("must-fail/*.edit"))
    for edit in [*edits, *filter(Path.exists, [FURTHER / f"{name}.edit"])]:
        for line in edit.read_text(encoding="utf-8").splitlines():
            if line.startswith(HEADING):
                found.append(WrongBody(line.removeprefix(HEADING), []))
            elif line.startswith(FILE):
                file = line.removeprefix(FILE)
            elif line.startswith(OLD):
                old = line.removeprefix(OLD)
            elif line.startswith(NEW):
                found[-1].pairs.append((file, old, line.removeprefix(NEW).removeprefix(" ")))
    return found


def module_of(file):
    """The path of the module that a source is, below its crate."""
    return file.removeprefix("src/").removesuffix(".rt").removesuffix("/mod").replace("/", "::")


def head_above(lines, at):
    """The first line of the attributes and comments above a function."""
    while at > 0 and lines[at - 1].strip() and not lines[at - 1].endswith(("{", "}", ";", ",")):
        at -= 1
    return at


def functions_of(folder, file):
    """The functions of a source, in order. One goes on to the next, or to a brace at the beginning of a line."""
    lines = (folder / file).read_text(encoding="utf-8").split("\n")
    heads = [(head_above(lines, at), at) for at, line in enumerate(lines) if FUNCTION.match(line)]
    found = []
    for (first, at), (end, _) in zip(heads, [*heads[1:], (len(lines), 0)]):
        cycle = CYCLE.search("\n".join(lines[first:at]))
        block = next((line for line in reversed(lines[:at]) if line[:1].strip() not in ("", "/", "#", ">")), "")
        of_type = (LONG_OWNER.search(block) or OWNER.match(block)) if lines[at].startswith(" ") else None
        closed = next((line + 1 for line in range(at, end) if lines[line].startswith("}")), end)
        found.append(Function(file, FUNCTION.match(lines[at])[1], of_type[1] if of_type else "",
                              cycle[1] if cycle else "", first, closed))
    return found


def functions_changed(folder, body):
    """The functions that a wrong body changes, or `None` where it changes something else too."""
    found = []
    for file, old, _ in body.pairs:
        line = (folder / file).read_text(encoding="utf-8").split(old)[0].count("\n")
        inside = [it for it in functions_of(folder, file) if it.first <= line < it.last]
        if not inside:
            return None
        found += inside
    return found


def place(function):
    """What two wrong bodies of one check may not share. The functions of a cycle may be in several files."""
    return ("", function.cycle) if function.cycle else (function.file, function.name)


def in_checks(folder, bodies):
    """The wrong bodies in groups, each for one check, with the functions that each changes."""
    checks = []
    for body in bodies:
        changed = functions_changed(folder, body)
        taken = changed and {place(it) for it in changed}
        at = next((at for at in checks if taken and at[0] is not None and not at[0] & taken), None)
        if at is None:
            checks.append([taken, [(body, changed)]])
        else:
            at[0] |= taken
            at[1].append((body, changed))
    return [group for _, group in checks]


def said_of(folder, bodies):
    """What a check says of the modules in which the wrong bodies stand, or of the whole crate where one has no
    function; the sources are put back."""
    kept = {file: (folder / file).read_text(encoding="utf-8") for body in bodies for file, _, _ in body.pairs}
    texts = dict(kept)
    for file, old, new in (pair for body in bodies for pair in body.pairs):
        texts[file] = texts[file].replace(old, new)
    for file, text in texts.items():
        (folder / file).write_text(text, encoding="utf-8")
    is_whole = not all(functions_of(folder, file) for file in texts)
    asked = [] if is_whole else [word for file in texts for word in ("--only", module_of(file))]
    said = subprocess.run(["rt", "check", "--jobs", "1", *asked], cwd=folder, stdin=subprocess.DEVNULL,
                          stdout=subprocess.PIPE, text=True, errors="replace", check=False)
    for file, text in kept.items():
        (folder / file).write_text(text, encoding="utf-8")
    return said.stdout


def is_proof_of(owner, name, function):
    """Whether a folder of proofs is that of the function: for a method it stands in one whose name begins with that of
    the type or trait, and for other functions in that of their module."""
    is_owner = owner.startswith(function.type) if function.type else owner == module_of(function.file).split("::")[-1]
    return is_owner and name in (function.name, f"+{function.cycle}")


def is_refused_by(said, function):
    """Whether a goal of the function itself is left open, or what its proof says of it is refused."""
    goals = [(file, int(line) - 1) for file, line in OPEN_GOAL.findall(said)]
    if any(file == function.file and function.first <= line < function.last for file, line in goals):
        return True
    proofs = [tuple(path.split("/")) for path in REFUSED_PROOF.findall(said)]
    return any(is_proof_of(*path[-2:], function) for path in proofs if len(path) > 1)


def refused_in(folder, group):
    """Tries wrong bodies in one check, or each in its own where they were not read together. Answers those refused."""
    said = said_of(folder, [body for body, _ in group])
    if ENDED.search(said) is None:
        if len(group) > 1:
            return [name for one in group for name in refused_in(folder, [one])]
        print(said, flush=True)
        return []
    # A constant is no function's: what is refused is whatever is proved with it.
    return [body.name for body, changed in group
            if (any(is_refused_by(said, it) for it in changed) if changed else NOT_PROVED.search(said))]


def tried(folder, bodies):
    """Tries the wrong bodies, tells of each what came of it, and answers the names of those that are refused."""
    refused = []
    for group in in_checks(folder, bodies):
        names = refused_in(folder, group)
        for body, _ in group:
            print(f"{folder.name}:{body.name}: {'refused' if body.name in names else 'NOT REFUSED'}", flush=True)
        refused += names
    return refused


def crates_below():
    """Of each crate of this repository those below it, itself included."""
    lines = [line.partition(":") for line in (TOP / "crates.txt").read_text(encoding="utf-8").splitlines()]
    uses = {head.split()[0]: tail.split() for head, _, tail in lines if head and not head.startswith("#")}

    def below(name):
        return {name}.union(*(below(it) for it in uses[name] if it in uses))
    return {name: sorted(below(name)) for name in uses}


def files_of(crate, part):
    """The files of a part of a crate, in order."""
    return sorted(it for it in (TOP / "crates" / crate / part).rglob("*") if it.suffix in (".rt", ".antt"))


@functools.cache
def told_by(path):
    """The lines of a file that are not only a comment."""
    return [line for line in path.read_text(encoding="utf-8").splitlines() if not COMMENT.match(line)]


def indent(line):
    """How many blanks stand before a line."""
    return len(line) - len(line.lstrip())


@functools.cache
def without_bodies(path):
    """The lines of a source but those in the bodies of functions. A constant function keeps its own."""
    kept, margin, is_body = [], None, False
    for line in told_by(path):
        if is_body and indent(line) == margin and line.strip().startswith("}"):
            margin, is_body = None, False
        if is_body:
            continue
        kept.append(line)
        if FUNCTION.match(line) and " const fn " not in f" {line}":
            margin = indent(line)
        if margin is not None and indent(line) == margin and line.endswith(("{", ";", "}")):
            margin, is_body = (margin, True) if line.endswith("{") else (None, False)
    return kept


@functools.cache
def names_unfolded():
    """The names that a proof unfolds, of any crate."""
    found = (UNFOLDING.match(line) for path in TOP.glob("crates/*/proofs/**/*.antt") for line in told_by(path))
    return {name for it in found if it for name in it[1].split()}


@functools.cache
def statements(path):
    """The lines of a file of lemmas but the proofs of those that no proof can unfold."""
    kept, is_kept, open_names = [], True, set(names_unfolded())
    for line in told_by(path):
        declared = DECLARED.match(line)
        if declared and declared[1]:
            open_names.add(declared[2])
        if line[:1].strip():
            word = line.split()[0]
            is_kept = declared or not CLAUSE.match(line) or word in open_names
        if is_kept:
            kept.append(line)
    return kept


def read_of(crate, is_tried):
    """What a try stands on of a crate: all of one that is tried, and what can be seen of one below."""
    readers = {"specs": told_by, "src": told_by if is_tried else without_bodies,
               "proofs": told_by if is_tried else statements}
    for part, reader in readers.items():
        for path in files_of(crate, part):
            # A file in a folder of a function has the proof of that function's clauses alone.
            if is_tried or part != "proofs" or path.parent.name == "proofs":
                yield str(path.relative_to(TOP)), reader(path)


def sum_of(crate, below, bodies):
    """A sum of what a try of these wrong bodies of a crate stands on."""
    made = hashlib.sha256(repr(bodies).encode())
    for name in below:
        for read in read_of(name, name == crate):
            made.update(repr(read).encode())
    return made.hexdigest()[:16]


def stored():
    """What the list says: of each crate its sum, and the wrong bodies that were refused."""
    found, refused = {}, []
    for line in TRIED.read_text(encoding="utf-8").splitlines() if TRIED.exists() else []:
        if line.startswith(" "):
            refused.append(line.strip())
        elif not line.startswith("#"):
            name, made = line.split()
            refused = []
            found[name] = (made, refused)
    return found


def store(answers):
    """Writes the list anew, with these answers in place of those of the same crates."""
    below = crates_below()
    found = stored()
    found.update({name: (sum_of(name, below[name], wrong_bodies(name)), refused) for name, refused in answers.items()})
    lines = ["# The wrong bodies that the prover refused, below their crate and a sum of what the answers stand on.",
             "# `python3 tools/edits.py --store NAME ..` tries those of a crate, and writes them."]
    for name, (made, refused) in sorted(found.items()):
        lines += [f"{name} {made}", *(f"  {body}" for body in sorted(refused))]
    TRIED.write_text("\n".join(lines) + "\n", encoding="utf-8")


def check():
    """Asks the list of each wrong body, and answers how many it has as refused, and how many not."""
    passed = failed = 0
    found = stored()
    for name, below in crates_below().items():
        bodies = wrong_bodies(name)
        made, refused = found.get(name, ("", []))
        is_of_now = made == sum_of(name, below, bodies)
        wrong = [body.name for body in bodies if not is_of_now or body.name not in refused]
        if wrong:
            why = "not refused" if is_of_now else "not tried over the files as they are"
            print(f"edits: {name}: {why}: {', '.join(wrong)}", flush=True)
        passed += len(bodies) - len(wrong)
        failed += len(wrong)
    return passed, failed


def check_changes():
    """How many of the changes of tools/mutants apply to the files as they are, and how many do not."""
    passed = failed = 0
    for mutant in (mutant for crate in changes.crates() for mutant in changes.read(crate)):
        try:
            mutant.files(TOP / "crates")
            passed += 1
        except (changes.Broken, OSError) as why:
            print(f"edits: the change {mutant.name} does not apply: {why}", flush=True)
            failed += 1
    return passed, failed


def copy(room, crates):
    """Copies what is checked in of crates and those below them, and what checks have left: libraries, as links where
    the disk allows, and of the crates themselves what a check goes on from."""
    below = crates_below()
    names = sorted({it for crate in crates for it in below.get(crate, [])})
    wanted = ["HANDLES", "crates.txt", *(f"crates/{name}" for name in names)]
    listed = subprocess.run(["git", "ls-files", "-z", *wanted], cwd=TOP, stdout=subprocess.PIPE, text=True, check=True)
    for name in filter(None, listed.stdout.split("\0")):
        if (TOP / name).is_file():
            (room / name).parent.mkdir(parents=True, exist_ok=True)
            shutil.copy2(TOP / name, room / name)
    kept = [*((name, "rlib") for name in names), *((name, "incremental") for name in crates)]
    for name, part in kept:
        built = TOP / "crates" / name / "out" / part
        if built.is_dir():
            shutil.copytree(built, room / built.relative_to(TOP), copy_function=link_or_copy)
    lines = (TOP / "crates.txt").read_text(encoding="utf-8").splitlines(keepends=True)
    (room / "crates.txt").write_text("".join(it for it in lines if it.partition(":")[0].split()[:1] in [[n] for n in names]),
                                     encoding="utf-8")


def link_or_copy(source, target):
    """A further name of a library's file, and a copy of any other file or where the disk takes no link."""
    try:
        if "rlib" not in Path(source).parts:
            raise OSError
        os.link(source, target)
    except OSError:
        shutil.copy2(source, target)


def try_named(words):
    """Tries the wrong bodies that the words name; answers how many there are, and by crate which are refused."""
    asked, refused = 0, {}
    with tempfile.TemporaryDirectory() as folder:
        copy(Path(folder), dict.fromkeys(word.partition(":")[0] for word in words))
        for word in words:
            name, _, wanted = word.partition(":")
            bodies = [body for body in wrong_bodies(name) if wanted in ("", body.name)]
            if not bodies:
                print(f"{word}: there is no such wrong body", flush=True)
            asked += max(1, len(bodies))
            refused.setdefault(name, []).extend(tried(Path(folder) / "crates" / name, bodies))
    return asked, refused


def main():
    """Tries the wrong bodies that the arguments name, or asks the list."""
    words = [word for word in sys.argv[1:] if not word.startswith("--")]
    if "--check" in sys.argv[1:]:
        passed, failed = map(sum, zip(check(), check_changes()))
    elif words:
        asked, refused = try_named(words)
        if "--store" in sys.argv[1:]:
            store(refused)
        passed = sum(map(len, refused.values()))
        failed = asked - passed
    else:
        print(__doc__)
        return 2
    print(f"{passed} passed, {failed} failed")
    return 1 if failed else 0


if __name__ == "__main__":
    sys.exit(main())
