"""A copy of the repository's sources in which every change stands behind a switch.

Rattle has no global state, so a small crate of the copy asks a function in C whether a change is chosen. A function
that a change touches asks first, and calls its changed double where it is. A changed constant has a double too, and so
has each function of its crate that names it.
"""
import re
import shutil
from collections import defaultdict
from functools import lru_cache
from pathlib import Path

from mutants.source import Source, arguments_of, bare, names_of
from mutants.stored import Broken

TOP = Path(__file__).resolve().parents[2]
SWITCH = "strkw_switch"
ASKS = f"""//! Which change of code is chosen.
unsafe extern "C" {{
    /// Whether it is this one.
    pub safe fn {SWITCH}_is(change: u32) -> bool;
}}

/// Whether it is this one.
#[inline(always)]
pub fn is_chosen(change: u32) -> bool {{
    {SWITCH}_is(change)
}}
"""
ANSWERS = Path(__file__).resolve().parent / "switch.c"


@lru_cache(maxsize=None)
def source_of(text):
    """A text as a source."""
    return Source(text)


@lru_cache(maxsize=None)
def text_of(file):
    """The text of a file."""
    return file.read_text(encoding="utf-8")


def renamed(text, names):
    """A text with other names for some words of its code, in the place of their paths too."""
    strings = [it for it in source_of(text).tokens if it.kind == "string"]
    parts, at = [], 0
    for start, end in [*((it.start, it.end) for it in strings), (len(text), len(text))]:
        part = text[at:start]
        for name, other in names.items():
            path = "" if "::" in name else r"(?:\w+::)*"
            part = re.sub(rf"(?<![.\w]){path}\b{name}\b(?!\s*:[^:])", other, part)
        parts += [part, text[start:end]]
        at = end
    return "".join(parts)


def crate_of(file):
    """The folder of a file's crate."""
    return next(folder.parent for folder in file.parents if folder.name == "src")


def is_other(file, other):
    """Whether two files are of two crates."""
    return crate_of(file) != crate_of(other)


def module_of(file):
    """The path of a file's module, from the name of its crate."""
    crate = crate_of(file)
    parts = file.relative_to(crate / "src").with_suffix("").parts
    return "::".join([crate.name, *(part for part in parts if part not in ("lib", "main"))])


class Change:
    """What a change does to the items of its crate: new texts of functions and constants, and imports."""

    def __init__(self, mutant, switch, crates):
        self.switch, self.crate = switch, crates / mutant.crate
        self.functions, self.constants, self.imports = defaultdict(dict), {}, defaultdict(set)
        self.names = {}
        for file, (before, after) in mutant.files(crates).items():
            self.compare(file, source_of(before), source_of(after))
        if not self.functions and not self.constants:
            raise Broken("changes no function and no constant")
        if self.constants:
            self.spread()

    def double(self, name):
        """The name of a changed item."""
        return f"{name}_{self.switch}"

    def compare(self, file, before, after):
        """Takes what a file has otherwise after the change."""
        old, new = before.items(), after.items()
        if before.between() != after.between() or old.keys() - new.keys():
            raise Broken(f"changes more of {file.name} than functions and constants")
        self.imports[file] = after.imports() - before.imports()
        changed = {key: item for key, item in new.items()
                   if key not in old or bare(before.of(old[key])) != bare(after.of(item))}
        for key, item in changed.items():
            if key.startswith("const "):
                self.take_constant(file, item, after.of(item))
            else:
                self.functions[file][key] = (item, after.of(item), key in old)
                if key not in old:
                    self.names[item.name] = self.double(item.name)

    def take_constant(self, file, item, text):
        """Takes a changed constant, and by which names it goes: behind its type, or by its module."""
        self.constants[file, item.key] = (item, text)
        if item.around:
            for owner in (item.owner, "Self"):
                self.names[f"{owner}::{item.name}"] = f"{owner}::{self.double(item.name)}"
        else:
            self.names[item.name] = f"{module_of(file)}::{self.double(item.name)}"

    def names_in(self, file):
        """By which names the changed items go in a file."""
        own = f"{crate_of(file).name}::"
        return {name: re.sub(f"^{own}", "crate::", other) for name, other in self.names.items()}

    def named_in(self, file, source):
        """An expression for the changed constants that a file can name: its own, those that it imports, and those of
        types."""
        names = set()
        for (home, _), (item, _) in self.constants.items():
            if item.name not in source.text:
                continue
            if item.around:
                names |= {f"{item.owner}::{item.name}"} | ({f"Self::{item.name}"} if home == file else set())
            elif home == file or source.reaches(item.name, crate_of(home).name if is_other(home, file) else ""):
                names.add(item.name)
        return re.compile(rf"\b({'|'.join(names)})\b" if names else "(?!)")

    def spread(self):
        """Takes the constants and functions that name a changed constant."""
        is_public = any(item.around or text.startswith("pub ") for item, text in self.constants.values())
        files = (self.crate.parent if is_public else self.crate).glob("**/src/**/*.rt")
        sources = {file: source_of(text_of(file)) for file in files}
        found = [None]
        while found:
            found = [(file, item, source.of(item)) for file, source in sources.items() for item in source.constants
                     if (file, item.key) not in self.constants
                     and self.named_in(file, source).search(source.of(item))]
            for file, item, text in found:
                self.take_constant(file, item, text)
        for file, source in sources.items():
            named = self.named_in(file, source)
            if named.search(source.between()):
                raise Broken(f"{file.name} names a changed constant outside functions")
            for item in source.functions:
                if named.search(source.text[item.body:item.end]) and item.key not in self.functions[file]:
                    self.functions[file][item.key] = (item, source.of(item), True)


class Doubles:
    """What is put into a file: texts by the places at which they go in, and where each change then stands."""

    def __init__(self, file):
        self.file, self.source = file, source_of(text_of(file))
        self.put, self.imports = defaultdict(list), set()

    def add_constant(self, key, item, text, change):
        """Puts the double of a constant behind it."""
        own = self.source.items().get(key)
        if own is None:
            raise Broken(f"adds the constant {item.name}")
        others = {name: other for name, other in change.names_in(self.file).items()
                  if name.split("::")[-1] != item.name}
        text = re.sub(rf"\b{item.name}\b", change.double(item.name), renamed(text, others), count=1)
        self.put[own.end].append((change.switch, f"\n\n{text}"))

    def add_function(self, key, item, text, change, is_changed):
        """Puts the double of a function behind it, and the switch into it."""
        own = self.source.items()[key] if is_changed else None
        head = re.sub(rf"\bfn {item.name}\b", f"fn {change.double(item.name)}", text, count=1)
        text = renamed(re.sub(r"^pub(\(.*?\))? ", "", head), change.names_in(self.file))
        is_of_trait = re.match(r"impl\b.*? for ", item.around, re.S)
        place = own.end if own else len(self.source.text)
        if item.around.startswith("trait"):
            raise Broken(f"changes {item.name}, which a trait has")
        if item.around and (is_of_trait or not own):
            place = own.around_end if own else max(it.around_end for it in self.source.functions
                                                   if it.around == item.around)
            around = re.sub(r"^(impl(?:\s*<.*?>(?=\s))?)\s.*? for ", r"\1 ", item.around, flags=re.S)
            text = f"{around} {{\n{text}\n}}"
        self.put[place].append((change.switch, f"\n\n{text}\n"))
        if own:
            self.put[own.body].append((change.switch, self.switch_to(own, change)))

    def switch_to(self, item, change):
        """What a function asks first."""
        names = names_of(item.parameters)
        if names is None:
            raise Broken(f"changes {item.name}, whose parameters have no plain names")
        if not self.put[item.body]:
            for name, place in names:
                if place:
                    self.put[item.parameters_at + place].append((0, name.removeprefix("_")))
        names = [name for name, _ in names]
        double, has_self = change.double(item.name), names[:1] == ["self"]
        path = f"self.{double}" if has_self else f"Self::{double}" if item.around else double
        call = f"{path}{arguments_of(item.generics)}({', '.join(names[has_self:])})"
        return f"\n    if {SWITCH}::is_chosen({change.switch}) {{\n        return {call};\n    }}"

    def text(self):
        """The file's text with all that was put in, and the changes by the lines on which they stand."""
        first = min([start for start, _ in self.source.uses], default=None)
        if self.imports and first is None:
            raise Broken("imports where nothing is imported")
        for path in sorted(self.imports):
            self.put[first].append((0, f"use {path};\n"))
        parts, at, line, lines = [], 0, 1, {}
        for place in sorted(self.put):
            for switch, text in [(0, self.source.text[at:place]), *self.put[place]]:
                parts.append(text)
                for number in range(line, line + text.count("\n") + 1) if switch else ():
                    lines[number] = switch
                line += text.count("\n")
            at = place
        return "".join([*parts, self.source.text[at:]]), lines


def copy_sources(folder):
    """Copies the crates to a folder, with a crate for the switch below them all."""
    lines = [line.split("#")[0].strip() for line in (TOP / "crates.txt").read_text().splitlines()]
    names = [line.split(":")[0].split()[0] for line in lines if line]
    (folder / "crates.txt").write_text(f"{SWITCH}:\n" + "".join(f"{line} {SWITCH}\n" for line in lines if line))
    for name in names:
        shutil.copytree(TOP / "crates" / name / "src", folder / "crates" / name / "src")
    (folder / "crates" / SWITCH / "src").mkdir(parents=True)
    (folder / "crates" / SWITCH / "src" / "lib.rt").write_text(ASKS)


def put_behind_switches(folder, mutants):
    """Writes sources with all changes that can stand side by side. Answers the changes by file and line, and why
    others are left out, by their names."""
    copy_sources(folder)
    doubles, refused = {}, {}
    for switch, mutant in enumerate(mutants, 1):
        try:
            change = Change(mutant, switch, TOP / "crates")
            add(change, doubles)
        except (Broken, OSError) as why:
            refused[mutant.name] = str(why)
    places = {}
    for file, double in doubles.items():
        text, lines = double.text()
        copied = folder / file.relative_to(TOP)
        copied.write_text(text, encoding="utf-8")
        places |= {(str(copied), line): mutants[switch - 1] for line, switch in lines.items()}
    return places, refused


def refusals(said, places):
    """The names of the changes that a compiler refuses, each with what it says."""
    for file, line, why in re.findall(r"^(\S+?):(\d+):\d+: error(.*)$", said, re.M):
        if (file, int(line)) in places:
            yield places[file, int(line)].name, why


def add(change, doubles):
    """Adds a change to the doubles of its files."""
    def of(file):
        return doubles.setdefault(file, Doubles(file))

    for (file, key), (item, text) in change.constants.items():
        of(file).add_constant(key, item, text, change)
    for file, functions in change.functions.items():
        for key, (item, text, is_changed) in functions.items():
            of(file).add_function(key, item, text, change, is_changed)
    for file, paths in change.imports.items():
        if paths:
            of(file).imports |= paths
