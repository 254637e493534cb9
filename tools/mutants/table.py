"""Which sections of rows, or which tests, notice which changes: runs of the programs with one change chosen."""
import functools
import os
import resource
import subprocess
import tempfile
from concurrent.futures import ThreadPoolExecutor
from dataclasses import dataclass, field
from pathlib import Path

from mutants.switch import ANSWERS
from rows import kept, programs
import unproved

PROGRAMS = ("strkw_test_grammars", "strkw_test_rows")
# The tests of crates that no program of rows is built over.
TESTS = ("neldrafi_position", "neldrafi_test_schemas")
SIDE_BY_SIDE = 2
# A changed program may run for ever, or take all memory.
LEAST_SECONDS, TIMES_AS_LONG = 2, 10
MOST_BYTES, MOST_TOLD = 4 << 30, 64 << 20


@dataclass
class Asked:
    """A section as it is fed to a program, or a test, which is fed nothing: the seconds that this takes unchanged, and
    the changes that it reaches."""
    program: str
    name: str
    text: bytes = b""
    seconds: float = 0.0
    reached: set = field(default_factory=set)

    @property
    def title(self):
        """The section's name behind that of its program."""
        return f"{self.program}: {self.name}"

    @property
    def arguments(self):
        """Those of the program."""
        return [self.name] if self.program in TESTS else []

    @property
    def given(self):
        """What the program reads."""
        return b"" if self.program in TESTS else self.text + wrong_row(self.program)[0]

    def is_answered(self, status, told):
        """Whether a program that ended so answered as expected."""
        return status == 0 and (self.program in TESTS or told == wrong_row(self.program)[1])


def by_hand(program):
    """The sections of the rows by hand of a program: those below one comment, but the row that is wrong on purpose."""
    sections, heading = [], ""
    for line in programs.stored(program, "stdin").decode().removesuffix("\n").split("\n"):
        if line.startswith("# strkw_"):
            heading = f"{line[2:]}: "
        if line.startswith("#") or not sections:
            sections.append((f"by hand: {heading}{line[2:]}", []))
        sections[-1][1].append(line)
    return [Asked(program, name, in_lines(lines)) for name, lines in sections[:-1]
            if any(line and not line.startswith("#") for line in lines)]


def in_lines(lines):
    """Lines as the bytes of a text."""
    return "".join(f"{line}\n" for line in lines).encode()


def tests_of(program, build):
    """The tests of a program."""
    told = subprocess.run([build, "--list"], stdin=subprocess.DEVNULL, stdout=subprocess.PIPE, text=True, check=True)
    return [Asked(program, line.removesuffix(": test")) for line in told.stdout.splitlines() if line.endswith(": test")]


def sections(paths):
    """All sections and tests of programs, those by hand first, and those by rule last."""
    hand = [section for program in PROGRAMS if program in paths for section in by_hand(program)]
    tests = [test for program in TESTS if program in paths for test in tests_of(program, paths[program])]
    made = [Asked(it.program, it.name, it.text.encode()) for it in kept.kept() if it.program in paths] if hand else []
    return hand + tests + made


def programs_about(crates):
    """The programs of rows that are built over any of the crates, and the tests if one of these is in none."""
    uses = unproved.uses_of(unproved.TOP / "crates")
    below = {program: {*unproved.below(program, uses), program} for program in PROGRAMS + TESTS}
    others = {*crates} - set().union(*(below[program] for program in PROGRAMS))
    asked = [program for program in PROGRAMS if below[program] & {*crates}]
    return asked + [program for program in TESTS if below[program] & others]


def switch_object(folder):
    """What answers which change is chosen, compiled."""
    made, clang = folder / "switch.o", unproved.kit() / "toolchain/bin/clang"
    subprocess.run([clang, *unproved.COMPILED, "-O1", ANSWERS, "-o", made], check=True)
    return made


def builds(folder, programs):
    """These programs of a copy of the sources. What is refused of any of them is told in one."""
    made = switch_object(folder)
    with ThreadPoolExecutor(SIDE_BY_SIDE) as pool:
        tries = {name: pool.submit(unproved.build, name, folder / "crates", [made]) for name in programs}
    why = [str(it.exception()) for it in tries.values() if isinstance(it.exception(), unproved.Refused)]
    if why:
        raise unproved.Refused("\n".join(why))
    return {name: it.result() for name, it in tries.items()}


@functools.cache
def wrong_row(program):
    """The row of a program that is wrong on purpose, and what the program writes of it."""
    return programs.wrong_row(program).encode(), programs.stored(program, "stdout")


def limits(seconds):
    """What keeps a run from taking all that there is."""
    def keep():
        resource.setrlimit(resource.RLIMIT_CPU, (int(seconds), int(seconds)))
        resource.setrlimit(resource.RLIMIT_AS, (MOST_BYTES, MOST_BYTES))
        resource.setrlimit(resource.RLIMIT_FSIZE, (MOST_TOLD, MOST_TOLD))
        resource.setrlimit(resource.RLIMIT_CORE, (0, 0))
    return keep


def run(build, section, change, seconds, **environment):
    """Whether a program with a change answers a section as it expects, and how many seconds of a processor it takes."""
    with tempfile.TemporaryFile() as given, tempfile.TemporaryFile() as told:
        given.write(section.given)
        given.seek(0)
        process = subprocess.Popen([build, *section.arguments], stdin=given, stdout=told, stderr=subprocess.DEVNULL,
                                   env={"CHANGE": str(change), **environment}, preexec_fn=limits(seconds))
        _, status, used = os.wait4(process.pid, 0)
        process.returncode = os.waitstatus_to_exitcode(status)
        told.seek(0)
        return section.is_answered(status, told.read()), used.ru_utime + used.ru_stime


def measure(build, section):
    """Runs a section with no change. Answers the section with what it reaches, or nothing where an answer is wrong."""
    with tempfile.NamedTemporaryFile() as told:
        is_right, section.seconds = run(build, section, 0, 3600, REACHED=told.name)
        if not is_right:
            print(f"mutants: {section.title}: answered otherwise than expected with no change", flush=True)
            return None
        section.reached = {number for number, is_reached in enumerate(Path(told.name).read_bytes()) if is_reached}
    return section


def measured(paths):
    """All sections and tests that are answered rightly, the quick ones first."""
    with ThreadPoolExecutor(SIDE_BY_SIDE) as pool:
        found = list(pool.map(lambda section: measure(paths[section.program], section), sections(paths)))
    return sorted((section for section in found if section), key=lambda section: section.seconds)


def noticing(paths, asked, change, most):
    """The sections that notice a change, until there are so many; and whether all that reach it were asked."""
    found = []
    for section in asked:
        if change in section.reached:
            seconds = LEAST_SECONDS + TIMES_AS_LONG * section.seconds
            if not run(paths[section.program], section, change, seconds)[0]:
                found.append(section.title)
                if len(found) == most:
                    return found, False
    return found, True


def judged(paths, mutants, most):
    """Each change with the sections that notice it, and whether all were asked."""
    asked = measured(paths)
    with ThreadPoolExecutor(SIDE_BY_SIDE) as pool:
        def judge(numbered):
            return noticing(paths, asked, numbered[0], most)
        yield from zip(mutants, pool.map(judge, enumerate(mutants, 1)))
