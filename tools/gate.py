#!/usr/bin/env python3
"""Runs all checks of the repository, one step after the other, and stops at the first that fails.

    python3 tools/gate.py                 all steps
    python3 tools/gate.py --from STEP     those from a step on, over what an earlier run of the others left

Steps that need no build come first. The last lines are a table, with a line for each kind of evidence, and the sum of
its columns, `N passed, M failed`. `rt ci` counts proved crates and refused must-fail edits, and a stored run or the
tests of a crate only where they fail. By its lines those that pass are counted too, among the answers of programs.
"""
import os
import re
import subprocess
import sys
import time
from dataclasses import dataclass
from pathlib import Path

TOP = Path(__file__).resolve().parent.parent
# Written when the proofs begin: the library for C is built over what is newer.
BEGUN = TOP / "out" / "proofs-begun"
COUNTS = re.compile(r"(\d+) passed, (\d+) failed")
MEMORY_FOR_A_CHECK = 5 << 20  # kilobytes; the largest, that of neldrafi, takes so much
KINDS = ("proofs, and edits that they refuse", "answers of programs and libraries", "calls with refused growth",
         "consistency of texts")
PROOFS, ANSWERS, CALLS, TEXTS = KINDS
# What `rt ci` says of a stored run or of the tests of a crate that passed, and which of what failed is one.
RAN = re.compile(r"rt: \w+(: its tests passed| ran\b.*, and wrote what its file stdout has)")
FAILED, A_RUN = "rt: FAILED: ", re.compile(r" \((tests|run)\)")


@dataclass(frozen=True)
class Step:
    """A step: its name, what it is evidence of, and the command, whose last line has its counts."""
    name: str
    kind: str
    words: tuple

    @property
    def script(self):
        """The script of Python that it is, with its arguments, or nothing."""
        return " ".join(self.words[1:]) if self.words[0] == sys.executable else ""


def script(name, kind, *words):
    """A step that is a script of Python."""
    return Step(name, kind, (sys.executable, *words))


STEPS = [
    script("claims", TEXTS, "tools/claims.py"),
    script("bodies", TEXTS, "tools/edits.py", "--check"),
    script("formats", TEXTS, "tools/formats.py", "--check"),
    script("made", TEXTS, "tools/rows", "--made"),
    Step("proofs", PROOFS, ("rt", "ci")),
    script("rows", ANSWERS, "tools/rows", "--kept"),
    script("programs", ANSWERS, "tools/programs.py"),
    script("suite", ANSWERS, "tools/schema_suite.py", "--if-there"),
    script("refusals", CALLS, "tools/refusals.py"),
    script("sizes", ANSWERS, "tools/sizes.py", "--bounded"),
    Step("library", ANSWERS, ("sh", "-c", f"bindings/build --since {BEGUN} && bindings/test")),
    script("calls", CALLS, "bindings/test_calls"),
    script("packages", ANSWERS, "tools/test_packages.py"),
]


def say(line):
    """Prints a line at once."""
    print(line, flush=True)


def checks_at_once():
    """How many checks `rt ci` is to run at a time: one for each processor, as far as the memory goes."""
    available = int(re.search(r"MemAvailable: *(\d+)", Path("/proc/meminfo").read_text())[1])
    return max(1, min(len(os.sched_getaffinity(0)), available // MEMORY_FOR_A_CHECK))


def prepare(step):
    """Sets what a step wants before it begins."""
    if step.name == "proofs":
        os.environ.setdefault("RT_JOBS", str(checks_at_once()))
        BEGUN.parent.mkdir(exist_ok=True)
        BEGUN.touch()


def ran(step):
    """Runs a step and passes on its lines but the last. Answers all of them, and how it ended."""
    lines = [""]
    with subprocess.Popen(step.words, cwd=TOP, stdin=subprocess.DEVNULL, stdout=subprocess.PIPE, text=True,
                          errors="replace") as run:
        for line in filter(str.strip, run.stdout):
            if lines[-1]:
                say(lines[-1])
            lines.append(line.rstrip())
    return lines, run.returncode


def counted(step):
    """Runs a step, and answers how many passed and failed of each kind of evidence."""
    began = time.monotonic()
    lines, status = ran(step)
    counts = COUNTS.fullmatch(lines[-1].strip())
    if counts is None:
        say(lines[-1])
    passed, failed = map(int, counts.groups()) if counts else (0, 1)
    if failed == 0 and (status != 0 or passed == 0):
        say(f"gate: {step.name} ended with status {status}")
        failed = 1
    say(f"gate: {step.name}: {passed} passed, {failed} failed, {time.monotonic() - began:.0f} s")
    return by_kind(step, passed, failed, lines)


def by_kind(step, passed, failed, lines):
    """The counts of a step by the kind of evidence, those of `rt ci` without its runs of programs and tests."""
    if step.kind != PROOFS:
        return {step.kind: (passed, failed)}
    runs = sum(RAN.fullmatch(line) is not None for line in lines)
    wrong = sum(len(A_RUN.findall(line)) for line in lines if line.startswith(FAILED))
    return {PROOFS: (passed, failed - wrong), ANSWERS: (runs, wrong)}


def table(counts):
    """The lines of the table: of each kind of evidence how much passed and failed, by step."""
    for kind in KINDS:
        of_kind = {step: found[kind] for step, found in counts.items() if kind in found}
        if of_kind:
            passed, failed = map(sum, zip(*of_kind.values()))
            by_step = ", ".join(f"{step.name if step.kind == kind else 'rt ci'} {pair[0]}"
                                for step, pair in of_kind.items())
            yield f"{kind:36}{passed:8} passed{failed:4} failed   ({by_step})"


def asked_for(words):
    """The steps that the command line asks for."""
    names = [step.name for step in STEPS]
    if not words:
        return STEPS
    if len(words) == 2 and words[0] == "--from" and words[1] in names:
        return STEPS[names.index(words[1]):]
    raise SystemExit(f"{__doc__}\nThe steps: {', '.join(names)}")


def main():
    """Runs the steps asked for."""
    counts = {}
    for step in asked_for(sys.argv[1:]):
        prepare(step)
        counts[step] = counted(step)
        if any(failed for _, failed in counts[step].values()):
            say(f"gate: stopped at {step.name}; once it is mended, `python3 tools/gate.py --from {step.name}` goes on")
            break
    for line in table(counts):
        say(line)
    passed, failed = map(sum, zip(*(pair for found in counts.values() for pair in found.values())))
    say(f"{passed} passed, {failed} failed")
    return 1 if failed else 0


if __name__ == "__main__":
    sys.exit(main())
