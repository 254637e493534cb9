#!/usr/bin/env python3
"""Runs built tests and programs with one call failing at a time: each growth, and each read and write.

    python3 tools/refusals.py    on what the last `rt ci` left in crates/*/out; the last line is `N passed, M failed`

A *row* is a test whose name ends in `_under_refusal`. With ample memory it passes only where its calls answer what
they are to answer. Here it is run alone, once with nothing refused, when it has to pass, and then with growth 1, 2, ..
refused, each in a run of its own. Where a growth was refused, and only there, it may also end with the error of a call
that was out of memory, by that error's own name; a failed assertion or another error is wrong. The rows of
bindings/refused.c are run so too, by bindings/test_calls.

The programs are run in the same way, on the input that is stored with each, with each growth refused, and with each
read and write failing, interrupted or moving one byte. Where a call was made to fail a program has to end with the
status of a fault and the fault's text, and what it has written is a beginning of its output, of `strkw` whole answers
after any fault but one of writing; otherwise the whole. The later a call of `strkw` fails, the more it has written, and
at last something: what stands before a fault is not held back. `neldrafi` may also try an interrupted call again, or do
without a growth that was refused, and then end as if nothing had failed.
"""
import os
import re
import subprocess
import sys
import tempfile
from pathlib import Path

TOP = Path(__file__).resolve().parent.parent
TELL_AT = 9
MOST_CALLS = 20000
MOST_WRONG = 20
SECONDS_FOR_A_RUN = 120
ROW = re.compile(r"fn (\w+_under_refusal)\b")
# How a row ends that answers an error, and what it says where that is out of memory: the name `AllocError`, or that of
# a variant `Memory`.
FAILED_TEST = 101
# `AllocFailed` is that of a box that a row makes itself.
OUT_OF_MEMORY = {b"error: %s\nthe test failed: its result gives status 1\n" % name
                 for name in (b"AllocError", b"Memory", b"AllocFailed { .. }")}
# The programs, with the status of a fault.
PROGRAMS = {"strkw": 1, "neldrafi": 2}
WRITE_FAULT = "write failed"
MOVE_FAULTS = re.compile(WRITE_FAULT + r"|(.+: )?read failed(: .+)?|.+ cannot be read: .+")
# How a call of a program is made to fail, and what the program then says; nothing where it has to end well.
FAILINGS = {
    "REFUSE_GROWTH": ("refused growths", re.compile("out of memory")),
    "FAIL_MOVE": ("failed reads and writes", MOVE_FAULTS),
    "INTERRUPT_MOVE": ("interrupted reads and writes", MOVE_FAULTS),
    "SHORTEN_MOVE": ("reads and writes of one byte", None),
}
# The programs, and the calls of theirs, of which this holds: the later one fails, the more is written.
GROWING = [("strkw", failing) for failing in ("REFUSE_GROWTH", "FAIL_MOVE")]


def say(line):
    """Prints a line at once."""
    print(line, flush=True)


def preload(folder):
    """Builds the library that is preloaded, by the compiler of the kit."""
    page = subprocess.run(["rt", "doc"], cwd=TOP, stdin=subprocess.DEVNULL, stdout=subprocess.PIPE, text=True,
                          check=True)
    toolchain = Path(page.stdout.split()[0]).parent / "toolchain"
    made = Path(folder) / "refuse_nth.so"
    subprocess.run(
        [toolchain / "bin/clang", "-O1", "-shared", "-fPIC", "-nostdlib", "-fuse-ld=lld", f"-B{toolchain}/bin",
         "-o", made, TOP / "tools/refuse_nth.c", toolchain / "lib/libc.so.6"],
        stdin=subprocess.DEVNULL, check=True)
    return made


class Run:
    """A run of a program with one call failing: its status, its output, how many such calls there were, and how many
    of them failed."""

    def __init__(self, words, made, failing, nth, given=b"", folder=TOP):
        read_end, write_end = os.pipe()
        environment = {"LD_PRELOAD": str(made), failing: str(nth), "LANG": "C.UTF-8"}
        try:
            ran = subprocess.run(
                words, env=environment, cwd=folder, input=given, stdout=subprocess.PIPE, stderr=subprocess.PIPE,
                preexec_fn=lambda: os.dup2(write_end, TELL_AT), close_fds=False, timeout=SECONDS_FOR_A_RUN)
            self.status, self.written, self.said = ran.returncode, ran.stdout, ran.stderr
        except subprocess.TimeoutExpired:
            self.status, self.written, self.said = -1, b"", b"the run did not end in time\n"
        os.close(write_end)
        told = os.read(read_end, 128).split()
        os.close(read_end)
        # A run that was killed has told nothing.
        growths, refusals, moves, failures = map(int, told) if len(told) == 4 else (None,) * 4
        is_growth = failing == "REFUSE_GROWTH"
        self.calls, self.failures = (growths, refusals) if is_growth else (moves, failures)

    def shown(self):
        """The run in a line."""
        said = (self.said + self.written).decode(errors="replace").strip()[:300]
        return f"status {self.status}, {self.failures} failed of {self.calls} calls: {said}"


def each_in_turn(name, words, made, failing, is_right, given=b"", folder=TOP):
    """Lets no call fail, and then call 1, 2, .. Answers whether each run was right."""
    what = FAILINGS[failing][0]
    ample = Run(words, made, failing, 0, given, folder)
    if not (ample.failures == 0 and is_right(ample) and 0 < ample.calls < MOST_CALLS):
        say(f"refusals: {name}: where nothing fails: {ample.shown()}")
        return False
    wrong = whole = 0
    for nth in range(1, ample.calls + 1):
        run = Run(words, made, failing, nth, given, folder)
        whole += run.status == ample.status
        # A run that was aborted has told nothing, and is wrong by its status.
        if run.failures not in (1, None) or not is_right(run):
            wrong += 1
            say(f"refusals: {name}: {what}: {nth}: {run.shown()}")
        if wrong >= MOST_WRONG:
            break
    say(f"refusals: {name}: {nth} {what} in turn, {whole} ended well, {wrong} wrong")
    return wrong == 0


def rows_of(crate):
    """The names of the rows with a refused growth that stand in a crate's sources."""
    return {name for file in crate.glob("src/**/*.rt") for name in ROW.findall(file.read_text())}


def is_row_right(run):
    """Whether a row passed, or ended as out of memory where a growth was refused."""
    return run.status == 0 or (run.status == FAILED_TEST and run.failures == 1 and run.said in OUT_OF_MEMORY)


def tests(made):
    """Each row, as whether it passed; a row that is in no built test has not."""
    for crate in sorted(TOP.glob("crates/*")):
        rows, built = rows_of(crate), crate / "out" / f"{crate.name}_tests"
        if not rows:
            continue
        listed = subprocess.run([built, "--list"], stdin=subprocess.DEVNULL, stdout=subprocess.PIPE, text=True) \
            if built.exists() else None
        found = [line.removesuffix(": test").strip() for line in listed.stdout.splitlines()] if listed else []
        for test in (test for test in found if test.endswith("_under_refusal")):
            rows.discard(test.split("::")[-1])
            yield each_in_turn(f"{crate.name} {test}", [built, test], made, "REFUSE_GROWTH", is_row_right)
        for name in sorted(rows):
            say(f"refusals: {crate.name}: {name} is in no built test")
            yield False


class Stored:
    """A program with a stored run: the files beside its sources."""

    def __init__(self, name):
        folder = TOP / "crates" / name
        self.name, self.folder, self.built = name, folder / "data", folder / "out" / name
        self.folder = self.folder if self.folder.is_dir() else folder
        self.arguments = (folder / "args").read_text().split() if (folder / "args").exists() else []
        self.given, self.written = (folder / "stdin").read_bytes(), (folder / "stdout").read_bytes()
        self.status = int((folder / "status").read_text()) if (folder / "status").exists() else 0
        # How much the runs wrote that ended with a fault, in their order.
        self.begun = []

    def is_whole(self, run):
        """Whether a run ended as one without refusals does."""
        return run.status == self.status and run.written == self.written and not run.said

    def is_faulty(self, run, faults):
        """Whether a run ended with a fault of these texts, and has written a beginning of its output, or all of it but
        the lines about one of several files."""
        said = run.said.decode(errors="replace")
        fault = said.removeprefix(f"{self.name}: ").removesuffix("\n")
        is_told = said == f"{self.name}: {fault}\n" and faults.fullmatch(fault)
        is_begun = self.written.startswith(run.written)
        if is_told:
            self.begun.append(len(run.written))
        if self.name == "strkw" and fault != WRITE_FAULT:
            is_begun = is_begun and (not run.written or run.written.endswith(b"\nend\n"))
        if self.name == "neldrafi":
            lines = iter(self.written.splitlines())
            is_begun = is_begun or all(line in lines for line in run.written.splitlines())
        return run.status == PROGRAMS[self.name] and is_told and is_begun

    def is_growing(self):
        """Whether each run that ended with a fault wrote no less than the one before, and the last one something."""
        is_so = self.begun == sorted(self.begun) and any(self.begun)
        if not is_so:
            say(f"refusals: {self.name}: what stands before a fault is not written: {self.begun}")
        return is_so

    def is_right(self, failing):
        """How a run is judged in which such a call may have failed."""
        faults = FAILINGS[failing][1]
        may_end_well = failing in ("REFUSE_GROWTH", "INTERRUPT_MOVE") and self.name != "strkw"

        def right(run):
            """Whether a run ended as it may."""
            if run.failures == 0 or faults is None:
                return self.is_whole(run)
            return self.is_faulty(run, faults) or (may_end_well and self.is_whole(run))
        return right


def examples():
    """The program that answers requests, with those of the examples."""
    run = Stored("strkw")
    run.given, run.written = (TOP / "examples/requests.jsonl").read_bytes(), (TOP / "examples/answers.txt").read_bytes()
    return run


def programs(made):
    """Each program, with each call of each kind failing, as whether it was right."""
    for stored in [*map(Stored, PROGRAMS), examples()]:
        if not stored.built.exists():
            say(f"refusals: {stored.name} is not built")
            yield False
            continue
        for failing in FAILINGS:
            stored.begun.clear()
            passed = each_in_turn(stored.name, [stored.built, *stored.arguments], made, failing,
                                  stored.is_right(failing), stored.given, stored.folder)
            if (stored.name, failing) in GROWING:
                passed = stored.is_growing() and passed
            yield passed


def refusals():
    """How many rows and runs of programs passed and failed."""
    with tempfile.TemporaryDirectory() as folder:
        try:
            made = preload(folder)
        except (OSError, subprocess.CalledProcessError, IndexError) as why:
            say(f"refusals: the library that refuses growths was not built: {why}")
            rows, runs = [False], []
        else:
            rows, runs = list(tests(made)), list(programs(made))
    if not rows:
        say("refusals: no row was found: run `rt ci` first")
        rows = [False]
    say(f"refusals: {rows.count(True)} rows and {runs.count(True)} runs of programs passed, "
        f"{rows.count(False)} and {runs.count(False)} failed")
    return (rows + runs).count(True), (rows + runs).count(False)


def main():
    """Runs the refusals."""
    passed, failed = refusals()
    say(f"{passed} passed, {failed} failed")
    return 1 if failed else 0


if __name__ == "__main__":
    sys.exit(main())
