#!/usr/bin/env python3
"""Runs the built programs and the scripts of examples/ on rows, and compares all that they write and leave.

    python3 tools/programs.py             the rows of all files in tools/programs, on what the last `rt ci` left built
    python3 tools/programs.py NAME ..     those of tools/programs/NAME.toml

A file names its programs, as `strkw` (crates/strkw/out/strkw), `neldrafi check` or `examples/parallel`, and has a table
`[[row]]` for each run. A run is in an empty folder of its own and has to end in 20 seconds. A row has these keys; all
but `name` may be left out:

    name          what is tried
    arguments     the words behind the program's name
    input         the bytes of standard input
    files         names to bytes: the files in the folder
    executables   the same, for files that can be run; the folder is the first place on PATH
    folders, fifos, links     names of folders and fifos, and names of further links to files
    environment   variables to their values
    then          bytes of standard input behind `input`, each of which comes only once more output has come
    shell         how the program is run, as words of `sh` in which "$@" is the program with its arguments
    to            where standard output goes: "full" for /dev/full, "closed" for a pipe that nobody reads, "closing" for
                  one that nobody reads any more once something of the output has come
    status, output, errors    what the run has to end with and to write, exactly: 0 and no bytes where nothing is said
    leaves        names to bytes: the files that the run adds or changes; all others have to be there as before

Bytes are a string, as UTF-8 (`"a\\r\\n\\u0000"`), or an array of strings, single bytes and bytes some times over
(`["a,", 0xff, "\\n", { times = 9, of = "b\\n" }]`). In `output` and `errors` the word `{program}` is the program's own
name. The table `[every]` has keys for all rows of a file; a row's own tables are added to its. The last line is
`N passed, M failed`; the gate counts it.
"""
import os
import signal
import subprocess
import sys
import tempfile
import tomllib
from concurrent.futures import ThreadPoolExecutor
from contextlib import suppress
from dataclasses import dataclass, field, fields
from pathlib import Path
from threading import Event, Thread
from time import sleep

TOP = Path(__file__).resolve().parent.parent
ROWS = TOP / "tools" / "programs"
SECONDS_FOR_A_RUN = 20
# Before each input once the output is closed. Until a process that was forked for another row has begun, it holds this
# output open too, and a write may still go through.
SECONDS_BEHIND_THE_END = 0.5
# Between two such inputs, unless the run ends before.
SECONDS_FOR_AN_END = 10


@dataclass
class Row:
    """A run of a program, and what comes of it."""
    name: str
    arguments: list = field(default_factory=list)
    input: object = ""
    then: list = field(default_factory=list)
    shell: str = ""
    files: dict = field(default_factory=dict)
    executables: dict = field(default_factory=dict)
    folders: list = field(default_factory=list)
    fifos: list = field(default_factory=list)
    links: dict = field(default_factory=dict)
    environment: dict = field(default_factory=dict)
    to: str = ""
    status: int = 0
    output: object = ""
    errors: object = ""
    leaves: dict = field(default_factory=dict)


def bytes_of(value):
    """The bytes that a value of a row stands for."""
    if isinstance(value, list):
        return b"".join(map(bytes_of, value))
    if isinstance(value, dict):
        return bytes_of(value["of"]) * value["times"]
    return value.encode() if isinstance(value, str) else bytes([value])


def rows_of(text):
    """The programs that a file names, and its rows."""
    read = tomllib.loads(text)
    every = read.get("every", {})
    known = {it.name for it in fields(Row)}
    rows = []
    for told in read["row"]:
        unknown = sorted((told.keys() | every.keys()) - known)
        if unknown:
            raise ValueError(f"row {told.get('name')!r} has the unknown key {unknown[0]!r}")
        joined = {key: {**every[key], **told[key]} for key in told.keys() & every.keys() if isinstance(told[key], dict)}
        rows.append(Row(**{**every, **told, **joined}))
    return read["programs"], rows


def words_of(program):
    """How a program is started, behind whose name may stand a subcommand: a script of Python by the Python that runs
    this."""
    if "/" not in program:
        name, *subcommand = program.split()
        return [TOP / "crates" / name / "out" / name, *subcommand]
    path = TOP / program
    is_python = path.suffix == ".py" or b"python" in path.read_bytes().partition(b"\n")[0]
    return [sys.executable, path] if is_python else [path]


def lay_out(row, folder):
    """Makes what stands in the folder before the run."""
    for name, value in {**row.files, **row.executables}.items():
        (folder / name).parent.mkdir(parents=True, exist_ok=True)
        (folder / name).write_bytes(bytes_of(value))
    for name in row.executables:
        (folder / name).chmod(0o755)
    for name in row.folders:
        (folder / name).mkdir()
    for name in row.fifos:
        os.mkfifo(folder / name)
    for name, other in row.links.items():
        os.link(folder / other, folder / name)


def output_of(row):
    """Where standard output goes: a pipe to this script, or what takes nothing."""
    if row.to == "full":
        return os.open("/dev/full", os.O_WRONLY)
    if row.to == "closed":
        read_end, write_end = os.pipe()
        os.close(read_end)
        return write_end
    return subprocess.PIPE


class Talk:
    """What a run is given, and what it writes."""

    def __init__(self, run, row):
        self.written, self.errors = bytearray(), bytearray()
        self.has_come = Event()
        self.is_closing, self.is_closed = row.to == "closing", False
        parts = [bytes_of(row.input), *map(bytes_of, row.then)]
        self.threads = [Thread(target=self.give, args=[run.stdin, parts]), Thread(target=self.hear, args=[run.stderr])]
        self.threads += [Thread(target=self.take, args=[run.stdout])] if run.stdout else []
        for thread in self.threads:
            thread.start()

    def give(self, stream, parts):
        """Writes the parts of the input, each once an answer to those before it has come."""
        with suppress(BrokenPipeError), stream:
            for number, part in enumerate(parts):
                if number > 0:
                    self.has_come.wait(SECONDS_FOR_AN_END if self.is_closed else None)
                    self.has_come.clear()
                    if self.is_closed:
                        sleep(SECONDS_BEHIND_THE_END)
                stream.write(part)
                stream.flush()

    def take(self, stream):
        """Reads the output as it comes."""
        with stream:
            while piece := stream.read1():
                self.written += piece
                if self.is_closing:
                    break
                self.has_come.set()
        self.is_closed = True
        self.has_come.set()

    def hear(self, stream):
        """Reads the errors."""
        with stream:
            self.errors += stream.read()

    def end(self):
        """Waits for the ends of all streams. Input that is still to be given comes too late."""
        self.has_come.set()
        for thread in self.threads:
            thread.join()
        return bytes(self.written), bytes(self.errors)


def ran(row, words, folder):
    """The status, the output and the errors of the run; no status where it does not end in time."""
    path = os.pathsep.join([str(folder), os.environ.get("PATH", os.defpath)])
    environment = {"PATH": path, "LANG": "C.UTF-8", "PYTHONDONTWRITEBYTECODE": "1", **row.environment}
    words = ["/bin/sh", "-c", row.shell, "sh", *words] if row.shell else words
    output = output_of(row)
    run = subprocess.Popen([*words, *row.arguments], cwd=folder, env=environment, stdin=subprocess.PIPE, stdout=output,
                           stderr=subprocess.PIPE, start_new_session=True)
    if output != subprocess.PIPE:
        os.close(output)
    talk = Talk(run, row)
    status = late = None
    try:
        status = run.wait(SECONDS_FOR_A_RUN)
    except subprocess.TimeoutExpired:
        late = b"the run did not end in time"
        os.killpg(run.pid, signal.SIGKILL)
        run.wait()
    written, errors = talk.end()
    return status, written, late or errors


def left_in(folder):
    """The files in a folder, with what is in them."""
    return {str(path.relative_to(folder)): path.read_bytes() for path in folder.glob("**/*") if path.is_file()}


def wrongs(row, words):
    """What differs from the row."""
    program = [word for word in words if isinstance(word, Path)][-1].name.encode()
    output, errors = (bytes_of(value).replace(b"{program}", program) for value in (row.output, row.errors))
    with tempfile.TemporaryDirectory() as name:
        folder = Path(name)
        lay_out(row, folder)
        left = {**left_in(folder), **{name: bytes_of(value) for name, value in row.leaves.items()}}
        found = dict(zip(("status", "output", "errors"), ran(row, words, folder)), files=left_in(folder))
    wanted = {"status": row.status, "output": output, "errors": errors, "files": left}
    return [f"{what} {str(found[what])[:400]}, wanted {str(wanted[what])[:400]}"
            for what in wanted if found[what] != wanted[what]]


def is_right(program, row, words):
    """Whether a row is answered as it is to be; tells what is not."""
    try:
        wrong = wrongs(row, words)
    except (OSError, TypeError, ValueError) as why:
        wrong = [str(why)]
    for line in wrong:
        print(f"programs: {program}: {row.name}: {line}", flush=True)
    return not wrong


def tried(program, rows, pool):
    """Whether each row was right; a program that is not there is one wrong row."""
    words = words_of(program)
    if not (os.access(words[0], os.X_OK) and all(Path(word).is_file() for word in words if "/" in str(word))):
        print(f"programs: {program} is not built: run `rt ci` first", flush=True)
        return [False]
    answers = list(pool.map(lambda row: is_right(program, row, words), rows))
    print(f"programs: {program}: {answers.count(True)} rows passed, {answers.count(False)} failed", flush=True)
    return answers


def tried_of(file, pool):
    """Whether each row of a file was right; a file that cannot be read is one wrong row."""
    try:
        programs, rows = rows_of(file.read_text(encoding="utf-8"))
        return [answer for program in programs for answer in tried(program, rows, pool)]
    except (OSError, ValueError, KeyError, TypeError) as why:
        print(f"programs: {file.stem}: {type(why).__name__}: {why}", flush=True)
        return [False]


def main():
    """Runs the rows of the programs that the arguments name, or of all."""
    files = [ROWS / f"{name}.toml" for name in sys.argv[1:]] or sorted(ROWS.glob("*.toml"))
    with ThreadPoolExecutor() as pool:
        answers = [answer for file in files for answer in tried_of(file, pool)]
    print(f"{answers.count(True)} passed, {answers.count(False)} failed")
    return 0 if all(answers) and answers else 1


if __name__ == "__main__":
    sys.exit(main())
