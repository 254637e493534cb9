"""What `parallel` and `parallel_dask` share: their arguments, the two files, and the count of the answers. `texts_dask`
has its blocks and its ends from here too."""
import argparse
import os
import re
import signal
import stat
import sys
import tempfile
from contextlib import closing, contextmanager, suppress
from pathlib import Path

TOP = Path(__file__).resolve().parents[1]
# The program that was built here, or that of a release.
PLACES = [TOP / "crates" / "strkw" / "out" / "strkw", TOP / "bin" / "strkw"]
BUILT = next((place for place in PLACES if place.exists()), PLACES[0])
PIECE = 1 << 20
NUMBER = re.compile(r"([0-9]{1,12})([kKmMgG]?)")
UNITS = {"": 1, "k": 10 ** 3, "K": 2 ** 10, "m": 10 ** 6, "M": 2 ** 20, "g": 10 ** 9, "G": 2 ** 30}
# A line `end`, behind the line feed of the line before it.
END = re.compile(rb"\nend(?=\n)")
RUN_FAILED, REFUSED = 1, 2


class Stop(Exception):
    """Why a script ends early, in one line, and with what status."""

    def __init__(self, text, status):
        super().__init__(text)
        self.status = status


def number(first, last):
    """How a number of an option is read, which may have a unit of GNU parallel's."""
    def read(word):
        """The number that a word stands for."""
        parts = NUMBER.fullmatch(word)
        value = int(parts[1]) * UNITS[parts[2]] if parts else None
        if value is None or not first <= value <= last:
            raise argparse.ArgumentTypeError(f"{word!r} is no number from {first} to {last}")
        return value
    return read


def arguments(where):
    """The two files, which come first whatever their names begin with, and the options; one says where to run."""
    def refuse(why):
        """Ends with what is wrong with the arguments."""
        raise Stop(f"{why} (--help says more)", REFUSED)

    if len(sys.argv) < 3 or "" in sys.argv[1:3]:
        refuse("two files are wanted: REQUESTS ANSWERS")
    parser = argparse.ArgumentParser(add_help=False, allow_abbrev=False)
    parser.error = refuse
    parser.add_argument("--jobs", type=number(1, 1000), default=os.cpu_count())
    parser.add_argument("--block", type=number(1, 10 ** 9), default=10 ** 7)
    parser.add_argument("--retries", type=number(0, 1000), default=0)
    parser.add_argument(where)
    return sys.argv[1], sys.argv[2], parser.parse_args(sys.argv[3:])


def program(runs_here):
    """The path of the program, which has to be there where it is to run on this machine."""
    path = os.path.abspath(os.environ.get("STRKW") or BUILT)
    if runs_here and not (os.path.isfile(path) and os.access(path, os.X_OK)):
        raise Stop(f"{path!r} is no program: `rt run` in crates/strkw builds it", REFUSED)
    return path


def opened(requests, answers):
    """REQUESTS, for reading: a regular file, and not ANSWERS by another name."""
    try:
        found = os.stat(requests)
        if not stat.S_ISREG(found.st_mode):
            raise Stop(f"REQUESTS {requests!r} is no regular file", REFUSED)
        if os.path.exists(answers) and os.path.samestat(found, os.stat(answers)):
            raise Stop(f"REQUESTS {requests!r} and ANSWERS {answers!r} are one file", REFUSED)
        return open(requests, "rb")
    except OSError as why:
        raise Stop(f"REQUESTS {requests!r} cannot be read: {why.strerror}", REFUSED) from None


def lines_in(file):
    """How many lines there are, where the last may have no line feed."""
    lines, last = 0, b"\n"
    while piece := file.read(PIECE):
        lines, last = lines + piece.count(b"\n"), piece[-1:]
    file.seek(0)
    return lines + (last != b"\n")


def blocks(file, size):
    """Whole lines, some `size` bytes at a time."""
    while block := file.read(size):
        yield block + file.readline()


def is_standard_output(found):
    """Whether the file is where standard output goes."""
    try:
        return os.path.samestat(found, os.fstat(1))
    except OSError:
        return False


@contextmanager
def replaced(path):
    """A new file, which takes the place of the one at the path when all went well."""
    place = os.path.realpath(path)
    umask = os.umask(0)
    os.umask(umask)
    mode = stat.S_IMODE(os.stat(place).st_mode) if os.path.exists(place) else 0o666 & ~umask
    made, name = tempfile.mkstemp(prefix=".answers.", dir=os.path.dirname(place))
    try:
        with open(made, "wb") as file:
            os.fchmod(made, mode)
            yield file
        os.rename(name, place)
    except BaseException:
        os.unlink(name)
        raise


def output(path):
    """ANSWERS, for writing. What is no regular file, as a device or a fifo, is written to as it is."""
    try:
        found = os.stat(path)
    except FileNotFoundError:
        return replaced(path)
    if is_standard_output(found):
        return os.fdopen(os.dup(1), "wb")
    return replaced(path) if stat.S_ISREG(found.st_mode) else open(path, "wb")


def write_counted(pieces, file):
    """Writes the pieces, and answers how many lines `end` there are in them."""
    ends, seen = 0, b"\n"
    for piece in pieces:
        file.write(piece)
        seen += piece
        ends += len(END.findall(seen))
        seen = seen[-4:]
    file.flush()
    return ends


def store(pieces, asked, answers):
    """Writes the pieces to ANSWERS, which stays as it was where they are not the answers to so many requests."""
    status = REFUSED
    try:
        with closing(pieces), output(answers) as file:
            status = RUN_FAILED
            answered = write_counted(pieces, file)
            if answered != asked:
                raise Stop(f"{answered} answers to {asked} requests", RUN_FAILED)
    except OSError as why:
        raise Stop(f"ANSWERS {answers!r} cannot be written: {why.strerror}", status) from None


def interrupt(*_):
    """Stops the script, once: what it made is taken away, and no second signal comes between."""
    signal.signal(signal.SIGINT, signal.SIG_IGN)
    signal.signal(signal.SIGTERM, signal.SIG_IGN)
    raise KeyboardInterrupt


def tell(name, why):
    """Writes a line to standard error, if that can be written to."""
    with suppress(OSError):
        os.write(2, f"{name}: {why}\n".encode(errors="backslashreplace"))


def run(name, text, work):
    """Does the work of the script, or writes its text where that is asked for, and answers its status."""
    signal.signal(signal.SIGINT, interrupt)
    signal.signal(signal.SIGTERM, interrupt)
    try:
        if sys.argv[1:] in (["--help"], ["-h"]):
            os.write(1, text.encode())
        else:
            work()
        return 0
    except Stop as stop:
        why, status = str(stop), stop.status
    except OSError as fault:
        why, status = f"reading or writing failed: {fault.strerror}", RUN_FAILED
    except MemoryError:
        why, status = "out of memory", RUN_FAILED
    except KeyboardInterrupt:
        tell(name, "interrupted")
        # Runs that are still at work are not waited for.
        os._exit(RUN_FAILED)
    tell(name, why)
    return status
