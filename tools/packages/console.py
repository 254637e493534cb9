"""The examples of a document: its blocks that begin with `$ `, as a script of sh, and what each of them has to write.

A line `$ COMMAND` is a command, and the lines below it are what it writes, on either output. A command with no line
below it may write anything, and has to end with status 0. Lines `>>> ` below a command are a dialogue with Python,
which the command has to begin. All commands of a document run in one shell, one after the other.
"""
import re
import shlex
from dataclasses import dataclass
from pathlib import Path

BLOCK = re.compile(r"^```\w*\n(\$ .*?)^```$", re.M | re.S)
PROMPT = ">>> "


@dataclass
class Command:
    """A command, what it has to write, and whether that is a dialogue with Python."""
    words: str
    wanted: str

    @property
    def is_dialogue(self):
        """Whether what is wanted begins as a dialogue with Python does."""
        return self.wanted.startswith(PROMPT)


def commands_of(document):
    """The commands of a document, in their order."""
    found = []
    for block in BLOCK.findall(document):
        for part in re.split(r"^\$ ", block, flags=re.M)[1:]:
            words, _, wanted = part.partition("\n")
            found.append(Command(words, wanted))
    return found


def script_of(commands, folder, results):
    """A script of sh that runs the commands. It writes what each writes, and its status, into a folder.

    That folder has two names: the one by which it is seen here, and the one by which the script sees it.
    """
    lines = []
    for number, command in enumerate(commands):
        words = command.words
        if command.is_dialogue:
            Path(folder, f"{number}.txt").write_text(command.wanted, encoding="utf-8")
            words += f" -m doctest {shlex.quote(f'{results}/{number}.txt')}"
        place = shlex.quote(f"{results}/{number}")
        lines.append(f"{{ {words}\n}} > {place}.out 2>&1 < /dev/null\necho $? > {place}.status\n")
    return "".join(lines)


def judged(commands, folder):
    """Each command, whether it did as the document says, and what it did."""
    for number, command in enumerate(commands):
        status = Path(folder, f"{number}.status")
        if not status.exists():
            yield command, False, "it did not run"
            continue
        ended = status.read_text(encoding="utf-8").strip()
        output = Path(folder, f"{number}.out").read_text(encoding="utf-8", errors="replace")
        if command.wanted and not command.is_dialogue:
            yield command, output == command.wanted, f"{output!r}, and not {command.wanted!r}"
        else:
            yield command, ended == "0", f"status {ended}: {output}"
