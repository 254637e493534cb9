"""The items of a source file: its functions, its constants and its imports, by their places in the text."""
import re
from bisect import bisect_left
from dataclasses import dataclass

TOKEN = re.compile(r"""
    (?P<comment>//[^\n]*|/\*.*?\*/)
  | (?P<string>[bc]?r(\#*)".*?"\3|[bc]?"(?:[^"\\]|\\.)*")
  | (?P<char>b?'(?:\\(?:u\{[0-9A-Fa-f_]+\}|x[0-9A-Fa-f]{2}|.)|[^'\\])')
  | (?P<lifetime>'\w+)
  | (?P<number>\d(?:\w|\.(?=\d))*)
  | (?P<word>\w+)
  | (?P<sign>\.\.=|\.\.|::|->|=>|==|!=|<=|>=|&&|\|\||[^\s\w])""", re.X | re.S)
OPENING, CLOSING = "([{", ")]}"
# Words whose braces stand between the head of a function and its body.
CLAUSES = {"requires", "ensures"}


@dataclass(frozen=True)
class Token:
    """A word, a sign or a literal of a text."""
    kind: str
    text: str
    start: int
    end: int


def tokens(text):
    """The tokens of a text but its comments."""
    return [Token(found.lastgroup, found[0], found.start(), found.end())
            for found in TOKEN.finditer(text) if found.lastgroup != "comment"]


def bare(text):
    """A text without its comments and blanks."""
    return " ".join(token.text for token in tokens(text))


@dataclass(frozen=True)
class Function:
    """A function: where it begins, where its body does, and where it ends; and the head of the `impl` around it."""
    name: str
    start: int
    body: int
    end: int
    generics: str
    parameters: str
    parameters_at: int
    around: str
    around_end: int

    @property
    def key(self):
        """What tells it from the other functions of its file."""
        return f"{self.around} {self.name}"


@dataclass(frozen=True)
class Constant:
    """A `const` or `static` outside functions, and the head of the `impl` around it."""
    name: str
    start: int
    end: int
    around: str

    @property
    def key(self):
        """What tells it from the other items of its file."""
        return f"const {self.around} {self.name}"

    @property
    def owner(self):
        """The type that it is of."""
        return re.search(r"(\w+)(?:<.*>)?\s*$", self.around, re.S)[1]


class Source:
    """A source file with its items."""

    def __init__(self, text):
        self.text, self.tokens = text, tokens(text)
        self.functions, self.constants, self.uses = [], [], []
        self.closing = self.pairs()
        self.read(0, len(self.tokens), "", len(text))

    def pairs(self):
        """The place of the token that closes a bracket, by that of the one that opens it."""
        open_ones, found = [], {}
        for place, token in enumerate(self.tokens):
            if token.kind == "sign" and token.text in OPENING:
                open_ones.append(place)
            elif token.kind == "sign" and token.text in CLOSING and open_ones:
                found[open_ones.pop()] = place
        return found

    def read(self, place, end, around, around_end):
        """Reads the items between two places, which stand in an `impl` or in none."""
        while place < end:
            token = self.tokens[place]
            if token.text == "fn" and self.tokens[place + 1].kind == "word":
                place = self.function(place, around, around_end)
            elif token.text in ("const", "static") and self.tokens[place + 1].text not in ("fn", "unsafe"):
                place = self.constant(place, around)
            elif token.text == "use":
                place = self.import_of(place)
            elif token.text in ("impl", "trait"):
                body = self.brace_after(place)
                head = self.text[token.start:self.tokens[body].start].strip()
                self.read(body + 1, self.closing[body], head, self.tokens[self.closing[body]].end)
                place = self.closing[body] + 1
            elif place in self.closing and token.text != "{":
                place = self.closing[place] + 1
            else:
                place += 1

    def brace_after(self, place):
        """The place of the brace that opens the body of an item, behind its clauses; or of a semicolon."""
        in_clause = False
        while True:
            token = self.tokens[place]
            if token.text in CLAUSES:
                in_clause = True
            if token.text == ";" or token.text == "{" and not in_clause:
                return place
            if place in self.closing:
                in_clause = in_clause and token.text != "{"
                place = self.closing[place]
            place += 1

    def start_of(self, place):
        """Where an item begins whose word stands at a place: before `pub`, `unsafe` and the like."""
        while self.tokens[place - 1].text in ("pub", "unsafe", "const", "extern") and place:
            place -= 1
        if place and self.tokens[place - 1].text == ")" and self.tokens[place - 4].text == "pub":
            place -= 4
        return self.tokens[place].start

    def function(self, place, around, around_end):
        """Reads a function. Answers the place behind it."""
        body, at = self.brace_after(place), place + 2
        if self.tokens[body].text == ";":
            return body + 1
        while self.tokens[at].text != "(" or self.depth_of_angles(place + 2, at):
            at += 1
        generics = self.text[self.tokens[place + 1].end:self.tokens[at].start].strip()
        parameters = self.text[self.tokens[at].end:self.tokens[self.closing[at]].start]
        last = self.closing[body]
        self.functions.append(Function(self.tokens[place + 1].text, self.start_of(place), self.tokens[body].end,
                                       self.tokens[last].end, generics, parameters, self.tokens[at].end,
                                       around, around_end))
        return last + 1

    def depth_of_angles(self, start, end):
        """How many angle brackets are open between two places."""
        return sum({"<": 1, ">": -1}.get(token.text, 0) for token in self.tokens[start:end])

    def constant(self, place, around):
        """Reads a constant. Answers the place behind it."""
        start = place
        while self.tokens[place].text != ";":
            place = self.closing.get(place, place) + 1
        self.constants.append(Constant(self.tokens[start + 1].text, self.start_of(start), self.tokens[place].end,
                                       around))
        return place + 1

    def import_of(self, place):
        """Reads a `use`. Answers the place behind it."""
        start = place
        while self.tokens[place].text != ";":
            place += 1
        if not start or self.tokens[start - 1].text != "ghost":
            self.uses.append((self.start_of(start), self.tokens[place].end))
        return place + 1

    def items(self):
        """The functions and constants, by what tells them apart."""
        return {item.key: item for item in [*self.functions, *self.constants]}

    def of(self, item):
        """The text of an item."""
        return self.text[item.start:item.end]

    def between(self):
        """What stands outside functions, constants and imports, without comments."""
        spans = sorted([(it.start, it.end) for it in self.items().values()] + self.uses)
        starts = [start for start, _ in spans]
        kept = []
        for token in self.tokens:
            at = bisect_left(starts, token.start + 1) - 1
            if at < 0 or spans[at][1] <= token.start:
                kept.append(token.text)
        return " ".join(kept)

    def reaches(self, name, crate=""):
        """Whether it imports a name, or writes it behind a path, and one into a crate where that is said."""
        written = rf"\b{crate}(::\w+)*::{name}\b" if crate else rf"\w::{name}\b"
        return (any(path.startswith(crate) and path.split("::")[-1].strip() == name for path in self.imports())
                or re.search(written, self.text) is not None)

    def imports(self):
        """The imported paths, one for each name."""
        return {path for start, end in self.uses for path in paths_of(bare(self.text[start:end]))}


def paths_of(text, before=""):
    """The paths that a `use`, as a bare text, imports."""
    text = re.sub(r"^(pub (\( \w+ \) )?)?use |;$", "", text).strip()
    found = re.match(r"(.*?)\{(.*)\}$", text)
    if not found:
        return [before + text]
    return [path for part in parts_of(found[2]) for path in paths_of(part, before + found[1])]


def parts_of(text):
    """The parts of a list between its commas, where no brace is open."""
    parts, depth = [""], 0
    for letter in text:
        depth += {"{": 1, "}": -1}.get(letter, 0)
        if letter == "," and depth == 0:
            parts.append("")
        else:
            parts[-1] += letter
    return [part.strip() for part in parts if part.strip()]


def names_of(parameters):
    """The names of parameters, in order, `self` among them, each with None or, where it is `_`, with the place behind
    that: a digit is to follow there. None where a parameter is a pattern."""
    names, depth, head = [], 0, []
    for token in [*tokens(parameters), Token("sign", ",", 0, 0)]:
        depth += {"(": 1, "[": 1, "{": 1, "<": 1, ")": -1, "]": -1, "}": -1, ">": -1}.get(token.text, 0)
        if token.text == "," and depth == 0:
            if head:
                names.append(name_of(head, len(names)))
            head = []
        else:
            head.append(token)
    return None if None in names else names


def name_of(parameter, number):
    """The name of a parameter, by its tokens and its number."""
    types = next((at for at, token in enumerate(parameter) if token.text == ":"), len(parameter))
    words = [token for token in parameter[:types] if token.kind != "lifetime" and token.text not in ("&", "mut")]
    if len(words) != 1 or words[0].kind != "word":
        return None
    return (f"_{number}", words[0].end) if words[0].text == "_" else (words[0].text, None)


def arguments_of(generics):
    """The types and constants that generic parameters name, as a call gives them; nothing where there are none."""
    parts = [part for part in parts_of(generics.strip("<>")) if not part.startswith("'")]
    names = [re.sub(r"^const ", "", part).split(":")[0].strip() for part in parts]
    return f"::<{', '.join(names)}>" if names else ""
