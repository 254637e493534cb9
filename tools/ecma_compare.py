#!/usr/bin/env python3
"""Compares the patterns of `strkw_ecma` with those of a JavaScript engine, on generated patterns and texts.

    python3 tools/ecma_compare.py                  2,000 patterns, each on 12 texts, by the seed 1
    python3 tools/ecma_compare.py 500 7            other numbers of patterns and seeds

It wants `node` on the path, and the built program `neldrafi` (`rt run` in `crates/neldrafi` builds it). `neldrafi check`
is given a schema with the pattern, and the texts as lines of JSON: it refuses the pattern, or reports the texts that do
not match. Node is asked for `new RegExp(form, "u")` of the pattern's strict form, and whether it is found in the text.

The strict form is the pattern, but for a backslash before a character of ASCII that is no letter and no digit, and that
mode `u` does not let stand there: in the place of both it has `\\x` and two digits. Of a pattern with such an escape
Node is also asked for `new RegExp(pattern)`, if what the pattern has means the same without the flag, on texts with no
character past U+FFFF.

Patterns are made by the grammar of ECMA-262, and about a third of them is then spoilt by a change of one character. One
that Node takes and the program does not is told apart by name where it has what is not taken by design; any other
difference is told, the shortest first, and the status is then 1. It is no part of the gate.
"""
import json
import random
import re
import subprocess
import sys
import tempfile
from collections import Counter
from concurrent.futures import ThreadPoolExecutor
from pathlib import Path

TOP = Path(__file__).resolve().parent.parent
PROGRAM = TOP / "crates/neldrafi/out/neldrafi"
PATTERNS, SEED, TEXTS = 2000, 1, 12
MOST_TOLD = 20
REFUSED = " is not taken: "
# What is taken by ECMA-262 and not here, by name.
BY_DESIGN = [
    ("back reference", re.compile(r"\\[1-9]|\\k<")),
    ("property", re.compile(r"\\[pP]\{(CWKCF|Changes_When_NFKC_Casefolded)")),
    ("name twice", re.compile(r"\(\?<(\w+)>.*\(\?<\1>", re.DOTALL)),
    ("lone surrogate", re.compile(r"\\u(\{0*)?[dD][89a-fA-F]")),
]
# A match of Node that begins between the two halves of a surrogate pair is none: ECMA-262 2024 (RegExpBuiltinExec,
# section 22.2.7.2) searches over characters there, and V8 finds `\B` within one. Then each place between characters is
# asked alone.
# What means something else without the flag `u`, or stands for a character past U+FFFF.
OF_MODE_U = re.compile(r"\\[pP]|\\u\{|\\u[dD][89a-fA-F]|[\U00010000-\U0010ffff]")
NODE = r"""
const halves = (text, at) => /[\uD800-\uDBFF]/.test(text[at - 1] ?? "") && /[\uDC00-\uDFFF]/.test(text[at] ?? "");
const told = [], plain = [];
let within = 0;
for (const [pattern, form, isPlain, texts] of JSON.parse(require("fs").readFileSync(0, "utf8"))) {
  try {
    const search = new RegExp(form, "u"), here = new RegExp(form, "uy");
    const at = (text, place) => { here.lastIndex = place; return here.test(text); };
    told.push(texts.map(text => {
      const found = search.exec(text);
      if (found === null || !halves(text, found.index)) return found !== null;
      within += 1;
      return [...Array(text.length + 1).keys()].some(place => !halves(text, place) && at(text, place));
    }));
  } catch (e) { told.push(null); }
  const unflagged = isPlain && told.at(-1) !== null ? new RegExp(pattern) : null;
  plain.push(unflagged && texts.map(text => /[\uD800-\uDFFF]/.test(text) ? null : unflagged.test(text)));
}
console.log(JSON.stringify([told, plain, within]));
"""
# Characters near the borders of what classes and assertions tell apart.
LETTERS = "abcxyzABZ019_-"
OTHERS = (" \t\n\r\u2028\u2029\u00a0\ufeff\u0085\u00e9\u017f\u212a\u0391\u03c9\u0301\u0663\u01c5\u4e2d"
          "\U0001f600\U0001f601/:@[`{.,=!#&~\"'<>;%")
SYNTAX = "^$\\.*+?()[]{}|/"
# Of ASCII no letter, no digit and none of those: behind a backslash they are no escapes of mode `u`.
SIGNS = "-_@ \"#'!%&,:;<=>`~\t\n"
ESCAPES = ["\\d", "\\D", "\\s", "\\S", "\\w", "\\W", "\\n", "\\t", "\\r", "\\f", "\\v", "\\0", "\\cA", "\\x41",
           "\\u0061", "\\u{62}", "\\u{1F600}", "\\uD83D\\uDE00", "\\u2028"]
# Properties, whose answers on the characters here are the same in each version of Unicode since 15.
PROPERTIES = ["\\p{Lu}", "\\p{Uppercase_Letter}", "\\P{Ll}", "\\p{L}", "\\P{Letter}", "\\p{LC}", "\\p{N}", "\\p{Nd}",
              "\\p{digit}", "\\P{punct}", "\\p{Sm}", "\\p{S}", "\\p{Zs}", "\\P{Z}", "\\p{cntrl}", "\\p{C}",
              "\\p{gc=Lo}", "\\P{General_Category=Mn}", "\\p{sc=Grek}", "\\P{Script=Greek}", "\\p{Script=Latin}",
              "\\p{sc=Han}", "\\p{sc=Zyyy}", "\\P{sc=Zinh}", "\\p{scx=Grek}", "\\P{Script_Extensions=Latin}",
              "\\p{scx=Zyyy}",
              "\\p{Any}", "\\P{ASCII}", "\\p{Assigned}", "\\p{Alphabetic}", "\\P{Alpha}", "\\p{Lower}",
              "\\P{Uppercase}",
              "\\p{CI}", "\\p{Cased}", "\\P{CWCF}", "\\p{CWT}", "\\p{Dash}", "\\p{Emoji}", "\\P{EPres}", "\\p{ExtPict}",
              "\\p{Gr_Base}", "\\P{Gr_Ext}", "\\p{Hex}", "\\P{AHex}", "\\p{ID_Start}", "\\p{XIDC}", "\\p{Math}",
              "\\P{Pat_Syn}", "\\p{QMark}", "\\p{SD}", "\\p{space}", "\\P{White_Space}"]
# Others: of properties that are not taken, and some that are none.
OTHER_PROPERTIES = ["\\p{CWKCF}", "\\p{alphabetic}", "\\P{Emoji=Yes}", "\\p{scx=grek}", "\\p{Greek}", "\\p{lu}",
                    "\\p{gc=Greek}", "\\p{}", "\\pL"]
QUANTIFIERS = ["*", "+", "?", "*?", "+?", "??", "{2}", "{0}", "{1,}", "{0,2}", "{1,3}?", "{2,2}", "{0,0}", "{3}?",
               "{2,}?"]


class Maker:
    """Makes patterns and texts, the same ones for the same seed."""

    def __init__(self, seed):
        self.random = random.Random(seed)
        # How often a term is an assertion or a lookaround, together.
        self.looks = 0.16

    def character(self):
        """A character by itself, escaped where the syntax wants that."""
        kind = self.random.random()
        if kind < 0.75:
            return self.random.choice(LETTERS)
        if kind < 0.88:
            return self.random.choice([character for character in OTHERS if character not in SYNTAX])
        if kind < 0.92:
            return "\\" + self.random.choice(SIGNS)
        return "\\" + self.random.choice(SYNTAX)

    def class_atom(self):
        """What may stand in a class, alone or at an end of a range."""
        kind = self.random.random()
        if kind < 0.2:
            return self.random.choice(ESCAPES)
        if kind < 0.26:
            return self.random.choice(PROPERTIES)
        if kind < 0.34:
            return self.random.choice(["\\b", "\\-", "\\]", "\\^", "^", "-", ".", "$", "(", "*", "\\\\"])
        if kind < 0.38:
            return "\\" + self.random.choice(SIGNS)
        return self.random.choice(LETTERS + OTHERS.replace("[", ""))

    def ranges(self):
        """Up to three members of a class."""
        parts = []
        for _ in range(self.random.randrange(4)):
            atom = self.class_atom()
            if self.random.random() < 0.3:
                atom += "-" + self.class_atom()
            parts.append(atom)
        return "".join(parts)

    def atom(self, depth):
        """A group, a class, an escape, a property or a character, with groups up to so deep."""
        kind = self.random.random()
        if depth > 0 and kind < 0.25:
            start = self.random.choice(["(", "(", "(?:", "(?:", "(?<n%d>" % self.random.randrange(1000)])
            return start + self.disjunction(depth - 1) + ")"
        if kind < 0.38:
            return self.random.choice(["[", "[^"]) + self.ranges() + "]"
        if kind < 0.48:
            return "."
        if kind < 0.62:
            return self.random.choice(ESCAPES)
        if kind < 0.68:
            return self.random.choice(PROPERTIES)
        if kind < 0.695:
            return self.random.choice(["\\1", "\\k<n1>", "\\uD83D"] + OTHER_PROPERTIES)
        return self.character()

    def term(self, depth):
        """An assertion, a lookaround, or an atom with a quantifier or without."""
        kind = self.random.random()
        if kind < 0.16:
            return self.random.choice(["^", "$", "^", "$", "\\b", "\\B"])
        if kind < self.looks and depth > 0:
            return self.look_ahead(depth) if self.random.random() < 0.4 else self.look_behind(depth)
        quantifier = self.random.choice(QUANTIFIERS) if self.random.random() < 0.4 else ""
        return self.atom(depth) + quantifier

    def look_behind(self, depth):
        start = self.random.choice(["(?<=", "(?<!"])
        return start + self.disjunction(self.random.choice([0, 0, 0, 1, 2]) if depth > 2 else 0) + ")"

    def look_ahead(self, depth):
        """Half of them look for one character, or for alternatives of one; the others for anything."""
        start = self.random.choice(["(?=", "(?!"])
        if self.random.random() < 0.5:
            return start + self.disjunction(self.random.choice([0, 0, 0, 1, 2]) if depth > 2 else 0) + ")"
        return start + "|".join(self.glance(depth - 1) for _ in range(self.random.choice([1, 1, 1, 2, 3]))) + ")"

    def glance(self, depth):
        kind = self.random.random()
        if kind < 0.2:
            return self.random.choice(["^", "$", "$", "\\b", "\\B", ""])
        if kind < 0.3 and depth > 0:
            return self.look_ahead(depth)
        return self.atom(0) + ("?" if kind > 0.9 else "")

    def disjunction(self, depth):
        """One to three alternatives."""
        alternatives = self.random.choice([1, 1, 1, 2, 3])
        return "|".join("".join(self.term(depth) for _ in range(self.random.randrange(5))) for _ in range(alternatives))

    def pattern(self):
        """About half of those that are patterns have lookarounds."""
        self.looks = self.random.choice([0.16, 0.7, 0.7, 0.85])
        made = self.disjunction(3)
        if self.random.random() < 0.3:
            made = "^" + made + "$"
        if self.random.random() < 0.33:
            made = self.spoilt(made)
        return made

    def spoilt(self, pattern):
        """The pattern with a character left out, put in or changed."""
        at = self.random.randrange(len(pattern) + 1)
        kind = self.random.random()
        if kind < 0.4:
            return pattern[:at] + pattern[at + 1:]
        put = self.random.choice(SYNTAX + "-,:<=!0129abcdux")
        return pattern[:at] + put + pattern[at + (kind > 0.7):]

    def text(self, pattern):
        """A text of characters that the pattern has, and of others."""
        near = [character for character in pattern if character not in SYNTAX] or ["a"]
        pick = lambda: self.random.choice(near if self.random.random() < 0.65 else LETTERS + OTHERS)
        text = "".join(pick() for _ in range(self.random.choice([0, 1, 1, 2, 3, 4, 6, 9])))
        return text + "\n" if self.random.random() < 0.06 else text

    def row(self):
        """A pattern and its texts."""
        pattern = self.pattern()
        return pattern, ["", "\n"] + [self.text(pattern) for _ in range(TEXTS - 2)]


def strict_form(pattern):
    """The pattern with the numbers of the characters that a backslash stands before and mode `u` does not let stand
    there."""
    form, in_class, at = [], False, 0
    while at < len(pattern):
        sign = pattern[at:at + 2]
        if sign[0] != "\\" or len(sign) == 1:
            in_class = sign[0] == "[" or in_class and sign[0] != "]"
            sign = sign[0]
        elif sign.isascii() and not sign[1].isalnum() and sign[1] not in SYNTAX and not (in_class and sign[1] == "-"):
            form.append(f"\\x{ord(sign[1]):02x}")
            at += 2
            continue
        form.append(sign)
        at += len(sign)
    return "".join(form)


def asked(row):
    """A row as Node is asked: with the strict form, and whether the pattern is asked for without the flag too."""
    pattern, texts = row
    form = strict_form(pattern)
    return pattern, form, form != pattern and OF_MODE_U.search(pattern) is None, texts


def node(rows):
    """What Node answers: of each pattern the verdict on each text, or `None` where it is not taken; the same without
    the flag `u`, where that is asked; and how many of its matches began within a surrogate pair."""
    run = subprocess.run(["node", "-e", NODE], input=json.dumps(list(map(asked, rows))), stdout=subprocess.PIPE,
                         text=True, check=True)
    return json.loads(run.stdout)


def here(row, folder, name):
    """The verdicts of the program."""
    pattern, texts = row
    schema = Path(folder) / f"{name}.json"
    schema.write_text(json.dumps({"pattern": pattern}))
    given = "".join(f"{json.dumps(text)}\n" for text in texts).encode()
    run = subprocess.run([PROGRAM, "check", "--as=jsonl", schema], input=given, stdout=subprocess.PIPE,
                         stderr=subprocess.PIPE)
    schema.unlink()
    if run.returncode == 2 and REFUSED in run.stderr.decode(errors="replace"):
        return None
    if run.returncode not in (0, 1):
        raise SystemExit(f"ecma_compare: {pattern!r}: {run.stderr.decode(errors='replace').strip()}")
    missed = {int(line.split(b":")[1]) for line in run.stdout.splitlines()}
    return [number not in missed for number in range(1, len(texts) + 1)]


def by_design(pattern):
    """Why a pattern of ECMA-262 is not taken; `None` where it has nothing that is left out by name."""
    return next((name for name, found in BY_DESIGN if found.search(pattern)), None)


def compare(rows, ours, theirs, unflagged):
    """Counts what both sides say, and lists the differences."""
    counts, wrong = Counter(), []
    for (pattern, texts), mine, other, plain in zip(rows, ours, theirs, unflagged):
        if mine is None and other is None:
            counts["taken by neither"] += 1
        elif mine is None:
            why = by_design(pattern)
            counts[f"taken by Node alone: {why or 'no reason known'}"] += 1
            if why is None:
                wrong.append((pattern, "", "taken by Node alone"))
        elif other is None:
            counts["taken here alone"] += 1
            wrong.append((pattern, "", "taken here alone"))
        else:
            counts["taken by both"] += 1
            for text, is_mine, is_other in zip(texts, mine, other):
                counts["pairs that match" if is_other else "pairs that do not match"] += 1
                if is_mine != is_other:
                    wrong.append((pattern, text, f"here {is_mine}, Node {is_other}"))
            for text, is_mine, is_other in zip(texts, mine, plain or []):
                counts["pairs that were compared without the flag"] += is_other is not None
                if is_other is not None and is_mine != is_other:
                    wrong.append((pattern, text, f"here {is_mine}, Node without the flag {is_other}"))
    return counts, wrong


def main():
    """Makes patterns, asks both sides, and tells the differences."""
    patterns, seed = ([int(word) for word in sys.argv[1:]] + [PATTERNS, SEED][len(sys.argv) - 1:])[:2]
    version = subprocess.run(["node", "--version"], stdout=subprocess.PIPE, text=True, check=True).stdout.strip()
    maker = Maker(seed)
    rows = [maker.row() for _ in range(patterns)]
    with tempfile.TemporaryDirectory() as folder, ThreadPoolExecutor() as pool:
        ours = list(pool.map(lambda numbered: here(numbered[1], folder, numbered[0]), enumerate(rows)))
    theirs, unflagged, within = node(rows)
    counts, wrong = compare(rows, ours, theirs, unflagged)
    counts["patterns with an escape that mode `u` does not have"] = sum(strict_form(row[0]) != row[0] for row in rows)
    counts["matches of Node within a surrogate pair, searched for again"] = within
    print(f"ecma_compare: {patterns} patterns of the seed {seed}, Node {version}")
    for what, count in sorted(counts.items()):
        print(f"  {count} {what}")
    for pattern, text, what in sorted(wrong, key=lambda found: len(found[0]) + len(found[1]))[:MOST_TOLD]:
        print(f"{json.dumps(pattern)} on {json.dumps(text)}: {what}")
    print(f"ecma_compare: {len(wrong)} differences")
    return 1 if wrong else 0


if __name__ == "__main__":
    sys.exit(main())
