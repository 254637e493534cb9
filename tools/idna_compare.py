#!/usr/bin/env python3
"""Compares `is_valid_idn_hostname` with the package `idna` of Python, on generated labels and names.

    python3 tools/idna_compare.py                  4,000 names, by the seed 1
    python3 tools/idna_compare.py 500 7            another number of names, and another seed
    python3 tools/idna_compare.py --code-points    the derived property of each code point, by the rules of the rows
                                                   and by `idna`

It wants the package `idna`, and the toolchain: `rt try` in `crates/strkw_test_grammars` asks the program without a
proof, or the program that `rt run` has built there answers. `idna` is asked with `strict=True` and no mapping of
UTS 46.

Names are made of labels of scripts with contextual rules, of scripts that run from right to left, with hyphens, marks
and digits, and of A-labels, of which some are then spoilt. Each difference is told with both answers and classed by the
rule that explains it. One that no rule explains is told as such, and the status is then 1. It is no part of the gate.
"""
import json
import random
import re
import subprocess
import sys
import unicodedata
from collections import Counter
from pathlib import Path

import idna
import idna.idnadata
from idna.intranges import intranges_contain
from rows.grammars import labels as rules

CRATE = Path(__file__).resolve().parent.parent / "crates" / "strkw_test_grammars"
PROGRAM = CRATE / "out" / "strkw_test_grammars"
NAMES, SEED = 4000, 1
MOST_TOLD = 5
SECONDS = 900
STEPS = 4_000_000_000
# Characters of a kind, from which labels are made.
KINDS = ["abclxyz0189", "abcl-", "ABX", "\u00fc\u00e9\u00df\u00b7l", "\u03b1\u03b2\u03c2\u0375\u1f00",
         "\u05d0\u05d1\u05ea\u05f3\u05f4\u05b00", "\u0628\u0627\u064a\u064b\u0660\u06f0\u200c",
         "\u0915\u094d\u0937\u200c\u200d\u093f", "\u30fb\u30a2\u3042\u4e00\u3007\u30fc", "\u0430\u0431\u0432\u0301",
         "a\u0301\u0308\u0323u", "\u1100\u1161\uac00\u11a8", "\u0640\u07fa\u302e\u3031",
         "\u0710\u0712\u070f\u200c\u0730", "\u1820\u1821\u200c\u180b\u18a9", "\u00c0\u2126\uff21\ufb01\u00aa",
         "\u0378\u20d0\u2c2f\U0001f600", "\u088f\u1c8a\ua7cb\U00010d4a\U0002ebf0", "_ !@"]


class Maker:
    """Makes names, the same ones for the same seed."""

    def __init__(self, seed):
        self.random = random.Random(seed)

    def plain(self):
        """Some characters of one kind, or of two."""
        kind = self.random.choice(KINDS)
        if self.random.random() < 0.25:
            kind += self.random.choice(KINDS)
        return "".join(self.random.choice(kind) for _ in range(self.random.choice([1, 1, 2, 2, 3, 4, 5, 8])))

    def label(self):
        """A label: as it is made, as an A-label, very long, or with two hyphens."""
        made = self.plain()
        kind = self.random.random()
        if kind < 0.3:
            made = "xn--" + made.encode("punycode").decode("ascii")
            made = made.upper() if self.random.random() < 0.2 else made
            made = self.spoilt(made) if self.random.random() < 0.3 else made
        elif kind < 0.34:
            made *= self.random.choice([7, 12, 20, 31, 60])
        elif kind < 0.38:
            made = made[:1] + "--" + made[1:] if self.random.random() < 0.5 else made[:2] + "--" + made[2:]
        return made

    def spoilt(self, label):
        """An A-label with a character behind `xn--` left out, put in or changed."""
        at = self.random.randrange(4, len(label) + 1)
        put = self.random.choice(["", *"-0a9zZ"])
        return label[:at] + put + label[at + self.random.randrange(2):]

    def name(self):
        """One to three labels with dots between them, and rarely a dot at the end."""
        labels = [self.label() for _ in range(self.random.choice([1, 1, 1, 1, 2, 2, 3]))]
        name = labels[0] + "".join(self.random.choice("....\u3002\uff0e\uff61") + label for label in labels[1:])
        return name + "." if self.random.random() < 0.02 else name


def answers_of(program, kind, texts):
    """Which of the texts the program takes for this format: each has a row that expects so, and a row that fails is
    written out."""
    rows = [json.dumps({"ask": "texts", "of": kind, "yes": [text]}, ensure_ascii=False) for text in texts]
    run = subprocess.run(program, cwd=CRATE, input="".join(f"{row}\n" for row in rows), stdout=subprocess.PIPE,
                         stderr=subprocess.PIPE, text=True, errors="replace")
    if f"{len(rows)} rows, {len(rows)} answers\n" not in run.stderr:
        raise SystemExit(f"{len(rows)} texts were asked: {(run.stdout + run.stderr)[-500:]}")
    failing = set(run.stdout.split("\n"))
    return [row not in failing for row in rows]


def here(kind, texts):
    """Which of the texts the program takes for this format, as it is built or as `rt try` runs it."""
    if PROGRAM.exists():
        return answers_of([PROGRAM], kind, texts)
    return answers_of(["rt", "try", "--seconds", str(SECONDS), "--steps", str(STEPS)], kind, texts)


def there(name):
    """Whether `idna` encodes the name, and what it says where it does not."""
    try:
        idna.encode(name, strict=True, uts46=False, std3_rules=True)
        return True, ""
    except (idna.IDNAError, UnicodeError, ValueError, IndexError, OverflowError) as why:
        return False, f"{type(why).__name__}: {why}"


def forms(labels):
    """Each label as text: of an A-label what it encodes, where that is a text."""
    for label in labels:
        try:
            yield label[4:].lower().encode("ascii").decode("punycode") if label[:4].lower() == "xn--" else label
        except (UnicodeError, ValueError, OverflowError):
            yield label


def is_of_later_editions(name):
    """Whether a character is assigned since the edition that Python has, which `idna` asks for directions and marks."""
    characters = "".join(forms(re.split(f"[{rules.DOTS}]", name)))
    return any(unicodedata.category(one) == "Cn" and rules.is_permitted(ord(one)) for one in characters)


def reason(name, is_here):
    """The rule by which one side alone accepts a name, by what the name has; `None` where none is known."""
    dots = re.split(f"[{rules.DOTS}]", name)
    if is_here and re.search(f"[{rules.DOTS[1:]}]", name):
        return "`strict=True` separates labels by the full stop alone"
    if is_here and is_of_later_editions(name):
        return "Python's tables are of an earlier edition of Unicode"
    if not is_here and name.endswith("."):
        return "`idna` takes a last dot, for the root"
    if not is_here and any(label[:4].lower() == "xn--" and rules.unicode_form(label) is None for label in dots):
        return "`idna` does not encode again what an A-label encodes"
    if not is_here and not rules.is_idn_host_name(name) and all(rules.unicode_form(label) for label in dots):
        return "`idna` applies the Bidi rule to each label by itself"
    return None


def compare(names):
    """Counts what both sides say, and tells the differences by their reasons."""
    counts, told, unexplained = Counter(), Counter(), 0
    for name, is_here in zip(names, here("idn-hostname", names)):
        is_there, said = there(name)
        counts[f"{'accepted' if is_here else 'refused'} here, {'accepted' if is_there else 'refused'} by idna"] += 1
        if is_here == is_there:
            continue
        why = reason(name, is_here)
        unexplained += why is None
        told[why or "no rule known"] += 1
        if why is None or told[why] <= MOST_TOLD:
            answers = f"here {is_here}, idna {is_there}{': ' + said if said else ''}"
            print(f"{json.dumps(name)}: {answers}: {why or 'NO RULE KNOWN'}")
    for what, count in [*sorted(counts.items()), *sorted(told.items())]:
        print(f"  {count} {what}")
    return unexplained


def code_points():
    """Compares the derived property of each code point, by the rules of the rows and by the tables of `idna`."""
    differences = {}
    for point in range(0x110000):
        classes = [name for name, ranges in idna.idnadata.codepoint_classes.items() if intranges_contain(point, ranges)]
        other = classes[0] if classes else "none"
        mine = rules.derived_property(point) if rules.is_permitted(point) else "none"
        if mine != other:
            differences.setdefault((mine, other), []).append(point)
    later = rules.points_of(rules.ADDED["18.0"])
    unexplained = 0
    for (mine, other), points in differences.items():
        unknown = [point for point in points if point not in later]
        unexplained += len(unknown)
        print(f"{mine} here, {other} by idna: {len(points)}, "
              f"of which {len(points) - len(unknown)} are of Unicode 18.0; "
              f"others: {[hex(point) for point in unknown[:20]]}")
    print(f"idna_compare: {unexplained} code points differ without a reason; idna {idna.__version__} has Unicode "
          f"{idna.idnadata.__version__}")
    return unexplained


def main():
    """Compares names, or all code points."""
    if "--code-points" in sys.argv[1:]:
        return 1 if code_points() else 0
    count, seed = ([int(word) for word in sys.argv[1:]] + [NAMES, SEED][len(sys.argv) - 1:])[:2]
    maker = Maker(seed)
    names = [maker.name() for _ in range(count)]
    unexplained = compare(names)
    print(f"idna_compare: {count} names of the seed {seed}, idna {idna.__version__}: "
          f"{unexplained} differences without a reason")
    return 1 if unexplained else 0


if __name__ == "__main__":
    sys.exit(main())
