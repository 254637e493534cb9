"""Makes wrong programs, and says which rows notice them.

    python3 tools/mutants --table [CRATE ..]    runs the stored changes of the crates, by default of all, over the rows
    python3 tools/mutants --rules [CRATE ..]    runs changes that rules make of the sources, by default of all crates
    --most M       stops at so many sections that notice a change, 3 by default
    --seed S       which changes the rules make, 1 by default
    --sample N     how many of them, 200 by default

A stored change is one of tools/mutants/CRATE.mutants. All changes stand in one copy of the sources, each behind a
switch, so that each program is built once, without a proof. A section notices a change where the program with it does
not answer each row as expected. No rows are about `neldrafi_position` and `neldrafi_schema`: each test of the first and
of `neldrafi_test_schemas` is a section, and notices a change if it fails. The table is tools/mutants/noticed.tsv: a change, how many sections notice it, with a
`+` where not all were asked, and their names, the quick ones first. `--rules` prints the changes that no row notices.

It wants the rows of `python3 tools/rows --made` for all other crates. Not part of the gate.
"""
import argparse
import tempfile
from pathlib import Path

import unproved
from mutants import rules, stored, switch, table

TABLE = Path(__file__).resolve().parent / "noticed.tsv"


def asked_for():
    """The options of the command line."""
    parser = argparse.ArgumentParser(prog="tools/mutants", description=__doc__.split("\n")[0])
    kinds = parser.add_mutually_exclusive_group(required=True)
    kinds.add_argument("--table", action="store_true", help="run the stored changes")
    kinds.add_argument("--rules", action="store_true", help="run changes that rules make")
    parser.add_argument("--most", type=int, default=3, help="stop at so many sections that notice a change")
    parser.add_argument("--seed", type=int, default=1, help="which changes the rules make")
    parser.add_argument("--sample", type=int, default=200, help="how many changes the rules make")
    parser.add_argument("crates", nargs="*", metavar="CRATE")
    return parser.parse_args()


def built(mutants, folder):
    """The programs with all changes behind switches, and these changes: what the compiler refuses is left out."""
    programs = table.programs_about({mutant.crate for mutant in mutants})
    while True:
        with tempfile.TemporaryDirectory(dir=folder) as scratch:
            places, refused = switch.put_behind_switches(Path(scratch), mutants)
            try:
                if not refused:
                    return table.builds(Path(scratch), programs), mutants
            except unproved.Refused as why:
                refused = dict(switch.refusals(str(why), places))
                if not refused:
                    raise
        for name, why in refused.items():
            print(f"mutants: {name}: left out: {why}", flush=True)
        mutants = [mutant for mutant in mutants if mutant.name not in refused]


def lines_of_table(found):
    """The lines of the table."""
    for mutant, (sections, is_all) in found:
        count = f"{len(sections)}{'' if is_all else '+'}"
        yield "\t".join([mutant.name, count, "; ".join(sections)])


def write_table(found):
    """Writes the lines of changes into the table, in the place of those that they have there."""
    lines = {line.split("\t")[0]: line for line in TABLE.read_text().splitlines()[1:]} if TABLE.exists() else {}
    lines |= {line.split("\t")[0]: line for line in found}
    names = [mutant.name for crate in stored.crates() for mutant in stored.read(crate)]
    heading = "change\tcount\tsections"
    TABLE.write_text("".join(f"{line}\n" for line in [heading, *(lines[name] for name in names if name in lines)]))


def is_missed(mutant, sections):
    """Whether a row should notice a change, and none does: then it is told at once."""
    if sections or mutant.reason:
        return False
    print(f"{mutant.name}: NOT NOTICED: {mutant.wrong}", flush=True)
    return True


def main():
    """Runs the changes that the command line asks for."""
    options = asked_for()
    if options.table:
        mutants = [mutant for crate in options.crates or stored.crates() for mutant in stored.read(crate)]
    else:
        mutants = rules.sample(options.crates, options.seed, options.sample)
    with tempfile.TemporaryDirectory() as folder:
        paths, mutants = built(mutants, folder)
    found, missed = [], 0
    for mutant, (sections, is_all) in table.judged(paths, mutants, options.most):
        found.append((mutant, (sections, is_all)))
        missed += is_missed(mutant, sections)
        if options.table and len(found) % 20 == 0:
            write_table(lines_of_table(found))
    if options.table:
        write_table(lines_of_table(found))
    print(f"{len(found) - missed} noticed, {missed} missed")
    return 1 if missed or not found else 0
