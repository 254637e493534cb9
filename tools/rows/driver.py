"""Makes the generated rows, compares them with the manifest, and feeds them to the programs that answer them.

    python3 tools/rows                   both: makes all sections, and feeds them to the builds that `rt ci` left
    python3 tools/rows --made            makes and compares alone, and keeps what is made in out/rows
    python3 tools/rows --kept            feeds what is kept there
    python3 tools/rows --store           makes all sections, keeps them, and writes the manifest
    python3 tools/rows --only WORD ..    feeds those whose name, behind that of their program, has one of these words
    python3 tools/rows --show WORD       prints those sections
    --by PROGRAM=PATH                    this build of a program in the place of those of `rt ci`

The last line is `N passed, M failed`: a section passes where it is made as the manifest has it, and one of a build
where the build answers each of its rows as it expects.
"""
import argparse
import os
from concurrent.futures import ProcessPoolExecutor, ThreadPoolExecutor
from functools import partial

from rows import grammars, keywords, kept, manifest, programs, records
from rows.section import Section


def sections_of(topic, package):
    """The sections of a package whose rows stand above the lines that are expected of them."""
    return [Section.of("strkw_test_rows", f"{topic}: {name}", rows) for name, rows in package.sections()]


# What makes sections, side by side.
MAKERS = {**grammars.MAKERS, "keywords": partial(sections_of, "keywords", keywords),
          "records": partial(sections_of, "records", records)}


def made_by(name):
    """The sections of one maker."""
    return list(MAKERS[name]())


def made():
    """All sections, in the order of the makers."""
    manifest.require_edition()
    with ProcessPoolExecutor() as pool:
        return [section for sections in pool.map(made_by, MAKERS) for section in sections]


def compared(sections):
    """How many sections are made as the manifest has them, and how many are not."""
    wrong = list(manifest.differences(sections))
    for line in wrong:
        print(f"rows: {line}", flush=True)
    return max(0, len(sections) - len(wrong)), len(wrong)


def fed(sections, given):
    """How many sections each build answers as they expect, and how many not."""
    builds = {name: programs.built(name, given) for name in dict.fromkeys(it.program for it in sections)}
    runs = [(build, section) for section in sections for build in builds[section.program]]
    with ThreadPoolExecutor(os.cpu_count()) as pool:
        failures = list(pool.map(lambda run: programs.failure(*run), runs))
    for (build, section), failure in zip(runs, failures):
        if failure:
            print(f"rows: {build.name}: {section.name}:\n{failure}", flush=True)
    rows, answers = sum(it.rows for it in sections), sum(it.answers for it in sections)
    print(f"rows: {rows} rows with {answers} answers, by {len(runs) // max(1, len(sections))} builds", flush=True)
    return failures.count(""), len(runs) - failures.count("")


def asked_for():
    """The options of the command line."""
    parser = argparse.ArgumentParser(prog="tools/rows", description=__doc__.split("\n")[0])
    parser.add_argument("--made", action="store_true", help="make and compare alone, and keep what is made")
    parser.add_argument("--kept", action="store_true", help="feed what is kept")
    parser.add_argument("--store", action="store_true", help="write the manifest")
    parser.add_argument("--only", nargs="+", metavar="WORD", help="feed the sections whose name has one of the words")
    parser.add_argument("--show", metavar="WORD", help="print the sections whose name has the word")
    parser.add_argument("--by", action="append", default=[], metavar="PROGRAM=PATH", help="this build of a program")
    return parser.parse_args()


def named(sections, words):
    """The sections whose name has one of the words."""
    return [it for it in sections if any(word in it.title for word in words)]


def main():
    """Makes, compares, keeps, stores, shows or feeds, as asked."""
    options = asked_for()
    sections = list(kept.kept()) if options.kept else made()
    if options.show:
        print("".join(f"# {it.title}\n{it.text}" for it in named(sections, [options.show])), end="")
        return 0
    if options.store:
        manifest.store(sections)
        kept.keep(sections)
        return 0
    counts = [] if options.kept else [compared(sections)]
    if options.made:
        kept.keep(sections)
    else:
        given = dict(pair.split("=", 1) for pair in options.by)
        counts.append(fed(named(sections, options.only or [""]), given))
    passed, failed = map(sum, zip(*counts))
    print(f"{passed} passed, {failed} failed")
    return 1 if failed or not passed else 0
