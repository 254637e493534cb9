#!/usr/bin/env python3
"""Lists what in a crate takes the prover longest, from the files that a check has kept.

    python3 tools/proof_times.py CRATE      the twenty dearest functions and files of lemmas, with their seconds
    python3 tools/proof_times.py CRATE N    the N dearest

A check writes a file to crates/CRATE/out/incremental for each module that it has proved, one after the other. So the
time from one file to the next is that of a module. It tells the truth of a whole check by one job that began without
that folder, on an otherwise idle machine:

    cd crates/CRATE && rm -rf out/incremental && rt check --jobs 1

Behind a function stands its dearest part: `Lts` and `Tie` are those of the borrow checker, `Proof` and `Answers` those
of its clauses. No part of the gate.
"""
import sys
from collections import Counter
from pathlib import Path

CRATES = Path(__file__).resolve().parent.parent / "crates"


def modules(crate):
    """Yields the modules that the check of a crate proved, each as its path below the crate and its seconds."""
    kept = (CRATES / crate / "out" / "incremental").glob("antt-checked-*/*.oantt")
    files = sorted((file.stat().st_mtime_ns, file.stem) for file in kept)
    for (begin, _), (end, name) in zip(files, files[1:]):
        for side in ("proofs", "specs"):
            front = f"Rattle-{crate}-{side}."
            if name.startswith(front):
                yield name[len(front):].split("."), (end - begin) / 1e9


def dearest(crate):
    """Returns the seconds of each function or file of lemmas, and those of its parts."""
    whole, parts = Counter(), {}
    for path, seconds in modules(crate):
        is_part = len(path) > 1 and path[-1][:1].isupper()
        place = ".".join(path[:-1] if is_part else path)
        whole[place] += seconds
        parts.setdefault(place, Counter())[path[-1]] += seconds
    return whole, parts


def main():
    if len(sys.argv) not in (2, 3):
        sys.exit(__doc__)
    whole, parts = dearest(sys.argv[1])
    if not whole:
        sys.exit(f"{sys.argv[1]}: no check of it is kept")
    for place, seconds in whole.most_common(int(sys.argv[2]) if len(sys.argv) > 2 else 20):
        part, most = parts[place].most_common(1)[0]
        print(f"{seconds:8.1f}  {place}  ({part} {most:.1f})")
    print(f"{sum(whole.values()):8.1f}  in all")


if __name__ == "__main__":
    main()
