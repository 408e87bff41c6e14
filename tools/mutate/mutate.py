#!/usr/bin/env python3
"""mutate.py [--definitions] [--each N] [--most M] [--seed S] [--further RECORD] [--list] [--record FILE] [CRATE...]: asks the checker about
small wrong programs, or with --definitions about small wrong definitions.

A change is of one line and keeps the shape of the code (programs.py) or of the definition (definitions.py). Of each function, constant or
definition of the named crates, or of all, N changes are tried (1 if it isn't said, all of them if N is 0), but of no crate more than M names;
the same seed chooses the same. The changed crate is checked in a copy of the repository, which has to be proved (rt all check), and a
program is run. A line for each change that is accepted, and for each that is refused only because a proof's text no longer fits, both with
what programs that lean on it write when they are run without proof, something wrong or what they should; last the counts. A change that
is no Rattle or doesn't type is not counted. FILE gets a line for each change.

A wrong definition that its own crate accepts may still break a theorem of a crate that leans on it: --further RECORD tries those that a
record says were accepted, and asks the crates of definitions and theorems above it too, one after another. Exit status 1 if a change is
accepted.
"""
import argparse
import pathlib
import random
import sys
from collections import Counter

import checker
import definitions
import programs

MEANINGS = {
    "accepted": "accepted",
    "loose": "accepted, and wrong when run",
    "text": "refused by a proof's text alone",
    "wrong": "refused by a proof's text alone, and wrong when run",
    "alike": "refused by a proof's text alone, and right when run",
}


def chosen(found, most, dice):
    """The changes of each name, in an order that the dice decide; of as many names as are asked for."""
    by_name = {}
    for change in found:
        by_name.setdefault((change.file, change.name), []).append(change)
    names = [dice.sample(changes, len(changes)) for changes in by_name.values()]
    return dice.sample(names, most) if most and most < len(names) else names


def accepted_in(record):
    """The changes that a record says were accepted."""
    lines = [line.split("\t") for line in pathlib.Path(record).read_text().splitlines()]
    return {words[2] for words in lines if words[0] == "accepted"}


def with_change(change):
    lines = (checker.TOP / change.file).read_text().splitlines()
    lines[change.number] = change.new
    text = "\n".join(lines) + "\n"
    return definitions.used(text, change.new) if change.file.endswith(".antt") else text


def main():
    words = argparse.ArgumentParser(description=__doc__.split("\n\n", 1)[0])
    words.add_argument("--definitions", action="store_true")
    words.add_argument("--each", type=int, default=1)
    words.add_argument("--most", type=int, default=0)
    words.add_argument("--seed", default="1")
    words.add_argument("--further")
    words.add_argument("--list", action="store_true", help="only say what can be tried, each name's in the order of the tries")
    words.add_argument("--record")
    words.add_argument("crates", nargs="*")
    asked = words.parse_args()
    source = definitions if asked.definitions else programs
    crates = asked.crates or [p.name for p in (checker.TOP / "crates").iterdir()]
    tries = {crate: chosen(source.changes(checker.TOP, crate), asked.most, random.Random(f"{asked.seed} {crate}")) for crate in sorted(crates)}
    if asked.further:
        before = accepted_in(asked.further)
        tries = {crate: [[c] for changes in names for c in changes if str(c) in before] for crate, names in tries.items()}
    if asked.list:
        for change in (change for names in tries.values() for changes in names for change in changes):
            print(change)
        return 0
    jobs = [(crate, [[(c, with_change(c)) for c in changes] for changes in names], asked.each, bool(asked.further)) for crate, names in tries.items()]
    jobs.sort(key=lambda job: -len(job[1]))
    counts = Counter()
    record = open(asked.record, "w") if asked.record else None
    for change, verdict in checker.try_all(jobs):
        counts[verdict.word] += 1
        if record:
            print(verdict.word, round(verdict.seconds), change, " | ".join(verdict.errors[:3]), sep="\t", file=record, flush=True)
        if verdict.word in MEANINGS:
            print(f"{MEANINGS[verdict.word]}: {change}", flush=True)
    said = ", ".join(f"{counts[word]} {meaning}" for word, meaning in MEANINGS.items())
    print(f"{sum(counts.values()) - counts['none']} changes: {counts['refused']} refused, {said}; {counts['none']} more were no Rattle")
    return 1 if counts["accepted"] + counts["loose"] else 0


if __name__ == "__main__":
    sys.exit(main())
