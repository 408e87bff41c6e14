#!/usr/bin/env python3
"""figures.py RECORD...: a table of what mutate.py recorded, a line for each crate; a change that stands in two records counts once, as the later says."""
import pathlib
import sys
from collections import Counter

WORDS = {
    "refused": "Refused",
    "wrong": "By a proof's text alone, wrong when run",
    "alike": "By a proof's text alone, right when run",
    "text": "By a proof's text alone",
    "accepted": "Accepted",
    "loose": "Accepted, wrong when run",
}


def main():
    verdicts = {}
    for record in sys.argv[1:]:
        for line in pathlib.Path(record).read_text().splitlines():
            word, _, change = line.split("\t")[:3]
            if word in WORDS:
                verdicts[change] = word
    crates = {}
    for change, word in verdicts.items():
        crates.setdefault(change.split("/")[1], Counter())[word] += 1
    print("| Crate | Tried |", " | ".join(WORDS.values()), "|\n|---|---|" + "---|" * len(WORDS))
    for crate, counts in [*((f"`{c}`", n) for c, n in sorted(crates.items())), ("all", sum(crates.values(), Counter()))]:
        print(f"| {crate} | {sum(counts.values())} |", " | ".join(str(counts[word]) for word in WORDS), "|")


if __name__ == "__main__":
    main()
