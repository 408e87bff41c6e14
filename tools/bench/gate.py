#!/usr/bin/env python3
"""gate.py LOG: what the gate proved and tried, crate by crate, as a Markdown table, from what `.ci/run` wrote to LOG. Run it at the repository's top.

Lines that aren't empty, of code (src), definitions and promises (specs) and proofs; must-fail edits that were refused. `rt ci` says no seconds.
"""
import pathlib
import re
import sys
from collections import Counter


def lines(crate, part):
    files = [f for kind in ("rt", "antt") for f in pathlib.Path("crates", crate, part).rglob(f"*.{kind}")]
    return sum(1 for f in files for line in f.read_text(encoding="utf-8").splitlines() if line.strip())


def main(log):
    text = pathlib.Path(log).read_text(encoding="utf-8")
    proved = re.findall(r"(?m)^rt: (\w+) (?:proved$|is kept: )", text)
    edits = Counter(re.findall(r"(?m)^rt: must-fail (\w+)/\S+: refused", text))
    total = [0] * 4
    print("| Crate | Code | Definitions | Proofs | Edits |\n|---|---|---|---|---|")
    for crate in proved:
        row = [lines(crate, part) for part in ("src", "specs", "proofs")] + [edits[crate]]
        total = [a + b for a, b in zip(total, row)]
        print(f"| `{crate}` | {' | '.join(f'{n:,}' for n in row)} |")
    print(f"| all {len(proved)} | {' | '.join(f'{n:,}' for n in total)} |")


if __name__ == "__main__":
    main(*sys.argv[1:])
