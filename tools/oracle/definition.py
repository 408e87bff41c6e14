#!/usr/bin/env python3
"""definition.py ORACLE CRATES SCRATCH [--with-edit FILE...]: holds antt's definition of `compile` against the Rust.

Writes each case of definition_cases.py as a statement that antt has to compute, in a repository of its own in SCRATCH, beside
a copy of the definitions, and has it checked. With edits, it makes each in the copy, one at a time, and some statement must be
refused: an edit is a file as in must-fail/, of crate NAME if it stands in NAME/must-fail/ or in NAME/.
"""
import argparse
import pathlib
import re
import shutil
import subprocess
import sys
import time
from collections import Counter

from definition_cases import all_cases
from definition_statements import FORMS, HEAD, origin, statement

TO_A_FILE = 25  # statements


def put(path, text):
    path.parent.mkdir(parents=True, exist_ok=True)
    path.write_text(text, encoding="utf-8")


def crates_below(crates, name):
    """The crate and all that it leans on, each behind what it needs, with its line of crates.txt."""
    lines = (line.split("#")[0] for line in (crates.parent / "crates.txt").read_text(encoding="utf-8").splitlines())
    needs = {crate.strip(): deps.split() for crate, deps in (line.split(":") for line in lines if line.strip())}
    order = {}

    def visit(crate):
        for dep in needs[crate]:
            visit(dep)
        order[crate] = f"{crate}: {' '.join(needs[crate])}\n"

    visit(name)
    return order


def copy_definitions(crate, copy):
    """Definitions, and what makes them compute, without code and laws: a law that an edit breaks would end the check before the statements."""
    put(copy / "src" / "lib.rt", "// Definitions alone.\n#![tactic(auto)]\n")
    shutil.copytree(crate / "specs", copy / "specs")
    computing = crate / "proofs" / "Computing.antt"
    if computing.exists():
        put(copy / "proofs" / "Lib.antt", "-- What makes the definitions compute.\npub mod Computing\n")
        shutil.copy(computing, copy / "proofs")


def write_statements(crate, statements):
    texts = list(statements.values())
    parts = {f"Part{k // TO_A_FILE + 1:02}": texts[k:k + TO_A_FILE] for k in range(0, len(texts), TO_A_FILE)}
    put(crate / "src" / "lib.rt", "// Statements alone: compiles, with what the Rust or document 01's table makes of them.\n#![tactic(auto)]\n")
    put(crate / "specs" / "Lib.antt", "-- Short forms.\npub mod Forms\n")
    put(crate / "specs" / "Forms.antt", FORMS)
    put(crate / "proofs" / "Lib.antt", "-- The statements.\n" + "".join(f"pub mod {name}\n" for name in parts))
    for name, part in parts.items():
        put(crate / "proofs" / f"{name}.antt", HEAD + "".join(part))


def prepare(crates, scratch, statements):
    """Makes the scratch repository anew: the crate `compared`, and the definition of `compile` with all below it."""
    if (scratch / "crates").exists() and not (scratch / "crates" / "compared").exists():
        sys.exit(f"definition.py: {scratch} holds other crates")
    shutil.rmtree(scratch / "crates", ignore_errors=True)
    order = crates_below(crates, "calls")
    write_statements(scratch / "crates" / "compared", statements)
    for name in order:
        copy_definitions(crates / name, scratch / "crates" / name)
    put(scratch / "crates.txt", "".join(order.values()) + f"compared: {' '.join(order)}\n")


def make_edit(scratch, file):
    crate = file.parent.parent.name if file.parent.name == "must-fail" else file.parent.name
    edits = re.findall(r"^file: (.*)\nold: (.*)\nnew: (.*)$", file.read_text(encoding="utf-8"), re.MULTILINE)
    if not edits:
        sys.exit(f"definition.py: no edit in {file}")
    for name, old, new in edits:
        path = scratch / "crates" / crate / name
        text = path.read_text(encoding="utf-8")
        if text.count(old) != 1:
            sys.exit(f"definition.py: {file.name}: found {text.count(old)} times instead of once: {old}")
        put(path, text.replace(old, new))


def check(scratch):
    """The statements that antt refuses, each with its file and what antt says of it, and the seconds that the check took.

    A check that fails in any other way says nothing about the statements, and ends the program.
    """
    start = time.monotonic()
    done = subprocess.run(["rt", "check"], cwd=scratch / "crates" / "compared", stdout=subprocess.PIPE, stderr=subprocess.STDOUT, text=True)
    errors = re.findall(r"(\w+\.antt):\d+:\d+: error: `(s\d+)`: .*\n *(.*)", done.stdout)
    refused = {name: f"{file}: {says[:300]}" for file, name, says in errors}
    proved = done.returncode == 0 and "logic=proved" in done.stdout
    if proved != (not refused):
        sys.exit(f"{done.stdout}\ndefinition.py: the check failed, and not by a statement")
    return refused, time.monotonic() - start


def tell(cases):
    """How many cases of each sort there are, and how many of them each refusal is due to."""
    for sort, count in Counter(case.call.sort for case in cases).items():
        print(f"{count:5} {sort}")
    due = Counter(case.number for case in cases if case.number is not None)
    print(f"accepted: {len(cases) - sum(due.values())}; refused: {', '.join(f'{due[number]} by {number}' for number in sorted(due))}")


def compare(crates, scratch, cases, statements):
    """Whether every statement holds."""
    prepare(crates, scratch, statements)
    refused, seconds = check(scratch)
    for name, says in refused.items():
        print(f"{name}, {origin(cases[name])}\n  {says}")
    print(f"{len(statements) - len(refused)} statements hold, {len(refused)} refused ({seconds:.0f} s)")
    return not refused


def compare_edited(crates, scratch, statements, files):
    """Whether some statement is refused with each of the edits."""
    kept = 0
    for file in files:
        prepare(crates, scratch, statements)
        make_edit(scratch, file)
        refused, seconds = check(scratch)
        kept += not refused
        print(f"{file.stem}: {len(refused)} statements refused ({seconds:.0f} s)", flush=True)
    print(f"{len(files) - kept} edits refused, {kept} not refused")
    return kept == 0


def main():
    parser = argparse.ArgumentParser(description="Holds antt's definition of compile against the Rust.")
    parser.add_argument("oracle")
    parser.add_argument("crates", type=pathlib.Path)
    parser.add_argument("scratch", type=pathlib.Path)
    parser.add_argument("--with-edit", nargs="+", type=pathlib.Path, metavar="FILE")
    given = parser.parse_args()

    cases = {f"s{number:04}": case for number, case in enumerate(all_cases(given.oracle), 1)}
    statements = {name: statement(name, case) for name, case in cases.items()}
    tell(cases.values())
    if given.with_edit:
        right = compare_edited(given.crates, given.scratch, statements, given.with_edit)
    else:
        right = compare(given.crates, given.scratch, cases, statements)
    sys.exit(0 if right else 1)


if __name__ == "__main__":
    main()
