#!/usr/bin/env python3
"""compare.py NAME WORD..: runs the host that the words start over the gate's job files, and compares its answers with those of the job program.

Each job is run twice: from its file, and from standard input. A host that ends with another status than 0 differs too.
"""
import pathlib
import re
import subprocess
import sys

CASES = pathlib.Path(__file__).resolve().parents[2] / "crates" / "page_cases"


def due_answers():
    """Name and answer of each job, in the gate's order: in the file `stdout` each answer stands behind its job's name."""
    parts = re.split(rb"^(.+\.job)\n", (CASES / "stdout").read_bytes(), flags=re.MULTILINE)[1:]
    answers = dict(zip((name.decode() for name in parts[::2]), parts[1::2]))
    names = (CASES / "args").read_text().split()
    if list(answers) != names:
        sys.exit("compare.py: the gate's answers are not those of the gate's jobs")
    return answers


def answers_of(words, path):
    """Status and output of the host, by the job's file and by standard input."""
    runs = [subprocess.run([*words, path], capture_output=True, check=False)]
    with path.open("rb") as text:
        runs.append(subprocess.run(words, stdin=text, capture_output=True, check=False))
    return [(run.returncode, run.stdout) for run in runs]


def main(name, *words):
    differ = 0
    due = due_answers()
    for job, answer in due.items():
        found = answers_of(words, CASES / "data" / job)
        if found != [(0, answer)] * 2:
            differ += 1
            print(f"{name}: {job}: {found}, not {answer}")
    print(f"{name}: {len(due) - differ} answers agree, {differ} differ")
    sys.exit(1 if differ else 0)


if __name__ == "__main__":
    main(*sys.argv[1:])
