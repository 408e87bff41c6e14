#!/usr/bin/env python3
"""tries.py COPY COUNT SEED: runs COUNT texts by `rt try` in a copy of the repository: compiled with checks, and on the interpreter where it can.

First as files, by page_cases. The interpreter can make no call of C but read and write, so there a second program answers the texts from
standard input, some in a run, one after the other. A run on it has a limit of steps, and where it stops the run is compiled only.
Exit status 1 if one answer isn't the model's.
"""
import pathlib
import re
import shutil
import subprocess
import sys

from cases import put_cases
from job import MOST_BYTES, answer
from texts import texts

LONGEST = MOST_BYTES + 1  # bytes that a program reads of a text
AT_ONCE = 10  # texts in a run on the interpreter
STEPS, SECONDS = 200_000_000, 1200  # of a run on the interpreter, and of one that is compiled


def tried(crate, words, given, due):
    """Runs a program with no proof; whether the interpreter ended too. An answer that isn't due ends this program."""
    limits = ["--steps", str(STEPS), "--seconds", str(SECONDS)]
    done = subprocess.run(["rt", "try", *limits, *words], cwd=crate, input=given, capture_output=True)
    said = done.stderr.decode(errors="replace")
    if done.returncode or done.stdout != due:
        sys.exit(f"{said}{crate.name}: status {done.returncode}, or an answer that isn't the model's")
    return not re.search(r"\brunners=1\b", said)


def add_stream(copy):
    """The second program, with what page is made of."""
    (copy / "crates/page_stream/src").mkdir(parents=True)
    shutil.copy(pathlib.Path(__file__).parent / "stream.txt", copy / "crates/page_stream/src/main.rt")
    listed = (copy / "crates.txt").read_text()
    page = next(line for line in listed.splitlines() if line.startswith("page:"))
    (copy / "crates.txt").write_text(listed + page.replace("page:", "page_stream:") + "\n")
    return copy / "crates/page_stream"


def main(copy, count, seed):
    copy = pathlib.Path(copy)
    jobs = {f"job_{number}": text for number, text in enumerate(texts(int(count), int(seed)))}
    cases = copy / "crates/page_cases"
    put_cases(cases, jobs, {name: answer(text) for name, text in jobs.items()})
    data = [word for path in sorted((cases / "data").iterdir()) for word in ("--data", f"{path.name}={path}")]
    tried(cases, [*data, "--", *(cases / "args").read_text().split()], b"", (cases / "stdout").read_bytes())
    stream, answered, cut = add_stream(copy), 0, [text[:LONGEST] for text in jobs.values()]
    for first in range(0, len(cut), AT_ONCE):
        some = cut[first:first + AT_ONCE]
        given = b"".join(len(text).to_bytes(3, "big") + text for text in some)
        answered += len(some) * tried(stream, [], given, b"".join(map(answer, some)))
        print(f"{len(cut) - first - len(some)} to go", flush=True)
    print(f"{len(jobs)} jobs agree compiled with checks, from files and from standard input; {answered} of them in runs that ended on the interpreter too")


if __name__ == "__main__":
    main(*sys.argv[1:])
