#!/usr/bin/env python3
"""compare.py PROGRAM COUNT SEED: runs the job program on COUNT texts and compares the bytes that it writes with the model's.

The whole set is run twice. A text that is a file's the first time is standard input's the second, and the other way round; the bytes must
be the same both times. The same seed makes the same texts. Ends in 'N jobs agree, M differ'; exit status 1 if one differs, or if the
program writes an answer where it has read no text.
"""
import functools
import multiprocessing
import os
import subprocess
import sys
import tempfile
from collections import Counter

from job import answer
from texts import texts

SHOWN = 5  # differences that are shown
AT_ONCE = 40  # texts that a worker takes


def written(program, words, text=b""):
    """What the program writes; its messages too, if it has any or fails."""
    done = subprocess.run([program, *words], input=text, capture_output=True)
    fault = b"status %d: " % done.returncode + done.stderr if done.returncode or done.stderr else b""
    return fault + done.stdout


def run(program, by_file, text):
    if not by_file:
        return written(program, [], text)
    with tempfile.NamedTemporaryFile(suffix=".job") as file:
        file.write(text)
        file.flush()
        return written(program, [file.name])


def tried(program, again, numbered):
    """The answer that is due, or none in the second round, and the one that is given."""
    number, text = numbered
    return None if again else answer(text), run(program, (number % 2 == 0) != again, text)


def is_silent(program):
    """Whether nothing but a message is written where no text can be read."""
    with tempfile.TemporaryDirectory() as folder:
        asked = [os.path.join(folder, "missing")], [folder], [""], ["one", "two"]
        done = [subprocess.run([program, *words], input=b"", capture_output=True) for words in asked]
    return all(not each.stdout and each.stderr for each in done)


def compare(program, count, seed, workers, figures):
    first = []
    for due, given in workers.imap(functools.partial(tried, program, False), enumerate(texts(count, seed)), AT_ONCE):
        first.append((due, given))
        figures[due.split(b"\n", 1)[0].decode() if due.startswith(b"refused") else "accepted"] += 1
    second = workers.imap(functools.partial(tried, program, True), enumerate(texts(count, seed)), AT_ONCE)
    for number, ((due, given), (_, again)) in enumerate(zip(first, second)):
        same = due == given == again
        figures["agree" if same else "differ"] += 1
        if not same and figures["differ"] <= SHOWN:
            print(f"text {number} of seed {seed}\n  due    {due}\n  first  {given}\n  second {again}")


def main(program, count, seed):
    figures = Counter()
    with multiprocessing.Pool() as workers:
        compare(program, int(count), int(seed), workers, figures)
    for name in sorted(name for name in figures if name not in ("agree", "differ")):
        print(f"{name}: {figures[name]}".replace("\t", " "))
    silent = is_silent(program)
    if not silent:
        print("an answer where no text was read")
    print(f"{figures['agree']} jobs agree, {figures['differ']} differ")
    sys.exit(1 if figures["differ"] or not silent else 0)


if __name__ == "__main__":
    main(*sys.argv[1:])
