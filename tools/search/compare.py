#!/usr/bin/env python3
"""compare.py PROGRAM COUNT SEED: sends the calls of COUNT searches, and as many damaged picks, to crates/search_replay and compares each answer with the model's.

The same seed makes the same calls. Ends in 'N calls agree, M differ'; exit status 1 if one differs.
"""
import random
import subprocess
import sys
from collections import Counter

from cases import calls_of, hostile, small
from lines import answer_line, request_line

SHOWN = 5  # differences that are shown whole
AT_ONCE = 500  # calls


def calls(count, seed):
    dice = random.Random(seed)
    for _ in range(count):
        name, blocks, ask, bound, order = small(dice.randrange(1 << 30))
        yield from calls_of(name, blocks, ask, bound, order, 12)
        call = hostile(dice)
        if call is not None:
            yield call


def compare(program, some, figures):
    lines = "".join(request_line(call) + "\n" for call in some)
    given = subprocess.run([program], input=lines, stdout=subprocess.PIPE, text=True).stdout.splitlines()
    given += ["no answer"] * (len(some) - len(given))
    for call, answer in zip(some, given):
        due = answer_line(call)
        figures[f"answer {due.split(' ', 1)[0]:>2}"] += 1
        figures["agree" if due == answer else "differ"] += 1
        if due != answer and figures["differ"] <= SHOWN:
            print(f"{call.sort}\n  request {request_line(call)}\n  due     {due}\n  given   {answer}")


def main(program, count, seed):
    figures, waiting = Counter(), []
    for call in calls(int(count), int(seed)):
        waiting.append(call)
        if len(waiting) == AT_ONCE:
            compare(program, waiting, figures)
            waiting = []
    compare(program, waiting, figures)
    for name in sorted(name for name in figures if name.startswith("answer")):
        print(f"{name}: {figures[name]}")
    print(f"{figures['agree']} calls agree, {figures['differ']} differ")
    sys.exit(1 if figures["differ"] else 0)


if __name__ == "__main__":
    main(*sys.argv[1:])
