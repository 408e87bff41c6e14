#!/usr/bin/env python3
"""replay_list.py CRATES: makes the fixed list of calls that the gate replays, CRATES/search_replay/stdin and CRATES/search_replay/stdout.

The answers are the model's; crates/search_replay isn't run. The list is the same on every run, and isn't written if it lacks a
refusal, an order or a way to lend.
"""
import pathlib
import random
import sys
from collections import Counter

from cases import T, calls_of, hostile, orders, problem
from lines import answer_line, request_line
from search import Ask
import model

DUE = {0, 1, 2, 3, 4, 5, 6, 7, 8, 9, 11, 12, 13, 14}  # 10 needs a layer of 1,024 rows: crates/replay has it
SORTS = ("best bound", "worst bound", "first", "last", "random with seed", "just enough", "ample", "a node row short", "an edge row short", "a scratch place short", "a scratch word short", "a scratch word more", "a list place short")
HOSTILE = 80
LONGEST = 4000  # bytes of an answer


def whole_list():
    for cut in model.LEL, model.FRONTIER:
        for name, order in orders(7).items():
            yield from calls_of(f"T, {cut}, {name}", T, Ask(1, cut), model.I64_MIN, order, 8)
    for seed in range(6):
        dice = random.Random(seed)
        blocks = problem(dice, 5 + seed % 3, 6, 9)
        name, order = list(orders(seed).items())[seed % 5]
        yield from calls_of(f"problem {seed}, {name}", blocks, Ask(1 + seed % 3, (model.LEL, model.FRONTIER)[seed % 2]), model.I64_MIN, order, 5)
    dice = random.Random(11)
    count = 0
    while count < HOSTILE:
        call = hostile(dice)
        if call is not None and len(answer_line(call)) < LONGEST:
            count += 1
            yield call


def main(crates):
    calls = [call for call in whole_list() if len(answer_line(call)) < LONGEST]
    answers = [answer_line(call) for call in calls]
    figures = Counter(int(answer.split(" ", 1)[0]) for answer in answers)
    lacking = sorted(DUE - set(figures)) + [sort for sort in SORTS if not any(sort in call.sort for call in calls)]
    if lacking:
        sys.exit(f"the list lacks {lacking}")
    folder = pathlib.Path(crates) / "search_replay"
    (folder / "stdin").write_text("".join(request_line(call) + "\n" for call in calls))
    (folder / "stdout").write_text("".join(answer + "\n" for answer in answers))
    print(f"{len(calls)} calls: " + ", ".join(f"{count} answer {number}" for number, count in sorted(figures.items())))


if __name__ == "__main__":
    main(sys.argv[1])
