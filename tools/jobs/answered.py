#!/usr/bin/env python3
"""answered.py PROGRAM [COUNT [SEED]]: which jobs a job program answers: by items and width, how many of COUNT random jobs end in a page.

A job's weights are 1 to 100 or 1 to 4,096 bytes, its profits by chance or near the weight, its page half of all weights, its cut by
chance. One line for each number of items and width: answered, refused by number, and not ended after LIMIT seconds.
"""
import random
import subprocess
import sys
from collections import Counter

from texts import text_of

ITEMS = 8, 12, 16, 20, 24, 32, 48, 64
WIDTHS = 4, 32, 256
LIMIT = 5


def page_job(dice, count, width):
    largest = dice.choice((100, 4_096))
    weights = [dice.randint(1, largest) for _ in range(count)]
    near = dice.random() < 0.5
    items = [(w, w + dice.randint(0, 10) if near else dice.randint(1, largest)) for w in weights]
    return text_of(min(65_535, sum(weights) // 2), width, dice.choice(("lel", "frontier")), items)


def outcome(program, text):
    try:
        done = subprocess.run([program], input=text, capture_output=True, check=True, timeout=LIMIT)
    except subprocess.TimeoutExpired:
        return f"over {LIMIT} s"
    first = done.stdout.split(b"\n", 1)[0].decode()
    return "answered" if first.startswith("best") else first.replace("\t", " ")


def main(program, count="40", seed="1"):
    for items in ITEMS:
        for width in WIDTHS:
            dice = random.Random(f"{seed} {items} {width}")
            figures = Counter(outcome(program, page_job(dice, items, width)) for _ in range(int(count)))
            print(f"{items} items, width {width}: " + ", ".join(f"{figures[name]} {name}" for name in sorted(figures)), flush=True)


if __name__ == "__main__":
    main(*sys.argv[1:])
