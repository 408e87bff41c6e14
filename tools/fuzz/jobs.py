#!/usr/bin/env python3
"""jobs.py BUILDS SECONDS SEED FINDINGS: fuzzes the job programs with mutants of the gate's job files and compares each answer with the model's.

Every mutant is answered by the guided build of page or of large_page. One that reaches what none before had reached is mutated further, and it and
one of so many others are answered by page and large_page in every build. Ends in 'N texts, M findings'; exit status 1 if there is a finding.
"""
import pathlib
import random
import sys
import time
from collections import Counter

from havoc import mutant
from programs import WAYS, Findings, Guided, told, written
from job import DOCUMENT, LARGER, answer, pick
from texts import at_a_limit, random_job, text_of

CASES = pathlib.Path(__file__).parent.parent.parent / "crates/page_cases/data"
SIZES = {"page": DOCUMENT, "large_page": LARGER}
MOSTLY_PAGE = ["page"] * 9 + ["large_page"]
MOST_ROWS = 40_000  # that the model writes for a text
FRESH = 0.05  # of the texts are new jobs
EVERY = 40  # one of so many texts goes to all builds, news or not
PATIENCE = 2  # seconds for a search that the model doesn't end


class TooLong(Exception):
    """The model has written more rows than it may."""


def answer_due(text, sizes):
    """The model's answer; None if its search is too long, which its rows tell, and no clock."""
    rows = 0

    def counted(*given):
        nonlocal rows
        done = pick(*given)
        rows += len(done.nodes) + len(done.edges)
        if rows > MOST_ROWS:
            raise TooLong
        return done

    try:
        return answer(text, sizes, counted)
    except TooLong:
        return None


class Run:
    """The texts that were news, and the figures."""

    def __init__(self, builds, findings, dice):
        self.builds, self.findings, self.dice = pathlib.Path(builds), findings, dice
        self.guided = {name: Guided(self.builds / f"{name}.guided") for name in SIZES}
        self.pool, self.figures = [], Counter()

    def compare(self, program, text, due, given):
        self.figures[f"texts answered by {program}"] += 1
        if given != due:
            self.findings.add(program, text, due, given)

    def in_every_build(self, text):
        for name, sizes in SIZES.items():
            due, ways = answer_due(text, sizes), WAYS
            if due is None:
                # the fast builds' answers must be the same
                due, ways = written(self.builds / f"{name}.proved", text, PATIENCE), ("rattle",)
                self.figures["texts too long for the model, in the fast builds alone"] += 1
            if due.startswith(b"no end"):
                self.figures["of these, without an answer in time"] += 1
                continue
            for way in ways:
                self.compare(f"{name}.{way}", text, due, written(self.builds / f"{name}.{way}", text))

    def is_news(self, text):
        """Answers the text in a guided build."""
        name = self.dice.choice(MOSTLY_PAGE)
        due = answer_due(text, SIZES[name])
        if due is None:
            return False
        given, news = self.guided[name].answer(text)
        self.compare(f"{name}.guided", text, due, given)
        self.figures["due " + (due.split(b"\n")[0].decode().replace("\t", " ") if due.startswith(b"refused") else "best")] += 1
        return news

    def try_text(self, text, in_all=False):
        news = self.is_news(text)
        if news:
            self.pool.append(text)
        if news or in_all or self.dice.randrange(EVERY) == 0:
            self.in_every_build(text)

    def next_text(self):
        if self.dice.random() < FRESH:
            return text_of(*self.dice.choice((random_job, at_a_limit))(self.dice))
        return mutant(self.dice, self.dice.choice(self.pool), self.dice.choice(self.pool))


def main(builds, seconds, seed, folder):
    run = Run(builds, Findings(folder), random.Random(f"jobs {seed}"))
    began, count = time.monotonic(), 0
    seeds = [file.read_bytes() for file in sorted(CASES.glob("*.job"))]
    run.pool.extend(seeds)
    while not run.findings.are_enough() and (count < len(seeds) or time.monotonic() - began < float(seconds)):
        run.try_text(seeds[count] if count < len(seeds) else run.next_text(), in_all=count < len(seeds))
        count += 1
    run.figures["texts kept, with the gate's"] = len(run.pool)
    sys.exit(told("texts", count, run.figures, run.findings, time.monotonic() - began))


if __name__ == "__main__":
    main(*sys.argv[1:])
