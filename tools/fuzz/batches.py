"""The loop that compiles.py and picks.py share: calls in batches, each a line that a program answers by a line, in every build."""
import pathlib
import re
import time
from collections import Counter

from havoc import mutant
from programs import WAYS, Guided, told, written

NO_CALLS = 5  # lines of a batch that are damaged, so that most are no calls
FAILED = re.compile(rb"no end|status (?!0:)")  # what `written` says of a program that didn't end by itself


class Batches:
    """A program's builds, and the calls that were news."""

    def __init__(self, name, builds, findings, dice):
        self.name, self.builds, self.findings, self.dice = name, pathlib.Path(builds), findings, dice
        self.guided = Guided(self.builds / f"{name}.guided")
        self.pool, self.figures = [], Counter()

    def program(self, way):
        return self.builds / f"{self.name}.{way}"

    def add(self, way, line, due, given):
        self.findings.add(f"{self.name}.{way}", line, due, given)

    def in_one_build(self, way, lines, due):
        """All lines in one run; where that isn't as due, each line by itself."""
        self.figures[f"calls answered by {self.name}.{way}"] += len(lines)
        if written(self.program(way), b"".join(lines)) == b"".join(due):
            return
        before = self.findings.count
        for line, one in zip(lines, due):
            given = written(self.program(way), line)
            if given != one:
                self.add(way, line, one, given)
            if self.findings.are_enough():
                return
        if self.findings.count == before:
            self.add(way, b"".join(lines), b"".join(due), b"wrong in one run alone")

    def guide(self, calls, lines, due):
        for call, line, one in zip(calls, lines, due):
            given, news = self.guided.answer(line)
            self.figures[f"calls answered by {self.name}.guided"] += 1
            number = int(one.split(b" ", 1)[0])
            self.figures[f"due refusal {number:2}" if number else "due accepted"] += 1
            if given != one:
                self.add("guided", line, one, given)
            if news:
                self.pool.append(call)
            if self.findings.are_enough():
                return

    def damage(self, lines):
        """Damaged lines: there is no model of what is said of them, but every build must end by itself, and all must say the same."""
        for _ in range(NO_CALLS):
            line = mutant(self.dice, self.dice.choice(lines), self.dice.choice(lines))
            said = [written(self.program(way), line) for way in WAYS]
            self.figures["damaged lines"] += 1
            if len(set(said)) > 1 or FAILED.match(said[0]):
                self.add("damaged", line, said[0], b"\n".join(said[1:]))

    def try_calls(self, calls, lines, due):
        for way in WAYS:
            self.in_one_build(way, lines, due)
        self.guide(calls, lines, due)
        self.damage(lines)


def run(batches, seconds, make, line_of, answers_due):
    """Batches of calls until the time is over: make(news) gives calls, line_of a call's line, answers_due the lines due to calls. The exit status."""
    began, count = time.monotonic(), 0
    while not batches.findings.are_enough() and time.monotonic() - began < float(seconds):
        calls = make(batches.pool)
        lines = [(line_of(call) + "\n").encode() for call in calls]
        batches.try_calls(calls, lines, [(line + "\n").encode() for line in answers_due(calls)])
        count += len(calls)
    batches.figures["calls that were news"] = len(batches.pool)
    return told("calls", count, batches.figures, batches.findings, time.monotonic() - began)
