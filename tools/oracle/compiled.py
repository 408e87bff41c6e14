#!/usr/bin/env python3
"""compiled.py ORACLE PROGRAM STATE [--quick]: sends the same calls to crates/replay and to the oracle, and compares everything.

STATE is a folder that remembers the pieces that agreed, so that a run that was stopped goes on; with another program, oracle or
set of calls it begins anew. The last line counts the calls that agree and those that differ.
"""
import argparse
import hashlib
import json
import pathlib
import subprocess
import sys
import time
from collections import Counter

from compiled_requests import SETS
from compiled_text import answer_line, request_line, rooms_of
from definition_cases import Oracle, line_of, refusal

SHOWN = 5  # differences of a piece that are shown whole
AT_ONCE = 2000  # calls
QUICK = 20  # a quick run compares one piece of so many
SOURCES = ("compiled.py", "compiled_requests.py", "compiled_text.py", "definition_cases.py")


def answers_due(oracle, calls):
    """The line that is due to each call."""
    asked = [(call.request, rooms_of(call.lengths)) for call in calls if refusal(call.request) is None]
    answers = iter(oracle.answers(asked))
    return [answer_line(call, next(answers) if refusal(call.request) is None else None) for call in calls]


def answers_given(program, calls):
    lines = "".join(request_line(call) + "\n" for call in calls)
    given = subprocess.run([program], input=lines, stdout=subprocess.PIPE, text=True).stdout.splitlines()
    return given + ["no answer"] * (len(calls) - len(given))


def show(call, due, given):
    print(f"{call.sort}: {line_of(call.request, rooms_of(call.lengths))}\n  request {request_line(call)}\n  due     {due}\n  given   {given}", flush=True)


def compare(oracle, program, calls, figures):
    """Counts the calls by sort and by what is due, and the differences."""
    for call, due, given in zip(calls, answers_due(oracle, calls), answers_given(program, calls)):
        figures[call.sort] += 1
        number = due.split(" ", 1)[0]
        figures["accepted" if number == "0" else f"refused by {int(number):2}"] += 1
        if due != given:
            figures["differ"] += 1
            if figures["differ"] <= SHOWN:
                show(call, due, given)


def compare_piece(oracle, program, calls):
    figures, waiting, start = Counter(), [], time.monotonic()
    for call in calls:
        waiting.append(call)
        if len(waiting) == AT_ONCE:
            compare(oracle, program, waiting, figures)
            waiting = []
    compare(oracle, program, waiting, figures)
    return {"figures": figures, "seconds": time.monotonic() - start}


class Memory:
    """The pieces that agreed, a line each in a file whose name says what was compared."""

    def __init__(self, folder, *compared):
        files = [*compared, *(pathlib.Path(__file__).parent / name for name in SOURCES)]
        contents = b"".join(pathlib.Path(file).read_bytes() for file in files)
        self.file = folder / f"{hashlib.sha256(contents).hexdigest()[:16]}.jsonl"
        lines = self.file.read_text(encoding="utf-8").splitlines() if self.file.exists() else []
        self.pieces = {tuple(key): result for key, result in map(json.loads, lines)}

    def piece(self, key, make):
        if key not in self.pieces:
            self.pieces[key] = make()
            if not self.pieces[key]["figures"].get("differ"):
                with self.file.open("a", encoding="utf-8") as file:
                    print(json.dumps([key, self.pieces[key]]), file=file)
        return self.pieces[key]


def tell(total, seconds):
    """Prints the figures; gives the number of differences."""
    differ = total.pop("differ", 0)
    for what, count in sorted(total.items()):
        print(f"{count:9} {what}")
    calls = sum(count for what, count in total.items() if not what.startswith(("accepted", "refused")))
    print(f"{calls - differ} requests agree, {differ} differ ({seconds:.0f} s)")
    return differ


def main():
    parser = argparse.ArgumentParser(description="Compares crates/replay with the oracle.")
    parser.add_argument("oracle")
    parser.add_argument("program")
    parser.add_argument("state", type=pathlib.Path)
    parser.add_argument("--quick", action="store_true", help=f"one piece of {QUICK}")
    parser.add_argument("--sets", nargs="+", default=[one.name for one in SETS], help="names of sets")
    given = parser.parse_args()

    oracle, memory, total, seconds = Oracle(given.oracle), Memory(given.state, given.oracle, given.program), Counter(), 0
    for one in (one for one in SETS if one.name in given.sets):
        for piece in range(min(QUICK // 2, one.pieces - 1), one.pieces, QUICK) if given.quick else range(one.pieces):
            result = memory.piece((one.name, piece), lambda: compare_piece(oracle, given.program, one.make(oracle, piece)))
            total.update(result["figures"])
            seconds += result["seconds"]
        print(f"{one.name}: compared, {seconds:.0f} s so far", file=sys.stderr, flush=True)
    sys.exit(1 if tell(total, seconds) else 0)


if __name__ == "__main__":
    main()
