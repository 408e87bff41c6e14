#!/usr/bin/env python3
"""replay_list.py ORACLE CRATES: makes the fixed list that the gate replays, CRATES/replay/stdin and CRATES/replay/stdout.

The answers are the oracle's, and document 01's table's for refusals 1 to 9 and 13; crates/replay isn't run. The list is the same
on every run. A list that lacks a refusal, or that some wrong reading of tools/model/traps.py would pass, is not written.
"""
import itertools
import pathlib
import sys
from collections import Counter

here = pathlib.Path(__file__).parent
sys.path.append(str(here.parent / "model"))
from compiled import answers_due
from compiled_requests import OLD, SETS, finished, lent
from compiled_text import Call, request_line, rooms_of
from definition_cases import CASE_H, CUTS, I64_MIN, MODES, Dice, Oracle, Request, at_the_limits, needs, refusal, root_record
from figures import figures
import model
import traps

SAMPLE = {"rooms": 8, "all_rooms": 8, "random": 10, "records": 4, "roots": 4}  # calls of a piece
LONGEST = 6000  # bytes of an answer in the sample


# ---- What is in the list

def of_figures(oracle, crates):
    """Starred cases, traps and figures of compile; those that don't say what is lent get exactly the rows that they need."""
    calls = list(figures(crates))
    answers = finished(oracle, [call.request for call in calls if call.lengths is None])
    for number, call in enumerate(calls):
        if call.lengths is None:
            _, answer = next(answers)
            call = call._replace(lengths=lent(needs(answer)), old=OLD[number % len(OLD)])
        yield call


def starred_otherwise():
    """Case A in every mode, and T in every mode, kind and width up to 3."""
    for mode, cut in itertools.product(MODES, CUTS):
        yield Call("starred case A", Request(mode, cut, 1, 0, 10, root_record(0), [], []), lent((2, 2, 1)), OLD[1])
        for width in 1, 2, 3:
            yield Call("T in every mode", CASE_H._replace(mode=mode, cut=cut, width=width), lent((12, 14, 3), (1, 2, 3)), OLD[4])


def short_tables():
    """Case H with each number of node rows, edge rows and records up to what it needs."""
    short = [(nodes, 12, 2) for nodes in range(10)] + [(9, edges, 2) for edges in range(13)] + [(9, 12, records) for records in range(3)]
    for number, rooms in enumerate(short):
        yield Call("case H in short tables", CASE_H, lent(rooms, (5, 3, 60)), OLD[number % len(OLD)])


def full_layers():
    """Weights that are powers of two: 1,024 rows in the last layer; a 1,025th, with just the rows lent that are written before it."""
    for count, rooms in (10, (2047, 2046, 0)), (11, (3071, 3070, 0)):
        weights = [2**item for item in range(count)]
        request = Request("exact", "lel", 1, 2047, I64_MIN, root_record(2047), weights, [1] * count)
        yield Call("full layers", request, lent(rooms), OLD[0])


def limits():
    for number, request in enumerate(at_the_limits()):
        if len(request.weights) < 64 or refusal(request) is not None:
            yield Call("limits of 1 to 9", request, lent((2, 3, 1), (7, 4, 67)), OLD[number % len(OLD)])


def sample(oracle):
    """Calls of the sets that compiled.py compares, from five pieces of each, with answers that are not too long."""
    dice = Dice("sample")
    for one in SETS:
        if one.name in SAMPLE:
            for _ in range(5):
                calls = dice.shuffled(list(one.make(oracle, dice.below(one.pieces))))
                short = (call for call in calls if len(answers_due(oracle, [call])[0]) < LONGEST)
                yield from itertools.islice(short, SAMPLE[one.name])


# ---- What the list must show

def seen(diagram):
    """What of the model's diagram an answer of crates/replay shows."""
    return traps.answer(diagram), diagram.nodes, diagram.edges, diagram.layers if diagram.refusal is None else None


def compiled_by_model(call, variant=None):
    q, rooms = call.request, rooms_of(call.lengths)
    return model.compile(
        list(zip(q.weights, q.profits)), q.page, q.mode, q.width, q.cut, q.lower, model.Record(*q.record), rooms.nodes, rooms.edges, variant=variant
    )


def told_apart(calls):
    """How many calls each wrong reading would answer wrongly."""
    counts = Counter()
    for call in calls:
        if refusal(call.request) is None and len(call.request.weights) < 8:
            right = seen(compiled_by_model(call))
            counts.update(wrong for wrong in traps.WRONG if seen(compiled_by_model(call, wrong)) != right)
    return counts


def must_show(calls, lines):
    numbers = Counter(int(line.split(" ", 1)[0]) for line in lines)
    lacking = [number for number in range(14) if not numbers[number]]
    wrong = told_apart(calls)
    passed = [reading for reading in traps.WRONG if not wrong[reading]]
    if len(calls) < 400 or lacking or passed:
        sys.exit(f"replay_list.py: {len(calls)} calls, without refusals {lacking}, and wrong readings {passed} would pass")
    for sort, count in Counter(call.sort for call in calls).items():
        print(f"{count:5} {sort}")
    print("accepted:", numbers[0], " refused:", ", ".join(f"{numbers[number]} by {number}" for number in range(1, 14)))
    print(f"{len(traps.WRONG)} wrong readings, each told apart by {min(wrong.values())} calls at least")


def main(program, crates):
    oracle = Oracle(program)
    calls = [*of_figures(oracle, crates), *starred_otherwise(), *short_tables(), *full_layers(), *limits(), *sample(oracle)]
    lines = answers_due(oracle, calls)
    must_show(calls, lines)
    for name, text in ("stdin", map(request_line, calls)), ("stdout", lines):
        (crates / "replay" / name).write_text("".join(line + "\n" for line in text), encoding="utf-8")
    print(f"{len(calls)} calls written")


if __name__ == "__main__":
    main(sys.argv[1], pathlib.Path(sys.argv[2]))
