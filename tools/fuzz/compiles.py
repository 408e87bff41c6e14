#!/usr/bin/env python3
"""compiles.py BUILDS SECONDS SEED FINDINGS ORACLE: fuzzes crates/replay with hostile compile requests and compares each answer with the Rust's.

Each call is an honest one of 4 to 64 items, or one that reached what none before had reached, after some changes, up to four of them lies. Refusals
1 to 9 and 13, of which the Rust knows nothing, are document 01's. Ends in 'N calls, M findings'; exit status 1 if there is a finding.
"""
import pathlib
import random
import sys

from batches import Batches, run
from programs import Findings

sys.path.append(str(pathlib.Path(__file__).parent.parent / "oracle"))
from compiled import answers_due
from compiled_requests import OLD, PAST, SHAPES, bounded, finished, lent, recorded, room_for, spare_words
from compiled_text import MOST, Call, Lengths, Old, request_line
from definition_cases import CUTS, I64_MAX, I64_MIN, MODES, U64_MAX, Dice, Oracle, needs, root_record, with_record

FRESH, CALLS = 20, 200  # honest calls that are made for a batch, and its calls
MOST_ITEMS, MOST_PATH = 192, 320  # that crates/replay reads
ENDS = [0, 1, 64, 65, 255, 256, 257, 65_535, 65_536, 1_000_000, 1_000_001, 2**32, 2**63 - 1, 2**63, U64_MAX - 1, U64_MAX]


def any_u64(dice):
    return dice.pick([dice.pick(ENDS), dice.below(300), int(dice.random() * 2**64) % 2**64])


def any_i64(dice):
    return dice.pick([I64_MIN, I64_MIN + 1, -1, 0, 1, I64_MAX - 1, I64_MAX, dice.below(100), any_u64(dice) - 2**63])


def some_changed(dice, numbers):
    """A list with numbers of any size in it, longer, shorter or as long."""
    changed = [any_u64(dice) if dice.below(4) == 0 else number for number in numbers]
    more = [dice.below(9) for _ in range(dice.pick([0, 0, 1, 64, 128]))]
    return (changed[:dice.pick([len(changed), dice.below(len(changed) + 1)])] + more)[:MOST_ITEMS]


def any_path(dice, path):
    changed = [dice.below(256) if dice.below(3) == 0 else byte for byte in path]
    more = [dice.below(256) for _ in range(dice.pick([0, 0, 1, 64, 300]))]
    return tuple((dice.shuffled(changed) + more)[:MOST_PATH])


def fitting_path(dice, q):
    """A record whose path has its own length as depth: what refusals 8 and 9 look at."""
    path = any_path(dice, q.record.path)
    return with_record(q, depth=len(path), path=path)


# Each changes one thing that no refusal looks at.
TURNS = [
    lambda dice, q: q._replace(lower=any_i64(dice)),
    lambda dice, q: q._replace(mode=dice.pick(MODES), cut=dice.pick(CUTS)),
    lambda dice, q: q._replace(width=dice.pick([1, 2, 3, 255, 256])),
    lambda dice, q: with_record(q, bound=any_i64(dice)),
]
# Each changes one thing that a refusal looks at.
LIES = PAST + [
    lambda dice, q: q._replace(weights=some_changed(dice, q.weights)),
    lambda dice, q: q._replace(profits=some_changed(dice, q.profits)),
    lambda dice, q: q._replace(weights=q.weights[:64] * 2, profits=q.profits[:64] * 2),
    lambda dice, q: q._replace(page=any_u64(dice)),
    lambda dice, q: q._replace(width=any_u64(dice)),
    lambda dice, q: with_record(q, capacity=any_u64(dice)),
    lambda dice, q: with_record(q, value=any_i64(dice)),
    lambda dice, q: with_record(q, depth=any_u64(dice)),
    lambda dice, q: with_record(q, path=any_path(dice, q.record.path)),
    fitting_path,
]


def fitted(request):
    """The request within what a line can say."""
    r = request.record
    record = r._replace(capacity=r.capacity % 2**64, value=max(I64_MIN, min(r.value, I64_MAX)), depth=r.depth % 2**64, path=r.path[:MOST_PATH])
    return request._replace(weights=request.weights[:MOST_ITEMS], profits=request.profits[:MOST_ITEMS], page=request.page % 2**64, record=record)


def lied(dice, request):
    for _ in range(dice.below(3)):
        request = dice.pick(TURNS)(dice, request)
    for _ in range(dice.pick([0, 0, 0, 1, 1, 2, 4])):
        request = dice.pick(LIES)(dice, request)
    return fitted(request)


def any_lengths(dice, lengths):
    """Words lent: as they are, a few more or less, none, or any number."""
    return Lengths(*(
        min(most, dice.pick([length, length, max(0, length + dice.below(17) - 8), dice.below(3), dice.below(2_000)]))
        for length, most in zip(lengths, MOST)
    ))


def any_old(dice):
    return dice.pick([dice.pick(OLD), Old(*(any_u64(dice) for _ in Old._fields))])


def honest_calls(oracle, dice):
    """Calls with tables of about the length that they need."""
    rooted = [dice.pick(SHAPES)(dice) for _ in range(FRESH)]
    rooted = [request._replace(record=root_record(request.page)) for request in rooted]
    requests = list(bounded(oracle, dice, list(recorded(oracle, dice, rooted))))
    for request, answer in finished(oracle, requests):
        yield Call("honest", request, lent(room_for(dice, needs(answer)), spare_words(dice)), dice.pick(OLD))


def changed(dice, call):
    return Call("changed", lied(dice, call.request), any_lengths(dice, call.lengths), any_old(dice))


def main(builds, seconds, seed, folder, program):
    oracle, dice, honest = Oracle(program), Dice(f"compiles {seed}"), []

    def make(news):
        fresh = list(honest_calls(oracle, dice))
        honest.extend(fresh)
        return fresh + [changed(dice, dice.pick(dice.pick([honest, news or honest]))) for _ in range(CALLS - len(fresh))]

    batches = Batches("replay", builds, Findings(folder), random.Random(f"lines {seed}"))
    sys.exit(run(batches, seconds, make, request_line, lambda calls: answers_due(oracle, calls)))


if __name__ == "__main__":
    main(*sys.argv[1:])
