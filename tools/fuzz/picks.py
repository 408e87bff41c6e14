#!/usr/bin/env python3
"""picks.py BUILDS SECONDS SEED FINDINGS: fuzzes crates/search_replay with sequences of calls, hostile and honest ones, and compares each answer with the model's.

A sequence is a start and picks, each from what the call before it has left; about half of the calls are damaged before they are made. Calls that
reached what none before had reached are damaged again. Ends in 'N calls, M findings'; exit status 1 if there is a finding.
"""
import pathlib
import random
import sys

from batches import Batches, run
from programs import Findings

sys.path.insert(0, str(pathlib.Path(__file__).parent.parent / "search"))  # the jobs have another module `cases`
from cases import MOST_PLACES, MOST_WORDS, NO_TABLES, OLD, Call, Lengths, Old, damaged, others, problem, small
from lines import answer_line, made, request_line
from search import NO_SEARCH, PLACES, Ask, Place, Search
import model

CALLS, AGAIN = 150, 30  # calls of a batch: of sequences, and damaged again
MOST_PICKS = 12  # of a sequence
MOST_ITEMS = 192
U64 = [0, 1, 2, 63, 64, 65, 255, 256, 65_535, 65_536, 2**32, 2**63 - 1, 2**63, 2**64 - 2, 2**64 - 1]
I64 = [model.I64_MIN, model.I64_MIN + 1, -1, 0, 1, 7, model.I64_MAX - 1, model.I64_MAX]


def any_u64(dice):
    return dice.choice((dice.choice(U64), dice.randrange(100), dice.randrange(2**64)))


def any_i64(dice):
    return dice.choice((dice.choice(I64), dice.randrange(100), dice.randrange(-2**63, 2**63)))


def any_path(dice):
    return tuple(dice.randbytes(PLACES))


def any_place(dice):
    return Place(any_u64(dice), any_i64(dice), any_i64(dice), any_u64(dice), any_path(dice))


def any_places(dice):
    return [any_place(dice) for _ in range(dice.choice((0, 1, 1, 2, 2, 3, 4, 5, 6, MOST_PLACES)))]


def any_search(dice):
    return Search(any_i64(dice), dice.random() < 0.5, any_path(dice), any_u64(dice), any_u64(dice))


def with_any_place(dice, call):
    if not call.list:
        return call._replace(list=any_places(dice))
    at = dice.randrange(len(call.list))
    return call._replace(list=call.list[:at] + [any_place(dice)] + call.list[at + 1:])


def with_other_path(dice, call):
    """The picked record with another path, of bytes that name items or of any."""
    if call.place >= len(call.list):
        return call._replace(place=0)
    place, most = call.list[call.place], dice.choice((2 * len(call.blocks.weights) + 2, 256))
    path = tuple(dice.randrange(most) for _ in range(PLACES))
    changed = place._replace(path=path, depth=dice.choice((place.depth, dice.randrange(4))))
    return call._replace(list=call.list[:call.place] + [changed] + call.list[call.place + 1:])


WAYS = [
    lambda dice, call: call._replace(search=any_search(dice)),
    lambda dice, call: call._replace(search=call.search._replace(best=any_i64(dice))),
    lambda dice, call: call._replace(search=call.search._replace(picks=dice.choice((2**64 - 1, 2**64 - 2, any_u64(dice))))),
    lambda dice, call: call._replace(search=call.search._replace(opened=dice.choice((len(call.list), len(call.list) + 1, any_u64(dice))))),
    lambda dice, call: call._replace(search=call.search._replace(held=not call.search.held, path=any_path(dice))),
    lambda dice, call: call._replace(place=any_u64(dice)),
    lambda dice, call: call._replace(list=any_places(dice)),
    with_any_place,
    with_other_path,
    lambda dice, call: call._replace(lengths=call.lengths._replace(scratch=0)),
    lambda dice, call: call._replace(lengths=call.lengths._replace(scratch=dice.choice((67, 68, 69, dice.randrange(MOST_WORDS))))),
    lambda dice, call: call._replace(lengths=call.lengths._replace(nodes=dice.choice((0, 7, 8, dice.randrange(MOST_WORDS))), edges=dice.choice((0, 4, 5, dice.randrange(MOST_WORDS))))),
    lambda dice, call: call._replace(ask=Ask(any_u64(dice), dice.choice((model.LEL, model.FRONTIER)))),
    lambda dice, call: call._replace(bound=any_i64(dice)),
    lambda dice, call: call._replace(old=Old(*(any_u64(dice) for _ in Old._fields))),
    lambda dice, call: call._replace(call="start"),
] + [damaged] * 12


def fitted(call):
    """The call within what a line can say."""
    def within(place):
        value = max(model.I64_MIN, min(place.value, model.I64_MAX))
        return place._replace(capacity=place.capacity % 2**64, value=value, depth=place.depth % 2**64)

    blocks = call.blocks._replace(weights=call.blocks.weights[:MOST_ITEMS], profits=call.blocks.profits[:MOST_ITEMS])
    return call._replace(blocks=blocks, place=call.place % 2**64, list=[within(place) for place in call.list])


def hostile(dice, call):
    for _ in range(dice.choice((1, 1, 2, 4))):
        call = dice.choice(WAYS)(dice, call)
    return fitted(call)


def next_pick(dice, blocks, ask, order, left):
    """An honest pick from what a call has left, in tables and lists of any length; any place, where the search isn't one of this list."""
    search, places = left.search, left.list
    place = order(search, places) if 0 < search.opened <= len(places) else dice.randrange(4)
    lent = (places[:search.opened] + others(dice.choice((0, 1, 2, 4, 8, 20)), 100))[:MOST_PLACES]
    lengths = Lengths(*(dice.choice((MOST_WORDS, MOST_WORDS, dice.randrange(400))) for _ in Lengths._fields))
    return Call("pick", "pick", blocks, ask, search.best, search, place, lent, lengths, dice.choice(OLD))


def sequence(dice):
    """Calls of one search, some hostile: half of these the search goes on from, as if it had wanted them."""
    _, blocks, ask, bound, order = small(dice.randrange(1 << 30))
    if dice.random() < 0.2:
        blocks = problem(dice, dice.randint(10, 30), 40, 60)
    call = Call("start", "start", blocks, ask, bound, NO_SEARCH, 0, others(dice.choice((0, 1, 1, 1, 4))), NO_TABLES, dice.choice(OLD))
    for _ in range(dice.randint(1, MOST_PICKS)):
        if dice.random() < 0.5:
            bad = hostile(dice, call)
            yield bad
            call = dice.choice((call, bad))
        yield call
        left = made(call)
        if left.search.opened == 0 and dice.random() < 0.9:
            return
        call = next_pick(dice, blocks, ask, order, left)


def main(builds, seconds, seed, folder):
    dice = random.Random(f"picks {seed}")

    def make(news):
        calls = []
        while len(calls) < CALLS:
            calls += sequence(dice)
        return calls + [hostile(dice, dice.choice(news)) for _ in range(AGAIN if news else 0)]

    batches = Batches("search_replay", builds, Findings(folder), dice)
    sys.exit(run(batches, seconds, make, request_line, lambda calls: [answer_line(call) for call in calls]))


if __name__ == "__main__":
    main(*sys.argv[1:])
