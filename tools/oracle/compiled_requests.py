"""The calls that compiled.py compares, in sets that are made piece by piece and are the same on every run."""
import functools
import itertools
from collections import namedtuple

from compiled_text import MOST, Call, Lengths, Old
from definition_cases import (
    CUTS, DEFECTS, EDGE_WORDS, I64_MAX, I64_MIN, MODES, NODE_WORDS, RECORD_WORDS, U64_MAX, Dice, Record, Request, Rooms, at_the_limits, made_record,
    needs, optimum, refusal, root_record, with_record,
)

Set = namedtuple("Set", "name pieces make")  # make(oracle, piece) gives the calls of a piece

WORDS = Rooms(NODE_WORDS, EDGE_WORDS, RECORD_WORDS)
ENDLESS = Rooms(2**40, 2**40, 2**40)
SETTINGS = list(itertools.product(MODES, CUTS, (1, 2, 3, 4)))

# Old contents: zeros, numbers that count up, 2^64 - 1, words that look like rows and like nothing.
OLD = [Old(0, 0, 0, 0), Old(1000, 5000, 9000, 1), Old(U64_MAX, U64_MAX, U64_MAX, 0), Old(2**63, 1, 2**63 - 1, 2**63 + 1), Old(7, 11, 13, 0x9E3779B97F4A7C15)]


# ---- What is lent

def lent(rooms, spare=(0, 0, 0)):
    """Tables of so many rows, with words behind the last whole row; no more than the program has."""
    return Lengths(*(min(room * words + more, most) for room, words, more, most in zip(rooms, WORDS, spare, MOST)))


def spare_words(dice):
    return [dice.pick([0, 0, 1, words - 1]) for words in WORDS]


def finished(oracle, requests):
    """Each request that isn't refused by 1 to 9, with the oracle's answer where no room is short."""
    passing = [request for request in requests if refusal(request) is None]
    return zip(passing, oracle.answers([(request, ENDLESS) for request in passing]))


# ---- Every problem of few items

@functools.cache
def item_lists(weights, profits):
    """Every list of up to three items."""
    kinds = list(itertools.product(range(weights + 1), range(profits + 1)))
    return [items for count in range(4) for items in itertools.product(kinds, repeat=count)]


def pages_of(items):
    """Every page capacity up to one that holds all items."""
    return range(sum(weight for weight, _ in items) + 1)


def piece_of(things, piece, pieces):
    return things[piece * len(things) // pieces:(piece + 1) * len(things) // pieces]


def requests_of(items, page, record, bounds):
    weights, profits = [weight for weight, _ in items], [profit for _, profit in items]
    one = Request("exact", "lel", 1, page, I64_MIN, record, weights, profits)
    best = optimum(one)
    lowers = sorted({bound(best) for bound in bounds})
    for (mode, cut, width), lower in itertools.product(SETTINGS, lowers):
        yield one._replace(mode=mode, cut=cut, width=width, lower=lower)


AT_THE_ROOT = [lambda best: I64_MIN, lambda best: 0, lambda best: best - 1, lambda best: best]
BELOW_IT = [lambda best: I64_MIN, lambda best: best - 1]
FEW = lent((20, 32, 8), (3, 2, 5))  # enough for three items


def roots(oracle, piece):
    """Every problem of up to three items of weight and profit 0 to 3, from the root record."""
    number = 0
    for items in piece_of(item_lists(3, 3), piece, 60):
        for page in pages_of(items):
            for request in requests_of(items, page, root_record(page), AT_THE_ROOT):
                number += 1
                yield Call("every small problem, root record", request, FEW, OLD[number % len(OLD)])


def records_of(items, page):
    """Every record below the root, each with its decisions in another order."""
    for depth in range(1, len(items) + 1):
        orders = itertools.cycle(itertools.permutations(range(depth)))
        for chosen in itertools.product((1, 0), repeat=depth):
            taken = [item for take, item in zip(chosen, items) if take]
            capacity = page - sum(weight for weight, _ in taken)
            if capacity >= 0:
                path = tuple(2 * item + chosen[item] for item in next(orders))
                yield Record(capacity, sum(profit for _, profit in taken), (I64_MIN, 0, I64_MAX)[depth % 3], depth, path)


def records(oracle, piece):
    """Every problem of up to three items of weight and profit 0 to 2, from every record below the root."""
    number = 0
    for items in piece_of(item_lists(2, 2), piece, 60):
        for page in pages_of(items):
            for record in records_of(items, page):
                for request in requests_of(items, page, record, BELOW_IT):
                    number += 1
                    yield Call("every small problem, records below the root", request, FEW, OLD[number % len(OLD)])


# ---- Rooms and old contents

def short_or_enough(need):
    """Each table with exactly the rows that are needed, and with one less where there is one."""
    return (Rooms(*rooms) for rooms in itertools.product(*({room, max(room - 1, 0)} for room in need)))


def rooms(oracle, piece):
    """Problems of up to three items of weight 0 to 2 and profit 0 and 1 in tables that are one row short or exactly enough."""
    requests = [
        request
        for items in piece_of(item_lists(2, 1), piece, 20)
        for page in pages_of(items)
        for request in requests_of(items, page, root_record(page), BELOW_IT)
        if request.width < 3
    ]
    for number, (request, answer) in enumerate(finished(oracle, requests)):
        for room in short_or_enough(needs(answer)):
            yield Call("rooms one short and exactly enough", request, lent(room), OLD[number % len(OLD)])


def all_rooms(oracle, piece):
    """Random problems of 4 and 5 items: every number of node rows, of edge rows and of records from none to enough, over each of the old contents."""
    dice = Dice(f"all rooms {piece}")
    requests = [small_request(dice, 4 + dice.below(2)) for _ in range(12)]
    for request, answer in finished(oracle, requests):
        need = needs(answer)
        short = [need._replace(nodes=room) for room in range(need.nodes + 1)]
        short += [need._replace(edges=room) for room in range(need.edges + 1)]
        short += [need._replace(records=room) for room in range(need.records + 1)]
        for room, old in itertools.product(short, OLD):
            yield Call("every room, old contents of each kind", request, lent(room, spare_words(dice)), old)


def limits(oracle, piece):
    """At the limits of refusals 1 to 9, the last that pass and the first that don't, over each of the old contents."""
    for request, old, room in itertools.product(at_the_limits(), OLD, ((0, 0, 0), (2, 2, 1), (200, 300, 2))):
        yield Call("limits of 1 to 9", request, lent(room, (7, 4, 67)), old)


# ---- Random requests of 4 to 64 items

def small_request(dice, count):
    weights, profits = [dice.below(6) for _ in range(count)], [dice.below(8) for _ in range(count)]
    page = dice.below(sum(weights) + 2)
    return Request(dice.pick(MODES + ("relaxed", "relaxed")), dice.pick(CUTS), 1 + dice.below(5), page, I64_MIN, root_record(page), weights, profits)


def small(dice):
    return small_request(dice, 4 + dice.below(7))


def middle(dice):
    count = 8 + dice.below(17)
    weights = [dice.below(60) for _ in range(count)]
    profits = [dice.below(dice.pick([3, 1000])) for _ in range(count)]
    return small(dice)._replace(weights=weights, profits=profits, page=dice.below(500), width=1 + dice.below(24))


def large(dice):
    count = dice.pick([25 + dice.below(40), 61 + dice.below(4), 64])
    weights = [dice.below(dice.pick([40, 3000, 3000, 20_000])) for _ in range(count)]
    profits = [dice.below(1_000_001) for _ in range(count)]
    width = dice.pick([1, 1 + dice.below(8), 1 + dice.below(30), 1 + dice.below(30)])
    return small(dice)._replace(weights=weights, profits=profits, page=dice.pick([300, 20_000, 65_535]), width=width, mode=dice.pick(MODES[1:]))


def wide(dice):
    """Few of these, since their tables are long: widths up to the limit, 64 items."""
    return large(dice)._replace(width=dice.pick([60 + dice.below(120), 255, 256]))


def at_the_ends(dice):
    """Weights, profits and capacity at the ends of their ranges."""
    count = 4 + dice.below(dice.pick([5, 61]))
    weights = [dice.pick([0, 1, 32_767, 32_768, 65_534, 65_535]) for _ in range(count)]
    profits = [dice.pick([0, 1, 999_999, 1_000_000]) for _ in range(count)]
    return small(dice)._replace(weights=weights, profits=profits, page=dice.pick([0, 1, 32_768, 65_534, 65_535]), width=dice.pick([1, 2, 3, 255, 256]))


def doubling(dice):
    """Weights that make nearly all states of a layer differ, so that exact mode comes to 1,024 rows in a layer."""
    count = 10 + dice.below(3)
    weights = [2**item if dice.below(40) else dice.below(2**item) for item in range(count)]
    page = dice.pick([2**count - 1, 2**count - 1, 2**(count - 1), 2**count - 2])
    request = small(dice)._replace(weights=weights, profits=[dice.below(3) for _ in range(count)], page=page)
    return request._replace(mode=dice.pick(["exact", "exact", "relaxed"]), width=dice.pick([128, 256]))


SHAPES = [small] * 56 + [middle] * 24 + [large] * 6 + [at_the_ends] * 8 + [wide] + [doubling] * 5

# What makes a request one that a refusal of 1 to 9 is due to, or nearly: its limit is passed by one.
PAST = [
    lambda dice, q: DEFECTS[1 + dice.below(2)](q),
    lambda dice, q: q._replace(page=dice.pick([65_536, q.page + 1, U64_MAX])),
    lambda dice, q: q._replace(weights=one_changed(dice, q.weights, [65_536, U64_MAX])),
    lambda dice, q: q._replace(profits=one_changed(dice, q.profits, [1_000_001, U64_MAX])),
    lambda dice, q: q._replace(width=dice.pick([0, 257, U64_MAX])),
    lambda dice, q: with_record(q, depth=dice.pick([q.record.depth + 1, len(q.weights), len(q.weights) + 1, U64_MAX])),
    lambda dice, q: with_record(q, path=q.record.path[:-1] + (dice.below(256),)),
    lambda dice, q: with_record(q, path=q.record.path + (dice.below(256),)),
    lambda dice, q: with_record(q, capacity=dice.pick([q.record.capacity + 1, U64_MAX])),
    lambda dice, q: with_record(q, value=dice.pick([q.record.value + 1, q.record.value - 1, I64_MIN, I64_MAX])),
]


def one_changed(dice, numbers, others):
    place = dice.below(len(numbers))
    return numbers[:place] + [dice.pick(others)] + numbers[place + 1:]


def recorded(oracle, dice, requests):
    """The requests from their root, from a made record, or from a record that their own compile drained."""
    for request, answer in finished(oracle, requests):
        choice = dice.below(5)
        if choice < 2:
            request = request._replace(record=made_record(dice, request))
        elif choice == 2 and answer.records:
            request = request._replace(record=dice.pick(answer.records), width=1 + dice.below(request.width))
        yield request


def bounded(oracle, dice, requests):
    """The requests with lower bounds: ends of i64, around 0, around the record's value and around the diagram's own best value."""
    for request, answer in finished(oracle, requests):
        near = dice.pick([0, request.record.value, answer.best or 0, answer.best or 0]) + dice.pick([-1, 0, 1])
        yield request._replace(lower=dice.pick([I64_MIN, I64_MIN, near, near, I64_MAX]))


def room_for(dice, need):
    """Enough and some rows more, exactly enough, one short of each in turn, or any number."""
    choice = dice.below(10)
    if choice < 4:
        return Rooms(*(room + dice.below(3) for room in need))
    if choice < 6:
        return need
    if choice < 9:
        return need._replace(**{Rooms._fields[choice - 6]: max(need[choice - 6] - 1, 0)})
    return Rooms(*(dice.below(room + 2) for room in need))


def at_random(oracle, piece):
    dice = Dice(f"random {piece}")
    rooted = [dice.pick(SHAPES)(dice) for _ in range(200)]
    rooted = [request._replace(record=root_record(request.page)) for request in rooted]
    requests = list(bounded(oracle, dice, list(recorded(oracle, dice, rooted))))
    for request, answer in finished(oracle, requests):
        lengths, old = lent(room_for(dice, needs(answer)), spare_words(dice)), dice.pick(OLD)
        if dice.below(8) == 0:
            request = dice.pick(PAST)(dice, request)
        yield Call("random, 4 to 64 items", request, lengths, old)


SETS = [
    Set("limits", 1, limits),
    Set("rooms", 20, rooms),
    Set("all_rooms", 20, all_rooms),
    Set("random", 100, at_random),
    Set("records", 60, records),
    Set("roots", 60, roots),
]
