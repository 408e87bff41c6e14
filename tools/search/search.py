"""A plain model of `start` and `pick`, written from document 01, over tools/model/model.py's compile: not from the proved code."""
import pathlib
import sys
from collections import namedtuple

sys.dont_write_bytecode = True
sys.path.append(str(pathlib.Path(__file__).parent.parent / "model"))
import model

PLACES = 64  # of a path
MOST_PICKS = 2**64 - 1
NODE_WORDS, EDGE_WORDS, RECORD_WORDS = 8, 5, 68

Search = namedtuple("Search", "best held path opened picks")
Place = namedtuple("Place", "capacity value bound depth path")  # the path with all its places
Blocks = namedtuple("Blocks", "weights profits page")
Ask = namedtuple("Ask", "width cut")
Started = namedtuple("Started", "number search list")
Rooms = namedtuple("Rooms", "nodes edges scratch")  # the rows and scratch places that a pick is lent
Picked = namedtuple("Picked", "number search list nodes edges drained")  # rows and records written
NO_SEARCH = Search(0, False, (0,) * PLACES, 0, 0)


def padded(path):
    return tuple(path) + (0,) * (PLACES - len(path))


# ---- Refusals

def of_problem(blocks, width):
    if len(blocks.weights) != len(blocks.profits):
        return 1
    if len(blocks.weights) > 64:
        return 2
    if blocks.page > 65_535:
        return 3
    if any(weight > 65_535 for weight in blocks.weights):
        return 4
    if any(profit > 1_000_000 for profit in blocks.profits):
        return 5
    if not 1 <= width <= 256:
        return 6


def of_record(blocks, place):
    path = place.path[:place.depth]
    if place.depth > len(blocks.weights) or len(path) != place.depth:
        return 7
    if sorted(byte // 2 for byte in path) != list(range(place.depth)):
        return 8
    taken = [byte // 2 for byte in path if byte % 2]
    if sum(blocks.weights[item] for item in taken) + place.capacity != blocks.page:
        return 9
    if sum(blocks.profits[item] for item in taken) != place.value:
        return 9


# ---- The calls

def start(blocks, width, bound, places):
    number = of_problem(blocks, width) or (None if places else 13)
    if number:
        return Started(number, NO_SEARCH, places)
    root = Place(blocks.page, 0, model.I64_MAX, 0, padded(()))
    return Started(0, Search(bound, False, padded(()), 1, 0), [root] + places[1:])


def pick(blocks, ask, search, place, places, rooms):
    """The pick of a place: places are the lent list, whole."""
    def refused(number, nodes=(), edges=(), drained=()):
        return Picked(number, search, places, nodes, edges, drained)

    number = of_problem(blocks, ask.width)
    if number:
        return refused(number)
    if place >= search.opened or search.opened > len(places) or search.picks == MOST_PICKS:
        return refused(14)
    record = places[place]
    number = of_record(blocks, record)
    if number:
        return refused(number)
    rest = places[:place] + places[place + 1:search.opened]
    if record.bound <= search.best:
        return accepted(search, rest, places, (), (), ())
    items = list(zip(blocks.weights, blocks.profits))
    root = model.Record(record.capacity, record.value, record.bound, record.depth, tuple(record.path[:record.depth]))
    d = model.compile(items, blocks.page, model.RELAXED, ask.width, ask.cut, search.best, root, rooms.nodes, rooms.edges)
    if d.refusal:
        return refused(d.refusal, d.nodes, d.edges)
    if len(d.drained) > rooms.scratch:
        return refused(13, d.nodes, d.edges)
    drained = [Place(r.capacity, r.value, r.bound, r.depth, padded(r.path)) for r in d.drained]
    found = search
    if d.best_exact is not None and d.best_exact > search.best:
        found = search._replace(best=d.best_exact, held=True, path=padded(d.exact_path))
    left = rest + ([] if d.exact else [r for r in drained if r.bound > found.best])
    if len(left) > len(places):
        return refused(13, d.nodes, d.edges, drained)
    return accepted(found, left, places, d.nodes, d.edges, drained)


def accepted(search, left, places, nodes, edges, drained):
    after = search._replace(opened=len(left), picks=search.picks + 1)
    return Picked(0, after, left + places[len(left):], nodes, edges, drained)


# ---- Rows as words

def word(number):
    return number + 2**63


def link(edge):
    return 0 if edge is None else edge + 1


def node_words(n):
    flags = sum(1 << bit for bit, flag in enumerate(n.flags) if flag != "-")
    return n.capacity, n.depth, word(n.value), word(n.bottom), link(n.best), link(n.newest), word(n.fast), flags


def edge_words(e):
    return e.source, e.target, e.decision, e.cost, link(e.next)


def place_words(p):
    return (p.capacity, word(p.value), word(p.bound), p.depth) + tuple(p.path)


def self_test():
    blocks, ask = Blocks((1, 1, 1), (4, 3, 2), 2), Ask(1, model.LEL)
    empty = Place(0, 0, 0, 0, padded(()))
    begun = start(blocks, 1, model.I64_MIN, [empty] * 4)
    search, places = begun.search, begun.list
    for _ in range(3):
        done = pick(blocks, ask, search, 0, places, Rooms(64, 64, 4))
        assert done.number == 0
        search, places = done.search, done.list
    assert (search.best, search.opened, search.picks, search.path[:4]) == (7, 0, 3, (1, 4, 3, 0))
    print("case N holds")


if __name__ == "__main__":
    self_test()
