"""Searches to replay: problems, pick orders, and each call of a search with its lists and tables just large enough, one too small, or ample."""
import random
from collections import namedtuple

from search import EDGE_WORDS, NODE_WORDS, NO_SEARCH, RECORD_WORDS, Ask, Blocks, Place, Rooms, pick, start
import model

AMPLE = 1 << 12  # rows and places
MOST_PLACES = 64  # that crates/search_replay can lend
MOST_WORDS = 16_384

Call = namedtuple("Call", "sort call blocks ask bound search place list lengths old")  # call is 'start' or 'pick'
Lengths = namedtuple("Lengths", "nodes edges scratch")  # words lent
Old = namedtuple("Old", "nodes edges scratch step")  # the first word of each table before the call; each further word is a step more
NO_TABLES = Lengths(0, 0, 0)
OLD = [Old(0, 0, 0, 0), Old(1, 2, 4, 3), Old(2**64 - 1, 2**64 - 1, 2**64 - 1, 0), Old(2**63, 12345, 7, 2**61 + 1)]
T = Blocks((1, 1, 1), (4, 3, 2), 2)


def other(number):
    """What a place holds that no call wrote."""
    return Place(70_000 + number, -number, number, number % 70, tuple((number + i) % 256 for i in range(64)))


def others(count, from_=0):
    return [other(from_ + i) for i in range(count)]


# ---- Pick orders: a search with its list gives the place

def best_bound(search, places):
    return max(range(search.opened), key=lambda i: (places[i].bound, -i))


def worst_bound(search, places):
    return min(range(search.opened), key=lambda i: (places[i].bound, i))


def orders(seed):
    """Each order by its name; the random one of a seed that is written out in its name."""
    dice = random.Random(seed)
    return {
        "best bound": best_bound,
        "worst bound": worst_bound,
        "first": lambda search, places: 0,
        "last": lambda search, places: search.opened - 1,
        f"random with seed {seed}": lambda search, places: dice.randrange(search.opened),
    }


# ---- The calls of a search

def needed(blocks, ask, search, place, places):
    """The rows, scratch places and list places that a pick needs, with its outcome where all are there."""
    done = pick(blocks, ask, search, place, places + others(AMPLE), Rooms(AMPLE, AMPLE, AMPLE))
    return Rooms(len(done.nodes), len(done.edges), len(done.drained)), max(search.opened, done.search.opened), done


def words_of(rooms, spare):
    """The words of so many rows and places, with spare ones that are no row."""
    return Lengths(rooms.nodes * NODE_WORDS + spare % NODE_WORDS, rooms.edges * EDGE_WORDS + spare % EDGE_WORDS, rooms.scratch * RECORD_WORDS)


def lent_of(rooms, places, spare, sort):
    """Words of tables and scratch list, and list places: (name, words, places) for each way to lend."""
    enough = words_of(rooms, spare)
    yield "just enough", enough, places
    if sort == "all":
        nodes, edges, scratch = enough
        yield "ample", Lengths(nodes + 3 * NODE_WORDS, edges + 2 * EDGE_WORDS, scratch + 2 * RECORD_WORDS), places + 2
        yield "a scratch word more", enough._replace(scratch=scratch + 1), places
        if rooms.nodes:
            yield "a node row short", enough._replace(nodes=nodes - NODE_WORDS), places
        if rooms.edges:
            yield "an edge row short", enough._replace(edges=edges - EDGE_WORDS), places
        if rooms.scratch:
            yield "a scratch place short", enough._replace(scratch=scratch - RECORD_WORDS), places
            yield "a scratch word short", enough._replace(scratch=scratch - 1), places
        yield "a list place short", enough, places - 1


def calls_of(name, blocks, ask, bound, order, most_picks, rooms="all"):
    """The start, then every pick that the order makes, each lent in several ways; the search goes on as where all is enough."""
    begun = start(blocks, ask.width, bound, others(1))
    for count in (0, 1, 3) if rooms == "all" else (1,):
        yield Call(f"{name}: start", "start", blocks, ask, bound, NO_SEARCH, 0, others(count), NO_TABLES, OLD[count % 4])
    search, places = begun.search, begun.list
    turn = 0
    while begun.number == 0 and search.opened and turn < most_picks:
        place = order(search, places)
        need, count, done = needed(blocks, ask, search, place, places[:search.opened])
        lent = list(lent_of(need, count, turn, rooms))
        if any(p > MOST_PLACES or max(lengths) > MOST_WORDS for _, lengths, p in lent):
            return
        for how, lengths, p in lent:
            held = (places[:search.opened] + others(p, 100))[:p]
            old = OLD[(turn + sum(lengths)) % 4]
            yield Call(f"{name}: pick, {how}", "pick", blocks, ask, search.best, search, place, held, lengths, old)
        search, places = done.search, done.list
        turn += 1


# ---- Problems

def problem(dice, items, weight, profit):
    weights = tuple(dice.randint(0, weight) for _ in range(items))
    profits = tuple(dice.randint(0, profit) for _ in range(items))
    return Blocks(weights, profits, dice.randint(0, sum(weights)))


def small(seed):
    """A search of a problem made at random."""
    dice = random.Random(seed)
    blocks = problem(dice, dice.randint(0, 9), dice.choice((2, 5, 40)), dice.choice((1, 4, 60)))
    ask = Ask(dice.choice((1, 1, 2, 3, 4, 7)), dice.choice((model.LEL, model.FRONTIER)))
    bound = dice.choice((model.I64_MIN, model.I64_MIN, -1, 0, dice.randint(0, 1 + sum(blocks.profits)), model.I64_MAX))
    name, order = dice.choice(list(orders(seed).items()))
    return name, blocks, ask, bound, order


# ---- Calls that a careful host doesn't make

def hostile(dice):
    """A pick whose search, list, place or record is damaged in one way or two."""
    _, blocks, ask, bound, order = small(dice.randrange(1 << 30))
    calls = [call for call in calls_of("hostile", blocks, ask, bound, order, 6, "enough") if call.call == "pick"]
    if not calls:
        return None
    call = dice.choice(calls)
    for _ in range(dice.randint(1, 2)):
        call = damaged(dice, call)
    return call._replace(sort="hostile")


def damaged(dice, call):
    search, n = call.search, len(call.list)
    ways = [
        lambda: call._replace(place=dice.choice((search.opened, min(search.opened + 1, 2**64 - 1), 2**64 - 1))),
        lambda: call._replace(search=search._replace(opened=dice.choice((0, n + 1, 2**64 - 1, max(n - 1, 0))))),
        lambda: call._replace(search=search._replace(picks=dice.choice((2**64 - 1, 2**64 - 2)))),
        lambda: call._replace(search=search._replace(best=dice.choice((model.I64_MIN, model.I64_MAX, 0)))),
        lambda: call._replace(list=call.list[:-1]),
        lambda: call._replace(lengths=call.lengths._replace(scratch=dice.choice((0, 1, 67, 68, 69, 135, min(call.lengths.scratch + 67, MOST_WORDS))))),
        lambda: call._replace(ask=call.ask._replace(width=dice.choice((0, 257, 256, 2**64 - 1)))),
        lambda: call._replace(blocks=call.blocks._replace(page=dice.choice((65_536, 65_535, call.blocks.page + 1)))),
        lambda: call._replace(blocks=call.blocks._replace(weights=call.blocks.weights + (1,))),
        lambda: call._replace(blocks=Blocks(call.blocks.weights + (65_536,), call.blocks.profits + (1,), call.blocks.page)),
        lambda: call._replace(blocks=Blocks(call.blocks.weights + (1,), call.blocks.profits + (1_000_001,), call.blocks.page)),
        lambda: call._replace(blocks=Blocks((1,) * 65, (1,) * 65, call.blocks.page)),
    ]
    if n and call.place < n:
        record = call.list[call.place]
        path = list(record.path)
        path[dice.randrange(min(record.depth, 63) + 1)] = dice.choice((dice.randrange(6), dice.randrange(256)))
        records = [
            record._replace(capacity=record.capacity + dice.choice((1, 2**63))),
            record._replace(value=dice.choice((record.value + 1, -record.value - 1, model.I64_MIN))),
            record._replace(bound=dice.choice((model.I64_MIN, search.best, model.I64_MAX))),
            record._replace(depth=dice.choice((record.depth + 1, 64, 65, 255, 2**64 - 1))),
            record._replace(path=tuple(path)),
        ]
        changed = dice.choice(records)
        ways += [lambda: call._replace(list=call.list[:call.place] + [changed] + call.list[call.place + 1:])] * 6
    return dice.choice(ways)()
