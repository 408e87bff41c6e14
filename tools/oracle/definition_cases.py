"""The compiles that definition.py compares: requests on small inputs, what is lent to them, and what each must answer and leave.

They are the same on every run. Answers come from the oracle; refusals 1 to 9 and 13, of which the Rust knows nothing, from
document 01's table.
"""
import itertools
import random
import subprocess
import sys
from collections import Counter, namedtuple

I64_MIN, I64_MAX, U64_MAX = -(2**63), 2**63 - 1, 2**64 - 1
MODES, CUTS, WIDTHS = ("exact", "restricted", "relaxed"), ("lel", "frontier"), (1, 2, 3)
NODE_WORDS, EDGE_WORDS, RECORD_WORDS, PATH_ROOM = 8, 5, 68, 64

Record = namedtuple("Record", "capacity value bound depth path")
Request = namedtuple("Request", "mode cut width page lower record weights profits")
Rooms = namedtuple("Rooms", "nodes edges records")  # whole rows and records
Lent = namedtuple("Lent", "nodes edges records")  # words
NodeRow = namedtuple("NodeRow", "capacity depth value bottom best newest fast_bound exact relaxed marked cutset deleted")
EdgeRow = namedtuple("EdgeRow", "source target decision cost following")
Answer = namedtuple("Answer", "number exact best path exact_best exact_path records layers node_rows edge_rows")
Call = namedtuple("Call", "sort request rooms lent")
Case = namedtuple("Case", "call number answer left")  # the refusal's number or None, the oracle's answer or None, the words after it

PLENTY = Rooms(1000, 1000, 1000)  # more than any request here needs


# ---- Document 01's table, rows 1 to 9

def taken(request, amounts):
    """The sum of the weights, or of the profits, that the record's path takes."""
    return sum(amounts[byte // 2] for byte in request.record.path if byte % 2 == 1)


TABLE = [
    (1, lambda q: len(q.weights) != len(q.profits)),
    (2, lambda q: len(q.weights) > 64),
    (3, lambda q: q.page > 65_535),
    (4, lambda q: any(weight > 65_535 for weight in q.weights)),
    (5, lambda q: any(profit > 1_000_000 for profit in q.profits)),
    (6, lambda q: q.width == 0 or q.width > 256),
    (7, lambda q: q.record.depth > len(q.weights) or len(q.record.path) != q.record.depth),
    (8, lambda q: sorted(byte // 2 for byte in q.record.path) != list(range(q.record.depth))),
    (9, lambda q: taken(q, q.weights) + q.record.capacity != q.page or taken(q, q.profits) != q.record.value),
]


def refusal(request):
    """The number of the first row that applies, or None."""
    return next((number for number, applies in TABLE if applies(request)), None)


# ---- The oracle's lines; README.md has the format

def parted(text, mark):
    return [] if text == "-" else text.split(mark)


def joined(parts, mark):
    return mark.join(map(str, parts)) or "-"


def numbers(text, mark):
    return [int(part) for part in parted(text, mark)]


def line_of(request, rooms):
    record = request.record
    items = [f"{weight}:{profit}" for weight, profit in zip(request.weights, request.profits)]
    return (
        f"variant=rooms mode={request.mode} cut={request.cut} width={request.width} page={request.page} lower={request.lower}"
        f" record={record.capacity}:{record.value}:{record.bound}:{record.depth}:{joined(record.path, '.')}"
        f" node_room={rooms.nodes} edge_room={rooms.edges} items={joined(items, ',')}"
    )


def record_of(text):
    capacity, value, bound, depth, path = text.split(":")
    return Record(int(capacity), int(value), int(bound), int(depth), tuple(numbers(path, ".")))


def answer_of(line):
    kind, *fields = line.split(" ")
    if kind not in ("ok", "refused"):
        sys.exit(f"the oracle answered: {line}")
    values = dict(field.split("=", 1) for field in fields)

    def value(name):
        return None if values.get(name, "none") == "none" else int(values[name])

    def path(name):
        return [] if values.get(name, "none") == "none" else numbers(values[name], ".")

    def rows(name):
        return [numbers(row, ":") for row in parted(values[name], ",")]

    return Answer(
        number=value("number"),
        exact=values.get("exact") == "1",
        best=value("best"),
        path=path("path"),
        exact_best=value("exact_best"),
        exact_path=path("exact_path"),
        records=[record_of(text) for text in parted(values.get("records", "-"), ",")],
        layers=rows("layers"),
        node_rows=[NodeRow(*row) for row in rows("node_rows")],
        edge_rows=[EdgeRow(*row) for row in rows("edge_rows")],
    )


class Oracle:
    def __init__(self, program):
        self.program = program

    def answers(self, asked):
        """An answer for each pair of request and rooms, in a list."""
        lines = "".join(line_of(request, rooms) + "\n" for request, rooms in asked)
        done = subprocess.run([self.program], input=lines, stdout=subprocess.PIPE, text=True, check=True)
        answers = [answer_of(line) for line in done.stdout.splitlines()]
        if len(answers) != len(asked):
            sys.exit(f"the oracle gave {len(answers)} answers to {len(asked)} requests")
        return answers

    def finished(self, requests):
        """Each request with its answer where no room is short."""
        requests = list(requests)
        return zip(requests, self.answers([(request, PLENTY) for request in requests]))


# ---- Requests

class Dice:
    """Choices that are the same on every run: of Python's generator only random() is promised to stay as it is."""

    def __init__(self, seed):
        self.random = random.Random(seed).random

    def below(self, end):
        return int(self.random() * end)

    def pick(self, choices):
        return choices[self.below(len(choices))]

    def shuffled(self, things):
        left = list(things)
        return [left.pop(self.below(len(left))) for _ in things]


def root_record(page):
    return Record(page, 0, I64_MAX, 0, ())


# Document 01's case H: the problem T, relaxed at width 1.
CASE_H = Request("relaxed", "lel", 1, 2, I64_MIN, root_record(2), [1, 1, 1], [4, 3, 2])


def problems(dice, times, modes=MODES, counts=(0, 1, 2, 3, 3, 4, 4, 4)):
    """Requests of few items from the root record, with a lower bound that shuts out nothing: each setting so many times."""
    for mode, cut, width in list(itertools.product(modes, CUTS, WIDTHS)) * times:
        count = dice.pick(counts)
        weights = [dice.below(5) for _ in range(count)]
        profits = [dice.below(6) for _ in range(count)]
        page = dice.below(9)
        yield Request(mode, cut, width, page, I64_MIN, root_record(page), weights, profits)


def made_record(dice, request):
    """A record of depth 1 to the item count that fits the request, its decisions in any order and its bound whatever it is."""
    depth = 1 + dice.below(len(request.weights))
    capacity, value, path = request.page, 0, []
    for item in range(depth):
        take = request.weights[item] <= capacity and dice.below(2) == 1
        capacity -= take * request.weights[item]
        value += take * request.profits[item]
        path.append(2 * item + take)
    return Record(capacity, value, dice.pick([I64_MIN, 0, value, I64_MAX]), depth, tuple(dice.shuffled(path)))


def optimum(request):
    """The best value below the request's record, by trying every choice of the items that are left."""
    record, best = request.record, 0
    left = list(zip(request.weights, request.profits))[record.depth:]
    for chosen in itertools.product((0, 1), repeat=len(left)):
        weight = sum(take * item[0] for take, item in zip(chosen, left))
        profit = sum(take * item[1] for take, item in zip(chosen, left))
        if weight <= record.capacity:
            best = max(best, profit)
    return record.value + best


def bounded(oracle, dice, requests):
    """The requests with lower bounds: ends of i64, 0, around the optimum, around the diagram's own best value."""
    for request, answer in oracle.finished(requests):
        near = dice.pick([optimum(request), answer.best]) + dice.pick([-1, -1, 0, 1])
        yield request._replace(lower=dice.pick([I64_MIN, I64_MIN, near, near, 0, I64_MAX]))


def with_record(request, **changes):
    return request._replace(record=request.record._replace(**changes))


# A change for each row of the table, so that the row applies.
DEFECTS = {
    1: lambda q: q._replace(profits=q.profits + [1]),
    2: lambda q: q._replace(weights=q.weights + [1] * 62, profits=q.profits + [1] * 62),
    3: lambda q: q._replace(page=65_536),
    4: lambda q: q._replace(weights=[65_536] + q.weights[1:]),
    5: lambda q: q._replace(profits=q.profits[:1] + [1_000_001] + q.profits[2:]),
    6: lambda q: q._replace(width=0),
    7: lambda q: with_record(q, depth=q.record.depth + 1),
    8: lambda q: with_record(q, path=q.record.path[:-1] + (255,)),
    9: lambda q: with_record(q, value=q.record.value + 1),
}


def at_the_limits():
    """Requests at the limits of refusals 1 to 9: the last that pass and the first that don't."""
    one_taken = CASE_H._replace(record=Record(1, 4, 9, 1, (1,)))
    two_taken = CASE_H._replace(page=3, record=Record(1, 7, 9, 2, (3, 1)))
    # 1
    for weights, profits in ([1, 1], [4, 3, 2]), ([1, 1, 1], [4, 3]), ([], [4]), ([1], []), ([1] * 65, [1] * 64):
        yield CASE_H._replace(weights=weights, profits=profits)
    # 2: none fits; all fit, with the largest profits; all are decided
    for count in 64, 65:
        none_fits = Request("exact", "lel", 1, 0, I64_MIN, root_record(0), [1] * count, [1] * count)
        yield none_fits
        yield none_fits._replace(mode="relaxed", cut="frontier", weights=[0] * count, profits=[1_000_000] * count)
        yield none_fits._replace(record=Record(0, 0, 0, count, tuple(range(0, 2 * count, 2))))
    # 3
    for page in 65_535, 65_536, U64_MAX:
        yield CASE_H._replace(page=page, record=root_record(page))
    # 4 and 5, in the first place and in the last
    for weight, place in itertools.product((65_535, 65_536, U64_MAX), (0, 2)):
        weights = CASE_H.weights[:place] + [weight] + CASE_H.weights[place + 1:]
        yield CASE_H._replace(weights=weights, page=65_535, record=root_record(65_535))
    for profit, place in itertools.product((1_000_000, 1_000_001, U64_MAX), (0, 2)):
        yield CASE_H._replace(profits=CASE_H.profits[:place] + [profit] + CASE_H.profits[place + 1:])
    # 6, 'in any mode'
    for mode, width in itertools.product(MODES, (0, 1, 256, 257, U64_MAX)):
        yield CASE_H._replace(mode=mode, width=width)
    # 7: depths to the item count and beyond, paths a byte longer and a byte shorter
    yield CASE_H._replace(page=3, record=Record(0, 9, 9, 3, (5, 3, 1)))
    yield CASE_H._replace(page=3, record=Record(0, 9, 9, 4, (5, 3, 1, 6)))
    yield with_record(CASE_H, depth=1)
    yield with_record(CASE_H, depth=U64_MAX)
    yield with_record(CASE_H, path=(0,))
    for request in one_taken, two_taken:
        yield with_record(request, path=request.record.path + (4,))
        yield with_record(request, path=request.record.path[:-1])
    # 8: an item twice, an item that isn't below the depth, one that isn't there, the largest bytes
    for path in (1, 1), (1, 0), (3, 2), (1, 5), (5, 4), (1, 7), (255, 1), (254, 255):
        yield with_record(two_taken, path=path)
    for path in (2,), (3,), (6,), (255,):
        yield with_record(one_taken, path=path)
    # 9: sums that are off by one, sums that would be equal if they wrapped at 2^64, and the ends of each type
    for page, capacity in itertools.product((0, 2), (0, 1, 2, 65_535, 2**63, U64_MAX - 1, U64_MAX)):
        yield with_record(one_taken._replace(page=page), capacity=capacity)
    for request, value in itertools.product((CASE_H, one_taken, two_taken), (I64_MIN, -7, -4, -1, 0, 3, 4, 5, 7, I64_MAX)):
        yield with_record(request, value=value)
    for path in (3, 0), (2, 1), (1, 3):
        yield with_record(two_taken, path=path)
    # two rows at once: the first of them is given
    for first, second in itertools.combinations(DEFECTS, 2):
        yield DEFECTS[first](DEFECTS[second](two_taken))


# ---- Calls: requests with what is lent to them

def old_words(dice, rows, words):
    """What a table of that many rows holds before a call, perhaps with a part of a row more."""
    count = rows * words + dice.pick([0, 0, 1, words - 1])
    return dice.pick([[0] * count, list(range(1000, 1000 + count)), [U64_MAX] * count])


def lend(dice, sort, request, rooms):
    words = (NODE_WORDS, EDGE_WORDS, RECORD_WORDS)
    return Call(sort, request, rooms, Lent(*(old_words(dice, *table) for table in zip(rooms, words))))


def needs(answer):
    return Rooms(len(answer.node_rows), len(answer.edge_rows), len(answer.records))


def lend_enough(oracle, dice, sort, requests):
    """Each request with all the rows that it needs, and up to two more of each."""
    for request, answer in oracle.finished(requests):
        yield lend(dice, sort, request, Rooms(*(need + dice.below(3) for need in needs(answer))))


def from_roots(oracle, dice):
    return lend_enough(oracle, dice, "root record", bounded(oracle, dice, problems(dice, 14)))


def look(request, answer):
    """What a relaxed diagram shows at first sight."""
    rows = answer.node_rows
    return (
        request.cut,
        request.width,
        answer.exact,
        answer.best is None,
        answer.best == answer.exact_best,
        answer.layers[-1] == [0, 0],
        len({row.depth for row in rows if row.relaxed}),
        any(row.cutset and not row.marked for row in rows),
        any(rows[edge.source].exact and not rows[edge.target].exact and rows[edge.target].deleted for edge in answer.edge_rows),
        tuple(record.depth for record in answer.records),
    )


def from_roots_relaxed(oracle, dice):
    """Of many relaxed compiles the first two of each look: most traps are rare, and show in relaxed diagrams alone."""
    seen, kept = Counter(), []
    for request, answer in oracle.finished(bounded(oracle, dice, problems(dice, 700, ["relaxed"], [3, 4]))):
        seen[look(request, answer)] += 1
        if seen[look(request, answer)] <= 2:
            kept.append(request)
    return lend_enough(oracle, dice, "root record, relaxed", kept)


def from_drained(oracle, dice):
    """Records that a relaxed compile drained, compiled with any setting."""
    requests = []
    for parent, answer in oracle.finished(problems(dice, 12, ["relaxed"], [3, 4])):
        for record in answer.records[:2]:
            mode, cut, width = dice.pick(MODES), dice.pick(CUTS), dice.pick(WIDTHS)
            requests.append(parent._replace(mode=mode, cut=cut, width=width, record=record))
    return lend_enough(oracle, dice, "drained record", bounded(oracle, dice, requests))


def from_made(oracle, dice):
    requests = [request._replace(record=made_record(dice, request)) for request in problems(dice, 5, counts=[1, 2, 3, 4, 4])]
    return lend_enough(oracle, dice, "made record", bounded(oracle, dice, requests))


def in_short_tables(oracle, dice):
    """From no row to exactly enough: case H with each pair of node and edge rows, others with one of the two short."""
    roots = list(problems(dice, 1, counts=[3, 4]))
    below = [request._replace(record=made_record(dice, request)) for request in problems(dice, 1, ["relaxed"], [4])]
    for request, answer in oracle.finished([CASE_H] + roots + below):
        need = needs(answer)
        for nodes, edges in itertools.product(range(need.nodes + 1), range(need.edges + 1)):
            if request is CASE_H or nodes == need.nodes or edges == need.edges:
                yield lend(dice, "short tables", request, Rooms(nodes, edges, dice.below(need.records + 1)))


def in_short_lists(oracle, dice):
    """Every record list that is too short for what is drained."""
    for request, answer in oracle.finished(problems(dice, 6, ["relaxed"], [3, 4])):
        for records in range(len(answer.records)):
            yield lend(dice, "short record list", request, needs(answer)._replace(records=records))


def at_limits(oracle, dice):
    requests = list(at_the_limits())
    yield from lend_enough(oracle, dice, "limits of 1 to 9, passed", [request for request in requests if refusal(request) is None])
    for request in requests:
        if refusal(request) is not None:
            yield lend(dice, "limits of 1 to 9, refused", request, Rooms(dice.below(2), dice.below(2), dice.below(2)))


SORTS = [from_roots, from_roots_relaxed, from_drained, from_made, in_short_tables, in_short_lists, at_limits]


# ---- What each must answer and leave

def word(number):
    """The word that an i64 stands as."""
    return number + 2**63


def padded(path):
    return list(path) + [0] * (PATH_ROOM - len(path))


def node_words(row):
    flags = row.exact + 2 * row.relaxed + 4 * row.marked + 8 * row.cutset + 16 * row.deleted
    return [row.capacity, row.depth, word(row.value), word(row.bottom), row.best, row.newest, word(row.fast_bound), flags]


def edge_words(row):
    return [row.source, row.target, row.decision, row.cost, row.following]


def record_words(record):
    return [record.capacity, word(record.value), word(record.bound), record.depth] + padded(record.path)


def over(words_of, rows, old):
    """The table after the rows were written from its start on."""
    words = [word for row in rows for word in words_of(row)]
    assert len(words) <= len(old)
    return words + old[len(words):]


def case_of(call, answer):
    """The call with what is due; without an answer, document 01's table refuses it and nothing is written."""
    if answer is None:
        return Case(call, refusal(call.request), None, call.lent)
    number = answer.number
    if number is None and len(answer.records) > call.rooms.records:
        number = 13
    return Case(call, number, answer, Lent(
        over(node_words, answer.node_rows, call.lent.nodes),
        over(edge_words, answer.edge_rows, call.lent.edges),
        over(record_words, answer.records if number is None else [], call.lent.records),
    ))


def all_cases(program):
    """Every case, with the oracle of that program."""
    oracle, dice = Oracle(program), Dice(1)
    calls = [call for sort in SORTS for call in sort(oracle, dice)]
    compiled = [(call.request, call.rooms) for call in calls if refusal(call.request) is None]
    answers = iter(oracle.answers(compiled))
    return [case_of(call, next(answers) if refusal(call.request) is None else None) for call in calls]
