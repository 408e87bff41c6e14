"""The lines of crates/replay: a call as its request, and the answer that is due. README.md has the format.

What is due comes from the oracle's answer; refusals 1 to 9 and 13, of which the Rust knows nothing, from document 01's table.
"""
from collections import namedtuple

from definition_cases import EDGE_WORDS, NODE_WORDS, RECORD_WORDS, Rooms, edge_words, node_words, padded, record_words, refusal, word

MODES = {"exact": 0, "restricted": 1, "relaxed": 2}
CUTS = {"lel": 0, "frontier": 1}

Lengths = namedtuple("Lengths", "nodes edges records")  # words lent
Old = namedtuple("Old", "nodes edges records step")  # the first word of each table before the call; each further word is a step more
Call = namedtuple("Call", "sort request lengths old")

MOST = Lengths(233_904, 216_585, 139_264)  # what crates/replay can lend
BESIDE = 137  # numbers of an answer without layers, beside the refusal's number and the tables


def rooms_of(lengths):
    return Rooms(lengths.nodes // NODE_WORDS, lengths.edges // EDGE_WORDS, lengths.records // RECORD_WORDS)


def request_line(call):
    q, record = call.request, call.request.record
    head = [len(q.weights), len(q.profits), len(record.path), q.page, q.width, MODES[q.mode], CUTS[q.cut], word(q.lower)]
    given = [record.capacity, word(record.value), word(record.bound), record.depth]
    return " ".join(map(str, [*head, *given, *call.lengths, *call.old, *q.weights, *q.profits, *record.path]))


def left(words_of, rows, start, step):
    """What a table holds after the rows were written: the number of words up to the last that isn't as before, and these words."""
    words = [word for row in rows for word in words_of(row)]
    while words and words[-1] == (start + (len(words) - 1) * step) % 2**64:
        words.pop()
    return [len(words), *words]


def value(number):
    return [0, 0] if number is None else [1, word(number)]


def numbers_due(call, answer):
    if answer is None:
        return [refusal(call.request)] + [0] * (BESIDE + 3)
    number = answer.number
    if number is None and len(answer.records) > rooms_of(call.lengths).records:
        number = 13
    records = [] if number else answer.records
    tables = [
        *left(node_words, answer.node_rows, call.old.nodes, call.old.step),
        *left(edge_words, answer.edge_rows, call.old.edges, call.old.step),
        *left(record_words, records, call.old.records, call.old.step),
    ]
    if number:
        return [number] + [0] * BESIDE + tables
    return [
        0,
        int(answer.exact),
        *value(answer.best),
        *padded(answer.path),
        *value(answer.exact_best),
        *padded(answer.exact_path),
        len(answer.node_rows),
        len(answer.edge_rows),
        len(records),
        len(answer.layers),
        *(row for layer in answer.layers for row in layer),
        *tables,
    ]


def answer_line(call, answer):
    """The line that is due; without an answer of the oracle's, document 01's table refuses the call and nothing is written."""
    return " ".join(map(str, numbers_due(call, answer)))
