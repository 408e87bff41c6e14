"""A plain model of the job program, written from document 01: a job's text read, its search run, the answer's bytes. It knows nothing of the proved code."""
import pathlib
import re
import sys
from collections import namedtuple

sys.dont_write_bytecode = True
sys.path.append(str(pathlib.Path(__file__).parent.parent / "search"))
from search import Ask, Blocks, Place, Rooms, model, padded, pick, start

Sizes = namedtuple("Sizes", "nodes edges scratch list")
DOCUMENT = Sizes(1_024, 1_792, 128, 384)  # what the program of document 01 lends
LARGER = Sizes(29_238, 43_317, 4_096, 16_384)  # what large_page lends
MOST_BYTES = 65_535

NUMBER = rb"(0|[1-9][0-9]{0,8})"
HEAD = re.compile(rb"cap\t" + NUMBER + rb"\nwidth\t" + NUMBER + rb"\ncut\t(lel|frontier)\n")
ITEM = re.compile(rb"item\t" + NUMBER + rb"\t" + NUMBER + rb"\n")


def read(text):
    """Page, width, cut and items of a job's text; None outside the grammar."""
    head = HEAD.match(text)
    if len(text) > MOST_BYTES or head is None:
        return None
    at, items = head.end(), []
    while at < len(text):
        line = ITEM.match(text, at)
        if line is None:
            return None
        items.append((int(line[1]), int(line[2])))
        at = line.end()
    return int(head[1]), int(head[2]), {b"lel": model.LEL, b"frontier": model.FRONTIER}[head[3]], items


def refused(number):
    return b"refused\t%d\n" % number


def answer(text, sizes=DOCUMENT, pick=pick):
    """What the program writes for a text; a caller may give a pick that counts."""
    job = read(text)
    if job is None:
        return refused(15)
    page, width, cut, items = job
    blocks = Blocks(tuple(weight for weight, _ in items), tuple(profit for _, profit in items), page)
    empty = Place(0, 0, 0, 0, padded(()))
    begun = start(blocks, width, model.I64_MIN, [empty] * sizes.list)
    if begun.number:
        return refused(begun.number)
    search, places, rooms = begun.search, begun.list, Rooms(sizes.nodes, sizes.edges, sizes.scratch)
    while search.opened:
        place = max(range(search.opened), key=lambda i: (places[i].bound, -i))
        done = pick(blocks, Ask(width, cut), search, place, places, rooms)
        if done.number:
            return refused(done.number)
        search, places = done.search, done.list
    lines = [b"best\t%d\n" % search.best]
    lines += [b"item\t%d\t%d\n" % (item, 2 * item + 1 in search.path[:len(items)]) for item in range(len(items))]
    return b"".join(lines) + b"picks\t%d\n" % search.picks


def self_test():
    text = b"cap\t2\nwidth\t1\ncut\tlel\nitem\t1\t4\nitem\t1\t3\nitem\t1\t2\n"
    assert answer(text) == b"best\t7\nitem\t0\t1\nitem\t1\t1\nitem\t2\t0\npicks\t3\n"
    assert answer(text[:-1]) == refused(15)
    print("case R holds")


if __name__ == "__main__":
    self_test()
