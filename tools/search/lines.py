"""The lines of crates/search_replay: a call as its request, and the answer that is due by the model. README.md has the format."""
from search import EDGE_WORDS, NODE_WORDS, RECORD_WORDS, Picked, Rooms, edge_words, node_words, pick, place_words, start, word
import model

CUTS = {model.LEL: 0, model.FRONTIER: 1}


def line(numbers):
    return " ".join(map(str, numbers))


def request_line(call):
    s = call.search
    head = [
        int(call.call == "pick"),
        len(call.blocks.weights),
        len(call.blocks.profits),
        call.blocks.page,
        call.ask.width,
        CUTS[call.ask.cut],
        word(call.bound if call.call == "start" else s.best),
        int(s.held),
        s.opened,
        s.picks,
        call.place,
        len(call.list),
        *call.lengths,
        *call.old,
    ]
    return line([*head, *call.blocks.weights, *call.blocks.profits, *s.path, *words_of(place_words, call.list)])


def words_of(one, rows):
    return [number for row in rows for number in one(row)]


def left(words, first, step):
    """A table after the words were written: the number of words up to the last that isn't as before, and these words."""
    while words and words[-1] == (first + (len(words) - 1) * step) % 2**64:
        words.pop()
    return [len(words), *words]


def rooms_of(lengths):
    """The whole rows and places of so many words."""
    return Rooms(lengths.nodes // NODE_WORDS, lengths.edges // EDGE_WORDS, lengths.scratch // RECORD_WORDS)


def made(call):
    """What the call answers and leaves."""
    if call.call == "start":
        number, search, places = start(call.blocks, call.ask.width, call.bound, call.list)
        return Picked(number, search, places, (), (), ())
    return pick(call.blocks, call.ask, call.search, call.place, call.list, rooms_of(call.lengths))


def answer_line(call):
    number, s, places, *written = made(call)
    tables = zip((node_words, edge_words, place_words), written, call.old)
    after = [number for one, rows, first in tables for number in left(words_of(one, rows), first, call.old.step)]
    return line([number, word(s.best), int(s.held), s.opened, s.picks, *s.path, *words_of(place_words, places), *after])
