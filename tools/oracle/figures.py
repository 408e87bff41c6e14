"""The inputs of the figures that the crates compute from the definition: starred cases, traps, and whole calls of compile.

They are read from the crates' own files, so that a figure that is added there is added here. What a figure answers isn't read:
the oracle says that once more.
"""
import re

from compiled_text import Call, Lengths, Old
from definition_cases import EDGE_WORDS, I64_MAX, I64_MIN, NODE_WORDS, RECORD_WORDS, Record, Request, root_record

PLACES = [
    ("starred case", "diagram/specs/Starred.antt", ["T", "B", "F"], "cases"),
    ("trap, answer", "diagram/specs/Traps.antt", [], "answers"),
    ("trap, tables", "diagram/specs/Traps.antt", [], "tables"),
    ("figure of compile", "calls/specs/Figures.antt", [], "calls"),
    ("figure that passes", "calls/specs/Figures.antt", [], "passing"),
    ("figure that is refused", "calls/specs/Figures.antt", [], "refusing"),
]
TOKEN = re.compile(r"\(|\)|∷|\+\+|[^\s()∷]+")


# ---- Terms: lists and applications

def body_of(text, name):
    """The right side of a definition, without comments and record literals."""
    lines = re.sub(r"^ *--.*\n", "", text, flags=re.MULTILINE)
    body = re.search(rf"^{re.escape(name)} =\s(.*?)(?:\n\n|\Z)", lines, re.MULTILINE | re.DOTALL).group(1)
    return re.sub(r"\(record \{.*?\}\)", "_", body, flags=re.DOTALL)


def term(tokens):
    """A term up to a closing parenthesis: applications, joined by ∷ or ++."""
    words = []
    while tokens and tokens[0] not in (")", "∷", "++"):
        token = tokens.pop(0)
        words.append(term(tokens) if token == "(" else token)
        if token == "(":
            tokens.pop(0)
    first = words[0] if len(words) == 1 else words
    if not tokens or tokens[0] == ")":
        return first
    return (tokens.pop(0), first, term(tokens))


def listed(parsed):
    while parsed != "[]":
        _, first, parsed = parsed
        yield first


# ---- What the names in them mean

def ask(weights, profits, page, width, mode, kind, lower, start):
    return Request(mode, kind, width, page, lower, start, list(weights), list(profits))


def ask_items(mode, width, kind, lower, items, start):
    page = start.capacity + sum(items[byte // 2][0] for byte in start.path if byte % 2)
    return ask([item[0] for item in items], [item[1] for item in items], page, width, mode, kind, lower, start)


NAMES = {
    "[]": [],
    "exactly": "exact",
    "restricted": "restricted",
    "relaxing": "relaxed",
    "last_exact_layer": "lel",
    "frontier": "frontier",
    "lowest": I64_MIN,
    "highest": I64_MAX,
    "pos": lambda number: number,
    "negsuc": lambda number: -number - 1,
    "item": lambda weight, profit: (weight, profit),
    "replicate": lambda count, thing: [thing] * count,
    "shown": lambda *fields: Record(*fields[:4], tuple(fields[4])),
    "given": lambda *fields: Record(*fields[:4], tuple(fields[4])),
    "root": root_record,
    "ask": ask,
    "ask_t": lambda width, mode, kind, lower, start: ask([1] * 3, [4, 3, 2], 2, width, mode, kind, lower, start),
    "from_root": lambda weights, profits, page, width: ask(weights, profits, page, width, "exact", "lel", I64_MIN, root_record(page)),
    "from_record": lambda weights, profits, page, width, start: ask(weights, profits, page, width, "exact", "lel", I64_MIN, start),
    "empties": lambda count: ask([0] * count, [0] * count, 0, 1, "exact", "lel", 0, root_record(0)),
    "old": lambda first, count: (first, count),
    "lend": lambda nodes, edges, records: (nodes or (0, 0), edges or (0, 0), records or (0, 0)),
}
LENT_FEW = ((101, 29), (201, 13), (301, 70))  # `lent_few` of Figures.antt


def meaning(parsed, names):
    if isinstance(parsed, tuple):
        _, first, rest = parsed
        return [meaning(first, names)] + meaning(rest, names)
    if isinstance(parsed, list):
        return meaning(parsed[0], names)(*(meaning(argument, names) for argument in parsed[1:]))
    return int(parsed) if parsed.isdigit() else names[parsed]


def rooms(nodes, edges):
    """Rows to lend, with places for 8 records."""
    return (1, nodes * NODE_WORDS), (2, edges * EDGE_WORDS), (3, 8 * RECORD_WORDS)


def parts_of(head, mean):
    """A figure's request, and what is lent: first word and number of words of each table, or None where the figure doesn't say."""
    if head == "case":
        *asked, page = mean(6)
        return ask_items(*asked, root_record(page)), None
    if head == "case_from":
        return ask_items(*mean(6)), None
    if head == "lent":
        nodes, edges, *asked, page = mean(8)
        return ask_items(*asked, root_record(page)), rooms(nodes, edges)
    if head == "lent_from":
        nodes, edges, *asked = mean(8)
        return ask_items(*asked), rooms(nodes, edges)
    if head == "call":
        return mean(2)
    if head == "refuses":
        return mean(2)[1], LENT_FEW
    return NAMES[head](*mean(5)), LENT_FEW


def figure(sort, parsed, names):
    """The figure as a call, without tables where it doesn't say what is lent."""
    head, *rest = parsed
    request, tables = parts_of(head, lambda count: [meaning(argument, names) for argument in rest[:count]])
    if tables is None:
        return Call(sort, request, None, None)
    firsts, counts = zip(*tables)
    return Call(sort, request, Lengths(*counts), Old(*firsts, 1))


def figures(crates):
    """Every figure of the crates, in the order in which they stand there."""
    for sort, file, shared, name in PLACES:
        text = (crates / file).read_text(encoding="utf-8")
        names = dict(NAMES)
        for other in shared:
            names[other] = meaning(term(TOKEN.findall(body_of(text, other))), names)
        for parsed in listed(term(TOKEN.findall(body_of(text, name)))):
            yield figure(sort, parsed, names)
