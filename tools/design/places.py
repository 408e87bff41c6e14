#!/usr/bin/env python3
"""Counts, in the code of a tree, the places of each point of docs/DESIGN-PASS.md: python3 tools/design/places.py [TREE] [--list]."""
import collections
import pathlib
import re
import sys

arguments = [a for a in sys.argv[1:] if not a.startswith("--")]
show = "--list" in sys.argv
top = pathlib.Path(arguments[0] if arguments else ".")
files = sorted(top.glob("crates/*/src/**/*.rt"))
texts = {f: f.read_text() for f in files}


def place(f, offset):
    return f"{f.relative_to(top)}:{texts[f].count(chr(10), 0, offset) + 1}"


def lines(pattern):
    """The places where a pattern stands in a line of code that is no comment."""
    found = []
    for f, text in texts.items():
        for m in re.finditer(pattern, text, re.M):
            start = text.rfind("\n", 0, m.start()) + 1
            if not text[start:m.start()].lstrip().startswith("//"):
                found.append(place(f, m.start()) + " " + " ".join(m.group(0).split()))
    return found


Function = collections.namedtuple("Function", "file offset name parameters result body")


def functions():
    """Every function, with its parameters' names, its result's type and its body."""
    found = []
    for f, text in texts.items():
        for m in re.finditer(r"^( *)(?:pub )?(?:extern \"C\" )?fn ([a-z_0-9]+)(?:<[^(]*>)?\(", text, re.M):
            end = text.find("\n" + m.group(1) + "}", m.end())
            depth, at = 1, m.end()
            while depth:
                depth += {"(": 1, ")": -1}.get(text[at], 0)
                at += 1
            parameters = [p.split(":")[0].strip() for p in re.split(r",\s", text[m.end():at - 1]) if ":" in p]
            result = re.match(r" -> ([^\n{]+)", text[at:])
            open_body = re.compile(r"\{\n|\{ [^\n]* \}$", re.M)
            body_at = text.find("\n" + m.group(1) + "{\n", at)
            if body_at < 0 or body_at > end >= 0:
                plain = open_body.search(text, at)
                body_at = plain.start() if plain else at
            found.append(Function(f, m.start(), m.group(2), parameters, result.group(1).strip() if result else "", text[body_at:end]))
    return found


all_functions = functions()


def of(function):
    return f"{place(function.file, function.offset)} {function.name}"


def two_way_enums():
    """Enums of two variants of which one at least holds a value: the shape of Option or Result."""
    found = []
    for f, text in texts.items():
        for m in re.finditer(r"^(?:pub )?enum ([A-Za-z]+)(?:<[^>]*>)? \{\n(.*?)^\}", text, re.M | re.S):
            variants = [v for v in re.findall(r"^    ([A-Z][A-Za-z]*)(\(?)", m.group(2), re.M)]
            if len(variants) == 2 and any(v[1] for v in variants):
                found.append(f"{place(f, m.start())} {m.group(1)}")
    return found


def same_shape():
    """Functions whose bodies are one text once each name and number is taken out, in bodies of three lines or more."""
    groups = collections.defaultdict(list)
    for function in all_functions:
        body = re.sub(r"//[^\n]*", "", function.body)
        shape = re.sub(r"\s+", " ", re.sub(r"[A-Za-z_][A-Za-z_0-9]*|[0-9]+", "_", body))
        if body.count("\n") >= 3 and shape.count("_") >= 6:
            groups[shape].append(of(function))
    return ["  ~  ".join(g) for g in groups.values() if len(g) > 1]


def matched_booleans():
    """Functions that answer a truth by a match or a let-else on an enum."""
    return [of(f) for f in all_functions if f.result == "bool" and re.search(r"=> (true|false)|else \{\s*return (true|false);\s*\};", f.body)]


def repeated_facts():
    """Facts, by their first word or their text, that stand in the requires of three functions or more."""
    heads = collections.defaultdict(set)
    for f, text in texts.items():
        for m in re.finditer(r"requires\s+(?:[a-z_0-9]+\s+)?\{(.*?)\}\n", text, re.S):
            for part in re.split(r"\s×\s", " ".join(m.group(1).split())):
                part = part.strip("() ")
                head = part.split()[0] if re.match(r"[A-Z]", part) else re.sub(r"\b[a-z](?=\.0)", "x", part)
                heads[head].add(place(f, m.start()))
    return [f"{len(p)} times: {h}" for h, p in sorted(heads.items(), key=lambda i: -len(i[1])) if len(p) >= 3]


def together(*names):
    return [of(f) for f in all_functions if all(n in f.parameters for n in names)]


def buffers_with_length():
    """Functions that are handed a list and how many of its places count, and structs that hold an array and a count."""
    pairs = [("list", "count"), ("list", "n"), ("out", "at"), ("words", "n"), ("buf", "at"), ("text", "count"), ("bytes", "n")]
    found = [of(f) for f in all_functions if any(a in f.parameters and b in f.parameters for a, b in pairs)]
    for f, text in texts.items():
        for m in re.finditer(r"^(?:pub )?struct ([A-Za-z]+)(?:<[^>]*>)? \{\n(.*?)^\}", text, re.M | re.S):
            if re.search(r": \[", m.group(2)) and re.search(r"\b(count|len|depth|layers|opened): ", m.group(2)):
                found.append(f"{place(f, m.start())} struct {m.group(1)}")
    return found


points = [
    ("1a enums of the shape of Option or Result", two_way_enums()),
    ("1b a flag with a value beside it", lines(r"^\s*(?:pub )?(?:ok|some|held|has_[a-z_]+): (?:bool|u64),")),
    ("1c a refusal as a number", lines(r"\b(?:Refused|Stopped|refused|refused_pick|refused_tally)\([0-9]+|fn refus[a-z_]*\(number: u64|\{ 2 \} else \{ 15 \}")),
    ("1d a link or a kind as a number", lines(r"Link\(0\)|\((?:best|link|e|link\.0) - 1\)|\bbest == 0|0 < (?:link|e)\b|fn (?:kind|mode)_(?:of|in)\(")),
    ("2a functions of one shape", same_shape()),
    ("2b functions of one name in several crates or modules", [
        n + ": " + ", ".join(place(f.file, f.offset) for f in all_functions if f.name == n)
        for n, k in sorted(collections.Counter(f.name for f in all_functions).items())
        if k > 1 and n not in ("main", "from", "fmt", "drop", "eq", "clone", "next")]),
    ("3 while and loop", lines(r"^\s*(?:while|loop)\b[^\n]*")),
    ("4a a truth by a match", matched_booleans()),
    ("4b conversions by hand", lines(r"fn (?:wide|byte_of|bit|flag|flag_of|flag_in|has_of|value_of|natural|number_of|kind_of|kind_in|mode_of|mode_in|ask_in|query_in|search_in|found_of|host_search_of|shown_of|request_in|picked_of)\(")),
    ("4c fields copied one by one", lines(r"^\s*([a-z_]+): [a-z_]+\.\1,$")),
    ("4d a field named twice", lines(r"^\s*([a-z_]+): \1,$")),
    ("4e operators as functions", lines(r"\b(?:words::(?:both|either|larger|smaller)|choose|larger|smaller|both|either)\((?!best|\s*$)")),
    ("5a facts in three contracts or more", repeated_facts()),
    ("5b tables, first row, counts and rooms", together("nodes", "edges", "start", "k", "rooms")),
    ("5c tables and record list", together("nodes", "edges", "records") + together("nodes", "edges", "scratch")),
    ("5d weights and profits", together("weights", "profits")),
    ("5e layers and the last exact one", together("layers", "last")),
    ("5f handle, buffer and place", together("rt", "out", "at")),
    ("6 a buffer with a length, parallel arrays", buffers_with_length()),
    ("7 a switch on what to run", lines(r"\bmatch (?:by|kind|mode)\b|if relaxes\(|\bif head\[0\] == 0")),
]

for name, found in points:
    print(f"{len(found):4}  {name}")
    if show:
        for entry in found:
            print(f"        {entry}")
print(f"{len(all_functions):4}  functions in all, {sum(t.count(chr(10)) for t in texts.values())} lines")
