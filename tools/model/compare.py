#!/usr/bin/env python3
"""compare.py ORACLE SHAPE COUNT SEED: asks the oracle and the model about the same compiles, and shows where they differ.

Each problem is compiled six times: with our choice among terminals, with rooms that just suffice, are short of nodes, of edges
or of both, and unpatched. The same seed makes the same problems. Ends in 'N differences'; exit status 1 if there is one.
"""
import collections
import random
import subprocess
import sys

sys.dont_write_bytecode = True
import model

NO_LIMIT = 1 << 40
SHOWN = 5  # differences that are shown whole
LOW, HIGH = model.I64_MIN, model.I64_MAX


def path_text(path):
    return ".".join(map(str, path)) or "-"


def record_text(r):
    return f"{r.capacity}:{r.value}:{r.bound}:{r.depth}:{path_text(r.path)}"


def listed(texts):
    return ",".join(texts) or "-"


def link(edge):
    return 0 if edge is None else edge + 1


def node_text(n):
    flags = ":".join("0" if flag == "-" else "1" for flag in n.flags)
    return f"{n.capacity}:{n.depth}:{n.value}:{n.bottom}:{link(n.best)}:{link(n.newest)}:{n.fast}:{flags}"


def edge_text(e):
    return f"{e.source}:{e.target}:{e.decision}:{e.cost}:{link(e.next)}"


def answer_text(d):
    """The model's diagram as the oracle's line."""
    layers = listed(f"{a}:{b}" for a, b in d.layers)
    tables = (f"nodes={len(d.nodes)} edges={len(d.edges)} layers={layers} "
              f"node_rows={listed(map(node_text, d.nodes))} edge_rows={listed(map(edge_text, d.edges))}")
    if d.refusal is not None:
        return f"refused number={d.refusal} {tables}"
    value = lambda v: "none" if v is None else v
    path = lambda p: "none" if p is None else path_text(p)
    return (f"ok exact={int(d.exact)} best={value(d.best)} path={path(d.path)} exact_best={value(d.best_exact)} "
            f"exact_path={path(d.exact_path)} records={listed(map(record_text, d.drained))} {tables}")


class Problems:
    """Problems of one shape: the arguments of the model's compile."""

    def __init__(self, shape, seed):
        self.shape, self.random = shape, random.Random(seed)

    def small_items(self):
        draw = self.random
        least, most, profits = draw.choice([(0, 4, range(5)), (0, 12, range(10)), (1, 6, (0, 1, 5, 1000000)), (1, 16, range(31))])
        return [(draw.randint(least, most), draw.choice(profits)) for _ in range(draw.randint(0, 8))]

    def large_items(self, counts):
        return [(self.random.randint(0, 3000), self.random.randint(0, 1000000)) for _ in range(self.random.choice(counts))]

    def record(self, items, page):
        """The root record, or any valid one: items below its depth decided at random, listed in any order."""
        if self.random.random() < 0.5:
            return model.root_record(page)
        depth, capacity, value, path = self.random.randint(0, len(items)), page, 0, []
        for i, (weight, profit) in enumerate(items[:depth]):
            take = weight <= capacity and self.random.random() < 0.5
            if take:
                capacity, value = capacity - weight, value + profit
            path.append(2 * i + take)
        self.random.shuffle(path)
        return model.Record(capacity, value, self.random.choice([HIGH, 0, 17, LOW]), depth, tuple(path))

    def next(self):
        draw = self.random
        cut, modes = draw.choice(["lel", "frontier"]), ["restricted", "relaxed", "relaxed", "exact"]
        if self.shape == "small":
            items, page, width = self.small_items(), draw.randint(0, 25), draw.choice([1, 1, 2, 2, 3, 4, 5, 256])
        else:
            items = self.large_items([10, 11, 12] if self.shape == "large" else [20, 40, 63, 64])
            page, width = draw.choice([3000, 9000, 20000, 65535]), draw.choice([1, 7, 40, 100, 255, 256])
        mode = draw.choice(modes[:2] if self.shape == "wide" else modes)
        record = self.record(items, page)
        top = model.compile(items, page, mode, width, cut, LOW, record).best or 0
        lower = draw.choice([LOW, -1, 0, top // 2, top - 1, top, top + 1, record.value, HIGH])
        return items, page, mode, width, cut, lower, record


class Comparison:
    def __init__(self, oracle):
        self.oracle = subprocess.Popen([oracle], stdin=subprocess.PIPE, stdout=subprocess.PIPE, text=True)
        self.asked, self.differences = collections.Counter(), 0

    def ask(self, variant, problem, rooms):
        items, page, mode, width, cut, lower, record = problem
        print(f"variant={variant} mode={mode} cut={cut} width={width} page={page} lower={lower} record={record_text(record)} "
              f"node_room={rooms[0]} edge_room={rooms[1]} items={listed(f'{w}:{p}' for w, p in items)}",
              file=self.oracle.stdin, flush=True)
        answer = self.oracle.stdout.readline().rstrip("\n")
        self.asked[" ".join([variant] + answer.split()[:1 + answer.startswith("refused")]).split(" ok")[0]] += 1
        return answer

    def hold(self, problem, ours, theirs):
        if ours != theirs:
            self.differences += 1
            if self.differences <= SHOWN:
                print(problem, "model  " + ours, "oracle " + theirs, sep="\n")

    def choice(self, problem):
        diagram = model.compile(*problem, layer_room=NO_LIMIT)
        self.hold(problem, answer_text(diagram), self.ask("tie", problem, (NO_LIMIT, NO_LIMIT)))
        return diagram

    def rooms(self, problem, nodes, edges):
        diagram = model.compile(*problem, node_room=nodes, edge_room=edges)
        self.hold(problem, answer_text(diagram), self.ask("rooms", problem, (nodes, edges)))

    def unpatched(self, problem, diagram):
        """Where terminals tie, the Rust follows its hash map: there its tables alone."""
        ours, theirs = answer_text(diagram), self.ask("unpatched", problem, (0, 0))
        if ties(diagram):
            self.asked["unpatched, its tables alone"] += 1
            ours, theirs = (text[text.index(" nodes="):] for text in (ours, theirs))
        self.hold(problem, ours, theirs)


def ties(d):
    """Whether the best terminal, or the best exact one, has an equal."""
    if d.best is None:
        return False
    terminals = d.nodes[slice(*d.layers[-1])]
    for rows in terminals, [n for n in terminals if n.flags[0] == "e"]:
        values = [n.value for n in rows]
        if values and values.count(max(values)) > 1:
            return True
    return False


def main(oracle, shape, count, seed):
    problems, comparison = Problems(shape, int(seed)), Comparison(oracle)
    for _ in range(int(count)):
        problem = problems.next()
        diagram = comparison.choice(problem)
        nodes, edges = len(diagram.nodes), len(diagram.edges)
        fewer = lambda most: problems.random.randint(0, most)
        for room in (nodes, edges), (fewer(nodes), edges), (nodes, fewer(edges)), (fewer(nodes), fewer(edges)):
            comparison.rooms(problem, *room)
        comparison.unpatched(problem, diagram)
    for kind, number in sorted(comparison.asked.items()):
        print(f"{number:8} {kind}")
    print(f"{comparison.differences} differences")
    sys.exit(1 if comparison.differences else 0)


if __name__ == "__main__":
    if len(sys.argv) != 5 or sys.argv[2] not in ("small", "large", "wide"):
        sys.exit(__doc__)
    main(*sys.argv[1:])
