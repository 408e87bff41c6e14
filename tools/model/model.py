"""A plain model of how one knapsack decision diagram grows, ends and is drained, with named wrong variants, to find inputs that tell a right reading from a wrong one."""

from collections import namedtuple

I64_MIN, I64_MAX = -2**63, 2**63 - 1
BIG = 1 << 20
EXACT, RESTRICTED, RELAXED = 'exact', 'restricted', 'relaxed'
LEL, FRONTIER = 'lel', 'frontier'

Record = namedtuple('Record', 'capacity value bound depth path')
NodeRow = namedtuple('NodeRow', 'capacity depth value bottom best newest fast flags')
EdgeRow = namedtuple('EdgeRow', 'source target decision cost next')
Diagram = namedtuple('Diagram', 'refusal exact best path best_exact exact_path nodes edges '
                                'layers lel cutset drained')


class Refused(Exception):
    """Carries refusal number 10, 11 or 12."""


class Node:
    __slots__ = ('capacity', 'depth', 'value', 'bottom', 'best', 'newest', 'fast',
                 'exact', 'relaxed', 'marked', 'cutset', 'deleted')

    def __init__(self, capacity, depth, value, exact):
        self.capacity, self.depth, self.value, self.exact = capacity, depth, value, exact
        self.bottom, self.fast = I64_MIN, I64_MAX
        self.best = self.newest = None
        self.relaxed = self.marked = self.cutset = self.deleted = False

    def row(self):
        on = (self.exact, self.relaxed, self.marked, self.cutset, self.deleted)
        flags = ''.join(letter if flag else '-' for letter, flag in zip('ermcd', on))
        return NodeRow(self.capacity, self.depth, self.value, self.bottom, self.best,
                       self.newest, self.fast, flags)


class Run:
    """One compile; self.v names the wrong variant, if any, and each test of it is a hook."""

    def __init__(self, items, mode, width, cut, lower_bound, record, rooms, variant):
        self.items, self.mode, self.width, self.cut = items, mode, width, cut
        self.lower_bound, self.record, self.v = lower_bound, record, variant
        self.node_room, self.edge_room, self.layer_room = rooms
        self.nodes, self.edges, self.layers = [], [], []
        self.start = 0            # first row of the coming layer
        self.lel = None           # number of the last exact layer, once something was squashed
        self.copied = set()       # edges made by a squash (only variant b3 asks)

    # -- How a diagram grows ------------------------------------------------------------------

    def grow(self):
        """Make all layers; give the terminals' rows."""
        if self.node_room < 1 and self.v != 't8':
            raise Refused(11)
        record = self.record
        self.nodes.append(Node(record.capacity, record.depth, record.value, True))
        coming = [0]
        for depth in range(record.depth, len(self.items)):
            if not coming:
                if self.v != 't1a':
                    self.layers.append((0, 0))
                return []
            layer = self.squash(self.by_capacity(coming))
            self.store_layer()
            coming = self.expand(layer, depth)
        if coming:
            if self.v == 's3':
                coming = self.squash(self.by_capacity(coming))
            self.store_layer()
        elif self.v == 't1b':
            self.layers.append((0, 0))
        return coming

    def by_capacity(self, rows):
        return sorted(rows, key=lambda row: -self.nodes[row].capacity)

    def store_layer(self):
        self.layers.append((self.start, len(self.nodes)))
        self.start = len(self.nodes)

    def expand(self, layer, depth):
        """Branch on item `depth` from the layer's rows in order; give the coming rows as made."""
        weight, profit = self.items[depth]
        coming = {}               # capacity -> row
        for row in layer:
            node = self.nodes[row]
            fast = sum(p for w, p in self.items[depth:] if w <= node.capacity)
            if self.v != 't7a':
                node.fast = fast
            above = node.value + fast - self.lower_bound
            if above > 0 or (above == 0 and self.v == 'g1'):
                branches = [(node.capacity, 2 * depth, 0)]
                if weight <= node.capacity:
                    branches.insert(0, (node.capacity - weight, 2 * depth + 1, profit))
                for branch in reversed(branches) if self.v == 'd1' else branches:
                    self.branch(row, coming, *branch)
            node.fast = fast
        return list(coming.values())

    def branch(self, source, coming, capacity, decision, cost):
        parent, fresh = self.nodes[source], capacity not in coming
        if fresh:
            self.need_node_row(also_edge=self.v == 't7f')
            if self.v != 't7b':
                self.need_edge_row()
            coming[capacity] = len(self.nodes)
            self.nodes.append(Node(capacity, parent.depth + 1, parent.value + cost, parent.exact))
        self.need_edge_row()
        child = self.nodes[coming[capacity]]
        was_exact = child.exact
        self.link(source, coming[capacity], decision, cost)
        if (self.v == 'e1' and not fresh) or (self.v == 'e2' and fresh):
            child.exact = was_exact or fresh

    def need_node_row(self, also_edge=False):
        if len(self.nodes) - self.start >= self.layer_room:
            raise Refused(10)
        if also_edge:
            self.need_edge_row()
        if len(self.nodes) >= self.node_room:
            raise Refused(11)

    def need_edge_row(self):
        if len(self.edges) >= self.edge_room:
            raise Refused(12)

    def link(self, source, target, decision, cost):
        parent, child, number = self.nodes[source], self.nodes[target], len(self.edges)
        self.edges.append(EdgeRow(source, target, decision, cost, child.newest))
        child.newest = number
        child.exact = child.exact and parent.exact
        gain = parent.value + cost - child.value
        if gain > 0 or (gain == 0 and (self.v != 's2' or child.best is None)):
            child.best, child.value = number, parent.value + cost

    def squash(self, layer):
        """Cut or merge a layer given in capacity order; give its rows in order of expansion."""
        if self.mode == EXACT or len(layer) <= self.width:
            return layer
        if self.mode == RELAXED and len(self.layers) <= 1 and self.v != 's1':
            return layer
        if self.lel is None or self.v == 'l1':
            self.lel = len(self.layers) - (self.v != 'l2')
        order = sorted(layer, key=self.squash_key)
        if self.mode == RESTRICTED:
            keep = self.width - (self.v == 'r1')
            for row in order[keep:]:
                self.nodes[row].deleted = True
            return self.by_capacity(order[:keep]) if self.v == 't6b' else order[:keep]
        keep = self.width - (self.v != 'r2')
        return self.merge(order[:keep], order[keep:])

    def squash_key(self, row):
        value, capacity = self.nodes[row].value, self.nodes[row].capacity
        if self.v == 'q2':
            return -capacity, -value
        return -value, capacity if self.v == 'q1' else -capacity

    def merge(self, kept, rest):
        nodes, first = self.nodes, self.nodes[rest[0]]
        capacity = (min if self.v == 'm1' else max)(nodes[row].capacity for row in rest)
        twin = next((row for row in kept if nodes[row].capacity == capacity), None)
        merged = len(nodes) if twin is None else twin
        if twin is None:
            self.need_node_row()
            if self.v == 't7c':
                self.need_edge_row()
            value = first.value if self.v == 'm2' else I64_MIN
            nodes.append(Node(capacity, first.depth, value, False))
        nodes[merged].relaxed = True
        for row in rest if self.v == 't7e' else ():
            nodes[row].deleted = True
        for row in reversed(rest) if self.v == 'c2' else rest:
            if self.v != 't7d':
                nodes[row].deleted = True
            for number in self.copy_order(row):
                self.need_edge_row()
                edge = self.edges[number]
                self.copied.add(len(self.edges))
                self.link(edge.source, merged, edge.decision, edge.cost)
            nodes[row].deleted = True
        if twin is not None:
            first.deleted = False
            return kept + rest[:1]
        if self.v == 't6a':
            kept = self.by_capacity(kept)
        return [merged] + kept if self.v == 't6c' else kept + [merged]

    def copy_order(self, row):
        if self.v == 'c3':
            return [self.nodes[row].best]
        return self.inbound(row)[::-1] if self.v == 'c1' else self.inbound(row)

    def inbound(self, row):
        """Numbers of the edges into a row, newest first."""
        numbers, number = [], self.nodes[row].newest
        while number is not None:
            numbers.append(number)
            number = self.edges[number].next
        return numbers

    # -- After the last layer -----------------------------------------------------------------

    def finish(self, terminals):
        """Give exact flag, best node, best exact node, cutset rows and drained records."""
        best = self.best_of(terminals)
        best_exact = self.best_of([row for row in terminals if self.nodes[row].exact])
        walked = (self.mode == RELAXED or self.v == 'w3') and self.walk(best)
        if walked:
            best_exact = best
        exact = self.lel is None or walked
        cutset = self.find_cutset() if self.mode == RELAXED else []
        if self.mode == RELAXED and self.lel is not None:
            self.local_bounds()
        for row in cutset:
            self.nodes[row].cutset = self.nodes[row].marked or self.v != 't3'
        nothing = best is None or (exact and self.v == 't5')
        drained = [] if nothing else self.drain(cutset, self.nodes[best].value)
        return exact, best, best_exact, cutset, drained

    def best_of(self, rows):
        tie = {'t9a': lambda row: -self.nodes[row].capacity, 't9b': lambda row: -row,
               't9c': lambda row: row}.get(self.v, lambda row: self.nodes[row].capacity)
        return max(rows, key=lambda row: (self.nodes[row].value, tie(row)), default=None)

    def walk(self, row):
        """Whether the best path, walked upwards, meets an exact node before a relaxed one."""
        if row is None:
            return self.v != 't2' or self.lel is None
        node = self.nodes[row]
        while not node.exact:
            if self.v == 'w1' or (node.relaxed and self.v != 'w2'):
                return False
            node = self.nodes[self.edges[node.best].source]
        return True

    def path(self, row):
        new, number = [], self.nodes[row].best
        while number is not None:
            new.append(self.edges[number].decision)
            number = self.nodes[self.edges[number].source].best
        return tuple(self.record.path) + tuple(new[::-1] if self.v == 'p1' else new)

    def find_cutset(self):
        if self.cut == LEL:
            return [] if self.lel is None else list(range(*self.layers[self.lel]))
        listed = []
        for start, end in self.layers if self.v == 'f1' else reversed(self.layers):
            for row in reversed(range(start, end)) if self.v == 'f2' else range(start, end):
                node = self.nodes[row]
                looked_at = {'f5': node.relaxed, 'f6': True}.get(self.v, not node.exact)
                if not looked_at or (self.v == 't4' and node.deleted):
                    continue
                for number in self.inbound(row)[::-1 if self.v == 'f3' else 1]:
                    parent = self.edges[number].source
                    if self.nodes[parent].exact and (self.v == 'f4' or parent not in listed):
                        listed.append(parent)
        return listed

    def local_bounds(self):
        for row in range(*self.layers[-1]):
            node = self.nodes[row]
            if self.v != 't1c' or not node.deleted:
                node.bottom, node.marked = 0, True
        for start, end in reversed(self.layers):
            for row in range(start, end):
                node = self.nodes[row]
                for number in self.inbound(row) if node.marked else ():
                    if (self.v == 'b3' and number in self.copied) or \
                            (self.v == 'b4' and number != node.best):
                        continue
                    parent = self.nodes[self.edges[number].source]
                    parent.marked = True
                    parent.bottom = max(parent.bottom, node.bottom + self.edges[number].cost)

    def drain(self, cutset, best_value):
        records = []
        for row in cutset:
            node = self.nodes[row]
            if node.marked or self.v == 's4':
                bound = best_value
                if self.v != 'b1':
                    bound = min(bound, node.value + node.fast)
                if self.v != 'b2':
                    bound = min(bound, max(I64_MIN, node.value + node.bottom))
                records.append(Record(node.capacity, node.value, bound, node.depth,
                                      self.path(row)))
        return records


def root_record(capacity):
    return Record(capacity, 0, I64_MAX, 0, ())


def compile(items, capacity, mode, width, cut, lower_bound, record=None, node_room=BIG,
            edge_room=BIG, layer_room=1024, variant=None):
    """The diagram of a record (the root's if none is given), or its refusal and the rows so far."""
    run = Run(items, mode, width, cut, lower_bound, record or root_record(capacity),
              (node_room, edge_room, layer_room), variant)
    refusal, exact, best, best_exact, cutset, drained = (None,) * 6
    try:
        exact, best, best_exact, cutset, drained = run.finish(run.grow())
    except Refused as refused:
        refusal = refused.args[0]
    value = [None if row is None else run.nodes[row].value for row in (best, best_exact)]
    path = [None if row is None else run.path(row) for row in (best, best_exact)]
    return Diagram(refusal, exact, value[0], path[0], value[1], path[1],
                   [node.row() for node in run.nodes], run.edges, run.layers, run.lel, cutset,
                   drained)


def self_test():
    T, block, low = [(1, 4), (1, 3), (1, 2)], [(3, 5)], I64_MIN
    first, second = Record(1, 4, 9, 1, (1,)), Record(2, 0, 5, 1, (0,))

    def figures(d):
        return d.refusal, d.exact, d.best, d.path, len(d.nodes), len(d.edges), d.drained

    for mode in (EXACT, RESTRICTED, RELAXED):                                                # A
        assert figures(compile([], 7, mode, 1, LEL, 10)) == (None, True, 0, (), 1, 0, [])
    assert figures(compile(block, 3, EXACT, 1, LEL, low)) == (None, True, 5, (1,), 3, 2, [])  # B
    assert figures(compile(block, 3, EXACT, 1, LEL, 5)) == (None, True, None, None, 1, 0, [])  # E
    assert figures(compile([(2, 3), (2, 3)], 2, EXACT, 1, LEL, low)) \
        == (None, True, 3, (2, 1), 5, 5, [])                                                 # F
    for cut, drained in ((LEL, [first, second]), (FRONTIER, [second, first])):              # H, I
        d = compile(T, 2, RELAXED, 1, cut, low)
        assert (d.refusal, d.exact, d.best, d.best_exact, d.exact_path) \
            == (None, False, 9, None, None)
        assert (len(d.nodes), len(d.edges), d.drained) == (9, 12, drained)
    assert figures(compile(T, 2, RESTRICTED, 1, LEL, low)) \
        == (None, False, 7, (4, 3, 1), 6, 5, [])                                             # J
    assert figures(compile(T, 2, RELAXED, 1, LEL, 9)) == (None, True, None, None, 1, 0, [])  # K
    d = compile(T, 2, RELAXED, 1, LEL, 8)
    assert (d.best, len(d.nodes), len(d.edges), d.drained) == (9, 8, 8, [first])             # L
    assert figures(compile(T, 2, RELAXED, 2, LEL, low))[:6] \
        == (None, True, 7, (4, 3, 1), 10, 12)                                                # M
    print('cases A B E F H I J K L M hold')


if __name__ == '__main__':
    self_test()
