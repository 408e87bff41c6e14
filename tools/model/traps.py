"""traps.py [FILE]: finds the smallest input on which each wrong variant of the model differs from the right one.

With a file, it also finds a small set of inputs that tells all of them apart, and writes it there.
"""

import random
import sys
from collections import namedtuple

from model import BIG, EXACT, FRONTIER, I64_MAX, I64_MIN, LEL, RELAXED, RESTRICTED, compile

MAX_WEIGHT, MAX_PROFIT, MAX_CAPACITY, MAX_WIDTH = 4, 5, 8, 3
LOWER_BOUNDS = [I64_MIN] + list(range(13))
LARGEST_SUM = {0: 0, 1: 9, 2: 18, 3: 27, 4: 9}    # every input up to these sums is looked at
CHECK_SEED, CHECK_RUNS = 20260501, 20000          # 'no answer can differ' is tried out at random
POOL_SEED, POOL_RUNS, POOL_ITEMS = 20260502, 16000, [3, 4]    # further candidates for the pins

WRONG = {
    's1': 'merges the root\'s children: squashes also when only the root layer is stored',
    's2': 'takes > for >=: a later equal edge does not become the best edge',
    's3': 'squashes the last layer too',
    's4': 'drains unmarked cutset nodes too',
    't1a': 'stores no layer 0..0 where a run dies out with items left',
    't1b': 'stores a layer 0..0 also where a run dies out at the last item',
    't1c': 'grounds local bounds only on rows of the last stored layer that are not deleted',
    't2': 'calls a squashed relaxed run without a terminal not exact',
    't3': 'flags only the marked ones of the listed rows as cutset',
    't4': 'passes over deleted rows in the frontier',
    't5': 'drains nothing from exact diagrams',
    't6a': 'expands the kept rows in capacity order, then the merged node',
    't6b': 'expands the kept rows of a restricted layer in capacity order',
    't6c': 'expands the merged node first',
    't7a': 'writes the parent\'s fast bound after its children',
    't7b': 'leaves the child\'s row where its edge finds no room',
    't7c': 'leaves no merged row where the first copied edge finds no room',
    't7d': 'flags a merged node deleted after its edges were copied',
    't7e': 'flags all merged nodes deleted before any edge is copied',
    't7f': 'tests a child for 12 before 11',
    't8': 'makes no room test for the root',
    't9a': 'lets the smallest capacity win among equal terminals',
    't9b': 'lets the first row win among equal terminals',
    't9c': 'lets the last row win among equal terminals',
    'q1': 'breaks ties of the squash order by smaller capacity',
    'q2': 'squashes by larger capacity, then larger value',
    'e1': 'lets a child stay exact at a further edge from an inexact parent',
    'e2': 'makes a new child of an inexact parent exact',
    'c1': 'copies edges oldest first',
    'c2': 'merges in reverse squash order',
    'c3': 'copies best edges only',
    'l1': 'names the last exact layer anew at each squash',
    'l2': 'names the squashed layer itself the last exact layer',
    'w1': 'makes no walk: only the best terminal\'s own exact flag counts',
    'w2': 'walks past relaxed nodes up to an exact one',
    'w3': 'makes the walk in restricted mode too',
    'b1': 'leaves value plus fast bound out of a drained bound',
    'b2': 'leaves value plus bottom value out of a drained bound',
    'b3': 'passes no local bounds along copied edges',
    'b4': 'passes local bounds along best edges only',
    'f1': 'frontier: takes layers first to last',
    'f2': 'frontier: takes rows in reverse',
    'f3': 'frontier: takes edges oldest first',
    'f4': 'frontier: lists a parent again',
    'f5': 'frontier: lists parents of relaxed nodes only, not of all inexact ones',
    'f6': 'frontier: lists parents of exact nodes too',
    'r1': 'restricted: keeps width - 1',
    'r2': 'relaxed: keeps width, and the merged node besides',
    'm1': 'merges to the least capacity',
    'm2': 'starts the merged node with the first merged one\'s value',
    'g1': 'branches also where value plus bound equals the lower bound',
    'd1': 'tries skip before take',
    'p1': 'lists decisions from top to bottom',
}
RESTRICTED_ONLY = {'t6b', 'w3', 'r1'}
BOTH_MODES = {'s3', 'q1', 'q2'}
FRONTIER_ONLY = {'t4', 'f1', 'f2', 'f3', 'f4', 'f5', 'f6'}
ABOUT_ROOMS = {'t7a', 't7b', 't7c', 't7d', 't7e', 't7f', 't8', 'm2'}
NO_MATTER_WHICH_CUT = {'t1a', 't1b', 't1c', 't2', 't9a', 't9b', 't9c', 'w1', 'w2'} | ABOUT_ROOMS
WITHOUT_SQUASH = {'s1', 's2', 's3', 't1a', 't1b', 't9a', 't9b', 't9c', 'f6', 'g1', 'd1', 'p1'}
REFUSED = 'a finished run is the same; a refused one answers its number alone, and that is the same'
NO_TERMINAL = 'it needs a run without a terminal: exact without a value, and nothing is drained'
ROWS_ONLY = {             # why the answer cannot differ
    't1a': NO_TERMINAL, 't1b': NO_TERMINAL, 't1c': NO_TERMINAL,
    't3': 'no answer is read off the cutset flag',
    't7a': REFUSED, 't7b': REFUSED, 't7c': REFUSED, 't7d': REFUSED, 't7e': REFUSED,
    'm2': REFUSED + ' (the first merged node has the largest value, so its own last best edge wins)',
}
LEAST_ITEMS = {           # relaxed runs squash only layers 2 to (items - 1), hence:
    'l1': 4,              # two squashed layers
    't4': 4,              # a deleted row below a squashed layer
    't1a': 4,             # the squashed layer, the empty one after it, and an item left
    # looked at once, all inputs of 3 items in the ranges above: none tells these two apart
    'f2': 4, 't9b (best exact value moves)': 4,
}

Case = namedtuple('Case', 'items capacity mode width cut lower node_room edge_room')
Goal = namedtuple('Goal', 'name variant mode field')      # field: the one that has to differ
ANSWER, ROWS, INSIDE = 'ANSWER', 'ROWS', 'STORED LAYERS'


def all_goals():
    goals = []
    for variant in WRONG:
        modes = [RESTRICTED] if variant in RESTRICTED_ONLY else [RELAXED]
        if variant in BOTH_MODES:
            modes = [RELAXED, RESTRICTED]
        for mode in modes:
            name = variant if len(modes) == 1 else f'{variant} ({mode})'
            goals.append(Goal(name, variant, mode, None))
    for variant in ('t9a', 't9b', 't9c'):
        goals.append(Goal(f'{variant} (exact flag moves)', variant, RELAXED, 'exact'))
        goals.append(Goal(f'{variant} (best exact value moves)', variant, RELAXED, 'best_exact'))
    return goals


def run(case, variant=None):
    return compile(case.items, case.capacity, case.mode, case.width, case.cut, case.lower,
                   node_room=case.node_room, edge_room=case.edge_room, variant=variant)


def answer(d):
    if d.refusal:
        return {'refusal': d.refusal}
    return {'refusal': None, 'exact': d.exact, 'best': d.best, 'path': d.path,
            'best_exact': d.best_exact, 'exact_path': d.exact_path, 'node count': len(d.nodes),
            'edge count': len(d.edges), 'drained': d.drained}


def level_of(goal, right, wrong):
    """How the two differ for this goal: in the answer, in rows, inside, or (None) not at all."""
    if goal.field:
        differs = getattr(right, goal.field) != getattr(wrong, goal.field)
        return ANSWER if differs else None
    if answer(right) != answer(wrong):
        return ANSWER
    if (right.nodes, right.edges) != (wrong.nodes, wrong.edges):
        return ROWS
    inside = [(d.layers, d.lel, d.cutset) for d in (right, wrong)]
    return INSIDE if inside[0] != inside[1] else None


def may_differ(goal, case, right):
    if goal.mode != case.mode or (case.cut == LEL and goal.variant in FRONTIER_ONLY):
        return False
    if goal.variant in ABOUT_ROOMS:
        return True
    return right.lel is not None or (goal.variant in WITHOUT_SQUASH and not goal.field)


# -- The search for the smallest --------------------------------------------------------------

def item_lists(count, total, capacity):
    """Lists of so many items and that sum, without those a smaller input stands for.

    An item that fits nowhere acts as (capacity + 1, 0), and a capacity above all weights as their sum.
    """
    def lists(left, rest):
        if not left:
            if not rest:
                yield ()
            return
        for weight in range(min(MAX_WEIGHT, capacity + 1, rest) + 1):
            top = 0 if weight > capacity else min(MAX_PROFIT, rest - weight)
            for profit in range(top + 1):
                for tail in lists(left - 1, rest - weight - profit):
                    yield ((weight, profit),) + tail
    return [items for items in lists(count, total) if sum(w for w, _ in items) >= capacity]


def cases_in_order(count, total, mode, cuts):
    for capacity in range(MAX_CAPACITY + 1):
        lists = item_lists(count, total, capacity)
        for width in range(1, MAX_WIDTH + 1):
            for lower in LOWER_BOUNDS:
                for cut in cuts:
                    for items in lists:
                        if lower <= sum(p for w, p in items if w <= capacity):
                            yield Case(items, capacity, mode, width, cut, lower, BIG, BIG)


def with_rooms(case, right):
    for node_room in list(range(len(right.nodes))) + [BIG]:
        for edge_room in list(range(len(right.edges))) + [BIG]:
            yield case._replace(node_room=node_room, edge_room=edge_room)


def find_smallest(goals):
    """For each goal the smallest input of the best level it can have: {goal: (level, case)}."""
    found = {}

    def try_out(case, right, goal):
        level = level_of(goal, right, run(case, goal.variant))
        if level == ANSWER or (level == ROWS and goal.variant in ROWS_ONLY):
            found[goal] = level, case

    for count in sorted(LARGEST_SUM):
        for total in range(LARGEST_SUM[count] + 1):
            for mode in (RELAXED, RESTRICTED):
                def still_open():
                    return [g for g in goals if g not in found and g.mode == mode
                            and LEAST_ITEMS.get(g.name, 0) <= count]
                live = still_open()
                cuts = [LEL] if any(g.variant not in FRONTIER_ONLY for g in live) else []
                if mode == RELAXED and any(g.variant not in NO_MATTER_WHICH_CUT for g in live):
                    cuts.append(FRONTIER)
                for case in cases_in_order(count, total, mode, cuts) if live else ():
                    right, closed = run(case), len(found)
                    for goal in live:
                        useless = case.cut == FRONTIER and goal.variant in NO_MATTER_WHICH_CUT
                        if not useless and goal.variant not in ABOUT_ROOMS \
                                and may_differ(goal, case, right):
                            try_out(case, right, goal)
                    rooms = [g for g in live if g.variant in ABOUT_ROOMS] \
                        if case.cut == LEL else []
                    for roomed in with_rooms(case, right) if rooms else ():
                        short = run(roomed)
                        for goal in rooms:
                            if goal not in found:
                                try_out(roomed, short, goal)
                    if len(found) > closed:
                        live = still_open()
                        if not live:
                            break
            print(f'{count} items, sum {total}: open', *[g.name for g in goals if g not in found],
                  file=sys.stderr, flush=True)
            if len(found) == len(goals):
                return found
    return found


def random_case(rng, counts, mode):
    items = tuple((rng.randint(0, MAX_WEIGHT), rng.randint(0, MAX_PROFIT))
                  for _ in range(rng.choice(counts)))
    capacity = rng.randint(0, min(MAX_CAPACITY, sum(w for w, _ in items)))
    lower = rng.choice([I64_MIN, rng.randint(0, sum(p for _, p in items))])
    return Case(items, capacity, mode, rng.randint(1, MAX_WIDTH), rng.choice([LEL, FRONTIER]),
                lower, BIG, BIG)


def check_rows_only():
    """Try at random whether an answer differs after all; gives the number of runs compared."""
    rng, compared = random.Random(CHECK_SEED), 0
    for _ in range(CHECK_RUNS):
        case = random_case(rng, [3, 4, 5, 6], RELAXED)
        right = run(case)
        roomed = case._replace(node_room=rng.randint(0, len(right.nodes)),
                               edge_room=rng.randint(0, len(right.edges)))
        variant = rng.choice(sorted(ROWS_ONLY))
        for tried in (case, roomed):
            assert answer(run(tried)) == answer(run(tried, variant)), (variant, tried)
            compared += 1
    return compared


# -- The pins ---------------------------------------------------------------------------------

def size(case):
    lower = -1 if case.lower == I64_MIN else case.lower
    return (len(case.items), sum(w + p for w, p in case.items), case.capacity, case.width, lower,
            case.cut, case.node_room, case.edge_room, case.items)


def kills(case, goals, levels):
    """Which of the goals this input tells apart, at their level or better."""
    right, killed = run(case), set()
    for goal in goals:
        if may_differ(goal, case, right):
            level = level_of(goal, right, run(case, goal.variant))
            if level in (ANSWER, levels[goal]):
                killed.add(goal)
    return killed


def one_step_smaller(case):
    for i, (weight, profit) in enumerate(case.items):
        before, after = case.items[:i], case.items[i + 1:]
        yield case._replace(items=before + after)
        if weight:
            yield case._replace(items=before + ((weight - 1, profit),) + after)
        if profit:
            yield case._replace(items=before + ((weight, profit - 1),) + after)
    if case.capacity:
        yield case._replace(capacity=case.capacity - 1)
    if case.width > 1:
        yield case._replace(width=case.width - 1)
    if case.lower != I64_MIN:
        yield case._replace(lower=I64_MIN)
    if case.lower > 0:
        yield case._replace(lower=case.lower - 1)
    if case.cut == FRONTIER:
        yield case._replace(cut=LEL)


def shrink(case, own, levels):
    """Go to smaller inputs, by up to two steps at a time, while all of its own goals stay killed."""
    def all_killed(tried):
        right = run(tried)
        return all(level_of(g, right, run(tried, g.variant)) in (ANSWER, levels[g]) for g in own)

    steps = list(one_step_smaller(case))
    steps += [further for step in steps for further in one_step_smaller(step)]
    for step in sorted(set(steps), key=size):
        if all_killed(step):
            return shrink(step, own, levels)
    return case


def find_pins(found):
    """A small set of inputs that together kill all goals: [(case, all goals it kills)]."""
    levels = {goal: level for goal, (level, _) in found.items()}
    rng, pool = random.Random(POOL_SEED), [case for _, case in found.values()]
    for _ in range(POOL_RUNS):
        mode = rng.choice([RELAXED] * 5 + [RESTRICTED])
        pool.append(random_case(rng, POOL_ITEMS, mode))
    about_rooms = [g for g in levels if g.variant in ABOUT_ROOMS]
    others = [g for g in levels if g.variant not in ABOUT_ROOMS]
    killed = {}
    for case in pool:
        short = case.node_room < BIG or case.edge_room < BIG
        killed[case] = kills(case, about_rooms if short else others, levels)
    pins, left = [], set(levels)
    while left:
        best = min(killed, key=lambda case: (-len(killed[case] & left), size(case)))
        pins.append(best)
        left -= killed[best]
    for place in reversed(range(len(pins))):
        own = set(levels).difference(*[killed[c] for i, c in enumerate(pins) if i != place])
        pins[place] = shrink(pins[place], own, levels)
        killed[pins[place]] = kills(pins[place], levels, levels)
    return [(case, killed[case]) for case in sorted(pins, key=size)]


def starred_kills():
    """Which variants the given figures of the starred hand cases tell apart already."""
    T, block = ((1, 4), (1, 3), (1, 2)), ((3, 5),)
    counts = ('node count', 'edge count')
    starred = (
        ('A', Case((), 0, EXACT, 1, LEL, 10, BIG, BIG), ('exact', 'best', 'node count')),
        ('B', Case(block, 3, EXACT, 1, LEL, I64_MIN, BIG, BIG), ('best', 'path', 'node count')),
        ('E', Case(block, 3, EXACT, 1, LEL, 5, BIG, BIG), ('exact', 'best', 'node count')),
        ('F', Case(((2, 3), (2, 3)), 2, EXACT, 1, LEL, I64_MIN, BIG, BIG),
         ('best', 'path') + counts),
        ('H', Case(T, 2, RELAXED, 1, LEL, I64_MIN, BIG, BIG),
         ('best', 'exact', 'best_exact', 'drained') + counts),
        ('I', Case(T, 2, RELAXED, 1, FRONTIER, I64_MIN, BIG, BIG), ('drained',)),
        ('J', Case(T, 2, RESTRICTED, 1, LEL, I64_MIN, BIG, BIG),
         ('best', 'path', 'exact', 'drained') + counts),
        ('K', Case(T, 2, RELAXED, 1, LEL, 9, BIG, BIG), ('exact', 'best', 'node count')),
        ('L', Case(T, 2, RELAXED, 1, LEL, 8, BIG, BIG), ('best', 'drained') + counts),
        ('M', Case(T, 2, RELAXED, 2, LEL, I64_MIN, BIG, BIG), ('best', 'exact', 'path') + counts))
    lines, unseen = [], list(WRONG)
    for name, case, fields in starred:
        right = answer(run(case))
        killed = [v for v in WRONG
                  if any(answer(run(case, v)).get(f) != right[f] for f in fields)]
        unseen = [v for v in unseen if v not in killed]
        lines.append(f'  {name}: {" ".join(killed) or "none"}')
    return lines + [f'  seen by none of them: {" ".join(unseen)}']


# -- Printing ---------------------------------------------------------------------------------

def number(n):
    return {None: 'none', I64_MIN: 'i64 min', I64_MAX: 'i64 max'}.get(n, str(n))


def path(decisions):
    return 'none' if decisions is None else ' '.join(map(str, decisions)) or '(empty)'


def show_input(case):
    items = ' '.join(f'({w},{p})' for w, p in case.items) or 'none'
    rooms = ', '.join(f'{name} room {"big" if room == BIG else room}'
                      for name, room in (('node', case.node_room), ('edge', case.edge_room)))
    return (f'items {items}; capacity {case.capacity}; {case.mode}; width {case.width}; '
            f'{case.cut}; lower bound {number(case.lower)}; {rooms}')


def show_field(d, field):
    if field in ('path', 'exact_path'):
        return [path(getattr(d, field))]
    if field == 'drained':
        return [f'(capacity {r.capacity}, value {r.value}, bound {number(r.bound)}, '
                f'depth {r.depth}, path {path(r.path)})' for r in d.drained] or ['nothing']
    if field == 'nodes':
        return [f'{i}: capacity {r.capacity}, depth {r.depth}, value {number(r.value)}, '
                f'bottom {number(r.bottom)}, best {number(r.best)}, newest {number(r.newest)}, '
                f'fast {number(r.fast)}, {r.flags}' for i, r in enumerate(d.nodes)] or ['no row']
    if field == 'edges':
        return [f'{i}: {r.source} to {r.target}, decision {r.decision}, cost {r.cost}, '
                f'next {number(r.next)}' for i, r in enumerate(d.edges)] or ['no row']
    if field in ('node count', 'edge count'):
        return [str(len(d.nodes if field == 'node count' else d.edges))]
    if field == 'layers':
        return [' '.join(f'{a}..{b}' for a, b in d.layers)]
    if field == 'cutset':
        return [' '.join(map(str, d.cutset)) or 'empty']
    value = getattr(d, field)
    return [str(value) if isinstance(value, bool) else number(value)]


NAMES = {'exact': 'exact', 'best': 'best value', 'path': 'path', 'best_exact': 'best exact value',
         'exact_path': 'best exact path', 'refusal': 'refusal', 'drained': 'drained',
         'lel': 'last exact layer', 'layers': 'stored layers', 'cutset': 'cutset rows',
         'nodes': 'node rows', 'edges': 'edge rows'}


def show(d, fields):
    lines = []
    for field in fields:
        shown = show_field(d, field)
        name = NAMES.get(field, field)
        if field in ('drained', 'nodes', 'edges'):
            lines += [f'    {name}:'] + [f'      {line}' for line in shown]
        else:
            lines.append(f'    {name}: {shown[0]}')
    return lines


def full_fields(d, rows):
    fields = list(answer(d)) + (['nodes', 'edges'] if rows or d.refusal else [])
    return fields + (['layers', 'lel', 'cutset'] if rows and not d.refusal else [])


def block(goal, level, case):
    right, wrong = run(case), run(case, goal.variant)
    names = list(answer(right)) + [n for n in answer(wrong) if n not in answer(right)]
    apart = [n for n in names if answer(right).get(n) != answer(wrong).get(n)]
    if level != ANSWER:
        apart = [n for n in ('nodes', 'edges', 'layers', 'lel', 'cutset')
                 if getattr(right, n) != getattr(wrong, n)]
    lines = [f'{goal.name}: {WRONG[goal.variant]}', f'  input: {show_input(case)}',
             f'  differs in: {level} ({", ".join(NAMES.get(n, n) for n in apart)})']
    if level != ANSWER:
        lines.append(f'  no answer differs: {ROWS_ONLY[goal.variant]}')
    wrong_lines = []
    for field in apart:
        if field in ('nodes', 'edges'):
            rows = [show_field(d, field) for d in (right, wrong)]
            wrong_lines += [f'    {NAMES[field]} (- lacks, + has instead or besides):']
            wrong_lines += [f'    - {line}' for line in rows[0] if line not in rows[1]]
            wrong_lines += [f'    + {line}' for line in rows[1] if line not in rows[0]]
        elif field not in answer(wrong) and level == ANSWER:
            wrong_lines.append(f'    {NAMES.get(field, field)}: not given')
        else:
            wrong_lines += show(wrong, [field])
    return '\n'.join(lines + ['  right:'] + show(right, full_fields(right, level != ANSWER))
                     + ['  wrong:'] + wrong_lines)


def pins_text(pins, found):
    lines = [f'{len(pins)} inputs that together kill all {len(found)} goals.', '']
    first = {}
    for place, (_, killed) in enumerate(pins, 1):
        for goal in killed:
            first.setdefault(goal, []).append(place)
    for place, (case, killed) in enumerate(pins, 1):
        names = [g.name + ('' if found[g][0] == ANSWER else ' [rows]') for g in found if g in killed]
        lines += [f'pin {place}: {show_input(case)}', f'  kills: {", ".join(names)}', '  right:']
        lines += show(run(case), full_fields(run(case), True)) + ['']
    lines.append('Each goal and the pins that kill it:')
    lines += [f'  {g.name}: {" ".join(map(str, first[g]))}' for g in found]
    lines += ['', 'What the given figures of the starred cases kill, without any pin:']
    lines += starred_kills()
    return '\n'.join(lines)


def main():
    goals = all_goals()
    found = find_smallest(goals)
    for goal in goals:
        if goal in found:
            print(block(goal, *found[goal]), end='\n\n')
        else:
            print(f'{goal.name}: {WRONG[goal.variant]}\n  no input found\n')
    print(f'No answer differed in {check_rows_only()} random runs of the variants said to differ '
          'in rows only.')
    if len(sys.argv) > 1:
        with open(sys.argv[1], 'w') as file:
            print(pins_text(find_pins(found), found), file=file)


if __name__ == '__main__':
    main()
