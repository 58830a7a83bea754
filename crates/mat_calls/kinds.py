#!/usr/bin/env python3
"""What the program has to print of its small matroids, found by trying all sets.

`kinds.py DATA` prints the lines of the matroids of `DATA/kinds.txt`, `kinds.py known` those of `src/known.rt`, `kinds.py union` those of the two
graphs of `src/unions.rt`, and `kinds.py free` those of the matroid of `src/meeting.rt`. Each kind is its definition: sums of counts, closed walks
(`../mat_trials/pairs.py`), different sets, disjoint paths, sums of columns, bases, and parts of a union.
"""
import os
import sys
from itertools import combinations, permutations, product

sys.path.append(os.path.join(os.path.dirname(os.path.abspath(__file__)), '..', 'mat_trials'))
from pairs import is_forest


def sets_of(members):
    """All sets of these members."""
    members = sorted(members)
    return [list(found) for size in range(len(members) + 1) for found in combinations(members, size)]


def paths_to(arcs, sources, target):
    """All paths of different vertices from a source to this target."""
    found, open_paths = [], [[target]]
    while open_paths:
        path = open_paths.pop()
        if path[0] in sources:
            found.append(path)
        open_paths += [[tail] + path for tail, head in arcs if head == path[0] and tail not in path]
    return found


def have_paths(sources, targets, arcs, members):
    """Whether there are paths from sources to the members' targets of which no two meet."""
    for paths in product(*[paths_to(arcs, sources, targets[x]) for x in members]):
        vertices = [v for path in paths for v in path]
        if len(vertices) == len(set(vertices)):
            return True
    return False


def bases_within(test, members):
    """The largest independent sets of these members."""
    found = [independent for independent in sets_of(members) if test(independent)]
    most = max(map(len, found))
    return [independent for independent in found if len(independent) == most]


def test_of(matroid, n):
    """Whether a set is independent in the matroid."""
    kind, given = matroid[0], matroid[1:]
    if kind == 'uniform':
        return lambda s: len(s) <= given[0]
    if kind in ('partition', 'laminar'):
        return lambda s: all(len(set(s) & set(listed)) <= cap for cap, listed in given[0])
    if kind == 'graphic':
        return lambda s: is_forest([given[0][x] for x in s])
    if kind == 'transversal':
        return lambda s: any(all(x in listed for x, listed in zip(s, chosen)) for chosen in permutations(given[0], len(s)))
    if kind == 'gammoid':
        return lambda s: have_paths(*given, s)
    if kind == 'gf2':
        return lambda s: all(sum_of([given[0][x] for x in part]) for part in sets_of(s) if part)
    if kind == 'union':
        tests = [test_of(part, n) for part in given[0]]
        return lambda s: any(all(test([x for x, i in zip(s, chosen) if i == q]) for q, test in enumerate(tests))
                             for chosen in product(range(len(tests)), repeat=len(s)))
    inner = test_of(given[-1], n)
    if kind == 'dual':
        bases = bases_within(inner, range(n))
        return lambda s: any(not set(s) & set(base) for base in bases)
    if kind == 'truncate':
        return lambda s: len(s) <= given[0] and inner(s)
    if kind == 'restrict':
        return lambda s: set(s) <= set(given[0]) and inner(s)
    chosen = bases_within(inner, given[0])
    return lambda s: not set(s) & set(given[0]) and any(inner(sorted(s + base)) for base in chosen)


def sum_of(columns):
    """The sum of the columns, digit by digit without a carry."""
    total = 0
    for column in columns:
        total ^= column
    return total


def words(members):
    """A set as words."""
    return ' '.join(['set'] + [str(x) for x in members])


def run(test, order):
    """The set that takes each element of the order that it can."""
    taken = []
    for x in order:
        if test(sorted(taken + [x])):
            taken = sorted(taken + [x])
    return taken


def row(test, base, x):
    """The exchanges of an element outside an independent set."""
    larger = sorted(base + [x])
    addable = str(test(larger)).lower()
    return '%d %s %s true' % (x, addable, words([y for y in base if test([z for z in larger if z != y])]))


def lines(name, matroid, n, order):
    """The run along this order, and all independent sets with the exchanges of each element outside."""
    test = test_of(matroid, n)
    told = ['%s run %s' % (name, words(run(test, order)))]
    for bits in range(1 << n):
        base = [x for x in range(n) if bits >> x & 1]
        if test(base):
            told.append(', '.join([words(base)] + [row(test, base, x) for x in range(n) if x not in base]))
    return told


class Text:
    """The words of a description, line by line."""

    def __init__(self, path):
        with open(path) as text:
            self.lines = [line.split() for line in text]
        self.at = 0

    def next(self):
        self.at += 1
        return self.lines[self.at - 1]


def numbers(given):
    """Words as numbers."""
    return [int(word) for word in given]


def read_matroid(text, n):
    """The next matroid of a description."""
    line = text.next()
    kind = line[0]
    if kind == 'uniform':
        return kind, int(line[1])
    if kind in ('partition', 'laminar'):
        listed = [numbers(text.next()[1:]) for _ in range(int(line[1]))]
        return kind, [(one[0], one[1:]) for one in listed]
    if kind == 'graphic':
        return kind, [numbers(text.next()[1:]) for _ in range(n)]
    if kind == 'transversal':
        return kind, [numbers(text.next()[1:]) for _ in range(int(line[1]))]
    if kind == 'gammoid':
        return kind, numbers(text.next()[1:]), numbers(text.next()[1:]), [numbers(text.next()[1:]) for _ in range(int(line[2]))]
    if kind == 'gf2':
        return kind, [int(text.next()[1], 2) for _ in range(n)]
    if kind == 'union':
        return kind, [read_matroid(text, n) for _ in range(int(line[1]))]
    if kind == 'dual':
        return kind, read_matroid(text, n)
    return kind, (int(line[1]) if kind == 'truncate' else numbers(line[1:])), read_matroid(text, n)


def listed_lines(folder):
    """The lines of the matroids that a description lists: as one of its kind, unless it is made of others, and as one of any kind."""
    text = Text(os.path.join(folder, 'kinds.txt'))
    text.next()
    n, count = numbers(text.next()[1:])
    text.next()
    told = []
    for _ in range(count):
        matroid = read_matroid(text, n)
        made = matroid[0] in ('dual', 'truncate', 'restrict', 'contract', 'union')
        told += ['made of others'] if made else lines(matroid[0], matroid, n, [2, 0, 3, 1])
        told += lines('any', matroid, n, [2, 0, 3, 1])
    return told


def known_lines():
    """The lines of a graph of a loop and of two parallel edges, and of what is made of it."""
    graph = ('graphic', [(0, 0), (0, 1), (0, 1)])
    named = [('graph', graph), ('lent', graph), ('dual', ('dual', graph)), ('any', ('dual', graph)), ('truncation', ('truncate', 1, ('dual', graph))),
             ('restriction', ('restrict', [0, 1], graph)), ('contraction', ('contract', [1], graph))]
    return [line for name, matroid in named for line in lines(name, matroid, 3, [2, 1, 0])]


def union_lines():
    """The lines of the union of two graphs, with runs along two orders."""
    union = ('union', [('graphic', [(0, 1), (0, 1), (1, 2), (1, 1), (1, 2)]), ('graphic', [(0, 1), (0, 0), (0, 0), (0, 1), (0, 0)])])
    return lines('union', union, 5, [0, 1, 4, 3, 2]) + lines('union', union, 5, [2, 3, 0, 1, 4])


def main():
    asked = {'known': known_lines, 'union': union_lines, 'free': lambda: lines('free', ('uniform', 2), 2, [1, 0])}
    tell = asked.get(sys.argv[1], lambda: listed_lines(sys.argv[1]))
    print('\n'.join(tell()))


if __name__ == '__main__':
    main()
