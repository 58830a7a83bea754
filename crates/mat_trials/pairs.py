#!/usr/bin/env python3
"""The last cases of `data/cases.txt`, pairs of 100 elements and more, and the weights of their rungs.

`pairs.py cases` prints the cases, `pairs.py reports` what the program has to print of them. The weights are found by shortest paths in
the exchange graph (Schrijver, section 41.3), with questions of independence alone and without splits of the weights.
"""
import random
import sys


def drawn_pair(count, state):
    """A graph and classes of cap 1, drawn by the multiplicative generator 48271 modulo 2147483647."""
    def draw(below):
        nonlocal state
        state = state * 48271 % 2147483647
        return state % below
    vertices, classes = count // 4 + 2, [[] for _ in range(count // 5 + 1)]
    edges, weights = [], []
    for element in range(count):
        edges.append((draw(vertices), draw(vertices)))
        classes[draw(len(classes))].append(element)
        weights.append((draw(2001) - 1000, 0))
    return weights, ('graphic', vertices, edges), ('partition', [(1, members) for members in classes])


def columns_and_classes(numbers, count):
    """Columns of 16 digits, of which most have one digit 1, and classes of cap 2; the weights are often equal."""
    classes = [[] for _ in range(9)]
    for element in range(count):
        classes[numbers.randrange(9)].append(element)
    weights = [(numbers.randrange(4), 0) for _ in range(count)]
    columns = [numbers.randrange(1, 1 << 16) if numbers.random() < .3 else 1 << numbers.randrange(16) for _ in range(count)]
    return weights, ('gf2', 16, columns), ('partition', [(2, members) for members in classes])


def dual_and_nested_sets(numbers, count):
    """At most 15 elements of the dual of a graph, and sets within one another; the weights have ties."""
    classes = [[] for _ in range(7)]
    for element in range(count):
        classes[numbers.randrange(7)].append(element)
    halves = [(1 + i % 2, members[:len(members) // 2]) for i, members in enumerate(classes)]
    weights = [(numbers.randrange(-1, 3), numbers.randrange(0, 3)) for _ in range(count)]
    edges = [(numbers.randrange(70), numbers.randrange(70)) for _ in range(count)]
    return weights, ('truncate', 15, ('dual', ('graphic', 70, edges))), ('laminar', [(3, members) for members in classes] + halves)


def pairs():
    """The pairs, in the order of the cases."""
    numbers = random.Random(2)
    return [drawn_pair(120, 7), columns_and_classes(numbers, 104), dual_and_nested_sets(numbers, 100)]


def is_forest(edges):
    """Whether no edges close a ring."""
    part = {}
    for ends in edges:
        a, b = ends
        while a in part:
            a = part[a]
        while b in part:
            b = part[b]
        if a == b:
            return False
        part[a] = b
    return True


def are_independent(columns):
    """Whether no part of the columns adds up to zero."""
    basis = []
    for column in columns:
        for other in basis:
            column = min(column, column ^ other)
        if column == 0:
            return False
        basis.append(column)
    return True


def rank(matroid, members):
    """The size of a largest independent set among these members."""
    base = []
    for x in members:
        if is_independent(matroid, base + [x]):
            base.append(x)
    return len(base)


def is_independent(matroid, members):
    """Whether a set is independent."""
    kind = matroid[0]
    if kind == 'graphic':
        return is_forest([matroid[2][x] for x in members])
    if kind == 'gf2':
        return are_independent([matroid[2][x] for x in members])
    if kind == 'truncate':
        return len(members) <= matroid[1] and is_independent(matroid[2], members)
    if kind == 'dual':
        everything = range(len(matroid[1][2]))
        return rank(matroid[1], [x for x in everything if x not in members]) == rank(matroid[1], everything)
    return all(len(set(members) & set(listed)) <= cap for cap, listed in matroid[1])


def exchange_arcs(first, second, members, others):
    """From a member to what can take its place in the first matroid, and to it in the second."""
    for y in members:
        rest = [z for z in members if z != y]
        for x in others:
            if is_independent(first, rest + [x]):
                yield y, x
            if is_independent(second, rest + [x]):
                yield x, y


def best_path(weights, first, second, members):
    """A path of least cost, and of these with fewest vertices, along which the set gains an element, or None."""
    others = [x for x in range(len(weights)) if x not in members]
    arcs = list(exchange_arcs(first, second, members, others))
    cost = {x: weights[x] if x in members else (-weights[x][0], -weights[x][1]) for x in range(len(weights))}
    best = {x: cost[x] + (1, [x]) for x in others if is_independent(first, members + [x])}
    changed = True
    while changed:
        changed = False
        for u, v in arcs:
            if u in best:
                a, b, steps, path = best[u]
                next_cost = (a + cost[v][0], b + cost[v][1], steps + 1)
                if v not in best or next_cost < best[v][:3]:
                    best[v], changed = next_cost + (path + [v],), True
    ends = [best[x] for x in best if x not in members and is_independent(second, members + [x])]
    return min(ends)[3] if ends else None


def rung_weights(weights, first, second):
    """The weight of a heaviest common independent set of each size."""
    members, rungs = [], [(0, 0)]
    while True:
        path = best_path(weights, first, second, members)
        if path is None:
            return rungs
        members = sorted(set(members) ^ set(path))
        rungs.append(tuple(sum(weights[x][i] for x in members) for i in (0, 1)))


def weight_word(weight):
    """A weight as a word."""
    return '%d:%d' % weight if weight[1] else '%d' % weight[0]


def matroid_lines(matroid):
    """The lines of a matroid."""
    kind = matroid[0]
    if kind == 'graphic':
        return ['graphic %d' % matroid[1]] + ['edge %d %d' % ends for ends in matroid[2]]
    if kind == 'gf2':
        return ['gf2 %d' % matroid[1]] + ['column ' + format(column, '0%db' % matroid[1]) for column in matroid[2]]
    if kind == 'truncate':
        return ['truncate %d' % matroid[1]] + matroid_lines(matroid[2])
    if kind == 'dual':
        return ['dual'] + matroid_lines(matroid[1])
    keyword = {'partition': 'class', 'laminar': 'set'}[kind]
    return ['%s %d' % (kind, len(matroid[1]))] + [' '.join(map(str, [keyword, cap] + listed)) for cap, listed in matroid[1]]


def case(weights, first, second):
    """The lines of a case."""
    return (['> intersect f', 'matroids 1', 'pair %d' % len(weights), 'weights ' + ' '.join(map(weight_word, weights))]
            + matroid_lines(first) + matroid_lines(second) + ['end'])


def report(weights, first, second):
    """The lines that the program has to print of it."""
    rungs = rung_weights(weights, first, second)
    return (['> intersect f', 'status 0', 'answer intersect %d %d' % (len(weights), len(rungs) - 1)]
            + ['rung %d %s' % (k, weight_word(weight)) for k, weight in enumerate(rungs)] + ['yes', 'workers same'])


def main():
    tell = {'cases': case, 'reports': report}[sys.argv[1]]
    for pair in pairs():
        print('\n'.join(tell(*pair)))


if __name__ == '__main__':
    main()
