#!/usr/bin/env python3
"""The cases of `data/cases.txt` that sum up problems made from a number, and their lines.

`samples.py cases` prints the cases, `samples.py reports` what the program has to print of them. The problems are drawn anew here, and solved
by other ways than the program's: heaviest common sets by shortest paths with questions of independence alone (`pairs.py`), unions by
moving elements between two forests, arborescences by contracting cycles of cheapest arcs (Edmonds 1967). The pair of 400 elements takes this program six minutes.
"""
import sys

from pairs import is_forest, rung_weights

SAMPLES = [('graph', 2, 1), ('table', 1, 1), ('rooted', 1, 1), ('list', 1, 1), ('pair', 2, 1), ('pair', 120, 7), ('list', 60, 7),
           ('graph', 60, 7), ('graph', 20, 7), ('graph', 8, 4), ('rooted', 120, 7), ('rooted', 6, 15), ('rooted', 20, 2),
           ('table', 120, 7), ('pair', 1, 2147483646),
           ('list', 40, 3), ('pair', 400, 7)]


class Draws:
    """The multiplicative generator 48271 modulo 2147483647."""

    def __init__(self, seed):
        self.state = seed

    def below(self, bound):
        self.state = self.state * 48271 % 2147483647
        return self.state % bound


def ladder_words(rungs):
    """What the weights of all rungs come to."""
    return 'size %d weight %d ladder %d' % (len(rungs) - 1, rungs[-1][0], sum(weight for weight, _ in rungs))


def pair_words(size, draws):
    vertices, classes = size // 4 + 2, [[] for _ in range(size // 5 + 1)]
    edges, weights = [], []
    for element in range(size):
        edges.append((draws.below(vertices), draws.below(vertices)))
        classes[draws.below(len(classes))].append(element)
        weights.append((draws.below(2001) - 1000, 0))
    return ladder_words(rung_weights(weights, ('graphic', vertices, edges), ('partition', [(1, members) for members in classes])))


def table_words(size, draws):
    lines = size // 4 + 1
    rows, columns, weights = [[] for _ in range(lines)], [[] for _ in range(lines)], []
    for cell in range(size):
        rows[draws.below(lines)].append(cell)
        columns[draws.below(lines)].append(cell)
        weights.append((draws.below(2001) - 1000, 0))
    return ladder_words(rung_weights(weights, ('partition', [(1, cells) for cells in rows]), ('partition', [(1, cells) for cells in columns])))


def find_moves(graphs, parts, element):
    """Moves after which the element is in one of two forests: each takes one into a forest, the next the edge that leaves it."""
    came, queue = {element: None}, [element]
    for x in queue:
        for i, edges in enumerate(graphs):
            if x in parts[i]:
                continue
            if is_forest([edges[y] for y in parts[i]] + [edges[x]]):
                return came, x, i
            for y in parts[i]:
                if y not in came and is_forest([edges[z] for z in parts[i] if z != y] + [edges[x]]):
                    came[y] = (x, i)
                    queue.append(y)
    return None


def grown(graphs, order):
    """Two disjoint sets, each a forest in its graph, that together take each element in this order that can still be taken."""
    parts = [set(), set()]
    for element in order:
        moves = find_moves(graphs, parts, element)
        if moves is None:
            continue
        came, x, i = moves
        while x is not None:
            parts[i].add(x)
            if came[x] is None:
                break
            before, at = came[x]
            parts[at].discard(x)
            x, i = before, at
    return parts


def list_words(size, draws):
    vertices = size // 4 + 2
    graphs, weights = ([], []), []
    for _ in range(size):
        for edges in graphs:
            edges.append((draws.below(vertices), draws.below(vertices)))
        weights.append(draws.below(2001) - 1000)
    parts = grown(graphs, sorted(range(size), key=lambda x: -weights[x]))
    taken = sorted(parts[0] | parts[1])
    return 'size %d weight %d' % (len(taken), sum(weights[x] for x in taken))


def graph_words(size, draws):
    vertices = size // 8 + 2
    edges = [(draws.below(vertices), draws.below(vertices)) for _ in range(size)]
    parts = grown((edges, edges), range(size))
    return 'trees' if len(parts[0]) + len(parts[1]) == 2 * (vertices - 1) else 'partition'


def cheapest(vertices, root, arcs):
    """The cost of a cheapest spanning arborescence, or None."""
    best = {}
    for tail, head, cost in arcs:
        if head != root and tail != head and (head not in best or cost < best[head][1]):
            best[head] = (tail, cost)
    if any(v != root and v not in best for v in vertices):
        return None
    for start in best:
        path, v = [], start
        while v in best and v not in path:
            path.append(v)
            v = best[v][0]
        if v in path:
            cycle = set(path[path.index(v):])
            inner = sum(best[u][1] for u in cycle)
            moved = [(min(cycle) if tail in cycle else tail, min(cycle) if head in cycle else head,
                      cost - best[head][1] if head in cycle else cost) for tail, head, cost in arcs
                     if not (tail in cycle and head in cycle)]
            rest = cheapest([u for u in vertices if u not in cycle or u == min(cycle)], root, moved)
            return None if rest is None else rest + inner
    return sum(cost for _, cost in best.values())


def rooted_words(size, draws):
    vertices = size // 4 + 2
    arcs = [(draws.below(vertices), draws.below(vertices), draws.below(1001)) for _ in range(size)]
    cost = cheapest(list(range(vertices)), 0, arcs)
    return 'unreached' if cost is None else 'cost %d' % cost


WORDS = {'pair': pair_words, 'list': list_words, 'graph': graph_words, 'rooted': rooted_words, 'table': table_words}


def case(kind, size, seed, option=''):
    """The line of a case."""
    return ['> sample %s%s %d %d' % (option, kind, size, seed)]


def report(kind, size, seed, option=''):
    """The lines that the program has to print of it."""
    words = WORDS[kind](size, Draws(seed))
    return case(kind, size, seed, option) + ['status 0', 'sample %s %d %d %s accepted' % (kind, size, seed, words)]


def main():
    tell = {'cases': case, 'reports': report}[sys.argv[1]]
    for sample in SAMPLES:
        print('\n'.join(tell(*sample)))
    print('\n'.join(tell('pair', 120, 7, '--workers 4 ')))


if __name__ == '__main__':
    main()
