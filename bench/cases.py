#!/usr/bin/env python3
"""Prints a large description: `cases.py list`, `cases.py junk`, or `cases.py NAME N` for a pair of
N elements, where NAME is one of `partitions`, `graphic`, `gf2`, `laminar`, `transversal`,
`gammoid`, `dual` and `nested` (against a partition), `graphs` (a graph against another), `free`,
`routes` and `matching` (against `uniform N`), and `joined` (the union of two graphs against a
partition); or for the other commands on N elements, where NAME is one of `union` (two graphs),
`unions` (eight graphs), `uniforms` (64 matroids of at most 5 elements), `one` (a graph alone),
`graph`, `rooted`, `payable` (no cost is below 0), `coloured` and `table`. `cases.py certificate N`
prints a right certificate of `cases.py free N`, with weights of 62 bytes in each split."""
import random
import sys


def many_classes():
    """64 partitions of 500 elements into 500 classes, and weights of all sizes."""
    print('matroids 1')
    print('list 500 64')
    print('weights', *((-1) ** e * 10 ** (e % 13) for e in range(500)))
    for shift in range(64):
        print('partition 500')
        for e in range(500):
            print('class', e % 3, (e + shift) % 500)
    print('end')


def junk():
    """4,194,304 bytes without a newline."""
    sys.stdout.write('x' * 4194304)


def weights_of_all_sizes(numbers, n):
    """N weights."""
    return [numbers.randint(-1, 1) * numbers.randint(0, 10 ** numbers.randint(1, 12))
            for _ in range(n)]


def partition(numbers, n):
    """A partition of N elements into N / 4 classes with caps 1 to 3."""
    elements = list(range(n))
    numbers.shuffle(elements)
    count = n // 4
    print('partition', count)
    for c in range(count):
        print('class', numbers.randint(1, 3), *elements[c::count])


def graphic(numbers, n):
    """A graph of N edges on N / 2 vertices."""
    vertices = n // 2
    print('graphic', vertices)
    for _ in range(n):
        print('edge', numbers.randrange(vertices), numbers.randrange(vertices))


def gf2(numbers, n):
    """N columns of 128 digits."""
    print('gf2 128')
    for _ in range(n):
        print('column', ''.join(numbers.choice('01') for _ in range(128)))


def uniform(numbers, n):
    """All sets of N elements."""
    print('uniform', n)


def pair(first, second, n):
    """Two matroids of N elements."""
    numbers = random.Random(n)
    print('matroids 1')
    print('pair', n)
    print('weights', *weights_of_all_sizes(numbers, n))
    first(numbers, n)
    second(numbers, n)
    print('end')


def certificate(n):
    """A ladder of all sets of N elements: under both parts of each split the heaviest elements
    stand first."""
    weights = weights_of_all_sizes(random.Random(n), n)
    order = sorted(range(n), key=lambda e: -weights[e])
    shift = 10 ** 29
    print('certificate 1')
    print('answer intersect', n, n)
    for k in range(n + 1):
        chosen = sorted(order[:k])
        print('rung', k, sum(weights[e] for e in chosen))
        print('set', *chosen)
        print('first', *(f'{weight + shift}:{shift}' for weight in weights))
        print('second', *[f'-{shift}:-{shift}'] * n)
    print('cut')
    print('end')


def transversal(numbers, n):
    """N sets of 50 elements, or of half the elements."""
    print('transversal', n)
    for _ in range(n):
        print('set', *numbers.sample(range(n), min(50, n // 2)))


def laminar(numbers, n):
    """N elements in halves, quarters and so on down to sets of 4 or more, each with a cap of 1 to 3
    quarters of its members."""
    elements = list(range(n))
    numbers.shuffle(elements)
    sets = []
    parts = [elements]
    while parts:
        part = parts.pop()
        sets.append((len(part) * numbers.randint(4, 12) // 16, part))
        middle = len(part) // 2
        if middle >= 4:
            parts += [part[:middle], part[middle:]]
    print('laminar', len(sets))
    for cap, part in sets:
        print('set', cap, *part)


def gammoid(numbers, n):
    """A directed graph of N vertices, which are the elements, and 40 N arcs, with N / 2 sources."""
    print('gammoid', n, 40 * n)
    print('sources', *numbers.sample(range(n), n // 2))
    print('targets', *numbers.sample(range(n), n))
    for _ in range(40 * n):
        print('arc', numbers.randrange(n), numbers.randrange(n))


def many_routes(numbers, n):
    """A directed graph of 5 N vertices and 200 N arcs, with N sources and N targets."""
    vertices = 5 * n
    print('gammoid', vertices, 200 * n)
    print('sources', *numbers.sample(range(vertices), n))
    print('targets', *numbers.sample(range(vertices), n))
    for _ in range(200 * n):
        print('arc', numbers.randrange(vertices), numbers.randrange(vertices))


def dual(numbers, n):
    """The dual of a graph of N edges on N / 2 vertices."""
    print('dual')
    graphic(numbers, n)


def nested(numbers, n):
    """The dual of a truncation of a restriction of a contraction of a graph of N edges on N / 2
    vertices."""
    print('dual')
    print('truncate', 2 * n // 5)
    print('restrict', *numbers.sample(range(n), 9 * n // 10))
    print('contract', *numbers.sample(range(n), n // 20))
    graphic(numbers, n)


def joined(numbers, n):
    """The union of two graphs of N edges on N / 2 vertices."""
    print('union 2')
    graphic(numbers, n)
    graphic(numbers, n)


def matroids(kind, count, n):
    """As many matroids of N elements."""
    numbers = random.Random(n)
    print('matroids 1')
    print('list', n, count)
    print('weights', *weights_of_all_sizes(numbers, n))
    for _ in range(count):
        kind(numbers, n)
    print('end')


def few(numbers, n):
    """At most 5 elements."""
    print('uniform 5')


def dense(numbers, n):
    """A graph of N edges on N / 8 + 2 vertices, without loops."""
    vertices = n // 8 + 2
    print('graphic', vertices)
    for _ in range(n):
        print('edge', *numbers.sample(range(vertices), 2))


def form(name, n):
    """A graph, a directed graph with costs, a coloured graph or a table of N edges, arcs or
    cells."""
    numbers = random.Random(n)
    weights = weights_of_all_sizes(numbers, n)
    vertices = n // 4 + 2 if name in ('coloured', 'table') else n // 8 + 2
    if name == 'payable':
        weights, name = [abs(weight) for weight in weights], 'rooted'
    head = {'graph': f'graph {vertices} {n}', 'rooted': f'rooted {vertices} {n} 0',
            'coloured': f'coloured {vertices} {n} {n // 4}',
            'table': f'table {vertices} {vertices} {n}'}
    print('matroids 1')
    print(head[name])
    for e in range(n):
        ends = f'{numbers.randrange(vertices)} {numbers.randrange(vertices)}'
        print({'graph': f'edge {ends}', 'rooted': f'arc {ends} {weights[e]}',
               'coloured': f'edge {ends} {numbers.randrange(n // 4)} {weights[e]}',
               'table': f'cell {ends} {weights[e]}'}[name])
    print('end')


LISTS = {'union': (graphic, 2), 'unions': (graphic, 8), 'uniforms': (few, 64), 'one': (dense, 1)}
FORMS = ('graph', 'rooted', 'payable', 'coloured', 'table')
AGAINST_A_PARTITION = {'partitions': partition, 'graphic': graphic, 'gf2': gf2, 'laminar': laminar,
                       'transversal': transversal,
                       'gammoid': gammoid, 'dual': dual, 'nested': nested, 'joined': joined}
AGAINST_NOTHING = {'free': uniform, 'routes': many_routes, 'matching': transversal}
WHOLE = {'list': many_classes, 'junk': junk}
name = sys.argv[1]
if name in WHOLE:
    WHOLE[name]()
elif name == 'certificate':
    certificate(int(sys.argv[2]))
elif name == 'graphs':
    pair(graphic, graphic, int(sys.argv[2]))
elif name in LISTS:
    matroids(*LISTS[name], int(sys.argv[2]))
elif name in FORMS:
    form(name, int(sys.argv[2]))
elif name in AGAINST_A_PARTITION:
    pair(AGAINST_A_PARTITION[name], partition, int(sys.argv[2]))
else:
    pair(AGAINST_NOTHING[name], uniform, int(sys.argv[2]))
