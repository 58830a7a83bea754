#!/usr/bin/env python3
"""The graphs of `data/routes_*.txt`, and how many disjoint paths each has, by a search of its own.

`outside.py FOLDER` writes the descriptions into the folder, and prints the lines that the program has to print of them.
"""
import os
import random
import sys
from collections import deque

# Of each graph: vertices, arcs, sources, targets, and the size of a set of vertices that all paths meet, or 0 for none that is
# planted.
SHAPES = [
    (200, 400, 20, 20, 0),
    (200, 400, 40, 30, 0),
    (240, 440, 35, 40, 0),
    (300, 420, 90, 90, 0),
    (400, 500, 120, 150, 0),
    (400, 2000, 60, 100, 0),
    (500, 900, 150, 150, 0),
    (500, 6000, 140, 120, 0),
    (300, 3000, 60, 70, 17),
    (500, 5000, 150, 140, 41),
]


def free_graph(numbers, vertices, arcs, sources, targets):
    """Sources, targets and arcs at random."""
    return (numbers.sample(range(vertices), sources), numbers.sample(range(vertices), targets),
            [(numbers.randrange(vertices), numbers.randrange(vertices)) for _ in range(arcs)])


def narrow_graph(numbers, vertices, arcs, sources, targets, width):
    """No arc leads from the near side to the far side but through the pass between them, and none back."""
    order = numbers.sample(range(vertices), vertices)
    half = (vertices - width) // 2
    near, through, far = order[:half], order[half:half + width], order[half + width:]
    sides = [(near, near + through), (through, through + far), (far, far)]
    drawn = []
    for _ in range(arcs):
        tails, heads = numbers.choices(sides, [len(side[0]) for side in sides])[0]
        drawn.append((numbers.choice(tails), numbers.choice(heads)))
    return numbers.sample(near, sources), numbers.sample(far, targets), drawn


def graph(number):
    """The graph of this number: its count of vertices, its sources, targets and arcs."""
    numbers = random.Random(number)
    vertices, arcs, sources, targets, width = SHAPES[number]
    if width:
        return (vertices,) + narrow_graph(numbers, vertices, arcs, sources, targets, width)
    return (vertices,) + free_graph(numbers, vertices, arcs, sources, targets)


def residual(vertices, sources, targets, arcs):
    """Each vertex v as the arc from 2v to 2v+1, with a start and a goal: for each node the room left to each next node."""
    start, goal = 2 * vertices, 2 * vertices + 1
    links = [(2 * v, 2 * v + 1) for v in range(vertices)]
    links += [(2 * tail + 1, 2 * head) for tail, head in arcs if tail != head]
    links += [(start, 2 * v) for v in sources] + [(2 * v + 1, goal) for v in targets]
    room = [{} for _ in range(2 * vertices + 2)]
    for a, b in links:
        room[a][b] = 1
        room[b].setdefault(a, 0)
    return room


def augment(room, start, goal):
    """One path more along a shortest way with room, or False where there is none."""
    came = {start: start}
    queue = deque([start])
    while queue and goal not in came:
        a = queue.popleft()
        for b, left in room[a].items():
            if left and b not in came:
                came[b] = a
                queue.append(b)
    if goal not in came:
        return False
    while goal != start:
        room[came[goal]][goal] -= 1
        room[goal][came[goal]] += 1
        goal = came[goal]
    return True


def most_paths(vertices, sources, targets, arcs):
    """How many paths from sources to targets there are of which no two meet: as many as vertices that all meet, and as the rank."""
    room = residual(vertices, sources, targets, arcs)
    count = 0
    while augment(room, 2 * vertices, 2 * vertices + 1):
        count += 1
    return count


def description(number, vertices, sources, targets, arcs):
    """The gammoid of a graph beside a uniform matroid."""
    n = len(targets)
    lines = [['matroids', 1], ['pair', n], ['weights'] + [0] * n, ['gammoid', vertices, len(arcs)], ['sources'] + sources,
             ['targets'] + targets]
    lines += [['arc', tail, head] for tail, head in arcs]
    lines += [['uniform', n], ['end']]
    return ''.join(' '.join(map(str, line)) + '\n' for line in lines)


def main():
    folder = sys.argv[1]
    for number in range(len(SHAPES)):
        drawn = graph(number)
        name = 'routes_%d.txt' % number
        with open(os.path.join(folder, name), 'w') as out:
            out.write(description(number, *drawn))
        paths = most_paths(*drawn)
        print('%s paths %d separator %d rank %d' % (name, paths, paths, paths))


if __name__ == '__main__':
    main()
