#!/usr/bin/env python3
"""Measures how fast laminar families are read: `reading.py PROGRAM [OTHER]`, at the top of the
repository.

Descriptions of single elements, of binary trees, of chains of sets and of few large sets, each of
up to 4 MB, are shown (`show`). A line of a table has the size of the text, and of each program the
instructions in millions, which other work on the machine does not change, and the least seconds of
seven runs on the clock. The instructions are counted by valgrind (`callgrind`).
"""
import os
import random
import sys
import tempfile

from compare import RUNS, instructions, run

ELEMENTS = 500


def chain(low, high):
    """Sets within one another, from a single element to all of these."""
    return [range(low, end) for end in range(low + 1, high + 1)]


def tree(low, high):
    """All of these elements, and the sets of a binary tree within them."""
    if high - low < 2:
        return [range(low, high)]
    middle = (low + high) // 2
    return [range(low, high)] + tree(low, middle) + tree(middle, high)


def shuffled(sets):
    """The sets in an order that is always the same and no rule has."""
    return random.Random(5).sample(sets, len(sets))


TWO_CHAINS = chain(0, 250) + chain(250, 500)
DEEP = [range(0, ELEMENTS - i) for i in range(240)]
CASES = [
    ('64 families of 500 single elements', 64, [[e] for e in range(ELEMENTS)]),
    ('64 binary trees of 500 sets, the root first', 64, tree(0, ELEMENTS)[:500]),
    ('8 families of two chains, 250 sets deep, rising', 8, TWO_CHAINS),
    ('the same, falling', 8, TWO_CHAINS[::-1]),
    ('the same, in no order', 8, shuffled(TWO_CHAINS)),
    ('9 families of a chain, 240 sets deep, rising', 9, DEEP[::-1]),
    ('the same, falling', 9, DEEP),
    ('64 families of all elements and ten sets of 50', 64, [range(ELEMENTS)]
     + [range(e, e + 50) for e in range(0, ELEMENTS, 50)]),
]


def description(families, sets):
    """So many laminar matroids with these sets, whose caps are their sizes."""
    lines = ['matroids 1', f'list {ELEMENTS} {families}', 'weights' + ' 1' * ELEMENTS]
    lines += ([f'laminar {len(sets)}'] + [f'set {len(one)} ' + ' '.join(map(str, one))
                                          for one in sets]) * families
    return '\n'.join(lines + ['end', ''])


def row(name, text, programs):
    """The line of the table of one description."""
    words = ['show', text]
    for program in programs:
        if run(program, words)[0] != run(programs[0], words)[0]:
            raise SystemExit(f'{program} shows {name} otherwise')
    cells = [name, f'{os.path.getsize(text) / 1e6:.1f}']
    for program in programs:
        seconds = min(run(program, words)[1] for _ in range(RUNS))
        cells += [f'{instructions(program, words):.0f}', f'{seconds:.3f}']
    return '| ' + ' | '.join(cells) + ' |'


def main():
    programs = [os.path.abspath(program) for program in sys.argv[1:]]
    if not programs:
        raise SystemExit(__doc__)
    with tempfile.NamedTemporaryFile('w', suffix='.txt') as file:
        for name, families, sets in CASES:
            file.seek(0)
            file.truncate()
            file.write(description(families, sets))
            file.flush()
            print(row(name, file.name, programs), flush=True)


if __name__ == '__main__':
    main()
