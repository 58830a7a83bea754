#!/usr/bin/env python3
"""Tells what a change of each crate costs: the processor seconds of its proof, and of all that is
proved again above it. It prints a table, a row for each crate.

The seconds are those of launcher/seconds.txt, and crates.txt says which crate uses which. A change
that leaves the library of its crate as it was, byte for byte, costs that crate alone. A crate that
was not measured has no figures of its own, and counts for nothing.
"""
import os
import sys

TOP = os.path.dirname(os.path.dirname(os.path.realpath(__file__)))
HEADS = ['crate', 'proof', 'tests', 'edits', 'crates above', 'proofs of it and of all above',
         'with tests and edits', 'longest chain of proofs']


def lines_of(path):
    """The lines of a file of the repository that are no comments."""
    with open(os.path.join(TOP, path), encoding='utf-8') as it:
        return [line for line in it.read().splitlines() if line and not line.startswith('#')]


def libraries():
    """The crates that each crate uses, lowest first."""
    named = {}
    for line in lines_of('crates.txt'):
        head, _, uses = line.partition(':')
        named[head.split()[0]] = uses.split()
    return {crate: [it for it in uses if it in named] for crate, uses in named.items()}


def measured():
    """The seconds of the proof, the tests and the edits of each crate, None for none."""
    return {crate: [None if it == '-' else int(it) for it in figures]
            for crate, *figures in map(str.split, lines_of('launcher/seconds.txt'))}


def all_above(crate, uses):
    """The crates that stand on a crate, also by others."""
    above = set()
    for other, below in uses.items():
        # (a crate comes after those that it uses)
        if above.intersection(below) or crate in below:
            above.add(other)
    return above


def chains(uses, seconds):
    """The seconds of the longest chain of proofs that begins with each crate, each of which stands
    on the one before."""
    longest = {}
    for crate in reversed(uses):
        above = [longest[other] for other in uses if crate in uses[other]]
        longest[crate] = proof_of(crate, seconds) + max(above, default=0)
    return longest


def proof_of(crate, seconds):
    """The seconds of a crate's proof, 0 if they were not measured."""
    return seconds.get(crate, [0])[0] or 0


def rows():
    """The cells of each crate."""
    uses, seconds = libraries(), measured()
    longest = chains(uses, seconds)
    for crate in uses:
        above = all_above(crate, uses)
        proved = [crate, *above]
        whole = sum(sum(it or 0 for it in seconds.get(each, [])) for each in proved)
        own = ['' if it is None else it for it in seconds.get(crate, [None] * 3)]
        yield [f'`{crate}`', *own, len(above), sum(proof_of(each, seconds) for each in proved),
               whole, longest[crate]]


def table():
    """The lines of the table."""
    lines = [HEADS, ['---'] * len(HEADS), *rows()]
    return ['| ' + ' | '.join(map(str, cells)) + ' |' for cells in lines]


def main():
    if sys.argv[1:]:
        print(__doc__, file=sys.stderr)
        return 64
    print(*table(), sep='\n')
    return 0


if __name__ == '__main__':
    sys.exit(main())
