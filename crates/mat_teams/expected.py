#!/usr/bin/env python3
"""What the program has to print: the same ladders by weight splitting with sets of Python, each rung judged by trying all sets.

A set that fails a test ends the script with an error. The program prints the same where `expected.py | diff - stdout` is silent.
"""
from itertools import combinations

PEOPLE = range(6)
GAINS = [10, 9, 8, 6, 4, 1]
DEPARTMENTS = [0, 0, 1, 1, 2, 2]


def other_than(last):
    """Any so many people as went last, but not exactly these again."""
    return lambda team: len(team) <= len(last) and team != last


def one_of_each(team):
    """At most one person of each department."""
    return len({DEPARTMENTS[x] for x in team}) == len(team)


def heaviest(test, weights, size):
    """The weight of a heaviest set of this size that passes."""
    return max((sum(weights[x] for x in team) for team in map(set, combinations(PEOPLE, size)) if test(team)), default=None)


def rank(test, within):
    """The size of a largest set of these people that passes."""
    return max(size for size in range(len(within) + 1) if any(test(set(team)) for team in combinations(within, size)))


def arcs(first, second, team, weights, x):
    """Where a step from x leads: a member is left for a heaviest person that can take its place in the first matroid, another person for a
    member whose place it can take in the second. With each comes by how much the step is short of tight."""
    if x in team:
        return [(weights[0][x] - weights[0][y], y) for y in PEOPLE if y not in team and first(team - {x} | {y})]
    return [(weights[1][y] - weights[1][x], y) for y in team if second(team - {y} | {x})]


def grown(first, second, team, weights):
    """The next team, or the people that are reached where there is none; the weights change by the least amount until one is reached."""
    sources = [x for x in PEOPLE if x not in team and first(team | {x})]
    sinks = [x for x in PEOPLE if x not in team and second(team | {x})]
    while True:
        from_whom = {}
        most = max((weights[0][x] for x in sources), default=0)
        best = max((weights[1][x] for x in sinks), default=0)
        queue = [(None, x) for x in sources if weights[0][x] == most]
        while queue:
            before, x = queue.pop(0)
            if x in from_whom:
                continue
            from_whom[x] = before
            if x in sinks and weights[1][x] == best:
                while x is not None:
                    team, x = team ^ {x}, from_whom[x]
                return team, None
            queue += [(x, y) for short, y in arcs(first, second, team, weights, x) if short == 0]
        amounts = [most - weights[0][x] for x in sources if x not in from_whom]
        amounts += [best - weights[1][x] for x in sinks if x in from_whom]
        amounts += [short for x in from_whom for short, y in arcs(first, second, team, weights, x) if y not in from_whom]
        if not amounts:
            return None, set(from_whom)
        for x in from_whom:
            weights[0][x] -= min(amounts)
            weights[1][x] += min(amounts)


def line(word, numbers):
    """A line of a word and numbers."""
    return ' '.join([word, *map(str, numbers)])


def tell_rung(tests, team, weights):
    """Prints a rung, after it is judged."""
    size, gain = len(team), sum(GAINS[x] for x in team)
    assert gain == heaviest(lambda other: all(test(other) for test in tests), GAINS, size)
    for test, part in zip(tests, weights):
        assert test(team) and sum(part[x] for x in team) == heaviest(test, part, size)
    assert all(sum(parts) == whole for *parts, whole in zip(*weights, GAINS))
    print(line('rung', (size, gain)), line('set', sorted(team)), sep='\n')


def tell_ladder(first, second):
    """Prints a ladder of two matroids and the set that ends it."""
    team, weights = set(), (GAINS[:], [0] * len(GAINS))
    while True:
        tell_rung((first, second), team, weights)
        print(line('first', weights[0]), line('second', weights[1]), sep='\n')
        larger, reached = grown(first, second, team, weights)
        if larger is None:
            assert rank(second, reached) + rank(first, set(PEOPLE) - reached) == len(team)
            print(line('cut', sorted(reached)))
            return
        team = larger


def tell_best(test):
    """Prints a heaviest set of each size, and the next always holds the one before: the greedy algorithm."""
    team = set()
    while team is not None:
        tell_rung((test,), team, (GAINS,))
        larger = [x for x in PEOPLE if x not in team and test(team | {x})]
        team = team | {max(larger, key=lambda x: GAINS[x])} if larger else None


print('three, but not 0 1 2')
tell_best(other_than({0, 1, 2}))
print('three, one of each department, but not 0 2 4')
tell_ladder(other_than({0, 2, 4}), one_of_each)
print('three, but not 0 1 2 nor 0 1 3')
tell_ladder(other_than({0, 1, 2}), other_than({0, 1, 3}))
