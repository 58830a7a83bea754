#!/usr/bin/env python3
"""Tries matbench.limits on larger problems: `limits_by_highs.py [PROBLEMS [SEED [PROGRAM]]]`, at
the top of the repository, with a Python that has scipy.

Draws problems of 20 to 120 wishes, of one description or of two that are joined, with up to 20
limits of hours, money and nights, with weights A:B or without, for a size or for all. The best plan
is found by HiGHS, of scipy, from the drawn numbers alone. A plan, a bound and what is said to be
best, with and without HiGHS for the package, and proofs that are changed, are judged by it as
limits.py judges them. Problems that HiGHS does not end within a minute are left out. What is wrong
is printed. The last line is `N passed, M failed`, and the status is 1 if something failed. PROBLEMS
is 60 and SEED 1 if they are not given; the program is as in limits.py.
"""
import sys
import tempfile

from limits import end, package, tried, worth

try:
    from scipy import optimize, sparse
except ImportError:
    sys.exit('limits_by_highs.py: this Python has no scipy')

#: Seconds for HiGHS, and solves of the package for prices and for parts of all plans.
MOST_SECONDS, SOLVES, PARTS = 60, 40, 40


class Week:
    """A drawn description: wishes of people for shifts of some days. `rows` are its limits, each
    the most and the wishes of which it counts."""

    def __init__(self, count, people, letter, has_ties, numbers):
        days = max(2, count // 10)
        self.names = [f'{letter}{place}' for place in range(count)]
        self.people = [numbers.randrange(people) for _ in range(count)]
        shifts = [(numbers.randrange(days), numbers.randrange(2)) for _ in range(count)]
        self.weights = [(numbers.randint(0, 1), numbers.randint(1, 99)) if has_ties
                        else (numbers.randint(1, 99), 0) for _ in range(count)]
        every = range(count)
        rooms = [(numbers.randint(1, 2), [it for it in every if shifts[it] == shift])
                 for shift in sorted(set(shifts))]
        own = [(numbers.randint(2, 5), [it for it in every if self.people[it] == person])
               for person in range(people)]
        is_daily = numbers.random() < 0.5
        if is_daily:
            own += [(1, [it for it in members if shifts[it][0] == day]) for _, members in own
                    for day in range(days)]
        self.rows = rooms + own
        words = [f'{gain}:{tie}' if tie else str(gain) for gain, tie in self.weights]
        lines = ['matroids 2', f'pair {count}', ' '.join(['elements', *self.names]),
                 ' '.join(['weights', *words])]
        for rows, kind in ((rooms, 'partition'), (own, 'laminar' if is_daily else 'partition')):
            word = 'set' if kind == 'laminar' else 'class'
            lines += [f'{kind} {len(rows)}', *(' '.join(
                [word, str(most), *(self.names[it] for it in members)]) for most, members in rows)]
        self.text = '\n'.join([*lines, 'end', ''])


class Problem:
    """A drawn problem, and what its best plan is worth by HiGHS: `best`, None where there is no
    plan. `is_judged` is false where that is not known."""

    def __init__(self, numbers):
        count = numbers.choice([20, 20, 20, 40, 60, 120])
        people, has_ties = max(2, count // 14), numbers.random() < 0.3
        letters = 'ab'[:numbers.choice([1, 1, 2])]
        self.parts = [Week(count // len(letters), people, letter, has_ties, numbers)
                      for letter in letters]
        self.names = [name for part in self.parts for name in part.names]
        self.weights = [it for part in self.parts for it in part.weights]
        self.people = [it for part in self.parts for it in part.people]
        self.limits = {}
        for place in range(numbers.randint(1, 20 if count > 20 else 6)):
            most, amounts = self._limit(people, numbers)
            if amounts:
                self.limits[f'limit {place}'] = most, amounts
        self.size = numbers.randint(1, count // 4) if numbers.random() < 0.3 else None
        self.is_judged, self.best = self._judged()

    def _limit(self, people, numbers):
        """A further limit: how much at most, and the amounts of wishes."""
        kind, every = numbers.choice(['hours', 'hours', 'money', 'nights']), range(len(self.names))
        if kind == 'hours':
            who = numbers.sample(range(people), numbers.choice([1, 1, max(1, people // 3)]))
            return len(who) * numbers.choice([14, 18.5, 22, 26, 30]), {
                it: numbers.choice([4, 6, 7.5, 8, 10, 12]) for it in every
                if self.people[it] in who}
        if kind == 'money':
            amounts = {it: numbers.randint(10, 60) for it in every if numbers.random() < 0.8}
            return int(sum(amounts.values()) * numbers.choice([0.08, 0.12, 0.16])), amounts
        amounts = {it: 1 for it in every if numbers.random() < 0.3}
        return max(1, int(len(amounts) * numbers.choice([0.1, 0.15, 0.2]))), amounts

    def rows(self):
        """All limits: the least, the most, and the amounts of wishes."""
        start = 0
        for part in self.parts:
            yield from ((0, most, {start + it: 1 for it in members}) for most, members in part.rows)
            start += len(part.names)
        yield from ((0, most, amounts) for most, amounts in self.limits.values())
        if self.size is not None:
            yield self.size, self.size, {it: 1 for it in range(len(self.names))}

    def _judged(self):
        """Whether HiGHS ends, and what its best plan is worth, None where there is none."""
        rows = list(self.rows())
        entries = [(amount, place, it) for place, (_, _, amounts) in enumerate(rows)
                   for it, amount in amounts.items()]
        amounts, places, columns = zip(*entries)
        matrix = sparse.csr_matrix((amounts, (places, columns)), (len(rows), len(self.names)))
        unit = 1 + 2 * sum(tie for _, tie in self.weights)
        ended = optimize.milp(
            [-float(gain * unit + tie) for gain, tie in self.weights],
            integrality=[1] * len(self.names), bounds=optimize.Bounds(0, 1),
            constraints=optimize.LinearConstraint(matrix, [it[0] for it in rows],
                                                  [it[1] for it in rows]),
            options={'time_limit': MOST_SECONDS, 'mip_rel_gap': 0})
        if ended.status == 2:
            return True, None
        if ended.status != 0:
            return False, None
        plan = {it for it, part in enumerate(ended.x) if part > 0.5}
        if not self.is_plan(plan):
            sys.exit('limits_by_highs.py: the plan of HiGHS breaks a limit')
        return True, self.worth(plan)

    def worth(self, members):
        """The weight of a plan."""
        return worth(members, self.weights)

    def is_plan(self, members):
        """Whether a set keeps all limits."""
        return all(least <= sum(amounts.get(it, 0) for it in members) <= most
                   for least, most, amounts in self.rows())

    def table(self):
        """The table of the further limits."""
        lines = ['limit,most,element,amount']
        for name, (most, amounts) in self.limits.items():
            lines += [f'{name},{most},{self.names[it]},{amount}' for it, amount in amounts.items()]
        return '\n'.join(lines) + '\n'


def drawn(numbers):
    """A problem that HiGHS judges."""
    while True:
        problem = Problem(numbers)
        if problem.is_judged:
            return problem


def main():
    limits, problems, numbers = package(sys.argv[1:], 60)
    with tempfile.TemporaryDirectory() as folder:
        end([tried(limits, drawn(numbers), numbers, folder, use_highs=place % 3 == 0,
                   solves=SOLVES, parts=PARTS) for place in range(problems)])


if __name__ == '__main__':
    main()
