#!/usr/bin/env python3
"""Tries matbench.limits: `limits.py [PROBLEMS [SEED [PROGRAM]]]`, at the top of the repository.

Draws small problems with further limits, of one description or of two that they join, of several
kinds of matroids, with weights A:B or without, for a size or for all; solves each, and compares the
plan, the bound and what is said to be best with what is found by trying all sets. Then the proof is
written and verified, and changed in places: a changed one has to be refused, or to show a bound
that is still right. What is wrong is printed. The last line is `N passed, M failed`, and the status
is 1 if something failed. PROBLEMS is 150 and SEED 1 if they are not given; the program is
crates/mat_main/out/mat_main if none is named, and the library is taken where there is one.

limits_by_highs.py draws larger problems, and judges them as this one does.
"""
import itertools
import os
import random
import shutil
import sys
import tempfile

TOP = os.path.dirname(os.path.dirname(os.path.abspath(__file__)))
#: How long one search may take, if it does not end by its solves.
SECONDS = 10


class Rules:
    """A matroid of a drawn description: its lines, and whether it allows a set."""

    def __init__(self, n, names, numbers):
        self.kind = numbers.choice(['partition', 'partition', 'graphic', 'gf2', 'uniform'])
        if self.kind == 'partition':
            of = [numbers.randrange(3) for _ in range(n)]
            self.sets = [(numbers.randint(1, 2), [e for e in range(n) if of[e] == c])
                         for c in range(3)]
            self.lines = ['partition 3'] + [' '.join(['class', str(cap), *(names[e] for e in own)])
                                            for cap, own in self.sets]
        elif self.kind == 'uniform':
            self.cap = numbers.randint(2, 4)
            self.lines = [f'uniform {self.cap}']
        else:
            self.columns = [numbers.sample(range(4), 2) for _ in range(n)]
            self.lines = ['graphic 4'] + [f'edge {u} {v}' for u, v in self.columns] \
                if self.kind == 'graphic' else ['gf2 4'] + [
                    'column ' + ''.join('01'[bit in own] for bit in range(4))
                    for own in self.columns]

    def allows(self, members):
        """Whether a set is allowed, by counting, or by adding columns: of a graph, too, a set is
        allowed where no part of it meets each vertex an even number of times."""
        if self.kind == 'partition':
            return all(len(set(own) & set(members)) <= cap for cap, own in self.sets)
        if self.kind == 'uniform':
            return len(members) <= self.cap
        for size in range(1, len(members) + 1):
            for part in itertools.combinations(members, size):
                ends = [end for e in part for end in self.columns[e]]
                if all(ends.count(end) % 2 == 0 for end in ends):
                    return False
        return True


class Part:
    """A drawn description."""

    def __init__(self, n, letter, has_ties, numbers):
        self.names = [f'{letter}{e}' for e in range(n)]
        self.weights = [(numbers.randint(-2, 9), numbers.randint(-3, 3) if has_ties else 0)
                        for _ in range(n)]
        self.rules = [Rules(n, self.names, numbers) for _ in range(2)]
        words = [f'{a}:{b}' if b else str(a) for a, b in self.weights]
        self.text = '\n'.join(['matroids 2', f'pair {n}', ' '.join(['elements', *self.names]),
                               ' '.join(['weights', *words]), *self.rules[0].lines,
                               *self.rules[1].lines, 'end', ''])

    def plans(self):
        """The sets that both matroids allow."""
        every = range(len(self.names))
        return [set(it) for size in range(len(every) + 1)
                for it in itertools.combinations(every, size)
                if all(rule.allows(it) for rule in self.rules)]


def worth(members, weights):
    """The weight of a set."""
    return tuple(sum(weights[e][k] for e in members) for k in range(2))


class Problem:
    """A drawn problem, and the best of its plans by trying all."""

    def __init__(self, numbers):
        has_ties = numbers.random() < 0.25
        self.parts = [Part(numbers.randint(4, 8), letter, has_ties, numbers)
                      for letter in 'ab'[: numbers.choice([1, 1, 2])]]
        self.names = [name for part in self.parts for name in part.names]
        self.weights = [it for part in self.parts for it in part.weights]
        self.limits = {}
        for number in range(numbers.randint(0, 4)):
            amounts = {e: numbers.choice([1, 1, 4, 6, 8]) for e in range(len(self.names))
                       if numbers.random() < 0.6}
            if amounts:
                most = numbers.randint(0, max(1, sum(amounts.values()) // 2))
                self.limits[f'l{number}'] = most, amounts
        self.size = numbers.choice([None, None, numbers.randint(0, 4)])
        self.best = max(map(self.worth, self.plans()), default=None)

    def worth(self, members):
        """The weight of a plan."""
        return worth(members, self.weights)

    def keeps(self, members):
        """Whether a set keeps the further limits and the size."""
        return self.size in (None, len(members)) and all(
            sum(amounts.get(e, 0) for e in members) <= most
            for most, amounts in self.limits.values())

    def is_plan(self, members):
        """Whether a set is one of the plans."""
        return members in list(self.plans())

    def plans(self):
        """All plans."""
        start, found = 0, [set()]
        for part in self.parts:
            own = [{start + e for e in it} for it in part.plans()]
            found = [one | other for one in found for other in own]
            start += len(part.names)
        return filter(self.keeps, found)

    def table(self):
        """The table of the further limits."""
        lines = ['limit;most;element;amount']
        for name, (most, amounts) in self.limits.items():
            lines += [f'{name};{most};{self.names[e]};{amount}' for e, amount in amounts.items()]
        return '\n'.join(lines) + '\n'


def as_pair(joined, gain):
    """A gain as two numbers."""
    found = joined.spelled(gain)
    return (found, 0) if isinstance(found, int) else (found.gain, found.tie)


def faults_of(problem, joined, outcome):
    """What is wrong with an outcome."""
    if problem.best is None:
        if outcome.plan is not None:
            yield f'a plan is told where there is none: {outcome.plan}'
        return
    if outcome.is_none:
        yield f'it is said that there is no plan, and one is worth {problem.best}'
        return
    if as_pair(joined, outcome.bound) < problem.best:
        yield f'the bound {outcome.bound} is below {problem.best}'
    if outcome.plan is not None:
        plan = set(outcome.plan)
        if not problem.is_plan(plan):
            yield f'the plan breaks a limit: {outcome.names}'
        if problem.worth(plan) != as_pair(joined, outcome.gain):
            yield f'the plan is worth {problem.worth(plan)}, and not {outcome.gain}'
    if outcome.is_best and as_pair(joined, outcome.gain) != problem.best:
        yield f'best is said of {outcome.gain}, and {problem.best} is best'


def changed(folder, numbers):
    """Changes a place in the proof, and answers which."""
    names = sorted(it for it in os.listdir(folder) if it != 'bound.md')
    name = numbers.choice([*names, 'leaves.csv', 'leaves.csv', 'covers.csv', 'plan.txt'])
    path = os.path.join(folder, name)
    with open(path, encoding='utf-8') as file:
        text = file.read()
    digits = [place for place, sign in enumerate(text) if sign.isdigit()]
    lines = text.splitlines(keepends=True)
    if digits and numbers.random() < 0.6:
        place = numbers.choice(digits)
        text = text[:place] + numbers.choice('0123456789') + text[place + 1:]
    elif lines:
        del lines[numbers.randrange(len(lines))]
        text = ''.join(lines)
    with open(path, 'w', encoding='utf-8') as file:
        file.write(text)
    return name


def faults_of_proof(limits, problem, joined, further, outcome, numbers, folder):
    """What is wrong with the proof of an outcome, and with proofs that are changed."""
    limits.write_proof(outcome, folder)
    proved = limits.verify(folder, joined, further)
    if (proved.bound, proved.gain) != (outcome.bound, outcome.gain):
        yield f'the proof shows {proved}, and not {outcome.bound} and {outcome.gain}'
    for _ in range(3):
        other = folder + '_changed'
        shutil.rmtree(other, ignore_errors=True)
        shutil.copytree(folder, other)
        name = changed(other, numbers)
        try:
            proved = limits.verify(other, joined, further)
        except limits.InputFault:
            continue
        there = None if proved.bound is None else as_pair(joined, proved.bound)
        if problem.best is not None and (there is None or there < problem.best):
            yield f'changed in {name}, the proof shows {proved}, and {problem.best} is best'
        if proved.gain is not None and (problem.best is None or
                                        as_pair(joined, proved.gain) > problem.best):
            yield f'changed in {name}, the proof has a plan of {proved.gain}'


def tried(limits, problem, numbers, folder, **settings):
    """Whether what is found of a problem is right, and whether it is best or none by proof."""
    joined = limits.Joined([part.text for part in problem.parts])
    path = os.path.join(folder, 'limits.csv')
    with open(path, 'w', encoding='utf-8') as file:
        file.write(problem.table())
    further = limits.read_limits(path, joined) if problem.limits else []
    outcome = limits.solve(joined, further, problem.size, SECONDS, **settings)
    proof = os.path.join(folder, 'proof')
    shutil.rmtree(proof, ignore_errors=True)
    faults = [*faults_of(problem, joined, outcome),
              *faults_of_proof(limits, problem, joined, further, outcome, numbers, proof)]
    for fault in faults:
        print(f'{fault}\n{[part.text for part in problem.parts]}\n{problem.limits}'
              f' size {problem.size}')
    return not faults, outcome.is_best or outcome.is_none


def package(words, problems):
    """The module matbench.limits, how many problems are to be tried, and the numbers by which they
    are drawn, for the words behind the name of a script."""
    problems, seed = (int(word) for word in (words[:2] + [problems, 1][len(words[:2]):]))
    program = os.path.abspath(words[2] if len(words) > 2
                              else os.path.join(TOP, 'crates/mat_main/out/mat_main'))
    if not os.access(program, os.X_OK):
        sys.exit(f'{program}: there is no such program; ./matbench --version puts it there')
    sys.path.insert(0, os.path.join(TOP, 'bindings'))
    if not os.path.exists(os.path.join(TOP, 'bindings/out/libmatbench.so')):
        os.environ['MATBENCH_PROGRAM'] = program
    from matbench import limits
    return limits, problems, random.Random(seed)


def end(ended):
    """Tells what was tried, and ends with the status."""
    right = sum(is_right for is_right, _ in ended)
    print(f'{sum(is_closed for _, is_closed in ended)} of {len(ended)} are best or none by proof')
    print(f'{right} passed, {len(ended) - right} failed')
    sys.exit(1 if right < len(ended) else 0)


def main():
    limits, problems, numbers = package(sys.argv[1:], 150)
    with tempfile.TemporaryDirectory() as folder:
        end([tried(limits, Problem(numbers), numbers, folder, use_highs=False)
             for _ in range(problems)])


if __name__ == '__main__':
    main()
