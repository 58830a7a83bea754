#!/usr/bin/env python3
"""Tries `matbench.plans`, `second_best`, `one_more` and `few_changes`: `plans.py [PROBLEMS [SEED
[PROGRAM]]]`, at the top of the repository.

Draws problems of two matroids, or of one, on at most 9 elements, some with copies of wishes, and
compares what the package finds with what is found by trying all sets: the best plan with elements
that must be in it and others that must not, of a size and of all; the second best; what one more
place in each limit gains; and the plans that are best where a change costs so much. Then each proof
of a second best is checked as its text says, and altered: it has to be refused then, or to show
the same. What is wrong is printed. The last line is `N passed, M failed`, and the status is 1 if
something failed. PROBLEMS is 100 and SEED 1 if they are not given; the program is that of the
package if none is named.
"""
import itertools
import os
import pathlib
import random
import sys
import tempfile

TOP = pathlib.Path(__file__).resolve().parent.parent
sys.path.insert(0, str(TOP / "bindings"))
if len(sys.argv) > 3:
    os.environ["MATBENCH_PROGRAM"] = os.path.abspath(sys.argv[3])

import matbench  # noqa: E402
from matbench import few_changes, one_more, plans, second_best  # noqa: E402
from matbench.faults import InputFault  # noqa: E402
from matbench.weights import pair_of  # noqa: E402

KINDS = ("partition", "laminar", "uniform", "graphic", "gf2", "truncate")


def drawn_rule(numbers, count, people):
    """The lines of a matroid, with {} for each name, and a function that tells which sets of
    numbers it allows with one more place in the limit of a line."""
    kind = numbers.choice(KINDS)
    if kind == "truncate":
        cap = numbers.randint(0, count)
        lines, allows = drawn_rule(numbers, count, people)
        return [f"truncate {cap}", *lines], lambda members, at: (
            len(members) <= cap + (at == 0) and allows(members, at - 1))
    if kind == "uniform":
        cap = numbers.randint(0, count)
        return [f"uniform {cap}"], lambda members, at: len(members) <= cap + (at == 0)
    if kind == "graphic":
        edges = [(numbers.randrange(4), numbers.randrange(4)) for _ in range(count)]
        return (["graphic 4", *(f"edge {u} {v}" for u, v in edges)],
                lambda members, at: is_forest([edges[it] for it in members]))
    if kind == "gf2":
        columns = [numbers.randrange(8) for _ in range(count)]
        return (["gf2 3", *(f"column {it:03b}" for it in columns)],
                lambda members, at: is_free([columns[it] for it in members]))
    return drawn_family(numbers, kind, people)


def drawn_family(numbers, kind, people):
    """A partition or a laminar family of the classes of elements that `people` has."""
    sets = [(numbers.randint(0, 3), members) for members in people]
    if kind == "laminar":
        sets += [(numbers.randint(0, 2), members[:len(members) // 2]) for members in people]
    word = "class" if kind == "partition" else "set"
    lines = [f"{kind} {len(sets)}", *(" ".join([word, str(cap), *(f"{{{it}}}" for it in members)])
                                      for cap, members in sets)]
    return lines, lambda members, at: all(
        len(set(members) & set(own)) <= cap + (at == place)
        for place, (cap, own) in enumerate(sets, 1))


def is_forest(edges):
    """Whether edges close no ring."""
    group = list(range(4))
    for u, v in edges:
        if group[u] == group[v]:
            return False
        group = [group[u] if it == group[v] else it for it in group]
    return True


def is_free(columns):
    """Whether no part of the columns adds up to zero."""
    sums = {0}
    for column in columns:
        if column in sums:
            return False
        sums |= {it ^ column for it in sums}
    return True


class Problem:
    """A drawn problem: its text, and all plans by trying all sets."""

    def __init__(self, numbers):
        self.count = numbers.randint(1, 9)
        self.names = [f"{'ABC'[it % 3]}.d{it // 3}" for it in range(self.count)]
        for it in range(1, self.count):
            if numbers.random() < .35:
                self.names[it] = self.names[it - 1].split(".more")[0] + ".more"
        if len(set(self.names)) < self.count:
            self.names = [f"x{it}" for it in range(self.count)]
        ties = numbers.random() < .4
        self.weights = [(numbers.randint(-3, 9), numbers.randint(-2, 2) if ties else 0)
                        for _ in range(self.count)]
        self.rules = [drawn_rule(numbers, self.count, self.classes(numbers))
                      for _ in range(numbers.choice([1, 2, 2, 2]))]
        form = f"pair {self.count}" if len(self.rules) == 2 else f"list {self.count} 1"
        words = [f"{gain}:{tie}" if tie else str(gain) for gain, tie in self.weights]
        lines = ["matroids 2", form, " ".join(["elements", *self.names]),
                 " ".join(["weights", *words])]
        for rule, _ in self.rules:
            lines += [line.format(*self.names) for line in rule]
        self.text = "\n".join([*lines, "end", ""])

    def classes(self, numbers):
        """Elements in three classes."""
        of = [numbers.randrange(3) for _ in range(self.count)]
        return [[it for it in range(self.count) if of[it] == place] for place in range(3)]

    def plans(self, rule=None, at=None):
        """All plans, with one place more in the line `at` of a matroid."""
        for size in range(self.count + 1):
            for members in itertools.combinations(range(self.count), size):
                if all(allows(members, at if place == rule else -99)
                       for place, (_, allows) in enumerate(self.rules)):
                    yield members

    def weight(self, members):
        """What a plan weighs."""
        return tuple(sum(self.weights[it][half] for it in members) for half in (0, 1))

    def wishes(self, members):
        """The wishes of a plan."""
        return frozenset(self.names[it].replace(".more", "") for it in members)

    def has_doubles(self, members):
        """Whether a plan has two copies of a wish."""
        return len(self.wishes(members)) < len(members)


def found_of(call):
    """What a call finds, or None if there is no plan."""
    try:
        return call()
    except plans.NoPlan:
        return None


def faults_of_best(numbers, problem, every):
    """What is said wrong of the best plan with elements that must be in it, or must not."""
    names = problem.names
    must = numbers.sample(names, numbers.randint(0, min(2, len(names))))
    barred = [it for it in names if it not in must and numbers.random() < .15]
    wanted, gone = problem.wishes([names.index(it) for it in must]), problem.wishes(
        [names.index(it) for it in barred])
    if wanted & gone or any(it.endswith(".more") for it in [*must, *barred]):
        return
    kept = [it for it in every if wanted <= problem.wishes(it) and not gone & problem.wishes(it)]
    for size in [None, *range(problem.count + 1)]:
        right = max((problem.weight(it) for it in kept if size in (None, len(it))), default=None)
        told = found_of(lambda: plans.best_plan(problem.text, must, barred, size))
        weight = None if told is None else pair_of(told.weight)
        if weight != right:
            yield f"{weight} of {size} with {must} without {barred}, and not {right}"
        if told and not (wanted <= {it.replace(".more", "") for it in told.members}):
            yield f"{told.members} lacks one of {must}"


def faults_of_second(problem, every):
    """What is said wrong of the second best plan of each size, and of all."""
    sizes = sorted({len(it) for it in every})
    for size in sizes:
        best = {}
        for it in every:
            if len(it) == size:
                wishes, weight = problem.wishes(it), problem.weight(it)
                best[wishes] = max(best.get(wishes, weight), weight)
        right = sorted(best.values(), reverse=True)[1:2]
        found = second_best.second_best(problem.text, size)
        told = [] if found.second is None else [pair_of(found.second.weight)]
        if told != right or found.tried > found.of:
            yield f"the second best of {size} is {told}, and not {right}"
    best = {}
    for it in every:
        wishes, weight = problem.wishes(it), problem.weight(it)
        best[wishes] = max(best.get(wishes, weight), weight)
    right = sorted(best.values(), reverse=True)[1:2]
    found = second_best.second_best(problem.text, is_any_size=True)
    told = [] if found.second is None else [pair_of(found.second.weight)]
    if told != right:
        yield f"the second best is {told}, and not {right}"


class Limits:
    """The limits of a drawn problem that have a row, by the rules that the help of one-more has."""

    def __init__(self, problem):
        self.problem = problem
        self.limits = [(rule, at, self.members(line), line) for rule, (lines, _) in
                       enumerate(problem.rules) for at, line in enumerate(lines)
                       if line.split()[0] in ("class", "set", "uniform", "truncate")]
        self.leasts = [it for it in self.limits if self.is_least(it[2])]
        self.rows = [it for it in self.limits if it not in self.leasts
                     and (len(it[2]) < 2 or len(problem.wishes(it[2])) > 1)]

    def members(self, line):
        """The elements of a limit."""
        words = line.split()
        return [int(it.strip("{}")) for it in words[2:]] if words[0] in ("class", "set") else \
            list(range(self.problem.count))

    def copies(self, element):
        """The other elements of the wish of an element."""
        wish = self.problem.wishes([element])
        return [it for it in range(self.problem.count)
                if it != element and self.problem.wishes([it]) == wish]

    def is_least(self, members):
        """Whether each element has a copy outside that counts for less."""
        first = [it for it, _ in self.problem.weights]
        return bool(members) and all(
            any(first[copy] < first[it] for copy in self.copies(it))
            and not set(self.copies(it)) & set(members) for it in members)

    def is_both(self, rule, members):
        """Whether one more element does not count."""
        return rule in {it[0] for it in self.leasts} and bool(members) and all(
            self.problem.weights[it][0] > 0 and not self.copies(it) for it in members)


def faults_of_one_more(problem, every):
    """What is said wrong of one more place in each limit."""
    best, gains = one_more.one_more(problem.text)
    right, limits = max(map(problem.weight, every)), Limits(problem)
    if pair_of(best.weight) != right:
        yield f"the best plan weighs {best.weight}"
    if [it.rule for it in gains] != [rule + 1 for rule, _, _, _ in limits.rows]:
        yield f"there are {len(gains)} limits, and not {len(limits.rows)}"
    for it, (rule, at, members, line) in zip(gains, limits.rows):
        most = int(line.split()[1]) if limits.is_both(rule, members) else problem.count
        gain = max((problem.weight(plan)[0] - right[0] - (len(set(plan) & set(members)) > most),
                    problem.weight(plan)[1] - right[1]) for plan in problem.plans(rule, at))
        if pair_of(it.gain) != gain or it.cap < int(line.split()[1]):
            yield f"one more in {line!r} of rule {rule + 1} gains {it.gain}, and not {gain}"


def charged(weight, changes, cost):
    """A weight less what its changes cost."""
    return tuple(one - each * changes for one, each in zip(weight, cost))


def faults_of_changes(numbers, problem, every):
    """What is said wrong of plans with few changes."""
    last = problem.wishes(numbers.choice(every))
    changes = {it: len(last ^ problem.wishes(it)) for it in every}
    told = few_changes.few_changes(problem.text, last)
    best = max(map(problem.weight, every))
    fewest = min(changes.values())
    first = min(changes[it] for it in every if problem.weight(it) == best)
    last_gain = max(problem.weight(it) for it in every if changes[it] == fewest)
    ends = [(told[0].changes, pair_of(told[0].plan.weight)),
            (told[-1].changes, pair_of(told[-1].plan.weight))]
    if ends != [(first, best), (fewest, last_gain)]:
        yield f"the ends are {ends}, and not {(first, best)} and {(fewest, last_gain)}"
    for it in told:
        if it.changes != len(it.new) + len(it.dropped):
            yield f"{it.changes} changes, and {it.new} and {it.dropped}"
        more = few_changes.Cost(it.least + 1, it.least_cost.tie)
        for cost in {it.least_cost, more if it.most_cost is None else it.most_cost}:
            worth = max(charged(problem.weight(plan), changes[plan], cost) for plan in every)
            if charged(pair_of(it.plan.weight), it.changes, cost) != worth:
                yield f"{it.plan} is not best where a change costs {cost}"


def shown_in(wanted, folder):
    """The weights that a proof shows, or None if it is refused."""
    try:
        found = second_best.judged(wanted, False, folder)
    except (second_best.NotShown, plans.NoPlan, InputFault):
        return None
    return found.best.weight, found.second and found.second.weight


def faults_of_altered(numbers, wanted, folder):
    """What is wrong with altered proofs: each has to be refused, or to show the same."""
    right = shown_in(wanted, folder)
    for _ in range(3):
        path = numbers.choice(sorted(it for it in pathlib.Path(folder).iterdir()
                                     if it.name != "proof.txt"))
        text = path.read_text()
        digits = [at for at, sign in enumerate(text) if sign.isdigit()]
        at = numbers.choice(digits)
        path.write_text(text[:at] + str((int(text[at]) + numbers.randint(1, 9)) % 10)
                        + text[at + 1:])
        shown = shown_in(wanted, folder)
        if right is None or shown not in (None, right):
            yield f"{path.name} is altered, and {shown} is shown, and not {right}"
        path.write_text(text)


def faults_of_proof(numbers, problem):
    """What is wrong with the proof of the second best, judged as its text says."""
    with tempfile.TemporaryDirectory() as folder:
        path = pathlib.Path(folder, "problem.txt")
        path.write_text(problem.text)
        wanted = plans.Wanted.of(path)
        search, found = second_best._searched(wanted, False, True, None)
        second_best.write_proof(search, False, f"{folder}/proof")
        if shown_in(wanted, f"{folder}/proof") != (found.best.weight,
                                                   found.second and found.second.weight):
            yield "the proof does not show what is found"
        yield from faults_of_altered(numbers, wanted, f"{folder}/proof")
        files = sorted(pathlib.Path(folder, "proof").glob("without_*.txt"))
        if len(files) != found.of:
            yield f"{len(files)} of {found.of} wishes are proved"
        for text in [*files, pathlib.Path(folder, "proof", "best.txt")]:
            if not matbench.check(text, text.with_suffix(".answer")):
                yield f"{text.name} has no right answer"
        for text in files:
            rungs = matbench.read_answer(text, text.with_suffix(".answer")).rungs
            rung = rungs[found.best.size:found.best.size + 1]
            if rung and (search.second is None
                         or pair_of(rung[0].weight) > pair_of(search.second.weight)):
                yield f"{text.name} has a better plan than the second best"


def main():
    count, seed = (int(word) for word in (sys.argv[1:3] + ["100", "1"][len(sys.argv[1:3]):]))
    numbers = random.Random(seed)
    failed = done = 0
    while done < count:
        problem = Problem(numbers)
        every = list(problem.plans())
        if any(problem.has_doubles(it) for it in every):
            continue
        done += 1
        faults = [*faults_of_best(numbers, problem, every), *faults_of_second(problem, every),
                  *faults_of_one_more(problem, every), *faults_of_changes(numbers, problem, every),
                  *faults_of_proof(numbers, problem)]
        print(*faults, sep="\n", end=f"\n{problem.text}\n" if faults else "")
        failed += bool(faults)
    print(f"{count - failed} passed, {failed} failed")
    sys.exit(1 if failed else 0)


if __name__ == "__main__":
    main()
