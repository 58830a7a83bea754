"""Descriptions of form `pair` as they are joined by further limits: their elements, their weights,
and the two matroids, both as lines and as tests of whether a set is allowed."""
from __future__ import annotations

from typing import TYPE_CHECKING

from matbench.commands import best, show
from matbench.descriptions import Description
from matbench.faults import InputFault
from matbench.refusals import MatbenchError
from matbench.weights import pair_of, read_weight

if TYPE_CHECKING:
    from collections.abc import Collection, Iterable, Sequence

    from matbench.descriptions import Problem


class Rule:
    """One matroid of a description of n elements: its lines with numbers for the elements.
    `counts` has it as limits of sets, if it only counts; else it is None."""

    def __init__(self, lines: Sequence[str], n: int,
                 counts: list[tuple[int, frozenset[int]]] | None, edges: list[tuple[int, int]]):
        self.lines, self.n, self.counts, self.edges = list(lines), n, counts, edges

    def allows(self, members: Collection[int]) -> bool:
        """Whether a set of elements is allowed."""
        if self.counts is not None:
            inside = set(members)
            return all(len(inside & each) <= cap for cap, each in self.counts)
        if self.edges:
            return _closes_no_ring(self.edges[it] for it in members)
        chosen = " ".join(["restrict", *map(str, sorted(members))])
        text = "\n".join(["matroids 1", f"list {self.n} 1", "weights" + " 0" * self.n, chosen,
                          *self.lines, "end", ""])
        return len(best(text).rungs) - 1 == len(set(members))


def _closes_no_ring(edges: Iterable[tuple[int, int]]) -> bool:
    """Whether edges close no ring."""
    above: dict[int, int] = {}

    def top(vertex: int) -> int:
        while vertex in above:
            vertex = above[vertex]
        return vertex
    for one, other in edges:
        ends = top(one), top(other)
        if ends[0] == ends[1]:
            return False
        above[ends[0]] = ends[1]
    return True


class _Reader:
    """Reads matroids of the canonical lines of a description with numbers."""

    def __init__(self, lines: Sequence[str], at: int, n: int):
        self._lines, self.at, self._n = lines, at, n

    def _next(self) -> list[str]:
        self.at += 1
        return self._lines[self.at - 1].split()

    def rule(self) -> Rule:
        """The matroid that begins here."""
        start = self.at
        counts, edges = self._body()
        return Rule(self._lines[start:self.at], self._n, counts, edges)

    def _body(self) -> tuple[list[tuple[int, frozenset[int]]] | None, list[tuple[int, int]]]:
        """Reads over a matroid: what it counts, if it only does that, and its edges, if it is
        graphic."""
        word, *rest = self._next()
        every = frozenset(range(self._n))
        if word == "uniform":
            return [(int(rest[0]), every)], []
        if word in ("partition", "laminar"):
            rows = [self._next() for _ in range(int(rest[0]))]
            return [(int(row[1]), frozenset(map(int, row[2:]))) for row in rows], []
        if word == "graphic":
            return None, [(int(one), int(other)) for _, one, other in
                          (self._next() for _ in range(self._n))]
        if word in ("truncate", "restrict", "contract", "dual"):
            counts, _ = self._body()
            if counts is None or word in ("contract", "dual"):
                return None, []
            cap = (int(rest[0]), every) if word == "truncate" else \
                (0, every - frozenset(map(int, rest)))
            return [*counts, cap], []
        self._skip(word, rest)
        return None, []

    def _skip(self, word: str, rest: Sequence[str]) -> None:
        """Reads over the lines of a matroid that is neither of the above."""
        if word == "union":
            for _ in range(int(rest[0])):
                self._body()
            return
        lines = {"gf2": self._n, "transversal": int(rest[0]),
                 "gammoid": 2 + int(rest[-1])}[word]
        self.at += lines


class Pair:
    """A description of form `pair`: the names of its elements, their weights as pairs of numbers,
    and its two matroids. Raises InputFault where it is of another form."""

    def __init__(self, problem: Problem, what: str = "the description"):
        given = Description.of(problem)
        try:
            lines = show(given.text).split("\n")
        except MatbenchError as error:
            raise InputFault(f"{what}: {error.note}") from error
        form = lines[1].split()
        if form[0] != "pair":
            raise InputFault(f"{what}: its form is {form[0]}, and has to be pair")
        self.n = int(form[1])
        self.is_named = given.elements is not None
        self.names = [str(it) for it in given.elements] if given.elements is not None else \
            [str(it) for it in range(self.n)]
        self.weights = [pair_of(read_weight(it)) for it in lines[2].split()[1:]]
        reader = _Reader(lines, 3, self.n)
        self.rules = (reader.rule(), reader.rule())

    def text(self, weights: Iterable[int], outs: Collection[int] = (),
             ins: Collection[int] = ()) -> str:
        """The description with these weights, where some elements are not allowed and some are
        given."""
        front = []
        if outs:
            within = sorted(set(range(self.n)) - set(outs))
            front.append(" ".join(["restrict", *map(str, within)]))
        if ins:
            front.append(" ".join(["contract", *map(str, sorted(ins))]))
        lines = ["matroids 1", f"pair {self.n}", " ".join(["weights", *map(str, weights)])]
        for rule in self.rules:
            lines += [*front, *rule.lines]
        return "\n".join([*lines, "end", ""])

