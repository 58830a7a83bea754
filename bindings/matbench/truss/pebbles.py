"""The pebble game, which tells the edges of a graph that depend on one another.

Edges are independent if no set of v vertices, v at least 2, has more than `each` * v - `short`
edges with both ends in it. With 2 and 3 these are the bars of plane trusses in general position
(Laman, 1970), with 3 and 3 the bars between bodies in the plane, and with 6 and 6 those between
bodies in space (Tay, 1984). The game is that of Lee and Streinu (2008), for `each` <= `short` <
2 * `each`. An edge whose two ends are one vertex depends on nothing else, and is never independent.
"""
from __future__ import annotations

from typing import TYPE_CHECKING, NamedTuple

if TYPE_CHECKING:
    from collections.abc import Iterable, Sequence
    from typing import TypeAlias

#: The two ends of an edge, or the number of an edge and one of its ends.
Edge: TypeAlias = "tuple[int, int]"


class Sparsity(NamedTuple):
    """The two numbers of the count: at most `each` * v - `short` edges within v vertices."""

    each: int
    short: int

    def most(self, vertices: int) -> int:
        """How many independent edges have both ends in so many vertices, at most."""
        return self.each * vertices - self.short


class PebbleGame:
    """Independent edges, each of which points from the end whose pebble lies on it to the other
    end. A vertex has `each` pebbles, free or on the edges that point away from it."""

    def __init__(self, count: int, sparsity: Sparsity):
        self.sparsity = sparsity
        self.free = [sparsity.each] * count
        self.out: list[list[Edge]] = [[] for _ in range(count)]

    def add(self, edge: int, u: int, v: int) -> bool:
        """Adds an edge if it is independent of those that are there, and tells whether it is."""
        if u == v or self._gather(u, v) <= self.sparsity.short:
            return False
        self.free[u] -= 1
        self.out[u].append((edge, v))
        return True

    def dependence(self, u: int, v: int) -> set[int]:
        """The vertices of the edges on which an edge depends that could not be added just now."""
        seen, stack = {u, v}, [u, v]
        while stack:
            for _, head in self.out[stack.pop()]:
                if head not in seen:
                    seen.add(head)
                    stack.append(head)
        return seen

    def component(self, u: int, v: int) -> frozenset[int] | None:
        """The largest set of vertices with both of these that has as many edges as can be, or None
        if there is no such set."""
        if self._gather(u, v) > self.sparsity.short:
            return None
        into: list[list[int]] = [[] for _ in self.out]
        for tail, edges in enumerate(self.out):
            for _, head in edges:
                into[head].append(tail)
        loose = {x for x, count in enumerate(self.free) if count and x not in (u, v)}
        stack = list(loose)
        while stack:
            for tail in into[stack.pop()]:
                if tail not in loose:
                    loose.add(tail)
                    stack.append(tail)
        return frozenset(range(len(self.out))) - loose

    def _gather(self, u: int, v: int) -> int:
        """Moves as many free pebbles as are needed for an edge to both ends, as far as there are
        so many, and tells how many lie there."""
        while self.free[u] < self.sparsity.each and self._bring(u, v):
            pass
        while self.free[u] + self.free[v] <= self.sparsity.short and self._bring(v, u):
            pass
        return self.free[u] + self.free[v]

    def _bring(self, start: int, kept: int) -> bool:
        """Moves a free pebble from a vertex other than `kept` to this one, if one is reached."""
        came: dict[int, Edge] = {start: (-1, start)}
        stack = [start]
        while stack:
            tail = stack.pop()
            for edge, head in self.out[tail]:
                if head in came:
                    continue
                came[head] = (edge, tail)
                if self.free[head] and head != kept:
                    self._turn(start, head, came)
                    return True
                stack.append(head)
        return False

    def _turn(self, start: int, end: int, came: dict[int, Edge]) -> None:
        """Turns the edges of the way by which the search came from the start to the end."""
        self.free[end] -= 1
        self.free[start] += 1
        while end != start:
            edge, tail = came[end]
            self.out[tail].remove((edge, end))
            self.out[end].append((edge, tail))
            end = tail


class Count(NamedTuple):
    """What the game finds of a list of edges, by their places in it.

    `basis` is a largest set of independent edges. `groups` are sets of edges that depend on one
    another: each edge of a group may be missing without fewer independent ones, and no edge of
    another group bears on it. `critical` are the edges in no group: without one of them there is
    one independent edge fewer. `components` are sets of vertices that are rigid by themselves.
    """

    basis: list[int]
    groups: list[list[int]]
    critical: list[int]
    components: list[frozenset[int]]


def _groups(count: int, circuits: Sequence[Sequence[int]]) -> list[list[int]]:
    """Joins circuits that share an edge."""
    root = list(range(count))

    def find(edge: int) -> int:
        while root[edge] != edge:
            root[edge] = root[root[edge]]
            edge = root[edge]
        return edge

    for circuit in circuits:
        for edge in circuit:
            root[find(edge)] = find(circuit[0])
    groups: dict[int, list[int]] = {}
    for edge in sorted({edge for circuit in circuits for edge in circuit}):
        groups.setdefault(find(edge), []).append(edge)
    return list(groups.values())


def _components(game: PebbleGame, edges: Sequence[Edge],
                basis: Sequence[int]) -> list[frozenset[int]]:
    """The rigid components that have an edge, the largest first."""
    found: list[frozenset[int]] = []
    done: set[int] = set()
    for edge in basis:
        if edge in done:
            continue
        component = game.component(*edges[edge])
        if component is None:
            continue
        found.append(component)
        done |= {other for other in basis if component.issuperset(edges[other])}
    return sorted(found, key=lambda it: (-len(it), min(it)))


def largest_basis(count: int, edges: Sequence[Edge], sparsity: Sparsity,
                  order: Iterable[int]) -> list[int]:
    """A largest set of independent ones of these edges, in which earlier ones go first."""
    game = PebbleGame(count, sparsity)
    return sorted(edge for edge in order if game.add(edge, *edges[edge]))


def study(count: int, edges: Sequence[Edge], sparsity: Sparsity) -> Count:
    """The edges of so many vertices that depend on one another, and what is rigid."""
    game = PebbleGame(count, sparsity)
    basis: list[int] = []
    circuits: list[list[int]] = []
    for place, (u, v) in enumerate(edges):
        if game.add(place, u, v):
            basis.append(place)
        elif u == v:
            circuits.append([place])
        else:
            within = game.dependence(u, v)
            circuits.append([place] + [it for it in basis if within.issuperset(edges[it])])
    groups = _groups(len(edges), circuits)
    grouped = {edge for group in groups for edge in group}
    critical = [edge for edge in basis if edge not in grouped]
    return Count(basis, groups, critical, _components(game, edges, basis))
