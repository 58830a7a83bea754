"""Matroids: rules that say which sets of elements are allowed.

An element is a key of the mapping of weights with which a description is made, or else its number
from 0. What a matroid has for each element is a mapping by elements, or a sequence in their order.
Vertices are whatever can be the key of a dict. A number out of its range, or an element that is not
there, is told when the description is made.
"""
from __future__ import annotations

from collections.abc import Hashable, Iterable, Mapping, Sequence
from typing import TYPE_CHECKING, Any, TypeVar

from matbench.descriptions import MOST, MOST_MATROIDS
from matbench.writing import Writer

if TYPE_CHECKING:
    from typing import TypeAlias

#: Elements with a cap: at most so many of them.
Capped: TypeAlias = "tuple[int, Iterable[Hashable]]"
_It = TypeVar("_It")
#: Something for each element: by the element, or in the order of the elements.
ForEach: TypeAlias = "Mapping[Any, _It] | Iterable[_It]"


class Matroid:
    """A matroid of one of the kinds below."""

    def write(self, writer: Writer) -> None:
        """Adds its lines to a description."""
        raise NotImplementedError


def _held(given: ForEach[_It]) -> dict[Any, _It] | list[_It]:
    """What is given for each element, so that it can be read again."""
    return dict(given) if isinstance(given, Mapping) else list(given)


def write_all(matroids: Iterable[Matroid], writer: Writer) -> None:
    """Adds the lines of some matroids, one after the other, to a description."""
    for matroid in matroids:
        if not isinstance(matroid, Matroid):
            raise TypeError(f"a matroid is wanted here, and not {matroid!r}")
        matroid.write(writer)


def _held_pairs(pairs: Iterable[_It], what: str) -> list[_It]:
    """Pairs, so that they can be read again."""
    found = list(pairs)
    for it in found:
        if not isinstance(it, (tuple, list)) or len(it) != 2:
            raise TypeError(f"{what}, and not {it!r}")
    return found


def _number_of(vertices: Iterable[Hashable], writer: Writer) -> dict[Hashable, int]:
    """The numbers of vertices. A matroid has at least one."""
    number = {vertex: place for place, vertex in enumerate(dict.fromkeys(vertices))} or {None: 0}
    writer.number(len(number), "the number of vertices", 1, MOST)
    return number


class Uniform(Matroid):
    """Allows at most `cap` elements."""

    def __init__(self, cap: int):
        self.cap = cap

    def write(self, writer: Writer) -> None:
        writer.add("uniform", writer.number(self.cap, "a cap", 0, MOST))


class _OfSets(Matroid):
    """A matroid that caps sets of elements."""

    kind, line = "", ""

    def __init__(self, sets: Iterable[Capped]):
        found = _held_pairs(sets, f"a {self.line} is a tuple of a cap and its elements")
        self.sets = [(cap, list(elements)) for cap, elements in found]

    def write(self, writer: Writer) -> None:
        number = writer.number(len(self.sets), f"the number of lines {self.line}", 0, MOST)
        writer.add(self.kind, number)
        for cap, elements in self.sets:
            writer.add(self.line, writer.number(cap, "a cap", 0, MOST), *writer.words(elements))


class Partition(_OfSets):
    """Allows at most `cap` of each class's elements: [(cap, elements), ..]. An element in no class
    has no limit, and none is in two."""

    kind, line = "partition", "class"


class Laminar(_OfSets):
    """Allows at most `cap` of each set's elements: [(cap, elements), ..]. Of any two sets that
    share an element one contains the other."""

    kind, line = "laminar", "set"


class Graphic(Matroid):
    """Each element is an edge (u, v). Allows edges that close no ring."""

    def __init__(self, edges: ForEach[tuple[Hashable, Hashable]]):
        self.edges = _held(edges)

    def write(self, writer: Writer) -> None:
        ends = _held_pairs(writer.of_each(self.edges, "edges"), "an edge is a tuple of two ends")
        number = _number_of((it for both in ends for it in both), writer)
        writer.add("graphic", len(number))
        for u, v in ends:
            writer.add("edge", number[u], number[v])


class Transversal(Matroid):
    """Allows elements that can be given to different sets of these, each to one that holds it."""

    def __init__(self, sets: Iterable[Iterable[Hashable]]):
        self.sets = [list(it) for it in sets]

    def write(self, writer: Writer) -> None:
        writer.add("transversal", writer.number(len(self.sets), "the number of sets", 0, MOST))
        for elements in self.sets:
            writer.add("set", *writer.words(elements))


class Gammoid(Matroid):
    """Each element is a vertex, its target. Allows elements to which routes lead along the arcs
    (tail, head) from sources, one to each, of which no two meet."""

    def __init__(self, arcs: Iterable[tuple[Hashable, Hashable]], sources: Iterable[Hashable],
                 targets: ForEach[Hashable]):
        self.arcs = _held_pairs(arcs, "an arc is a tuple of a tail and a head")
        self.sources, self.targets = list(sources), _held(targets)

    def write(self, writer: Writer) -> None:
        targets = writer.of_each(self.targets, "targets")
        ends = [it for arc in self.arcs for it in arc]
        number = _number_of([*ends, *self.sources, *targets], writer)
        arcs = writer.number(len(self.arcs), "the number of arcs", 0, 20_000)
        writer.add("gammoid", len(number), arcs)
        writer.add("sources", *(number[it] for it in self.sources))
        writer.add("targets", *(number[it] for it in targets))
        for tail, head in self.arcs:
            writer.add("arc", number[tail], number[head])


class Binary(Matroid):
    """Each element is a column of digits 0 and 1, as "0110" or [0, 1, 1, 0]. Allows columns of
    which no part adds up to zero, digit by digit without carry."""

    def __init__(self, columns: ForEach[str | Sequence[int]]):
        self.columns = _held(columns)

    def write(self, writer: Writer) -> None:
        columns = ["".join(map(str, it)) for it in writer.of_each(self.columns, "columns")]
        length = len(columns[0]) if columns else 1
        writer.add("gf2", writer.number(length, "the number of digits of a column", 1, 128))
        for column in columns:
            writer.add("column", column)


class Dual(Matroid):
    """Allows what some base of a matroid, a largest set that it allows, has nothing of."""

    def __init__(self, matroid: Matroid):
        self.matroid = matroid

    def write(self, writer: Writer) -> None:
        writer.add("dual")
        write_all([self.matroid], writer)


class Truncate(Matroid):
    """Allows what a matroid allows, of at most `cap` elements."""

    def __init__(self, cap: int, matroid: Matroid):
        self.cap, self.matroid = cap, matroid

    def write(self, writer: Writer) -> None:
        writer.add("truncate", writer.number(self.cap, "a cap", 0, MOST))
        write_all([self.matroid], writer)


class _Among(Matroid):
    """A matroid that is made of another one and some elements."""

    kind = ""

    def __init__(self, elements: Iterable[Hashable], matroid: Matroid):
        self.elements, self.matroid = list(elements), matroid

    def write(self, writer: Writer) -> None:
        writer.add(self.kind, *writer.words(self.elements))
        write_all([self.matroid], writer)


class Restrict(_Among):
    """Allows what a matroid allows of these elements, and no others."""

    kind = "restrict"


class Contract(_Among):
    """Allows what a matroid allows together with a largest allowed part of these elements, and none
    of them."""

    kind = "contract"


class UnionOf(Matroid):
    """Allows what falls into parts, one for each of these matroids and allowed by it, of which no
    two share an element."""

    def __init__(self, *matroids: Matroid):
        self.matroids = matroids

    def write(self, writer: Writer) -> None:
        count = writer.number(len(self.matroids), "the number of matroids", 1, MOST_MATROIDS)
        writer.add("union", count)
        write_all(self.matroids, writer)
