"""Descriptions of plain data: weights and matroids, edges, and tables.

Elements are numbers from 0 in the order of the weights, or the keys of a mapping that has a weight
for each. An edge or an arc is in answers the tuple that was given for it, and a cell its row and
its column. Keys, vertices, colours, rows and columns may be whatever can be the key of a dict.
"""
from __future__ import annotations

import dataclasses
from collections.abc import Hashable, Iterable, Mapping, Sequence
from typing import TYPE_CHECKING, Any, Protocol

from matbench.descriptions import MOST_MATROIDS, Description, out_of_range
from matbench.graphs import (coloured_description, description_of_cells, graph_description,
                             rooted_description)
from matbench.matroids import ForEach, Matroid, write_all
from matbench.weights import Weight
from matbench.writing import Writer

if TYPE_CHECKING:
    from typing import TypeAlias, TypeGuard

#: The weights of elements, and so the elements.
Weights: TypeAlias = "ForEach[Weight | int]"


def _weighted(form: str, weights: Weights, matroids: Sequence[Matroid]) -> Description:
    """A description of matroids on weighted elements, with {} for their number in its form line."""
    labels = list(weights) if isinstance(weights, Mapping) else None
    values = list(weights.values() if isinstance(weights, Mapping) else weights)
    writer = Writer(form.format(len(values)), len(values), labels)
    writer.weights(values)
    write_all(matroids, writer)
    return writer.description()


def pair(weights: Weights, first: Matroid, second: Matroid) -> Description:
    """The `pair N` of two matroids on weighted elements, for intersect."""
    return _weighted("pair {}", weights, [first, second])


def listed(weights: Weights, *matroids: Matroid) -> Description:
    """The `list N M` of matroids on weighted elements, from 1 to 64, for union, and of one for
    best, pack and cover."""
    if not 1 <= len(matroids) <= MOST_MATROIDS:
        sentence = f"the number of matroids is {len(matroids)}, and has to be from 1 to"
        raise out_of_range(f"{sentence} {MOST_MATROIDS}", 2)
    return _weighted(f"list {{}} {len(matroids)}", weights, matroids)


class _Edges:
    """A graph of plain edges, as graph_description and the like take one. Each edge is a tuple of
    its two ends and then of what `parts` names."""

    def __init__(self, edges: Iterable[tuple[Any, ...]], nodes: Iterable[Hashable],
                 is_directed: bool = False, parts: Sequence[str] = ()):
        self.tuples = [tuple(edge) for edge in edges]
        self._is_directed, self._parts = is_directed, parts
        for edge in self.tuples:
            if len(edge) != 2 + len(parts):
                wanted = " and ".join(["two ends", *parts])
                raise ValueError(f"{edge!r} is no tuple of {wanted}")
        self.nodes = list(dict.fromkeys([*nodes, *(end for it in self.tuples for end in it[:2])]))

    def is_directed(self) -> bool:
        """Whether its edges are arcs."""
        return self._is_directed

    def is_multigraph(self) -> bool:
        """Whether its edges have keys: they have none."""
        return False

    def edges(self, data: bool = True) -> list[tuple[Any, ...]]:
        """Its edges, each with a dict of its parts."""
        return [(*it[:2], dict(zip(self._parts, it[2:]))) for it in self.tuples]

    def description(self, made: Description) -> Description:
        """What was made of this graph, with the given tuples for elements."""
        return dataclasses.replace(made, elements=self.tuples)


def graph(edges: Iterable[tuple[Hashable, Hashable]],
          nodes: Iterable[Hashable] = ()) -> Description:
    """The `graph V E` of edges (u, v), for trees. Its vertices are `nodes`, and the ends."""
    its = _Edges(edges, nodes)
    return its.description(graph_description(its))


def rooted(arcs: Iterable[tuple[Hashable, Hashable, Weight | int]], root: Hashable,
           nodes: Iterable[Hashable] = ()) -> Description:
    """The `rooted V E R` of arcs (tail, head, cost), for arborescence, disjoint and cuts. Its
    vertices are the root, `nodes`, and the ends."""
    its = _Edges(arcs, [root, *nodes], True, ["weight"])
    return its.description(rooted_description(its, root))


def coloured(edges: Iterable[tuple[Hashable, Hashable, Hashable, Weight | int]],
             nodes: Iterable[Hashable] = ()) -> Description:
    """The `coloured V E C` of edges (u, v, colour, weight), for rainbow. Its vertices are `nodes`,
    and the ends."""
    its = _Edges(edges, nodes, False, ["colour", "weight"])
    return its.description(coloured_description(its))


class Matrix(Protocol):
    """Rows of weights: a sequence of sequences, an array of numpy, or a frame of pandas."""

    def __len__(self) -> int:
        """How many rows there are."""

    def __getitem__(self, place: Any, /) -> Any:
        """A row, or a part of the matrix."""


def _is_frame(it: object) -> bool:
    """Whether this is a frame of pandas, or of what has its methods."""
    return hasattr(it, "to_numpy") and hasattr(it, "columns")


def is_matrix(it: object) -> TypeGuard[Matrix]:
    """Whether this is taken for a matrix, or a row of one. What has edges is a graph, but for a
    frame, which has an attribute for each of its columns."""
    is_graph = hasattr(it, "edges") and not _is_frame(it)
    has_items = hasattr(it, "__getitem__") and hasattr(it, "__len__") and not is_graph
    return has_items and not isinstance(it, (str, bytes, bytearray, memoryview, Mapping))


def table(matrix: Matrix, rows: Iterable[Hashable] | None = None,
          columns: Iterable[Hashable] | None = None) -> Description:
    """The `table R C E` of a matrix of weights, for assign: a sequence of sequences, an array of
    numpy, or a frame of pandas. A cell that is None cannot be chosen. A cell is in answers
    (row, column), by `rows` and `columns`, a frame's labels, or else numbers from 0."""
    given: Any = matrix
    if _is_frame(given):
        rows = getattr(given, "index", None) if rows is None else rows
        columns = given.columns if columns is None else columns
        given = given.to_numpy()
    lines = given.tolist() if hasattr(given, "tolist") else list(given)
    if not all(is_matrix(line) for line in lines):
        raise TypeError("a matrix is wanted here: a sequence of rows, each a sequence of weights")
    width = max(map(len, lines), default=0)
    across = list(range(width) if columns is None else columns)
    down = list(range(len(lines)) if rows is None else rows)
    for line in lines:
        if len(line) != len(across):
            raise ValueError(f"a row has {len(line)} cells, and there are {len(across)} columns")
    if len(down) != len(lines):
        raise ValueError(f"there are {len(down)} labels for {len(lines)} rows")
    cells = [(i, j, weight) for i, line in enumerate(lines) for j, weight in enumerate(line)
             if weight is not None]
    return description_of_cells(down, across, cells)
