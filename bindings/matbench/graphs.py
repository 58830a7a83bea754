"""Descriptions of graphs of networkx.

A graph is one of networkx, or whatever else has nodes, edges(data=True), is_directed() and
is_multigraph() as these have. Its edges are the elements, in the order of graph.edges, and stand in
answers as the tuples that networkx has for them: (u, v), or (u, v, key) in a multigraph; those of a
table with the row first. Its nodes are the vertices. A description has up to 500 of each. In words
and pictures a node has its own word for a name, and an edge those of its tuple, with - between
them, where these are different words of at most 32 characters of ASCII, and else a letter and a
number.
"""
from __future__ import annotations

from collections.abc import Hashable, Iterable, Mapping, Sequence
from typing import TYPE_CHECKING, Any, Protocol

from matbench.descriptions import MOST, Description, names_of, out_of_range
from matbench.weights import spelling

if TYPE_CHECKING:
    from typing import TypeAlias

#: The attribute that weighs an edge where none is named.
WEIGHT = "weight"

_Edges: TypeAlias = "list[tuple[Any, ...]]"
_Data: TypeAlias = "list[Mapping[str, Any]]"


class Graph(Protocol):
    """What a graph has to have, as those of networkx have."""

    @property
    def nodes(self) -> Any:
        """Its nodes."""

    @property
    def edges(self) -> Any:
        """Its edges, and with a call those with their data."""

    def is_directed(self) -> bool:
        """Whether its edges are arcs."""

    def is_multigraph(self) -> bool:
        """Whether two edges may have the same ends."""


def _hold_to_kind(graph: Graph, is_directed: bool) -> None:
    """Raises where this is no graph, or none of the kind."""
    if not hasattr(graph, "is_directed"):
        raise TypeError(f"a graph is wanted here, and not a {type(graph).__name__}")
    if graph.is_directed() != is_directed:
        wanted = "has to be" if is_directed else "must not be"
        raise TypeError(f"the graph {wanted} directed")


def _hold_to_range(count: int, what: str, least: int = 0, line: int = 2,
                   given: str = "graph") -> None:
    """Raises, as the program would for this line of the description, where there are too many or
    too few."""
    if not least <= count <= MOST:
        sentence = f"the {given} has {count} {what}, and a description has from {least} to {MOST}"
        raise out_of_range(sentence, line)


def _edges(graph: Graph) -> tuple[_Edges, list[tuple[int, int]], _Data]:
    """The edges of a graph, the numbers of their ends, and their data."""
    number = {node: place for place, node in enumerate(graph.nodes)}
    found = list(graph.edges(keys=True, data=True) if graph.is_multigraph()
                 else graph.edges(data=True))
    _hold_to_range(len(found), "edges")
    ends = [(number[it[0]], number[it[1]]) for it in found]
    return [tuple(it[:-1]) for it in found], ends, [it[-1] for it in found]


def _weights(data: _Data, attribute: str) -> list[str]:
    """The weights of edges: 1 where an edge has none. An attribute that a caller names has to be
    there at one edge at least."""
    if data and attribute != WEIGHT and not any(attribute in it for it in data):
        raise ValueError(f"no edge has the attribute {attribute!r}, which is to be its weight or"
                         " its cost")
    return [spelling(it.get(attribute, 1)) for it in data]


def _vertex_names(graph: Graph) -> list[str]:
    return names_of("v", map(str, graph.nodes))


def _description(form: str, lines: Iterable[str], edges: Sequence[tuple[Any, ...]],
                 nodes: Sequence[Hashable],
                 colours: Sequence[Hashable] | None = None) -> Description:
    """A description with names: its form line, and the lines behind the names of the elements."""
    elements = " ".join(["elements", *names_of("e", ("-".join(map(str, edge)) for edge in edges))])
    text = "\n".join(["matroids 2", form, elements, *lines, "end", ""])
    return Description(text.encode(), edges, nodes, colours)


def graph_description(graph: Graph) -> Description:
    """The `graph V E` of an undirected graph, for trees."""
    _hold_to_kind(graph, False)
    names = _vertex_names(graph)
    _hold_to_range(len(names), "nodes", least=1)
    edges, ends, _ = _edges(graph)
    lines = [" ".join(["vertices", *names]), *(f"edge {names[u]} {names[v]}" for u, v in ends)]
    return _description(f"graph {len(names)} {len(edges)}", lines, edges, list(graph.nodes))


def rooted_description(graph: Graph, root: Hashable, cost: str = WEIGHT) -> Description:
    """The `rooted V E R` of a directed graph, for arborescence, disjoint and cuts. `cost` names the
    attribute of its arcs, 1 where one has none."""
    _hold_to_kind(graph, True)
    nodes, names = list(graph.nodes), _vertex_names(graph)
    if root not in nodes:
        raise ValueError(f"the graph has no node {root!r}, which is to be the root")
    _hold_to_range(len(nodes), "nodes", least=1)
    edges, ends, data = _edges(graph)
    arcs = [f"arc {names[u]} {names[v]} {it}" for (u, v), it in zip(ends, _weights(data, cost))]
    lines = [" ".join(["vertices", *names]), f"root {names[nodes.index(root)]}", *arcs]
    return _description(f"rooted {len(nodes)} {len(edges)}", lines, edges, nodes)


def coloured_description(graph: Graph, colour: str = "colour",
                         weight: str = WEIGHT) -> Description:
    """The `coloured V E C` of an undirected graph, for rainbow. `colour` and `weight` name the
    attributes of its edges; a colour may be anything that a dict can have as a key, and an edge
    without a weight weighs 1."""
    _hold_to_kind(graph, False)
    names = _vertex_names(graph)
    _hold_to_range(len(names), "nodes", least=1)
    edges, ends, data = _edges(graph)
    for edge, it in zip(edges, data):
        if colour not in it:
            raise ValueError(f"the edge {edge!r} has no attribute {colour!r}, which is to be its"
                             " colour")
    colours = list(dict.fromkeys(it[colour] for it in data))
    lines = [f"edge {names[u]} {names[v]} {colours.index(it[colour])} {weighs}"
             for (u, v), it, weighs in zip(ends, data, _weights(data, weight))]
    form = f"coloured {len(names)} {len(edges)} {len(colours)}"
    vertices = " ".join(["vertices", *names])
    return _description(form, [vertices, *lines], edges, list(graph.nodes), colours)


def table_description(graph: Graph, rows: Iterable[Hashable], weight: str = WEIGHT) -> Description:
    """The `table R C E` of an undirected graph, for assign: each edge joins one of the nodes `rows`
    with one of the others, which are the columns, and stands in answers as (row, column). `weight`
    names the attribute of its edges, 1 where one has none."""
    _hold_to_kind(graph, False)
    row = {node: place for place, node in enumerate(dict.fromkeys(rows))}
    nodes = set(graph.nodes)
    for node in row:
        if node not in nodes:
            raise ValueError(f"the graph has no node {node!r}, which is to be a row")
    others = (node for node in graph.nodes if node not in row)
    column = {node: place for place, node in enumerate(others)}
    _hold_to_range(len(row), "rows")
    _hold_to_range(len(column), "columns")
    edges, _, data = _edges(graph)
    cells, pairs = [], []
    for (u, v, *rest), weighs in zip(edges, _weights(data, weight)):
        at, across = (u, v) if u in row else (v, u)
        if at not in row or across not in column:
            raise ValueError(f"the edge of {u!r} and {v!r} does not join a row with a column")
        cells.append(f"cell {row[at]} {column[across]} {weighs}")
        pairs.append((at, across, *rest))
    return _description(f"table {len(row)} {len(column)} {len(pairs)}", cells, pairs, [])


def description_of_cells(rows: Sequence[Hashable], columns: Sequence[Hashable],
                         cells: Sequence[tuple[int, int, Any]]) -> Description:
    """The `table R C E` of cells: each is the numbers of its row and its column, and its weight."""
    for count, what in ((len(rows), "rows"), (len(columns), "columns"), (len(cells), "cells")):
        _hold_to_range(count, what, given="table")
    lines = [f"cell {i} {j} {spelling(weight)}" for i, j, weight in cells]
    pairs = [(rows[i], columns[j]) for i, j, _ in cells]
    return _description(f"table {len(rows)} {len(columns)} {len(cells)}", lines, pairs, [])


def forests_description(graph: Graph, weight: str = WEIGHT) -> Description:
    """The `list E 1` of the forests of an undirected graph, for best, pack and cover. `weight`
    names the attribute of its edges, 1 where one has none."""
    _hold_to_kind(graph, False)
    edges, ends, data = _edges(graph)
    _hold_to_range(len(graph.nodes), "nodes", least=1, line=5)
    lines = [" ".join(["weights", *_weights(data, weight)]), f"graphic {len(graph.nodes)}",
             *(f"edge {u} {v}" for u, v in ends)]
    return _description(f"list {len(edges)} 1", lines, edges, list(graph.nodes))
