"""The cheapest supplies of all places that share nothing, and python3 -m matbench supplies.

A set of arcs falls into K supplies that share none exactly if it falls into K spanning trees, by
its ends alone, and K of its arcs enter each place but the root, which none enters (Edmonds). Links
in both directions, each for one supply, fall into K supplies if they fall into K spanning trees,
each of which is then directed away from the root.
"""
from __future__ import annotations

import collections
import dataclasses
from dataclasses import dataclass, field
from fractions import Fraction
from pathlib import Path
from typing import TYPE_CHECKING, NamedTuple

from matbench.command_lines import DONE, NOT_SO, parser_of, write
from matbench.commands import best, check, disjoint, intersect, trees
from matbench.descriptions import MOST_MATROIDS
from matbench.faults import InputFault
from matbench.links import description_of_links, read_links
from matbench.real_names import number_of
from matbench.spreadsheets import read_sheet
from matbench.tables import FORMS, Table, json_of
from matbench.texts import write_folder
from matbench.variants import canonical_lines
from matbench.weights import pair_of, read_weight, weight_of

if TYPE_CHECKING:
    from collections.abc import Iterable, Mapping, Sequence

    from matbench.answers import Answer, DisjointArborescences, Trees
    from matbench.descriptions import Problem
    from matbench.spreadsheets import Source
    from matbench.weights import Weight

ABOUT = """\
The cheapest K supplies of a network together, which share nothing: along each of them the root
reaches all places. They are proved to cost least.

NETWORK is a table of links, with the columns link, from, to and cost, and ROOT one of its places;
or a description of the form `rooted`, as `python3 -m matbench links` writes it, with names or
without. Where its arcs are both directions of links, X.there and X.back, a link is in one supply
at most; with --both-ways it may be in two, in opposite directions. Other arcs are one-way.
"""
EXAMPLES = """\
examples:
  python3 -m matbench supplies pipes.csv Well
  python3 -m matbench supplies pipes.txt --number 3 --both-ways --proof FOLDER

The status is 0, or 1 where there are no such supplies, or 2 where what was given is not taken."""
HOW = """How this proof is checked

`matbench check supplies.txt supplies.answer` prints yes, and the rung of {size} in supplies.answer
has the chosen {things} and minus their cost. supplies.txt allows sets of {things} that fall into
{number} forests{entered}.
{split}"""
SPLIT = """
`matbench check split.txt split.answer` prints yes: split.txt has the chosen {things} alone, and
they fall into {number} trees.
"""
#: What is behind the name of a link in those of its arcs.
THERE, BACK = ".there", ".back"


class Arc(NamedTuple):
    """An arc, or a link: its name, its ends by their numbers, and its cost."""

    name: str
    tail: int
    head: int
    cost: Weight | int


@dataclass(frozen=True)
class Network:
    """A network: its places, the root by its number, and its arcs. If it `is_both_ways`, they are
    links, each of which is used in one direction. It `has_names` if the description has. Of a table
    `scale` is what its costs are multiplied by, and `called` has its names."""

    places: tuple[str, ...]
    root: int
    arcs: tuple[Arc, ...]
    is_both_ways: bool
    has_names: bool
    scale: int = 1
    called: Mapping[str, str] = field(default_factory=dict)

    def real(self, name: str) -> str:
        """What a link, an arc or a place is called in its table."""
        return self.called.get(name, name)

    def told_cost(self, cost: Weight | int) -> str:
        """A cost in the unit of the table."""
        if self.scale == 1:
            return str(cost)
        return str(number_of(Fraction(pair_of(cost)[0], self.scale)))

    @property
    def what(self) -> str:
        """What its arcs are called."""
        return "link" if self.is_both_ways else "arc"

    def lines(self, form: str, elements: Iterable[Arc]) -> list[str]:
        """The first lines of a description of some arcs."""
        if not self.has_names:
            return ["matroids 1", form]
        return ["matroids 2", form, " ".join(["elements", *(it.name for it in elements)])]

    def place(self, number: int) -> str:
        """A place in a description with vertices."""
        return self.places[number] if self.has_names else str(number)


class Supply(NamedTuple):
    """The arcs of a supply, those of links in the direction in which it uses them."""

    arcs: tuple[Arc, ...]


@dataclass(frozen=True)
class Supplies:
    """Supplies that share nothing and cost least together, None if there are none; and the texts
    and certificates that show it, by their names."""

    supplies: tuple[Supply, ...] | None
    cost: Weight | int
    files: dict[str, str]


def _links(arcs: Sequence[Arc]) -> tuple[Arc, ...] | None:
    """The links of which these arcs are both directions, or None if none of them is one. Raises
    InputFault if only some are."""
    names = {it.name: it for it in arcs}
    found, pairs = [], set()
    for it in arcs:
        link = it.name[:-len(THERE)]
        back = names.get(link + BACK) if it.name.endswith(THERE) and link else None
        if back and (back.tail, back.head, back.cost) == (it.head, it.tail, it.cost):
            found.append(it._replace(name=link))
            pairs |= {it.name, back.name}
    others = [it.name for it in arcs if it.name not in pairs]
    if found and others:
        raise InputFault(f"{found[0].name} is a link with both directions of one cost, and"
                         f" {others[0]} is not: --both-ways takes each direction as an arc of its"
                         " own")
    return tuple(found) or None


def network_of(problem: Problem, is_each_arc: bool = False) -> Network:
    """The network of a description. With `is_each_arc` both directions of a link are arcs of their
    own. Raises InputFault if it has another form."""
    described, lines = canonical_lines(problem, "rooted V E R")
    _, count, _, root = lines[1].split()
    words = [line.split()[1:] for line in lines[2:-1]]
    names = [str(it) for it in described.elements or range(len(words))]
    places = tuple(str(it) for it in described.vertices or range(int(count)))
    arcs = tuple(Arc(name, int(tail), int(head), read_weight(cost))
                 for name, (tail, head, cost) in zip(names, words))
    links = None if is_each_arc or described.elements is None else _links(arcs)
    return Network(places, int(root), links or arcs, bool(links), described.elements is not None)


def network_of_table(source: Source, root: str, is_each_arc: bool = False) -> Network:
    """The network of a table of links. Raises InputFault."""
    table, (text, _) = read_links(source), description_of_links(source, root)
    called = {name: real for real, name in [*table.links.items(), *table.places.items()]}
    called.update({f"{name}{way}": f"{real}{way}" for real, name in table.links.items()
                   for way in (THERE, BACK)})
    found = network_of(text, is_each_arc)
    return dataclasses.replace(found, scale=table.scale, called=called)


def _is_table(path: str) -> bool:
    """Whether a file is a table of links."""
    try:
        return {"from", "to"} <= set(read_sheet(path).heads)
    except InputFault:
        return False


def given_network(path: str, root: str | None, is_each_arc: bool) -> Network:
    """The network of a file. Raises InputFault."""
    if _is_table(path):
        if root is None:
            raise InputFault(f"{path} is a table of links: name the place from which all are to be"
                             " reached behind it")
        return network_of_table(path, root, is_each_arc)
    if root is not None:
        raise InputFault(f"{path} is no table with the columns link, from and to: a description"
                         " names its root itself")
    return network_of(Path(path), is_each_arc)


def description_of_supplies(network: Network, number: int) -> str:
    """The description of which the rung of `number` times all places but one has the cheapest
    supplies."""
    arcs, count = network.arcs, len(network.arcs)
    lines = network.lines(f"list {count} 1" if network.is_both_ways else f"pair {count}", arcs)
    lines.append(" ".join(["weights", *(str(-it.cost) for it in arcs)]))
    forest = [f"graphic {len(network.places)}", *(f"edge {it.tail} {it.head}" for it in arcs)]
    lines += [f"union {number}", *forest * number]
    if not network.is_both_ways:
        lines.append(f"partition {len(network.places)}")
        names = [it.name if network.has_names else str(at) for at, it in enumerate(arcs)]
        for place in range(len(network.places)):
            into = [name for name, it in zip(names, arcs) if it.head == place]
            lines.append(" ".join(["class", str(number if place != network.root else 0), *into]))
    return "\n".join([*lines, "end", ""])


def _right(text: str, answer: Answer) -> str:
    """The certificate of an answer, which is checked."""
    if not check(text, answer):
        raise InputFault("the answer is not right: this is a fault of the program")
    return answer.certificate


def _split_text(network: Network, chosen: Sequence[Arc]) -> str:
    """The description of chosen arcs, for `disjoint`, or of chosen links, for `trees`."""
    counts = f"{len(network.places)} {len(chosen)}"
    root = "" if network.has_names else f" {network.root}"
    form = f"graph {counts}" if network.is_both_ways else f"rooted {counts}{root}"
    lines = network.lines(form, chosen)
    if network.has_names:
        lines.append(" ".join(["vertices", *network.places]))
        lines += [] if network.is_both_ways else [f"root {network.places[network.root]}"]
    word, cost = ("edge", "") if network.is_both_ways else ("arc", " 0")
    lines += [f"{word} {network.place(it.tail)} {network.place(it.head)}{cost}" for it in chosen]
    return "\n".join([*lines, "end", ""])


def text_of_arcs(network: Network) -> str:
    """The description of a network of arcs, for `disjoint`."""
    return _split_text(network, network.arcs)


def link_names(network: Network) -> dict[str, str]:
    """The link of which each arc is a direction, by their names, or the arc itself."""
    arcs = {it.name: it for it in network.arcs}
    found = {it: it for it in arcs}
    for it in network.arcs:
        link = it.name[:-len(THERE)]
        back = arcs.get(link + BACK) if it.name.endswith(THERE) and link else None
        if back and (back.tail, back.head) == (it.head, it.tail):
            found[it.name] = found[back.name] = link
    return found


def _directed(network: Network, links: Iterable[Arc]) -> tuple[Arc, ...]:
    """The links of a tree, each away from the root, in the order in which they are reached."""
    ends: dict[int, list[Arc]] = collections.defaultdict(list)
    for it in links:
        ends[it.tail].append(it)
        ends[it.head].append(it._replace(tail=it.head, head=it.tail))
    reached, found = {network.root}, []
    todo = [network.root]
    for place in todo:
        for it in ends[place]:
            if it.head not in reached:
                reached.add(it.head)
                todo.append(it.head)
                found.append(it)
    return tuple(found)


def cheapest_supplies(network: Network, number: int = 2) -> Supplies:
    """The cheapest supplies, from 1 to 64, that share no arc, or no link."""
    if not 1 <= number <= MOST_MATROIDS:
        raise InputFault(f"the number of supplies is from 1 to {MOST_MATROIDS}, and not {number}")
    text = description_of_supplies(network, number)
    answer = best(text) if network.is_both_ways else intersect(text)
    files = {"supplies.txt": text, "supplies.answer": _right(text, answer)}
    size = number * (len(network.places) - 1)
    if size >= len(answer.rungs):
        return Supplies(None, 0, files)
    names = {it.name if network.has_names else at: it for at, it in enumerate(network.arcs)}
    chosen = [names[it] for it in answer.rungs[size].members]
    split = _split_text(network, chosen)
    parts: Trees | DisjointArborescences = trees(split, number) if network.is_both_ways else \
        disjoint(split, number)
    files.update({"split.txt": split, "split.answer": _right(split, parts)})
    by = {it.name if network.has_names else at: it for at, it in enumerate(chosen)}
    found = [tuple(by[it] for it in tree) for tree in parts.trees or ()]
    cost = [sum(pair_of(it.cost)[half] for it in chosen) for half in (0, 1)]
    supplies = tuple(Supply(_directed(network, it)) for it in found)
    return Supplies(supplies, weight_of(*cost), files)


def _table(network: Network, found: Supplies) -> Table:
    """A row for each arc of each supply."""
    return Table(("supply", network.what, "from", "to", "cost"), [
        (number, network.real(it.name), network.real(network.places[it.tail]),
         network.real(network.places[it.head]), network.told_cost(it.cost))
        for number, supply in enumerate(found.supplies or (), 1) for it in supply.arcs])


def _write_proof(network: Network, number: int, found: Supplies, folder: str) -> None:
    """Writes what shows that the supplies cost least."""
    things = network.what + "s"
    is_some = found.supplies is not None
    how = HOW.format(size=number * (len(network.places) - 1), things=things, number=number,
                     entered="" if network.is_both_ways else
                     f", and of which at most {number} enter each place, and none the root",
                     split=SPLIT.format(things=things, number=number) if is_some else
                     "\nThere is no such rung: so there are no such supplies.\n")
    write_folder(folder, {**found.files, "proof.txt": how}, "split.*")


def _text(network: Network, number: int, found: Supplies) -> str:
    """The supplies for people."""
    root = network.real(network.places[network.root])
    return (f"BEST: {number} supplies of all {len(network.places)} places from {root}, cost"
            f" {network.told_cost(found.cost)} together. They share no {network.what}.\n\n"
            + _table(network, found).text())


def main(words: Sequence[str]) -> int:
    """Runs the command."""
    parser = parser_of("supplies", ABOUT, EXAMPLES)
    parser.add_argument("network", metavar="NETWORK")
    parser.add_argument("root", metavar="ROOT", nargs="?", help="the root, of a table of links")
    parser.add_argument("--number", type=int, default=2, metavar="K", help="how many supplies (2)")
    parser.add_argument("--both-ways", action="store_true",
                        help="a link may be in two supplies, in opposite directions")
    parser.add_argument("--description", action="store_true",
                        help="write the description that is solved, and do not solve it")
    parser.add_argument("--proof", metavar="FOLDER", help="write the certificates into this folder")
    parser.add_argument("--format", choices=FORMS, default="table", help="how it is printed")
    given = parser.parse_args(list(words))
    network, number = given_network(given.network, given.root, given.both_ways), given.number
    if given.description:
        write(description_of_supplies(network, number))
        return DONE
    found = cheapest_supplies(network, number)
    if given.proof:
        _write_proof(network, number, found, given.proof)
    if found.supplies is None:
        hint = " With --both-ways a link may be in two of them, in opposite directions." \
            if network.is_both_ways else ""
        write(f"NONE: there are no {number} supplies that share no {network.what}.{hint}\n")
        return NOT_SO
    if given.format == "json":
        write(json_of({"cost": network.told_cost(found.cost),
                       "arcs": _table(network, found).records()}))
    else:
        write(_table(network, found).csv() if given.format == "csv" else
              _text(network, number, found))
    return DONE
