"""python3 -m matbench links: a network from a table, with each link in both directions."""
from __future__ import annotations

import collections
import sys
from fractions import Fraction
from typing import TYPE_CHECKING, NamedTuple

from matbench.command_lines import DONE, parser_of, write
from matbench.descriptions import MOST
from matbench.faults import InputFault
from matbench.roster.names import short_names
from matbench.spreadsheets import numbers_of, read_sheet, scale_of

if TYPE_CHECKING:
    from collections.abc import Sequence

    from matbench.spreadsheets import Row, Sheet, Source

ABOUT = """\
Writes the description of a network in which each link goes in both directions, for
`matbench disjoint`, `matbench arborescence` and `matbench cuts`.

LINKS is a table with the columns link, from and to, and a line for each link. It may have the
column cost, a number from 0, which is that of both directions; without it each cost is 0. If costs
have decimals, all are multiplied so that they are whole, and a note says by what. ROOT is one of
the places. The link ferry becomes the arcs ferry.there and ferry.back. Names get _
for a space, and where they are not of ASCII or too long a letter and a number; a note says which.
`python3 -m matbench supplies` finds the cheapest two supplies of such a table, and `failures` how
many links may fail.
"""
EXAMPLES = """\
example:
  python3 -m matbench links examples/islands.csv Ash > islands.txt
  matbench disjoint 2 islands.txt | python3 -m matbench names islands.txt
"""
#: The signs that the name of a link and of a place may have: .there goes behind that of a link.
MOST_OF_LINK, MOST_OF_PLACE = 26, 32


def _missing(sheet: Sheet, row: Row, column: str) -> InputFault:
    """The fault of a line without a cell."""
    cells, heads = len(row.cells), len(sheet.heads)
    short = f": the line has {cells} cells, and the first line {heads}" if cells < heads else ""
    return row.fault(f"there is no {column}{short}")


class Link(NamedTuple):
    """A link: its name, the two places, and the cost."""

    name: str
    one: str
    other: str
    cost: Fraction


class LinkTable(NamedTuple):
    """The links of a table, what costs are multiplied by so that they are whole, and the names that
    links and places have in a description."""

    rows: list[Link]
    scale: int
    links: dict[str, str]
    places: dict[str, str]


def _costs(sheet: Sheet) -> list[Fraction]:
    """The costs of links. Raises InputFault for one below 0."""
    if "cost" not in sheet.heads:
        return [Fraction(0)] * len(sheet.rows)
    for row in sheet.rows:
        if not row["cost"]:
            raise _missing(sheet, row, "cost")
    found = numbers_of(sheet.rows, "cost")
    for row, cost in zip(sheet.rows, found):
        if cost < 0:
            raise row.fault("a cost is from 0")
    if any(it * scale_of(found) > 10 ** 12 for it in found):
        raise InputFault(f"{sheet.name}: the costs are too large: measure them in a larger unit")
    return found


def read_links(source: Source) -> LinkTable:
    """The links of a table. Raises InputFault."""
    rows = _rows(source)
    places = list(dict.fromkeys(it for row in rows for it in row[1:3]))
    return LinkTable(rows, scale_of(it.cost for it in rows),
                     short_names((row.name for row in rows), "l", MOST_OF_LINK),
                     short_names(places, "v", MOST_OF_PLACE))


def _rows(source: Source) -> list[Link]:
    """The lines of a table."""
    sheet = read_sheet(source, "the links")
    sheet.hold_to(("link", "from", "to"), ("cost",))
    for row in sheet.rows:
        for column in ("link", "from", "to"):
            if not row[column]:
                raise _missing(sheet, row, column)
    found = [Link(row["link"], row["from"], row["to"], cost)
             for row, cost in zip(sheet.rows, _costs(sheet))]
    for name, count in collections.Counter(it.name for it in found).items():
        if count > 1:
            raise InputFault(f"{sheet.name}: the link {name} stands twice")
    if len(found) > MOST // 2:
        raise InputFault(f"{sheet.name}: {len(found)} links are more than {MOST // 2} (each is two"
                         " arcs)")
    return found


def description_of_links(source: Source, root: str) -> tuple[str, list[str]]:
    """The description of a table of links, and notes on names that are others there. Raises
    InputFault."""
    table = read_links(source)
    rows, scale, links, named = table
    if root not in named:
        raise InputFault(f"{root}: no link leads to this place; the places are"
                         f" {', '.join(named)[:300]}")
    lines = ["matroids 2", f"rooted {len(named)} {2 * len(rows)}",
             " ".join(["elements", *(f"{links[it.name]}.{way}" for it in rows
                                     for way in ("there", "back"))]),
             " ".join(["vertices", *named.values()]), f"root {named[root]}"]
    for it in rows:
        one, other, cost = named[it.one], named[it.other], int(it.cost * scale)
        lines += [f"arc {one} {other} {cost}", f"arc {other} {one} {cost}"]
    notes = [f"{real} is {name}" for real, name in [*links.items(), *named.items()]
             if real.replace(" ", "_") != name]
    if scale > 1:
        notes.append(f"some costs have decimals: all are multiplied by {scale:,}")
    return "\n".join([*lines, "end", ""]), notes


def main(given: Sequence[str]) -> int:
    """Runs the command, and answers its exit status."""
    parser = parser_of("links", ABOUT, EXAMPLES)
    parser.add_argument("links", metavar="LINKS")
    parser.add_argument("root", metavar="ROOT")
    options = parser.parse_args(given)
    text, notes = description_of_links(options.links, options.root)
    for note in notes:
        print(f"matbench links: {note}", file=sys.stderr)
    write(text)
    return DONE

