"""How many links of a network may fail, and python3 -m matbench failures.

All places stay joined whichever K links fail exactly if K + 1 sets of arcs that share none reach
all of them from the root (Edmonds). So `disjoint` is asked for 1, 2, 3 and so on, until it says no;
its answer then names places that few links lead to.
"""
from __future__ import annotations

from typing import TYPE_CHECKING, NamedTuple

from matbench.command_lines import DONE, NOT_SO, parser_of, write
from matbench.commands import check, disjoint
from matbench.descriptions import MOST_MATROIDS
from matbench.faults import InputFault
from matbench.supplies import given_network, link_names, text_of_arcs
from matbench.tables import json_of
from matbench.texts import write_folder

if TYPE_CHECKING:
    from collections.abc import Sequence

    from matbench.supplies import Network

ABOUT = """\
How many links of a network may fail: all places stay reached from the root whichever so many links
fail, and which one more would cut some off.

NETWORK is a table of links, with the columns link, from and to, and ROOT one of its places; or a
description of the form `rooted`. Where its arcs are both directions of links, X.there and X.back,
as of a table, links fail; else arcs, which are one-way.

How it is proved: one more set of arcs than may fail, which share none and along each of which the
root reaches all places, and places into which no more arcs lead. --proof writes both, with their
certificates."""
EXAMPLES = """\
examples:
  python3 -m matbench failures examples/islands.csv Ash
  python3 -m matbench failures roads.txt --proof FOLDER

The status is 0 if any one may fail, 1 if not, and 2 where what was given is not taken."""


HOW = """How this proof is checked

{yes}`matbench check network.txt no.answer` prints yes: no.answer says that there are no {more} such
sets, and its line `vertices` names places, by their numbers, into which no more than {cut} arcs
lead.
"""
YES = """`matbench check network.txt yes.answer` prints yes: yes.answer has {sets} sets of arcs that
share none, along each of which the root reaches all places; so {most} may fail.

"""


class Failures(NamedTuple):
    """So many links may fail, -1 if some places are not reached as it is, or None if as many may as
    can be asked for. If all of `cut` fail, of which there is one more, `places` are cut off.
    `files` shows it."""

    most: int | None
    cut: tuple[str, ...]
    places: tuple[str, ...]
    files: dict[str, str]


def _cut(network: Network, inside: frozenset[str]) -> tuple[str, ...]:
    """The links, or arcs, that lead into these places."""
    at = {place for place, name in enumerate(network.places) if name in inside}
    links = link_names(network)
    return tuple(dict.fromkeys(network.real(links[it.name]) for it in network.arcs
                               if it.head in at and it.tail not in at))


def failures_of(network: Network) -> Failures:
    """How many links of a network, each direction of which is an arc of it, may fail."""
    text = text_of_arcs(network)
    files: dict[str, str] = {}
    for number in range(1, MOST_MATROIDS + 1):
        answer = disjoint(text, number)
        if not check(text, answer):
            raise InputFault("the answer is not right: this is a fault of the program")
        if answer.trees is None:
            files = {**files, "network.txt": text, "no.answer": answer.certificate}
            inside = frozenset(map(str, answer.entered or ()))
            places = [network.real(it) for it in network.places if it in inside]
            return Failures(number - 2, _cut(network, inside), tuple(places), files)
        files = {"yes.answer": answer.certificate}
    return Failures(None, (), (), {**files, "network.txt": text})


def _counted(count: int, what: str) -> str:
    return f"{count} {what}{'' if count == 1 else 's'}"


def _text(network: Network, found: Failures) -> str:
    """What is known, for people."""
    root, links = network.real(network.places[network.root]), link_names(network)
    what = "link" if any(name != link for name, link in links.items()) else "arc"
    if found.most is None:
        return f"STANDS the failure of any {_counted(MOST_MATROIDS - 1, what)}, if not more.\n"
    places = ", ".join(found.places)
    if found.most < 0:
        return f"NOT JOINED: {root} does not reach {places} as it is.\n"
    cut = f"{_counted(len(found.cut), what)} cut off {places}: {', '.join(found.cut)}.\n"
    if not found.most:
        return f"STANDS no failure: {found.cut[0]} alone cuts off {places}.\n"
    return (f"STANDS the failure of any {_counted(found.most, what)}: {root} still reaches all"
            f" {len(network.places)} places.\nThese {cut}")


def _write_proof(found: Failures, folder: str) -> None:
    """Writes what shows how many may fail."""
    most = MOST_MATROIDS - 1 if found.most is None else found.most
    yes = YES.format(sets=most + 1, most=most) if "yes.answer" in found.files else ""
    how = HOW.format(yes=yes, more=most + 2, cut=len(found.cut)) if found.most is not None else yes
    write_folder(folder, {**found.files, "proof.txt": how}, "*.answer")


def main(words: Sequence[str]) -> int:
    """Runs the command."""
    parser = parser_of("failures", ABOUT, EXAMPLES)
    parser.add_argument("network", metavar="NETWORK")
    parser.add_argument("root", metavar="ROOT", nargs="?", help="the root, of a table of links")
    parser.add_argument("--proof", metavar="FOLDER", help="write the certificates into this folder")
    parser.add_argument("--format", choices=("table", "json"), default="table",
                        help="how it is printed")
    given = parser.parse_args(list(words))
    network = given_network(given.network, given.root, True)
    found = failures_of(network)
    if given.proof:
        _write_proof(found, given.proof)
    if given.format == "json":
        write(json_of({"stands": found.most, "cut": list(found.cut), "places": list(found.places)}))
    else:
        write(_text(network, found))
    return DONE if found.most is None or found.most > 0 else NOT_SO
