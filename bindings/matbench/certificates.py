"""Certificates as answers: the texts that the program writes are read into dataclasses."""
from __future__ import annotations

import re
from collections.abc import Callable
from typing import Any

from matbench.answers import (Answer, Arborescence, Covering, DisjointArborescences, Ladder, Level,
                              Packing, Price, PricedArborescence, Rung, Trees, Union)
from matbench.descriptions import (MOST_OF_CERTIFICATE, Description, Problem, Text, bytes_of,
                                   labels_of)
from matbench.weights import Weight, read_weight, read_weights


class Lines:
    """The lines of a certificate between its header and its end, by their first words."""

    def __init__(self, certificate: str, problem: Description):
        self.certificate, self.problem = certificate, problem
        _, header, *lines = certificate.split("\n")[:-2]
        self.header = header.split(" ")[2:]
        self.lines = [line.split(" ") for line in lines]

    def all(self, word: str) -> list[list[str]]:
        """What stands behind the word in each line that begins with it."""
        return [line[1:] for line in self.lines if line[0] == word]

    def elements(self, word: str) -> tuple[tuple[Any, ...], ...]:
        """The elements of each line that begins with the word."""
        return tuple(labels_of(self.problem.elements, rest) for rest in self.all(word))

    def vertices(self, word: str) -> tuple[tuple[Any, ...], ...]:
        """The vertices of each line that begins with the word."""
        return tuple(labels_of(self.problem.vertices, rest) for rest in self.all(word))

    def cut(self) -> tuple[Any, ...] | None:
        """The elements of the line cut, or None where there is no such line."""
        return next(iter(self.elements("cut")), None)

    def split(self, word: str) -> list[tuple[Weight | int, ...]]:
        """The weights of each line that begins with the word."""
        return [read_weights(rest) for rest in self.all(word)]


def read_ladder(text: Lines) -> Ladder:
    """The answer of intersect, best, rainbow or assign."""
    firsts, seconds = text.split("first"), text.split("second")
    rungs = []
    for size, ((_, weight), members) in enumerate(zip(text.all("rung"), text.elements("set"))):
        halves = (firsts[size], seconds[size]) if firsts else ((), ())
        rungs.append(Rung(size, read_weight(weight), members, *halves))
    colours = [labels_of(text.problem.colours, rest) for rest in text.all("colours")]
    return Ladder(text.certificate, text.problem, tuple(rungs), text.cut(),
                  colours[0] if colours else None)


def read_union(text: Lines) -> Union:
    """The answer of union."""
    levels = tuple(Level(read_weight(weight), labels_of(text.problem.elements, cut))
                   for weight, *cut in text.all("level"))
    return Union(text.certificate, text.problem, read_weight(text.header[3]),
                 text.elements("part"), levels)


def read_packing(text: Lines) -> Packing:
    """The answer of pack."""
    bases = None if text.header[1] == "any" else text.elements("base")
    return Packing(text.certificate, text.problem, bases, text.cut())


def read_covering(text: Lines) -> Covering:
    """The answer of cover."""
    if text.header[1] == "never":
        uncovered = labels_of(text.problem.elements, text.header[2:])
        return Covering(text.certificate, text.problem, None, None, uncovered)
    return Covering(text.certificate, text.problem, text.elements("part"), text.cut(), ())


def read_trees(text: Lines) -> Trees:
    """The answer of trees."""
    if "none" in text.header:
        return Trees(text.certificate, text.problem, None, text.vertices("class"))
    return Trees(text.certificate, text.problem, text.elements("tree"), None)


def read_arborescence(text: Lines) -> Arborescence:
    """The answer of arborescence."""
    if text.header[1] == "unreached":
        unreached = text.vertices("vertices")[0]
        return Arborescence(text.certificate, text.problem, None, None, None, None, unreached)
    halves = text.split("first")[0], text.split("second")[0]
    cost, arcs = read_weight(text.header[2]), text.elements("set")[0]
    return Arborescence(text.certificate, text.problem, cost, arcs, *halves, None)


def read_disjoint(text: Lines) -> DisjointArborescences:
    """The answer of disjoint."""
    if "none" in text.header:
        entered = text.vertices("vertices")[0]
        return DisjointArborescences(text.certificate, text.problem, None, entered)
    return DisjointArborescences(text.certificate, text.problem, text.elements("tree"), None)


def read_priced(text: Lines) -> PricedArborescence:
    """The answer of cuts."""
    if text.header[1] == "unreached":
        unreached = text.vertices("vertices")[0]
        return PricedArborescence(text.certificate, text.problem, None, None, None, unreached)
    prices = tuple(Price(int(price), labels_of(text.problem.vertices, vertices))
                   for price, *vertices in text.all("cut"))
    return PricedArborescence(text.certificate, text.problem, int(text.header[1]),
                              text.elements("set")[0], prices, None)


_READERS: dict[str, Callable[[Lines], Answer]] = {
    "intersect": read_ladder, "best": read_ladder, "rainbow": read_ladder, "assign": read_ladder,
    "union": read_union, "pack": read_packing, "cover": read_covering, "trees": read_trees,
    "arborescence": read_arborescence, "disjoint": read_disjoint, "cuts": read_priced}


def read_answer(problem: Problem, certificate: Text) -> Answer:
    """The answer that a certificate is, which the program printed for this problem or for which
    check is true."""
    text = bytes_of(certificate, MOST_OF_CERTIFICATE).decode("ascii")
    found = re.match("certificate 1\nanswer ([a-z]+) ", text)
    if not found or found[1] not in _READERS:
        raise ValueError("this is no certificate: its second line has to be answer, a command, and"
                         " more")
    return _READERS[found[1]](Lines(text, Description.of(problem)))
