"""What elements are called to people, and what they gain in their numbers, by the table
elements.csv that stands beside a description.

element   an element of the description
name      what it is called, in any script
gain      what it gains, with decimals
needed    how much of what is needed it is: a whole number from 0

`python3 -m matbench roster --proof FOLDER` writes it. A table is taken only if it has each element
of the description, with a name and two numbers. It proves nothing, and is asked for names and
units alone.
"""
from __future__ import annotations

import os
import re
from dataclasses import dataclass
from fractions import Fraction
from pathlib import Path
from typing import TYPE_CHECKING

from matbench.faults import InputFault
from matbench.spreadsheets import read_sheet
from matbench.weights import pair_of

if TYPE_CHECKING:
    from collections.abc import Collection, Iterable, Mapping, Sequence

    from matbench.texts import PathLike
    from matbench.weights import Weight

#: The name of the table, and its columns.
TABLE, COLUMNS = "elements.csv", ("element", "name", "gain", "needed")
_GAIN, _NEEDED = re.compile(r"-?[0-9]{1,30}(\.[0-9]{1,30})?"), re.compile("[0-9]{1,9}")


def number_of(value: Fraction) -> int | float:
    """A number as tables and JSON have it."""
    return int(value) if value.denominator == 1 else float(value)


@dataclass(frozen=True)
class RealNames:
    """Of each element what it is called, what it gains, and how much of what is needed it is.
    `unit` is what a gain of 1 weighs, or None where weights are not just gains in units."""

    names: tuple[str, ...]
    gains: tuple[Fraction, ...]
    needed: tuple[int, ...]
    unit: Fraction | None

    @property
    def has_needs(self) -> bool:
        """Whether something is needed."""
        return any(self.needed)

    def gain_of(self, members: Collection[int]) -> Fraction:
        """What these elements gain."""
        return sum((self.gains[it] for it in members), Fraction(0))

    def needed_of(self, members: Collection[int]) -> int:
        """How much of what is needed these elements are."""
        return sum(self.needed[it] for it in members)

    def parts_of(self, weight: Weight | int) -> tuple[int, int | float] | None:
        """How much of what is needed a weight is, and its gain; None where there is no unit."""
        if self.unit is None:
            return None
        front, behind = pair_of(weight)
        return (front, number_of(behind / self.unit)) if self.has_needs else \
            (0, number_of(front / self.unit))

    def spelled(self, weight: Weight | int) -> str:
        """A weight in the numbers of the tables where it has a unit, and else as it is."""
        parts = self.parts_of(weight)
        if parts is None:
            return str(weight)
        return f"{parts[1]} with {parts[0]} of what is needed" if self.has_needs else str(parts[1])


def _rows(path: Path) -> dict[str, tuple[str, Fraction, int]]:
    """The name, the gain and what is needed, by elements, of the lines that have all four."""
    try:
        rows = read_sheet(path).rows if path.is_file() else []
    except InputFault:
        return {}
    return {row["element"]: (row["name"], Fraction(row["gain"]), int(row["needed"]))
            for row in rows if row["name"] and _GAIN.fullmatch(row["gain"])
            and _NEEDED.fullmatch(row["needed"])}


def _unit(weights: Sequence[tuple[int, int]], gains: Sequence[Fraction],
          needed: Sequence[int]) -> Fraction | None:
    """What a gain of 1 weighs: behind the colon if something is needed, and in front else."""
    has_needs = any(needed)
    own = [tie if has_needs else front for front, tie in weights]
    rest = [front - need if has_needs else tie for (front, tie), need in zip(weights, needed)]
    unit = next((weight / gain for weight, gain in zip(own, gains) if gain), Fraction(1))
    is_exact = not any(rest) and all(weight == gain * unit for weight, gain in zip(own, gains))
    return unit if is_exact and unit > 0 else None


def names_beside(parts: Iterable[tuple[PathLike, Sequence[str]]],
                 weights: Sequence[tuple[int, int]]) -> RealNames | None:
    """What the elements of descriptions are called by the tables beside these, or None where one
    has none that fits. `parts` has the path and the elements of each, `weights` those of all."""
    found: list[tuple[str, Fraction, int]] = []
    for path, elements in parts:
        rows = _rows(Path(path).parent / TABLE)
        if not all(name in rows for name in elements):
            return None
        found += [rows[name] for name in elements]
    gains, needed = [it[1] for it in found], [it[2] for it in found]
    return RealNames(tuple(it[0] for it in found), tuple(gains), tuple(needed),
                     _unit(weights, gains, needed))


def names_of_problem(problem: object, elements: Sequence[str],
                     weights: Sequence[Weight | int]) -> RealNames | None:
    """What the elements of a problem are called by the table beside it, if it is a file."""
    if not isinstance(problem, os.PathLike):
        return None
    return names_beside([(problem, elements)], list(map(pair_of, weights)))


@dataclass(frozen=True)
class Shown:
    """How elements and weights are shown: by what is known of them, or as the description has them
    where nothing is. `called` has the real names by those of elements and of wishes."""

    real: RealNames | None
    called: Mapping[str, str]

    def name(self, element: str) -> str:
        """What an element, or a wish, is called."""
        return self.called.get(element, element)

    def names(self, elements: Iterable[str]) -> str:
        """What elements are called, each once, in a line."""
        found = dict.fromkeys(map(self.name, elements))
        return ("; " if self.real else " ").join(found)

    def weight(self, weight: Weight | int) -> str:
        """A weight as it is shown."""
        return self.real.spelled(weight) if self.real else str(weight)

    def worth(self, weight: Weight | int) -> str:
        """A weight, and what it is called."""
        has_unit = self.real is not None and self.real.unit is not None
        return f"{'gain' if has_unit else 'weight'} {self.weight(weight)}"

    def cell(self, weight: Weight | int) -> int | float | str:
        """A weight in a table."""
        parts = self.real.parts_of(weight) if self.real else None
        if parts is None:
            return weight if isinstance(weight, int) else str(weight)
        return f"{parts[0]} of what is needed, {parts[1]}" if parts[0] else parts[1]
