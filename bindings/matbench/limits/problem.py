"""What further limits join: descriptions, and amounts of their elements that add up."""
from __future__ import annotations

from dataclasses import dataclass
from typing import TYPE_CHECKING

from matbench.faults import InputFault
from matbench.limits.pairs import Pair
from matbench.weights import weight_of
from matbench.writing import MOST_WEIGHT

if TYPE_CHECKING:
    from collections.abc import Collection, Iterable, Mapping, Sequence

    from matbench.descriptions import Problem
    from matbench.weights import Weight


@dataclass(frozen=True)
class Limit:
    """A further limit: of the chosen elements, by their numbers, the amounts add up to at most
    `most`. Both are whole numbers from 0, in units of which `scale` are one of the table's. A limit
    that follows from another one has it as `source`."""

    name: str
    most: int
    amounts: Mapping[int, int]
    scale: int = 1
    source: Limit | None = None

    def used(self, members: Collection[int]) -> int:
        """What these elements add up to."""
        return sum(self.amounts.get(it, 0) for it in members)


class Joined:
    """Descriptions that share nothing but further limits. Its elements are numbered through all of
    them. `gains` are the weights as whole numbers; `base` is 0, or M where a weight A:B became
    A*M + B. Raises InputFault where two elements have one name, or the weights are too large."""

    def __init__(self, problems: Sequence[Problem], names: Sequence[str] | None = None):
        called = names or [f"description {it + 1}" for it in range(len(problems))]
        self.parts = [Pair(*it) for it in zip(problems, called)]
        if len(problems) > 1 and not all(it.is_named for it in self.parts):
            raise InputFault("several descriptions need names for their elements (matroids 2):"
                             " `matbench convert` gives them")
        self.names = [name for part in self.parts for name in part.names]
        self.n = len(self.names)
        self.index = {name: place for place, name in enumerate(self.names)}
        if len(self.index) < self.n:
            twice = next(it for place, it in enumerate(self.names) if self.index[it] != place)
            raise InputFault(f"{twice}: this element stands in two descriptions. Give the wishes a"
                             " column week, with the weeks in one table: `roster` then joins them"
                             " itself; or call elements otherwise in each description, as"
                             f" {twice[:28]}.w2")
        self.starts = [sum(it.n for it in self.parts[:place]) for place in range(len(self.parts))]
        self.gains, self.base = _folded([it for part in self.parts for it in part.weights])

    def inside(self, members: Iterable[int], part: int) -> list[int]:
        """Those of these elements that are in a part, by its own numbers."""
        start = self.starts[part]
        return [it - start for it in sorted(members) if 0 <= it - start < self.parts[part].n]

    def texts(self, charged: Sequence[int], outs: Collection[int] = (),
              ins: Collection[int] = ()) -> list[str]:
        """The descriptions with these weights, without some elements, and where some are given."""
        return [part.text(charged[start:start + part.n], self.inside(outs, place),
                          self.inside(ins, place))
                for place, (part, start) in enumerate(zip(self.parts, self.starts))]

    def gain_of(self, members: Iterable[int]) -> int:
        """The gain of a set, as a whole number."""
        return sum(self.gains[it] for it in members)

    def spelled(self, gain: int) -> Weight | int:
        """A gain as the descriptions have it."""
        if not self.base:
            return gain
        front = (gain + self.base // 2) // self.base
        return weight_of(front, gain - front * self.base)


def _folded(weights: Sequence[tuple[int, int]]) -> tuple[list[int], int]:
    """Weights as whole numbers, and the base M by which A:B is A*M + B."""
    behind = sum(abs(tie) for _, tie in weights)
    if not behind:
        return [gain for gain, _ in weights], 0
    base = 2 * behind + 1
    folded = [gain * base + tie for gain, tie in weights]
    if max(abs(it) for it in folded) * 100 > MOST_WEIGHT:
        raise InputFault("the weights A:B are too large to be one number each: measure them in"
                         " larger units")
    return folded, base
