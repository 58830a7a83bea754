"""What the commands answer. Each answer has its certificate, and can be told and drawn."""
from __future__ import annotations

import dataclasses
from dataclasses import dataclass
from typing import Any

from matbench.descriptions import Description
from matbench.showing import shown
from matbench.weights import Weight, pair_of


@dataclass(frozen=True)
class Answer:
    """An answer. `certificate` is its text as the program writes it, `problem` what it is an answer
    to. A notebook shows its picture."""

    certificate: str = dataclasses.field(repr=False)
    problem: Description = dataclasses.field(repr=False, compare=False)

    def _files(self) -> dict[str, bytes]:
        return {"f": self.problem.text, "c": self.certificate.encode()}

    def told(self, timeout: float | None = None) -> str:
        """The answer in words, as the function tell has it."""
        return shown("--tell", self._files(), timeout)

    def picture(self, timeout: float | None = None) -> str:
        """The answer as an SVG, as the function picture has it."""
        return shown("--picture", self._files(), timeout)

    def _repr_svg_(self) -> str | None:
        """What a notebook shows: the picture."""
        return self.picture()


@dataclass(frozen=True)
class Rung:
    """A heaviest allowed set of `size` elements, the `members`. `first` and `second` have a weight
    for each of the N elements of the problem, in their order, which add up to the given ones and
    show that the set is heaviest; they are empty in answers of best."""

    size: int
    weight: Weight | int
    members: tuple[Any, ...]
    first: tuple[Weight | int, ...] = dataclasses.field(default=(), repr=False)
    second: tuple[Weight | int, ...] = dataclasses.field(default=(), repr=False)


@dataclass(frozen=True)
class Ladder(Answer):
    """The answer of intersect, best, rainbow or assign: of K + 1 rungs rungs[k] is a heaviest set
    of k elements, and K the largest size. The elements of `cut` show that none is larger (None in
    answers of best). `colours` show that there is no rainbow spanning tree (None where there is
    one, and in other answers)."""

    rungs: tuple[Rung, ...]
    cut: tuple[Any, ...] | None
    colours: tuple[Any, ...] | None

    @property
    def best(self) -> Rung:
        """The rung of the greatest weight; of several the largest."""
        return max(self.rungs, key=lambda rung: (pair_of(rung.weight), rung.size))


@dataclass(frozen=True)
class Level:
    """The elements of a cut for those that weigh at least `weight`."""

    weight: Weight | int
    cut: tuple[Any, ...]


@dataclass(frozen=True)
class Union(Answer):
    """The answer of union: of M parts parts[i] is allowed by matroid i of M, no two share an
    element, and all of them weigh `weight`. There is a level for each different weight of an
    element, from the greatest on."""

    weight: Weight | int
    parts: tuple[tuple[Any, ...], ...]
    levels: tuple[Level, ...]


@dataclass(frozen=True)
class Packing(Answer):
    """The answer of pack: as many disjoint bases as there are, and the cut that shows it. Both are
    None where no element is allowed, so that every number of bases is there, all empty."""

    bases: tuple[tuple[Any, ...], ...] | None
    cut: tuple[Any, ...] | None


@dataclass(frozen=True)
class Covering(Answer):
    """The answer of cover: as few allowed sets as hold all elements, and the cut that shows it
    (None where no set is needed); or `uncovered`, in a tuple of one, an element that is in no
    allowed set, and then `parts` is None."""

    parts: tuple[tuple[Any, ...], ...] | None
    cut: tuple[Any, ...] | None
    uncovered: tuple[Any, ...]


@dataclass(frozen=True)
class Trees(Answer):
    """The answer of trees: as many spanning trees as were asked for, which share no edge, each of
    V - 1 edges; or classes of the V vertices, between which there are too few edges. The other of
    the two is None."""

    trees: tuple[tuple[Any, ...], ...] | None
    classes: tuple[tuple[Any, ...], ...] | None


@dataclass(frozen=True)
class Arborescence(Answer):
    """The answer of arborescence: V - 1 arcs of least cost along which the root reaches every
    vertex, and two weights for each of the N arcs of the problem, which add up to its negated cost
    and show it; or `unreached`, vertices that no arc enters, and then all else is None."""

    cost: Weight | int | None
    arcs: tuple[Any, ...] | None
    first: tuple[Weight | int, ...] | None = dataclasses.field(repr=False)
    second: tuple[Weight | int, ...] | None = dataclasses.field(repr=False)
    unreached: tuple[Any, ...] | None


@dataclass(frozen=True)
class DisjointArborescences(Answer):
    """The answer of disjoint: sets of arcs that share none, along each of which the root reaches
    every vertex; or `entered`, vertices that too few arcs enter. The other of the two is None."""

    trees: tuple[tuple[Any, ...], ...] | None
    entered: tuple[Any, ...] | None


@dataclass(frozen=True)
class Price:
    """A price of these vertices: every set of arcs along which the root reaches all has one that
    enters them."""

    price: int
    vertices: tuple[Any, ...]


@dataclass(frozen=True)
class PricedArborescence(Answer):
    """The answer of cuts: arcs of least cost along which the root reaches every vertex, and prices
    that add up to it; or `unreached`, vertices that no arc enters, and then all else is None. It
    cannot be checked, told or drawn: that of arborescence can."""

    cost: int | None
    arcs: tuple[Any, ...] | None
    prices: tuple[Price, ...] | None
    unreached: tuple[Any, ...] | None

    def told(self, timeout: float | None = None) -> str:
        """Raises TypeError."""
        raise TypeError("an answer of cuts is not told: that of arborescence for the same problem"
                        " is")

    def picture(self, timeout: float | None = None) -> str:
        """Raises TypeError."""
        raise TypeError("an answer of cuts is not drawn: that of arborescence for the same problem"
                        " is")

    def _repr_svg_(self) -> None:
        return None


@dataclass(frozen=True)
class Verdict:
    """What check or verify says. It is true where the answer is right; otherwise `note` names the
    first clause that fails, with its places, as docs/FORMATS.md has them: "no beaten 4 0"."""

    is_right: bool
    note: str = ""

    def __bool__(self) -> bool:
        return self.is_right
