"""Problems that are made of one: with other weights, without some elements, or with a higher limit.

A problem here is a `pair`, which `intersect` solves, or a `list` of one matroid, which `best`
solves. Its elements are its wishes, and X, X.must, X.may and X.more are one wish X.
"""
from __future__ import annotations

import os
import re
from dataclasses import dataclass
from typing import TYPE_CHECKING, NamedTuple

from matbench.calls import call, done
from matbench.commands import show
from matbench.descriptions import Description
from matbench.faults import InputFault
from matbench.real_names import RealNames, Shown, names_of_problem
from matbench.weights import pair_of, read_weight, weight_of
from matbench.writing import MOST_WEIGHT

if TYPE_CHECKING:
    from collections.abc import Collection, Iterable, Mapping, Sequence

    from matbench.descriptions import Problem
    from matbench.weights import Weight

#: What is behind the name of a wish in those of its copies.
COPIES = (".must", ".may", ".more")
#: The kinds of matroids by the number of matroids that follow within them.
_AROUND = {"dual": 1, "truncate": 1, "restrict": 1, "contract": 1}


def wish_of(name: str) -> str:
    """The wish of which an element is, by their names."""
    return next((name[:-len(it)] for it in COPIES if name.endswith(it) and name != it), name)


class Limit(NamedTuple):
    """A cap of a description: `line` is its place in the canonical text, from 0, `rule` 1 or 2 the
    matroid in which it is, `place` counts the lines of its family. At most `cap` of the elements
    `members` are allowed. It `is_plain` if nothing else bears on them but limits of this kind."""

    line: int
    rule: int
    kind: str
    place: int
    cap: int
    members: tuple[int, ...]
    is_plain: bool


class Rung(NamedTuple):
    """A set of an answer, its weight by the weights of the call, and its two lines of shares."""

    weight: Weight | int
    members: frozenset[int]
    shares: tuple[str, ...]


class Plan(NamedTuple):
    """A set of elements, by their names, and its weight in the problem."""

    size: int
    weight: Weight | int
    members: tuple[str, ...]


class _Reader:
    """Reads the limits of the matroids in canonical lines."""

    def __init__(self, lines: Sequence[str], count: int):
        self.lines, self.count = lines, count
        self.limits: list[Limit] = []

    def matroid(self, at: int, rule: int, is_plain: bool) -> int:
        """Reads the matroid that begins in a line, and tells the line behind it."""
        word, *numbers = self.lines[at].split()
        if word == "union":
            behind = at + 1
            for _ in range(int(numbers[0])):
                behind = self.matroid(behind, rule, False)
            return behind
        if word in ("uniform", "truncate"):
            everything = tuple(range(self.count))
            self.limits.append(Limit(at, rule, word, 0, int(numbers[0]), everything, is_plain))
        if word in _AROUND:
            return self.matroid(at + 1, rule, is_plain and word in ("truncate", "restrict"))
        if word in ("partition", "laminar"):
            self._family(at, int(numbers[0]), rule, is_plain)
        sizes = {"uniform": 0, "graphic": self.count, "gf2": self.count,
                 "gammoid": 2 + int(numbers[1]) if len(numbers) > 1 else 0}
        return at + 1 + sizes.get(word, int(numbers[0]))

    def _family(self, at: int, count: int, rule: int, is_plain: bool) -> None:
        """Reads the lines of a partition or a laminar family."""
        for place in range(count):
            word, cap, *members = self.lines[at + 1 + place].split()
            self.limits.append(Limit(at + 1 + place, rule, word, place, int(cap),
                                     tuple(map(int, members)), is_plain))


def canonical_lines(problem: Problem, *forms: str) -> tuple[Description, list[str]]:
    """A description, and the lines of its canonical text. Raises InputFault if it is empty, or has
    none of these forms, in which capitals stand for numbers, and what the program raises for a
    faulty one."""
    described = Description.of(problem)
    if not described.text.strip():
        name = f"{problem}: " if isinstance(problem, os.PathLike) else ""
        raise InputFault(f"{name}there is nothing in it")
    lines = show(described).splitlines()
    if not any(re.fullmatch(re.sub("[A-Z]", "[0-9]+", form), lines[1]) for form in forms):
        wanted = " or ".join(f"`{form}`" for form in forms)
        raise InputFault(f"the form is `{lines[1]}`, and has to be {wanted}")
    return described, lines


@dataclass(frozen=True)
class Base:
    """A problem in parts. `lines` is its canonical text, `rules` where its matroids begin, and
    `names` what its elements are called; `real` has what they are called by the table beside a
    file, if there is one."""

    command: str
    names: tuple[str, ...]
    weights: tuple[Weight | int, ...]
    lines: tuple[str, ...]
    rules: tuple[int, ...]
    limits: tuple[Limit, ...]
    real: RealNames | None = None

    @classmethod
    def of(cls, problem: Problem) -> Base:
        """The parts of a description. Raises InputFault if it has another form, and what the
        program raises for a faulty one."""
        described, lines = canonical_lines(problem, "pair N", "list N 1")
        form, count = lines[1].split()[:2]
        reader = _Reader(lines, int(count))
        rules, at = [], 3
        for rule in range(2 if form == "pair" else 1):
            rules.append(at)
            at = reader.matroid(at, rule + 1, True)
        names = tuple(map(str, described.elements or range(int(count))))
        weights = tuple(map(read_weight, lines[2].split()[1:]))
        return cls("intersect" if form == "pair" else "best", names, weights, tuple(lines),
                   tuple(rules), tuple(reader.limits), names_of_problem(problem, names, weights))

    @property
    def shown(self) -> Shown:
        """How its elements and weights are shown."""
        called: dict[str, str] = {}
        for name, real in zip(self.names, self.real.names if self.real else ()):
            called[name] = called[wish_of(name)] = real
        return Shown(self.real, called)

    def copies(self, elements: Iterable[int]) -> frozenset[int]:
        """All elements of the wishes of these."""
        wishes = {wish_of(self.names[it]) for it in elements}
        return frozenset(it for it, name in enumerate(self.names) if wish_of(name) in wishes)

    def wishes(self, elements: Iterable[int]) -> frozenset[str]:
        """The wishes of these elements."""
        return frozenset(wish_of(self.names[it]) for it in elements)

    def elements(self, names: Iterable[str]) -> frozenset[int]:
        """The elements of these names, each of an element or of a wish, or a real one. Raises
        InputFault for another one."""
        found: set[int] = set()
        for name in names:
            own = [it for it, other in enumerate(self.names) if other == name] or \
                [it for it, other in enumerate(self.names) if wish_of(other) == name]
            called = [it for it, real in enumerate(self.real.names if self.real else ())
                      if real == name]
            if called and not own:
                found.update(self.copies(called))
                continue
            if not own:
                raise InputFault(f"{name}: there is no such element")
            found.update(self.copies(own) if self.names[own[0]] == wish_of(name) else own)
        return frozenset(found)

    def doubled(self, limit: Limit, members: Collection[int]) -> list[list[int]]:
        """The copies of each wish of which a limit has several, if these elements have several of
        one."""
        wishes: dict[str, list[int]] = {}
        for it in limit.members:
            wishes.setdefault(wish_of(self.names[it]), []).append(it)
        several = [own for own in wishes.values() if len(own) > 1]
        return several if any(sum(it in members for it in own) > 1 for own in several) else []

    def text(self, weights: Sequence[Weight | int], without: Collection[int] = (),
             caps: Mapping[int, int] | None = None,
             apart: tuple[Limit, Sequence[Sequence[int]]] | None = None) -> str:
        """The description with these weights, without some elements, with other caps in these
        lines, and with at most one of each of some sets in the family of a limit."""
        lines = list(self.lines)
        for at, cap in (caps or {}).items():
            word, _, *members = lines[at].split()
            lines[at] = " ".join([word, str(cap), *members])
        if apart:
            limit, sets = apart
            head = limit.line - 1 - limit.place
            behind = head + 1 + int(lines[head].split()[1])
            family = [" ".join(["set", *line.split()[1:]]) for line in lines[head + 1:behind]]
            family += [" ".join(["set 1", *map(str, it)]) for it in sets]
            lines[head:behind] = [f"laminar {len(family)}", *family]
        lines[2] = " ".join(["weights", *map(str, weights)])
        if without:
            kept = (str(it) for it in range(len(self.names)) if it not in without)
            lines.insert(3, " ".join(["restrict", *kept]))
        return "\n".join([*lines, ""])

    def rule_text(self, rule: int, weights: Sequence[int], without: Collection[int]) -> str:
        """The description of one of the matroids alone, for `best`."""
        ends = [*self.rules[1:], len(self.lines) - 1]
        kept = (str(it) for it in range(len(self.names)) if it not in without)
        lines = ["matroids 1", f"list {len(self.names)} 1",
                 " ".join(["weights", *map(str, weights)]), " ".join(["restrict", *kept]),
                 *self.lines[self.rules[rule]:ends[rule]], "end", ""]
        return "\n".join(lines)

    def plan(self, members: Iterable[int]) -> Plan:
        """The plan of some elements, with its weight by the weights of the problem."""
        chosen = sorted(members)
        pairs = [pair_of(self.weights[it]) for it in chosen]
        weight = weight_of(sum(gain for gain, _ in pairs), sum(tie for _, tie in pairs))
        return Plan(len(chosen), weight, tuple(self.names[it] for it in chosen))


def certificate_of(command: str, text: str) -> str:
    """The certificate by which the program answers a description."""
    return done(call([command, "f"], {"f": text.encode()}))


def rungs_of(certificate: str) -> list[Rung]:
    """The rungs of a certificate of `intersect` or `best`."""
    lines, found = certificate.splitlines(), []
    for at, line in enumerate(lines):
        if line.startswith("rung "):
            shares = tuple(it for it in lines[at + 2:at + 4] if it.startswith(("first", "second")))
            members = frozenset(map(int, lines[at + 1].split()[1:]))
            found.append(Rung(read_weight(line.split()[2]), members, shares))
    return found


def best_rung(rungs: Sequence[Rung], size: int | None) -> Rung | None:
    """The rung of a size, or the one of the greatest weight, of several the largest. None if there
    is no such rung."""
    if size is not None:
        return rungs[size] if 0 <= size < len(rungs) else None
    return max(rungs, key=lambda rung: (pair_of(rung.weight), len(rung.members)))


def packed(*aims: Sequence[int]) -> list[Weight | int]:
    """Weights by which the first aim counts, between sets that are equal in it the second one, and
    so on. An aim has a number for each element. Raises InputFault if the numbers are too large."""
    wanted = [aim for aim in aims if any(aim)] or [aims[-1]]
    for place in range(1, len(wanted) + 1):
        halves = [_joined(wanted[:place]), _joined(wanted[place:])]
        if all(abs(it) <= MOST_WEIGHT for half in halves for it in half):
            first, second = halves[0], halves[1] or [0] * len(halves[0])
            return [weight_of(gain, tie) for gain, tie in zip(first, second)]
    raise InputFault("the weights are too large for this: measure them in a larger unit")


def _joined(aims: Sequence[Sequence[int]]) -> list[int]:
    """Numbers by which the first aim counts, then the second one, and so on."""
    found: list[int] = list(aims[0]) if aims else []
    for aim in aims[1:]:
        factor = 2 * sum(abs(it) for it in aim) + 1
        found = [factor * it + less for it, less in zip(found, aim)]
    return found
