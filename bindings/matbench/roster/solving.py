"""Rosters: the best one for a request, and what it is worth."""
from __future__ import annotations

from dataclasses import dataclass, field
from fractions import Fraction
from typing import TYPE_CHECKING

from matbench.commands import check, intersect
from matbench.faults import InputFault
from matbench.limits.problem import Joined, Limit
from matbench.limits.solving import SECONDS
from matbench.limits.solving import solve as solve_limits
from matbench.roster.writing import write_request

if TYPE_CHECKING:
    from collections.abc import Iterator

    from matbench.answers import Ladder
    from matbench.limits.solving import Outcome
    from matbench.progress import Progress
    from matbench.roster.model import Request, Shift, Wish
    from matbench.roster.writing import Written

#: What is said of a wish that had to be granted, and is not.
MUST = ": had to be granted"


@dataclass(frozen=True)
class Roster:
    """A roster: the places of the granted wishes in the request. `is_best`: no roster that keeps
    the limits meets more of what is needed, or as much with a greater gain, or, if it was asked for
    one of some size, none of this size. `answers` proves it, or `outcome` where limits cross or
    there are several descriptions; its bound is the proof's if `is_best` is false. If it was asked
    for one with at most `most_changes`, `bound` is what none of these gains more than, if that is
    known."""

    request: Request = field(repr=False)
    written: Written = field(repr=False)
    granted: tuple[int, ...]
    is_best: bool
    size: int | None = None
    answers: tuple[Ladder, ...] = field(default=(), repr=False)
    outcome: Outcome | None = field(default=None, repr=False)
    most_changes: int | None = None
    bound: Fraction | None = None

    @property
    def gain(self) -> Fraction:
        """The sum of the gains of what is granted."""
        return sum((self.request.wishes[it].gain for it in self.granted), Fraction(0))

    def people_in(self, shift: Shift, kind: str | None = None) -> int:
        """How many work in a shift, or how many of them are of a kind."""
        return sum(it.shift == shift and kind in (None, it.kind) for it in self.wishes)

    @property
    def wishes(self) -> list[Wish]:
        """The granted wishes."""
        return [self.request.wishes[it] for it in self.granted]

    @property
    def unmet(self) -> list[str]:
        """What is needed and could not be had, in words."""
        return list(self._unmet())

    def _unmet(self) -> Iterator[str]:
        for shift, limit in self.request.shifts.items():
            needs = [(None, limit.least), *((kind, it[1]) for kind, it in limit.kinds.items())]
            for kind, least in needs:
                there = self.people_in(shift, kind)
                if there < least:
                    yield f"{shift.title}: {there} of {least}{' of ' + kind if kind else ''}"
        for place, it in enumerate(self.request.wishes):
            if it.must and place not in self.granted:
                yield f"{it.person}, {it.shift.title}{MUST}"

    @property
    def changed(self) -> tuple[list[Wish], list[Wish]]:
        """The wishes that are granted and were not last time, and the other way."""
        wishes, granted = self.request.wishes, set(self.granted)
        return ([it for place, it in enumerate(wishes) if place in granted and not it.last],
                [it for place, it in enumerate(wishes) if place not in granted and it.last])

    @property
    def changes(self) -> int | None:
        """How many wishes are granted that were not last time, and the other way; None where
        nothing is said of last time."""
        if not self.request.has_last:
            return None
        return sum(bool(it.last) != (place in self.granted)
                   for place, it in enumerate(self.request.wishes))


def _of_one(written: Written, request: Request, size: int | None) -> Roster:
    """The best roster of a request that is one description."""
    answer = intersect(written.texts[0])
    if not check(written.texts[0], answer):
        raise InputFault("the answer is not right: this is a fault of the program")
    if size is not None and size >= len(answer.rungs):
        raise InputFault(f"no roster grants {size} wishes: at most {len(answer.rungs) - 1} can be"
                         " granted")
    members = set((answer.best if size is None else answer.rungs[size]).members)
    granted = sorted({it.wish for it in written.elements if it.name in members})
    return Roster(request, written, tuple(granted), True, size, (answer,))


def _of_several(written: Written, request: Request, size: int | None, seconds: float,
                progress: Progress | None) -> Roster:
    """A roster of a request with further limits or several descriptions, which is best if the bound
    meets it. Raises InputFault where none is found, or a size is asked for."""
    if size is not None:
        raise InputFault("a roster of some size is found where one description says all: leave"
                         " --size out")
    joined = Joined(written.texts)
    further = [Limit(it.name, it.most, {
        joined.index[written.elements[each].name]: it.amount(each) for each in it.members},
        it.scale) for it in written.further]
    outcome = solve_limits(joined, further, None, seconds, progress=progress)
    if outcome.plan is None:
        raise InputFault("no roster was found that keeps all limits")
    members = set(outcome.names)
    granted = sorted({it.wish for it in written.elements if it.name in members})
    return Roster(request, written, tuple(granted), outcome.is_best, outcome=outcome)


def solve(request: Request, size: int | None = None, progress: Progress | None = None,
          seconds: float = SECONDS) -> Roster:
    """The best roster for a request, or the best that grants exactly `size` wishes. Where the
    request is of several weeks of more than 500 elements together, or limits cross, it is the best
    that is found within some seconds, and `is_best` says whether it is proved so. Raises InputFault
    where the request is too large, or no roster has the size."""
    written = write_request(request)
    if len(written.texts) == 1 and not written.further:
        return _of_one(written, request, size)
    return _of_several(written, request, size, seconds, progress)
