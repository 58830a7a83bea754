"""What wishes that have to be granted, or must not be, and least numbers cost: the gain of the best
roster without them, by one more solve for each of both."""
from __future__ import annotations

import dataclasses
from dataclasses import dataclass
from typing import TYPE_CHECKING

from matbench.faults import InputFault
from matbench.roster.solving import MUST, solve

#: A search for what columns cost takes at most so many seconds.
SECONDS = 10.0

if TYPE_CHECKING:
    from fractions import Fraction

    from matbench.progress import Progress
    from matbench.roster.model import Request, ShiftLimit
    from matbench.roster.solving import Roster


@dataclass(frozen=True)
class Cost:
    """What some columns of the tables cost: without them the best roster gains `gain`, and `loss`
    more than with them. If it `meets_more` of what is needed otherwise, that is no cost alone."""

    columns: tuple[str, ...]
    gain: Fraction
    loss: Fraction
    meets_more: bool


def _without_wishes(request: Request) -> tuple[tuple[str, ...], Request]:
    """The columns must and never, as far as they say something, and the request without them."""
    wishes = request.wishes
    columns = [name for name, is_said in (("must", any(it.must for it in wishes)),
                                          ("never", any(it.never for it in wishes))) if is_said]
    free = tuple(dataclasses.replace(it, must=False, never=False) for it in wishes)
    return tuple(columns), dataclasses.replace(request, wishes=free)


def _without_least(limit: ShiftLimit) -> ShiftLimit:
    """The limit of a shift without its least numbers."""
    kinds = {kind: (most, 0) for kind, (most, _) in limit.kinds.items()}
    return dataclasses.replace(limit, least=0, kinds=kinds)


def _without_leasts(request: Request) -> tuple[tuple[str, ...], Request]:
    """The column least, if it says something, and the request without it."""
    columns = ("least",) if any(it.demanded for it in request.shifts.values()) else ()
    shifts = {shift: _without_least(it) for shift, it in request.shifts.items()}
    return columns, dataclasses.replace(request, shifts=shifts)


def costs_of(roster: Roster, progress: Progress | None = None,
             seconds: float = SECONDS) -> list[Cost]:
    """What must and never cost together, and what least numbers cost, where there are some, and
    both rosters are proved best. Where a search is needed, each takes some seconds at most."""
    found = []
    cases = [_without_wishes(roster.request), _without_leasts(roster.request)]
    for columns, request in cases if roster.is_best else []:
        if not columns:
            continue
        if progress:
            progress.tell(f"what {' and '.join(columns)} cost")
        try:
            other = solve(request, roster.size, seconds=seconds)
        except InputFault:
            continue
        if other.is_best:
            meets_more = len(_unmet(other, columns)) < len(_unmet(roster, columns))
            found.append(Cost(columns, other.gain, other.gain - roster.gain, meets_more))
    return found


def _unmet(roster: Roster, columns: tuple[str, ...]) -> list[str]:
    """What a roster does not meet of what other columns than these say."""
    is_of_wishes = "least" in columns
    return [it for it in roster.unmet if it.endswith(MUST) == is_of_wishes]
