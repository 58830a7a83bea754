"""What one more place in each limit of a roster brings.

Where one description says all, a limit that the best roster does not fill brings nothing: a better
roster with one place more, mixed with the best one by a small part, would be better within the
limits as they are; and where a mixture is better, a roster is. For each other limit the request is
solved anew.
"""
from __future__ import annotations

import collections
import dataclasses
from dataclasses import dataclass
from typing import TYPE_CHECKING, NamedTuple

from matbench.limits.solving import SECONDS
from matbench.roster.solving import solve

if TYPE_CHECKING:
    from collections.abc import Iterable, Iterator
    from fractions import Fraction

    from matbench.progress import Progress
    from matbench.roster.model import PersonLimit, Request, Shift, ShiftLimit, Wish
    from matbench.roster.solving import Roster


@dataclass(frozen=True)
class Change:
    """What one more place in a limit brings: `what` is the limit, `most` what it is now, and then
    the gain, how much more of what is needed is met, and the wishes that are granted then and no
    longer. If it is not `is_proved`, one of both rosters is not proved best."""

    what: str
    most: int
    gain: Fraction
    met: int
    new: tuple[Wish, ...] = ()
    dropped: tuple[Wish, ...] = ()
    is_proved: bool = True


class _Raised(NamedTuple):
    """A request with one more place in a limit, and whether the roster fills this one now."""

    what: str
    most: int
    request: Request
    is_full: bool


def _met(roster: Roster) -> int:
    """How much of what is needed is met."""
    request, found = roster.request, 0
    for shift, limit in request.shifts.items():
        found += min(roster.people_in(shift), limit.least)
        found += sum(min(roster.people_in(shift, kind), least)
                     for kind, (_, least) in limit.kinds.items())
    return found + sum(request.wishes[it].must for it in roster.granted)


def _greatest(keys: Iterable[object]) -> int:
    """How often the most frequent of these occurs."""
    return max(collections.Counter(keys).values(), default=0)


def _of_shift(roster: Roster, shift: Shift, limit: ShiftLimit) -> Iterator[_Raised]:
    """The request with one more place in a shift, and in each of its kinds that has a limit."""
    cases = [(shift.title, limit.most, dataclasses.replace(limit, most=limit.most + 1),
              roster.people_in(shift))]
    for kind, (most, least) in limit.kinds.items():
        if most is not None:
            more = dataclasses.replace(limit, kinds={**limit.kinds, kind: (most + 1, least)})
            cases.append((f"{shift.title}, {kind}", most, more, roster.people_in(shift, kind)))
    for what, most, more, used in cases:
        shifts = {**roster.request.shifts, shift: more}
        yield _Raised(what, most, dataclasses.replace(roster.request, shifts=shifts), used >= most)


def _of_person(roster: Roster, person: str, limit: PersonLimit) -> Iterator[_Raised]:
    """The request with one more shift for a person: in all, in each week, on each day, and of each
    kind."""
    own = [it for it in roster.wishes if it.person == person]
    used = {"most": len(own), "week": _greatest(it.shift.week for it in own),
            "day": _greatest((it.shift.week, it.shift.day) for it in own)}
    cases = [(f"{person}{'' if column == 'most' else f', in a {column}'}", getattr(limit, column),
              dataclasses.replace(limit, **{column: getattr(limit, column) + 1}), used[column])
             for column in used if getattr(limit, column) is not None]
    cases += [(f"{person}, {kind}", most,
               dataclasses.replace(limit, kinds={**limit.kinds, kind: most + 1}),
               sum(it.kind == kind for it in own)) for kind, most in limit.kinds.items()]
    for what, most, more, there in cases:
        people = {**roster.request.people, person: more}
        yield _Raised(what, most, dataclasses.replace(roster.request, people=people), there >= most)


def _raised(roster: Roster) -> Iterator[_Raised]:
    """The request with one more place in a limit, for each limit."""
    for shift, limit in roster.request.shifts.items():
        yield from _of_shift(roster, shift, limit)
    for person, own in roster.request.people.items():
        yield from _of_person(roster, person, own)


def _change(roster: Roster, case: _Raised, seconds: float) -> Change:
    """What one more place in a limit brings, by a search of some seconds if one is needed."""
    if roster.answers and not case.is_full:
        return Change(case.what, case.most, 0 * roster.gain, 0)
    other = solve(case.request, roster.size, seconds=seconds)
    gain, met = other.gain - roster.gain, _met(other) - _met(roster)
    is_proved = roster.is_best and other.is_best
    if not gain and not met:
        return Change(case.what, case.most, gain, met, is_proved=is_proved)
    wishes, one, two = roster.request.wishes, set(roster.granted), set(other.granted)
    return Change(case.what, case.most, gain, met, tuple(wishes[it] for it in sorted(two - one)),
                  tuple(wishes[it] for it in sorted(one - two)), is_proved)


def what_if(roster: Roster, progress: Progress | None = None,
            seconds: float = SECONDS) -> list[Change]:
    """What one more place in each limit brings. Where a search is needed, that of each limit takes
    some seconds at most. The greatest comes first, and those that bring
    nothing last."""
    cases, found = list(_raised(roster)), []
    for number, case in enumerate(cases):
        if progress:
            progress.tell(f"one more place: {number} of {len(cases)} limits tried")
        found.append(_change(roster, case, seconds))
    return sorted(found, key=lambda it: (-it.met, -it.gain))
