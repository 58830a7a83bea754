"""Rosters that change little of the last one: those that are best where a change costs so much, and
the best one of them with at most so many changes."""
from __future__ import annotations

import dataclasses
from dataclasses import dataclass
from fractions import Fraction
from typing import TYPE_CHECKING

from matbench.faults import InputFault
from matbench.few_changes import few_changes
from matbench.plans import NoPlan
from matbench.roster.showing import listed_changes, number_of
from matbench.roster.writing import write_request
from matbench.tables import Table

if TYPE_CHECKING:
    from matbench.few_changes import Choice, Cost
    from matbench.progress import Progress
    from matbench.roster.model import Request
    from matbench.roster.solving import Roster
    from matbench.roster.writing import Written


@dataclass(frozen=True)
class Changed:
    """A roster that is best where a change costs from `least` to `most`, None for any cost: a gain,
    and how much of what is needed."""

    roster: Roster
    least: tuple[Fraction, Fraction]
    most: tuple[Fraction, Fraction] | None


def _cost(cost: Cost, request: Request, written: Written) -> tuple[Fraction, Fraction]:
    """What a change costs in what is needed, and in gain."""
    if request.has_demands:
        return cost.gain, cost.tie / written.scale
    return Fraction(0), cost.gain / written.scale


def _changed(roster: Roster, written: Written, choice: Choice) -> Changed:
    """A roster of a plan."""
    members = set(choice.plan.members)
    granted = sorted({it.wish for it in written.elements if it.name in members})
    request = roster.request
    return Changed(
        dataclasses.replace(roster, granted=tuple(granted), is_best=False, answers=()),
        _cost(choice.least_cost, request, written),
        None if choice.most_cost is None else _cost(choice.most_cost, request, written))


def changed_rosters(roster: Roster, progress: Progress | None = None) -> list[Changed]:
    """From the best roster to the one of fewest changes against the last one, those that are best
    where a change costs so much. Raises InputFault if nothing is said of the last roster, limits
    cross, hours are limited, or there are several descriptions."""
    request = roster.request
    if not request.has_last:
        raise InputFault("changes are counted against a last roster: give it by --last, or by a"
                         " column last")
    if not roster.answers:
        raise InputFault("rosters of few changes are found if one description says all, without"
                         " limits that cross or of hours")
    plain = dataclasses.replace(request, wishes=tuple(
        dataclasses.replace(it, last=None) for it in request.wishes))
    written = write_request(plain)
    last = [it.name for it in written.elements if request.wishes[it.wish].last]

    def telling(found: int) -> None:
        if progress:
            progress.tell(f"few changes: {found} rosters found")
    try:
        choices = few_changes(written.texts[0], last, roster.size, telling=telling)
    except NoPlan as error:
        raise InputFault(str(error)) from error
    return [_changed(roster, written, it) for it in choices]


def _rank(roster: Roster) -> int:
    """How many changes a roster has."""
    return roster.changes or 0


def of_at_most(found: list[Changed], most: int) -> Roster:
    """Of these rosters the best one with at most so many changes. Its `bound` is what no roster
    with at most so many gains more than, where all that is needed is met alike. Raises InputFault
    if each has more."""
    few = [place for place, it in enumerate(found) if _rank(it.roster) <= most]
    if not few:
        raise InputFault(f"each roster has more than {most} changes: the fewest are"
                         f" {_rank(found[-1].roster)}")
    here = found[few[0]]
    needed, gain = here.least
    is_tight = few[0] == 0 or _rank(here.roster) == most
    bound = here.roster.gain + gain * (0 if is_tight else most - _rank(here.roster))
    scale = here.roster.written.scale
    bound = Fraction(int(bound * scale // 1), scale)
    is_known = is_tight or not needed
    return dataclasses.replace(here.roster, most_changes=most,
                               is_best=is_known and bound == here.roster.gain,
                               bound=bound if is_known else None)


def _number(cost: tuple[Fraction, Fraction] | None) -> float | int | str | None:
    """What a change costs, in a cell."""
    if cost is None:
        return None
    gain = round(float(cost[1]), 4)
    plain = int(gain) if gain.is_integer() else gain
    return f"{float(cost[0]):g} of what is needed, {plain}" if cost[0] else plain


def changed_table(found: list[Changed]) -> Table:
    """A line for each roster: its changes, its gain, what a change costs where it is best, and what
    is new and dropped."""
    rows = []
    for it in found:
        new, dropped = listed_changes(it.roster)
        rows.append([_rank(it.roster), number_of(it.roster.gain), len(it.roster.granted),
                     _number(it.least), _number(it.most), new, dropped])
    return Table(["changes", "gain", "granted", "best if a change costs", "to", "new", "dropped"],
                 rows)
