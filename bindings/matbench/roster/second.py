"""The second best roster."""
from __future__ import annotations

import dataclasses
from typing import TYPE_CHECKING

from matbench.faults import InputFault
from matbench.second_best import second_best

if TYPE_CHECKING:
    from matbench.progress import Progress
    from matbench.roster.solving import Roster


def second_rosters(roster: Roster, progress: Progress | None = None) -> list[Roster]:
    """The best roster that grants other wishes than the best one, of any size if the best one is of
    all sizes, and else of its size; none if there is no other one. Raises InputFault if limits
    cross, hours are limited, or there are several descriptions."""
    if not roster.answers:
        raise InputFault("a second roster is found if one description says all, without limits that"
                         " cross or of hours: leave --second-best out")

    def telling(place: int, of: int) -> None:
        if progress:
            progress.tell(f"second best: {place} of at most {of} wishes left out")
    found = second_best(roster.written.texts[0], roster.size, roster.size is None, telling=telling)
    if found.second is None:
        return []
    members = set(found.second.members)
    granted = sorted({it.wish for it in roster.written.elements if it.name in members})
    return [dataclasses.replace(roster, granted=tuple(granted), is_best=False, answers=())]
