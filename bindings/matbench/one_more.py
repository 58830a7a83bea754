"""What one more place in each limit gains, and python3 -m matbench one-more.

A limit that the best plan does not fill gains nothing: a better plan with one place more, mixed
with the best one by a small part, would be better within the limits as they are; and where a
mixture is better, a plan is. For each other limit the problem is solved with its cap raised by one.

A least number stays as it is, and a wish is granted once: a limit of one that is raised keeps the
copies of a wish apart. If a wish has two copies, X of the weight 1:5 and X.more of 0:5, the first
one counts for a least number, and the place is one for the second ones. If it has none, the cap is
raised all the same: of the best plan then one element more counts than may, which is taken off; and
a plan that does not use the place is no better than the best one.
"""
from __future__ import annotations

from typing import TYPE_CHECKING, Any, NamedTuple

from matbench.command_lines import DONE, parser_of, write
from matbench.limit_names import limit_names
from matbench.plans import NoPlan, Wanted, add_words, no_plan, real_record_of, wanted_of
from matbench.progress import Progress
from matbench.tables import Table, json_of
from matbench.variants import wish_of
from matbench.weights import pair_of, weight_of

if TYPE_CHECKING:
    from collections.abc import Callable, Iterable, Sequence

    from matbench.descriptions import Problem
    from matbench.real_names import Shown
    from matbench.variants import Limit, Plan
    from matbench.weights import Weight

    #: Is told how many of so many limits are solved.
    Telling = Callable[[int, int], None]

ABOUT = """\
What one more place in each limit of a description gains: a row for each `class`, `set`, `uniform`
and `truncate`, with its cap, how much of it the best plan uses, and what the best plan weighs more
with one place more. Each is solved anew; a limit that the best plan does not fill gains nothing.

FILE is a description of the form `pair`, or `list` with one matroid. A limit is called after what
the names of its elements have in common.

A least number stays as it is. If a wish has two copies, as X of the weight 1:5 and X.more of 0:5,
or X.must and X.may, the first one counts for a least number: its limit and that of the second ones
are one row, and the place is one beyond the least number. A limit of the copies of a single wish
has no row. Beside such limits in one matroid, or with --least in the first matroid, a limit of
elements without copies that all have a first number above 0 is a least number and the greatest one
too: whoever takes one more place there does not count. (If these are wishes that must be granted,
or if kinds within a shift have least numbers, ask `roster --one-more`, which has the tables.)"""
EXAMPLES = """\
examples:
  python3 -m matbench one-more wishes.txt
  python3 -m matbench one-more wishes.txt --size 4 --format csv

The status is 0, or 1 where there is no plan, or 2 where what was given is not taken."""


class Gain(NamedTuple):
    """What one more place in a limit gains: its name, rule and cap, how many elements of it the
    best plan has, the gain, and the plan with one place more, the best one where that is 0. Of the
    cap `least` are a least number, which stays as it is."""

    limit: str
    rule: int
    cap: int
    used: int
    gain: Weight | int
    plan: Plan
    least: int = 0


class _Room(NamedTuple):
    """A limit of which a place is tried, and those of the least numbers that belong to it. If it
    `is_joined`, they have places of their own beside it. If it `is_least`, it is one itself."""

    limit: Limit
    name: str
    leasts: tuple[Limit, ...]
    is_joined: bool
    is_least: bool


class _Rooms:
    """Finds the limits of a problem that have a row."""

    def __init__(self, wanted: Wanted, has_least: bool):
        self.base = wanted.base
        self.firsts = [pair_of(it)[0] for it in self.base.weights]
        self.copies = [self.base.copies([it]) for it in range(len(self.firsts))]
        self.leasts = [it for it in self.base.limits if self._is_least(it)]
        #: The rules that have least numbers.
        self.rules = {it.rule for it in self.leasts} or ({1} if has_least else set())

    def _counts(self, element: int) -> bool:
        """Whether a copy of the wish has a smaller first number."""
        return any(self.firsts[it] < self.firsts[element] for it in self.copies[element])

    def _is_least(self, limit: Limit) -> bool:
        """Whether a limit is a least number, beyond which the other copies are."""
        members = set(limit.members)
        return bool(members) and all(
            self._counts(it) and not self.copies[it] - {it} & members for it in members)

    def _is_of_copies(self, limit: Limit) -> bool:
        """Whether a limit has several elements, which are copies of one wish."""
        return len(limit.members) > 1 and set(limit.members) <= self.copies[limit.members[0]]

    def _is_both(self, limit: Limit) -> bool:
        """Whether a limit is a least number and a greatest one."""
        return limit.rule in self.rules and bool(limit.members) and all(
            self.firsts[it] > 0 and len(self.copies[it]) == 1 for it in limit.members)

    def _room(self, limit: Limit, name: str) -> _Room:
        """The row of a limit that is no least number."""
        members = set(limit.members)
        own = [it for it in self.leasts if it.rule == limit.rule]
        within = tuple(it for it in own if set(it.members) <= members)
        is_both = self._is_both(limit)
        if within or is_both or any(map(self._counts, members)):
            return _Room(limit, name, within, False, is_both)
        wishes = self.base.wishes(members)
        beside = tuple(it for it in own if self.base.wishes(it.members) <= wishes)
        return _Room(limit, name, beside, bool(beside), False)

    def found(self) -> list[_Room]:
        """The limits that have a row, in the order of the description."""
        named = zip(self.base.limits, limit_names(self.base))
        return [self._room(limit, name) for limit, name in named
                if limit not in self.leasts and not self._is_of_copies(limit)]


class _WhatIf:
    """A problem whose limits are raised one by one."""

    def __init__(self, wanted: Wanted):
        self.wanted, self.base = wanted, wanted.base
        self.weights = wanted.weights(*wanted.aims())
        self.best = wanted.solved(self.weights)
        self.plan = self.base.plan(self.best.members)

    def used(self, limit: Limit) -> int:
        """How many elements of a limit the best plan has."""
        return len(self.best.members & set(limit.members))

    def can_gain(self, limit: Limit) -> bool:
        """Whether one more place may gain anything."""
        within = len(set(limit.members) - self.wanted.must_not)
        return limit.cap < within and (self.used(limit) >= limit.cap or not limit.is_plain)

    def raised(self, room: _Room) -> tuple[Weight | int, Plan]:
        """What one more place in a limit gains, and the best plan with it."""
        limit = room.limit
        if not self.can_gain(limit):
            return 0, self.plan
        caps = {limit.line: limit.cap + 1}
        rung = self.wanted.solved(self.weights, caps=caps)
        doubled = self.base.doubled(limit, rung.members) if limit.cap == 1 else []
        if doubled and limit.kind in ("class", "set"):
            rung = self.wanted.solved(self.weights, caps=caps, apart=(limit, doubled))
        plan = self.base.plan(rung.members)
        gain, tie = pair_of(plan.weight - self.plan.weight)
        gain -= room.is_least
        if (gain, tie) == (0, 0) or room.is_least and (gain, tie) < (0, 0):
            return 0, self.plan
        return weight_of(gain, tie), plan

    def gain(self, room: _Room) -> Gain:
        """The row of a limit."""
        gain, plan = self.raised(room)
        least = room.limit.cap if room.is_least else sum(it.cap for it in room.leasts)
        parts = [room.limit, *(room.leasts if room.is_joined else ())]
        return Gain(room.name, room.limit.rule, sum(it.cap for it in parts),
                    sum(map(self.used, parts)), gain, plan, least)


def _gains(wanted: Wanted, has_least: bool, telling: Telling | None) -> tuple[Plan, list[Gain]]:
    """The best plan, and what one more place gains, for each limit."""
    what_if, rooms = _WhatIf(wanted), _Rooms(wanted, has_least).found()
    found = []
    for place, room in enumerate(rooms):
        if telling:
            telling(place, len(rooms))
        found.append(what_if.gain(room))
    return what_if.plan, found


def one_more(problem: Problem, size: int | None = None, must: Iterable[str] = (),
             must_not: Iterable[str] = (), telling: Telling | None = None,
             has_least: bool = False) -> tuple[Plan, list[Gain]]:
    """The best plan of a `pair`, or of a `list` of one matroid, and for each limit what one more
    place gains: of a size, or of the best of all sizes. All plans have all of `must`, and none of
    `must_not`. With `has_least` a limit of the first matroid is a least number if its elements have
    first numbers above 0 and no copies. Raises NoPlan if there is no plan."""
    return _gains(Wanted.of(problem, must, must_not, size), has_least, telling)


def _table(best: Plan, gains: Sequence[Gain], shown: Shown) -> Table:
    """A row for each limit, in the order of the description."""
    has_least = any(it.least for it in gains)
    own = list(dict.fromkeys(map(wish_of, best.members)))
    rows: list[list[Any]] = []
    for it in gains:
        there = list(dict.fromkeys(map(wish_of, it.plan.members)))
        rows.append([it.limit, it.rule, it.cap, *([it.least] if has_least else []), it.used,
                     shown.cell(it.gain), shown.names(name for name in there if name not in own),
                     shown.names(name for name in own if name not in there)])
    least = ["least"] if has_least else []
    return Table(["limit", "rule", "most", *least, "used", "one more gains", "new", "dropped"], rows)


def main(words: Sequence[str]) -> int:
    """Runs the command."""
    parser = parser_of("one-more", ABOUT, EXAMPLES)
    add_words(parser)
    parser.add_argument("--least", action="store_true", help="the first number of a weight A:B"
                        " counts what is needed, also if no wish has two copies")
    given = parser.parse_args(list(words))
    wanted = wanted_of(given)
    with Progress("one-more") as progress:
        try:
            best, gains = _gains(wanted, given.least,
                                 lambda place, of: progress.tell(f"{place} of {of} limits"))
        except NoPlan as error:
            return no_plan(error)
    shown = wanted.base.shown
    table = _table(best, gains, shown)
    if given.format == "table":
        write(f"BEST: {best.size} elements, {shown.worth(best.weight)}.\n\n{table.text()}")
    else:
        write(table.csv() if given.format == "csv" else json_of(
            {"best": real_record_of(best, wanted.base), "limits": table.records()}))
    return DONE
