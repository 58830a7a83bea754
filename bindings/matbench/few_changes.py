"""Plans that change little of a last one, and python3 -m matbench few-changes.

A change is an element of the last plan that is dropped, or one that is new. Where each change costs
so much, the best plan is one call. From the best plan of all to the one of fewest changes, those
are found that are best at some cost of a change, with the costs from which and up to which each is.
A cost is a weight for each change: if weights are A:B, its second number counts between equal first
ones.
"""
from __future__ import annotations

from fractions import Fraction
from typing import TYPE_CHECKING, Any, NamedTuple

from matbench.command_lines import DONE, parser_of, write
from matbench.faults import InputFault
from matbench.last_plans import names_of_last
from matbench.plans import NoPlan, Wanted, add_words, no_plan, real_record_of, wanted_of
from matbench.progress import Progress
from matbench.real_names import number_of
from matbench.tables import Table, json_of

if TYPE_CHECKING:
    from collections.abc import Callable, Iterable, Sequence

    from matbench.descriptions import Problem
    from matbench.real_names import RealNames
    from matbench.variants import Base, Plan, Rung

    #: Is told how many plans are found so far.
    Telling = Callable[[int], None]

ABOUT = """\
Plans that change little of a last one: from the best plan to the one of fewest changes, those that
are best where a change costs so much. A change is an element of the last plan that is dropped, or
one that is new. Between two of these plans there may be others, which are best at no such cost.

FILE is a description of the form `pair`, or `list` with one matroid. What a change costs is shown
as a weight: the loss, divided by the changes that are saved. LAST has the names of the last plan,
with spaces, commas or line ends between them, as `python3 -m matbench names --best` prints it, or
it is a roster as `roster --format csv` writes it. Names that FILE does not have are changes in any
case, and are not counted; at least one has to be there."""
EXAMPLES = """\
examples:
  python3 -m matbench few-changes wishes.txt last_plan.txt
  python3 -m matbench few-changes wishes.txt last_plan.txt --size 4 --must Cleo.Sunday_night

The status is 0, or 1 where there is no plan, or 2 where what was given is not taken."""


class Cost(NamedTuple):
    """What a change costs: two numbers, of which the second one counts between equal first ones. It
    is spelled like a weight, in fractions with two decimals."""

    gain: Fraction
    tie: Fraction

    def __str__(self) -> str:
        words = [str(it) if it.denominator == 1 else f"{float(it):.2f}" for it in self]
        return ":".join(words if self.tie else words[:1])


class Choice(NamedTuple):
    """A plan that is best where a change costs from `least_cost` to `most_cost`, None for any cost,
    with the first numbers of both; its changes, what is new, and what is dropped."""

    changes: int
    plan: Plan
    least: Fraction
    most: Fraction | None
    new: tuple[str, ...]
    dropped: tuple[str, ...]
    least_cost: Cost
    most_cost: Cost | None


class _Point(NamedTuple):
    """A plan by both numbers of its weight, and its changes, but for those that all plans have."""

    gain: int
    tie: int
    changes: int
    rung: Rung


def _cost(left: _Point, right: _Point) -> Cost:
    """What each change costs that the second plan saves against the first one."""
    saved = left.changes - right.changes
    return Cost(Fraction(left.gain - right.gain, saved), Fraction(left.tie - right.tie, saved))


class _Hull:
    """Searches the plans that are best at some cost of a change."""

    def __init__(self, wanted: Wanted, last: frozenset[int], telling: Telling | None):
        self.wanted, self.last, self.telling = wanted, last, telling
        self.gains, self.ties = wanted.aims()
        count = len(wanted.base.names)
        self.changes = [-1 if it in last else 1 for it in range(count)]
        self.points: list[_Point] = []

    def best(self, *aims: Sequence[int]) -> _Point:
        """The best plan for these aims."""
        rung = self.wanted.solved(self.wanted.weights(*aims))
        gain, tie, changes = (sum(aim[it] for it in rung.members)
                              for aim in (self.gains, self.ties, self.changes))
        if self.telling:
            self.telling(len(self.points))
        return _Point(gain, tie, changes, rung)

    def search(self) -> list[_Point]:
        """The plans from the greatest gain to the fewest changes."""
        kept = [-it for it in self.changes]
        first = self.best(self.gains, self.ties, kept)
        last = self.best(kept, self.gains, self.ties)
        self.points = [first]
        self._between(first, last)
        return self.points

    def _between(self, first: _Point, last: _Point) -> None:
        """Adds the plans behind the first one up to the last one."""
        stack = [(first, last)]
        while stack:
            left, right = stack.pop()
            saved = left.changes - right.changes
            if saved == 0:
                continue
            losses = left.gain - right.gain, left.tie - right.tie
            aims = [[saved * value - loss * change for value, change in zip(values, self.changes)]
                    for values, loss in zip((self.gains, self.ties), losses)]
            middle = self.best(*aims)
            more = middle.gain - left.gain, middle.tie - left.tie
            fewer = left.changes - middle.changes
            if tuple(saved * one + loss * fewer for one, loss in zip(more, losses)) > (0, 0):
                stack += [(middle, right), (left, middle)]
            else:
                self.points.append(right)


def _choices(wanted: Wanted, last: frozenset[int], telling: Telling | None) -> list[Choice]:
    """The plans that are best at some cost of a change, those of the greatest gain first."""
    base, hull = wanted.base, _Hull(wanted, last, telling)
    points = hull.search()
    costs = [_cost(one, two) for one, two in zip(points, points[1:])]
    wishes = base.wishes(last)
    found = []
    for place, point in enumerate(points):
        plan = base.plan(point.rung.members)
        held = base.wishes(point.rung.members)
        new = [name for it, name in zip(sorted(point.rung.members), plan.members) if it not in last]
        least = costs[place - 1] if place else Cost(Fraction(0), Fraction(0))
        most = costs[place] if place < len(costs) else None
        found.append(Choice(len(wishes) + point.changes, plan, least.gain,
                            None if most is None else most.gain, tuple(new),
                            tuple(sorted(wishes - held)), least, most))
    return found


def few_changes(problem: Problem, last: Iterable[str], size: int | None = None,
                must: Iterable[str] = (), must_not: Iterable[str] = (),
                telling: Telling | None = None) -> list[Choice]:
    """Plans of a `pair`, or of a `list` of one matroid, that are best where a change against the
    plan `last` costs so much, from the best of all, with as few changes as such a plan can have, to
    the one of fewest changes. Names of `last` that the problem does not have are left out. All
    plans have all of `must`, and none of `must_not`. Raises NoPlan if there is no plan."""
    wanted = Wanted.of(problem, must, must_not, size)
    return _choices(wanted, _last_plan(wanted, last)[0], telling)


def _last_plan(wanted: Wanted, names: Iterable[str]) -> tuple[frozenset[int], list[str]]:
    """The elements of the last plan with the copies of their wishes, and names of no element."""
    base, found, unknown = wanted.base, set(), []
    for name in dict.fromkeys(names):
        own = [it for it, other in enumerate(base.names) if name == other]
        own = own or sorted(base.elements([name])) if _is_known(wanted, name) else own
        found.update(own)
        unknown += [] if own else [name]
    return base.copies(found), unknown


def _is_known(wanted: Wanted, name: str) -> bool:
    """Whether a name is that of a wish of the problem, or a real one."""
    base = wanted.base
    return name in base.wishes(range(len(base.names))) or \
        base.real is not None and name in base.real.names


def _shown_cost(cost: Cost | None, real: RealNames | None) -> str | int | float | None:
    """What a change costs, in the numbers of the tables where there are some."""
    if cost is None or real is None or real.unit is None:
        return None if cost is None else str(cost)
    front, behind = (cost.gain, cost.tie) if real.has_needs else (Fraction(0), cost.gain)
    unit = real.unit
    return f"{float(front):g} of what is needed, {float(behind / unit):.6g}" if front else \
        number_of(Fraction(round(behind / unit, 4)))


def _table(choices: Sequence[Choice], base: Base) -> Table:
    """A row for each plan."""
    rows: list[list[Any]] = []
    shown = base.shown
    has_unit = base.real is not None and base.real.unit is not None
    for it in choices:
        weight = shown.weight(it.plan.weight)
        rows.append([it.changes, weight, it.plan.size, _shown_cost(it.least_cost, base.real),
                     _shown_cost(it.most_cost, base.real), shown.names(it.new),
                     shown.names(it.dropped)])
    return Table(("changes", "gain" if has_unit else "weight", "size", "best if a change costs",
                  "to", "new", "dropped"), rows)


def _last_of(path: str, wanted: Wanted) -> tuple[frozenset[int], list[str]]:
    """The last plan of a file, and its names of no element. Raises InputFault if all are none."""
    real = wanted.base.real
    names = names_of_last(path, wanted.base.names, real.names if real else ())
    last, unknown = _last_plan(wanted, names)
    if unknown and not last:
        raise InputFault(f"{path}: the description has none of its names, such as"
                         f" {unknown[0][:60]}")
    return last, unknown


def main(words: Sequence[str]) -> int:
    """Runs the command."""
    parser = parser_of("few-changes", ABOUT, EXAMPLES)
    add_words(parser)
    parser.add_argument("last", metavar="LAST", help="the last plan: its names, or a roster as CSV")
    given = parser.parse_args(list(words))
    wanted = wanted_of(given)
    last, unknown = _last_of(given.last, wanted)
    with Progress("few-changes") as progress:
        try:
            choices = _choices(wanted, last, lambda found: progress.tell(f"{found} plans found"))
        except NoPlan as error:
            return no_plan(error)
    table = _table(choices, wanted.base)
    if given.format == "table":
        gone = f"Not in the description: {' '.join(unknown)}.\n\n" if unknown else ""
        write(gone + table.text())
    else:
        plans = [{**row, "plan": real_record_of(it.plan, wanted.base)}
                 for row, it in zip(table.records(), choices)]
        write(table.csv() if given.format == "csv" else json_of({"plans": plans}))
    return DONE
