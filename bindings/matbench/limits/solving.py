"""Plans that keep further limits, and bounds that no plan exceeds."""
from __future__ import annotations

import time
from dataclasses import dataclass, field
from typing import TYPE_CHECKING

from matbench.faults import InputFault
from matbench.limits.bounds import Bounds
from matbench.limits.branching import Branching, Leaf
from matbench.limits.integer import plan_by_highs
from matbench.limits.plans import Plan, Search
from matbench.limits.pricing import Pricing

if TYPE_CHECKING:
    from collections.abc import Mapping, Sequence

    from matbench.limits.bounds import Solve
    from matbench.limits.problem import Joined, Limit
    from matbench.progress import Progress
    from matbench.weights import Weight

#: How many solves there are for prices, how many for parts of all plans, and how many seconds.
SOLVES, PARTS, SECONDS = 80, 2000, 60.0


@dataclass(frozen=True)
class Outcome:
    """What is known: `plan` has the elements of a plan that keeps all limits, or is None where none
    was found, and `gain` is what it gains, as a whole number. No plan gains more than `bound`; if
    that is None no plan keeps all limits. `leaves` and `limits`, with those that follow from
    others, prove it."""

    joined: Joined = field(repr=False)
    limits: Sequence[Limit] = field(repr=False)
    size: int | None
    plan: tuple[int, ...] | None
    gain: int | None
    bound: int | None
    scale: int
    leaves: Sequence[Leaf] = field(repr=False)
    solves: int = 0
    seconds: float = 0.0

    @property
    def is_best(self) -> bool:
        """Whether it is proved that no plan gains more."""
        return self.gain is not None and self.bound is not None and self.bound <= self.gain

    @property
    def is_none(self) -> bool:
        """Whether it is proved that no plan keeps all limits."""
        return self.bound is None

    @property
    def names(self) -> list[str]:
        """The names of the elements of the plan."""
        return [self.joined.names[it] for it in self.plan or ()]

    @property
    def gap(self) -> Weight | int | None:
        """By how much the bound is above the gain of the plan."""
        if self.gain is None or self.bound is None:
            return None
        return self.joined.spelled(max(0, self.bound - self.gain))


class _Plans:
    """The best plan so far, and plans that are made of sets that keep the descriptions alone."""

    def __init__(self, joined: Joined, limits: Sequence[Limit], size: int | None, end: float,
                 progress: Progress | None, bounds: Bounds):
        self.search, self.size, self._end = Search(joined, limits), size, end
        self._progress, self._bounds = progress, bounds
        self.best: set[int] | None = None
        self.gain: int | None = None
        self._tried: set[tuple[int, ...]] = set()
        self._spent, self._began = 0.0, time.monotonic()

    def take(self, members: set[int]) -> None:
        """Keeps a plan, if it is the best so far."""
        gain = self.search.joined.gain_of(members)
        if self.gain is None or gain > self.gain:
            self.best, self.gain = set(members), gain

    def improve(self, plan: Plan) -> None:
        """Keeps a plan, and exchanges its elements for better ones as long as that is worth the
        time."""
        self.take(plan.members)
        gain = self.search.joined.gain_of(plan.members)
        began = time.monotonic()
        near = self.gain is None or gain >= self.gain - 0.02 * abs(self.gain)
        if near and self._spent < 0.3 * (began - self._began) + 2:
            self.search.exchange(plan, self.size, min(self._end, began + 0.5))
            self._spent += time.monotonic() - began
            self.take(plan.members)

    def of_solve(self, found: Solve, share: Mapping[int, float]) -> int | None:
        """Makes plans of the sets of a solve, and answers the greatest gain so far."""
        score = [it / self._bounds.scale for it in found.charged]
        order = sorted(self.search.by_gain, key=lambda it: -score[it])
        for members in found.sets:
            if tuple(members) not in self._tried:
                self._tried.add(tuple(members))
                self._of_set(members, order, score)
        if share and self.size is None:
            plan = Plan(self.search)
            mixed = sorted(self.search.by_gain,
                           key=lambda it: (-round(share.get(it, 0), 2), -score[it]))
            self.search.fill(plan, mixed, len(score), True)
            self.improve(plan)
        if self._progress:
            best = "none" if self.gain is None else self.search.joined.spelled(self.gain)
            self._progress.tell(f"{self._bounds.count} solves, the best plan gains {best}")
        return self.gain

    def _of_set(self, members: Sequence[int], order: Sequence[int],
                score: Sequence[float]) -> None:
        """Makes a plan of a set."""
        if self.size is not None:
            repaired = self.search.repaired(members, self.size, score,
                                            min(self._end, time.monotonic() + 1))
            if repaired:
                self.improve(repaired)
            return
        plan = Plan(self.search, members)
        self.search.thin(plan, [float(it) for it in self.search.gains])
        self.search.fill(plan, order, len(score), True)
        self.improve(plan)


def _first_plan(plans: _Plans, use_highs: bool, seconds: float) -> None:
    """The plans to begin with: the empty one, if all sizes are asked for; and the one that HiGHS
    finds, if scipy is there."""
    if plans.size is None and plans.search.keeps(()):
        plans.take(set())
    found = plan_by_highs(plans.search, plans.size, seconds) if use_highs else None
    if found is not None and plans.search.keeps(found) and plans.size in (None, len(found)):
        plans.take(set(found))


def solve(joined: Joined, limits: Sequence[Limit], size: int | None = None,
          seconds: float = SECONDS, solves: int = SOLVES, parts: int = PARTS,
          use_highs: bool = True, progress: Progress | None = None) -> Outcome:
    """A plan that keeps the descriptions and the further limits, of exactly `size` elements or of
    any number, and a bound that no plan exceeds, within some `seconds`, `solves` for prices and
    `parts` solves for parts of all plans. Raises InputFault where the size is none."""
    if size is not None and not 0 <= size <= joined.n:
        raise InputFault(f"a size is from 0 to {joined.n}, the number of elements, and not {size}")
    began = time.monotonic()
    end = began + seconds
    bounds = Bounds(joined, limits, size)
    plans = _Plans(joined, limits, size, end, progress, bounds)
    _first_plan(plans, use_highs, seconds / 3)
    pricing = Pricing(bounds, plans.of_solve, lambda: time.monotonic() > end)
    pricing.low = plans.gain
    pricing.run(solves)
    if pricing.best is None:
        if not pricing.is_empty:
            raise InputFault("the weights are too large: measure them in larger units")
        return _outcome(plans, bounds, [Leaf((), None)], began)
    root = Leaf((), pricing.best.prices, pricing.best.value)
    if pricing.is_closed or not parts:
        return _outcome(plans, bounds, [root], began)
    branching = Branching(bounds, root, pricing.share, plans.of_solve, lambda ins: (
        size is None or len(ins) <= size) and plans.search.keeps(ins))
    branching.run(plans.gain, parts, lambda: time.monotonic() > end)
    return _outcome(plans, bounds, branching.leaves, began)


def _outcome(plans: _Plans, bounds: Bounds, leaves: Sequence[Leaf], began: float) -> Outcome:
    """What is known by these leaves."""
    tops = [bounds.floor(it.value) for it in leaves if it.prices is not None]
    bound = max(tops, default=None)
    if bound is not None and plans.size is not None and plans.gain is None and \
            bound < sum(sorted(bounds.joined.gains)[:plans.size]):
        bound = None
    plan = None if plans.best is None else tuple(sorted(plans.best))
    return Outcome(bounds.joined, bounds.limits, plans.size, plan, plans.gain, bound, bounds.scale,
                   leaves, bounds.count, time.monotonic() - began)
