"""Parts of all plans, those with an element and those without it, until the bound of each part
meets the best plan."""
from __future__ import annotations

import heapq
from dataclasses import dataclass, field
from typing import TYPE_CHECKING

from matbench.limits.bounds import unfit

if TYPE_CHECKING:
    from collections.abc import Callable, Mapping, Sequence

    from matbench.limits.bounds import Bounds, Solve

#: So many solves at most for one part.
TURNS = 6


@dataclass(frozen=True)
class Leaf:
    """A part of all plans: those that have (True) or have not (False) these elements. `prices` and
    `value` are of its best solve; `prices` is None where the part has no plan."""

    path: tuple[tuple[bool, int], ...]
    prices: tuple[int, ...] | None
    value: int = 0

    @property
    def ins(self) -> set[int]:
        """The elements that its plans have."""
        return {it for has, it in self.path if has}

    @property
    def outs(self) -> set[int]:
        """The elements that its plans do not have."""
        return {it for has, it in self.path if not has}


@dataclass(order=True)
class _Open:
    """A leaf that may have a better plan, with the shares of elements in its plans so far. Those
    of the greatest bound come first."""

    key: tuple[int, int]
    leaf: Leaf = field(compare=False)
    prices: list[float] = field(compare=False)
    share: Mapping[int, float] = field(compare=False)


class Branching:
    """The search through parts. `on_plans` is as for the prices, `fits` says whether a plan may
    have these elements at once."""

    def __init__(self, bounds: Bounds, root: Leaf, share: Mapping[int, float],
                 on_plans: Callable[[Solve, Mapping[int, float]], int | None],
                 fits: Callable[[set[int]], bool]):
        self.bounds, self._on_plans, self._fits = bounds, on_plans, fits
        self._closed: list[Leaf] = []
        self._open: list[_Open] = []
        self._number = 0
        self._push(root, [it / bounds.scale for it in root.prices or ()], share)

    def _push(self, leaf: Leaf, prices: list[float], share: Mapping[int, float]) -> None:
        """Adds an open leaf."""
        self._number += 1
        heapq.heappush(self._open, _Open((-leaf.value, self._number), leaf, prices, share))

    @property
    def leaves(self) -> list[Leaf]:
        """All leaves, which are all plans together."""
        return [*self._closed, *(it.leaf for it in self._open)]

    def run(self, low: int | None, solves: int, until: Callable[[], bool]) -> None:
        """Goes on until each part is closed, or so many solves are spent, or time is."""
        last = self.bounds.count + solves
        while self._open and self.bounds.count < last and not until():
            at = heapq.heappop(self._open)
            if low is not None and self.bounds.floor(at.leaf.value) <= low:
                self._closed.append(at.leaf)
                continue
            element = self._element(at)
            if element is None:
                self._closed.append(at.leaf)
                continue
            for has in (True, False):
                low = self._child(at, (has, element), low)

    def _element(self, at: _Open) -> int | None:
        """The element to branch on: of those that are in some of the mixed plans and not in all the
        one that is worth most. None where there is none left."""
        gains, fixed = self.bounds.joined.gains, {it for _, it in at.leaf.path}
        free = [it for it, part in at.share.items() if it not in fixed and 0.001 < part < 0.999]
        free = free or [it for it, part in at.share.items() if it not in fixed and part > 0.5]
        free = free or [it for it in range(len(gains)) if it not in fixed]
        worth = [(min(at.share.get(it, 0.0), 1 - at.share.get(it, 0.0)) * (abs(gains[it]) + 1), -it)
                 for it in free]
        return -max(worth)[1] if worth else None

    def _child(self, at: _Open, more: tuple[bool, int], low: int | None) -> int | None:
        """Bounds a part of a part, and answers the greatest gain of a plan so far."""
        path = (*at.leaf.path, more)
        leaf = Leaf(path, None)
        if more[0] and not self._fits(leaf.ins):
            self._closed.append(leaf)
            return low
        gone = sorted(leaf.outs | unfit(self.bounds.limits, leaf.ins))
        prices, best, sets = list(at.prices), None, []
        for turn in range(TURNS):
            found = self.bounds.solve(prices, sorted(leaf.ins), gone, 1)
            if found is None:
                break
            if not found.sets:
                self._closed.append(leaf)
                return low
            sets.append(found.sets[0])
            if best is None or found.value < best[0].value:
                best = found, list(prices)
            low = self._on_plans(found, {})
            wanted = self._lower(found, prices, low, turn)
            if wanted is None:
                break
            prices = wanted
        if best is None:
            # A charged weight is too large even at the prices of the part above, whose bound holds.
            self._keep(Leaf(path, at.leaf.prices, at.leaf.value), at.prices, at.share, None)
            return low
        self._keep(Leaf(path, best[0].prices, best[0].value), best[1], _mixed(at.share, sets), low)
        return low

    def _keep(self, leaf: Leaf, prices: list[float], share: Mapping[int, float],
              low: int | None) -> None:
        """Keeps a leaf, as closed if it leaves nothing above the best plan."""
        if low is not None and self.bounds.floor(leaf.value) <= low:
            self._closed.append(leaf)
        else:
            self._push(leaf, prices, share)

    def _lower(self, found: Solve, prices: Sequence[float], low: int | None,
               turn: int) -> list[float] | None:
        """Prices that may give a lower bound than this one, or None where it is low enough."""
        value = found.value / self.bounds.scale
        aim = (low if low is not None else value - 1) + 0.9
        if value < aim + 0.1 or turn == TURNS - 1:
            return None
        inside = found.sets[0]
        slope = [it.most - it.used(inside) for it in self.bounds.limits]
        slope = [0 if price <= 0 and it > 0 else it for price, it in zip(prices, slope)]
        norm = sum(it * it for it in slope)
        if not norm:
            return None
        step = (value - aim) * (0.5 if turn > 2 else 1.0) / norm
        return [max(0.0, price - step * it) for price, it in zip(prices, slope)]


def _mixed(share: Mapping[int, float], sets: Sequence[Sequence[int]]) -> dict[int, float]:
    """The shares of elements in plans of a part, half of them those of the part above."""
    found = {it: 0.5 * part for it, part in share.items()}
    for members in sets:
        for it in members:
            found[it] = found.get(it, 0.0) + 0.5 / len(sets)
    return found
