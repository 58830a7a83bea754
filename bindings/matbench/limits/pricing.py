"""The search for prices that give a small bound, by a bundle method with a distance to the best
prices so far, and covers, which sharpen a limit."""
from __future__ import annotations

from dataclasses import dataclass, field
from typing import TYPE_CHECKING

from matbench.limits.problem import Limit

if TYPE_CHECKING:
    from collections.abc import Callable, Mapping, Sequence

    from matbench.limits.bounds import Bounds, Solve

#: So many turns of the search for the next prices, so many solves in a row without a better bound,
#: and so many prices in a row that are too large for a solve.
TURNS, NULLS, MISSES = 300, 25, 8


@dataclass
class Mixed:
    """Prices, the share of each cut in them, and the bound that the cuts foresee there."""

    prices: list[float]
    shares: dict[int, float]
    foreseen: float


def _value(cut: tuple[float, list[float]], prices: Sequence[float]) -> float:
    return cut[0] + sum(map(float.__mul__, cut[1], prices))


def next_prices(cuts: Sequence[tuple[float, list[float]]], center: Sequence[float],
                step: float) -> Mixed:
    """The prices from 0 that minimise the greatest of the cuts and the distance to the center."""
    first = max(range(len(cuts)), key=lambda it: _value(cuts[it], center))
    shares, total = {first: 1.0}, list(cuts[first][1])
    for _ in range(TURNS):
        prices = [max(0.0, at - step * each) for at, each in zip(center, total)]
        values = [_value(cut, prices) for cut in cuts]
        up = max(range(len(cuts)), key=values.__getitem__)
        down = min(shares, key=values.__getitem__)
        gap = values[up] - values[down]
        if gap <= max(0.02, 2e-6 * abs(values[up])):
            break
        away = [one - other for one, other in zip(cuts[up][1], cuts[down][1])]
        curve = step * sum(it * it for it in away)
        move = min(shares[down], gap / curve) if curve > 0 else shares[down]
        shares[up] = shares.get(up, 0.0) + move
        shares[down] -= move
        if shares[down] <= 1e-12:
            del shares[down]
        total = [at + move * it for at, it in zip(total, away)]
    prices = [max(0.0, at - step * each) for at, each in zip(center, total)]
    return Mixed(prices, shares, max(_value(cut, prices) for cut in cuts))


def cover_of(limit: Limit, share: Mapping[int, float]) -> Limit | None:
    """A limit that follows from another one and that the mixed plans break: of some elements any so
    many are more than it allows. None where none is found."""
    items = sorted((it for it in limit.amounts if share.get(it, 0) > 1e-6),
                   key=lambda it: ((1 - share[it]) / limit.amounts[it], -limit.amounts[it]))
    chosen: list[int] = []
    total = 0
    for it in items:
        if total > limit.most:
            break
        chosen.append(it)
        total += limit.amounts[it]
    if total <= limit.most:
        return None
    for it in sorted(chosen, key=lambda each: share[each]):
        if total - limit.amounts[it] > limit.most:
            chosen.remove(it)
            total -= limit.amounts[it]
    wide = _widened(limit, chosen)
    if sum(share.get(it, 0) for it in wide) <= len(chosen) - 1 + 0.02:
        return None
    name = f"{limit.name}: any {len(chosen)} of {len(wide)}"
    return Limit(name, len(chosen) - 1, dict.fromkeys(sorted(wide), 1), 1, limit)


def _widened(limit: Limit, chosen: Sequence[int]) -> set[int]:
    """These elements, and others of which any so many are more than a limit too."""
    top = max(limit.amounts[it] for it in chosen)
    wide = set(chosen) | {it for it, amount in limit.amounts.items() if amount >= top}
    for it in sorted(limit.amounts, key=lambda each: -limit.amounts[each]):
        if it not in wide:
            least = sorted(limit.amounts[each] for each in [*wide, it])[:len(chosen)]
            if sum(least) <= limit.most:
                break
            wide.add(it)
    return wide


@dataclass
class Pricing:
    """The loop of prices. `best` is the solve with the least bound so far, `share` how much of each
    element is in the mixed plans; `is_empty` says that no plan has the size. `on_plans` makes plans
    of sets that keep all limits, and answers the greatest gain of one so far, or None."""

    bounds: Bounds
    on_plans: Callable[[Solve, Mapping[int, float]], int | None]
    until: Callable[[], bool]
    best: Solve | None = None
    share: dict[int, float] = field(default_factory=dict)
    low: int | None = None
    is_empty: bool = False
    _sets: list[list[int]] = field(default_factory=list)
    _units: list[float] = field(default_factory=list)
    _uses: dict[tuple[int, ...], list[int]] = field(default_factory=dict)

    def _take(self, prices: Sequence[float]) -> Solve | None:
        """Solves at prices, keeps the plans and the bound."""
        found = self.bounds.solve(prices)
        if found is None or not found.sets:
            self.is_empty = found is not None
            return None
        if self.best is None or found.value < self.best.value:
            self.best = found
        self._sets += [it for it in found.sets if it not in self._sets]
        del self._sets[:max(0, len(self._sets) - 40 - 2 * len(self.bounds.limits))]
        self.low = self.on_plans(found, self.share)
        return found

    def _set_units(self) -> None:
        """Of each limit the unit in which its price is measured, so that all move alike."""
        gains = self.bounds.joined.gains
        mean = sum(abs(it) for it in gains) / max(1, len(gains)) or 1.0
        self._units = [max(mean * len(it.amounts) / max(1, sum(it.amounts.values())),
                           1.0 / self.bounds.scale) for it in self.bounds.limits]

    def _used(self, members: Sequence[int]) -> list[int]:
        """What a plan uses of each limit. It is counted once; limits are only added."""
        known = self._uses.setdefault(tuple(members), [])
        known += [it.used(members) for it in self.bounds.limits[len(known):]]
        return known

    def _cuts(self) -> list[tuple[float, list[float]]]:
        """The plans as cuts."""
        return [(float(self.bounds.joined.gain_of(members)),
                 [(it.most - used) * unit for it, used, unit
                  in zip(self.bounds.limits, self._used(members), self._units)])
                for members in self._sets]

    @property
    def is_closed(self) -> bool:
        """Whether the bound leaves nothing above the best plan."""
        return self.best is not None and self.low is not None and self.bounds.floor(
            self.best.value) <= self.low

    def _more_limits(self) -> bool:
        """Adds covers that the mixed plans break, and answers whether there are any."""
        known = {(frozenset(it.amounts), it.most) for it in self.bounds.limits if it.source}
        found = [cover_of(it, self.share) for it in self.bounds.limits if not it.source]
        fresh = [it for it in found if it and (frozenset(it.amounts), it.most) not in known]
        self.bounds.limits += fresh
        self._set_units()
        return bool(fresh)

    def _first_step(self, value: float) -> float:
        """How far the first prices go: as if the bound fell to the best plan by them."""
        slopes = self._cuts()[0][1]
        norm = sum(min(0.0, it) ** 2 for it in slopes) or sum(it * it for it in slopes)
        aim = self.low if self.low is not None else value * 0.8
        return max(1e-9, (value - aim) / norm) if norm else 0.0

    def _mix(self, center: Sequence[float], step: float) -> Mixed:
        """The next prices, and the shares of elements in them."""
        mixed = next_prices(self._cuts(), center, step)
        self.share = {}
        for place, part in mixed.shares.items():
            for it in self._sets[place]:
                self.share[it] = self.share.get(it, 0.0) + part
        return mixed

    def _next(self, center: list[float], value: float, step: float,
              is_stuck: bool) -> tuple[Mixed, float] | None:
        """The next prices and the step to them, with covers and a longer step where the cuts
        foresee no lower bound; or None where that does not help. `center` is extended for covers."""
        mixed = self._mix(center, step)
        is_tight = value - mixed.foreseen < max(0.15, 2e-4 * abs(value - (self.low or 0)))
        if not is_tight and not is_stuck:
            return mixed, step
        if self._more_limits():
            center += [0.0] * (len(self.bounds.limits) - len(center))
            return self._mix(center, step), step
        if not is_tight or step >= 1e6:
            return None
        mixed = self._mix(center, step * 100)
        return None if value - mixed.foreseen < 0.15 else (mixed, step * 100)

    def run(self, solves: int) -> None:
        """Searches for prices, by so many solves at most, until the bound meets the best plan or
        does not fall any more."""
        self._set_units()
        center, scale = [0.0] * len(self.bounds.limits), self.bounds.scale
        nulls = misses = 0
        found = self._take(center)
        if found is None:
            return
        value = found.value / scale
        step = self._first_step(value)
        while step and self.bounds.count < solves and not self.is_closed and not self.until():
            limits = len(self.bounds.limits)
            following = self._next(center, value, step, nulls >= NULLS)
            if following is None:
                return
            mixed, step = following
            nulls = 0 if len(self.bounds.limits) > limits else nulls
            found = self._take([it * unit for it, unit in zip(mixed.prices, self._units)])
            misses = 0 if found else misses + 1
            if misses > MISSES:
                return
            if found is None:
                step /= 10
            elif found.value / scale < value - 0.1 * max(0.0, value - mixed.foreseen):
                center, value = mixed.prices, found.value / scale
                step, nulls = step * 1.5, 0
            else:
                nulls += 1
                step *= 0.6 if nulls % 3 == 0 else 1.0
