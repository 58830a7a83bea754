"""Plans that keep all limits: by dropping, adding and exchanging elements."""
from __future__ import annotations

import time
from typing import TYPE_CHECKING

if TYPE_CHECKING:
    from collections.abc import Collection, Iterable, Sequence

    from matbench.limits.problem import Joined, Limit


class Plan:
    """A set of elements, and how much of each limit it uses."""

    def __init__(self, search: Search, members: Iterable[int] = ()):
        self._of = search.of
        self.members: set[int] = set()
        self.used = [0] * len(search.caps)
        for it in members:
            self.add(it)

    def add(self, element: int) -> None:
        """Adds an element."""
        self.members.add(element)
        for limit, amount in self._of[element]:
            self.used[limit] += amount

    def drop(self, element: int) -> None:
        """Takes an element out."""
        self.members.discard(element)
        for limit, amount in self._of[element]:
            self.used[limit] -= amount


class Search:
    """Makes plans. All limits that only count are one kind here: `caps`, and for each element its
    amounts by limits, `of`."""

    def __init__(self, joined: Joined, limits: Sequence[Limit]):
        self.joined, self.gains = joined, joined.gains
        self.caps: list[int] = []
        self.of: list[list[tuple[int, int]]] = [[] for _ in range(joined.n)]
        self._rest = [(rule, place) for place, part in enumerate(joined.parts)
                      for rule in part.rules if rule.counts is None]
        for start, part in zip(joined.starts, joined.parts):
            for rule in part.rules:
                for cap, members in rule.counts or ():
                    self._limit(cap, ((start + it, 1) for it in members))
        for limit in limits:
            self._limit(limit.most, limit.amounts.items())
        self.members: list[list[int]] = [[] for _ in self.caps]
        for element, own in enumerate(self.of):
            for each, _ in own:
                self.members[each].append(element)
        self.by_gain = sorted((it for it in range(joined.n) if all(
            amount <= self.caps[each] for each, amount in self.of[it])),
            key=lambda it: -self.gains[it])
        self._ranks = {it: rank for rank, it in enumerate(self.by_gain) if self.gains[it] > 0}
        self._near: dict[int, frozenset[int]] = {}

    def _limit(self, cap: int, amounts: Iterable[tuple[int, int]]) -> None:
        """Adds a limit."""
        for element, amount in amounts:
            self.of[element].append((len(self.caps), amount))
        self.caps.append(cap)

    def _rest_allows(self, members: Collection[int]) -> bool:
        """Whether the matroids that do more than count allow a set."""
        return all(rule.allows(self.joined.inside(members, place)) for rule, place in self._rest)

    def keeps(self, members: Collection[int]) -> bool:
        """Whether a set keeps all limits."""
        used = Plan(self, members).used
        return all(map(int.__le__, used, self.caps)) and self._rest_allows(members)

    def fits(self, plan: Plan, element: int) -> bool:
        """Whether an element can be added to a plan."""
        used, caps = plan.used, self.caps
        if element in plan.members:
            return False
        for each, amount in self.of[element]:
            if used[each] + amount > caps[each]:
                return False
        return not self._rest or self._rest_allows(plan.members | {element})

    def thin(self, plan: Plan, score: Sequence[float]) -> None:
        """Drops what is worth least for what it frees, until all limits are kept."""
        while True:
            over = {each: used - cap for each, (used, cap)
                    in enumerate(zip(plan.used, self.caps)) if used > cap}
            if not over:
                break

            def loss(element: int) -> float:
                freed = sum(min(1.0, amount / over[each]) for each, amount in self.of[element]
                            if each in over)
                worth = score[element]
                return worth / freed if freed and worth > 0 else worth if freed else float("inf")
            plan.drop(min(sorted(plan.members), key=loss))
        if self._rest and not self._rest_allows(plan.members):
            for it in sorted(plan.members, key=lambda each: score[each]):
                if self._rest_allows(plan.members):
                    break
                plan.drop(it)

    def fill(self, plan: Plan, order: Iterable[int], most: int, only_gains: bool) -> None:
        """Adds what fits, in an order, up to so many elements."""
        for it in order:
            if len(plan.members) >= most:
                break
            if (self.gains[it] > 0 or not only_gains) and self.fits(plan, it):
                plan.add(it)

    def _outs(self, plan: Plan, element: int) -> list[int] | None:
        """What has to go so that an element fits: of each limit that it breaks what gains least.
        None where that cannot be."""
        outs: list[int] = []
        for each, amount in self.of[element]:
            short = plan.used[each] + amount - self.caps[each]
            short -= sum(own for out in outs for limit, own in self.of[out] if limit == each)
            if short <= 0:
                continue
            own = sorted((it for it in self.members[each] if it in plan.members and it not in outs),
                         key=lambda it: self.gains[it])
            for it in own:
                outs.append(it)
                short -= next(amount for limit, amount in self.of[it] if limit == each)
                if short <= 0:
                    break
            if short > 0 or len(outs) > 3:
                return None
        return outs

    def exchange(self, plan: Plan, size: int | None, until: float) -> None:
        """Exchanges elements for others, with what then fits besides, as long as it gains more."""
        better = True
        while better and time.monotonic() < until:
            better = False
            for element in self.by_gain:
                if element not in plan.members and self._exchanged(plan, element, size):
                    better = True
                if time.monotonic() > until:
                    break

    def _near_to(self, element: int) -> frozenset[int]:
        """The elements that share a limit with an element and gain something, by their places in
        the order of gains."""
        if element not in self._near:
            self._near[element] = frozenset(self._ranks[it] for each, _ in self.of[element]
                                            for it in self.members[each] if it in self._ranks)
        return self._near[element]

    def _filled(self, plan: Plan, outs: Sequence[int]) -> list[int]:
        """Adds what fits now that these elements are out of a plan, the greatest gain first, and
        answers it."""
        used, caps, of, added = plan.used, self.caps, self.of, []
        for rank in sorted(frozenset().union(*map(self._near_to, outs))):
            element = self.by_gain[rank]
            for each, amount in of[element]:
                if used[each] + amount > caps[each]:
                    break
            else:
                if element not in outs and self.fits(plan, element):
                    plan.add(element)
                    added.append(element)
        return added

    def _exchanged(self, plan: Plan, element: int, size: int | None) -> bool:
        """Whether a plan gains by an element in the place of others, which is done then."""
        outs = self._outs(plan, element)
        if outs is None or size is not None and len(outs) != 1:
            return False
        lost = sum(self.gains[it] for it in outs)
        if size is not None and self.gains[element] <= lost:
            return False
        for it in outs:
            plan.drop(it)
        added: list[int] = []
        if self.fits(plan, element):
            plan.add(element)
            added.append(element)
            if size is None:
                added += self._filled(plan, outs)
        if added and sum(self.gains[it] for it in added) > lost:
            return True
        for it in added:
            plan.drop(it)
        for it in outs:
            plan.add(it)
        return False

    def repaired(self, members: Iterable[int], size: int, score: Sequence[float],
                 until: float) -> Plan | None:
        """A plan of so many elements that keeps all limits, by exchanges that make what is broken
        less; or None where none is found."""
        plan = Plan(self, members)
        last: dict[int, int] = {}
        for step in range(150):
            excess = self._excess(plan)
            if not excess and len(plan.members) == size:
                return plan if self._rest_allows(plan.members) else None
            if time.monotonic() > until or not self._repair(plan, size, score, last, step):
                return None
        return None

    def _excess(self, plan: Plan) -> float:
        """By how much a plan breaks limits, as a share of each."""
        return sum((used - cap) / (cap or 1) for used, cap in zip(plan.used, self.caps)
                   if used > cap)

    def _repair(self, plan: Plan, size: int, score: Sequence[float], last: dict[int, int],
                step: int) -> bool:
        """Makes the exchange, or takes or gives the element, that leaves least broken; of these the
        one of the best score. What was moved of late stays."""
        broken = {each for each, used in enumerate(plan.used) if used > self.caps[each]}
        outs = [it for it in sorted(plan.members) if not broken or any(
            each in broken for each, _ in self.of[it])] if len(plan.members) >= size else [-1]
        free = [it for it in self.by_gain if it not in plan.members and last.get(it, -1) < step]
        ins = [-1] if len(plan.members) > size else free[:200]
        best: tuple[float, float, int, int] | None = None
        for out in outs:
            if out >= 0:
                plan.drop(out)
            for it in ins:
                if it >= 0:
                    plan.add(it)
                worth = (self._excess(plan), score[out] * (out >= 0) - score[it] * (it >= 0), out,
                         it)
                best = min(best or worth, worth)
                if it >= 0:
                    plan.drop(it)
            if out >= 0:
                plan.add(out)
        if best is None:
            return False
        if best[2] >= 0:
            plan.drop(best[2])
            last[best[2]] = step + 10
        if best[3] >= 0:
            plan.add(best[3])
        return True
