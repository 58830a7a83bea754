"""Bounds that no plan exceeds: each further limit gets a price, and each element is charged what it
counts. The best plan with the charged weights, which the program finds and proves, and the prices
of all that the limits allow, are together at least the gain of every plan that keeps all limits."""
from __future__ import annotations

from dataclasses import dataclass
from typing import TYPE_CHECKING

from matbench.calls import call_at_once, done
from matbench.writing import MOST_WEIGHT

if TYPE_CHECKING:
    from collections.abc import Collection, Sequence

    from matbench.limits.problem import Joined, Limit

#: A gain of one is up to so many units of price.
MOST_SCALE = 1000


def rungs_of(certificate: str) -> list[tuple[int, list[int]]]:
    """The rungs of an answer of intersect to a description with numbers and whole weights."""
    found: list[tuple[int, list[int]]] = []
    weight = 0
    for line in certificate.split("\n"):
        if line.startswith("rung "):
            weight = int(line.rsplit(" ", 1)[1])
        elif line.startswith("set"):
            found.append((weight, [int(it) for it in line.split()[1:]]))
    return found


def solved(text: str) -> str:
    """The certificate of intersect for a description."""
    return done(call_at_once(["intersect", "f"], {"f": text.encode()}), text)


@dataclass(frozen=True)
class Solve:
    """What one solve shows: `value` is the bound in units of price, at the whole `prices`, one for
    each limit that there was; `sets` are the best plans with the charged weights. There are none
    where no plan has the size."""

    value: int
    prices: tuple[int, ...]
    sets: list[list[int]]
    charged: list[int]


def scale_for(joined: Joined) -> int:
    """How many units of price a gain of one is, so that charged weights are not too large."""
    top, scale = max([1, *(abs(it) for it in joined.gains)]), 1
    while scale < MOST_SCALE and top * scale * 100 <= MOST_WEIGHT:
        scale *= 10
    return scale


def charged_by(joined: Joined, limits: Sequence[Limit], prices: Sequence[int],
               scale: int) -> list[int]:
    """The weights of the elements, less the prices of what they count."""
    charged = [it * scale for it in joined.gains]
    for limit, price in zip(limits, prices):
        if price:
            for element, amount in limit.amounts.items():
                charged[element] -= price * amount
    return charged


def unfit(limits: Sequence[Limit], ins: Collection[int]) -> set[int]:
    """The elements that do not fit beside these, by a further limit alone."""
    found: set[int] = set()
    for it in limits:
        left = it.most - it.used(ins)
        found.update(element for element, amount in it.amounts.items()
                     if amount > left and element not in ins)
    return found


def joined_ladders(ladders: Sequence[list[tuple[int, list[int]]]]) -> dict[int, tuple[int,
                                                                                      list[int]]]:
    """For each number of elements the greatest weight of rungs of all parts that have as many, and
    their sizes."""
    table: dict[int, tuple[int, list[int]]] = {0: (0, [])}
    for rungs in ladders:
        after: dict[int, tuple[int, list[int]]] = {}
        for size, (weight, chosen) in table.items():
            for more, (own, _) in enumerate(rungs):
                if size + more not in after or weight + own > after[size + more][0]:
                    after[size + more] = weight + own, [*chosen, more]
        table = after
    return table


def _chosen(ladders: Sequence[list[tuple[int, list[int]]]], left: int | None,
            want: int) -> list[list[int]]:
    """The sizes of rungs to take of each part: the best ones and some that are nearly so, or those
    that are best for so many elements together; none where there are none."""
    if left is not None:
        table = joined_ladders(ladders)
        return [table[left][1]] if left in table else []
    tops = [[size for _, size in sorted((-weight, size) for size, (weight, _) in enumerate(rungs))]
            [:want] for rungs in ladders]
    first = [own[0] for own in tops]
    return [first] + [[*first[:place], other, *first[place + 1:]]
                      for place, own in enumerate(tops) for other in own[1:]]


class Bounds:
    """Solves at prices. `limits` are the further limits, and those that follow from them."""

    def __init__(self, joined: Joined, limits: Sequence[Limit], size: int | None):
        self.joined, self.size = joined, size
        self.limits = list(limits)
        self.scale = scale_for(joined)
        self.count = 0

    def floor(self, value: int) -> int:
        """The greatest gain that a bound leaves, as gains are whole."""
        return value // self.scale

    def solve(self, prices: Sequence[float], ins: Collection[int] = (),
              outs: Collection[int] = (), want: int = 3) -> Solve | None:
        """The bound for plans with some elements and without others, at these prices of a gain.
        None where a charged weight is too large."""
        whole = tuple(max(0, round(it * self.scale)) for it in prices)
        charged = charged_by(self.joined, self.limits, whole, self.scale)
        if max((abs(it) for it in charged), default=0) > MOST_WEIGHT:
            return None
        texts = self.joined.texts(charged, outs, ins)
        self.count += len(texts)
        ladders = [rungs_of(solved(text)) for text in texts]
        chosen = _chosen(ladders, None if self.size is None else self.size - len(ins), want)
        if not chosen:
            return Solve(0, whole, [], charged)
        fixed = sorted(ins)
        sets = [sorted([*fixed, *(start + it for start, rungs, size
                                  in zip(self.joined.starts, ladders, sizes)
                                  for it in rungs[size][1])]) for sizes in chosen]
        best = sum(rungs[size][0] for rungs, size in zip(ladders, chosen[0]))
        value = best + sum(charged[it] for it in ins) + sum(
            price * limit.most for price, limit in zip(whole, self.limits))
        return Solve(value, whole, sets, charged)
