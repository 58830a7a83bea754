"""Weights: whole numbers, or pairs of them, of which the second breaks ties."""
from __future__ import annotations

import functools
from collections.abc import Iterable
from dataclasses import dataclass
from typing import Any


@functools.total_ordering
@dataclass(frozen=True)
class Weight:
    """A weight with a second number: `gain` counts, and `tie`, which is not 0, decides between
    equal gains. Weights are compared, added and subtracted with each other and with ints, which
    stand for a tie of 0. A sum is exact, and an int if its tie is 0."""

    gain: int
    tie: int

    def __post_init__(self) -> None:
        if self.tie == 0:
            raise ValueError(f"a weight without a tie is an int: {self.gain}")

    def __lt__(self, other: Weight | int) -> bool:
        if not isinstance(other, (Weight, int)):
            return NotImplemented
        return pair_of(self) < pair_of(other)

    def __add__(self, other: Weight | int) -> Weight | int:
        if not isinstance(other, (Weight, int)):
            return NotImplemented
        gain, tie = pair_of(other)
        return weight_of(self.gain + gain, self.tie + tie)

    __radd__ = __add__

    def __neg__(self) -> Weight:
        return Weight(-self.gain, -self.tie)

    def __sub__(self, other: Weight | int) -> Weight | int:
        return self + -other if isinstance(other, (Weight, int)) else NotImplemented

    def __rsub__(self, other: int) -> Weight | int:
        return -self + other if isinstance(other, int) else NotImplemented

    def __str__(self) -> str:
        return f"{self.gain}:{self.tie}"


def pair_of(weight: Weight | int) -> tuple[int, int]:
    """The two numbers of a weight."""
    return (weight.gain, weight.tie) if isinstance(weight, Weight) else (weight, 0)


def weight_of(gain: int, tie: int) -> Weight | int:
    """The weight of these two numbers."""
    return Weight(gain, tie) if tie else gain


def read_weight(word: str) -> Weight | int:
    """The weight that a word of a text is."""
    gain, _, tie = word.partition(":")
    return weight_of(int(gain), int(tie or 0))


def read_weights(words: Iterable[str]) -> tuple[Weight | int, ...]:
    """The weights that words of a text are."""
    return tuple(map(read_weight, words))


def spelling(weight: Any) -> str:
    """A weight as it is written: an int, what is equal to one, or a Weight."""
    if isinstance(weight, Weight):
        return str(weight)
    try:
        number = None if isinstance(weight, (str, bytes)) else int(weight)
    except (TypeError, ValueError, OverflowError):
        number = None
    if number is None:
        raise TypeError(f"a weight is an int or a Weight, and not {weight!r}")
    if number != weight:
        raise ValueError(f"{weight} is no whole number: measure in a smaller unit")
    return str(number)
