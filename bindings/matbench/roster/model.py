"""What a roster is made of: wishes, and limits for shifts and people."""
from __future__ import annotations

from dataclasses import dataclass, field
from fractions import Fraction


@dataclass(frozen=True)
class Shift:
    """A shift of one day of one week; `day` and `week` are empty where the wishes do not say
    them. `title` is what it is called, so that no two shifts are called the same."""

    week: str
    day: str
    name: str
    title: str


@dataclass(frozen=True)
class Wish:
    """That a person works in a shift, with what it gains. `kind` is a word for limits within a
    shift or of a person, as night or senior. `must`: it has to be granted; `never`: it must not be;
    `last`: it was granted last time, None where nothing is said of last time. It takes so many
    `hours`."""

    person: str
    shift: Shift
    gain: Fraction
    kind: str = ""
    must: bool = False
    never: bool = False
    last: bool | None = None
    hours: Fraction = Fraction(0)


@dataclass(frozen=True)
class ShiftLimit:
    """How many work in a shift: at most `most` and, if they can be had, `least`. `kinds` has for
    some kinds how many of these at most (None for no limit) and at least."""

    most: int
    least: int = 0
    kinds: dict[str, tuple[int | None, int]] = field(default_factory=dict)

    @property
    def demanded(self) -> int:
        """How many are needed in all."""
        return self.least + sum(least for _, least in self.kinds.values())


@dataclass(frozen=True)
class PersonLimit:
    """How often a person works: at most `most` times, `week` times in each week and `day` times on
    each day (None for no limit), and so often in shifts of some kinds; and at most so many hours in
    all."""

    most: int
    week: int | None = None
    day: int | None = None
    kinds: dict[str, int] = field(default_factory=dict)
    hours: Fraction | None = None


@dataclass(frozen=True)
class Request:
    """What a roster is asked for: wishes, and the limits of the shifts and the people. Shifts that
    nobody wishes are among the shifts too if they need somebody. `notes` say how the tables were
    read."""

    wishes: tuple[Wish, ...]
    shifts: dict[Shift, ShiftLimit]
    people: dict[str, PersonLimit]
    notes: tuple[str, ...] = ()

    @property
    def has_demands(self) -> bool:
        """Whether something is needed: a least number, or a wish that has to be granted."""
        return any(it.demanded for it in self.shifts.values()) or any(
            it.must for it in self.wishes)

    @property
    def has_last(self) -> bool:
        """Whether the wishes say what was granted last time."""
        return any(it.last is not None for it in self.wishes)

    @property
    def has_hours(self) -> bool:
        """Whether hours are limited."""
        return any(it.hours is not None for it in self.people.values())
