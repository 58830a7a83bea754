"""A request as descriptions: one `pair` of the limits of shifts and of people, or one for each week
where it is too large for one, and further limits that cross these."""
from __future__ import annotations

import collections
from dataclasses import dataclass, field
from typing import TYPE_CHECKING, TypeVar

from matbench.descriptions import MOST
from matbench.faults import InputFault
from matbench.roster.names import names_of_wishes
from matbench.spreadsheets import scale_of
from matbench.writing import MOST_WEIGHT

if TYPE_CHECKING:
    from collections.abc import Callable, Hashable, Iterable, Mapping, Sequence

    from matbench.roster.model import Request, Shift, Wish

_Key = TypeVar("_Key")
#: What stands behind the name of the second element of a wish.
MORE = ".more"


@dataclass(frozen=True)
class Element:
    """An element of a description: a wish, by its place among the wishes, and its name. One that
    `counts` is for a least number. A wish of a shift with a least number may be two elements."""

    wish: int
    name: str
    counts: bool


@dataclass(frozen=True)
class Family:
    """At most `most` of these elements, or of what they count by `amounts`; `name` says for people
    what this limits. Amounts are in units of which `scale` are one of the table's."""

    name: str
    most: int
    members: frozenset[int]
    amounts: Mapping[int, int] = field(default_factory=dict)
    scale: int = 1

    def amount(self, element: int) -> int:
        """What an element counts."""
        return self.amounts.get(element, 1)


@dataclass(frozen=True)
class Written:
    """The descriptions of a request: the elements, the text of each description, and the further
    limits that keep to none of them alone, by elements."""

    elements: tuple[Element, ...]
    texts: tuple[str, ...]
    further: tuple[Family, ...]
    scale: int
    keeping: int


def _demands(wish: Wish, request: Request) -> tuple[bool, bool]:
    """Whether a wish counts for a least number, and whether it may be granted beyond that."""
    limit = request.shifts[wish.shift]
    least = limit.least or limit.kinds.get(wish.kind, (None, 0))[1]
    return least > 0, limit.most > least


def _elements(request: Request) -> list[Element]:
    """The elements: each wish that may be granted, and once more where it may count for a least
    number or not."""
    places = [i for i, it in enumerate(request.wishes) if not it.never]
    needs = any(limit.demanded for limit in request.shifts.values())
    names = names_of_wishes([(it.person, it.shift.title) for it in
                             (request.wishes[i] for i in places)], len(MORE) if needs else 0) \
        if places else []
    found = []
    for place, name in zip(places, names):
        counts, is_beyond = _demands(request.wishes[place], request)
        found.append(Element(place, name, counts))
        if counts and is_beyond:
            found.append(Element(place, name + MORE, False))
    return found


def _grouped(elements: Sequence[Element],
             key: Callable[[int], _Key]) -> dict[_Key, frozenset[int]]:
    """The elements by a key of their wishes, in the order of the keys' first elements."""
    found: dict[_Key, list[int]] = collections.defaultdict(list)
    for place, it in enumerate(elements):
        found[key(it.wish)].append(place)
    return {each: frozenset(members) for each, members in found.items()}


def _families_of_shift(shift: Shift, members: frozenset[int], request: Request,
                       elements: Sequence[Element]) -> Iterable[Family]:
    """What limits a shift: with a least number for all, those that count for it, and those beyond;
    else all, within these the kinds, and within these those that count for least numbers."""
    limit = request.shifts[shift]
    first = frozenset(it for it in members if elements[it].counts)
    if limit.least:
        yield Family(shift.title, limit.least, first)
        if members - first:
            yield Family(shift.title, limit.most - limit.least, members - first)
        return
    yield Family(shift.title, limit.most, members)
    for kind, (most, least) in limit.kinds.items():
        of_kind = frozenset(it for it in members if request.wishes[elements[it].wish].kind == kind)
        if most is not None and of_kind:
            yield Family(f"{shift.title}, {kind}", most, of_kind)
        if of_kind & first:
            yield Family(f"{shift.title}, {kind}, least", least, of_kind & first)


def _families_of_person(person: str, members: frozenset[int], request: Request,
                        elements: Sequence[Element]) -> Iterable[Family]:
    """What limits a person: in all, in a week, on a day, by the two elements of a wish, and by
    kinds."""
    limit = request.people[person]
    own = {it: request.wishes[elements[it].wish] for it in members}
    parts: list[tuple[str, int | None, Callable[[int], Hashable]]] = [
        ("week", limit.week, lambda it: own[it].shift.week),
        ("day", limit.day, lambda it: (own[it].shift.week, own[it].shift.day)),
        ("", 1, lambda it: elements[it].wish)]
    yield Family(person, limit.most, members)
    for what, most, key in parts:
        groups: dict[Hashable, set[int]] = collections.defaultdict(set)
        for it in sorted(members):
            groups[key(it)].add(it)
        for value, group in groups.items():
            if most is not None and most < min(limit.most, len(group)):
                words = " ".join(filter(None, value)) if isinstance(value, tuple) else str(value)
                yield Family(f"{person}, {what} {words}", most, frozenset(group))
    for kind, most in limit.kinds.items():
        of_kind = frozenset(it for it in members if own[it].kind == kind)
        if len(of_kind) > most:
            yield Family(f"{person}, {kind}", most, of_kind)


def _is_nested(one: frozenset[int], other: frozenset[int]) -> bool:
    return one <= other or other <= one or not one & other


def _laminar(families: Iterable[Family]) -> tuple[list[Family], list[Family]]:
    """Those of these families that nest, of equal sets the one with the least cap; and the rest,
    which cross them."""
    kept: dict[frozenset[int], Family] = {}
    crossing = []
    for it in families:
        if it.members in kept:
            kept[it.members] = min(kept[it.members], it, key=lambda each: each.most)
        elif all(_is_nested(it.members, other) for other in kept):
            kept[it.members] = it
        else:
            crossing.append(it)
    return list(kept.values()), crossing


def _parts(elements: Sequence[Element], request: Request) -> list[frozenset[int]]:
    """The elements of each description: all in one, or by weeks where these are too many. Raises
    InputFault where a week alone has too many, or there are no weeks."""
    if len(elements) <= MOST:
        return [frozenset(range(len(elements)))]
    weeks = _grouped(elements, lambda wish: request.wishes[wish].shift.week)
    week, most = max(weeks.items(), key=lambda it: len(it[1]))
    if len(most) <= MOST:
        return list(weeks.values())
    wishes = len({elements[it].wish for it in most})
    of = f"the week {week} has {wishes}" if len(weeks) > 1 else f"there are {wishes}"
    twice = f" (a wish of a shift with a least number is two elements: {len(most)} in all)" \
        if len(most) > wishes else ""
    advice = "leave out those of the least gain, or split the week" if len(weeks) > 1 else \
        "give the wishes a column week: weeks are then solved together, each of up to 500"
    raise InputFault(f"{of} wishes{twice}, and a description has at most {MOST} elements: {advice}")


def _line(word: str, most: int, members: Iterable[int], elements: Sequence[Element]) -> str:
    """The line of a limit."""
    return " ".join([word, str(min(most, MOST)), *(elements[it].name for it in sorted(members))])


def _matroid(families: Sequence[Family], elements: Sequence[Element]) -> list[str]:
    """The lines of a matroid of these families."""
    kind, word = ("laminar", "set") if _has_nests(families) else ("partition", "class")
    return [f"{kind} {len(families)}",
            *(_line(word, it.most, it.members, elements) for it in families)]


def _sides(part: frozenset[int], request: Request, elements: Sequence[Element]) -> tuple[
        list[Family], list[Family], list[Family]]:
    """The families of a part for the shifts and for the people, and those of people that cross."""
    shifts: list[Family] = []
    people: list[Family] = []
    crossing: list[Family] = []
    of_shifts = _grouped(elements, lambda wish: request.wishes[wish].shift)
    for shift in sorted(of_shifts, key=lambda it: it.title):
        if of_shifts[shift] <= part:
            shifts += _laminar(_families_of_shift(shift, of_shifts[shift], request, elements))[0]
    of_people = _grouped(elements, lambda wish: request.wishes[wish].person)
    for person, members in sorted(of_people.items()):
        fit, cross = _laminar(it for it in _families_of_person(person, members, request, elements)
                              if it.members <= part)
        people += fit
        crossing += cross
    return shifts, people, crossing


def _weights(request: Request, elements: Sequence[Element], scale: int) -> tuple[list[str], int]:
    """The weights of the elements, and what a gain is multiplied by so that what is kept of last
    time decides between equal gains (1 where a second number does). Raises InputFault where they
    are too large."""
    keeping = 2 * len(request.wishes) + 1 if request.has_demands and request.has_last else 1
    words = []
    for it in elements:
        wish = request.wishes[it.wish]
        gain, kept = int(wish.gain * scale) * keeping, 1 if wish.last else -1
        if request.has_demands:
            first, second = it.counts + wish.must, gain + (kept if request.has_last else 0)
        else:
            first, second = gain, kept if request.has_last else 0
        if max(abs(first), abs(second)) > MOST_WEIGHT:
            raise InputFault(f"the gain {wish.gain} of {wish.person} for {wish.shift.title} is too"
                             " large, with as many decimals as there are: measure all gains in a"
                             " larger unit, such as thousands")
        words.append(f"{first}:{second}" if second else str(first))
    return words, keeping


def write_request(request: Request) -> Written:
    """The descriptions of a request. Raises InputFault where it is too large."""
    elements = _elements(request)
    scale = scale_of(it.gain for it in request.wishes)
    weights, keeping = _weights(request, elements, scale)
    parts = _parts(elements, request)
    texts, further = [], []
    for part in parts:
        shifts, people, crossing = _sides(part, request, elements)
        further += crossing
        here = sorted(part)
        lines = ["matroids 2", f"pair {len(here)}",
                 " ".join(["elements", *(elements[it].name for it in here)]),
                 " ".join(["weights", *(weights[it] for it in here)])]
        lines += [*_matroid(shifts, elements), *_matroid(people, elements)]
        texts.append("\n".join([*lines, "end", ""]))
    further += [*_across(parts, request, elements), *_hours(request, elements)]
    return Written(tuple(elements), tuple(texts), tuple(further), scale, keeping)


def _hours(request: Request, elements: Sequence[Element]) -> Iterable[Family]:
    """The limits of the hours of people who wish more. Raises InputFault for one that is too
    large."""
    of_people = _grouped(elements, lambda wish: request.wishes[wish].person)
    for person, members in of_people.items():
        own = {it: request.wishes[elements[it].wish].hours for it in sorted(members)}
        wished = sum(it.hours for it in request.wishes if it.person == person and not it.never)
        most = request.people[person].hours
        if most is None or wished <= most:
            continue
        scale = scale_of([most, *own.values()])
        amounts = {it: int(hours * scale) for it, hours in own.items() if hours}
        if max([int(most * scale), *amounts.values()]) > MOST_WEIGHT // 1000:
            raise InputFault(f"the hours of {person} are too large: measure them in a larger unit")
        yield Family(f"{person}, hours", int(most * scale), frozenset(amounts), amounts, scale)


def _has_nests(families: Sequence[Family]) -> bool:
    """Whether two families share an element."""
    return sum(len(it.members) for it in families) > len(
        frozenset().union(*(it.members for it in families)))


def _across(parts: Sequence[frozenset[int]], request: Request,
            elements: Sequence[Element]) -> list[Family]:
    """The limits of people that lie in no part alone."""
    if len(parts) == 1:
        return []
    found = []
    of_people = _grouped(elements, lambda wish: request.wishes[wish].person)
    for person, members in of_people.items():
        for it in _families_of_person(person, members, request, elements):
            wishes = len({elements[each].wish for each in it.members})
            if wishes > it.most and not any(it.members <= part for part in parts):
                found.append(it)
    return found
