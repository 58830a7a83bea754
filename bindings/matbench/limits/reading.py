"""Tables of further limits, as spreadsheets save them, and frames of pandas."""
from __future__ import annotations

import fnmatch
import re
from fractions import Fraction
from typing import TYPE_CHECKING

from matbench.faults import InputFault
from matbench.limits.problem import Limit
from matbench.spreadsheets import numbers_of, read_sheet, scale_of
from matbench.variants import wish_of
from matbench.writing import MOST_WEIGHT

if TYPE_CHECKING:
    from collections.abc import Sequence
    from typing import TypeAlias

    from matbench.limits.problem import Joined
    from matbench.spreadsheets import Row, Sheet, Source

    #: A line of a table, and the elements that it names.
    Line: TypeAlias = "tuple[Row, list[int]]"

#: The columns that a table has, and those that it may have.
NEEDED, FURTHER = ("limit", "most", "element"), ("amount",)
#: A note or a refusal lists at most so many lines.
MOST_LISTED = 12
_PATTERN = re.compile(r"[*?\[]")


def _elements(word: str, joined: Joined, called: Sequence[str]) -> list[int]:
    """The elements that a word names, or all that a pattern fits, by their names or by what they
    are `called`. A pattern that fits a wish fits its copies, as X.more of X."""
    plain = word.replace(" ", "_")
    if plain in joined.index:
        return [joined.index[plain]]
    same = [place for place, name in enumerate(called) if name == word]
    if same or not _PATTERN.search(word):
        return same
    fits = {place for place, name in enumerate(joined.names)
            if fnmatch.fnmatchcase(name, plain) or fnmatch.fnmatchcase(wish_of(name), plain)}
    fits |= {place for place, name in enumerate(called) if fnmatch.fnmatchcase(name, word)}
    return sorted(fits)


def _listed(sheet: Sheet, rows: Sequence[Row]) -> str:
    """The words of some lines, each with its line."""
    words = [f"'{row['element'][:60]}' ({row.place[len(sheet.name) + 2:]})"
             for row in rows]
    more = f" and {len(words) - MOST_LISTED} more" if len(words) > MOST_LISTED else ""
    return ", ".join(words[:MOST_LISTED]) + more


def _hold_to_elements(sheet: Sheet, lines: Sequence[Line], first: str, notes: list[str]) -> None:
    """Raises InputFault where lines name what is no element, or no line has an element. Of patterns
    that fit none beside others there is a note."""
    without = [row for row, members in lines if not members]
    patterns = [row for row in without if _PATTERN.search(row["element"])]
    names = [row for row in without if not _PATTERN.search(row["element"])]
    if names:
        raise InputFault(f"{sheet.name}: these are no elements of the descriptions, and no patterns"
                         f" of one, such as Ada.*night: {_listed(sheet, names)}")
    if patterns and len(patterns) == len(lines):
        raise InputFault(f"{sheet.name}: no element fits any of these patterns, so nothing would be"
                         f" limited: {_listed(sheet, patterns)}. The first element is called"
                         f" {first}")
    if patterns:
        notes.append(f"{sheet.name}: no element fits these patterns, so they count nothing:"
                     f" {_listed(sheet, patterns)}")


def _amounts(rows: Sequence[Row]) -> list[Fraction]:
    """The amounts of lines: 1 where a cell is empty. Raises InputFault for one below 0."""
    given = [it for it in rows if it["amount"]]
    found = dict(zip(map(id, given), numbers_of(given, "amount")))
    for row in given:
        if found[id(row)] < 0:
            raise row.fault("an amount is from 0")
    return [found.get(id(row), Fraction(1)) for row in rows]


def _most(name: str, rows: Sequence[Row]) -> Fraction:
    """How much a limit allows, which one at least of its lines says."""
    said = [it for it in rows if it["most"]]
    mosts = set(numbers_of(said, "most"))
    if len(mosts) != 1:
        what = "no line says how much at most" if not mosts else "its lines have different numbers"
        raise rows[0].fault(f"{name}: {what}")
    most, = mosts
    if most < 0:
        raise said[0].fault("most is from 0")
    return most


def _limit(name: str, lines: Sequence[Line], joined: Joined) -> Limit:
    """A further limit of its lines."""
    rows = [row for row, _ in lines]
    most, amounts = _most(name, rows), _amounts(rows)
    scale = scale_of([most, *amounts])
    found: dict[int, int] = {}
    for (row, members), amount in zip(lines, amounts):
        for it in members:
            if found.setdefault(it, int(amount * scale)) != amount * scale:
                raise row.fault(f"{joined.names[it]} counts another amount for {name} in an earlier"
                                " line")
    if max([int(most * scale), *found.values()]) > MOST_WEIGHT // 1000:
        raise rows[0].fault(f"{name}: the numbers are too large: measure in a larger unit")
    return Limit(name, int(most * scale), {it: each for it, each in found.items() if each}, scale)


def read_limits(source: Source, joined: Joined, called: Sequence[str] = (),
                notes: list[str] | None = None) -> list[Limit]:
    """The further limits of a table with the columns limit, most, element and amount. Elements may
    be named by what they are `called` too, one name for each. `notes` gets what is to be told of
    the table. Raises InputFault."""
    sheet, told = read_sheet(source, "the limits"), [] if notes is None else notes
    if sheet.rows or set(sheet.heads) != {*NEEDED, *FURTHER}:
        sheet.hold_to(NEEDED, FURTHER)
    told += sheet.notes
    for row in sheet.rows:
        if not row["limit"]:
            raise row.fault("the limit has no name")
    lines = [(row, _elements(row["element"], joined, called)) for row in sheet.rows]
    _hold_to_elements(sheet, lines, [*called, *joined.names, "nothing"][0], told)
    by_name: dict[str, list[Line]] = {}
    for row, members in lines:
        by_name.setdefault(row["limit"], []).append((row, members))
    return [_limit(name, own, joined) for name, own in by_name.items()]
