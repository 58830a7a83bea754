"""The two tables of a roster: wishes, and limits of shifts and people."""
from __future__ import annotations

import collections
import dataclasses
from fractions import Fraction
from typing import TYPE_CHECKING

from matbench.faults import InputFault
from matbench.roster.model import PersonLimit, Request, Shift, ShiftLimit, Wish
from matbench.spreadsheets import is_yes, numbers_of, read_sheet, scale_of, whole_of

if TYPE_CHECKING:
    from collections.abc import Collection, Iterable, Sequence

    from matbench.spreadsheets import Row, Sheet, Source

#: The columns of both tables: those that are needed, and those that may be there.
WISH_COLUMNS = ("person", "shift", "gain"), ("day", "week", "hours", "kind", "must",
                                               "never", "last")
LIMIT_COLUMNS = ("name", "most"), ("least", "kind", "week", "day", "hours")
#: A limit above this is none.
MOST = 10_000


def titles_of(rows: Iterable[Row]) -> dict[tuple[str, str, str], str]:
    """What the shifts are called, by week, day and name: the name alone, or with the day, or with
    both in front, so that no two are called the same."""
    keys = list(dict.fromkeys((row["week"], row["day"], row["shift"]) for row in rows))
    for first in (2, 1, 0):
        titles = {key: " ".join(filter(None, key[first:])) for key in keys}
        if len(set(titles.values())) == len(keys):
            return titles
    return {key: " / ".join(key) for key in keys}


def _hold_to_weeks(sheet: Sheet) -> None:
    """Raises InputFault where a line lacks its day or its week, in a table that has them."""
    for column in ("day", "week"):
        for row in sheet.rows:
            if column in sheet.heads and not row[column]:
                raise row.fault(f"the wish has no {column}")


def _hold_to_single_wishes(sheet: Sheet) -> None:
    """Raises InputFault where a wish lacks its person or its shift, or stands twice."""
    seen: dict[tuple[str, ...], Row] = {}
    for row in sheet.rows:
        for column in ("person", "shift"):
            if not row[column]:
                raise row.fault(f"the wish has no {column}")
        key = tuple(row[column] for column in ("person", "week", "day", "shift"))
        if key in seen:
            raise row.fault(f"this wish of {row['person']} stands twice, first in"
                            f" {seen[key].place}")
        seen[key] = row


def _hours_of(rows: Sequence[Row]) -> list[Fraction]:
    """The hours of lines, which are from 0."""
    found = numbers_of(rows, "hours")
    for row, hours in zip(rows, found):
        if hours < 0:
            raise row.fault("hours are from 0")
    return found


def _wishes(sheet: Sheet) -> list[Wish]:
    """The wishes of a table."""
    sheet.hold_to(*WISH_COLUMNS)
    _hold_to_weeks(sheet)
    _hold_to_single_wishes(sheet)
    titles, gains = titles_of(sheet.rows), numbers_of(sheet.rows, "gain")
    hours = _hours_of(sheet.rows) if "hours" in sheet.heads else [Fraction(0)] * len(gains)
    found = []
    for row, gain, each in zip(sheet.rows, gains, hours):
        key = (row["week"], row["day"], row["shift"])
        must, never = is_yes(row, "must"), is_yes(row, "never")
        if must and never:
            raise row.fault("the wish must be granted, and must not")
        last = is_yes(row, "last") if "last" in sheet.heads else None
        found.append(Wish(row["person"], Shift(*key, titles[key]), gain, row["kind"], must, never,
                          last, each))
    return found


class _Limits:
    """The lines of the limits, by the names and kinds that they are for."""

    def __init__(self, sheet: Sheet):
        sheet.hold_to(*LIMIT_COLUMNS)
        self.sheet = sheet
        self.rows: dict[str, dict[str, Row]] = collections.defaultdict(dict)
        self.used: set[str] = set()
        for row in sheet.rows:
            if not row["name"]:
                raise row.fault("the limit has no name")
            if row["kind"] in self.rows[row["name"]]:
                raise row.fault(f"{row['name']} stands twice, first in"
                                f" {self.rows[row['name']][row['kind']].place}")
            self.rows[row["name"]][row["kind"]] = row

    def of(self, what: str, *names: str) -> dict[str, Row]:
        """The lines of the first of these names that has some, by kinds. Raises InputFault where
        none has a line that limits all kinds."""
        name = next((it for it in names if it in self.rows), names[0])
        if "" not in self.rows.get(name, {}):
            raise InputFault(f"{self.sheet.name}: no line says how many at most for {what}"
                             f" '{name}'" + (f" (nor one for '{names[-1]}')"
                                             if names[-1] != name else ""))
        self.used.add(name)
        return self.rows[name]


def _most_of(row: Row) -> int:
    """The greatest number of a line, which has to have one."""
    most = whole_of(row, "most", MOST)
    if most is None:
        raise row.fault(f"there is no number for {row['name']}")
    return most


def _limit_of_shift(rows: dict[str, Row]) -> ShiftLimit:
    """The limit of a shift. Raises InputFault where it cannot be kept, or not be said."""
    whole = rows[""]
    most, least = _most_of(whole), whole_of(whole, "least", MOST) or 0
    kinds = {}
    for kind, row in rows.items():
        for column in ("week", "day"):
            if whole_of(row, column, MOST) is not None:
                raise row.fault(f"{column} is for people alone, and {row['name']} is a shift")
        if row["hours"]:
            raise row.fault(f"hours are for people alone, and {row['name']} is a shift")
        if kind:
            kinds[kind] = whole_of(row, "most", MOST), whole_of(row, "least", MOST) or 0
            if kinds[kind][0] is not None and kinds[kind][1] > (kinds[kind][0] or 0):
                raise row.fault(f"at least {kinds[kind][1]} are more than at most {kinds[kind][0]}")
    found = ShiftLimit(most, least, kinds)
    if found.demanded > most:
        raise whole.fault(f"at least {found.demanded} are more than at most {most}")
    if least and kinds:
        raise whole.fault(f"{whole['name']} has a least number for all, and a limit for"
                          f" {', '.join(kinds)}: both at once cannot be said. Give least numbers to"
                          " kinds alone")
    return found


def _limit_of_person(rows: dict[str, Row], heads: Collection[str]) -> PersonLimit:
    """The limit of a person, which is one shift a day where days are among the columns of the
    wishes and no number says otherwise."""
    for kind, row in rows.items():
        if row["hours"] and (kind or "hours" not in heads):
            raise row.fault("hours are for all kinds together: leave them out in the lines of a"
                            " kind" if kind else "the wishes have no column hours")
        if whole_of(row, "least", MOST):
            raise row.fault(f"a least number is for shifts alone, and {row['name']} is a person")
    whole = rows[""]
    day = whole_of(whole, "day", MOST)
    hours = _hours_of([whole])[0] if whole["hours"] else None
    return PersonLimit(_most_of(whole), whole_of(whole, "week", MOST),
                       1 if day is None and "day" in heads else day,
                       {kind: _most_of(row) for kind, row in rows.items() if kind}, hours)


def _unwished(limits: _Limits) -> dict[Shift, ShiftLimit]:
    """The shifts that need somebody and that nobody wishes."""
    found = {}
    for name, rows in limits.rows.items():
        if name not in limits.used and "" in rows and any(whole_of(it, "least", MOST)
                                                          for it in rows.values()):
            found[Shift("", "", name, name)] = _limit_of_shift(rows)
    return found


def _hold_to_known_names(limits: _Limits, people: Iterable[str], shifts: Iterable[Shift]) -> None:
    """Raises InputFault where a name is that of a person and of a shift, and a line does not say
    which."""
    both = set(people) & {name for it in shifts for name in (it.title, it.name)}
    for name in sorted(both & set(limits.rows)):
        raise InputFault(f"'{name}' is a person and a shift: call one of them otherwise")


def read_request(wishes: Source, limits: Source) -> Request:
    """What is asked for by two tables: paths to files, or frames of pandas. Raises InputFault."""
    sheet, lines = read_sheet(wishes, "the wishes"), _Limits(read_sheet(limits, "the limits"))
    found = _wishes(sheet)
    shifts = list(dict.fromkeys(it.shift for it in found))
    people = list(dict.fromkeys(it.person for it in found))
    _hold_to_known_names(lines, people, shifts)
    of_people = {it: _limit_of_person(lines.of("the person", it), sheet.heads)
                 for it in people}
    of_shifts = {it: _limit_of_shift(lines.of("the shift", it.title, it.name)) for it in shifts}
    of_shifts.update(_unwished(lines))
    scale = scale_of(it.gain for it in found)
    notes = [*sheet.notes, *lines.sheet.notes]
    if scale > 1:
        notes.append("Some gains have decimals: in the description all are multiplied by"
                     f" {scale:,}; here they are as in the table, with a point before the"
                     " decimals.")
    return Request(tuple(found), of_shifts, of_people, tuple(notes))


def with_last(request: Request, roster: Source) -> Request:
    """The request with a roster of last time, a table as the command writes it as CSV: what stands
    there with yes under granted was granted. Wishes are the same if person, week, day and shift
    are."""
    sheet = read_sheet(roster, "the last roster")
    for column in ("person", "shift", "granted"):
        if column not in sheet.heads:
            raise InputFault(f"{sheet.name}: there is no column {column}")
    granted = {(row["person"], row["week"], row["day"], row["shift"]) for row in sheet.rows
               if is_yes(row, "granted")}
    wishes = tuple(dataclasses.replace(
        it, last=(it.person, it.shift.week, it.shift.day, it.shift.name) in granted)
        for it in request.wishes)
    return dataclasses.replace(request, wishes=wishes)
