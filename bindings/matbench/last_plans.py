"""The last plan, as a file has it: the names of its elements, or a roster as CSV."""
from __future__ import annotations

import re
from typing import TYPE_CHECKING

from matbench.faults import InputFault
from matbench.roster.names import names_of_wishes, plain
from matbench.roster.reading import titles_of
from matbench.spreadsheets import is_yes, read_sheet
from matbench.texts import read_text

if TYPE_CHECKING:
    from collections.abc import Collection, Sequence

    from matbench.spreadsheets import Row, Sheet

#: A file of names has at most so many bytes: a description has at most 500 names of 32.
MOST_BYTES = 32_000
#: The room that a roster leaves behind a name for its copies, or not.
_ROOMS = (0, 5)


def _roster_of(path: str) -> Sheet | None:
    """The table of a roster, or None if the file is another one."""
    try:
        sheet = read_sheet(path)
    except InputFault:
        return None
    return sheet if {"person", "shift", "granted"} <= set(sheet.heads) else None


def _names_of_rows(rows: Sequence[Row]) -> list[list[str]]:
    """The names that the wishes of a roster may have in a description."""
    titles = titles_of(rows)
    pairs = [(row["person"], titles[row["week"], row["day"], row["shift"]]) for row in rows]
    found = [names_of_wishes(pairs, room) for room in _ROOMS] if pairs else []
    return [list(names) for names in zip(*found)]


def _granted(sheet: Sheet, known: Collection[str], real: Collection[str]) -> list[str]:
    """The names of the wishes that a roster grants. Raises InputFault for one that has a number in
    a description, which depends on its other wishes."""
    found = []
    titles = titles_of(sheet.rows)
    for row, names in zip(sheet.rows, _names_of_rows(sheet.rows)):
        if not is_yes(row, "granted"):
            continue
        called = f"{row['person']}.{titles[row['week'], row['day'], row['shift']]}"
        if called in real:
            found.append(called)
            continue
        own = [it for it in names if it in known]
        front, _, back = (own or names)[0].partition(".")
        if front != plain(row["person"]) or not back.endswith(plain(row["shift"]) or "."):
            raise row.fault(f"{row['person']}, {row['shift']} is too long, or not of ASCII, and has"
                            " another name in each description: `roster --last` takes this roster")
        found.append((own or names)[0])
    return found


def names_of_last(path: str, known: Collection[str], real: Collection[str] = ()) -> list[str]:
    """The names of the last plan in a file: of a roster as CSV those of the granted wishes, as a
    description has them, whose names `known` has; and else those in a text, without a first line
    such as `4 for 25:`. A line, or what stands between semicolons in it, may be one of the names
    that are `real`, which may have spaces. Raises InputFault if it is too long, or there is nothing
    in it."""
    sheet = _roster_of(path)
    if sheet is not None:
        return _granted(sheet, known, real)
    text = read_text(path)
    if len(text) > MOST_BYTES:
        raise InputFault(f"{path}: this is too long for the names of a plan")
    if not text.strip():
        raise InputFault(f"{path}: there is nothing in it")
    rest = re.sub(r"(?m)^\d+ for \S+:\s*$", "", text).strip()
    found = []
    for line in rest.splitlines():
        parts = [it.strip() for it in line.split(";")]
        found += parts if set(parts) <= set(real) else re.split(r"[\s,]+", line)
    return [it for it in found if it]
