"""Tables of bars and of parts, as spreadsheets save them, and frames of pandas."""
from __future__ import annotations

from typing import TYPE_CHECKING

from matbench.faults import InputFault
from matbench.spreadsheets import read_sheet
from matbench.truss.structures import bodies, plane_truss

if TYPE_CHECKING:
    from collections.abc import Sequence

    from matbench.spreadsheets import Sheet, Source
    from matbench.truss.structures import Structure

#: The columns of a table of bars between joints, and of one of parts between bodies.
BARS, PARTS = ("bar", "from", "to"), ("part", "kind", "from", "to")
#: A table has at most so many rows.
MOST_ROWS = 5_000


def _cells(sheet: Sheet, columns: Sequence[str]) -> list[list[str]]:
    """The cells of each row in the order of these columns."""
    sheet.hold_to(columns)
    if len(sheet.rows) > MOST_ROWS:
        raise InputFault(f"{sheet.name}: {len(sheet.rows):,} rows are more than {MOST_ROWS:,}")
    for row in sheet.rows:
        for column in columns:
            if not row[column]:
                raise row.fault(f"there is no {column}")
    return [[row[column] for column in columns] for row in sheet.rows]


def read_structure(source: Source, pins: Sequence[str] = (), rollers: Sequence[str] = (),
                   is_space: bool = False) -> tuple[Structure, list[str]]:
    """The truss or the bodies of a table, which its columns tell apart, and notes on how the table
    was read. Raises InputFault."""
    sheet = read_sheet(source, "the bars")
    is_bodies = "part" in sheet.heads or "kind" in sheet.heads
    if is_bodies and (pins or rollers):
        raise InputFault(f"{sheet.name}: --pin and --roller are for trusses; a body may be called"
                         " ground")
    if is_space and not is_bodies:
        raise InputFault(f"{sheet.name}: joints are of the plane alone; --space is for bodies, with"
                         f" the columns {', '.join(PARTS)}")
    cells = _cells(sheet, PARTS if is_bodies else BARS)
    try:
        if is_bodies:
            parts = [(name, kind.lower(), u, v) for name, kind, u, v in cells]
            return bodies(parts, is_space), sheet.notes
        return plane_truss([(name, u, v) for name, u, v in cells], pins, rollers), sheet.notes
    except ValueError as error:
        raise InputFault(f"{sheet.name}: {error}") from error
