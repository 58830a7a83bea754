"""What stands in the folder of a roster's proof beside descriptions and certificates: what their
elements are called by the tables, and how the proof is checked."""
from __future__ import annotations

import shlex
from decimal import Decimal
from typing import TYPE_CHECKING

from matbench.limits.real_names import COLUMNS
from matbench.tables import Table

if TYPE_CHECKING:
    from fractions import Fraction

    from matbench.roster.solving import Roster


def _decimal(value: Fraction) -> str:
    """A number with all its decimals."""
    return format(Decimal(value.numerator) / Decimal(value.denominator), "f")


def elements_table(roster: Roster) -> Table:
    """Of each element the person and the shift as the tables have them, the gain, and how much of
    what is needed it is, as `python3 -m matbench limits` reads it beside a description."""
    rows = []
    for it in roster.written.elements:
        wish = roster.request.wishes[it.wish]
        rows.append([it.name, f"{wish.person}.{wish.shift.title}", _decimal(wish.gain),
                     it.counts + wish.must])
    return Table(COLUMNS, rows)


def how_to_check(roster: Roster, folder: str) -> str:
    """The command that checks the proof in a folder."""
    if roster.outcome is None:
        words = ["matbench", "check", f"{folder}/roster0.txt", f"{folder}/roster0.answer"]
    else:
        texts = [f"{folder}/roster{place}.txt" for place in range(len(roster.written.texts))]
        words = ["python3", "-m", "matbench", "limits", *texts, f"{folder}/limits.csv", "--verify",
                 folder]
    return shlex.join(words)
