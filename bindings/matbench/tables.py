"""Results as a table for people, as CSV and as JSON."""
from __future__ import annotations

import csv
import io
import json
import unicodedata
from dataclasses import dataclass
from typing import TYPE_CHECKING, Any

if TYPE_CHECKING:
    from collections.abc import Sequence

#: The forms in which a table is written.
FORMS = ("table", "csv", "json")


def width_of(text: str) -> int:
    """How many places of a terminal a text takes: two for a wide character, none for an accent that
    stands on the one before."""
    wide = sum(unicodedata.east_asian_width(sign) in "WF" for sign in text)
    none = sum(unicodedata.combining(sign) != 0 or unicodedata.category(sign) in ("Cf", "Me")
               for sign in text)
    return len(text) + wide - none


def padded(text: str, width: int, to_the_right: bool = False) -> str:
    """A text with spaces behind it, or in front, up to a width."""
    spaces = " " * (width - width_of(text))
    return spaces + text if to_the_right else text + spaces


def _word(cell: Any) -> str:
    """A cell as it is shown: nothing for None."""
    if isinstance(cell, bool):
        return "yes" if cell else "no"
    return "" if cell is None else str(cell)


def _is_number(cell: Any) -> bool:
    return isinstance(cell, (int, float)) and not isinstance(cell, bool)


@dataclass(frozen=True)
class Table:
    """Heads, and rows of as many cells. A cell is a str, a number, a bool, or None for nothing."""

    heads: Sequence[str]
    rows: Sequence[Sequence[Any]]

    def text(self) -> str:
        """The table for people, in columns. Numbers stand at the right of theirs."""
        words = [list(map(_word, row)) for row in self.rows]
        right = [bool(self.rows) and all(_is_number(row[place]) or row[place] is None
                                         for row in self.rows)
                 for place in range(len(self.heads))]
        widths = [max(width_of(line[place]) for line in [list(self.heads), *words])
                  for place in range(len(self.heads))]
        lines = [list(self.heads), ["-" * width for width in widths], *words]
        return "".join("  ".join(map(padded, line, widths, right)).rstrip() + "\n"
                       for line in lines)

    def csv(self) -> str:
        """The table as CSV with commas."""
        written = io.StringIO(newline="")
        writer = csv.writer(written, lineterminator="\n")
        writer.writerow(self.heads)
        writer.writerows([_word(cell) for cell in row] for row in self.rows)
        return written.getvalue()

    def records(self) -> list[dict[str, Any]]:
        """A dict for each row, by the heads."""
        return [dict(zip(self.heads, row)) for row in self.rows]


def json_of(result: Any) -> str:
    """A result of dicts, lists, texts and numbers as JSON, with names as they are."""
    return json.dumps(result, ensure_ascii=False, indent=2) + "\n"
