"""Tables as people have them: files that spreadsheets save as CSV, and frames of pandas.

A file may be in UTF-8, UTF-16 or UTF-32, or else it is taken for Western Windows (cp1252), and a
note says so. Between cells are commas, semicolons, tabs or |, and a first line such as sep=; may
say which. Spaces around a cell, line ends within one, empty lines and empty last columns do not
count. The first line has the heads of the columns, in capitals or not and in any order.
"""
from __future__ import annotations

import codecs
import csv
import io
import os
import re
from dataclasses import dataclass, field
from fractions import Fraction
from pathlib import Path
from typing import TYPE_CHECKING, Any

from matbench.faults import InputFault

if TYPE_CHECKING:
    from collections.abc import Iterable, Sequence
    from typing import TypeAlias

#: A file has at most so many bytes, and so many lines.
MOST_BYTES, MOST_LINES = 8_000_000, 10_000
#: What a table is given as: a path to its file, or a frame of pandas.
Source: TypeAlias = "str | os.PathLike[str] | Any"

_MARKS = [(codecs.BOM_UTF8, "utf-8"), (codecs.BOM_UTF32_LE, "utf-32-le"),
          (codecs.BOM_UTF32_BE, "utf-32-be"), (codecs.BOM_UTF16_LE, "utf-16-le"),
          (codecs.BOM_UTF16_BE, "utf-16-be")]
_WORKBOOKS = (b"PK\x03\x04", b"\xd0\xcf\x11\xe0")
_SEPARATORS = ";\t|,"

#: What says yes and no, in several languages.
YES = ("yes", "y", "x", "true", "1", "✓", "✔", "☑", "ja", "wahr", "oui", "vrai", "si", "sì", "sí",
       "vero", "verdadero", "sim", "verdadeiro", "tak", "prawda", "ano", "áno", "igen", "da", "да",
       "evet", "kyllä", "jah", "taip", "jā", "ναι", "так", "是", "はい", "예", "네", "نعم", "כן")
NO = ("", "no", "n", "false", "0", "-", "–", "☐", "nein", "falsch", "nee", "non", "faux", "falso",
      "não", "nao", "nie", "fałsz", "ne", "nem", "nu", "нет", "ні", "hayır", "ei", "nej", "nei",
      "όχι", "否", "いいえ", "아니요", "لا", "לא")


@dataclass(frozen=True)
class Row:
    """A line of a table: what to call it in a note, and its cells by columns."""

    place: str
    cells: dict[str, str]

    def __getitem__(self, column: str) -> str:
        """The cell in a column, empty where there is none."""
        return self.cells.get(column, "")

    def fault(self, what: str) -> InputFault:
        """A fault of this line."""
        return InputFault(f"{self.place}: {what}")


@dataclass(frozen=True)
class Sheet:
    """A table: what to call it, the heads of its columns in small letters, its lines, and notes on
    how it was read."""

    name: str
    heads: list[str]
    rows: list[Row]
    notes: list[str] = field(default_factory=list)

    def hold_to(self, needed: Sequence[str], further: Sequence[str] = ()) -> None:
        """Raises InputFault where a column is missing, unknown or there twice, or there is no
        line."""
        twice = len(set(self.heads)) < len(self.heads)
        if not set(needed) <= set(self.heads) <= {*needed, *further} or twice:
            may = f", and may have {', '.join(further)}" if further else ""
            raise InputFault(f"{self.name}: the first line has the columns {', '.join(needed)}"
                             f"{may}; here it has {', '.join(self.heads)[:300] or 'nothing'}")
        if not self.rows:
            raise InputFault(f"{self.name}: no line stands behind the first one")


def _decoded(name: str, content: bytes) -> tuple[str, list[str]]:
    """The text of a file, and a note where its encoding is a guess."""
    if content.startswith(_WORKBOOKS):
        raise InputFault(f"{name}: this is a workbook, and no CSV: save its sheet as CSV in UTF-8")
    encoding = next((it for mark, it in _MARKS if content.startswith(mark)), None)
    if encoding is None and b"\0" in content[:200]:
        encoding = "utf-16-le" if content[1:2] == b"\0" else "utf-16-be"
    try:
        return content.decode(encoding or "utf-8").lstrip("\ufeff"), []
    except UnicodeDecodeError:
        if encoding is not None:
            raise InputFault(f"{name}: this is no text in {encoding}: save it as CSV in UTF-8") \
                from None
    text = content.decode("cp1252", "replace")
    if "\ufffd" in text:
        raise InputFault(f"{name}: this is no text in UTF-8, UTF-16 or Western Windows: save it as"
                         " CSV in UTF-8")
    return text, [f"{name} is no UTF-8 and is taken for Western Windows (cp1252); where a letter"
                  " is wrong, save it as CSV in UTF-8"]


def _read(path: str | os.PathLike[str]) -> bytes:
    """The bytes of a file, which may not be too many."""
    name = os.fspath(path)
    try:
        with open(path, "rb") as file:
            content = file.read(MOST_BYTES + 1)
    except (OSError, ValueError) as error:
        raise InputFault(f"{name}: {getattr(error, 'strerror', None) or error}") from error
    lines = max(content.count(b"\n"), content.count(b"\r"))
    if len(content) > MOST_BYTES or lines > MOST_LINES:
        size = f"{lines:,} lines" if lines > MOST_LINES else f"more than {MOST_BYTES:,} bytes"
        raise InputFault(f"{name}: {size} are too much: at most {MOST_LINES:,} lines and"
                         f" {MOST_BYTES:,} bytes are read")
    return content


def _separator(first: str) -> str:
    """What stands between the cells, by the first line."""
    bare = re.sub('"[^"]*"', "", first)
    return max(_SEPARATORS, key=lambda sign: (bare.count(sign), -_SEPARATORS.index(sign)))


def _lines(name: str, text: str) -> list[tuple[int, list[str]]]:
    """The lines of cells that are not empty, each with its number in the file."""
    first, _, rest = re.sub("\r\n?", "\n", text).partition("\n")
    said = re.fullmatch(r'"?sep=(.)"?[;,\t ]*', first.strip("\n"), re.I)
    separator = said[1] if said else _separator(first)
    body = rest if said else f"{first}\n{rest}"
    reader = csv.reader(io.StringIO(body, newline=""), delimiter=separator, strict=True)
    found = []
    try:
        for cells in reader:
            words = [" ".join(cell.split()) for cell in cells]
            while words and not words[-1]:
                words.pop()
            if words:
                found.append((reader.line_num + bool(said), words))
    except csv.Error as error:
        raise InputFault(f"{name}: line {reader.line_num + bool(said)}: {error}") from error
    return found


def _sheet_of_lines(name: str, lines: list[tuple[int, list[str]]], notes: list[str]) -> Sheet:
    """A table of lines of cells, of which the first has the heads."""
    if not lines:
        raise InputFault(f"{name}: there is nothing in it")
    heads = [cell.lower() for cell in lines[0][1]]
    if "" in heads:
        raise InputFault(f"{name}: column {heads.index('') + 1} has no head in the first line")
    rows = []
    for number, cells in lines[1:]:
        place = f"{name}: line {number}"
        if len(cells) > len(heads):
            raise InputFault(f"{place} has {len(cells)} cells, more than the first line, which has"
                             f" {len(heads)}")
        rows.append(Row(place, dict(zip(heads, cells))))
    return Sheet(name, heads, rows, notes)


def _cell_of(value: Any) -> str:
    """A cell of a frame as a word: nothing for what is missing."""
    if value is None or value != value:
        return ""
    if isinstance(value, float) and value.is_integer():
        return str(int(value))
    return " ".join(str(value).split())


def _sheet_of_frame(frame: Any, name: str) -> Sheet:
    """The table of a frame of pandas."""
    lines = [(0, [_cell_of(head) for head in frame.columns])]
    lines += [(place, list(map(_cell_of, row)))
              for place, row in enumerate(frame.itertuples(index=False, name=None))]
    if len(lines) > MOST_LINES:
        raise InputFault(f"{name}: {len(lines) - 1:,} rows are more than {MOST_LINES:,}")
    return _sheet_of_lines(name, lines, [])


def read_sheet(source: Source, name: str = "the frame") -> Sheet:
    """The table of a file by its path, or of a frame of pandas, which `name` calls in notes. Raises
    InputFault where it cannot be read."""
    if not isinstance(source, (str, os.PathLike)):
        if hasattr(source, "columns") and hasattr(source, "itertuples"):
            return _sheet_of_frame(source, name)
        raise TypeError(f"a path to a table or a frame is wanted here, and not a"
                        f" {type(source).__name__}")
    path = Path(source)
    text, notes = _decoded(str(path), _read(path))
    if "\0" in text:
        raise InputFault(f"{path}: it has a zero byte in it, which no text has")
    return _sheet_of_lines(str(path), _lines(str(path), text), notes)


def is_yes(row: Row, column: str) -> bool:
    """Whether a cell says yes; an empty one says no. Raises InputFault where it says neither."""
    word = row[column].lower()
    if word not in YES + NO:
        raise row.fault(f"{column} is yes or no, and not '{row[column]}'. These say yes:"
                        f" {', '.join(YES)}; these say no: {', '.join(filter(None, NO))}, or an"
                        " empty cell")
    return word in YES


def whole_of(row: Row, column: str, most: int) -> int | None:
    """The whole number from 0 in a column, at most `most` where it is larger, or None for an empty
    cell. Raises InputFault for anything else."""
    word = re.sub(r"[\s'’]|[.,]0+$", "", row[column])
    if not word:
        return None
    if not re.fullmatch("[0-9]+", word, re.ASCII):
        raise row.fault(f"{column} is a whole number from 0, and not '{row[column][:40]}'")
    return min(int(word), most) if len(word) <= 30 else most


def _mark_of(words: Iterable[tuple[Row, str]], column: str) -> str:
    """The sign before the decimals in a column: , or . as its cells show it."""
    doubtful = None
    commas = points = False
    for row, word in words:
        both = "," in word and "." in word
        commas |= word.rfind(",") > word.rfind(".") if both else bool(re.search(
            r",(\d{1,2}|\d{4,})$", word))
        points |= word.rfind(".") > word.rfind(",") if both else bool(re.search(
            r"\.(\d{1,2}|\d{4,})$", word))
        commas |= word.count(".") > 1
        points |= word.count(",") > 1
        if not both and re.fullmatch(r"[+-]?[1-9]\d*[.,]\d{3}", word):
            doubtful = doubtful or (row, word)
        if commas and points:
            raise row.fault(f"{column} has decimals behind commas in some lines and behind points"
                            f" in others, here '{word}': write them in one way")
    if doubtful and not commas and not points:
        row, word = doubtful
        raise row.fault(f"'{word}' in {column} may be thousands or decimals: write it without the"
                        " sign, or with as many decimals as you mean")
    return "," if commas else "."


def numbers_of(rows: Sequence[Row], column: str) -> list[Fraction]:
    """The numbers of a column, with decimals behind a comma or a point. Raises InputFault where a
    cell has none, or may mean two."""
    words = [(row, re.sub(r"[\s'’\u202f\u00a0]", "", row[column]).replace("\u2212", "-"))
             for row in rows]
    mark = _mark_of(words, column)
    found = []
    for row, word in words:
        plain = word.replace("." if mark == "," else ",", "").replace(mark, ".")
        if not word:
            raise row.fault(f"there is no {column}")
        if not re.fullmatch(r"[+-]?[0-9]{1,30}(\.[0-9]{1,12})?", plain, re.ASCII):
            raise row.fault(f"{column} is a number, and not '{row[column][:40]}'")
        found.append(Fraction(plain))
    return found


def scale_of(numbers: Iterable[Fraction]) -> int:
    """The least power of ten by which all these numbers are whole."""
    scale = 1
    for number in numbers:
        while (number * scale).denominator != 1:
            scale *= 10
    return scale
