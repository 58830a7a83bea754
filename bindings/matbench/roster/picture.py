"""A roster as a picture, an SVG that needs no other file: people from above to below, shifts from
left to right. A granted wish is dark, one that was refused pale, each with its gain. At the right
and below stand how many are granted, and of how many at most."""
from __future__ import annotations

from typing import TYPE_CHECKING
from xml.sax.saxutils import escape

from matbench.roster.showing import spelled
from matbench.tables import width_of

if TYPE_CHECKING:
    from collections.abc import Iterable

    from matbench.roster.model import Shift
    from matbench.roster.solving import Roster

INK, GREY, PALE = "#222222", "#767676", "#e8eef3"
DARK, FULL, UNMET = "#0072b2", "#b34700", "#cc0000"
#: The height of a row, the size of letters, and the place above the first head.
ROW, LETTER, TOP = 22, 12, 64
#: A name is cut behind so many signs.
LONGEST = 24


def _wide(text: str) -> float:
    """How wide a text is drawn, at most."""
    return width_of(text) * LETTER * 0.62


def _cut(text: str) -> str:
    return text if len(text) <= LONGEST else text[:LONGEST - 1] + "…"


class _Drawing:
    """Shapes so far, and how far they reach."""

    def __init__(self) -> None:
        self.items: list[str] = []
        self.width = self.height = 0.0

    def text(self, x: float, y: float, words: str, anchor: str = "start", fill: str = INK,
             bold: bool = False, turn: bool = False) -> None:
        """Adds a text, which ends, begins or has its middle at x."""
        more = (' font-weight="bold"' if bold else "") + (
            f' transform="rotate(-90 {x:.1f} {y:.1f})"' if turn else "")
        self.items.append(f'<text x="{x:.1f}" y="{y:.1f}" text-anchor="{anchor}" fill="{fill}"'
                          f'{more}>{escape(words)}</text>')
        reach = {"start": 1.0, "middle": 0.5, "end": 0.0}[anchor] * _wide(words)
        self.width = max(self.width, x + (LETTER if turn else reach) + 8)
        self.height = max(self.height, y + 8)

    def cell(self, x: float, y: float, width: float, fill: str, title: str) -> None:
        """Adds a cell of the table, with a title that shows where a pointer rests."""
        self.items.append(f'<rect x="{x + 1:.1f}" y="{y + 1:.1f}" width="{width - 2:.1f}"'
                          f' height="{ROW - 2}" fill="{fill}">'
                          f'<title>{escape(title)}</title></rect>')

    def whole(self) -> str:
        """The picture."""
        head = (f'<svg xmlns="http://www.w3.org/2000/svg" width="{self.width:.0f}"'
                f' height="{self.height:.0f}" viewBox="0 0 {self.width:.0f} {self.height:.0f}"'
                f' font-family="sans-serif" font-size="{LETTER}">')
        ground = f'<rect width="{self.width:.0f}" height="{self.height:.0f}" fill="#ffffff"/>'
        return "\n".join([head, ground, *self.items, "</svg>", ""])


def _order(shifts: Iterable[Shift]) -> list[Shift]:
    """Shifts as the table has them, those of a week and of a day together."""
    found = list(shifts)
    weeks = {it.week: place for place, it in reversed(list(enumerate(found)))}
    days = {(it.week, it.day): place for place, it in reversed(list(enumerate(found)))}
    return sorted(found, key=lambda it: (weeks[it.week], days[it.week, it.day]))


def _draw_heads(drawing: _Drawing, roster: Roster, shifts: list[Shift], left: float,
                width: float) -> float:
    """Draws what is above the table, and answers where its first row begins."""
    drawing.text(16, 24, f"{len(roster.granted)} of {len(roster.request.wishes)} wishes granted,"
                 f" gain {spelled(roster.gain)}" + (", proved best" if roster.is_best else ""),
                 bold=True)
    drawing.cell(16, 34, ROW, DARK, "granted")
    drawing.text(42, 49, "granted, with its gain")
    drawing.cell(200, 34, ROW, PALE, "refused")
    drawing.text(226, 49, "wished, refused")
    names = [_cut(it.title) for it in shifts]
    upright = all(_wide(name) < width - 2 for name in names)
    top = TOP + (LETTER + 8 if upright else max(map(_wide, names), default=0) + 8)
    for place, name in enumerate(names):
        x = left + place * width + width / 2
        drawing.text(x if upright else x + 4, top - 6, name, "middle" if upright else "start",
                     turn=not upright)
    return top


def _draw_cells(drawing: _Drawing, roster: Roster, shifts: list[Shift], left: float, width: float,
                top: float) -> None:
    """Draws the wishes."""
    across = {it: left + place * width for place, it in enumerate(shifts)}
    down = {it: top + place * ROW for place, it in enumerate(roster.request.people)}
    granted = set(roster.granted)
    for place, it in enumerate(roster.request.wishes):
        is_granted = place in granted
        x, y, gain = across[it.shift], down[it.person], spelled(it.gain)
        drawing.cell(x, y, width, DARK if is_granted else PALE,
                     f"{it.person}, {it.shift.title}: gain {gain},"
                     f" {'granted' if is_granted else 'refused'}")
        drawing.text(x + width / 2, y + 15, gain, "middle", "#ffffff" if is_granted else GREY,
                     is_granted)


def _draw_margins(drawing: _Drawing, roster: Roster, shifts: list[Shift], left: float, width: float,
                  top: float) -> None:
    """Draws the people, and how full their limits and those of the shifts are."""
    right = left + len(shifts) * width + 8
    for place, (person, own) in enumerate(roster.request.people.items()):
        y = top + place * ROW + 15
        used = sum(it.person == person for it in roster.wishes)
        drawing.text(left - 8, y, _cut(person), "end")
        drawing.text(right, y, f"{used} of {own.most}", fill=FULL if used >= own.most else INK,
                     bold=used >= own.most)
    below = top + len(roster.request.people) * ROW + 15
    for place, shift in enumerate(shifts):
        limit, used = roster.request.shifts[shift], roster.people_in(shift)
        colour = UNMET if used < limit.demanded else FULL if used >= limit.most else INK
        for line, word in enumerate((str(used), "of", str(limit.most))):
            drawing.text(left + place * width + width / 2, below + line * 13, word, "middle",
                         GREY if word == "of" else colour, colour != INK and word != "of")


def picture(roster: Roster) -> str:
    """The roster as an SVG."""
    drawing = _Drawing()
    shifts = _order(roster.request.shifts)
    left = 16 + max((_wide(_cut(it)) for it in roster.request.people), default=0) + 10
    width = max([ROW, *(_wide(spelled(it.gain)) + 6 for it in roster.request.wishes)])
    top = _draw_heads(drawing, roster, shifts, left, width)
    _draw_cells(drawing, roster, shifts, left, width, top)
    _draw_margins(drawing, roster, shifts, left, width, top)
    return drawing.whole()
