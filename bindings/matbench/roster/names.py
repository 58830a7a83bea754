"""Names of ASCII for people and shifts in any script, as descriptions want them."""
from __future__ import annotations

import unicodedata
from typing import TYPE_CHECKING

if TYPE_CHECKING:
    from collections.abc import Iterable, Sequence

#: The signs that a name of an element may have.
MOST_SIGNS = 32
_PLAIN = str.maketrans({"ß": "ss", "æ": "ae", "Æ": "Ae", "ø": "o", "Ø": "O", "ł": "l", "Ł": "L",
                        "đ": "d", "Đ": "D", "ð": "d", "þ": "th", "œ": "oe", "ı": "i", "–": "-"})


def plain(text: str) -> str:
    """A text without accents and with _ for a space, or nothing where a letter has no plain
    form."""
    split = unicodedata.normalize("NFKD", text.translate(_PLAIN))
    found = "".join(it for it in split if not unicodedata.combining(it)).replace(" ", "_")
    return found if all("!" <= it <= "~" for it in found) else ""


def short_names(texts: Iterable[str], letter: str, most: int) -> dict[str, str]:
    """A name of ASCII for each text, all different and at most so long: the text itself where it is
    one, or a letter and a number."""
    found: dict[str, str] = {}
    taken: set[str] = set()
    for number, text in enumerate(dict.fromkeys(texts), 1):
        name = plain(text)
        if not name or len(name) > most or name in taken:
            name = f"{letter}{number}"
        while name in taken:
            name = f"{letter}{name}"
        taken.add(name)
        found[text] = name
    return found


def _widths(people: Sequence[str], shifts: Sequence[str], room: int) -> tuple[int, int]:
    """How long names of people and of shifts may be, so that both have room."""
    width, height = (max(len(plain(it)) for it in texts) for texts in (people, shifts))
    while width + height > room:
        width, height = (width - 1, height) if width > height else (width, height - 1)
    return width, height


def names_of_wishes(pairs: Sequence[tuple[str, str]], behind: int) -> list[str]:
    """A name for each pair of a person and a shift, as Ada.Mon_early, all different and of ASCII,
    with room for so many signs behind it."""
    people, shifts = [it for it, _ in pairs], [it for _, it in pairs]
    widths = _widths(people, shifts, MOST_SIGNS - 1 - behind)
    for width, height in (widths, (0, 0)):
        of_people = short_names(people, "p", width)
        of_shifts = short_names(shifts, "s", height)
        names = [f"{of_people[person]}.{of_shifts[shift]}" for person, shift in pairs]
        if len(set(names)) == len(names):
            break
    return names
