"""What the limits of a description are called, after the names of their elements.

A limit on Ada.Monday and Ada.Tuesday is that of Ada, if no other element begins with Ada; one on
Ada.Monday and Ben.Monday is that of Monday, if no other element ends with it. A name of an element
has pieces between dots, and words between `_` within them; that of a limit goes up to a dot if all
its elements share the words. Copies of a wish have its name, and real names go before others, with
spaces for `_`. Where elements have no names, limits have none.
"""
from __future__ import annotations

from typing import TYPE_CHECKING

from matbench.variants import wish_of

if TYPE_CHECKING:
    from collections.abc import Iterable, Sequence

    from matbench.variants import Base, Limit


def _starts(name: str, is_front: bool) -> list[str]:
    """The first pieces of a name, or its last ones, from the shortest on. The whole is the longest
    of its first pieces."""
    places = [at for at, sign in enumerate(name) if sign in "._" and 0 < at < len(name) - 1]
    if is_front:
        return [*(name[:at] for at in places), name]
    return [name[at + 1:] for at in reversed(places)]


def _has(name: str, piece: str, is_front: bool) -> bool:
    """Whether a name begins, or ends, with a piece."""
    if is_front:
        return name == piece or name.startswith((piece + ".", piece + "_"))
    return name == piece or name.endswith(("." + piece, "_" + piece))


def _up_to_dot(piece: str, names: Sequence[str], is_front: bool) -> str:
    """A piece that all names have, with the words behind it, or in front, up to the next dot, as
    far as all have them."""
    for longer in _starts(names[0], is_front):
        more = longer[len(piece):] if is_front else longer[:-len(piece)]
        if len(longer) > len(piece) and "." not in more and all(
                _has(name, longer, is_front) for name in names):
            piece = longer
    return piece


def _side(names: Sequence[str], members: Iterable[int], is_front: bool) -> str | None:
    """The shortest front, or back, that these elements have and no other one, up to a dot."""
    inside = [names[it] for it in members]
    chosen = set(inside)
    for piece in _starts(inside[0], is_front) if inside else []:
        if all(_has(name, piece, is_front) == (name in chosen) for name in names):
            return _up_to_dot(piece, inside, is_front)
    return None


def limit_names(base: Base) -> list[str]:
    """A name for each limit of a problem: of its elements if they have one, and else its kind and
    its place. Of a limit that has both, the side goes first that more limits of its rule have."""
    if base.real is None and all(name.isdigit() for name in base.names):
        return [_name(it, (None, None), True) for it in base.limits]
    if base.real is not None:
        called = [name.replace("_", "\0").replace(" ", "_") for name in base.real.names]
        found = _named(base, called)
        return [name.replace("_", " ").replace("\0", "_") for name in found]
    return _named(base, list(map(wish_of, base.names)))


def _named(base: Base, wishes: Sequence[str]) -> list[str]:
    """A name for each limit of a problem, of whose elements these are the wishes."""
    sides = [(_side(wishes, it.members, True), _side(wishes, it.members, False))
             for it in base.limits]
    return [_name(it, sides[place], _fronts(base.limits, sides, it.rule))
            for place, it in enumerate(base.limits)]


def _fronts(limits: Sequence[Limit], sides: Sequence[tuple[str | None, str | None]],
            rule: int) -> bool:
    """Whether more limits of a rule have a front alone than a back alone."""
    own = [it for limit, it in zip(limits, sides) if limit.rule == rule]
    fronts = sum(front is not None and back is None for front, back in own)
    return fronts >= sum(back is not None and front is None for front, back in own)


def _name(limit: Limit, sides: tuple[str | None, str | None], is_front: bool) -> str:
    """The name of a limit."""
    front, back = sides
    found = (front or back) if is_front else (back or front)
    if found is not None:
        return found
    if limit.kind in ("uniform", "truncate"):
        return f"rule {limit.rule}: all elements"
    return f"rule {limit.rule}: {limit.kind} {limit.place}"
