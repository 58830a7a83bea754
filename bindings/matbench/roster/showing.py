"""A roster in words and tables, as CSV and as JSON, in the names of its tables."""
from __future__ import annotations

import re
from fractions import Fraction
from typing import TYPE_CHECKING, Any

from matbench.limits.proofs import story_of
from matbench.roster.writing import MORE
from matbench.tables import Table, json_of
from matbench.weights import pair_of

if TYPE_CHECKING:
    from collections.abc import Iterable, Sequence

    from matbench.roster.costs import Cost
    from matbench.roster.model import Wish
    from matbench.roster.raising import Change
    from matbench.roster.solving import Roster

#: Of the reason why no roster gains more at most so many lines are told.
MOST_LINES = 20


def number_of(value: Fraction) -> int | float:
    """A number as JSON has it."""
    return int(value) if value.denominator == 1 else float(value)


def spelled(value: Fraction) -> str:
    """A number with a point for its decimals."""
    return str(number_of(value))


def _head(roster: Roster) -> list[str]:
    """What the roster is worth, and whether it is best."""
    of = f"{len(roster.granted)} of {len(roster.request.wishes)} wishes are granted"
    lines = [f"Roster: {of}, gain {spelled(roster.gain)}."]
    if roster.request.has_demands:
        lines.append("What is needed is met." if not roster.unmet else
                     "Not all that is needed can be met: " + "; ".join(roster.unmet) + ".")
    if roster.changes is not None:
        lines += _told_changes(roster)
    if roster.outcome is not None and not roster.is_best:
        lines.append(_told_gap(roster))
    if roster.most_changes is not None and not roster.is_best:
        lines.append("It is not known whether a better one has as few." if roster.bound is None else
                     f"No roster{_with_changes(roster)}{_and_needs(roster)} gains more than"
                     f" {spelled(roster.bound)}: a better one than this may exist, or not.")
    if roster.is_best:
        what = "no roster" if roster.size is None else f"no roster of {roster.size} wishes"
        what += _with_changes(roster)
        more = "meets more of what is needed, or as much for a greater gain" \
            if roster.request.has_demands else "gains more"
        lines.append(f"This is proved best: {what} within the limits {more}.")
    return lines


def _with_changes(roster: Roster) -> str:
    """That a roster has at most so many changes, if that was asked for."""
    if roster.most_changes is None:
        return ""
    return f" with at most {roster.most_changes} change{'' if roster.most_changes == 1 else 's'}"


def _and_needs(roster: Roster) -> str:
    """Of which rosters a bound is, if something is needed."""
    return " meets more of what is needed, or as much and" if roster.request.has_demands else ""


def listed_changes(roster: Roster) -> tuple[str, str]:
    """What is new against the last roster, and what is dropped, in cells."""
    new, dropped = roster.changed
    return _listed(new), _listed(dropped)


def _told_changes(roster: Roster) -> list[str]:
    """How many changes there are against the last roster, and which."""
    new, dropped = listed_changes(roster)
    return [f"Changes against the last roster: {roster.changes}.",
            *([f"  new:     {new}"] if new else []),
            *([f"  dropped: {dropped}"] if dropped else [])]


def _told_gap(roster: Roster) -> str:
    """What is known of a roster that is not proved best."""
    outcome, request = roster.outcome, roster.request
    if outcome is None or outcome.gap is None:
        return "It is not known whether a better roster exists."
    met, behind = pair_of(outcome.gap)
    if not request.has_demands:
        return (f"No roster gains more than {spelled(Fraction(met, roster.written.scale))} above"
                " this: a better one may exist, or not.")
    gain = Fraction(behind, roster.written.scale * roster.written.keeping)
    return (f"No roster is above this by more than {met} of what is needed and a gain of"
            f" {spelled(gain)}: a better one may exist, or not.")


def people_table(roster: Roster) -> Table:
    """A line for each person: how often they work, of how many at most, how many hours, and when."""
    rows: list[list[Any]] = []
    has_hours = roster.request.has_hours
    for person, limit in roster.request.people.items():
        own = [it for it in roster.wishes if it.person == person]
        hours = number_of(sum((it.hours for it in own), Fraction(0)))
        most = None if limit.hours is None else number_of(limit.hours)
        rows.append([person, len(own), limit.most, *([hours, most] if has_hours else []),
                     number_of(sum((it.gain for it in own), Fraction(0))),
                     ", ".join(it.shift.title for it in own)])
    hours_heads = ["hours", "most hours"] if has_hours else []
    return Table(["person", "shifts", "most", *hours_heads, "gain", "granted"], rows)


def shifts_table(roster: Roster) -> Table:
    """A line for each shift: how many work, of how many at most, how many are needed, and who."""
    rows = []
    for shift, limit in roster.request.shifts.items():
        there = [it.person for it in roster.wishes if it.shift == shift]
        rows.append([shift.title, len(there), limit.most, limit.demanded or None,
                     ", ".join(there)])
    return Table(["shift", "people", "most", "least", "who"], rows)


def _listed(wishes: Iterable[Wish]) -> str:
    """Wishes in a cell, or in a line."""
    return "; ".join(f"{it.person}, {it.shift.title}" for it in wishes)


def changes_table(changes: Sequence[Change]) -> Table:
    """A line for each limit: what one more place in it brings, and which wishes are granted then
    and no longer."""
    needs = any(it.met for it in changes)
    heads = ["one more place in", "most now", *(["needs met"] if needs else []), "gain", "new",
             "dropped"]
    rows = [[it.what, it.most, *([it.met] if needs else []), number_of(it.gain), _listed(it.new),
             _listed(it.dropped)] for it in changes]
    return Table(heads, rows)


def _told_cost(cost: Cost) -> str:
    """What columns of the tables cost."""
    several = len(cost.columns) > 1
    what = f"Without the column{'s' if several else ''} {' and '.join(cost.columns)}: gain" \
        f" {spelled(cost.gain)}"
    if cost.meets_more:
        return f"{what}, with more of what else is needed."
    loss = "nothing" if not cost.loss else spelled(cost.loss)
    return f"{what}, so {'they cost' if several else 'it costs'} {loss}."


def words(roster: Roster, changes: Sequence[Change] | None = None,
          costs: Sequence[Cost] = ()) -> str:
    """The roster as text: what it is worth, what columns of the tables cost, and tables of people
    and of shifts."""
    parts = ["\n".join([*_head(roster), *map(_told_cost, costs)]) + "\n",
             people_table(roster).text(), shifts_table(roster).text()]
    if changes is not None:
        parts.append(changes_table(changes).text())
        if not all(it.is_proved for it in changes):
            parts.append("Not all of these rosters are proved best: the gains are those of the"
                         " rosters that were found.\n")
    if roster.request.notes:
        parts.append("".join(f"Note: {it}\n" for it in roster.request.notes))
    return "\n".join(parts)


def _record(roster: Roster, place: int, wish: Wish) -> dict[str, Any]:
    """A wish by columns, those of the tables."""
    shift = wish.shift
    found: dict[str, Any] = {"person": wish.person}
    found.update({name: value for name, value in (("week", shift.week), ("day", shift.day))
                  if value})
    return {**found, "shift": shift.name, "gain": number_of(wish.gain),
            "granted": place in roster.granted}


def wishes_table(roster: Roster) -> Table:
    """A line for each wish, with whether it is granted."""
    records = [_record(roster, *it) for it in enumerate(roster.request.wishes)]
    heads = list(records[0]) if records else ["person", "shift", "gain", "granted"]
    return Table(heads, [[it[head] for head in heads] for it in records])


def second_text(roster: Roster, others: Sequence[Roster]) -> str:
    """The second best roster as text, by what it differs, if there is one among others."""
    if not others:
        return "There is no second roster.\n"
    lines = []
    for it in others:
        less = "as good as the best" if it.gain == roster.gain else \
            f"{spelled(abs(roster.gain - it.gain))} {'less' if it.gain < roster.gain else 'more'}"
        lines.append(f"Second best: {len(it.granted)} of {len(it.request.wishes)} wishes are"
                     f" granted, gain {spelled(it.gain)}, {less}.")
        if it.unmet != roster.unmet:
            lines.append("What is needed is met." if not it.unmet else
                         "Not all that is needed is met: " + "; ".join(it.unmet) + ".")
        lines += [f"  without: {_listed(_others(roster, it)) or 'nothing'}",
                  f"  with:    {_listed(_others(it, roster)) or 'nothing'}"]
    return "\n".join(lines) + "\n"


def _others(one: Roster, two: Roster) -> list[Wish]:
    """The wishes that one roster grants and another one does not."""
    return [one.request.wishes[it] for it in sorted(set(one.granted) - set(two.granted))]


def _second_record(roster: Roster, it: Roster) -> dict[str, Any]:
    """The second best roster for JSON."""
    return {"granted": len(it.granted), "gain": number_of(it.gain), "unmet": it.unmet,
            "new": _listed(_others(it, roster)), "dropped": _listed(_others(roster, it))}


def json_text(roster: Roster, changes: Sequence[Change] | None = None,
              others: Sequence[Roster] | None = None, costs: Sequence[Cost] = (),
              few: Sequence[dict[str, Any]] | None = None) -> str:
    """The roster as JSON."""
    found: dict[str, Any] = {
        "granted": len(roster.granted), "gain": number_of(roster.gain),
        "best": roster.is_best, "unmet": roster.unmet, "changes": roster.changes,
        **({"new": listed_changes(roster)[0], "dropped": listed_changes(roster)[1]}
           if roster.request.has_last else {}),
        "wishes": wishes_table(roster).records(), "people": people_table(roster).records(),
        "shifts": shifts_table(roster).records(), "notes": list(roster.request.notes)}
    if costs:
        found["costs"] = [{"columns": list(it.columns), "gain without": number_of(it.gain),
                           "costs": number_of(it.loss), "meets more without": it.meets_more}
                          for it in costs]
    if changes is not None:
        found["one more place"] = changes_table(changes).records()
    if few is not None:
        found["few changes"] = list(few)
    if others is not None:
        found["second best"] = [_second_record(roster, it) for it in others]
    return json_of(found)


def told(roster: Roster) -> str:
    """The answers in the words of `--tell`, with the reason why none is better, in the names of the
    tables."""
    real = {}
    for it in roster.written.elements:
        wish = roster.request.wishes[it.wish]
        beyond = ", beyond the least" if it.name.endswith(MORE) else ""
        real[it.name] = f"[{wish.person}, {wish.shift.title}{beyond}]"
    if roster.outcome is not None:
        lines = [it for it in story_of(roster.outcome) if it and not it.startswith("size ")]
        if len(lines) > MOST_LINES:
            left = f".. ({len(lines) - MOST_LINES} lines more)"
            lines = [*lines[:MOST_LINES - 1], left, lines[-1]]
        scale = roster.written.scale
        unit = f" Gains here are {scale:,} times those of the tables." if scale > 1 else ""
        text = "\n".join([
            "Why no roster gains more: each further limit gets a price, and each wish is charged what"
            f" it counts.{unit}", *lines, "Best rungs are those of the descriptions with these"
            " weights. --proof FOLDER writes them with their certificates.", ""])
    elif roster.answers:
        text = "\n".join(answer.told() for answer in roster.answers)
    else:
        return ""
    return re.sub(r"[!-~]+", lambda it: _real_word(it[0], real), text)


def _real_word(word: str, real: dict[str, str]) -> str:
    """A word of a text, with the real name for an element, also where a sign stands behind it."""
    if word in real:
        return real[word]
    front = word[:len(word) - len(word.lstrip("(+-"))]
    bare = word[len(front):].rstrip(".,;:)")
    return front + real[bare] + word[len(front + bare):] if bare in real else word
