"""What is known of a plan with further limits, in words and tables, as CSV and as JSON."""
from __future__ import annotations

from fractions import Fraction
from typing import TYPE_CHECKING, Any

from matbench.real_names import number_of
from matbench.tables import Table, json_of

if TYPE_CHECKING:
    from matbench.limits.problem import Joined, Limit
    from matbench.limits.proofs import Proved
    from matbench.limits.real_names import RealNames
    from matbench.limits.solving import Outcome


def _spelled(gain: int, joined: Joined, real: RealNames | None) -> str:
    """A gain in the numbers of the tables where it has a unit, and else as the descriptions have
    it."""
    weight = joined.spelled(gain)
    return str(weight) if real is None else real.spelled(weight)


def limits_table(outcome: Outcome) -> Table:
    """A line for each further limit: what the plan uses of it, and of how much."""
    rows = []
    for it in outcome.limits:
        if not it.source:
            used = it.used(outcome.plan or ())
            rows.append([it.name, _amount(used, it), _amount(it.most, it), used == it.most])
    return Table(["limit", "used", "most", "full"], rows)


def _amount(value: int, limit: Limit) -> int | float:
    """An amount in the unit of the table."""
    return number_of(Fraction(value, limit.scale))


def _counted(count: int) -> str:
    return f"{count} element{'' if count == 1 else 's'}"


def _elements(size: int | None) -> str:
    return "" if size is None else f" of {_counted(size)}"


def _empty(outcome: Outcome) -> list[str]:
    """The names of the further limits that count no element."""
    return [it.name for it in outcome.limits if not it.source and not it.amounts]


def _sentences(outcome: Outcome, real: RealNames | None) -> list[str]:
    """What is known of the best plan, in words that promise no more."""
    def told(gain: int) -> str:
        return _spelled(gain, outcome.joined, real)
    of = _elements(outcome.size)
    if outcome.bound is None:
        return [f"none: no plan{of} keeps all limits."]
    if outcome.plan is None or outcome.gain is None:
        return [f"no plan{of} was found that keeps all limits. If there is one, it gains at most"
                f" {told(outcome.bound)}."]
    plan = f"plan: {_counted(len(outcome.plan))}, gain {told(outcome.gain)}"
    if outcome.is_best:
        return [plan, f"best: no plan{of} that keeps all limits gains more."]
    return [plan, f"bound: no plan{of} that keeps all limits gains more than {told(outcome.bound)}."
                  f" The gap is {told(outcome.bound - outcome.gain)}: a better plan may exist, or"
                  " not."]


def _names(outcome: Outcome, real: RealNames | None) -> list[str]:
    """What the elements of the plan are called."""
    return outcome.names if real is None else [real.names[it] for it in outcome.plan or ()]


def _words(outcome: Outcome, real: RealNames | None) -> str:
    """The outcome as text."""
    lines, empty = _sentences(outcome, real), _empty(outcome)
    if empty:
        lines.append(f"These limits count nothing, since no element fits them: {', '.join(empty)}.")
    if outcome.plan is not None:
        lines += ["", *(f"  {name}" for name in _names(outcome, real))]
        table = limits_table(outcome).text() if len(outcome.limits) else ""
        return "\n".join(lines) + "\n\n" + table
    return "\n".join(lines) + "\n"


def _record(outcome: Outcome, real: RealNames | None) -> dict[str, Any]:
    """The outcome for JSON. Weights A:B are texts."""
    def shown(gain: int | None) -> Any:
        if gain is None:
            return None
        found = outcome.joined.spelled(gain)
        return found if isinstance(found, int) else str(found)
    gap, plan = outcome.gap, outcome.plan
    found = {"plan": None if plan is None else outcome.names, "gain": shown(outcome.gain),
             "bound": shown(outcome.bound), "best": outcome.is_best, "none": outcome.is_none,
             "gap": gap if gap is None or isinstance(gap, int) else str(gap), "size": outcome.size,
             "limits": limits_table(outcome).records(), "count nothing": _empty(outcome),
             "solves": outcome.solves,
             "seconds": round(outcome.seconds, 1)}
    if real is not None and plan is not None:
        found["real"] = {"names": _names(outcome, real), "gain": number_of(real.gain_of(plan)),
                         "needed": real.needed_of(plan)}
    return found


def _plan_table(outcome: Outcome, real: RealNames | None) -> Table:
    """A line for each element of the plan, with what it is called and gains if that is known."""
    if real is None:
        return Table(["element"], [[it] for it in outcome.names])
    return Table(["element", "name", "gain"],
                 [[outcome.joined.names[it], real.names[it], number_of(real.gains[it])]
                  for it in outcome.plan or ()])


def outcome_text(outcome: Outcome, real: RealNames | None = None, form: str = "table") -> str:
    """The outcome in a form: words with a table of the limits, CSV or JSON."""
    if form == "json":
        return json_of(_record(outcome, real))
    return _plan_table(outcome, real).csv() if form == "csv" else _words(outcome, real)


def proved_text(proved: Proved, joined: Joined, real: RealNames | None = None) -> str:
    """What a proof shows, in words."""
    of = _elements(proved.size)
    lines = [f"right: no plan{of} keeps all limits." if proved.bound is None else
             f"right: no plan{of} that keeps all limits gains more than"
             f" {_spelled(proved.bound, joined, real)}."]
    if proved.gain is None:
        lines.append("The folder has no plan that keeps all limits.")
    else:
        best = ", and so is best" if proved.bound == proved.gain else ""
        lines.append(f"The plan keeps all limits, gains {_spelled(proved.gain, joined, real)}"
                     f"{best}.")
    lines.append(f"{proved.leaves} parts, {proved.certificates} certificates.")
    return "\n".join(lines) + "\n"
