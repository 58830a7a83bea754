"""Best plans with elements that must be in, or must not, and python3 -m matbench plan."""
from __future__ import annotations

from dataclasses import dataclass
from pathlib import Path
from typing import TYPE_CHECKING, Any

from matbench.command_lines import DONE, NOT_SO, parser_of, write
from matbench.faults import InputFault
from matbench.real_names import number_of
from matbench.tables import FORMS, Table, json_of
from matbench.variants import Base, best_rung, certificate_of, packed, rungs_of
from matbench.weights import pair_of

if TYPE_CHECKING:
    import argparse
    from collections.abc import Collection, Iterable, Mapping, Sequence

    from matbench.descriptions import Problem
    from matbench.real_names import Shown
    from matbench.variants import Limit, Plan, Rung
    from matbench.weights import Weight

ABOUT = """\
The best plan of a description: for each number of elements the best one is known, and the best of
all is printed, or that of --size. With --must an element is in the plan, with --must-not it is not.
If larger plans weigh less, as always where weights are costs, the best one of the largest size is
told too.

FILE is a description of the form `pair`, or `list` with one matroid. An element is called by its
name, or by its number if it has none; X.must, X.may and X.more are copies of the wish X. Where FILE
lies in a folder that `roster --proof` wrote, with the table elements.csv, elements have the names
of the wishes too, and the answer has the names and the numbers of the roster."""
EXAMPLES = """\
examples:
  python3 -m matbench plan wishes.txt
  python3 -m matbench plan wishes.txt --must Cleo.Sunday_night --must-not Ben.Sunday_day --size 4

The status is 0, or 1 where there is no such plan, or 2 where what was given is not taken."""


class NoPlan(ValueError):
    """There is no plan of this size, or none with all elements that must be in it. The answer that
    shows it is `certificate`, for the description `text`."""

    def __init__(self, sentence: str, text: str = "", certificate: str = ""):
        super().__init__(sentence)
        self.text, self.certificate = text, certificate


@dataclass(frozen=True)
class Wanted:
    """A problem, elements that must be in a plan, elements that must not, and a size or None for
    the best of all."""

    base: Base
    must: frozenset[int]
    must_not: frozenset[int]
    size: int | None

    @classmethod
    def of(cls, problem: Problem, must: Iterable[str] = (), must_not: Iterable[str] = (),
           size: int | None = None) -> Wanted:
        """What is wanted of a description. Raises InputFault for names that it has not."""
        base = Base.of(problem)
        needed, barred = base.elements(must), base.elements(must_not)
        for it in needed & barred:
            raise InputFault(f"{base.names[it]} must be in the plan, and must not")
        return cls(base, needed, barred, size)

    def aims(self) -> tuple[list[int], list[int]]:
        """The gain of each element, and its tie."""
        pairs = [pair_of(it) for it in self.base.weights]
        return [gain for gain, _ in pairs], [tie for _, tie in pairs]

    def weights(self, *aims: Sequence[int]) -> list[Weight | int]:
        """The weights for these aims, before which go the elements that must be in."""
        needed = [int(it in self.must) for it in range(len(self.base.names))]
        return packed(needed, *aims)

    def solved(self, weights: Sequence[Weight | int], without: Collection[int] = (),
               caps: Mapping[int, int] | None = None,
               apart: tuple[Limit, Sequence[Sequence[int]]] | None = None) -> Rung:
        """The best rung of the size, as `Base.text` has the problem. Raises NoPlan."""
        text = self.base.text(weights, self.must_not | frozenset(without), caps, apart)
        return self.read(text, certificate_of(self.base.command, text))

    def last(self, certificate: str) -> Rung:
        """The largest rung of an answer that has all that must be in the plan, of which there is
        one."""
        must = self.base.wishes(self.must)
        return next(it for it in reversed(rungs_of(certificate))
                    if self.base.wishes(it.members & self.must) == must)

    def read(self, text: str, certificate: str) -> Rung:
        """The best rung of an answer. Raises NoPlan."""
        rungs = rungs_of(certificate)
        rung = best_rung(rungs, self.size)
        if rung is None:
            raise NoPlan(f"no plan has {self.size} elements: the largest has {len(rungs) - 1}",
                         text, certificate)
        held = rung.members & self.must
        if len(held) > len(self.base.wishes(held)):
            raise InputFault("the description allows two copies of one wish in one plan: name the"
                             " copy that must be in it")
        missing = self.base.wishes(self.must) - self.base.wishes(held)
        if missing:
            whole = "" if self.size is None else f" of {self.size} elements"
            raise NoPlan(f"no plan{whole} has all that must be in it: one that has most of them"
                         f" lacks {', '.join(map(self.base.shown.name, sorted(missing)))}",
                         text, certificate)
        return rung


def best_plan(problem: Problem, must: Iterable[str] = (), must_not: Iterable[str] = (),
              size: int | None = None) -> Plan:
    """The best plan that has all of `must` and none of `must_not`, of a size or of all sizes, by
    one call. Raises NoPlan if there is none."""
    wanted = Wanted.of(problem, must, must_not, size)
    return wanted.base.plan(wanted.solved(wanted.weights(*wanted.aims())).members)


def add_words(parser: argparse.ArgumentParser) -> None:
    """Adds the words that the commands about plans share."""
    parser.add_argument("file", metavar="FILE", help="the description")
    parser.add_argument("--must", action="append", default=[], metavar="NAME",
                        help="an element that must be in the plan; once for each")
    parser.add_argument("--must-not", action="append", default=[], metavar="NAME",
                        help="an element that must not; once for each")
    parser.add_argument("--size", type=int, metavar="K",
                        help="plans of K elements, in place of the best size")
    parser.add_argument("--format", choices=FORMS, default="table", help="how it is printed")


def wanted_of(given: argparse.Namespace) -> Wanted:
    """What the words want. The form of the description is judged before its matroids."""
    return Wanted.of(Path(given.file), given.must, given.must_not, given.size)


def no_plan(error: NoPlan) -> int:
    """Tells that there is no plan, and answers the status."""
    write(f"NONE: {error}.\n")
    return NOT_SO


def record_of(plan: Plan) -> dict[str, Any]:
    """A plan as plain data, its weight as the program spells it."""
    return {"size": plan.size, "weight": str(plan.weight), "elements": list(plan.members)}


def real_record_of(plan: Plan, base: Base) -> dict[str, Any]:
    """A plan as plain data, with what its elements are called and gain if that is known."""
    found = record_of(plan)
    if base.real is not None:
        members = [base.names.index(it) for it in plan.members]
        found["real"] = {"names": [base.real.names[it] for it in members],
                         "gain": number_of(base.real.gain_of(members)),
                         "needed": base.real.needed_of(members)}
    return found


def _told_largest(best: Plan, largest: Plan, shown: Shown) -> str:
    """The heaviest plan of the largest size, if it is larger than the best one."""
    if largest.size <= best.size:
        return ""
    return (f"LARGEST: {largest.size} elements, {shown.worth(largest.weight)}:"
            f" {shown.names(largest.members)}.\n")


def _told_cost(plan: Plan, wanted: Wanted) -> str:
    """What the elements that must be in the plan, or must not, cost together, by one more call."""
    if not wanted.must and not wanted.must_not:
        return ""
    free = Wanted(wanted.base, frozenset(), frozenset(), wanted.size)
    other = wanted.base.plan(free.solved(free.weights(*free.aims())).members)
    shown = wanted.base.shown
    words = " and ".join(word for word, own in (("--must", wanted.must),
                                                ("--must-not", wanted.must_not)) if own)
    loss = other.weight - plan.weight
    cost = shown.cell(loss) if loss != 0 else "nothing"
    return f"Without {words}: {shown.worth(other.weight)}, so this costs {cost}.\n"


def _table(plan: Plan, base: Base) -> Table:
    """A row for each element, by its real name and gain if they are known."""
    places = [base.names.index(it) for it in plan.members]
    if base.real is None:
        return Table(("element", "weight"),
                     [(base.names[it], str(base.weights[it])) for it in places])
    real = base.real
    has_needs = real.has_needs
    return Table(("element", "gain", *(["needed"] if has_needs else [])),
                 [(real.names[it], number_of(real.gains[it]),
                   *([real.needed[it]] if has_needs else [])) for it in places])


def main(words: Sequence[str]) -> int:
    """Runs the command."""
    parser = parser_of("plan", ABOUT, EXAMPLES)
    add_words(parser)
    given = parser.parse_args(list(words))
    wanted = wanted_of(given)
    base = wanted.base
    text = base.text(wanted.weights(*wanted.aims()), wanted.must_not)
    certificate = certificate_of(base.command, text)
    try:
        plan = base.plan(wanted.read(text, certificate).members)
    except NoPlan as error:
        return no_plan(error)
    largest = plan if given.size is not None else base.plan(wanted.last(certificate).members)
    table, shown = _table(plan, base), base.shown
    if given.format == "table":
        write(f"BEST: {plan.size} elements, {shown.worth(plan.weight)}.\n"
              f"{_told_cost(plan, wanted)}{_told_largest(plan, largest, shown)}\n{table.text()}")
    elif given.format == "json":
        write(json_of({**real_record_of(plan, base), "largest": real_record_of(largest, base)}))
    else:
        write(table.csv())
    return DONE
