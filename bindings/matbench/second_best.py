"""The second best plan, and python3 -m matbench second-best.

Any other plan of the same size lacks an element of the best one. So the second best is the best of
those that lack one: for each element of the best plan one more call, with a certificate. How much
the loss of an element can leave at most, the shares of the best plan say before: under its first
shares no set that the first matroid allows weighs more, and so without the element. An element
whose loss cannot leave more than what is found is not tried.
"""
from __future__ import annotations

import os
from dataclasses import dataclass
from typing import TYPE_CHECKING

from matbench.command_lines import DONE, NOT_SO, parser_of, write
from matbench.commands import check
from matbench.faults import InputFault
from matbench.plans import NoPlan, Wanted, add_words, no_plan, real_record_of, wanted_of
from matbench.progress import Progress
from matbench.refusals import BadCertificate
from matbench.tables import Table, json_of
from matbench.texts import read_text, write_folder
from matbench.variants import certificate_of, rungs_of
from matbench.weights import pair_of, read_weights

if TYPE_CHECKING:
    import argparse
    from collections.abc import Callable, Iterable, Sequence

    from matbench.descriptions import Problem
    from matbench.real_names import Shown
    from matbench.variants import Plan, Rung
    from matbench.weights import Weight

    #: Is told how many of so many elements are tried.
    Telling = Callable[[int, int], None]

ABOUT = """\
The second best plan of a description: the best one that differs from the best plan, and by what.
It has as many elements, or with --any-size as many as are best. Copies of a wish (X.must, X.may,
X.more) go together, so the second plan grants another wish, and not the same by another copy.

FILE is a description of the form `pair`, or `list` with one matroid. With --proof a folder gets the
certificates that prove it, and a text that says how."""
EXAMPLES = """\
examples:
  python3 -m matbench second-best team.txt --size 11
  python3 -m matbench second-best wishes.txt --any-size --format json

The status is 0, or 1 where there is no other plan, or 2 where what was given is not taken."""
HOW = """How this proof is checked

The best plan{size} weighs {best}. `matbench check best.txt best.answer` prints yes.

Another plan of this size lacks at least one wish of the best one. For each of them there is a file
without_N.txt: the same description, of which line 4 (`restrict`) lists all elements but those of
this wish. `matbench check without_N.txt without_N.answer` prints yes, and the rung of {k} in
without_N.answer, if there is one, weighs no more than {second}: so no other plan does.
{any_size}
`python3 -m matbench second-best FILE --verify FOLDER`, with the same words otherwise, does it.

The wishes, by N:
{wishes}
"""
ANY_SIZE = """
Plans of other sizes are in best.answer: the second best plan weighs no less than any rung but that
of {k}.
"""


class NotShown(ValueError):
    """A proof that does not show which plan is second best."""


@dataclass(frozen=True)
class SecondBest:
    """The best plan, and the best one that differs from it, None if there is no other one. Of the
    `of` wishes of the best plan `tried` were left out by a call."""

    best: Plan
    second: Plan | None
    tried: int
    of: int


def _sum(weights: Iterable[Weight | int]) -> tuple[int, int]:
    """The sum of weights, as two numbers."""
    pairs = list(map(pair_of, weights))
    return sum(gain for gain, _ in pairs), sum(tie for _, tie in pairs)


class _Search:
    """The search for the second best plan of the size of the best one."""

    def __init__(self, wanted: Wanted, certificate: str | None = None):
        self.wanted, self.base = wanted, wanted.base
        self.weights = wanted.weights(*wanted.aims())
        self.text = self.base.text(self.weights, wanted.must_not)
        self.certificate = certificate or certificate_of(self.base.command, self.text)
        self.best = wanted.read(self.text, self.certificate)
        self.size = len(self.best.members)
        self.second: Rung | None = None
        self.made: list[tuple[str, str, str]] = []
        seen: dict[frozenset[int], str] = {}
        for it in sorted(self.best.members):
            copies = self.base.copies([it])
            seen.setdefault(copies, ", ".join(sorted(self.base.wishes([it]))))
        #: Each wish of the best plan: all its copies, and its name.
        self.losses = list(seen.items())

    def _most(self, rule: int, shares: Sequence[Weight | int],
              loss: frozenset[int]) -> tuple[int, int] | None:
        """The most that a set of the size has of these shares under one matroid without a wish."""
        order = {it: place for place, it in enumerate(sorted(set(map(pair_of, shares))))}
        ranks = [order[pair_of(share)] for share in shares]
        text = self.base.rule_text(rule, ranks, loss | self.wanted.must_not)
        rungs = rungs_of(certificate_of("best", text))
        if self.size >= len(rungs):
            return None
        return _sum(shares[it] for it in rungs[self.size].members)

    def bound(self, loss: frozenset[int]) -> tuple[int, int] | None:
        """What a plan of the size without a wish weighs at most, or None if there is none."""
        total = (0, 0)
        for rule, line in enumerate(self.best.shares):
            most = self._most(rule, read_weights(line.split()[1:]), loss)
            if most is None:
                return None
            total = (total[0] + most[0], total[1] + most[1])
        return total

    def text_without(self, loss: frozenset[int]) -> str:
        """The problem without a wish."""
        return self.base.text(self.weights, loss | self.wanted.must_not)

    def leave_out(self, loss: frozenset[int], name: str, certificate: str | None = None) -> None:
        """Solves the problem without a wish, unless there is a certificate."""
        text = self.text_without(loss)
        certificate = certificate or certificate_of(self.base.command, text)
        self.made.append((name, text, certificate))
        rungs = rungs_of(certificate)
        if self.size < len(rungs):
            self._keep(rungs[self.size])

    def _keep(self, rung: Rung) -> None:
        """Keeps a plan if it has all that must be in it, and none found before is better."""
        if self.base.wishes(self.wanted.must) <= self.base.wishes(rung.members):
            if self.second is None or pair_of(rung.weight) > pair_of(self.second.weight):
                self.second = rung

    def other_sizes(self) -> None:
        """Takes the best plans of other sizes into account."""
        for rung in rungs_of(self.certificate):
            if len(rung.members) != self.size:
                self._keep(rung)

    def result(self) -> SecondBest:
        """What is found."""
        second = None if self.second is None else self.base.plan(self.second.members)
        return SecondBest(self.base.plan(self.best.members), second, len(self.made),
                          len(self.losses))

    def ordered(self) -> list[tuple[tuple[int, int], frozenset[int], str]]:
        """The wishes that a plan of the size may lack, with bounds, the greatest first."""
        found = []
        for loss, name in self.losses:
            bound = self.bound(loss)
            if bound is not None:
                found.append((bound, loss, name))
        return sorted(found, key=lambda it: it[0], reverse=True)


def _searched(wanted: Wanted, is_any_size: bool, is_whole: bool,
              telling: Telling | None) -> tuple[_Search, SecondBest]:
    """The search for the second best plan, which tries all wishes if it is to be whole."""
    search = _Search(wanted)
    if is_any_size:
        search.other_sizes()
    is_pruned = not is_whole and bool(search.best.shares)
    todo = search.ordered() if is_pruned else [((0, 0), *it) for it in search.losses]
    for place, (bound, loss, name) in enumerate(todo):
        if is_pruned and search.second and bound <= pair_of(search.second.weight):
            break
        if telling:
            telling(place, len(todo))
        search.leave_out(loss, name)
    return search, search.result()


def second_best(problem: Problem, size: int | None = None, is_any_size: bool = False,
                must: Iterable[str] = (), must_not: Iterable[str] = (),
                telling: Telling | None = None) -> SecondBest:
    """The second best plan of a `pair`, or of a `list` of one matroid: of the best size or of the
    one that is given, or with `is_any_size` the second best of all. All plans have all of `must`,
    and none of `must_not`. Raises NoPlan if there is no plan at all."""
    wanted = Wanted.of(problem, must, must_not, size)
    return _searched(wanted, is_any_size, False, telling)[1]


def write_proof(search: _Search, is_any_size: bool, folder: str) -> None:
    """Writes the certificates that prove the second best plan into a folder."""
    files = {"best.txt": search.text, "best.answer": search.certificate}
    for place, (_, text, certificate) in enumerate(search.made, 1):
        files[f"without_{place}.txt"], files[f"without_{place}.answer"] = text, certificate
    size, second = search.size, search.second
    files["proof.txt"] = HOW.format(
        size=f" of {size} elements", best=search.best.weight, k=size,
        second=second.weight if second else "the best one, and there is no such rung",
        any_size=ANY_SIZE.format(k=size) if is_any_size else "",
        wishes="\n".join(f"  {place}: {name}" for place, (name, _, _) in enumerate(search.made, 1)))
    write_folder(folder, files, "without_*")


def _right(folder: str, name: str, text: str) -> str:
    """The certificate of this name in a folder, by which this text is answered. Raises NotShown if
    the text beside it is another one, or it is not right."""
    if read_text(os.path.join(folder, f"{name}.txt")) != text:
        raise NotShown(f"{name}.txt is not the description that it has to be")
    certificate = read_text(os.path.join(folder, f"{name}.answer"))
    try:
        is_right = bool(check(text, certificate))
    except BadCertificate:
        is_right = False
    if not is_right:
        raise NotShown(f"{name}.answer is not right")
    return certificate


def judged(wanted: Wanted, is_any_size: bool, folder: str) -> SecondBest:
    """The best and the second best plan that the proof in a folder shows for a problem. Nothing is
    solved: the descriptions are made again, and the certificates are checked. Raises NotShown."""
    text = wanted.base.text(wanted.weights(*wanted.aims()), wanted.must_not)
    search = _Search(wanted, _right(folder, "best", text))
    if is_any_size:
        search.other_sizes()
    for place, (loss, name) in enumerate(search.losses, 1):
        certificate = _right(folder, f"without_{place}", search.text_without(loss))
        search.leave_out(loss, name, certificate)
    return search.result()


def _less(found: SecondBest, shown: Shown) -> str:
    """How much less the second plan weighs."""
    assert found.second is not None
    if found.second.weight == found.best.weight:
        return "as good as the best"
    return f"{shown.cell(found.best.weight - found.second.weight)} less than the best"


def _named(plan: Plan | None, shown: Shown) -> list[str]:
    """What the elements of a plan are called, each once."""
    return list(dict.fromkeys(map(shown.name, plan.members if plan else ())))


def _table(found: SecondBest, shown: Shown) -> Table:
    """The elements of either plan."""
    best, second = _named(found.best, shown), _named(found.second, shown)
    return Table(("element", "best", "second"),
                 [(name, name in best, name in second) for name in dict.fromkeys([*best, *second])])


def _text(found: SecondBest, shown: Shown) -> str:
    """The result for people."""
    lines = [f"BEST: {found.best.size} elements, {shown.worth(found.best.weight)}.\n"]
    if found.second is None:
        return lines[0] + "There is no other plan.\n"
    best, second = _named(found.best, shown), _named(found.second, shown)
    lines += [f"SECOND: {found.second.size} elements, {shown.worth(found.second.weight)},"
              f" {_less(found, shown)}.\n",
              f"  without: {shown.names(it for it in best if it not in second)}\n",
              f"  with:    {shown.names(it for it in second if it not in best)}\n",
              f"Left out, and solved again: {found.tried} of the {found.of} wishes of the best"
              " plan. The others cannot bring more.\n\n", _table(found, shown).text()]
    return "".join(lines)


def _found(wanted: Wanted, given: argparse.Namespace) -> SecondBest:
    """What is searched, or what a proof shows."""
    if given.verify:
        return judged(wanted, given.any_size, given.verify)
    with Progress("second-best") as progress:
        search, found = _searched(
            wanted, given.any_size, bool(given.proof),
            lambda place, of: progress.tell(f"{place} of at most {of} wishes left out"))
    if given.proof:
        write_proof(search, given.any_size, given.proof)
    return found


def main(words: Sequence[str]) -> int:
    """Runs the command."""
    parser = parser_of("second-best", ABOUT, EXAMPLES)
    add_words(parser)
    parser.add_argument("--any-size", action="store_true", help="the second plan has any size")
    parser.add_argument("--proof", metavar="FOLDER", help="write the certificates into this folder")
    parser.add_argument("--verify", metavar="FOLDER",
                        help="check the proof in this folder, for the same words, and solve nothing")
    given = parser.parse_args(list(words))
    if given.any_size and given.size is not None:
        raise InputFault("--any-size and --size do not go together")
    try:
        wanted = wanted_of(given)
        found = _found(wanted, given)
    except NoPlan as error:
        return no_plan(error)
    except NotShown as error:
        write(f"NOT RIGHT: {error}\n")
        return NOT_SO
    base = wanted.base
    if given.format == "json":
        second = real_record_of(found.second, base) if found.second else None
        write(json_of({"best": real_record_of(found.best, base), "second": second}))
    elif given.format == "csv":
        write(_table(found, base.shown).csv())
    else:
        write(_text(found, base.shown))
    return DONE if found.second else NOT_SO
