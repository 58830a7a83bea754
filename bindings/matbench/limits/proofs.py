"""Proofs as folders: the charged descriptions and their certificates, which `matbench check`
judges, the prices, and one sum. A reader needs the folder, the descriptions and the table of
limits.

leaves.csv     the parts of all plans: a path of elements that its plans have (+) or have not (-),
               and the prices, or none where the part has no plan
covers.csv     the limits that follow from others, each with its elements
leafI_J.txt    the description J with the weights of part I, leafI_J.answer its certificate
plan.txt       the elements of the plan
bound.md       what is proved, in words and numbers
"""
from __future__ import annotations

import csv
import io
import re
from dataclasses import dataclass
from pathlib import Path
from typing import TYPE_CHECKING

from matbench.calls import call_at_once
from matbench.command_lines import write
from matbench.faults import InputFault
from matbench.limits.bounds import charged_by, joined_ladders, rungs_of, scale_for, solved, unfit
from matbench.limits.branching import Leaf
from matbench.limits.plans import Search
from matbench.limits.problem import Limit

if TYPE_CHECKING:
    from collections.abc import Iterator, Sequence

    from matbench.limits.problem import Joined
    from matbench.limits.solving import Outcome
    from matbench.progress import Progress


@dataclass(frozen=True)
class Proved:
    """What a proof shows: no plan that keeps all limits, of `size` elements if that is not None,
    gains more than `bound`, or there is none if that is None; and what its plan gains, None where
    it has none that keeps all limits."""

    bound: int | None
    gain: int | None
    size: int | None
    leaves: int
    certificates: int


def _outs(limits: Sequence[Limit], leaf: Leaf) -> list[int]:
    """The elements that no plan of a leaf has."""
    return sorted(leaf.outs | unfit(limits, leaf.ins)) if leaf.path else []


def _texts(joined: Joined, limits: Sequence[Limit], leaf: Leaf, scale: int) -> list[str]:
    """The charged descriptions of a leaf; those without weights where it has no plan."""
    prices = leaf.prices or ()
    charged = charged_by(joined, limits, prices, scale) if leaf.prices is not None \
        else [0] * joined.n
    return joined.texts(charged, _outs(limits, leaf), sorted(leaf.ins))


def _is_broken(joined: Joined, search: Search, leaf: Leaf, size: int | None) -> bool:
    """Whether a leaf has no plan since its elements alone break a limit or are too many, or what
    is left is too few."""
    few = size is not None and not len(leaf.ins) <= size <= joined.n - len(leaf.outs)
    return few or bool(leaf.ins & leaf.outs) or not search.keeps(leaf.ins)


def _spelled_path(joined: Joined, leaf: Leaf) -> str:
    return " ".join(("+" if has else "-") + joined.names[it] for has, it in leaf.path)


def _rows(heads: Sequence[str], rows: Sequence[Sequence[object]]) -> str:
    """A table as CSV."""
    written = io.StringIO(newline="")
    writer = csv.writer(written, lineterminator="\n")
    writer.writerows([heads, *rows])
    return written.getvalue()


def write_proof(outcome: Outcome, folder: str, progress: Progress | None = None) -> None:
    """Writes the proof of an outcome into a folder, which is made if it is not there. Raises
    InputFault where it cannot be written."""
    place = Path(folder)
    try:
        place.mkdir(parents=True, exist_ok=True)
        for old in place.glob("leaf*_*"):
            old.unlink()
    except OSError as error:
        raise InputFault(f"{folder} cannot be made: {error.strerror}") from error
    joined = outcome.joined
    covers = [(it.name, it.source.name, it.most,
               " ".join(joined.names[each] for each in it.amounts))
              for it in outcome.limits if it.source]
    write(_rows(["name", "limit", "most", "elements"], covers), f"{folder}/covers.csv")
    rows = []
    for number, leaf in enumerate(outcome.leaves):
        prices = "none" if leaf.prices is None else " ".join(map(str, leaf.prices))
        rows.append((number, _spelled_path(joined, leaf), prices))
        _write_leaf(outcome, leaf, number, folder)
        if progress:
            progress.tell(f"{number} of {len(outcome.leaves)} parts of the proof written")
    write(_rows(["leaf", "path", "prices"], rows), f"{folder}/leaves.csv")
    write("".join(f"{name}\n" for name in outcome.names), f"{folder}/plan.txt")
    write("\n".join(story_of(outcome)) + "\n", f"{folder}/bound.md")


def _write_leaf(outcome: Outcome, leaf: Leaf, number: int, folder: str) -> None:
    """Writes the charged descriptions of a leaf and their certificates."""
    search = Search(outcome.joined, [it for it in outcome.limits if not it.source])
    if leaf.prices is None and _is_broken(outcome.joined, search, leaf, outcome.size):
        return
    for part, text in enumerate(_texts(outcome.joined, outcome.limits, leaf, outcome.scale)):
        write(text, f"{folder}/leaf{number}_{part}.txt")
        write(solved(text), f"{folder}/leaf{number}_{part}.answer")


def story_of(outcome: Outcome) -> Iterator[str]:
    """What is proved, as lines."""
    joined = outcome.joined
    yield f"size {'all' if outcome.size is None else outcome.size}"
    yield ""
    units = f"Each weight in a file leaf*.txt is {outcome.scale} times the gain"
    if joined.base:
        units += f" (A:B as A*{joined.base} + B)"
    yield f"{units}, less the prices of what the element counts."
    for it in outcome.limits:
        if it.source:
            amounts = sorted(it.source.amounts[each] for each in it.amounts)[:it.most + 1]
            yield (f"{it.name}: the {it.most + 1} smallest amounts are"
                   f" {' + '.join(map(str, amounts))} = {sum(amounts)}, above {it.source.most}: so"
                   f" at most {it.most}.")
    for number, leaf in enumerate(outcome.leaves):
        path = _spelled_path(joined, leaf)
        part = f"leaf {number}" + (f" ({path})" if path else "")
        if leaf.prices is None:
            yield f"{part}: no plan keeps the limits."
            continue
        paid = [(price, it) for price, it in zip(leaf.prices, outcome.limits) if price]
        prices = sum(price * it.most for price, it in paid)
        given = sum(charged_by(joined, outcome.limits, leaf.prices, outcome.scale)[it]
                    for it in leaf.ins)
        words = " + ".join(f"{price} x {it.most} ({it.name})" for price, it in paid) or "0"
        yield (f"{part}: best rungs {leaf.value - prices - given}, prices {words}"
               + (f", given elements {given}" if leaf.ins else "")
               + f": together {leaf.value}; divided by {outcome.scale} and rounded down:"
               f" {leaf.value // outcome.scale}.")
    if outcome.bound is None:
        yield "So no plan keeps all limits."
    else:
        yield f"So no plan that keeps all limits gains more than {joined.spelled(outcome.bound)}."


class _Folder:
    """A folder of a proof, of which what is read is not trusted."""

    def __init__(self, folder: str, joined: Joined, limits: Sequence[Limit]):
        self._folder, self.joined, self.given = folder, joined, list(limits)
        if not Path(folder, "bound.md").is_file():
            what = "it has no bound.md" if Path(folder).is_dir() else "there is no such folder"
            raise InputFault(f"{folder} is no proof of limits: {what}")
        head = self.text("bound.md").split("\n", 1)[0]
        found = re.fullmatch("size (all|[0-9]{1,9})", head)
        if not found:
            raise self.fault("bound.md", "its first line is no size")
        self.size = None if found[1] == "all" else int(found[1])
        self.search = Search(joined, self.given)
        self.limits = [*self.given, *self._covers()]

    def fault(self, name: str, what: str) -> InputFault:
        """What is wrong with a file of the proof."""
        return InputFault(f"{self._folder}/{name}: {what}")

    def text(self, name: str) -> str:
        """The text of a file."""
        try:
            return Path(self._folder, name).read_text(encoding="utf-8")
        except OSError as error:
            raise self.fault(name, error.strerror or "it cannot be read") from error
        except UnicodeDecodeError:
            raise self.fault(name, "this is no text in UTF-8") from None

    def _table(self, name: str, heads: list[str]) -> list[list[str]]:
        """The lines of a table behind its heads."""
        try:
            rows = list(csv.reader(io.StringIO(self.text(name), newline=""), strict=True))
        except csv.Error as error:
            raise self.fault(name, str(error)) from error
        if not rows or rows[0] != heads or any(len(it) != len(heads) for it in rows):
            raise self.fault(name, f"its columns are not {', '.join(heads)}")
        return rows[1:]

    def _element(self, name: str, word: str) -> int:
        """An element by its name."""
        if word not in self.joined.index:
            raise self.fault(name, f"{word[:60]!r} is no element")
        return self.joined.index[word]

    def _covers(self) -> Iterator[Limit]:
        """The limits that follow from others, each shown by adding its smallest amounts."""
        by_name = {it.name: it for it in self.given}
        for name, of, most, words in self._table("covers.csv",
                                                 ["name", "limit", "most", "elements"]):
            members = {self._element("covers.csv", it) for it in words.split()}
            if of not in by_name or not re.fullmatch("[0-9]{1,9}", most):
                raise self.fault("covers.csv", f"{name}: there is no such limit, or no number")
            amounts = sorted(by_name[of].amounts.get(it, 0) for it in members)[:int(most) + 1]
            if len(amounts) <= int(most) or sum(amounts) <= by_name[of].most:
                raise self.fault("covers.csv", f"{name}: {int(most) + 1} of its elements may be"
                                               " within the limit")
            yield Limit(name, int(most), dict.fromkeys(sorted(members), 1), 1, by_name[of])

    def leaves(self) -> Iterator[tuple[str, Leaf]]:
        """The leaves, each with its name."""
        for number, path, prices in self._table("leaves.csv", ["leaf", "path", "prices"]):
            words = path.split()
            if not re.fullmatch("[0-9]+", number) or any(it[0] not in "+-" for it in words):
                raise self.fault("leaves.csv", f"leaf {number[:20]} has no number or no path")
            steps = tuple((it[0] == "+", self._element("leaves.csv", it[1:])) for it in words)
            yield number, Leaf(steps, None if prices == "none" else self._prices(prices))

    def _prices(self, words: str) -> tuple[int, ...]:
        """The prices of a leaf, 0 where it has fewer than there are limits."""
        found = words.split()
        if not all(re.fullmatch("[0-9]{1,15}", it) for it in found):
            raise self.fault("leaves.csv", "a price is no whole number from 0")
        if len(found) > len(self.limits):
            raise self.fault("leaves.csv", "there are more prices than limits")
        return (*map(int, found), *[0] * (len(self.limits) - len(found)))

    def plan(self) -> list[int]:
        """The elements of the plan."""
        return [self._element("plan.txt", it) for it in self.text("plan.txt").split()]

    def ladders(self, number: str, leaf: Leaf, scale: int) -> list[list[tuple[int, list[int]]]]:
        """The rungs of the parts of a leaf, of certificates that the program says yes to."""
        found = []
        for part, text in enumerate(_texts(self.joined, self.limits, leaf, scale)):
            name = f"leaf{number}_{part}"
            if self.text(f"{name}.txt") != text:
                raise self.fault(f"{name}.txt", "this is not the description with these prices")
            answer = self.text(f"{name}.answer")
            files = {"f": text.encode(), "c": answer.encode()}
            ended = call_at_once(["check", "f", "c"], files)
            if ended.status or ended.output != b"yes\n" or not answer.startswith(
                    "certificate 1\nanswer intersect "):
                raise self.fault(f"{name}.answer", f"it is not right {ended.note}".rstrip())
            found.append(rungs_of(answer))
        return found


def _is_tree(paths: Sequence[tuple[tuple[bool, int], ...]], depth: int = 0) -> bool:
    """Whether paths are all leaves of one tree of choices, so that each plan is of one of them."""
    if len(paths) == 1 and len(paths[0]) == depth:
        return True
    if any(len(it) <= depth for it in paths) or len({it[depth][1] for it in paths}) != 1:
        return False
    sides = [[it for it in paths if it[depth][0] == has] for has in (True, False)]
    return all(side and _is_tree(side, depth + 1) for side in sides)


def _value(proof: _Folder, number: str, leaf: Leaf, scale: int) -> int | None:
    """What no plan of a leaf exceeds, in units of price, or None where it has no plan."""
    if leaf.prices is None and _is_broken(proof.joined, proof.search, leaf, proof.size):
        return None
    table = joined_ladders(proof.ladders(number, leaf, scale))
    sizes = table if proof.size is None else [it for it in table
                                              if it == proof.size - len(leaf.ins)]
    if not sizes:
        return None
    if leaf.prices is None:
        raise proof.fault("leaves.csv", f"leaf {number} is said to have no plan, and may have one")
    charged = charged_by(proof.joined, proof.limits, leaf.prices, scale)
    return max(table[it][0] for it in sizes) + sum(charged[it] for it in leaf.ins) + sum(
        price * it.most for price, it in zip(leaf.prices, proof.limits))


def verify(folder: str, joined: Joined, limits: Sequence[Limit],
           progress: Progress | None = None) -> Proved:
    """What the proof in a folder shows, without a search: each certificate is judged by the
    program, and the sums are made anew. Raises InputFault where it is not right."""
    proof, scale = _Folder(folder, joined, limits), scale_for(joined)
    leaves = list(proof.leaves())
    if not leaves or not _is_tree([it.path for _, it in leaves]):
        raise proof.fault("leaves.csv", "the leaves are not all plans")
    values = []
    for place, (number, leaf) in enumerate(leaves):
        if progress:
            progress.tell(f"{place} of {len(leaves)} parts are right")
        values.append(_value(proof, number, leaf, scale))
    bound = max((it // scale for it in values if it is not None), default=None)
    if bound is not None and proof.size is not None and \
            bound < sum(sorted(joined.gains)[:proof.size]):
        bound = None
    plan = proof.plan()
    keeps = len(set(plan)) == len(plan) and proof.search.keeps(plan) and \
        proof.size in (None, len(plan))
    return Proved(bound, joined.gain_of(plan) if keeps else None, proof.size, len(leaves),
                  sum(it is not None for it in values) * len(joined.parts))
