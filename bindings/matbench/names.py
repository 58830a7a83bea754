"""python3 -m matbench names: the sets of an answer, in the names of its description."""
from __future__ import annotations

import sys
from typing import TYPE_CHECKING, Any

from matbench.answers import (Arborescence, Covering, DisjointArborescences, Ladder, Packing,
                              PricedArborescence, Trees, Union)
from matbench.certificates import read_answer
from matbench.command_lines import DONE, parser_of, reason_of, write
from matbench.descriptions import MOST_OF_CERTIFICATE, MOST_OF_DESCRIPTION, Description, bytes_of
from matbench.faults import InputFault
from matbench.refusals import TooLong
from matbench.weights import Weight, pair_of

if TYPE_CHECKING:
    from collections.abc import Iterable, Iterator, Sequence

    from matbench.answers import Answer, Rung

ABOUT = """\
Prints the sets of an answer on standard input, in the names of its description DESC.

DESC is in version 2 (`matbench convert DESC` gives names to one that has none). A rung is printed
as 'SIZE for WEIGHT: NAMES', every other set behind its word, and behind vertices the arcs that
enter them; splits, levels and colours are left out. WEIGHT may be A:B, as in '3 for 15:3: NAMES':
split a line at ': '.
"""
EXAMPLES = """\
example:
  matbench intersect people.txt | python3 -m matbench names people.txt --best
"""


def _line(word: object, names: Iterable[Any]) -> str:
    return " ".join([str(word), *map(str, names)])


def _lines(word: str, sets: Iterable[Iterable[Any]] | None) -> list[str]:
    """A line for each set, behind a word."""
    return [_line(word, each) for each in sets or ()]


def _entered(problem: Description, vertices: Sequence[Any]) -> Iterator[str]:
    """Vertices, and the arcs that enter them."""
    arcs = [line.split()[1:3] for line in problem.text.decode("ascii").split("\n")
            if line.startswith("arc ")]
    yield _line("vertices", vertices)
    names = [name for name, (tail, head) in zip(problem.elements or (), arcs)
             if head in vertices and tail not in vertices]
    yield _line("entered by", names or ["no arc"])


def _of_roots(answer: Answer, problem: Description) -> Iterator[str]:
    """The sets of an answer about a rooted graph."""
    if isinstance(answer, DisjointArborescences):
        yield from _lines("tree", answer.trees)
        if answer.entered is not None:
            yield from _entered(problem, answer.entered)
    elif isinstance(answer, (Arborescence, PricedArborescence)):
        yield from _lines("set", None if answer.arcs is None else [answer.arcs])
        if answer.unreached is not None:
            yield from _entered(problem, answer.unreached)
    if isinstance(answer, PricedArborescence):
        yield from (_line(f"cut {it.price}", it.vertices) for it in answer.prices or ())


def lines_of(answer: Answer, problem: Description) -> Iterator[str]:
    """Each set of an answer, in names, as a line."""
    if isinstance(answer, Ladder):
        yield from (_line(f"{it.size} for {it.weight}:", it.members) for it in answer.rungs)
    elif isinstance(answer, (Union, Covering)):
        yield from _lines("part", answer.parts)
    elif isinstance(answer, Packing):
        yield from _lines("base", answer.bases)
    elif isinstance(answer, Trees):
        yield from _lines("tree", answer.trees)
        yield from _lines("class", answer.classes)
    if isinstance(answer, Covering):
        yield from (f"in no allowed set: {it}" for it in answer.uncovered)
    if isinstance(answer, (Ladder, Covering, Packing)) and answer.cut is not None:
        yield _line("cut", answer.cut)
    yield from _of_roots(answer, problem)


def _rungs_of(answer: Answer) -> tuple[Rung, ...]:
    """The rungs of an answer, which has to have some."""
    if not isinstance(answer, Ladder):
        raise InputFault("the answer has no rungs")
    return answer.rungs


def _best(answer: Answer, most: int | None) -> Iterator[str]:
    """The rung of the greatest weight, the largest of several, of those up to a size."""
    rungs = _rungs_of(answer)[: None if most is None else most + 1]
    best = max(rungs, key=lambda it: (pair_of(it.weight), it.size))
    yield f"{best.size} for {best.weight}:"
    yield from map(str, best.members)


def _split(answer: Answer, problem: Description, size: int) -> Iterator[str]:
    """The sums of both shares over the set of a rung, and the elements with a second share."""
    rungs, names = _rungs_of(answer), problem.elements or ()
    if not 0 <= size < len(rungs) or not rungs[size].first:
        raise InputFault(f"the answer has no rung {size} with a split")
    rung, inside = rungs[size], set(rungs[size].members)
    first, second = (_sum(share for name, share in zip(names, shares) if name in inside)
                     for shares in (rung.first, rung.second))
    yield f"{size} for {rung.weight}: first {first}, second {second}"
    for name, one, other in zip(names, rung.first, rung.second):
        if other != 0:
            yield f"{name} {one} {other}"


def _sum(weights: Iterable[Weight | int]) -> Weight | int:
    """The sum of weights."""
    total: Weight | int = 0
    for it in weights:
        total = total + it
    return total


def _problem(path: str) -> Description:
    """The description of a file, which has to have names."""
    try:
        with open(path, "rb") as file:
            text = file.read(MOST_OF_DESCRIPTION + 1)
        found = Description.of(bytes_of(text, MOST_OF_DESCRIPTION))
        text.decode("ascii")
    except (OSError, TooLong) as error:
        raise InputFault(f"{path}: {reason_of(error)}") from error
    except ValueError:
        raise InputFault(f"{path}: this is no description: it has signs that are none of ASCII") \
            from None
    if not text.strip():
        raise InputFault(f"{path}: there is nothing in it")
    if not text.startswith(b"matroids "):
        raise InputFault(f"{path}: this is no description: its first line is none")
    if found.elements is None:
        raise InputFault(f"{path}: the description has no names; `matbench convert {path}` writes"
                         " it with names")
    return found


def _answer(problem: Description) -> Answer:
    """The answer on standard input."""
    text = sys.stdin.buffer.read(MOST_OF_CERTIFICATE + 1)
    try:
        words = text.split(b"\n", 2)[1].split()
        count = len(problem.elements or ())
        if words[1] != b"cuts" and int(words[2]) != count:
            raise InputFault(f"the answer is one to another description: it has {int(words[2])}"
                             f" elements, and this one {count}")
        return read_answer(problem, text)
    except InputFault:
        raise
    except (ValueError, LookupError, TypeError):
        raise InputFault("what stands on standard input is no whole answer") from None


def main(given: Sequence[str]) -> int:
    """Runs the command, and answers its exit status."""
    parser = parser_of("names", ABOUT, EXAMPLES)
    shown = parser.add_mutually_exclusive_group()
    shown.add_argument("--best", action="store_true", help="the rung of the greatest weight alone,"
                       " with a line for each name below it; of several the largest")
    shown.add_argument("--split", type=int, metavar="SIZE", help="why the rung of this size is"
                       " best: the sums of its two shares, and each element with a second share")
    parser.add_argument("--most", type=int, metavar="SIZE",
                        help="with --best: of the rungs up to this size")
    parser.add_argument("description", metavar="DESC")
    options = parser.parse_args(given)
    if options.most is not None and (options.most < 0 or not options.best):
        parser.error("--most takes a size from 0, and stands beside --best")
    problem = _problem(options.description)
    answer = _answer(problem)
    lines = _best(answer, options.most) if options.best else \
        lines_of(answer, problem) if options.split is None else \
        _split(answer, problem, options.split)
    write("".join(f"{line}\n" for line in lines))
    return DONE
