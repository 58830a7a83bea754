"""A function for each command of the program."""
from __future__ import annotations

from collections.abc import Callable
from typing import TYPE_CHECKING, TypeVar, cast

from matbench.answers import (Answer, Arborescence, Covering, DisjointArborescences, Ladder,
                              Packing, PricedArborescence, Trees, Union, Verdict)
from matbench.calls import Ended, call, done
from matbench.certificates import (Lines, read_arborescence, read_covering, read_disjoint,
                                   read_ladder, read_packing, read_priced, read_trees, read_union)
from matbench.descriptions import MOST_OF_CERTIFICATE, Description, Problem, Text, bytes_of
from matbench.problems import Matrix, is_matrix, table
from matbench.refusals import NotRight
from matbench.showing import shown

if TYPE_CHECKING:
    from typing import TypeAlias

#: What a certificate is given as: an answer, its text, or a path to its file.
Certificate: TypeAlias = "Answer | Text"
_Read = TypeVar("_Read", bound=Answer)


def words_of(command: str, workers: int, *more: object) -> list[str]:
    """The words of a call."""
    chosen = ["--workers", str(workers)] if workers != 1 else []
    return [command, *chosen, *map(str, more)]


def _solve(command: str, read: Callable[[Lines], _Read], problem: Problem,
           timeout: float | None, workers: int, *more: int) -> _Read:
    description = Description.of(problem)
    ended = call(words_of(command, workers, *more, "f"), {"f": description.text}, timeout=timeout)
    return read(Lines(done(ended, problem), description))


def intersect(problem: Problem, workers: int = 1, timeout: float | None = None) -> Ladder:
    """For a `pair N`: for each size a heaviest set that both matroids allow. Up to `workers`
    threads compute, from 1 to 16."""
    return _solve("intersect", read_ladder, problem, timeout, workers)


def best(problem: Problem, workers: int = 1, timeout: float | None = None) -> Ladder:
    """For a `list N 1`: for each size a heaviest set that the matroid allows."""
    return _solve("best", read_ladder, problem, timeout, workers)


def union(problem: Problem, workers: int = 1, timeout: float | None = None) -> Union:
    """For a `list N M`: M disjoint sets, one for each matroid and allowed by it, with as many
    elements as can be, and then of greatest weight."""
    return _solve("union", read_union, problem, timeout, workers)


def pack(problem: Problem, workers: int = 1, timeout: float | None = None) -> Packing:
    """For a `list N 1`: as many disjoint bases as there are."""
    return _solve("pack", read_packing, problem, timeout, workers)


def cover(problem: Problem, workers: int = 1, timeout: float | None = None) -> Covering:
    """For a `list N 1`: as few allowed sets as hold all elements."""
    return _solve("cover", read_covering, problem, timeout, workers)


def trees(problem: Problem, count: int, workers: int = 1, timeout: float | None = None) -> Trees:
    """For a `graph V E`: `count` spanning trees, from 1 to 64, that share no edge."""
    return _solve("trees", read_trees, problem, timeout, workers, count)


def arborescence(problem: Problem, workers: int = 1, timeout: float | None = None) -> Arborescence:
    """For a `rooted V E R`: arcs of least cost along which the root reaches all vertices."""
    return _solve("arborescence", read_arborescence, problem, timeout, workers)


def disjoint(problem: Problem, count: int, workers: int = 1,
             timeout: float | None = None) -> DisjointArborescences:
    """For a `rooted V E R`: `count` sets of arcs, from 1 to 64, that share no arc, along each of
    which the root reaches all vertices."""
    return _solve("disjoint", read_disjoint, problem, timeout, workers, count)


def rainbow(problem: Problem, workers: int = 1, timeout: float | None = None) -> Ladder:
    """For a `coloured V E C`: for each size a heaviest forest of edges of different colours."""
    return _solve("rainbow", read_ladder, problem, timeout, workers)


def assign(problem: Problem | Matrix, workers: int = 1, timeout: float | None = None) -> Ladder:
    """For a `table R C E`, or a matrix as the function table takes it: for each size a heaviest set
    of cells of which no two share a row or a column."""
    given = table(problem) if is_matrix(problem) else cast(Problem, problem)
    return _solve("assign", read_ladder, given, timeout, workers)


def cuts(problem: Problem, timeout: float | None = None) -> PricedArborescence:
    """For a `rooted V E R` whose costs are not below 0: arcs of least cost along which the root
    reaches all vertices, and prices of vertex sets that pay for them."""
    return _solve("cuts", read_priced, problem, timeout, 1)


def _file(problem: Problem) -> dict[str, bytes]:
    """The file of a call about a problem."""
    return {"f": Description.of(problem).text}


def show(problem: Problem, timeout: float | None = None) -> str:
    """The canonical text of a description of any form."""
    return done(call(["show", "f"], _file(problem), timeout=timeout), problem)


def convert(problem: Problem, timeout: float | None = None) -> str:
    """The text of a description of any form with names for its elements and vertices."""
    return done(call(["convert", "f"], _file(problem), timeout=timeout), problem)


def _files(problem: Problem, answer: Certificate) -> dict[str, bytes]:
    """The files of a call about a problem and a certificate."""
    if isinstance(answer, Answer):
        certificate = answer.certificate.encode()
    else:
        certificate = bytes_of(answer, MOST_OF_CERTIFICATE)
    return {**_file(problem), "c": certificate}


def _verdict(ended: Ended, *texts: object) -> Verdict:
    if ended.status == NotRight.status:
        return Verdict(False, ended.note)
    return Verdict(done(ended, *texts) == "yes\n")


def check(problem: Problem, answer: Certificate, workers: int = 1,
          timeout: float | None = None) -> Verdict:
    """Whether an answer of any command but cuts, or a certificate from wherever it came, is right
    for the problem."""
    ended = call(words_of("check", workers, "f", "c"), _files(problem, answer), timeout=timeout)
    return _verdict(ended, problem, answer)


def tell(problem: Problem, answer: Certificate, timeout: float | None = None) -> str:
    """A right answer of any command but cuts in words, in the names of the description, and why
    there is none better. Its lines are for people and may change. Raises NotRight where the answer
    is not right."""
    return shown("--tell", _files(problem, answer), timeout, problem, answer)


def picture(problem: Problem, answer: Certificate, timeout: float | None = None) -> str:
    """A right answer of any command but cuts as a picture, the text of an SVG that needs no other
    file. Raises NotRight where the answer is not right."""
    return shown("--picture", _files(problem, answer), timeout, problem, answer)


def witness(problem: Problem, answer: Certificate, rung: int, timeout: float | None = None) -> str:
    """The text of a witness, which shows without a search that a rung of a right answer of
    intersect is best. Raises NotRight where the answer is not right."""
    ended = call(["witness", str(rung), "f", "c"], _files(problem, answer), timeout=timeout)
    return done(ended, problem, answer)


def verify(problem: Problem, answer: Certificate, rung: int, text: Text,
           timeout: float | None = None) -> Verdict:
    """Whether a witness, from wherever it came, shows the rung."""
    files = {**_files(problem, answer), "w": bytes_of(text, MOST_OF_CERTIFICATE)}
    ended = call(["verify", str(rung), "f", "c", "w"], files, timeout=timeout)
    return _verdict(ended, problem, answer, text)


def sample(kind: str, size: int, seed: int, workers: int = 1, timeout: float | None = None) -> str:
    """The line that sums up the answer to a problem that is made of a kind, a size from 1 to 500,
    and a seed from 1 to 2147483646."""
    ended = call(words_of("sample", workers, kind, size, seed), {}, timeout=timeout)
    return done(ended).rstrip("\n")


def version(timeout: float | None = None) -> str:
    """The program's name and version."""
    return done(call(["--version"], {}, timeout=timeout)).rstrip("\n")
