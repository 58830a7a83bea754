"""Many jobs in one call."""
from __future__ import annotations

import re
import time
from collections.abc import Mapping, Sequence
from typing import TYPE_CHECKING

from matbench.answers import Answer
from matbench.calls import ROOM, Ended, call, done
from matbench.certificates import read_answer
from matbench.commands import words_of
from matbench.descriptions import Description, Problem
from matbench.refusals import BadList, WriteFault

if TYPE_CHECKING:
    from typing import TypeAlias

#: A list has at most so many jobs.
MOST_JOBS = 32
#: A job: the name of a command, its problem, and for trees and disjoint the count.
Job: TypeAlias = "tuple[str, Problem] | tuple[str, Problem, int]"


def _hold_to_jobs(jobs: Sequence[Job]) -> None:
    """Raises where one of them has not the parts of a job."""
    for place, job in enumerate(jobs):
        if isinstance(job, str) or not 2 <= len(job) <= 3 or not isinstance(job[0], str):
            raise TypeError(f"job {place} is no tuple of a command, its problem and, for trees and"
                            " disjoint, the count")


def _line(place: int, job: Job) -> str:
    """The line of a list that names a job, whose words have no space and no line end."""
    words = [job[0], *map(str, job[2:])]
    for word in words:
        if not re.fullmatch("[!-~]+", word):
            sentence = f"{word!r} in job {place} is neither a command nor a count"
            raise BadList(BadList.status, f"refused: list line {place + 2}", sentence)
    return " ".join(["job", *words, f"f{place}"])


def _call_with_room(words: Sequence[str], files: Mapping[str, bytes], most: int,
                    timeout: float | None) -> Ended:
    """A call whose output has room in that of one answer, or else in `most` bytes."""
    began = time.monotonic()
    ended = call(words, files, min(ROOM, most), timeout)
    if ended.status != WriteFault.status:
        return ended
    left = None if timeout is None else max(0, timeout - (time.monotonic() - began))
    return call(words, files, most, left)


def batch(jobs: Sequence[Job], workers: int = 1, timeout: float | None = None) -> list[Answer]:
    """The answers of up to 32 jobs, or none where one of them is refused. A job is a tuple of the
    name of a command but cuts, its problem, and for trees and disjoint the count:
    ("intersect", text), ("trees", text, 2)."""
    _hold_to_jobs(jobs)
    lines = [_line(place, job) for place, job in enumerate(jobs)]
    problems = [Description.of(job[1]) for job in jobs]
    files = {f"f{place}": problem.text for place, problem in enumerate(problems)}
    files["list"] = "\n".join(["jobs 1", *lines, "end", ""]).encode()
    room = ROOM * max(1, min(len(jobs), MOST_JOBS))
    ended = _call_with_room(words_of("batch", workers, "list"), files, room, timeout)
    text = done(ended, *(job[1] for job in jobs))
    certificates = [part + "\nend\n" for part in text.split("\nend\n")[:-1]]
    return [read_answer(problem, it) for problem, it in zip(problems, certificates)]
