"""Proofs about structures: certificates of `cover` for the independent bars, and a count of parts.

That bars are independent, in general position, one certificate shows. In the plane: each bar can be
doubled, and all of them still fall into two forests (Lovasz and Yemini, 1982; Recski, 1984). Of
bodies: the bars fall into three forests in the plane, and into six in space (Tay, 1984).

That there are no more than so many, a count shows: each bar lies in a part, and of those in a part
with v vertices at most `each` * v - `short` are independent. A bar that is a part by itself is
critical. One that some largest set of independent bars leaves out may fail.
"""
from __future__ import annotations

from dataclasses import dataclass
from typing import TYPE_CHECKING, NamedTuple

import matbench
from matbench.truss.pebbles import largest_basis, study
from matbench.truss.structures import JOINTS

if TYPE_CHECKING:
    from collections.abc import Callable, Hashable, Mapping, Sequence
    from typing import TypeAlias

    from matbench.truss.analysis import Analysis
    from matbench.truss.structures import Structure

#: A description has so many elements; of bars of the plane each is there twice.
MOST_BARS, MOST_PLANE_BARS = 500, 250
#: Is told when so many of so many certificates are done.
Telling: TypeAlias = "Callable[[int, int], None]"


#: The key of the parts of the whole structure.
WHOLE = -1


class NotProved(ValueError):
    """A proof that does not show what it says, or that cannot be made."""


@dataclass(frozen=True)
class Proof:
    """What shows an analysis. `bases` are largest sets of independent bars, by their places, each
    with the text of its certificate. `counts` has parts for the structure, under the key WHOLE, and
    for the structure without a member that is critical, under its place: each part is bars, and all
    bars are in parts. Of a member that is one bar and critical there is no count: that bar is a
    part by itself."""

    structure: Structure
    bases: tuple[tuple[int, ...], ...]
    certificates: tuple[str, ...]
    counts: Mapping[int, Sequence[Sequence[int]]]


def _names(structure: Structure, bars: Sequence[int]) -> list[str]:
    """The names of some bars."""
    names = structure.bar_names()
    return [names[bar] for bar in bars]


def _two_forests(structure: Structure, basis: Sequence[int]) -> matbench.Description:
    """The description of which `cover` finds parts if bars of the plane are independent."""
    ends = [structure.bars[bar] for bar in basis]
    names = _names(structure, basis)
    elements: list[Hashable] = [*names, *((name, "again") for name in names)]
    forests = matbench.UnionOf(*[matbench.Graphic(ends * 2)] * 2)
    doubled = matbench.Contract(names, forests)
    given = matbench.Restrict(names, matbench.Uniform(len(names)))
    weights = {element: 0 for element in elements}
    return matbench.listed(weights, matbench.UnionOf(doubled, given))


def _forests(structure: Structure, basis: Sequence[int]) -> matbench.Description:
    """The description of which `cover` finds one part if bars between bodies are independent."""
    ends = [structure.bars[bar] for bar in basis]
    names = _names(structure, basis)
    forests = [matbench.Graphic(ends)] * structure.sparsity.each
    return matbench.listed({name: 0 for name in names}, matbench.UnionOf(*forests))


def description(structure: Structure, basis: Sequence[int]) -> matbench.Description:
    """The description whose `cover` shows that these bars, at least one, are independent. Raises
    NotProved if they are too many for a description."""
    in_plane = structure.sparsity == JOINTS
    most = MOST_PLANE_BARS if in_plane else MOST_BARS
    if len(basis) > most:
        raise NotProved(f"{len(basis)} independent bars are more than the {most} that a proof can"
                        " have")
    return (_two_forests if in_plane else _forests)(structure, basis)


def shows(structure: Structure, answer: matbench.Covering) -> bool:
    """Whether a right answer to such a description shows that its bars are independent."""
    if answer.parts is None:
        return False
    return structure.sparsity == JOINTS or len(answer.parts) == 1


def _late(structure: Structure, left: Sequence[int]) -> set[int]:
    """The bars that the next basis is to leave out if it can: those of all members of one bar, or
    else those of one member of several, which are left out together."""
    single = [it for it in left if len(structure.bars_of(it)) == 1]
    return {bar for it in single or left[:1] for bar in structure.bars_of(it)}


def _bases(found: Analysis) -> list[list[int]]:
    """Few largest sets of independent bars, of which each spare member is left out of one."""
    structure, bases = found.structure, [found.count.basis]
    left = list(found.spare)
    while True:
        left = [it for it in left if set(structure.bars_of(it)) & set(bases[-1])]
        if not left:
            return bases
        late = _late(structure, left)
        order = sorted(range(len(structure.bars)), key=late.__contains__)
        bases.append(largest_basis(len(structure.vertices), structure.bars, structure.sparsity,
                                   order))


def _counts(found: Analysis) -> dict[int, list[list[int]]]:
    """The parts of the count, for the whole and without each critical member of several bars."""
    structure, count = found.structure, found.count
    counts = {WHOLE: count.groups + [[bar] for bar in count.critical]}
    for it in found.critical:
        own = structure.bars_of(it)
        if len(own) > 1:
            kept = [bar for bar in range(len(structure.bars)) if bar not in own]
            edges = [structure.bars[bar] for bar in kept]
            left = study(len(structure.vertices), edges, structure.sparsity)
            parts = left.groups + [[bar] for bar in left.critical]
            counts[it] = [[kept[place] for place in part] for part in parts]
    return counts


def certificate(structure: Structure, basis: Sequence[int]) -> str:
    """The certificate by which bars are independent. Raises NotProved if they are not."""
    answer = matbench.cover(description(structure, basis))
    if not shows(structure, answer):
        raise NotProved("these bars depend on one another")
    return answer.certificate


def proved(found: Analysis, is_rank_alone: bool = False,
           progress: Telling | None = None) -> Proof:
    """The proof of an analysis, by one certificate for each of its bases. With `is_rank_alone` it
    has one certificate, and shows how many independent bars there are and which single bars are
    critical, but not which members may fail. Raises NotProved if the bars are too many."""
    bases = [found.count.basis] if is_rank_alone else _bases(found)
    certificates = []
    for place, basis in enumerate(bases):
        if progress:
            progress(place, len(bases))
        certificates.append(certificate(found.structure, basis))
    counts = _counts(found)
    return Proof(found.structure, tuple(map(tuple, bases)), tuple(certificates), counts)


def _is_shown(structure: Structure, basis: Sequence[int], text: str) -> bool:
    """Whether a text is a certificate that shows that bars are independent."""
    it = description(structure, basis)
    try:
        if not matbench.check(it, text):
            return False
    except matbench.BadCertificate:
        return False
    answer = matbench.read_answer(it, text)
    return isinstance(answer, matbench.Covering) and shows(structure, answer)


class Shown(NamedTuple):
    """What a proof shows: how many independent bars there are, those of the ground among them, and
    members, by their places, that are critical, or may fail."""

    rank: int
    critical: tuple[int, ...]
    spare: tuple[int, ...]


def counted(structure: Structure, parts: Sequence[Sequence[int]], without: set[int]) -> int:
    """How many independent bars these parts allow at most. Raises NotProved if a bar that is not
    `without` is in no part."""
    held: set[int] = set()
    total = 0
    for part in parts:
        if not part:
            raise NotProved("a part has no bar")
        ends = {end for bar in part for end in structure.bars[bar]}
        total += min(structure.sparsity.most(len(ends)), len(part))
        held |= set(part)
    left = set(range(len(structure.bars))) - held - without
    if left:
        raise NotProved(f"the bar {structure.bar_names()[min(left)]} is in no part")
    return total


def _critical(proof: Proof, rank: int) -> tuple[int, ...]:
    """The members that the counts show to be critical."""
    structure = proof.structure
    alone = {part[0] for part in proof.counts[WHOLE] if len(set(part)) == 1}
    alone -= {bar for part in proof.counts[WHOLE] if len(set(part)) > 1 for bar in part}
    found = []
    for it, member in enumerate(structure.members):
        own = structure.bars_of(it)
        if member.kind == "ground":
            continue
        if it in proof.counts:
            if counted(structure, proof.counts[it], set(own)) >= rank:
                raise NotProved(f"the count does not show that {member.name} is critical")
            found.append(it)
        elif len(own) == 1 and own[0] in alone:
            found.append(it)
    return tuple(found)


def judged(proof: Proof, progress: Telling | None = None) -> Shown:
    """What a proof shows. The certificates are checked by matbench, and the parts are counted; no
    search is made. Raises NotProved if it does not show its number of independent bars."""
    structure = proof.structure
    rank = counted(structure, proof.counts[WHOLE], set())
    if not proof.bases:
        raise NotProved("there is no certificate")
    for place, (basis, text) in enumerate(zip(proof.bases, proof.certificates)):
        if progress:
            progress(place, len(proof.bases))
        if len(set(basis)) != len(basis) or len(basis) != rank:
            raise NotProved(f"{len(set(basis))} bars are shown to be independent, and the parts"
                            f" allow {rank}")
        if not _is_shown(structure, basis, text):
            raise NotProved(f"certificate {place + 1} does not show that its bars are independent")
    spare = tuple(it for it, member in enumerate(structure.members) if member.kind != "ground"
                  and any(not set(structure.bars_of(it)) & set(basis) for basis in proof.bases))
    return Shown(rank, _critical(proof, rank), spare)
