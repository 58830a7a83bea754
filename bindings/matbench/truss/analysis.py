"""What holds of a structure in general position: whether it is rigid, and which members matter."""
from __future__ import annotations

from dataclasses import dataclass
from typing import TYPE_CHECKING

from matbench.truss.pebbles import largest_basis, study
from matbench.truss.structures import GROUND, foot_of

if TYPE_CHECKING:
    from matbench.truss.pebbles import Count
    from matbench.truss.structures import Structure


@dataclass(frozen=True)
class Analysis:
    """What the count of the bars says of a structure.

    `needed` independent bars make it rigid, and there are `rank`, both without those of the ground.
    Of the members, by their places in the structure, `critical` are those without which it is less
    rigid, and `spare` the others, each of which may fail alone. `parts` are the rigid parts, each
    the names of its joints or bodies. `count` speaks of the bars by their places.
    """

    structure: Structure
    count: Count
    needed: int
    rank: int
    critical: tuple[int, ...]
    spare: tuple[int, ...]
    parts: tuple[tuple[str, ...], ...]

    @property
    def is_rigid(self) -> bool:
        """Whether no part moves against another one."""
        return self.rank == self.needed

    @property
    def missing(self) -> int:
        """How many bars are missing, each in the right place."""
        return self.needed - self.rank

    @property
    def surplus(self) -> int:
        """How many bars there are beyond the independent ones."""
        return len(self.structure.bars) - len(self.count.basis)

    def groups(self) -> list[list[str]]:
        """The members that bear on one another: any one bar of such a group may be missing."""
        names = [it.name for it in self.structure.members]
        owner = self.structure.owner
        return [list(dict.fromkeys(names[owner[bar]] for bar in group))
                for group in self.count.groups]


def _is_critical(structure: Structure, count: Count, member: int, critical: set[int]) -> bool:
    """Whether there are fewer independent bars without a member."""
    own = structure.bars_of(member)
    if len(own) == 1:
        return own[0] in critical
    others = [bar for bar in range(len(structure.bars)) if bar not in own]
    left = largest_basis(len(structure.vertices), structure.bars, structure.sparsity, others)
    return len(left) < len(count.basis)


def _parts(structure: Structure, count: Count) -> tuple[tuple[str, ...], ...]:
    """The rigid parts in names, where the joints of the ground are one. Joints and bodies that no
    part has are parts by themselves."""
    hidden = {foot_of(it.start) for it in structure.members if it.kind == "roller"}
    hidden |= set(GROUND) if structure.ground_bars else set()
    found = []
    for part in count.components:
        names = [structure.vertices[place] for place in sorted(part)]
        shown = [name for name in names if name not in hidden]
        if set(names) >= set(GROUND) and hidden:
            shown.insert(0, "ground")
        if len(shown) > 1:
            found.append(tuple(shown))
    seen = {name for part in found for name in part} | hidden
    return tuple(found + [(name,) for name in structure.vertices if name not in seen])


def analysis(structure: Structure) -> Analysis:
    """Counts the bars of a structure by the pebble game."""
    count = study(len(structure.vertices), structure.bars, structure.sparsity)
    alone = set(count.critical)
    members = [it for it, member in enumerate(structure.members) if member.kind != "ground"]
    critical = tuple(it for it in members if _is_critical(structure, count, it, alone))
    spare = tuple(it for it in members if it not in set(critical))
    rank = len(count.basis) - structure.ground_bars
    return Analysis(structure, count, structure.needed, rank, critical, spare,
                    _parts(structure, count))
