"""Structures: joints and bars in the plane, or bodies with bars and hinges, as graphs of bars."""
from __future__ import annotations

from collections import Counter
from dataclasses import dataclass
from typing import TYPE_CHECKING, NamedTuple

from matbench.truss.pebbles import Sparsity

if TYPE_CHECKING:
    from collections.abc import Iterable, Sequence

    from matbench.graphs import Graph
    from matbench.truss.pebbles import Edge

#: Joints of the plane, bodies of the plane, and bodies of space, with the bars between them.
JOINTS, PLANE_BODIES, SPACE_BODIES = Sparsity(2, 3), Sparsity(3, 3), Sparsity(6, 6)
#: What a hinge counts for: it leaves one of the motions between two bodies.
HINGE_BARS = {PLANE_BODIES: 2, SPACE_BODIES: 5}
#: The ground beneath pins and rollers: two joints that are held, and a word for what it holds.
GROUND = ("ground.1", "ground.2")


class Member(NamedTuple):
    """A part that may fail as a whole: a bar, a hinge or a roller, with the names of its ends.
    Of the kind `ground` are the bars by which the ground and the pins are written as joints."""

    name: str
    kind: str
    start: str
    end: str


@dataclass(frozen=True)
class Structure:
    """Vertices, members, and the bars of which the members are made.

    The vertices are joints or bodies, by their names. Bar i joins the vertices bars[i], by their
    numbers, and is of the member owner[i]. `ground_bars` of them are the ground's, which go first.
    """

    sparsity: Sparsity
    vertices: tuple[str, ...]
    members: tuple[Member, ...]
    bars: tuple[Edge, ...]
    owner: tuple[int, ...]
    ground_bars: int = 0

    @property
    def needed(self) -> int:
        """How many independent bars make it rigid, without those of the ground."""
        return self.sparsity.most(len(self.vertices)) - self.ground_bars

    def bar_names(self) -> list[str]:
        """The names of the bars: that of the member, with a number if it has several."""
        total = Counter(self.owner)
        count: Counter[int] = Counter()
        names = []
        for member in self.owner:
            count[member] += 1
            name = self.members[member].name
            names.append(f"{name}.{count[member]}" if total[member] > 1 else name)
        return names

    def bars_of(self, member: int) -> list[int]:
        """The bars of a member."""
        return [bar for bar, owner in enumerate(self.owner) if owner == member]


def structure_of(sparsity: Sparsity, members: Sequence[Member]) -> Structure:
    """The structure of these members, whose vertices are their ends. Raises ValueError for a name
    that stands twice, and a member whose ends are one vertex."""
    _hold_to_names(members)
    vertices = tuple(dict.fromkeys(end for it in members for end in (it.start, it.end)))
    number = {name: place for place, name in enumerate(vertices)}
    bars: list[Edge] = []
    owner: list[int] = []
    ground_bars = 0
    for place, it in enumerate(members):
        if it.start == it.end:
            raise ValueError(f"{it.name}: both ends are {it.start}")
        count = HINGE_BARS[sparsity] if it.kind == "hinge" else 1
        ground_bars += it.kind == "ground"
        bars += [(number[it.start], number[it.end])] * count
        owner += [place] * count
    return Structure(sparsity, vertices, tuple(members), tuple(bars), tuple(owner), ground_bars)


def _hold_to_names(members: Iterable[Member]) -> None:
    """Raises ValueError if two members have one name."""
    seen = set()
    for it in members:
        if it.name in seen:
            raise ValueError(f"{it.name}: this name stands twice")
        seen.add(it.name)


def _ground(pins: Sequence[str], rollers: Sequence[str]) -> list[Member]:
    """The ground, of two joints and a bar, and two bars to it from each joint that it holds: from
    the pins, and from the feet of the rollers."""
    first, second = GROUND
    held = [*pins, *(foot_of(name) for name in rollers)]
    bars = [Member("ground", "ground", first, second)]
    return bars + [Member(f"{name}-{end}", "ground", name, end) for name in held for end in GROUND]


def foot_of(joint: str) -> str:
    """The joint of the ground at the foot of a roller."""
    return f"foot.of.{joint}"


def _hold_to_joints(joints: Sequence[str], pins: Sequence[str], rollers: Sequence[str]) -> None:
    """Raises ValueError if a support is at no joint, or a joint is called as one of the ground."""
    for name in [*pins, *rollers]:
        if name not in joints:
            raise ValueError(f"{name}: no bar ends at this joint")
        if name in pins and name in rollers:
            raise ValueError(f"{name}: a joint has a pin or a roller, and not both")
    for name in joints:
        if name in GROUND or name in map(foot_of, rollers):
            raise ValueError(f"{name}: a joint of the ground has this name: take another one")


def plane_truss(bars: Sequence[tuple[str, str, str]], pins: Iterable[str] = (),
                rollers: Iterable[str] = ()) -> Structure:
    """A truss in the plane of bars (name, joint, joint). A joint of `pins` is fixed to the ground,
    and one of `rollers` slides along it. Raises ValueError for a joint that no bar has, a name
    that stands twice, and a bar whose ends are one joint.

    The ground is two joints with a bar between them, and a pin is two bars to them. A roller is a
    bar to a joint of its own that is pinned.
    """
    pins, rollers = list(dict.fromkeys(pins)), list(dict.fromkeys(rollers))
    members = [Member(name, "bar", start, end) for name, start, end in bars]
    joints = list(dict.fromkeys(end for it in members for end in (it.start, it.end)))
    _hold_to_joints(joints, pins, rollers)
    members += [Member(f"roller-{name}", "roller", name, foot_of(name)) for name in rollers]
    ground = _ground(pins, rollers) if pins or rollers else []
    return structure_of(JOINTS, [*ground, *members])


def bars_of_graph(graph: Graph) -> list[tuple[str, str, str]]:
    """The bars of a graph as networkx has them, for plane_truss: one for each edge, called by its
    attribute `bar`, or else by its number. Joints are called by the words of the nodes."""
    return [(str(data.get("bar", place)), str(u), str(v))
            for place, (u, v, data) in enumerate(graph.edges(data=True))]


def bodies(parts: Sequence[tuple[str, str, str, str]], is_space: bool = False) -> Structure:
    """Bodies in the plane, or in space, joined by parts (name, kind, body, body), of which the kind
    is `bar` or `hinge`. Raises ValueError for another kind, a name that stands twice, and a part
    whose ends are one body.

    A hinge leaves one motion between two bodies: it is two bars in the plane and five in space.
    """
    members = [Member(*part) for part in parts]
    for it in members:
        if it.kind not in ("bar", "hinge"):
            raise ValueError(f"{it.name}: the kind is bar or hinge, and not {it.kind!r}")
    return structure_of(SPACE_BODIES if is_space else PLANE_BODIES, members)
