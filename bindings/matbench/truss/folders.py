"""Proofs as folders of tables, descriptions and certificates, which a reader can check by hand.

bars.csv has each bar with its ends, and a column for each basis: yes at the bars that a certificate
shows to be independent. basis_1.txt and basis_1.answer are the description and the certificate of
the first one. parts.csv has the part of each bar, for the whole structure and without a member.
proof.txt says how all of it is checked.
"""
from __future__ import annotations

import csv
import io
import os
from typing import TYPE_CHECKING

from matbench.faults import InputFault
from matbench.spreadsheets import read_sheet
from matbench.texts import read_text, write_folder
from matbench.truss.proofs import WHOLE, NotProved, Proof, description
from matbench.truss.structures import JOINTS, PLANE_BODIES, SPACE_BODIES, Member, structure_of

if TYPE_CHECKING:
    from collections.abc import Iterable, Sequence

    from matbench.spreadsheets import Row
    from matbench.truss.structures import Structure

#: What structures are called in the first line of bars.csv.
KINDS = {JOINTS: "joints", PLANE_BODIES: "bodies of the plane", SPACE_BODIES: "bodies of space"}
_HEADS = ["member", "kind", "from", "to"]

HOW = """How this proof is checked

1. These bars are independent, in general position.
   {bases} certificate(s): for each of them
       matbench check basis_1.txt basis_1.answer
   prints yes. basis_1.txt has the bars that have yes in the column "basis 1" of bars.csv, and the
   second line of basis_1.answer {shown}.
   {why}
2. There are no more than {rank} independent bars.
   In parts.csv, the rows with nothing in the column "without" put each bar into a part. Of the bars
   of a part with v {vertices}, at most {each} x v - {short} are independent, and at most as many as
   it has. These numbers add up to {rank}.
3. So {rank} is the number of independent bars. A rigid structure of {count} {vertices} has
   {each} x {count} - {short} = {needed}: {verdict}
4. A bar that is a part by itself is critical: without it the sum is smaller. So is a member for
   which the rows with its name in the column "without" put all other bars into parts whose sum is
   smaller. A member may fail if some column "basis" has yes at none of its bars.

matbench does all of it: python3 -m matbench truss --verify FOLDER
"""
#: Whether it is of joints: what the certificate says, and why it shows that.
_WHY = {
    True: ("begins `answer cover` and has no `never`",
           """Each bar stands there twice. The certificate says that any one bar can be doubled, and
   that all of them fall into two forests then. Such bars are independent (Lovasz and Yemini)."""),
    False: ("ends with ` 1`",
            """The bars fall into as many forests as two bodies have motions against one another:
   three in the plane, six in space. Such bars are independent (Tay).""")}


def _csv(rows: Iterable[Sequence[str]]) -> str:
    written = io.StringIO(newline="")
    csv.writer(written, lineterminator="\n").writerows(rows)
    return written.getvalue()


def _bars_table(proof: Proof) -> str:
    """The bars, and the bases that have them."""
    structure, held = proof.structure, [set(basis) for basis in proof.bases]
    heads = ["bar", *_HEADS, *(f"basis {place + 1}" for place in range(len(held)))]
    rows = [heads]
    for bar, name in enumerate(structure.bar_names()):
        member = structure.members[structure.owner[bar]]
        rows.append([name, *member, *("yes" if bar in it else "no" for it in held)])
    return _csv(rows)


def _parts_table(proof: Proof) -> str:
    """The parts of each count."""
    structure, names = proof.structure, proof.structure.bar_names()
    rows = [["without", "part", "bar"]]
    for without, parts in proof.counts.items():
        member = "" if without == WHOLE else structure.members[without].name
        rows += [[member, str(place), names[bar]] for place, part in enumerate(parts, 1)
                 for bar in part]
    return _csv(rows)


def _how(proof: Proof) -> str:
    """How the proof is checked, in words."""
    structure = proof.structure
    in_plane = structure.sparsity == JOINTS
    count, rank = len(structure.vertices), len(proof.bases[0])
    needed = structure.sparsity.most(count)
    verdict = "it is rigid." if rank == needed else f"{needed - rank} are missing."
    shown, why = _WHY[in_plane]
    ground = structure.ground_bars
    if ground:
        verdict += f"\n   {ground} bars are the ground, which holds {(ground - 1) // 2} joints."
    return f"{KINDS[structure.sparsity]}\n\n" + HOW.format(
        bases=len(proof.bases), shown=shown, why=why, rank=rank, count=count, needed=needed,
        vertices="joints" if in_plane else "bodies", verdict=verdict, each=structure.sparsity.each,
        short=structure.sparsity.short)


def write_proof(proof: Proof, folder: str) -> None:
    """Writes a proof into a folder, which is made if it is not there. Raises InputFault."""
    files = {"bars.csv": _bars_table(proof), "parts.csv": _parts_table(proof),
             "proof.txt": _how(proof)}
    for place, (basis, text) in enumerate(zip(proof.bases, proof.certificates), 1):
        files[f"basis_{place}.txt"] = description(proof.structure, basis).text.decode()
        files[f"basis_{place}.answer"] = text
    write_folder(folder, files, "basis_*")


def _structure(rows: Sequence[Row], kind: str) -> Structure:
    """The structure of the rows of bars.csv."""
    sparsity = next((it for it, name in KINDS.items() if name == kind), None)
    if sparsity is None:
        raise NotProved(f"proof.txt begins with none of {', '.join(KINDS.values())}")
    members = list(dict.fromkeys(Member(*(row[head] for head in _HEADS)) for row in rows))
    return structure_of(sparsity, members)


def _counts(rows: Sequence[Row], structure: Structure) -> dict[int, list[list[int]]]:
    """The parts of each count of parts.csv."""
    bars = {name: place for place, name in enumerate(structure.bar_names())}
    members = {it.name: place for place, it in enumerate(structure.members)}
    found: dict[int, dict[str, list[int]]] = {WHOLE: {}}
    for row in rows:
        member = members[row["without"]] if row["without"] else WHOLE
        found.setdefault(member, {}).setdefault(row["part"], []).append(bars[row["bar"]])
    return {member: list(parts.values()) for member, parts in found.items()}


def read_proof(folder: str) -> Proof:
    """The proof in a folder. The descriptions in it have to be those of its bars. Raises NotProved
    if it is not a proof as write_proof writes it, and InputFault if a file cannot be read."""
    def path(name: str) -> str:
        return os.path.join(folder, name)

    if not os.path.isfile(path("proof.txt")):
        what = "it has no proof.txt" if os.path.isdir(folder) else "there is no such folder"
        raise InputFault(f"{folder} is no proof of a truss: {what}")
    kind = read_text(path("proof.txt")).partition("\n")[0]
    try:
        table, counts = read_sheet(path("bars.csv")), read_sheet(path("parts.csv"))
        structure = _structure(table.rows, kind)
        if [row["bar"] for row in table.rows] != structure.bar_names():
            raise NotProved("bars.csv does not have the bars of its members in their order")
        bases = tuple(tuple(place for place, row in enumerate(table.rows) if row[head] == "yes")
                      for head in table.heads if head.startswith("basis "))
        parts = _counts(counts.rows, structure)
    except (KeyError, ValueError) as error:
        raise NotProved(f"this is no proof: {error}") from error
    certificates = []
    for place, basis in enumerate(bases, 1):
        if not basis or read_text(path(f"basis_{place}.txt")).encode() \
                != description(structure, basis).text:
            raise NotProved(f"basis_{place}.txt is not the description of its bars")
        certificates.append(read_text(path(f"basis_{place}.answer")))
    return Proof(structure, bases, tuple(certificates), parts)
