"""python3 -m matbench truss: whether a truss, or a frame of bodies, is rigid, and what moves."""
from __future__ import annotations

import sys
import textwrap
from typing import TYPE_CHECKING, Any

from matbench.command_lines import DONE, NOT_SO, parser_of, write
from matbench.faults import InputFault
from matbench.progress import Progress
from matbench.tables import FORMS, Table, json_of
from matbench.truss.analysis import analysis
from matbench.truss.folders import read_proof, write_proof
from matbench.truss.proofs import NotProved, judged, proved
from matbench.truss.reading import read_structure
from matbench.truss.structures import JOINTS, SPACE_BODIES

if TYPE_CHECKING:
    import argparse
    from collections.abc import Mapping, Sequence

    from matbench.truss.analysis import Analysis
    from matbench.truss.proofs import Proof
    from matbench.truss.structures import Structure

ABOUT = """\
Whether a truss in the plane is rigid, or bodies that are joined by bars and hinges; how many bars
are missing, which may fail, which are critical, and which parts move.

FILE is a table as a spreadsheet saves it, as CSV in UTF-8, with a line for each bar:
  bar,from,to          a truss in the plane: the name of a bar, and the joints at its ends
  part,kind,from,to    bodies: the name of a part, `bar` or `hinge`, and the two bodies

All of it is for general position: joints on special lines, as three bars that meet in one point,
may leave a motion more, and never one fewer.

Printed is what two things prove: a certificate of `matbench cover` that so many bars are
independent, and a count of parts that there are no more. --proof writes both, with proof.txt, which
says how to check them; --verify checks such a folder without a search."""
EXAMPLES = """\
examples:
  python3 -m matbench truss bridge.csv
  python3 -m matbench truss bridge.csv --pin A --roller F --proof bridge_proof
  python3 -m matbench truss --verify bridge_proof
  python3 -m matbench truss platform.csv --space --format csv

The status is 0 where it is rigid, 1 where it is not or where a proof does not hold, and 2 where
what was given is not taken."""


def _words(words: Sequence[str]) -> argparse.Namespace:
    """The words of the command."""
    parser = parser_of("truss", ABOUT, EXAMPLES)
    parser.add_argument("file", metavar="FILE", nargs="?", help="the table of bars or parts")
    parser.add_argument("--pin", action="append", default=[], metavar="JOINT",
                        help="a joint that is fixed to the ground; once for each")
    parser.add_argument("--roller", action="append", default=[], metavar="JOINT",
                        help="a joint that slides along the ground; once for each")
    parser.add_argument("--space", action="store_true", help="the bodies are in space")
    parser.add_argument("--format", choices=FORMS, default="table", help="how it is printed")
    parser.add_argument("--proof", metavar="FOLDER",
                        help="write the whole proof, that of what may fail too, into this folder")
    parser.add_argument("--no-proof", action="store_true",
                        help="count only, without a certificate: for more than 250 independent bars"
                        " of a truss, or 500 between bodies")
    parser.add_argument("--verify", metavar="FOLDER", help="check the proof in a folder")
    given = parser.parse_args(list(words))
    if (given.file is None) == (given.verify is None):
        parser.error("name the table FILE, or a folder with --verify")
    if given.proof and given.no_proof:
        parser.error("--proof and --no-proof do not go together")
    if given.verify and (given.proof or given.no_proof):
        parser.error("--verify checks a proof that is there: --proof and --no-proof do not go with"
                     " it")
    return given


def _plural(count: int, word: str) -> str:
    """A number and a word: 1 bar, 2 bars."""
    many = word[:-1] + "ies" if word.endswith("body") else word + "s"
    return f"{count} {word if count == 1 else many}"


def _counts(found: Analysis) -> str:
    """The sizes, what is needed, and how that is counted, in two lines."""
    structure = found.structure
    kinds = [it.kind for it in structure.members]
    ends = {end for it in structure.members if it.kind in ("bar", "hinge")
            for end in (it.start, it.end)}
    counts = {kind: kinds.count(kind) for kind in ("bar", "hinge", "roller")}
    # A pin, and the foot of a roller, is two bars to the ground, which has a bar of its own.
    counts["pin"] = max(0, structure.ground_bars - 1) // 2 - counts["roller"]
    vertices = _plural(len(ends), "joint" if structure.sparsity == JOINTS else "body")
    sizes = [vertices, *(_plural(count, kind) for kind, count in counts.items() if count)]
    return (f"{', '.join(sizes)}: {found.needed} independent bars are needed, and {found.rank}"
            " independent ones are there.\n"
            f"{found.needed} is {vertices} x {structure.sparsity.each}"
            f"{_less(structure, counts)}.\n")


def _less(structure: Structure, counts: Mapping[str, int]) -> str:
    """What is taken off from the motions of all joints or bodies, and what hinges and rollers count
    for."""
    said, pins = "", counts["pin"]
    if not structure.ground_bars:
        said = f", less {structure.sparsity.short} for the whole, which may move"
    elif pins:
        said = f", less {_plural(pins, 'pin')} x {structure.sparsity.each}"
    if counts["roller"]:
        said += "; a roller counts as 1 bar"
    if counts["hinge"]:
        said += f"; a hinge counts as {5 if structure.sparsity == SPACE_BODIES else 2} bars"
    return said


def _verdict(found: Analysis, proof: Proof | None) -> str:
    """Whether it is rigid, and by what that is known."""
    if found.is_rigid:
        said = "RIGID, in general position."
    else:
        are = "is" if found.missing == 1 else "are"
        said = f"NOT RIGID: {_plural(found.missing, 'bar')} {are} missing."
    are = "are" if found.surplus > 1 else "is"
    said += f" {_plural(found.surplus, 'bar') if found.surplus else 'No bar'} {are} redundant.\n"
    if found.is_rigid:
        case = "joints in one line" if found.structure.sparsity == JOINTS else \
            "bars through one point"
        said += (f"In a special position, as with {case}, it may move all the same: this is not"
                 " tried.\n")
    if proof is None:
        return said + "Counted, without a certificate.\n"
    return said + (f"Proved by {_plural(len(proof.bases), 'certificate')} of cover and a count,"
                   " which --proof FOLDER writes.\n")


def _table(found: Analysis) -> Table:
    """A row for each member."""
    parts = {name: {place for place, part in enumerate(found.parts, 1) if name in part}
             for it in found.structure.members for name in (it.start, it.end)}
    rows: list[list[Any]] = []
    for place, it in enumerate(found.structure.members):
        if it.kind == "ground":
            continue
        within = parts[it.start] & parts[it.end]
        rows.append([it.name, it.kind, it.start, "ground" if it.kind == "roller" else it.end,
                     "critical" if place in found.critical else "may fail",
                     min(within) if within else None])
    return Table(("name", "kind", "from", "to", "if it fails", "rigid part"), rows)


def _listed(front: str, names: Sequence[str]) -> str:
    """Names behind a front, in lines of at most 96 places."""
    return textwrap.fill(", ".join(names), 96, initial_indent=front, subsequent_indent="    ",
                         break_long_words=False, break_on_hyphens=False) + "\n"


def _text(found: Analysis, proof: Proof | None) -> str:
    """The result for people."""
    lines = [_counts(found), _verdict(found, proof), "\n", _table(found).text()]
    if found.count.groups:
        lines.append("\nOf each of these groups any one bar may fail:\n")
        lines += [_listed("  ", group) for group in found.groups()]
    if not found.is_rigid:
        lines.append("\nThese parts are rigid by themselves, and move against one another:\n")
        lines += [_listed(f"  {place}: ", part) for place, part in enumerate(found.parts, 1)]
    return "".join(lines)


def _record(found: Analysis, proof: Proof | None) -> dict[str, Any]:
    """The result as plain data."""
    return {"rigid": found.is_rigid, "needed": found.needed, "independent": found.rank,
            "missing": found.missing, "surplus": found.surplus,
            "certificates": len(proof.bases) if proof else 0, "members": _table(found).records(),
            "parts": [list(part) for part in found.parts], "groups": found.groups()}


def _proof(found: Analysis, given: argparse.Namespace) -> Proof | None:
    """The proof, unless none is wanted, written where it is to be."""
    if given.no_proof:
        return None
    with Progress("truss") as progress:
        try:
            proof = proved(found, not given.proof,
                           lambda place, of: progress.tell(f"{place} of {of} certificates"))
        except NotProved as error:
            raise InputFault(f"{error}: --no-proof counts without one") from error
    if given.proof:
        write_proof(proof, given.proof)
    return proof


def _verify(folder: str) -> int:
    """Checks the proof in a folder, and says what it shows."""
    with Progress("truss") as progress:
        try:
            proof = read_proof(folder)
            shown = judged(proof, lambda at, of: progress.tell(f"{at} of {of} certificates"))
        except NotProved as error:
            write(f"NOT RIGHT: {error}\n")
            return NOT_SO
    structure = proof.structure
    rank = shown.rank - structure.ground_bars
    members = [it for it in structure.members if it.kind != "ground"]
    write(f"RIGHT: {rank} independent bars, and no more; {structure.needed} are needed:"
          f" {'rigid' if rank == structure.needed else 'not rigid'}.\n"
          f"Of {_plural(len(members), 'member')} {len(shown.critical)} are shown to be critical,"
          f" and {len(shown.spare)} may fail.\n")
    return DONE


def main(words: Sequence[str]) -> int:
    """Runs the command."""
    given = _words(words)
    if given.verify:
        if given.space or given.pin or given.roller:
            print("matbench truss: the folder says what it is of: --space, --pin and --roller are"
                  " not looked at", file=sys.stderr)
        return _verify(given.verify)
    structure, notes = read_structure(given.file, given.pin, given.roller, given.space)
    for note in notes:
        print(f"matbench truss: {note}", file=sys.stderr)
    found = analysis(structure)
    proof = _proof(found, given)
    if given.format == "csv":
        write(_table(found).csv())
    else:
        write(json_of(_record(found, proof)) if given.format == "json" else _text(found, proof))
    return DONE if found.is_rigid else NOT_SO
