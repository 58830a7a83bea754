#!/usr/bin/env python3
"""Tries `matbench.truss`: `trusses.py [TRUSSES [SEED [PROGRAM]]]`, at the top of the repository.

Draws plane trusses, with pins and rollers too, and for each fifth one bodies with bars and hinges
in the plane and in space. What the package says of each is compared with the ranks of rigidity
matrices at random coordinates over the field of the prime 2^31 - 1: how many bars are independent,
which may fail, and which joints or bodies keep their distance. Each is proved, and the proof is
judged; one that takes dependent bars for independent has to be refused. Then proofs in folders are
altered, one number or line at a time: each has to be refused, or to show the same, or less of its
members. What is wrong is printed. The last line is `N passed, M failed`, and the status is 1 if
something failed. TRUSSES is 1000 and SEED 1 if they are not given; the program is that of the
package if none is named.
"""
import os
import pathlib
import random
import shutil
import sys
import tempfile

TOP = pathlib.Path(__file__).resolve().parent.parent
sys.path.insert(0, str(TOP / "bindings"))
if len(sys.argv) > 3:
    os.environ["MATBENCH_PROGRAM"] = os.path.abspath(sys.argv[3])

import matbench  # noqa: E402
from matbench import truss  # noqa: E402
from matbench.faults import InputFault  # noqa: E402
from matbench.truss import proofs  # noqa: E402

PRIME = 2 ** 31 - 1
#: How many proofs are altered, and in how many places each.
ALTERED, PLACES = 15, 6


class Echelon:
    """Rows over the field, each reduced by those before it."""

    def __init__(self):
        self.rows = {}

    def left(self, row):
        """What is left of a row, as a dict of its columns, and the first of them."""
        row = dict(row)
        while row:
            first = min(row)
            if first not in self.rows:
                return row, first
            factor = row[first]
            for column, value in self.rows[first].items():
                value = (row.get(column, 0) - factor * value) % PRIME
                if value:
                    row[column] = value
                else:
                    row.pop(column, None)
        return row, None

    def add(self, row):
        """Adds a row, and tells whether it depends on none before."""
        row, first = self.left(row)
        if first is None:
            return False
        inverse = pow(row[first], PRIME - 2, PRIME)
        self.rows[first] = {column: value * inverse % PRIME for column, value in row.items()}
        return True

    def spans(self, row):
        """Whether a row is a combination of these."""
        return self.left(row)[1] is None


def stressed(rows, width):
    """The rank of rows, and which of them another combination can replace: those in a stress."""
    echelon, found = Echelon(), set()
    for place, row in enumerate(rows):
        # Columns behind the others say of which rows a reduced row is made.
        left, first = echelon.left({**row, width + place: 1})
        if first >= width:
            found |= {column - width for column in left}
        echelon.add(left)
    return sum(first < width for first in echelon.rows), found


def without(rows, left_out):
    """The rank of rows without some."""
    echelon = Echelon()
    return sum(echelon.add(row) for place, row in enumerate(rows) if place not in left_out)


def plane_row(places, free, u, v):
    """The row of a bar between two joints, of which those that are not free do not move."""
    row = {}
    for joint, other in ((u, v), (v, u)):
        if joint in free:
            for axis in (0, 1):
                row[2 * free[joint] + axis] = (places[joint][axis] - places[other][axis]) % PRIME
    return row


def drawn_bars(numbers, joints):
    """The bars of a truss: joints that are added by two bars, with some moved, or any."""
    if numbers.random() < .4:
        bars = [(0, 1)] + [(v, w) for v in range(2, joints) for w in numbers.sample(range(v), 2)]
        for _ in range(numbers.randint(0, 3)):
            bars[numbers.randrange(len(bars))] = tuple(numbers.sample(range(joints), 2))
        return bars
    count = numbers.randint(max(1, joints - 2), 2 * joints + 3)
    return [tuple(numbers.sample(range(joints), 2)) for _ in range(count)]


def drawn_truss(numbers):
    """A truss, as a structure, and the bars, the pins and the rollers by numbers of joints."""
    joints = numbers.randint(3, 11) if numbers.random() < .97 else numbers.randint(20, 30)
    bars = drawn_bars(numbers, joints)
    used = sorted({end for bar in bars for end in bar})
    pins, rollers = [], []
    if numbers.random() < .5:
        pins = numbers.sample(used, numbers.randint(0, min(3, len(used))))
        rollers = [it for it in used if it not in pins and numbers.random() < .15]
    named = [(f"bar {place}", f"J{u}", f"J{v}") for place, (u, v) in enumerate(bars)]
    structure = truss.plane_truss(named, [f"J{it}" for it in pins], [f"J{it}" for it in rollers])
    return structure, bars, pins, rollers


def rows_of_truss(numbers, bars, pins, rollers):
    """The rows of a truss at random places, each with a name, and a function for a pair's row."""
    joints = {end for bar in bars for end in bar}
    places = {joint: (numbers.randrange(PRIME), numbers.randrange(PRIME)) for joint in joints}
    free = {joint: place for place, joint in enumerate(sorted(joints - set(pins)))}
    rows = [plane_row(places, free, u, v) for u, v in bars]
    names = [f"bar {place}" for place in range(len(bars))]
    for joint in rollers:
        foot = {**places, "foot": (numbers.randrange(PRIME), numbers.randrange(PRIME))}
        rows.append(plane_row(foot, free, joint, "foot"))
        names.append(f"roller-J{joint}")
    return rows, names, 2 * len(free), lambda u, v: plane_row(places, free, u, v)


def differences(found, rank, needed, spare):
    """What the package says otherwise than the ranks, as texts."""
    members = found.structure.members
    told = {members[it].name for it in found.spare}
    if (found.rank, found.needed, found.is_rigid) != (rank, needed, rank == needed):
        yield f"{found.rank} of {found.needed} independent bars, and it is {rank} of {needed}"
    if told != spare:
        yield f"{sorted(told)} may fail, and it is {sorted(spare)}"
    if {members[it].name for it in found.critical} & told:
        yield "a member may fail and is critical"


def other_parts(found, pairs, spans):
    """Pairs of joints or bodies that are in one part, or in none, otherwise than the rows say."""
    for one, other, row in pairs:
        together = any(one in part and other in part for part in found.parts)
        if together != spans(row):
            yield f"{one} and {other} are{'' if together else ' not'} in one part"


def other_proof(found, is_rank_alone):
    """What the proof of an analysis shows otherwise than that says."""
    try:
        proof = truss.proved(found, is_rank_alone)
        shown = truss.judged(proof)
    except truss.NotProved as error:
        yield f"it is not proved: {error}"
        return
    if shown.rank != found.rank + found.structure.ground_bars or len(proof.certificates) < 1:
        yield f"{shown.rank} is proved"
    if not is_rank_alone and (shown.critical, shown.spare) != (found.critical, found.spare):
        yield f"{shown.critical} and {shown.spare} are proved"


def forged_proofs(found):
    """What is wrong with proofs that all bars are independent where they are not: by the right
    answer that says so, and by the certificate of fewer bars."""
    structure, bars = found.structure, tuple(range(len(found.structure.bars)))
    if not found.surplus:
        return
    never = matbench.cover(proofs.description(structure, bars)).certificate
    fewer = proofs.certificate(structure, found.count.basis)
    for text in (never, fewer):
        try:
            truss.judged(truss.Proof(structure, (bars,), (text,), {-1: [[bar] for bar in bars]}))
            yield "a proof shows that bars are independent that are not"
        except truss.NotProved:
            continue


def faults_of_truss(numbers, place):
    """What is said wrong of a drawn truss."""
    structure, bars, pins, rollers = drawn_truss(numbers)
    found = truss.analysis(structure)
    rows, names, width, row_of = rows_of_truss(numbers, bars, pins, rollers)
    rank, free = stressed(rows, width)
    needed = width if pins or rollers else width - 3
    yield from differences(found, rank, needed, {names[it] for it in free})
    echelon = Echelon()
    for row in rows:
        echelon.add(row)
    joints = sorted({end for bar in bars for end in bar})
    pairs = [(f"J{u}", f"J{v}", row_of(u, v)) for v in joints for u in joints if u < v]
    yield from other_parts(found, pairs, echelon.spans)
    if width < 50:
        yield from other_proof(found, place % 5 > 0)
        yield from forged_proofs(found)


def line_row(one, other, axes):
    """Coordinates of the line through two points of the plane or of space."""
    one, other = [*one, 1], [*other, 1]
    return [(one[i] * other[j] - one[j] * other[i]) % PRIME for i in range(axes + 1)
            for j in range(i)]


def drawn_bodies(numbers, axes):
    """Parts between bodies, and the rows of each."""
    def point():
        return [numbers.randrange(PRIME) for _ in range(axes)]

    count, parts, rows = numbers.randint(2, 5), [], {}
    for place in range(numbers.randint(count - 1, 2 * count + 2)):
        u, v = numbers.sample(range(count), 2)
        kind = "hinge" if numbers.random() < .6 else "bar"
        parts.append((f"part {place}", kind, f"B{u}", f"B{v}"))
        one, other, made = point(), point(), []
        for _ in range(1 if kind == "bar" else 2 * axes - 1 if axes == 3 else 2):
            along = numbers.randrange(PRIME)
            foot = one if kind == "bar" or axes == 2 else \
                [(x + along * (y - x)) % PRIME for x, y in zip(one, other)]
            made.append(body_row(u, v, line_row(foot, point(), axes)))
        rows[f"part {place}"] = made
    return parts, rows, point


def body_row(u, v, line):
    """The row of a bar along a line between two bodies."""
    width = len(line)
    row = {u * width + place: value for place, value in enumerate(line) if value}
    row.update({v * width + place: PRIME - value for place, value in enumerate(line) if value})
    return row


def faults_of_bodies(numbers, place):
    """What is said wrong of drawn bodies."""
    axes = 2 + place % 2
    parts, rows, point = drawn_bodies(numbers, axes)
    found = truss.analysis(truss.bodies(parts, axes == 3))
    flat = [row for made in rows.values() for row in made]
    rank = without(flat, set())
    spare, at = set(), 0
    for name, made in rows.items():
        if without(flat, set(range(at, at + len(made)))) == rank:
            spare.add(name)
        at += len(made)
    bodies = sorted({end for part in parts for end in part[2:]})
    yield from differences(found, rank, (3 if axes == 2 else 6) * (len(bodies) - 1), spare)
    echelon = Echelon()
    for row in flat:
        echelon.add(row)
    pairs = [(one, other, body_row(int(one[1:]), int(other[1:]), line_row(point(), point(), axes)))
             for other in bodies for one in bodies if one < other]
    yield from other_parts(found, pairs, echelon.spans)
    yield from other_proof(found, False)
    yield from forged_proofs(found)


def alter(numbers, text):
    """A text with a line left out, or with one digit or one word changed."""
    lines = text.split("\n")
    place = numbers.randrange(len(lines))
    if numbers.random() < .3 and len(lines) > 3:
        del lines[place]
    elif "yes" in lines[place] or ",no" in lines[place]:
        lines[place] = lines[place][::-1].replace("sey,", "on,", 1)[::-1]
    else:
        digits = [at for at, sign in enumerate(lines[place]) if sign.isdigit()]
        if digits:
            at = numbers.choice(digits)
            digit = (int(lines[place][at]) + numbers.randint(1, 9)) % 10
            lines[place] = f"{lines[place][:at]}{digit}{lines[place][at + 1:]}"
    return "\n".join(lines)


def shown_in(folder):
    """What the proof in a folder shows, or None if it is refused."""
    try:
        proof = truss.read_proof(folder)
        shown = truss.judged(proof)
    except (truss.NotProved, InputFault):
        return None
    names = [it.name for it in proof.structure.members]
    return (shown.rank, proof.structure.needed, *(tuple(names[it] for it in members)
                                                  for members in (shown.critical, shown.spare)))


def is_wrong(shown, right):
    """Whether an altered proof shows what is not so. It may show less of the members."""
    if shown is None:
        return False
    return shown[:2] != right[:2] or not all(set(it) <= set(other)
                                             for it, other in zip(shown[2:], right[2:]))


def faults_of_altered(numbers):
    """What is wrong with proofs that were altered. Tables of bars alone are left as they are: with
    another bar it is another truss."""
    for _ in range(ALTERED):
        structure = drawn_truss(numbers)[0]
        if len(structure.vertices) > 14:
            continue
        with tempfile.TemporaryDirectory() as folder:
            good, bad = f"{folder}/good", f"{folder}/bad"
            truss.write_proof(truss.proved(truss.analysis(structure)), good)
            right = shown_in(good)
            yield None if right else "a proof is refused"
            for _ in range(PLACES):
                shutil.copytree(good, bad)
                name = numbers.choice([it for it in sorted(os.listdir(good)) if it != "proof.txt"])
                path = pathlib.Path(bad, name)
                text = path.read_text()
                path.write_text(alter(numbers, text))
                is_other = name.endswith(".txt") and path.read_text() != text
                names_it = name == "bars.csv" and truss_of(bad) != truss_of(good)
                shown = None if names_it else shown_in(bad)
                is_bad = is_wrong(shown, right) or is_other and shown is not None
                yield f"{name} is altered, and {shown} is shown" if is_bad else None
                shutil.rmtree(bad)


def truss_of(folder):
    """The bars and their ends in bars.csv."""
    lines = pathlib.Path(folder, "bars.csv").read_text().splitlines()
    return [line.split(",")[:5] for line in lines]


def main():
    count, seed = (int(word) for word in (sys.argv[1:3] + ["1000", "1"][len(sys.argv[1:3]):]))
    numbers = random.Random(seed)
    passed = failed = 0
    for place in range(count):
        faults = list(faults_of_truss(numbers, place))
        if place % 5 == 0:
            faults += faults_of_bodies(numbers, place // 5)
        print(*(f"truss {place}: {it}" for it in faults), sep="\n", end="\n" if faults else "")
        passed, failed = passed + (not faults), failed + bool(faults)
    for fault in faults_of_altered(numbers):
        print(fault, end="\n") if fault else None
        passed, failed = passed + (not fault), failed + bool(fault)
    print(f"{passed} passed, {failed} failed")
    sys.exit(1 if failed else 0)


if __name__ == "__main__":
    main()
