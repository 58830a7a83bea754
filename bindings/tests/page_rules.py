"""Tests that the page makes the same descriptions of links and of frames as the package for Python,
byte for byte, and tells the same of frames: over the tables of examples/ and drawn ones.

It needs node.
"""
import json
import pathlib
import random
import shutil
import subprocess
import sys
import tempfile
import unittest

HERE = pathlib.Path(__file__).resolve().parent
TOP = HERE.parent.parent
sys.path.insert(0, str(HERE.parent))

from matbench.faults import InputFault  # noqa: E402
from matbench.links import description_of_links  # noqa: E402
from matbench.truss.analysis import analysis  # noqa: E402
from matbench.truss.proofs import NotProved, description  # noqa: E402
from matbench.truss.reading import read_structure  # noqa: E402


def by_page(asked):
    """What the page makes of a list of [kind, cells, choice]."""
    command = ["node", str(HERE / "page_rules.mjs"), str(HERE.parent / "web")]
    done = subprocess.run(command, input=json.dumps(asked), capture_output=True, text=True,
                          check=True)
    return json.loads(done.stdout)


def network_by_package(path, cells):
    """The description of links from their first place, or None."""
    path.write_text(cells, "utf-8")
    root = cells.splitlines()[1].split(",")[1]
    try:
        return description_of_links(path, root)[0]
    except InputFault:
        return None


def frame_by_package(path, cells, choice):
    """What the package tells of a frame, or None."""
    path.write_text(cells, "utf-8")
    supports = choice.get("supports", {})
    pins, rollers = ([joint for joint, it in supports.items() if it == word]
                     for word in ("pin", "roller"))
    try:
        structure, _ = read_structure(path, pins, rollers, choice.get("space") == "space")
        found = analysis(structure)
        text = description(structure, found.count.basis).text.decode()
    except (InputFault, NotProved):
        return None
    return {"needed": found.needed, "rank": found.rank, "critical": list(found.critical),
            "spare": list(found.spare), "parts": [list(it) for it in found.parts],
            "surplus": found.surplus, "text": text}


def drawn_links(numbers):
    """A drawn table of links."""
    places = numbers.sample(["Ash", "Beck", "Zoë", "Inch Mill", "李", "v1"], numbers.randint(2, 6))
    has_costs = numbers.random() < 0.5
    lines = ["link,from,to,cost" if has_costs else "link,from,to"]
    for place in range(numbers.randint(1, 12)):
        name = numbers.choice([f"road {place}", f"Straße {place}", f"l{place}", "twice"])
        cost = numbers.choice(["0", "7", "1 000", "12.0", "", "x"][:numbers.choice([4, 6])])
        lines.append(",".join([name, *numbers.choices(places, k=2), *([cost] if has_costs else [])]))
    return "\n".join(lines) + "\n"


def drawn_frame(numbers):
    """A drawn table of a truss or of bodies, and the choices."""
    is_bodies = numbers.random() < 0.5
    ends = [f"J {place}" for place in range(numbers.randint(2, 7))]
    lines = ["part,kind,from,to" if is_bodies else "bar,from,to"]
    for place in range(numbers.randint(1, 16)):
        one, other = numbers.sample(ends, 2)
        kind = [numbers.choice(["bar", "bar", "Hinge"])] if is_bodies else []
        lines.append(",".join([f"b{place}", *kind, one, other]))
    if is_bodies:
        return "\n".join(lines) + "\n", {"space": numbers.choice(["plane", "space"])}
    joints = list(dict.fromkeys(it for line in lines[1:] for it in line.split(",")[1:]))
    held = numbers.sample(joints, numbers.randint(0, min(2, len(joints))))
    return "\n".join(lines) + "\n", {"supports": {it: numbers.choice(["pin", "roller"])
                                                  for it in sorted(held, key=joints.index)}}


class Rules(unittest.TestCase):
    """The page's rules against the package's."""

    def hold(self, asked, wanted, fewest):
        """Compares both, of which so many at least are taken."""
        found = by_page(asked)
        self.assertEqual(len(found), len(wanted))
        for it, ours, theirs in zip(asked, found, wanted):
            with self.subTest(asked=it):
                self.assertEqual(ours, theirs)
        self.assertGreaterEqual(sum(it is not None for it in wanted), fewest)

    def test_links(self):
        numbers = random.Random(2)
        tables = [(TOP / "examples" / "islands.csv").read_text(),
                  *(drawn_links(numbers) for _ in range(200))]
        with tempfile.TemporaryDirectory() as folder:
            wanted = [network_by_package(pathlib.Path(folder, "links.csv"), it) for it in tables]
        self.hold([["network", it, {}] for it in tables], wanted, 60)

    def test_frames(self):
        numbers = random.Random(3)
        given = [((TOP / "examples" / name).read_text(), choice) for name, choice in (
            ("warren.csv", {}), ("squares.csv", {}), ("platform.csv", {"space": "space"}))]
        given += [drawn_frame(numbers) for _ in range(200)]
        with tempfile.TemporaryDirectory() as folder:
            wanted = [frame_by_package(pathlib.Path(folder, "bars.csv"), *it) for it in given]
        self.hold([["frame", *it] for it in given], wanted, 150)


if __name__ == "__main__":
    if not shutil.which("node"):
        sys.exit("page_rules.py: there is no node")
    unittest.main()
