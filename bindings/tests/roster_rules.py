"""Tests that the page makes the same descriptions of tables as the package for Python, byte for
byte, and refuses the same tables: over tables as spreadsheets save them, spoilt ones and drawn
ones.

It needs node, and the package's matbench.roster.
"""
import base64
import importlib.util
import json
import pathlib
import random
import shutil
import subprocess
import sys
import tempfile
import unittest

HERE = pathlib.Path(__file__).resolve().parent
TOP = HERE.parent.parent
sys.path.insert(0, str(HERE.parent))

WISHES = ("person,day,shift,gain\nAda,Mon,Mon early,5\nBen,Mon,Mon late,2\nAda,Tue,Tue early,3\n"
          "Ben,Tue,Tue early,4\n")
LIMITS = "name,most,least\nMon early,2,1\nMon late,1,\nTue early,1\nAda,2,\nBen,2,\n"
KINDS = "person,shift,gain,kind\nAda,early,5,senior\nBen,early,6,\nCleo,early,3,senior\n"
#: Pairs of texts as people have them.
TEXTS = [
    (WISHES, LIMITS),
    (WISHES.replace(",", ";"), LIMITS.replace(",", "\t")),
    ("sep=;\n" + WISHES.replace(",", ";"), LIMITS.replace("\n", "\r\n")),
    (WISHES.replace("\n", ",,\n\n"), LIMITS.replace("\n", ",\n,,\n")),
    ("\ufeff" + WISHES, '"' + LIMITS.replace(",", '","').replace("\n", '"\n"')[:-1]),
    (WISHES.replace(",5", ',"4,5"'), LIMITS), (WISHES.replace(",5", ",4.25"), LIMITS),
    (WISHES.replace(",5", ",1.234"), LIMITS), (WISHES.replace(",5", ',"1.234,5"'), LIMITS),
    (WISHES.replace(",5", ',"4,5"').replace(",2", ",2.5"), LIMITS),
    (WISHES.replace(",5", ',"1,234,567"'), LIMITS), (WISHES.replace(",5", ",1.234.567"), LIMITS),
    (WISHES.replace(",5", ",1.234.567").replace(",2", ",2.5"), LIMITS),
    (WISHES.replace(",5", ",0.125"), LIMITS), (WISHES.replace(",5", ",-0.125"), LIMITS),
    (WISHES.replace(",5", ",01.250"), LIMITS), (WISHES.replace(",5", ",-1.250"), LIMITS),
    (WISHES.replace(",5", ",+1.250"), LIMITS), (WISHES.replace(",5", ",x1.250"), LIMITS),
    (WISHES.replace(",5", ",-7"), LIMITS), (WISHES.replace(",5", ",\u22127"), LIMITS),
    (WISHES.replace(",5", ",1 000"), LIMITS), (WISHES.replace(",5", ",1'000"), LIMITS),
    (WISHES.replace(",5", ",1000000000001"), LIMITS), (WISHES.replace(",5", ","), LIMITS),
    (WISHES.replace(",5", ",five"), LIMITS), (WISHES.replace(",5", "," + "5" * 40), LIMITS),
    (WISHES.replace("Ada", "Jörg"), LIMITS.replace("Ada", "Jörg")),
    (WISHES.replace("Ada", "Ядвига").replace("Ben", "李"),
     LIMITS.replace("Ada", "Ядвига").replace("Ben", "李")),
    (WISHES.replace("Ada", "A" * 40), LIMITS.replace("Ada", "A" * 40)),
    (WISHES.replace("Ada", "p2"), LIMITS.replace("Ada", "p2")),
    (WISHES.replace("Ada", "Ben Ó"), LIMITS.replace("Ada", "Ben Ó")),
    (WISHES.replace("Ada", "Ada\ufe0f"), LIMITS.replace("Ada", "Ada\ufe0f")),
    (WISHES.replace("Ada", "A\u0323da"), LIMITS.replace("Ada", "A\u0323da")),
    (WISHES.replace("Ada", "𝔄da"), LIMITS.replace("Ada", "𝔄da")),
    (WISHES.replace("gain", "Gain"), LIMITS.replace("name", "NAME")),
    (WISHES.replace("gain", "gains"), LIMITS), (WISHES, LIMITS.replace("most", "least")),
    (WISHES.replace("Ben,Mon,Mon late", "Ada,Mon,Mon early"), LIMITS),
    (WISHES.replace("Ada,Mon", "Ada,"), LIMITS), (WISHES.replace("Ada,Mon", "Cleo,Mon"), LIMITS),
    (WISHES, LIMITS.replace("Mon early", "Ada")), (WISHES, LIMITS.replace("Ben,2", "Ben,two")),
    (WISHES, LIMITS.replace("Ben,2", "Ben,")), (WISHES, LIMITS.replace("Ben,2", "Ben,2,1")),
    (WISHES, LIMITS.replace("early,2,1", "early,2,3")), (WISHES, LIMITS.replace("2,1", "2.0,1,")),
    (WISHES, LIMITS.replace("Ben,2", "Ben," + "9" * 50)), (WISHES, LIMITS + "Wed late,2,1\n"),
    (WISHES, LIMITS + "Wed late,2,\n"), (WISHES, LIMITS.replace("early,2,1", "early,0,")),
    (WISHES.replace("shift", "shift,must").replace("early,", "early,ja,")
     .replace("late,", "late,,"), LIMITS),
    (WISHES.replace("shift", "shift,never").replace("early,", "early,x,")
     .replace("late,", "late,nein,"), LIMITS),
    (WISHES.replace("shift", "shift,last").replace("early,", "early,はい,")
     .replace("late,", "late,FALSE,"), LIMITS),
    (WISHES.replace("shift", "shift,must").replace("early,", "early,perhaps,"), LIMITS),
    (WISHES.replace("Mon early", "early").replace("Tue early", "early").replace("Mon late", "late"),
     "name,most\nearly,1\nlate,1\nAda,2\nBen,2\n"),
    (WISHES, LIMITS.replace("least", "least,day,week").replace("Ada,2,", "Ada,2,,2,1")),
    (KINDS, "name,kind,most,least\nearly,,2,\nearly,senior,1,1\nAda,,1\nBen,,1\nCleo,,1\n"),
    (KINDS, "name,kind,most,least\nearly,,2,1\nearly,senior,1,\nAda,,1\nBen,,1\nCleo,,1\n"),
    (KINDS, "name,kind,most,least\nearly,,3,\nAda,,1\nAda,senior,0\nBen,,1\nCleo,,1\n"),
    (WISHES.replace("gain", "gain,kind").replace(",5", ",5,night").replace(",3", ",3,night"),
     LIMITS.replace("name,most,least", "name,kind,most,least").replace("Mon early", "Mon early,")
     .replace("late,", "late,,").replace("Tue early", "Tue early,")
     .replace("Ada,2", "Ada,,2\nAda,night,1").replace("Ben,2", "Ben,,2")),
    ("", LIMITS), ("person,shift,gain\n", LIMITS), (WISHES, "name,most\n"),
    (WISHES.replace("Ada,Mon", '"Ada",Mon'), LIMITS), (WISHES.replace("Ada", '"A\nda"'), LIMITS),
    (WISHES.replace("Ada", '"Ada'), LIMITS), (WISHES.replace("Ada", '"Ada"x'), LIMITS),
    (WISHES.replace("Ada", 'A"d"a'), LIMITS.replace("Ada", 'A"d"a')),
    (WISHES.replace(",5", ",5,1"), LIMITS), (WISHES.replace("gain", "gain,gain"), LIMITS),
]
#: How a text is saved.
ENCODINGS = ("utf-8", "utf-8-sig", "utf-16", "utf-16-le", "utf-16-be", "utf-32", "cp1252")


def drawn(numbers):
    """Two drawn tables."""
    days = numbers.choice([None, ["Mon", "Tue", "Wed"]])
    weeks = numbers.choice([None, None, ["1", "2"]])
    people = numbers.sample(["Ada", "Ben", "Élodie", "Jörg", "Ядвига", "p1", "李 四"], 4)
    kinds = numbers.choice([None, None, ["night", "", "senior"]])
    more = [it for it in ("must", "never", "last") if numbers.random() < 0.25]
    heads = ["person", *(["week"] if weeks else []), *(["day"] if days else []), "shift", "gain",
             *(["kind"] if kinds else []), *more]
    rows, shifts = {}, {}
    for _ in range(numbers.randint(1, 24)):
        row = {"person": numbers.choice(people), "week": numbers.choice(weeks or [""]),
               "day": numbers.choice(days or [""]),
               "shift": numbers.choice(["early", "late", "x y"]),
               "gain": numbers.choice([f"{numbers.randint(-3, 30)}", f"{numbers.randint(1, 9)}.5"]),
               "kind": numbers.choice(kinds or [""])}
        row.update({it: numbers.choice(["", "", "yes", "no"]) for it in more})
        rows[tuple(row[it] for it in ("person", "week", "day", "shift"))] = row
        shifts[row["shift"]] = None
    wishes = [heads, *([row[it] for it in heads] for row in rows.values())]
    limits = [["name", "kind", "most", "least", "week", "day"]]
    for shift in shifts:
        most = numbers.randint(0, 3)
        limits.append([shift, "", most, numbers.choice(["", "", numbers.randint(0, 3)]), "", ""])
        if kinds and numbers.random() < 0.3:
            most, least = (numbers.choice(["", 1]) for _ in range(2))
            limits.append([shift, "night", most, least, "", ""])
    for person in people:
        limits.append([person, "", numbers.randint(0, 5), "", numbers.choice(["", "", 1, 2]),
                       numbers.choice(["", "", 1, 2])])
        if kinds and numbers.random() < 0.3:
            limits.append([person, "night", numbers.randint(0, 2), "", "", ""])
    sign = numbers.choice(",;\t")
    return tuple("".join(sign.join(map(str, line)) + "\n" for line in it)
                 for it in (wishes, limits))


def by_package(folder, wishes, limits):
    """The description that the package makes of two files, or None where it refuses them."""
    from matbench.faults import InputFault
    from matbench.roster import read_request, write_request
    paths = []
    for name, content in (("wishes.csv", wishes), ("limits.csv", limits)):
        paths.append(pathlib.Path(folder, name))
        paths[-1].write_bytes(content)
    try:
        written = write_request(read_request(*paths))
    except InputFault:
        return None
    return None if len(written.texts) > 1 or written.further else written.texts[0]


def by_page(files):
    """The same by the page, for a list of pairs of files."""
    given = json.dumps([[base64.b64encode(it).decode() for it in pair] for pair in files])
    command = ["node", str(HERE / "roster_rules.mjs"), str(HERE.parent / "web")]
    done = subprocess.run(command, input=given, capture_output=True, text=True, check=True)
    return json.loads(done.stdout)


class Rules(unittest.TestCase):
    """The page's rules against the package's."""

    def hold(self, files, fewest):
        """Compares both for a list of pairs of files, of which so many at least are described."""
        found = by_page(files)
        with tempfile.TemporaryDirectory() as folder:
            wanted = [by_package(folder, *pair) for pair in files]
        self.assertEqual(len(found), len(files))
        for pair, ours, theirs in zip(files, found, wanted):
            with self.subTest(wishes=pair[0].decode("utf-8", "replace"),
                              limits=pair[1].decode("utf-8", "replace")):
                self.assertEqual(ours, theirs)
        self.assertGreaterEqual(sum(it is not None for it in wanted), fewest)
        return sum(it is None for it in wanted)

    def test_tables_as_people_have_them_and_spoilt_ones(self):
        files = [tuple(text.encode() for text in pair) for pair in TEXTS]
        self.assertGreater(self.hold(files, 25), 15)

    def test_encodings(self):
        pair = WISHES.replace("Ada", "Zoë"), LIMITS.replace("Ada", "Zoë")
        files = [tuple(text.encode(it) for text in pair) for it in ENCODINGS]
        files.append(tuple(text.replace("Zoë", "Zo\x81").encode("latin-1")
                           for text in (WISHES, LIMITS)))
        files.append((b"PK\x03\x04" + WISHES.encode(), LIMITS.encode()))
        files.append((WISHES.encode().replace(b"Ada", b"A\x00a"), LIMITS.encode()))
        files.append((WISHES.encode().replace(b"Ada", b"Ad\x81"), LIMITS.encode()))
        self.hold(files, len(ENCODINGS))

    def test_drawn_tables(self):
        numbers = random.Random(1)
        files = [tuple(text.encode() for text in drawn(numbers)) for _ in range(400)]
        self.hold(files, 200)

    def test_large_tables(self):
        wishes = ["person,shift,gain"] + [f"P{it % 50},S{it // 50},{it}" for it in range(500)]
        limits = ["name,most"] + [f"P{it},3" for it in range(50)] + [f"S{it},2" for it in range(11)]
        least = [limits[0] + ",least", *limits[1:], "S12,1,1"]
        files = [("\n".join(wishes), "\n".join(limits)),
                 ("\n".join([*wishes, "P1,S10,5"]), "\n".join(limits)),
                 ("\n".join(wishes), "\n".join([*least[:-2], "S10,2,1"]).replace("S9,2", "S9,2,1")),
                 ("\n".join([wishes[0], *["P1,S1,1"] * 10_001]), "\n".join(limits))]
        self.assertGreaterEqual(self.hold([tuple(it.encode() for it in pair) for pair in files], 1),
                                2)


def main():
    """Runs the tests, if what they need is there."""
    if not shutil.which("node"):
        sys.exit("roster_rules.py: there is no node")
    if not importlib.util.find_spec("matbench.roster"):
        sys.exit("roster_rules.py: the package has no matbench.roster")
    unittest.main()


if __name__ == "__main__":
    main()
