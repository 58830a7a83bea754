"""Tests of the commands `truss`, `plan`, `second-best`, `one-more` and `few-changes`: what they
print in each form, how they end, and what they refuse. That their answers are right,
tests/trusses.py and tests/plans.py test.

The program is the one that the environment variable MATBENCH_PROGRAM names, or else
crates/mat_main/out/mat_main.
"""
import contextlib
import csv
import io
import itertools
import json
import os
import pathlib
import random
import sys
import tempfile
import unittest
import unittest.mock
from fractions import Fraction

HERE = pathlib.Path(__file__).resolve().parent
TOP = HERE.parent.parent
EXAMPLES = TOP / "examples"
if "MATBENCH_LIBRARY" not in os.environ:
    os.environ.setdefault("MATBENCH_PROGRAM", str(TOP / "crates/mat_main/out/mat_main"))
sys.path.insert(0, str(HERE.parent))

import matbench  # noqa: E402
from matbench import __main__ as commands  # noqa: E402
from matbench import few_changes, one_more, plans, second_best, truss  # noqa: E402
from matbench.faults import InputFault  # noqa: E402
from matbench.roster import raising  # noqa: E402

SQUARE = "bar,from,to\na,P,Q\nb,Q,R\nc,R,S\nd,S,P\n"
WISHES = """matroids 2
pair 4
elements Ada.Mon Ben.Mon Ben.Tue Ben.Tue.more
weights 5 4 3 3
partition 3
class 1 Ada.Mon Ben.Mon
class 1 Ben.Tue
class 1 Ben.Tue.more
laminar 3
set 1 Ada.Mon
set 1 Ben.Mon Ben.Tue Ben.Tue.more
set 1 Ben.Tue Ben.Tue.more
end
"""
#: Monday early needs one and has room for two, late needs one. Ada May wishes both, and works once.
NEEDS = """matroids 2
pair 5
elements Ada_May.Mon_early Ada_May.Mon_early.more Ada_May.Mon_late Ben.Mon_early Ben.Mon_early.more
weights 1:4 0:4 1:9 1:2 0:2
partition 3
class 1 Ada_May.Mon_early Ben.Mon_early
class 1 Ada_May.Mon_early.more Ben.Mon_early.more
class 1 Ada_May.Mon_late
laminar 3
set 1 Ada_May.Mon_early Ada_May.Mon_early.more Ada_May.Mon_late
set 1 Ada_May.Mon_early Ada_May.Mon_early.more
set 1 Ben.Mon_early Ben.Mon_early.more
end
"""


class Graph:
    """A graph as networkx has one."""

    def edges(self, data):
        """Its edges with their data."""
        return [(1, 2, {"bar": "tie"}), (2, 3, {})] if data else [(1, 2), (2, 3)]


def ran(*words):
    """The status, the output and the notes of a command, in this process."""
    output, notes = io.BytesIO(), io.StringIO()
    with contextlib.redirect_stdout(io.TextIOWrapper(output, "utf-8", write_through=True)), \
            contextlib.redirect_stderr(notes):
        try:
            status = commands.main([str(word) for word in words])
        except SystemExit as end:
            status = end.code
        sys.stdout.flush()
        text = output.getvalue().decode()
    return status, text, notes.getvalue()


class InFolder(unittest.TestCase):
    """A test that has a folder of its own."""

    def setUp(self):
        folder = tempfile.TemporaryDirectory()
        self.addCleanup(folder.cleanup)
        self.folder = pathlib.Path(folder.name)

    def file(self, name, content):
        """A file in the folder."""
        path = self.folder / name
        path.write_bytes(content if isinstance(content, bytes) else content.encode())
        return path


class Trusses(InFolder):
    """The command truss."""

    def test_a_square_lacks_a_bar_and_a_braced_one_does_not(self):
        status, text, _ = ran("truss", self.file("loose.csv", SQUARE))
        self.assertEqual(status, 1)
        self.assertIn("NOT RIGID: 1 bar is missing.", text)
        status, text, _ = ran("truss", self.file("braced.csv", SQUARE + "e,P,R\nf,Q,S\n"))
        self.assertEqual(status, 0)
        self.assertIn("RIGID, in general position. 1 bar is redundant.", text)
        self.assertEqual(text.count("may fail"), 7)  # each bar of K4, and the line above the group

    def test_csv_and_json_say_what_the_table_says(self):
        path = self.file("braced.csv", SQUARE + "e,P,R\nf,R,T\n")
        rows = list(csv.DictReader(io.StringIO(ran("truss", path, "--format", "csv")[1])))
        found = json.loads(ran("truss", path, "--format", "json")[1])
        self.assertEqual([row["if it fails"] for row in rows], ["critical"] * 6)
        self.assertEqual((found["rigid"], found["needed"], found["independent"], found["missing"]),
                         (False, 7, 6, 1))
        self.assertEqual([sorted(part) for part in found["parts"]],
                         [["P", "Q", "R", "S"], ["R", "T"]])
        self.assertEqual([row["name"] for row in found["members"]], [row["name"] for row in rows])

    def test_names_in_any_script_and_semicolons_are_taken(self):
        path = self.file("träger.csv", "\ufeffbar;from;to\r\nStütze 1;Ä;橋\r\nб;橋;c\r\nx;c;Ä\r\n")
        status, text, _ = ran("truss", path, "--proof", self.folder / "proof")
        self.assertEqual(status, 0)
        self.assertIn("Stütze 1", text)
        status, text, _ = ran("truss", "--verify", self.folder / "proof")
        self.assertEqual((status, text.split(",")[0]), (0, "RIGHT: 3 independent bars"))

    def test_an_altered_proof_is_not_right(self):
        ran("truss", self.file("braced.csv", SQUARE + "e,P,R\n"), "--proof", self.folder / "proof")
        bars = self.folder / "proof" / "bars.csv"
        bars.write_text(bars.read_text().replace("e,e,bar,P,R", "e,e,bar,P,Q"))
        status, text, _ = ran("truss", "--verify", self.folder / "proof")
        self.assertEqual((status, text[:9]), (1, "NOT RIGHT"))

    def test_hinges_count_two_in_the_plane_and_five_in_space(self):
        parts = "part,kind,from,to\nh1,hinge,A,B\nh2,Hinge,B,C\nh3,hinge,C,A\n"
        for words, independent, status in (([], 6, 0), (["--space"], 12, 0)):
            given = ran("truss", self.file("parts.csv", parts), "--format", "json", *words)
            self.assertEqual((given[0], json.loads(given[1])["independent"]), (status, independent))

    def test_what_is_needed_is_told_as_a_sum(self):
        braced = self.file("braced.csv", SQUARE + "e,P,R\n")
        parts = self.file("parts.csv", "part,kind,from,to\nh1,hinge,A,B\nb2,bar,B,C\n")
        for words, told in (
                ([braced], "5 is 4 joints x 2, less 3 for the whole, which may move."),
                ([braced, "--pin", "P"], "6 is 4 joints x 2, less 1 pin x 2."),
                ([braced, "--pin", "P", "--pin", "S", "--roller", "R"],
                 "4 is 4 joints x 2, less 2 pins x 2; a roller counts as 1 bar."),
                ([braced, "--roller", "R"], "8 is 4 joints x 2; a roller counts as 1 bar."),
                ([parts], "6 is 3 bodies x 3, less 3 for the whole, which may move; a hinge counts"
                          " as 2 bars."),
                ([parts, "--space"], "12 is 3 bodies x 6, less 6 for the whole, which may move; a"
                                     " hinge counts as 5 bars.")):
            with self.subTest(told=told):
                self.assertEqual(ran("truss", *words)[1].splitlines()[1], told)

    def test_how_many_bars_are_independent_is_told_beside_those_that_are_needed(self):
        text = ran("truss", EXAMPLES / "squares.csv")[1]
        self.assertEqual(text.splitlines()[0], "7 joints, 10 bars: 11 independent bars are needed,"
                                               " and 10 independent ones are there.")

    def test_what_is_rigid_has_the_caveat_of_special_positions(self):
        caveat = "it may move all the same: this is not tried."
        self.assertIn(caveat, ran("truss", self.file("braced.csv", SQUARE + "e,P,R\n"))[1])
        self.assertNotIn(caveat, ran("truss", self.file("loose.csv", SQUARE))[1])

    def test_a_folder_says_what_it_is_of(self):
        proof = self.folder / "proof"
        ran("truss", self.file("braced.csv", SQUARE + "e,P,R\n"), "--proof", proof)
        status, text, notes = ran("truss", "--space", "--verify", proof)
        self.assertEqual((status, text[:28]), (0, "RIGHT: 5 independent bars, a"))
        self.assertEqual(notes, "matbench truss: the folder says what it is of: --space, --pin and"
                                " --roller are not looked at\n")
        self.assertEqual(ran("truss", "--verify", proof)[2], "")
        for folder, told in ((self.folder, "it has no proof.txt"),
                             (self.folder / "none", "there is no such folder")):
            self.assertEqual(ran("truss", "--verify", folder)[2],
                             f"matbench truss: {folder} is no proof of a truss: {told}\n")
        self.assertEqual(ran("truss", "--verify", proof, "--no-proof")[0], 2)

    def test_what_is_not_taken_is_told(self):
        cases = [("bar,from\na,P\n", [], "the first line has the columns bar, from, to"),
                 ("bar,from,to\na,P,\n", [], "there is no to"),
                 ("bar,from,to\na,P,P\n", [], "a: both ends are P"),
                 (SQUARE + "a,P,R\n", [], "a: this name stands twice"),
                 (SQUARE, ["--pin", "X"], "X: no bar ends at this joint"),
                 (SQUARE, ["--pin", "P", "--roller", "P"], "a pin or a roller, and not both"),
                 (SQUARE, ["--space"], "joints are of the plane alone"),
                 ("part,kind,from,to\na,rope,A,B\n", [], "is bar or hinge, and not 'rope'"),
                 ("part,kind,from,to\na,bar,A,B\n", ["--pin", "A"], "are for trusses"),
                 ("", [], "nothing in it"), (b"\x00\xff\x00", [], ""),
                 ("bar,from,to\n" + "".join(f"b{it},J{it},J{it + 1}\n" for it in range(251)), [],
                  "251 independent bars are more than the 250 that a proof can have: --no-proof")]
        for table, words, told in cases:
            with self.subTest(told=told):
                status, text, notes = ran("truss", self.file("t.csv", table), *words)
                self.assertEqual((status, text), (2, ""))
                self.assertIn(told, notes)
                self.assertNotIn("Traceback", notes)
        self.assertEqual(ran("truss", self.folder / "nowhere.csv")[0], 2)
        self.assertEqual(ran("truss", "--verify", self.folder)[0], 2)

    def test_the_package_has_it_too(self):
        bars = [("a", "P", "Q"), ("b", "Q", "R"), ("c", "R", "P")]
        found = truss.analysis(truss.plane_truss(bars, pins=["P"]))
        self.assertEqual((found.is_rigid, found.missing, found.surplus), (False, 1, 0))
        shown = truss.judged(truss.proved(found))
        self.assertEqual((shown.critical, shown.spare), (found.critical, ()))
        self.assertEqual(truss.bars_of_graph(Graph()), [("tie", "1", "2"), ("1", "2", "3")])
        with self.assertRaises(truss.NotProved):
            other = truss.Proof(found.structure, ((0, 1, 2),), ("certificate 1\n",), {-1: [[0]]})
            truss.judged(other)


class Plans(InFolder):
    """The commands plan, second-best, one-more and few-changes."""

    def setUp(self):
        super().setUp()
        self.wishes = self.file("wishes.txt", WISHES)

    def test_a_wish_that_must_be_granted(self):
        self.assertEqual(plans.best_plan(WISHES).members, ("Ada.Mon", "Ben.Tue"))
        found = plans.best_plan(WISHES, must=["Ben.Mon"])
        self.assertEqual((found.size, found.weight, found.members), (1, 4, ("Ben.Mon",)))
        found = plans.best_plan(WISHES, must_not=["Ben.Tue"])
        self.assertEqual(found.members, ("Ada.Mon",))
        status, text, _ = ran("plan", self.wishes, "--must", "Ada.Mon", "--must", "Ben.Mon")
        self.assertEqual((status, text[:5]), (1, "NONE:"))
        self.assertEqual(ran("plan", self.wishes, "--size", "3")[0], 1)

    def test_no_plan_has_its_certificate(self):
        with self.assertRaises(plans.NoPlan) as caught:
            plans.best_plan(WISHES, must=["Ada.Mon", "Ben.Mon"])
        self.assertTrue(matbench.check(caught.exception.text, caught.exception.certificate))

    def test_the_second_plan_grants_other_wishes(self):
        found = second_best.second_best(WISHES)
        self.assertEqual((found.best.weight, found.second), (8, None))
        found = second_best.second_best(WISHES, is_any_size=True)
        self.assertEqual((found.second.weight, found.second.members), (5, ("Ada.Mon",)))
        status, text, _ = ran("second-best", self.wishes, "--size", "1", "--format", "json")
        self.assertEqual((status, json.loads(text)["second"]["elements"]), (0, ["Ben.Mon"]))
        self.assertEqual(ran("second-best", self.wishes)[0], 1)

    def test_one_more_place(self):
        best, gains = one_more.one_more(WISHES)
        self.assertEqual(best.weight, 8)
        self.assertEqual([(it.limit, it.used, it.gain) for it in gains if it.rule == 1][0],
                         ("Mon", 1, 1))
        self.assertEqual([(it.limit, it.gain) for it in gains if it.rule == 2],
                         [("Ada", 0), ("Ben", 0)])
        rows = json.loads(ran("one-more", self.wishes, "--format", "json")[1])["limits"]
        self.assertEqual(len(rows), len(gains))

    def test_one_more_place_beyond_a_least_number(self):
        _, gains = one_more.one_more(NEEDS)
        self.assertEqual([(it.limit, it.cap, it.least, it.used, it.gain) for it in gains],
                         [("Mon_early", 2, 1, 1, 0), ("Mon_late", 1, 1, 1, 0), ("Ada_May", 1, 0, 1,
                          matbench.Weight(0, 4))])
        gains = json.loads(ran("one-more", self.file("n.txt", NEEDS), "--format", "json")[1])
        self.assertEqual([row["new"] for row in gains["limits"]], ["", "", "Ada_May.Mon_early"])

    def test_a_least_number_without_copies_is_told(self):
        text = """matroids 2\npair 2\nelements Ada.Mon Ben.Mon\nweights 1:5 1:4\npartition 1
class 1 Ada.Mon Ben.Mon\npartition 2\nclass 1 Ada.Mon\nclass 1 Ben.Mon\nend\n"""
        told = [[(it.least, it.gain) for it in one_more.one_more(text, has_least=has_least)[1]]
                for has_least in (False, True)]
        self.assertEqual(told[0], [(0, matbench.Weight(1, 4)), (0, 0), (0, 0)])
        self.assertEqual(told[1], [(1, matbench.Weight(0, 4)), (0, 0), (0, 0)])
        self.assertIn("0:4", ran("one-more", self.file("n.txt", text), "--least")[1])

    def test_few_changes(self):
        choices = few_changes.few_changes(WISHES, ["Ben.Mon"])
        self.assertEqual([(it.changes, it.plan.weight) for it in choices], [(3, 8), (0, 4)])
        self.assertEqual(choices[0].dropped, ("Ben.Mon",))
        self.assertEqual(choices[0].new, ("Ada.Mon", "Ben.Tue"))
        last = self.file("last.txt", "1 for 4:\nBen.Mon\nGone.Sun\n")
        status, text, _ = ran("few-changes", self.wishes, last)
        self.assertEqual((status, text.splitlines()[0]), (0, "Not in the description: Gone.Sun."))

    def test_a_cost_has_two_numbers_if_weights_have(self):
        last = self.file("last.txt", "Ben.Mon_early Ben.Mon_early")
        rows = json.loads(ran("few-changes", self.file("n.txt", NEEDS), last, "--format",
                              "json")[1])["plans"]
        self.assertEqual([(row["changes"], row["weight"], row["best if a change costs"], row["to"])
                          for row in rows], [(1, "2:11", "0", "1:9"), (0, "1:2", "1:9", None)])
        self.assertEqual(str(few_changes.Cost(Fraction(1, 2), Fraction(-5, 3))), "0.50:-1.67")

    def test_the_last_plan_may_be_a_roster(self):
        table = "person;shift;gain;granted\nBen;Mon early;2;yes\nAda May;Mon late;9;no\n"
        for name, content in (("r.csv", table), ("r16.csv", table.encode("utf-16"))):
            status, text, _ = ran("few-changes", self.file("n.txt", NEEDS), self.file(name, content))
            self.assertEqual((status, text.splitlines()[-1].split()[:2]), (0, ["0", "1:2"]))
        for last, told in ((table.replace("Ben", "李娜"), "`roster --last` takes this roster"),
                           (table.replace("Ben", "Zoe"), "none of its names, such as Zoe.Mon_early"),
                           (table.replace("yes", "perhaps"), "granted is yes or no"),
                           ("", "there is nothing in it"), ("<svg>", "such as <svg>"),
                           ("Ben.Mon_early\n" * 20_000, "too long for the names of a plan")):
            status, text, notes = ran("few-changes", self.file("n.txt", NEEDS),
                                      self.file("l.txt", last))
            self.assertEqual((status, text), (2, ""))
            self.assertIn(told, notes)
        status, _, _ = ran("few-changes", self.wishes, self.file("l.txt", "0 for 0:\n"))
        self.assertEqual(status, 0)

    def test_what_is_not_taken_is_told(self):
        cases = [(["plan", EXAMPLES / "towns.txt"], "the form is `rooted"),
                 (["plan", self.folder / "nowhere.txt"], "No such file"),
                 (["plan", self.file("bad.txt", "matroids 3\n")], "Version line 1"),
                 (["plan", self.wishes, "--must", "Eve"], "Eve: there is no such element"),
                 (["plan", self.wishes, "--must", "Ada.Mon", "--must-not", "Ada.Mon"], "must not"),
                 (["second-best", self.wishes, "--size", "1", "--any-size"], "do not go together"),
                 (["few-changes", self.wishes, self.file("l.txt", b"\xff")], "no text in UTF-8")]
        for words, told in cases:
            with self.subTest(told=told):
                status, text, notes = ran(*words)
                self.assertEqual((status, text), (2, ""))
                self.assertIn(told, notes)
        with self.assertRaises(InputFault):
            plans.best_plan(WISHES.replace("5 4 3 3", "5:3 4 3 900000000000:7"), must=["Ada.Mon"])


class Costs(InFolder):
    """What must and never, and least numbers, cost."""

    WISHES = ("person,shift,gain,must,never\nAda,Mon,5,,\nBen,Mon,2,yes,\nAda,Tue,4,,\n"
              "Cleo,Tue,3.5,,x\n")
    LIMITS = "name,most,least\nMon,1,\nTue,1,1\nAda,1,\nBen,1,\nCleo,1,\n"

    def roster(self, wishes, limits, *words):
        """The output of a roster of two tables."""
        status, text, _ = ran("roster", self.file("w.csv", wishes), self.file("l.csv", limits),
                              *words)
        self.assertEqual(status, 0)
        return text

    def test_of_a_roster_they_are_told_by_columns(self):
        text = self.roster(self.WISHES, self.LIMITS)
        self.assertIn("gain 6.\n", text)  # Ben on Monday and Ada on Tuesday; else 5 + 3.5
        self.assertIn("\nWithout the columns must and never: gain 8.5, so they cost 2.5.\n"
                      "Without the column least: gain 6, so it costs nothing.\n", text)
        found = json.loads(self.roster(self.WISHES, self.LIMITS, "--format", "json"))["costs"]
        self.assertEqual([(it["columns"], it["gain without"], it["costs"]) for it in found],
                         [(["must", "never"], 8.5, 2.5), (["least"], 6, 0)])

    def test_least_numbers_cost_a_gain(self):
        wishes = "person,shift,gain\nAda,Mon,5\nAda,Tue,3\n"
        text = self.roster(wishes, "name,most,least\nMon,1,\nTue,1,1\nAda,1,\n")
        self.assertIn("\nWithout the column least: gain 5, so it costs 2.\n", text)
        self.assertNotIn("Without", self.roster(wishes, "name,most\nMon,1\nTue,1\nAda,1\n"))

    def test_with_hours_they_are_told_too(self):
        wishes = "person,shift,gain,hours,must\nAda,Mon,5,8,\nAda,Tue,3,8,yes\nAda,Wed,2.5,4,\n"
        text = self.roster(wishes, "name,most,hours\nMon,1,\nTue,1,\nWed,1,\nAda,3,12\n")
        self.assertIn("gain 5.5.\n", text)
        self.assertIn("\nWithout the column must: gain 7.5, so it costs 2.\n", text)

    def test_more_of_what_is_needed_is_no_cost(self):
        wishes = "person,shift,gain,must\nAda,Mon,5,yes\nAda,Tue,3,\n"
        text = self.roster(wishes, "name,most,least\nMon,1,\nTue,1,1\nAda,1,\n")
        self.assertIn("Without the column must: gain 3, with more of what else is needed.\n", text)

    def test_of_a_plan_they_are_told_by_words(self):
        path = self.file("w.txt", WISHES)
        text = ran("plan", path, "--must", "Ben.Mon", "--must-not", "Ben.Tue")[1]
        self.assertEqual(text.splitlines()[:2], [
            "BEST: 1 elements, weight 4.",
            "Without --must and --must-not: weight 8, so this costs 4."])
        self.assertIn("this costs nothing.", ran("plan", path, "--must", "Ada.Mon")[1])
        self.assertNotIn("Without", ran("plan", path)[1])


class Copies(InFolder):
    """One more place, where a person has one and a wish two copies."""

    def test_a_wish_is_not_granted_twice(self):
        for kind, word in (("partition", "class"), ("laminar", "set")):
            text = ("matroids 2\npair 5\nelements Jo.F Jo.F.more Jo.N Zo.F Zo.F.more\nweights 1:10"
                    " 0:10 0:9 1:6 0:6\npartition 3\nclass 1 Jo.F Zo.F\nclass 1 Jo.F.more Zo.F.more"
                    f"\nclass 0 Jo.N\n{kind} 2\n{word} 1 Jo.F Jo.F.more Jo.N\n{word} 1 Zo.F"
                    " Zo.F.more\nend\n")
            gains = {it.limit: (str(it.gain), it.plan.members) for it in one_more.one_more(text)[1]}
            self.assertEqual(gains["Jo"], ("0", ("Jo.F", "Zo.F.more")))
            free = one_more.one_more(text.replace("class 0", "class 1"))[1]
            self.assertEqual([(it.limit, str(it.gain)) for it in free],
                             [("F", "0"), ("N", "0"), ("Jo", "0:9")])


class Hours(InFolder):
    """Rosters with hours."""

    def setUp(self):
        super().setUp()
        self.tables = [
            self.file("w.csv", "person,shift,gain,hours\nAda,Sat,5,8\nAda,Sun,4,8\nJörg,Sat,\"3,5\",8\n"),
            self.file("l.csv", "name,most,hours\nSat,1,\nSun,1,\nAda,2,12\nJörg,1,\n")]

    def test_the_reason_is_told_in_the_names_of_the_tables(self):
        status, text, _ = ran("roster", *self.tables, "--tell")
        self.assertEqual(status, 0)
        reason = text[text.index("Why no roster gains more"):]
        self.assertIn("Gains here are 10 times those of the tables.", reason)
        self.assertIn("So no plan that keeps all limits gains more than 75.", reason)
        self.assertEqual(reason.count("So no plan"), 1)
        self.assertIn("with a point before the decimals.", text)

    def test_each_search_of_one_more_place_has_the_seconds_that_are_given(self):
        asked, solve = [], raising.solve

        def noted(*words, **more):
            asked.append(more["seconds"])
            return solve(*words, **more)
        with unittest.mock.patch.object(raising, "solve", noted):
            self.assertEqual(ran("roster", *self.tables, "--one-more", "--seconds", "7")[0], 0)
        self.assertEqual(set(asked), {7.0})


class LastRosters(InFolder):
    """Changes against a last roster."""

    PAIRS = [(person, shift) for person in ("Ada", "Ben", "Cleo") for shift in ("Sat", "Sun")]

    def told(self, gains, last, *words):
        """The JSON of a roster of these wishes, of which each person and each shift has one."""
        pairs = dict(zip(self.PAIRS, gains))
        wishes = "person,shift,gain\n" + "".join(f"{a},{b},{it}\n" for (a, b), it in pairs.items())
        limits = "name,most\n" + "".join(f"{it},1\n" for it in ("Ada", "Ben", "Cleo", "Sat", "Sun"))
        roster = "person,shift,granted\n" + "".join(f"{a},{b},yes\n" for a, b in last)
        status, text, _ = ran(
            "roster", self.file("w.csv", wishes), self.file("l.csv", limits), "--last",
            self.file("r.csv", roster), *words)
        self.assertEqual(status, 0)
        return text

    def best(self, gains, last, most):
        """The greatest gain of a roster with at most so many changes, by trying all."""
        worth = dict(zip(self.PAIRS, gains))
        rosters = [set(it) for size in range(3) for it in itertools.combinations(self.PAIRS, size)
                   if all(len({pair[side] for pair in it}) == size for side in (0, 1))]
        return max((sum(worth[pair] for pair in it) for it in rosters if len(it ^ last) <= most),
                   default=None)

    def test_it_is_told_who_lost_and_who_got_what(self):
        text = self.told([8, 1, 5, 7, 1, 1], [("Ben", "Sat")])
        self.assertIn("Changes against the last roster: 3.\n  new:     Ada, Sat; Ben, Sun\n"
                      "  dropped: Ben, Sat\n", text)
        text = self.told([8, 1, 5, 7, 1, 1], [("Ada", "Sat"), ("Ben", "Sun")])
        self.assertIn("Changes against the last roster: 0.\nThis is proved best", text)

    def test_a_roster_of_few_changes_has_a_bound_that_none_exceeds(self):
        numbers, seen = random.Random(7), set()
        for _ in range(40):
            gains = [numbers.randint(1, 9) for _ in self.PAIRS]
            last = {("Ada", "Sat"), ("Ben", "Sun")} if numbers.random() < 0.7 else {("Ada", "Sat")}
            most = numbers.randint(0, 4)
            text = self.told(gains, last, "--changes", str(most))
            told = json.loads(self.told(gains, last, "--changes", str(most), "--format", "json"))
            best = self.best(gains, last, most)
            self.assertLessEqual(told["changes"], most)
            self.assertLessEqual(told["gain"], best)
            self.assertEqual(told["best"], "This is proved best" in text)
            seen.add(told["best"])
            if told["best"]:
                self.assertEqual(told["gain"], best)
            else:
                bound = int(text.partition("gains more than ")[2].partition(":")[0])
                self.assertGreaterEqual(bound, best)
        self.assertEqual(seen, {True, False})

    def test_few_changes_go_from_the_best_roster_to_the_last_one(self):
        found = json.loads(self.told([8, 1, 5, 7, 1, 2], [("Ben", "Sat"), ("Cleo", "Sun")],
                                     "--few-changes", "--format", "json"))["few changes"]
        self.assertEqual([(it["changes"], it["gain"]) for it in found], [(4, 15), (0, 7)])
        self.assertEqual((found[0]["new"], found[0]["dropped"], found[0]["to"], found[1]["to"]),
                         ("Ada, Sat; Ben, Sun", "Ben, Sat; Cleo, Sun", 2, None))

    def test_what_is_not_taken_is_told(self):
        tables = EXAMPLES / "wishes.csv", EXAMPLES / "limits.csv"
        for words, told in ((["--changes", "2"], "by --last, or by a column last"),
                            (["--changes", "2", "--proof", self.folder], "do not go with --changes"),
                            (["--changes", "-1", "--last", self.file(
                                "r.csv", "person,shift,granted\nAda,Saturday day,yes\n")],
                             "each roster has more than -1 changes")):
            status, text, notes = ran("roster", *tables, *words)
            self.assertEqual((status, text), (2, ""))
            self.assertIn(told, notes)


def spans(arcs, root, places, is_both_ways):
    """Whether the root reaches all places along these arcs, as many as it needs at least."""
    if len(arcs) != places - 1:
        return False
    reached = {root}
    for _ in range(places):
        for tail, head, _ in arcs:
            if tail in reached:
                reached.add(head)
            elif is_both_ways and head in reached:
                reached.add(tail)
    return len(reached) == places


class Supplied(InFolder):
    """The command supplies."""

    def least(self, arcs, places, is_both_ways):
        """The least cost of two supplies that share no arc, by trying all, or None."""
        trees = [set(it) for it in itertools.combinations(range(len(arcs)), places - 1)
                 if spans([arcs[at] for at in it], 0, places, is_both_ways)]
        return min((sum(arcs[it][2] for it in one | other) for one in trees for other in trees
                    if not one & other), default=None)

    def test_two_supplies_cost_least(self):
        numbers, seen = random.Random(4), set()
        for _ in range(8):
            places = numbers.randint(2, 4)
            arcs = [(*numbers.sample(range(places), 2), numbers.randint(0, 9))
                    for _ in range(numbers.randint(4, 9))]
            table = "link,from,to,cost\n" + "".join(
                f"l{at},{tail},{head},{cost}\n" for at, (tail, head, cost) in enumerate(arcs))
            if not any(0 in it[:2] for it in arcs):
                continue
            there = len({0, *(end for it in arcs for end in it[:2])})
            plain = "".join(f"arc {tail} {head} {cost}\n" for tail, head, cost in arcs)
            plain = f"matroids 1\nrooted {places} {len(arcs)} 0\n{plain}end\n"
            cases = [(plain, [], arcs, False, places)]
            if there == places:
                text = ran("links", self.file("l.csv", table), "0")[1]
                both = arcs + [(head, tail, cost) for tail, head, cost in arcs]
                cases += [(text, [], arcs, True, places), (text, ["--both-ways"], both, False, places)]
            for text, words, given, is_both_ways, count in cases:
                status, told, _ = ran("supplies", self.file("n.txt", text), *words, "--format",
                                      "json", "--proof", self.folder / "proof")
                least = self.least(given, count, is_both_ways)
                seen.add((is_both_ways, least is None))
                self.assertEqual(status, 1 if least is None else 0)
                if least is not None:
                    self.assertEqual(json.loads(told)["cost"], str(least))
                    self.hold_supplies(json.loads(told)["arcs"], count, least)
                for name in ("supplies", "split"):
                    path = self.folder / "proof" / f"{name}.txt"
                    self.assertEqual(path.exists(), name == "supplies" or least is not None)
                    if path.exists():
                        self.assertTrue(matbench.check(path, path.with_suffix(".answer")))
        self.assertEqual(len(seen), 4)

    def hold_supplies(self, rows, places, least):
        """Both supplies reach all places along the arcs as they are told, and share none."""
        self.assertEqual(len({row.get("link", row.get("arc")) for row in rows}), len(rows))
        self.assertEqual(sum(int(row["cost"]) for row in rows), least)
        for number in (1, 2):
            arcs = [(row["from"], row["to"], 0) for row in rows if row["supply"] == number]
            self.assertTrue(spans(arcs, "0", places, False))

    def test_a_table_is_taken_with_its_names_and_decimals(self):
        table = self.file("l.csv", "link;from;to;cost\nBrücke;Öl;B;4,5\nb;B;C;3\nc;Öl;C;2,5\n"
                                   "d;Öl;C;1\ne;B;C;2\nf;Öl;B;1\n")
        status, text, _ = ran("supplies", table, "Öl")
        self.assertEqual((status, text.splitlines()[0]), (
            0, "BEST: 2 supplies of all 3 places from Öl, cost 6.5 together. They share no link."))
        self.assertIn("     1  c     Öl    C   2.5\n", text)
        self.assertEqual(json.loads(ran("supplies", table, "Öl", "--format", "json")[1])["cost"], "6.5")
        self.assertIn("all are multiplied by 10", ran("links", table, "Öl")[2])
        for words, told in (([table], "name the place from which all are to be reached"),
                            ([table, "Z"], "the places are Öl, B, C"),
                            ([EXAMPLES / "supply.txt", "0"], "is no table with the columns link")):
            status, text, notes = ran("supplies", *words)
            self.assertEqual((status, text), (2, ""))
            self.assertIn(told, notes)

    def test_as_many_links_may_fail_as_no_cut_has(self):
        numbers, seen = random.Random(8), set()
        for _ in range(12):
            links = [numbers.sample("ABCDE", 2) for _ in range(numbers.randint(4, 14))]
            there = {"A", *(it for link in links for it in link)}
            table = "link,from,to\n" + "".join(f"l{at},{a},{b}\n" for at, (a, b) in enumerate(links))
            if not any("A" in it for it in links):
                continue
            cuts = [sum((a in inside) != (b in inside) for a, b in links)
                    for size in range(1, len(there)) for inside in map(set, itertools.combinations(
                        sorted(there - {"A"}), size))]
            path, folder = self.file("l.csv", table), self.folder / "proof"
            status, text, _ = ran("failures", path, "A", "--format", "json", "--proof", folder)
            found = json.loads(text)
            self.assertEqual((found["stands"], status), (min(cuts) - 1, int(min(cuts) < 2)))
            crossing = [f"l{at}" for at, link in enumerate(links)
                        if sum(it in found["places"] for it in link) == 1]
            self.assertEqual((found["cut"], len(crossing)), (crossing, min(cuts)))
            for name in ("yes", "no") if min(cuts) else ("no",):
                self.assertTrue(matbench.check(folder / "network.txt", folder / f"{name}.answer"))
            seen.add(min(cuts))
        self.assertGreater(len(seen), 2)
        self.assertEqual(ran("failures", EXAMPLES / "islands.csv", "Ash")[1],
                         "STANDS the failure of any 1 link: Ash still reaches all 4 places.\n"
                         "These 2 links cut off Inch, Holm: ferry, tunnel.\n")
        self.assertIn("STANDS the failure of any 1 arc:", ran("failures", EXAMPLES / "supply.txt")[1])

    def test_the_recipe_makes_the_same_description(self):
        text = ran("supplies", EXAMPLES / "supply.txt", "--description")[1]
        self.assertEqual(text, (EXAMPLES / "two_supplies.txt").read_text())

    def test_what_is_not_taken_is_told(self):
        links = ran("links", EXAMPLES / "islands.csv", "Ash")[1]
        mixed = links.replace("rail.back", "rail2.back")
        for text, words, told in ((links, ["--number", "65"], "from 1 to 64, and not 65"),
                                  (mixed, [], "rail.there is not: --both-ways"),
                                  ("", [], "there is nothing in it"), ("x\n", [], "description 3 UnknownWord"),
                                  (WISHES, [], "and has to be `rooted V E R`")):
            status, text, notes = ran("supplies", self.file("n.txt", text), *words)
            self.assertEqual((status, text, notes.count("\n")), (2, "", 1))
            self.assertIn(told, notes)
        self.assertEqual(ran("supplies", self.file("n.txt", mixed), "--both-ways")[0], 0)
        status, text, _ = ran("supplies", self.file("n.txt", links), "--number", "3")
        self.assertEqual((status, text), (
            1, "NONE: there are no 3 supplies that share no link. With --both-ways a link may be in"
               " two of them, in opposite directions.\n"))
        status, text, _ = ran("supplies", self.file("n.txt", links), "--number", "3", "--both-ways")
        self.assertEqual((status, text), (1, "NONE: there are no 3 supplies that share no arc.\n"))


if __name__ == "__main__":
    unittest.main()
