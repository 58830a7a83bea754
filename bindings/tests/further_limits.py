"""Tests of the command `limits`: how it reads its table, what it prints in each form, names and
numbers of a roster's folder, and what it refuses. That its answers are right, tests/limits.py and
tests/limits_by_highs.py test.

The program is the one that planning.py takes.
"""
import csv
import io
import json
import os
import shlex
import unittest

from planning import InFolder, WISHES, ran

from matbench import limits
from matbench.limits.bounds import Bounds
from matbench.limits.pricing import Pricing
from matbench.limits.real_names import real_names
from matbench.limits.showing import outcome_text

#: A roster with a least number, and hours that Jörg and Zoë work at most. Jörg has no room for the
#: night of 10 hours, and Zoë for one shift of 6: so Zoë works at night, and Jörg and Ann early.
SHIFTS = ("person;shift;gain\nJörg;Mo Früh;10,25\nJörg;Mo Nacht;9\nZoë;Mo Früh;8\n"
          "Zoë;Mo Nacht;12,5\nAnn;Mo Früh;6,5\n")
ROOM = "name;most;least\nMo Früh;2;1\nMo Nacht;1;\nJörg;2;\nZoë;2;\nAnn;1;\n"
HOURS = ("limit;most;element;amount\nJörg;8;Jörg.*Nacht;10\nJörg;;Jörg.*Früh;7,5\n"
         "Zoë;10;Zoë.*;6\n")


#: No three of these keep the limits that are given below: so prices for three grow without end.
NO_THREE = """matroids 2
pair 8
elements a0 a1 a2 a3 a4 a5 a6 a7
weights 0 2 8 -2 4 9 8 7
partition 3
class 1 a6 a7
class 1 a0 a1 a2 a3
class 2 a4 a5
graphic 4
edge 3 1
edge 2 3
edge 3 1
edge 3 1
edge 0 1
edge 2 0
edge 3 0
edge 0 3
end
"""


class Prices(unittest.TestCase):
    """The search for prices."""

    def test_it_ends_where_prices_become_too_large(self):
        further = [limits.Limit("l0", 12, {0: 1, 1: 4, 3: 8, 4: 6, 6: 6, 7: 6}),
                   limits.Limit("l1", 0, dict.fromkeys(range(1, 7), 1))]
        turns = iter(range(500))
        pricing = Pricing(Bounds(limits.Joined([NO_THREE]), further, 3), lambda *_: None,
                          lambda: next(turns, None) is None)
        pricing.run(80)
        self.assertIsNotNone(next(turns, None))


class Tables(InFolder):
    """What the table of limits says."""

    def setUp(self):
        super().setUp()
        self.wishes = self.file("wishes.txt", WISHES)

    def test_patterns_that_fit_nothing_are_told_together_and_count_nothing(self):
        table = self.file("l.csv", "limit,most,element\na,1,Cleo.*\nb,1,Ada.*\nb,,Dana.?on\n")
        status, text, notes = ran("limits", self.wishes, table)
        self.assertEqual((status, text.splitlines()[0]), (0, "plan: 2 elements, gain 8"))
        told = "These limits count nothing, since no element fits them: a."
        self.assertEqual(text.splitlines()[2], told)
        found = json.loads(ran("limits", self.wishes, table, "--format", "json")[1])
        self.assertEqual(found["count nothing"], ["a"])
        self.assertEqual(notes, f"matbench limits: {table}: no element fits these patterns, so they"
                                " count nothing: 'Cleo.*' (line 2), 'Dana.?on' (line 4)\n")

    def test_a_table_of_which_no_pattern_fits_is_refused(self):
        table = self.file("l.csv", "limit,most,element\na,1,Cleo.*\nb,1,Dana.*\n")
        for words in ([], ["--verify", self.folder]):
            status, text, notes = ran("limits", self.wishes, table, *words)
            self.assertEqual((status, text), (2, ""))
            self.assertEqual(notes, f"matbench limits: {table}: no element fits any of these patterns,"
                                    " so nothing would be limited: 'Cleo.*' (line 2), 'Dana.*' (line"
                                    " 3). The first element is called Ada.Mon\n")

    def test_names_of_no_element_are_refused_together(self):
        table = self.file("l.csv", "limit,most,element\na,1,Cleo.Mon\na,,Ada.*\nb,1,\nb,,Eve\n")
        status, text, notes = ran("limits", self.wishes, table)
        self.assertEqual((status, text), (2, ""))
        self.assertIn("'Cleo.Mon' (line 2), '' (line 4), 'Eve' (line 5)", notes)
        many = self.file("m.csv", "limit,most,element\n" + "a,1,Eve\n" * 15)
        self.assertIn("(line 13) and 3 more\n", ran("limits", self.wishes, many)[2])

    def test_an_element_in_two_descriptions_is_told_with_what_to_do(self):
        table = self.file("l.csv", "limit,most,element\na,1,Ada.*\n")
        status, text, notes = ran("limits", self.wishes, self.file("w2.txt", WISHES), table)
        self.assertEqual((status, text), (2, ""))
        self.assertIn("Ada.Mon: this element stands in two descriptions. Give the wishes a column"
                      " week", notes)

    def test_a_table_of_heads_alone_has_no_limits(self):
        table = self.file("l.csv", "limit,most,element,amount\n")
        self.assertEqual(limits.read_limits(table, limits.Joined([WISHES])), [])
        with self.assertRaises(limits.InputFault):
            limits.read_limits(self.file("m.csv", "limit,most\n"), limits.Joined([WISHES]))

    def test_a_guessed_encoding_is_told(self):
        table = self.file("l.csv", "limit,most,element\nNächte,1,Ada.*\n".encode("cp1252"))
        self.assertIn("is taken for Western Windows", ran("limits", self.wishes, table)[2])

    def test_amounts_and_bounds_that_are_none_are_refused(self):
        for lines, told in (("a,,Ada.*,1\n", "no line says how much at most"),
                            ("a,1,Ada.*,1\na,2,Ben.*,1\n", "its lines have different numbers"),
                            ("a,-1,Ada.*,1\n", "most is from 0"),
                            ("a,1,Ada.*,-1\n", "an amount is from 0"),
                            ("a,1,Ada.*,2\na,1,Ada.Mon,3\n", "counts another amount"),
                            (",1,Ada.*,2\n", "the limit has no name"),
                            ("a,1000000000000,Ada.*,2\n", "the numbers are too large")):
            with self.subTest(told=told):
                table = self.file("l.csv", "limit,most,element,amount\n" + lines)
                status, text, notes = ran("limits", self.wishes, table)
                self.assertEqual((status, text), (2, ""))
                self.assertIn(told, notes)

    def test_a_folder_that_is_no_proof_is_told(self):
        table = self.file("l.csv", "limit,most,element\na,1,Ada.*\n")
        for name, told in (("nowhere", "there is no such folder"), (".", "it has no bound.md")):
            folder = os.path.join(self.folder, name)
            status, text, notes = ran("limits", self.wishes, table, "--verify", folder)
            self.assertEqual((status, text, notes),
                             (2, "", f"matbench limits: {folder} is no proof of limits: {told}\n"))


class RealNames(InFolder):
    """Names and numbers of a roster."""

    def setUp(self):
        super().setUp()
        self.proof = self.folder / "roster's proof"
        self.notes = ran("roster", self.file("w.csv", SHIFTS), self.file("l.csv", ROOM), "--proof",
                         self.proof)[2]
        self.text, self.hours = self.proof / "roster0.txt", self.file("h.csv", HOURS)

    def test_the_answer_has_the_names_and_numbers_of_the_roster(self):
        status, text, notes = ran("limits", self.text, self.hours)
        self.assertEqual((status, notes), (0, ""))
        self.assertEqual(text.splitlines()[:6], [
            "plan: 3 elements, gain 29.25 with 1 of what is needed",
            "best: no plan that keeps all limits gains more.", "",
            "  Jörg.Mo Früh", "  Zoë.Mo Nacht", "  Ann.Mo Früh"])
        found = json.loads(ran("limits", self.text, self.hours, "--format", "json")[1])
        self.assertEqual((found["gain"], found["real"]), ("1:2925", {
            "names": ["Jörg.Mo Früh", "Zoë.Mo Nacht", "Ann.Mo Früh"], "gain": 29.25, "needed": 1}))
        lines = io.StringIO(ran("limits", self.text, self.hours, "--format", "csv")[1])
        self.assertEqual([(row["name"], row["gain"]) for row in csv.DictReader(lines)], [
            ("Jörg.Mo Früh", "10.25"), ("Zoë.Mo Nacht", "12.5"), ("Ann.Mo Früh", "6.5")])

    def test_a_name_is_of_both_elements_of_a_wish(self):
        table = self.file("a.csv", "limit,most,element\nZoë,0,Zoë.Mo Früh\nJörg,0,Jorg.Mo_Fr*\n")
        text = ran("limits", self.text, table)[1]
        self.assertIn("gain 19 with 1 of what is needed", text)  # Zoë at night, Ann early

    def test_a_description_with_other_names_says_where_it_has_a_table(self):
        tables = [self.folder / "w.csv", self.folder / "l.csv"]
        self.assertIn("--proof FOLDER writes it with elements.csv beside it",
                      ran("roster", "--description", *tables)[2])
        for path in tables:
            path.write_text(path.read_text().replace("ö", "o").replace("ë", "e").replace("ü", "u")
                            .replace(",25", "").replace(",5", ""))
        self.assertEqual(ran("roster", "--description", *tables)[2], "")

    def test_plans_have_the_names_and_numbers_of_the_roster(self):
        text = ran("plan", self.text)[1]
        self.assertEqual([line.split("  ")[0] for line in text.splitlines()], [
            "BEST: 3 elements, gain 30.75 with 1 of what is needed.", "", "element", "-" * 12,
            "Jörg.Mo Früh", "Zoë.Mo Früh", "Zoë.Mo Nacht"])
        found = json.loads(ran("plan", self.text, "--must", "Jörg.Mo Nacht", "--must-not",
                               "Ann.Mo Früh", "--format", "json")[1])
        self.assertEqual(found["real"], {
            "names": ["Jörg.Mo Früh", "Jörg.Mo Nacht", "Zoë.Mo Früh"], "gain": 27.25, "needed": 1})
        self.assertEqual(found["elements"],
                         ["Jorg.Mo_Fruh", "Jorg.Mo_Nacht", "Zoe.Mo_Fruh.more"])
        self.assertIn("SECOND: 3 elements, gain 29.25 with 1 of what is needed, 1.5 less than the best"
                      ".\n  without: Zoë.Mo Früh\n  with:    Ann.Mo Früh\n",
                      ran("second-best", self.text)[1])

    def test_limits_and_changes_have_the_names_and_numbers_of_the_roster(self):
        text = ran("one-more", self.text, "--format", "csv")[1]
        self.assertEqual([(row["limit"], row["one more gains"], row["new"])
                          for row in csv.DictReader(io.StringIO(text))],
                         [("Mo Früh", "6.5", "Ann.Mo Früh"), ("Mo Nacht", "9", "Jörg.Mo Nacht"),
                          ("Jörg", "0", ""), ("Zoë", "0", "")])
        last = self.file("last.txt", "Jörg.Mo Nacht; Zoë.Mo Früh\nAnn.Mo_Fruh\n")
        text = ran("few-changes", self.text, last, "--format", "csv")[1]
        rows = list(csv.DictReader(io.StringIO(text)))
        self.assertEqual([(row["changes"], row["gain"].split()[0], row["to"], row["dropped"])
                          for row in rows],
                         [("4", "30.75", "1.75", "Ann.Mo Früh; Jörg.Mo Nacht"),
                          ("2", "27.25", "1.875", "Ann.Mo Früh"), ("0", "23.5", "", "")])

    def test_a_pattern_is_of_both_elements_of_a_wish(self):
        table = self.file("a.csv", "limit,most,element\nMorning,0,*Fruh\n")
        text = ran("limits", self.text, table)[1]
        self.assertEqual(text.splitlines()[3:5], ["  Zoë.Mo Nacht", ""])

    def test_a_proof_is_told_in_the_numbers_of_the_roster(self):
        ran("limits", self.text, self.hours, "--proof", self.folder / "p")
        text = ran("limits", self.text, self.hours, "--verify", self.folder / "p")[1]
        self.assertEqual(text.splitlines()[:2], [
            "right: no plan that keeps all limits gains more than 29.25 with 1 of what is needed.",
            "The plan keeps all limits, gains 29.25 with 1 of what is needed, and so is best."])

    def test_a_table_that_does_not_fit_is_not_taken(self):
        path = self.proof / "elements.csv"
        right = path.read_text()
        for old, new in (("Ann.Mo_Fruh,", "Eve.Mo_Fruh,"), ("Ann.Mo Früh,", ","),
                         ("6.5,1", "6.5,x"), ("6.5,1", "1/2,1"), ("element,", "item,")):
            with self.subTest(new=new):
                path.write_text(right.replace(old, new))
                self.assertIsNone(real_names([self.text], limits.Joined([self.text])))
        path.write_text(right.replace("6.5,1", "6,1"))
        names = real_names([self.text], limits.Joined([self.text]))
        self.assertEqual((names.names[0], names.unit), ("Jörg.Mo Früh", None))
        self.assertIn("gain 1:2925\n", ran("limits", self.text, self.hours)[1].replace(
            "\nbest", "\n"))

    def test_a_gap_is_told_in_the_numbers_of_the_roster(self):
        text = WISHES.replace("5 4 3 3", "1230 400 300 300")
        path = self.file("x.txt", text)
        self.file("elements.csv", "element,name,gain,needed\nAda.Mon,Ada,12.3,0\nBen.Mon,Bea,4,0\n"
                                  "Ben.Tue,Bea 2,3,0\nBen.Tue.more,Bea 2,3,0\n")
        joined = limits.Joined([path])
        outcome = limits.Outcome(joined, [], None, (0,), 1230, 1255, 1000, [])
        self.assertEqual(outcome_text(outcome, real_names([path], joined)).splitlines()[:4], [
            "plan: 1 element, gain 12.3", "bound: no plan that keeps all limits gains more than"
            " 12.55. The gap is 0.25: a better plan may exist, or not.", "", "  Ada"])
        self.assertIn("gains more than 1255. The gap is 25:", outcome_text(outcome))

    def test_a_roster_says_how_its_proof_is_checked(self):
        words = ["matbench", "check", *(f"{self.proof}/roster0.{end}" for end in ("txt", "answer"))]
        self.assertEqual(self.notes,
                         f"matbench roster: this checks the proof: {shlex.join(words)}\n")
        wishes = self.file("w.csv", "person,week,day,kind,shift,gain\n" + "".join(
            f"Ada,{week},{day},{kind},{day} {kind},{gain}\n" for week, day, kind, gain in (
                (1, "Mo", "night", 5), (1, "Tu", "early", 3), (2, "Mo", "night", 4),
                (2, "Tu", "early", 1))))
        room = self.file("l.csv", "name,most,week,kind\nAda,4,1,\nAda,1,,night\nMo night,1,,\n"
                                  "Tu early,1,,\n")
        status, text, notes = ran("roster", wishes, room, "--proof", self.proof)
        self.assertIn("2 of 4 wishes are granted, gain 7.", text)  # 4 + 3, not two nights: 5 + 1
        words = shlex.split(notes.partition("this checks the proof: ")[2])
        self.assertEqual(words[:4], ["python3", "-m", "matbench", "limits"])
        status, text, _ = ran(*words[3:])
        self.assertEqual((status, text.splitlines()[1]),
                         (0, "The plan keeps all limits, gains 7, and so is best."))


if __name__ == "__main__":
    unittest.main()
