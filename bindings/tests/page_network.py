"""Tests of the page's sheets for networks and for frames."""
import json

from page_sheet import SheetPage

#: A square with a road across. The cheapest tree has the three cheapest links that close no ring.
LINKS = "link,from,to,cost\na,P,Q,1\nb,Q,R,2\nc,R,S,3\nd,S,P,4\ne,P,R,5\n"


class Network(SheetPage):
    """The sheet of a network."""

    name = "network"

    def test_the_cheapest_tree_and_clicks(self):
        self.write_cells(LINKS)
        self.plan()
        self.assertTrue(self.said("told").startswith(
            "3 of 5 links are built, cost 6. They join all 4 places."))
        self.assertEqual([row[-2:] for row in self.cells("table")[1:]], [
            ["built", ""], ["built", ""], ["built", ""],
            ["not built", "it closes a ring with c, b, a"],
            ["not built", "it closes a ring with a, b"]])
        self.of("#network-table [data-place='3']", "it.click()")
        self.wait_until_said("Done")
        self.assertIn("cost 7.", self.said("told"))
        self.assertIn("in now: d. out now: c", self.said("changes"))

    def test_limits_of_owners(self):
        self.show_example()
        self.plan()
        self.assertIn("4 of 7 links are built, gain 29.", self.said("told"))
        self.hold_to_windows()

    def test_failures_and_networks_that_share_no_link(self):
        self.show_example(1)
        self.plan()
        self.assertTrue(self.said("told").startswith(
            "Any 1 failing link leaves all places joined; these 2 together cut places off"))
        self.choose("task", "trees")
        self.plan()
        self.assertTrue(self.said("told").startswith("2 networks that share no link"))
        self.choose("count", "3")
        self.plan()
        self.assertTrue(self.said("told").startswith("There are no 3 such networks."))

    def test_refusals_are_marked(self):
        self.write_cells("link,from,to,cost\na,P,Q,1\na,Q,,x\n")
        found = self.of_all("#network td.faulty .why", "it.textContent")
        self.assertEqual(found, ["the link a stands twice, first in line 2", "there is no to",
                                 "cost is a whole number from 0, and not 'x'"])

    def test_each_fault_is_told(self):
        many = "".join(f"L{it},P{it},Q,1\n" for it in range(501))
        self.hold_to_faults(
            ("link,from,to,cost,gain\na,P,Q,1,1\n", "There is a column cost and a column gain"),
            ("link,from,to,cost\na,P,Q,\n", "there is no cost"),
            ("link,from,to,must,never\na,P,Q,yes,yes\n",
             "the link must be built, and must not"),
            ("link,from,to,owner\na,P,Q,\n", "there is no owner"),
            ("link,from,to,gain\na,P,Q,9999999999999\n", "measure all of them in a larger unit"),
            (f"link,from,to,cost\n{many}", "There are 501 links, and at most 500"))
        self.write_cells("link,from,to,owner\na,P,Q,Ash\n")
        self.type_into("Ash, at most", "")
        self.assertIn("there is no number for Ash", self.faults())
        self.write_cells(LINKS)
        self.choose("task", "trees")
        self.choose("count", "65")
        self.assertIn("a whole number from 1 to 64", self.faults())

    def test_it_is_kept_and_in_a_link(self):
        self.show_example()
        self.type_into("Owner 0, at most", "0")
        link = self.load_again_as_kept()
        self.plan()
        told = self.said("told")
        self.assertNotIn("gain 29.", told)
        self.open_in_new_tab(link)
        self.plan()
        self.assertEqual(self.said("told"), told)

    def test_choices_are_kept_and_in_a_link(self):
        self.show_example(1)
        self.choose("task", "trees")
        link = self.load_again_as_kept()
        self.assertEqual(self.said("task"), "trees")
        self.open_in_new_tab(link)
        self.plan()
        self.assertTrue(self.said("told").startswith("2 networks that share no link"))

    def test_failures_can_be_stopped(self):
        links = "".join(f"L{one}.{other},T{one},T{other}\n"
                        for one in range(22) for other in range(one))
        self.write_cells(f"link,from,to\n{links}")
        self.choose("task", "failures")
        self.browser.run(f"for (const it of ['plan', 'stop'])"
                         f" document.querySelector('{self.part('')}' + it).click()")
        self.wait_for(self.part("stop"), "it.hidden")
        self.assertEqual(self.said("state"), "Stopped.")
        self.assertFalse(self.of(self.part("result"), "it.checkVisibility()"))

    def test_hostile_cells_run_nothing(self):
        self.hold_to_hostile_cells("link,from,to\n<img src=x onerror=ran=1>,"
                                   "<script>ran=1</script>,__proto__\n")


class Frame(SheetPage):
    """The sheet of a frame."""

    name = "frame"

    def test_a_braced_square(self):
        self.write_cells("bar,from,to\na,P,Q\nb,Q,R\nc,R,S\nd,S,P\n")
        self.plan()
        self.assertTrue(self.said("told").startswith("It is not rigid: 1 bar is missing."))
        self.write_cells("bar,from,to\na,P,Q\nb,Q,R\nc,R,S\nd,S,P\ne,P,R\n")
        self.plan()
        self.assertTrue(self.said("told").startswith("It is rigid, in general position."))

    def test_supports_and_examples(self):
        for place in range(3):
            self.show_example(place)
            self.plan()
            self.assertIn("rigid", self.said("told"))
        self.hold_to_windows()

    def test_it_is_kept_and_in_a_link(self):
        self.show_example(2)
        self.plan()
        told = self.said("told")
        link = self.load_again_as_kept()
        self.assertEqual(self.said("space"), "space")
        self.open_in_new_tab(link)
        self.plan()
        self.assertEqual(self.said("told"), told)

    def test_each_fault_is_told(self):
        self.hold_to_faults(
            ("bar,from,to\na,P,\n", "there is no to"),
            ("bar,from,to\na,P,Q\na,Q,R\n", "a stands twice, first in line 2"),
            ("bar,from,to\na,P,P\n", "both ends are P"),
            ("bar,to\na,P\n", "The first line has the columns"),
            ("part,kind,from,to\na,glue,P,Q\n", "the kind is bar or hinge, and not 'glue'"))
        self.write_cells("bar,from,to\na,P,Q\n")
        self.type_into("P, pin or roller", "wheel")
        self.assertIn("a joint has a pin, a roller or nothing", self.faults())

    def test_hostile_cells_and_links_run_nothing(self):
        hostile = "bar,from,to\n<img src=x onerror=ran=1>,<script>ran=1</script>,__proto__\n"
        self.hold_to_hostile_cells(hostile)
        limits = [["<svg onload=ran=1>\0\0most", "<img src=x onerror=ran=1>"]]
        for state in ({"cells": hostile, "limits": limits, "choices": {"space": "<script>"}},
                      {"cells": {"toString": 1}, "limits": 5}, [], None):
            self.open_in_link(json.dumps(state))
            self.assertTrue(self.browser.run("globalThis.ran === undefined"))
        self.browser.forget()
