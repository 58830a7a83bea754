"""Tests of the page's sheet for posts: from offers to who takes which post."""
from page_sheet import SheetPage

#: Offers of which the best plan is easily found by hand: Ada takes the desk and Ben the gate, 5 in
#: all, and with two for the desk both take it, 6.
OFFERS = "applicant,post,gain\nAda,desk,4\nAda,gate,2\nBen,desk,2\nBen,gate,1\n"


class Posts(SheetPage):
    """The sheet of posts."""

    name = "posts"

    def test_offers_become_a_plan(self):
        self.write_cells(OFFERS.replace(",", ";"))
        self.plan()
        self.assertTrue(self.said("told").startswith("2 of 4 offers are taken, gain 5. No plan"))
        self.assertEqual(self.cells("table"), [
            ["", "desk", "gate", "taken"], ["Ada", "4 taken", "2 not taken", "1 of 1"],
            ["Ben", "2 not taken", "1 taken", "1 of 1"], ["taken", "1 of 1", "1 of 1", ""]])
        self.assertEqual(self.cells("details")[1:], [
            ["Ada", "1 of 1", "4", "desk", "gate: gate has 1 of 1 and Ada has 1 of 1"],
            ["Ben", "1 of 1", "1", "gate", "desk: desk has 1 of 1 and Ben has 1 of 1"]])
        self.assertEqual(self.saved("#posts-save", "posts.csv").decode(),
                         "applicant,post,gain,taken\nAda,desk,4,yes\nAda,gate,2,no\n"
                         "Ben,desk,2,no\nBen,gate,1,yes\n")

    def test_limits_and_clicks(self):
        self.write_cells(OFFERS)
        self.type_into("desk, at most", "2")
        self.plan()
        self.assertIn("gain 6.", self.said("told"))
        self.type_into("gate, at least", "1")
        self.plan()
        self.assertIn("gain 5. What is needed is met.", self.said("told"))
        self.of("#posts-table [data-place='0']", "it.click()")
        self.wait_until_said("Done")
        self.of("#posts-table [data-place='0']", "it.click()")
        self.wait_until_said("Done")
        self.assertIn("out now: Ada, desk; Ben, gate", self.said("changes"))
        self.assertEqual(self.of("#posts-table [data-place='0']", "it.title"),
                         "Ada, desk: not taken, since it must not be taken")

    def test_refusals_name_the_columns(self):
        self.write_cells("person,shift,gain\nAda,desk,4\n")
        self.assertIn("The first line has the columns applicant, post, gain",
                      self.said("cells-fault"))
        self.write_cells("applicant,post,gain\nAda,,4\nBen,desk,1\nBen,desk,2\n")
        found = self.of_all("#posts td.faulty .why", "it.textContent")
        self.assertEqual(found, ["the offer has no post",
                                 "this offer of Ben stands twice, first in line 3"])

    def test_the_example_is_that_of_the_documents(self):
        self.show_example()
        self.plan()
        self.assertIn("3 of 9 offers are taken, gain 21.", self.said("told"))
        self.hold_to_windows()

    def test_hostile_cells_run_nothing(self):
        self.hold_to_hostile_cells("applicant,post,gain\n<img src=x onerror=ran=1>,"
                                   "<script>ran=1</script>,5\n=ran(1),__proto__,1\n")
        self.assertIn("gain 6.", self.said("told"))

    def test_it_is_kept_and_in_a_link(self):
        self.write_cells(OFFERS)
        self.type_into("desk, at most", "2")
        link = self.load_again_as_kept()
        self.plan()
        self.assertIn("gain 6.", self.said("told"))
        self.open_in_new_tab(link)
        self.plan()
        self.assertIn("gain 6.", self.said("told"))
