"""Tests of the page's sheet for a roster: from pasted cells to a plan."""
import pathlib
import tempfile

from opened_page import TOP
from page_sheet import SheetPage

import matbench  # opened_page has its folder searched

#: Wishes whose plans are easily found by hand: with one shift each, Ada has Mon early and Ben Tue
#: early, which gains 9.
WISHES = ("person,day,shift,gain\nAda,Mon,Mon early,5\nBen,Mon,Mon late,2\nAda,Tue,Tue early,3\n"
          "Ben,Tue,Tue early,4\n")
#: Names that are markup, or what a spreadsheet would take for a formula.
HOSTILE = ("person,shift,gain\n<img src=x onerror=ran=1>,<script>ran=1</script>,5\n"
           "\"\"\"'><svg onload=ran=1>\",=ran(1),2\nconstructor,__proto__,1\n")


def many_wishes(people, shifts):
    """A sheet in which each of so many people wishes each of so many shifts."""
    wishes = [f"P{it % people},S{it // people},{it * 7 % 17}\n" for it in range(people * shifts)]
    return "".join(["person,shift,gain\n", *wishes])


class Roster(SheetPage):
    """The sheet of a roster."""

    name = "roster"

    def test_the_page_begins_with_it(self):
        self.browser.run("sessionStorage.clear()")
        self.open(self.browser.run("location.href"))
        self.assertTrue(self.of("#roster", "it.checkVisibility()"))
        self.assertFalse(self.of("#text", "it.checkVisibility()"))
        self.plan()
        self.assertEqual(self.said("state"), "There are no cells yet.")

    def test_pasted_cells_become_a_roster(self):
        self.write_cells(WISHES.replace(",", "\t"))
        self.plan()
        self.assertTrue(self.said("told").startswith(
            "2 of 4 wishes are granted, gain 9. No roster"))
        self.assertEqual(self.cells("table"), [
            ["", "Mon early", "Mon late", "Tue early", "granted"],
            ["Ada", "5 granted", "", "3 refused", "1 of 1"],
            ["Ben", "", "2 refused", "4 granted", "1 of 1"],
            ["granted", "1 of 1", "0 of 1", "1 of 1", ""]])
        self.assertEqual(self.cells("details")[1:], [
            ["Ada", "1 of 1", "5", "Mon early",
             "Tue early: Tue early has 1 of 1 and Ada has 1 of 1"],
            ["Ben", "1 of 1", "4", "Tue early", "Mon late: Ben has 1 of 1"]])
        self.picture("roster")

    def test_the_proof_is_that_of_the_program(self):
        self.write_cells(WISHES)
        self.plan()
        description = self.saved("#roster-proof button:first-child", "roster.txt").decode()
        certificate = self.saved("#roster-proof button:last-child", "roster.answer").decode()
        self.assertIn("elements Ada.Mon_early Ben.Mon_late Ada.Tue_early Ben.Tue_early\n",
                      description)
        self.assertEqual(certificate, matbench.intersect(description).certificate)
        self.assertEqual(self.saved("#roster-save", "roster.csv").decode(),
                         "person,day,shift,gain,granted\nAda,Mon,Mon early,5,yes\n"
                         "Ben,Mon,Mon late,2,no\nAda,Tue,Tue early,3,no\n"
                         "Ben,Tue,Tue early,4,yes\n")
        self.click("show-text")
        self.assertEqual(self.text("#description"), description)
        self.assertTrue(self.of("#description", "it.checkVisibility()"))

    def test_limits_are_a_form(self):
        self.write_cells(WISHES)
        self.type_into("Ada, at most", "2")
        self.plan()
        self.assertIn("gain 10.", self.said("told"))
        self.type_into("Mon late, at least", "1")
        self.assertFalse(self.of("#roster-result", "it.checkVisibility()"))
        self.type_into("Ada, at most", "1")
        self.plan()
        self.assertIn("gain 7. What is needed is met.", self.said("told"))
        self.type_into("Ben, at most", "many")
        self.plan()
        self.assertEqual(self.said("state"), "Something is not understood yet: it is marked.")
        self.assertEqual(self.of_all("td.faulty .why", "it.textContent"),
                         ["most is a whole number from 0, and not 'many'"])

    def test_what_is_not_understood_is_marked_in_its_cell(self):
        self.write_cells("person,shift,gain,must\nAda,early,5,\nBen,,x,perhaps\n")
        found = self.of_all("td.faulty", "[it.querySelector('input').value, "
                            "it.querySelector('.why').textContent]")
        self.assertEqual([value for value, _ in found], ["", "x", "perhaps"])
        self.assertEqual([why for _, why in found][:2],
                         ["the wish has no shift", "gain is a number, and not 'x'"])
        self.assertIn("must is yes or no", found[2][1])
        self.assertIn("3 cells are not understood", self.said("cells-fault"))
        self.picture("roster_faults")
        for label, value in (("shift, line 2", "late"), ("gain, line 2", "4"),
                             ("must, line 2", "ja")):
            self.type_into(label, value)
        self.assertEqual((self.of_all("td.faulty", "1"), self.said("cells-fault")), ([], ""))
        self.assertEqual(self.said("cells"),
                         "person\tshift\tgain\tmust\nAda\tearly\t5\t\nBen\tlate\t4\tja")
        self.plan()
        self.assertIn("gain 9. What is needed is met.", self.said("told"))

    def test_refusals_are_told(self):
        for text, said in (("person,shift\nAda,early\n", "The first line has the columns person"),
                           ("person,,gain\n", "Column 2 has no head"),
                           ("person,shift,gain\n", "No line stands behind the first one"),
                           ("person,shift,gain\nAda,early,1,2\n", "more than the first line"),
                           ('person,shift,gain\n"Ada,early,1\n', "begins with quotes"),
                           ("person,shift,gain\n" + "Ada,early,1\n" * 10_001, "are too much")):
            with self.subTest(said=said):
                self.write_cells(text)
                self.assertIn(said, self.said("cells-fault"))
                self.plan()
                self.assertFalse(self.of("#roster-result", "it.checkVisibility()"))
        lines = "".join(f"P{it},S{it},1\n" for it in range(501))
        self.write_cells("person,shift,gain\n" + lines)
        self.assertIn("200 of 501 lines are shown", self.said("cells-part"))
        self.click("plan")
        self.assertIn("at most 500 elements", self.said("refusal"))

    def test_each_fault_of_cells_is_told(self):
        head = "person,shift,gain\n"
        self.hold_to_faults(
            (head + "Ada,early,1\0\n", "There is a zero byte in it"),
            (head + '"Ada"x,early,1\n', "something stands behind the quotes of a cell"),
            (head + "Ada," + "x" * 131_073 + ",1\n", "a cell has more than 131,072 signs"),
            (head + "Ada,early,1\nAda,early,2\n",
             "this wish of Ada stands twice, first in line 2"),
            (head + "Ada,early,\n", "there is no gain"),
            (head + 'Ada,early,"1,5"\nAda,late,2.5\n', "write them in one way"),
            (head + 'Ada,early,"1,500"\n', "may be thousands or decimals"),
            (head + "Ada,early,9999999999999\n", "measure all gains in a larger unit"),
            ("person,day,shift,gain\nAda,,early,1\n", "the wish has no day"),
            ("person,shift,gain,must,never\nAda,early,1,yes,yes\n",
             "the wish must be granted, and must not"))

    def test_each_fault_of_limits_is_told(self):
        self.write_cells("person,shift,gain,kind\nAda,early,1,night\nBen,early,2,\n")
        for label, value, said in (
                ("Ada, at most", "", "there is no number for Ada"),
                ("early, at least", "2", "at least 2 are more than at most 1"),
                ("early, night, at least", "1", "")):
            self.type_into(label, value)
            self.assertIn(said, self.faults())
            self.type_into(label, "1")
        self.type_into("early, at most", "2")
        self.assertIn("both at once cannot be said", self.faults())

    def test_each_fault_of_a_file_of_limits_is_told(self):
        self.write_cells("person,shift,gain\nAda,early,1\nBen,late,2\n")
        with tempfile.TemporaryDirectory() as folder:
            path = pathlib.Path(folder, "limits.csv")
            for lines, said in (("name\nAda\n", "The first line has the columns name, most"),
                                ("name,most\n,1\n", "the limit has no name"),
                                ("name,most\nAda,1\nAda,2\n", "Ada stands twice"),
                                ("name,most\nAda,x\n", "most is a whole number from 0"),
                                ("name,most\nZoë,1\n", "Of this file nothing is wanted for Zoë")):
                path.write_text(lines)
                self.browser.choose_file(path, "#roster-open-limits")
                self.wait_for("#roster", f"it.textContent.includes({said!r})")
        self.write_cells("person,shift,gain\nAda,Ada,1\n")
        self.assertIn("'Ada' is a name among the people and among the shifts", self.faults())

    def test_limits_that_cross_the_others_are_refused(self):
        self.write_cells("person,day,shift,gain,kind\nAda,Mon,a,1,night\nAda,Mon,b,1,\n"
                   "Ada,Tue,a,1,night\nAda,Tue,b,1,\n")
        self.type_into("Ada, at most", "3")
        self.type_into("Ada, night, at most", "1")
        self.click("plan")
        self.assertIn("1 limits cross the others (Ada, night)", self.said("refusal"))

    def test_a_table_is_typed_by_hand(self):
        for label, value in (("person, line 1", "Ada"), ("shift, line 1", "early"),
                             ("gain, line 1", "2,5")):
            self.type_into(label, value)
        self.click("add-line")
        self.assertTrue(self.of("[aria-label='person, line 2']", "it === document.activeElement"))
        self.plan()
        self.assertIn("1 of 1 wishes are granted, gain 2.5.", self.said("told"))

    def test_files_are_opened_and_dropped(self):
        with tempfile.TemporaryDirectory() as folder:
            path = pathlib.Path(folder, "wishes.csv")
            path.write_text("sep=;\n" + WISHES.replace(",", ";").replace("Ada", "Zoë"), "utf-16")
            self.browser.choose_file(path, "#roster-open-cells")
            self.wait_for("#roster-cells-table", "it.rows.length === 5")
            limits = pathlib.Path(folder, "limits.csv")
            limits.write_text("name,most\nZoë,2\nBen,1\nMon early,1\nMon late,1\nTue early,1\n",
                              "utf-8")
            self.browser.choose_file(limits, "#roster-open-limits")
            self.wait_for("[aria-label='Zoë, at most']", "it.value === '2'")
            self.plan()
            self.assertIn("gain 10.", self.said("told"))
            path.write_bytes(WISHES.encode())
            self.browser.drop(path, "#roster-cells")
            self.wait_for("[aria-label='person, line 1']", "it.value === 'Ada'")
            path.write_bytes(b"PK\x03\x04")
            self.browser.choose_file(path, "#roster-open-cells")
            self.wait_for("#roster-cells-fault", "it.textContent.includes('a workbook')")

    def test_hostile_cells_run_nothing(self):
        self.hold_to_hostile_cells(HOSTILE)
        self.assertIn("3 of 3 wishes are granted, gain 8.", self.said("told"))
        self.assertEqual(self.cells("table")[1][0], "<img src=x onerror=ran=1>")

    def test_it_is_kept_when_the_page_is_loaded_again_and_in_a_link(self):
        self.write_cells(WISHES)
        self.type_into("Ada, at most", "2")
        link = self.load_again_as_kept()
        self.assertTrue(self.of("#roster", "it.checkVisibility()"))
        self.plan()
        self.assertIn("gain 10.", self.said("told"))
        self.open_in_new_tab(link)
        self.plan()
        self.assertIn("gain 10.", self.said("told"))

    def test_what_was_written_comes_back(self):
        self.write_cells(WISHES)
        self.show_example()
        self.assertNotEqual(self.said("cells"), WISHES)
        self.click("cells-back")
        self.assertEqual(self.said("cells"), WISHES)
        self.type_into("gain, line 1", "6")
        self.assertFalse(self.of("#roster-cells-back", "it.checkVisibility()"))

    def test_a_wish_is_granted_or_refused_by_a_click(self):
        self.write_cells(WISHES)
        self.plan()
        late, early = "Ben, Mon late", "Ben, Tue early"
        for gain, said, column in (
                (7, f"in now: {late}. out now: {early}", "must"),
                (9, f"in now: {early}. out now: {late}", "never"),
                (9, "nothing is changed", "")):
            self.of("#roster-table [data-place='1']", "it.click()")
            self.wait_for("#roster-state", "it.textContent.startsWith('Done')")
            self.assertTrue(self.is_at("#roster-table [data-place='1']"))
            self.assertIn(f"gain {gain}.", self.said("told"))
            self.assertIn(said, self.said("changes"))
            self.assertEqual(self.of("#roster-table [data-place='1']", "it.textContent"),
                             "2 granted must" if column == "must" else
                             f"2 refused {column}".rstrip())
            marked = [it for it in ("must", "never")
                      if self.of(f"[aria-label='{it}, line 2']", "it.value") == "yes"]
            self.assertEqual(marked, [column] if column else [])

    def test_one_more_place_is_tried_in_each_limit(self):
        self.write_cells(WISHES)
        self.plan()
        self.click("one-more")
        self.wait_until_said("One more place is tried in each limit.")
        self.assertEqual(self.cells("more")[1:], [["Ben", "1", "2"], ["Ada", "1", "1"]])

    def test_the_second_best_is_found(self):
        self.write_cells(WISHES)
        self.plan()
        self.click("second")
        self.wait_until_said("The second best plan is found.")
        self.assertEqual(self.said("other-told"), "The second best plan: it gains 2 less.")
        self.assertEqual(self.cells("other")[1:],
                         [["out", "Ben, Tue early"], ["in", "Ben, Mon late"]])
        self.write_cells("person,shift,gain\nAda,early,5\nBen,early,5\n")
        self.plan()
        self.click("second")
        self.wait_until_said("The second best plan is found.")
        self.assertEqual(self.said("other-told"), "Another plan is as good.")
        self.write_cells("person,shift,gain,must\nAda,early,5,yes\n")
        self.plan()
        self.click("second")
        self.wait_until_said("The second best plan is found.")
        self.assertEqual(self.said("other-told"), "The second best plan: it meets 1 less of what "
                         "is needed, and gains 5 less.")

    def test_trying_places_can_be_stopped(self):
        self.write_cells(many_wishes(25, 18))
        self.plan()
        self.click("one-more")
        self.wait_for("#roster-state", "it.textContent.startsWith('One more place: 1 of')")
        self.click("stop")
        self.wait_for("#roster-stop", "it.hidden")
        self.assertEqual(self.said("state"), "Stopped.")
        self.assertEqual(self.cells("more"), [])

    def test_a_limit_in_which_one_more_place_would_cross_is_told(self):
        self.write_cells("person,day,shift,gain,kind\nAda,Mon,a,1,night\nAda,Mon,b,1,\n"
                         "Ada,Mon,c,1,\nAda,Tue,a,1,night\nAda,Tue,b,1,\n")
        for limit, number in (("at most", "2"), ("on a day", "2"), ("night, at most", "1")):
            self.type_into(f"Ada, {limit}", number)
        self.plan()
        self.click("one-more")
        self.wait_until_said("One more place")
        self.wait_for(self.part("stop"), "it.hidden")
        self.assertIn("in any limit but Ada: limits would cross there.", self.said("state"))

    def test_the_second_best_can_be_stopped_by_a_key(self):
        self.write_cells(many_wishes(25, 18))
        self.plan()
        self.of(self.part("second"), "it.focus()")
        self.click("second")
        self.wait_until_said("The second best: 1 of")
        self.browser.press("Escape")
        self.wait_for(self.part("stop"), "it.hidden")
        self.assertEqual(self.said("state"), "Stopped.")
        self.assertEqual((self.cells("other"), self.said("other-told")), ([], ""))
        self.assertTrue(self.is_at(self.part("second")))

    def test_shifts_of_a_day_stand_together(self):
        self.write_cells("person,day,shift,gain\nAda,Mon,Mon early,1\nAda,Tue,Tue early,1\n"
                         "Ben,Mon,Mon late,1\n")
        self.plan()
        self.assertEqual(self.cells("table")[0],
                         ["", "Mon early", "Mon late", "Tue early", "granted"])
        self.assertEqual(self.of("[aria-label='Ada, on a day']", "it.value"), "1")

    def test_the_plan_is_copied_and_printed(self):
        self.write_cells(WISHES)
        self.plan()
        self.browser.run("""void Object.defineProperty(navigator, "clipboard", { value: {
            writeText: async (it) => { globalThis.copied = it; } } })""")
        self.click("copy")
        self.wait_until_said("The plan is copied")
        self.assertEqual(self.browser.run("globalThis.copied").splitlines()[:2],
                         ["person\tday\tshift\tgain\tgranted", "Ada\tMon\tMon early\t5\tyes"])
        self.browser.run("void (navigator.clipboard.writeText = () => Promise.reject())")
        self.click("copy")
        self.wait_until_said("This browser does not let the page copy.")
        self.browser.run("void (globalThis.print = () => { globalThis.isPrinted = true; })")
        self.click("print")
        self.assertTrue(self.browser.run("globalThis.isPrinted"))

    def test_the_keyboard_is_enough(self):
        self.write_cells(WISHES)
        self.plan()
        self.of("#roster-tab", "it.focus()")
        order = []
        while len(order) < 99 and order[-1:] != ["roster-show-text"]:
            self.browser.press("Tab")
            order.append(self.browser.run(
                "((it) => it.id || it.ariaLabel || it.title || it.textContent)"
                "(document.activeElement)"))
        self.assertEqual(order[:4], [self.part(it)[1:] for it in
                                     ("cells", "open-cells", "add-line", "link")])
        wanted = ["person, line 1", "gain, line 4", "roster-open-limits", "Ada, at most",
                  "Tue early, at least", "roster-plan", "Ada, Mon early: granted",
                  *(f"roster-{it}" for it in ("save", "copy", "print", "one-more", "second")),
                  "Save the description", "Save the certificate", "roster-show-text"]
        self.assertEqual([it for it in order if it in wanted], wanted)

    def test_five_hundred_wishes_are_planned_within_a_second(self):
        self.write_cells(many_wishes(25, 20))
        taken = []
        while len(taken) < 10 and min(taken, default=1000) >= 1000:
            self.plan()
            taken.append(int(self.said("state").split()[2]))
            self.assertIn("of 500 wishes are granted", self.said("told"))
            self.assertEqual(len(self.cells("table")), 27)
        self.assertLess(min(taken), 1000)

    def test_a_form_with_too_many_names_is_not_made(self):
        self.write_cells(many_wishes(1_200, 1))
        self.assertIn("There are more names than a description has elements",
                      self.said("limits-fault"))
        self.plan()
        self.assertFalse(self.of("#roster-result", "it.checkVisibility()"))
        self.write_cells(WISHES)
        self.assertEqual(self.said("limits-fault"), "")

    def test_of_long_texts_the_front_is_shown(self):
        word = "x" * 120
        wide = "".join(f"P{it},S,1,{word}\n" for it in range(9_000))
        many = "".join(f"P{it},S,1,\n" for it in range(20_000))
        for lines, shown, fault in ((wide, "of 9,001 lines", ""),
                                    (many, "The first 10,000 of 20,001", "are too much")):
            with tempfile.TemporaryDirectory() as folder:
                path = pathlib.Path(folder, "wishes.csv")
                path.write_text(f"person,shift,gain,kind\n{lines}")
                self.browser.choose_file(path, "#roster-open-cells")
                self.wait_for("#roster-text-part", f"it.textContent.includes({shown!r})")
            self.assertIn(fault, self.said("cells-fault"))
            self.assertLessEqual(len(self.said("cells")), 1_000_000)
            self.assertLessEqual(len(self.cells("cells-table")), 201)

    def test_the_example_and_the_tabs(self):
        self.show_example()
        self.assertEqual(self.said("cells"), (TOP / "examples" / "week.csv").read_text())
        self.assertEqual(self.of("[aria-label='Ada, at most']", "it.value"), "2")
        self.plan()
        self.assertIn("No roster within these limits gains more", self.said("told"))
        self.of("#roster-tab", "it.focus()")
        self.browser.press("ArrowLeft")
        self.assertTrue(self.is_at("#text-tab"))
        self.assertTrue(self.of("#text", "it.checkVisibility()"))
        self.browser.press("ArrowRight")
        self.assertTrue(self.is_at("#roster-tab"))

    def test_least_numbers_of_the_example(self):
        self.show_example(1)
        self.assertEqual(self.of("[aria-label='Sunday day, at least']", "it.value"), "1")
        self.plan()
        self.assertIn("What is needed is met.", self.said("told"))

    def test_a_week_of_a_clinic_is_printed_with_nights_limited(self):
        parts = ("early", "late", "night")
        lines = [f"P{it},{day},{day} {part},{(7 * it + 5 * place + 3 * len(part)) % 9 + 1},"
                 f"{'night' * (part == 'night')}\n" for it in range(12)
                 for place, day in enumerate(("Mon", "Tue", "Wed", "Thu", "Fri", "Sat", "Sun"))
                 for part in parts if (it + 2 * place + len(part)) % 3]
        self.write_cells("".join(["person,day,shift,gain,kind\n", *lines]).replace(",", "\t"))
        for person in range(12):
            for limit, number in (("at most", 4), ("on a day", 5), ("night, at most", 1)):
                self.type_into(f"P{person}, {limit}", str(number))
        self.plan()
        self.assertIn("No roster within these limits gains more", self.said("told"))
        head, *rows, _ = self.cells("table")
        self.assertEqual((len(head), len(rows)), (23, 12))
        nights = [place for place, it in enumerate(head) if it.endswith("night")]
        for row in rows:
            self.assertLessEqual(sum("granted" in row[it] for it in nights), 1, row)
        self.hold_to_windows()
        self.browser.print(self.pictures / "roster.pdf")

    def test_it_fits_narrow_and_wide_windows(self):
        self.show_example()
        self.plan()
        self.hold_to_windows()
