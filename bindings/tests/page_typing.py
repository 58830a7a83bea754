"""Tests of what the page solves while a user types."""
import json
import time

from opened_page import PEOPLE, TOP, Page, fragment_of, long_problem

import matbench  # opened_page has its folder searched
import pages


class Typing(Page):
    """What is solved while a user types, and what is not."""

    #: Longer than the pause after which the page solves, in seconds.
    PAUSE = 1.5
    #: What the page shows at one moment: both texts, and whether there are words and a picture.
    SHOWN = """[...["description", "answer"].map((it) => document.getElementById(it).value),
        ...["words", "picture"].map((it) => document.getElementById(it).checkVisibility())]"""

    def setUp(self):
        super().setUp()
        self.solve_while_typing(True)

    def solved(self, text):
        """Waits until an answer stands below this description, and holds it to be its own."""
        self.wait_for("#state", "it.textContent.endsWith('s.')")
        self.assertRegex(pages.state(self.browser), r"^Done in [\d.]+ m?s\.$")
        self.assertEqual(self.browser.run(self.SHOWN),
                         [text, matbench.intersect(text).certificate, True, True])

    def begins_nothing(self):
        """Waits longer than the pause, and holds that nothing runs and no answer is shown."""
        time.sleep(self.PAUSE)
        self.assertTrue(self.of("#stop", "it.disabled"))
        self.assertTrue(self.is_shown("nothing"))

    def test_what_is_typed_is_solved_after_a_pause(self):
        for weight in (3, 30):
            text = PEOPLE.replace("weights 8", f"weights {weight}")
            self.write("#description", text)
            self.solved(text)
        self.picture("typed")

    def test_an_answer_goes_with_its_text(self):
        self.write("#description", PEOPLE)
        self.solved(PEOPLE)
        self.write("#description", PEOPLE.replace("end", ""))
        self.assertEqual(self.browser.run(self.SHOWN)[1:], ["", False, False])
        self.wait_for("#description-fault", "it.textContent")
        self.assertEqual(self.browser.run(self.SHOWN)[1:], ["", False, False])

    def test_what_is_shown_is_of_the_text_at_every_moment(self):
        wanted = {}
        for place, pause in enumerate((0, 0.1, 0.7, 0.62, 0.64, 0.66, 0.2, 0.61, 0.8, 0)):
            text = PEOPLE.replace("weights 8", f"weights {place}")
            wanted[text] = matbench.intersect(text).certificate
            self.write("#description", text)
            end = time.monotonic() + pause
            while True:
                written, answer, *shown = self.browser.run(self.SHOWN)
                self.assertEqual(written, text)
                self.assertIn(answer, ("", wanted[text]))
                self.assertTrue(answer or not any(shown))
                if time.monotonic() > end:
                    break
        self.solved(text)

    def test_typing_goes_on_during_a_run(self):
        self.write("#description", long_problem())
        self.wait_for("#time", "it.textContent")
        self.of("#description", "it.focus()")
        self.browser.run("document.execCommand('selectAll')")
        self.browser.run(f"document.execCommand('insertText', false, {json.dumps(PEOPLE)})")
        self.solved(PEOPLE)
        self.assertTrue(self.is_at("#description"))

    def test_stop_holds_until_the_next_change(self):
        self.write("#description", long_problem())
        self.wait_for("#time", "it.textContent")
        pages.click_and_wait(self.browser, "#stop")
        self.begins_nothing()
        self.assertRegex(pages.state(self.browser), r"^Stopped after [\d.]+ m?s\.$")
        self.write("#description", PEOPLE)
        self.solved(PEOPLE)

    def test_escape_ends_the_pause(self):
        self.of("#description", "it.focus()")
        self.write("#description", PEOPLE)
        self.browser.press("Escape")
        self.begins_nothing()

    def test_a_written_certificate_is_not_replaced_unasked(self):
        wrong = (TOP / "examples" / "people_wrong.answer").read_text()
        self.write("#answer", wrong)
        self.choose_example("posts.txt")
        self.begins_nothing()
        self.assertEqual(self.text("#answer"), wrong)
        self.assertTrue(pages.state(self.browser).startswith("Solve puts the answer in the place"))
        self.solve()
        self.assertTrue(self.text("#answer").startswith("certificate 1\nanswer assign "))

    def test_a_fault_is_marked_and_the_box_is_not_scrolled(self):
        edges = "".join(f"edge {e} {e}\n" for e in range(400))
        self.write("#description", f"matroids 1\ngraph 500 400\n{edges}edge\nend\n")
        self.wait_for("#description-fault", "it.textContent")
        self.assertTrue(self.text("#description-fault").startswith("Line 403, "))
        self.assertEqual(self.of("#description", "it.scrollTop"), 0)
        self.solve()
        self.assertGreater(self.of("#description", "it.scrollTop"), 1000)

    def test_another_command_or_number_is_another_question(self):
        self.choose_example("frame.txt")
        self.wait_for("#state", "it.textContent.startsWith('Done')")
        self.assertTrue(self.text("#answer").startswith("certificate 1\nanswer trees 20 6"))
        self.write("#count", "65")
        self.assertEqual(self.text("#answer"), "")
        self.begins_nothing()
        self.write("#count", "2")
        self.wait_for("#answer", "it.value.includes('trees 20 2')")
        pages.choose(self.browser, "#command", "show")
        self.wait_for("#answer", "it.value.startsWith('matroids')")

    def test_a_link_and_what_is_kept_wait_for_the_user(self):
        self.begins_nothing()
        self.open(self.address + fragment_of("intersect", PEOPLE + "\n"))
        self.begins_nothing()
        self.load_again()
        self.begins_nothing()
        self.write("#description", PEOPLE)
        self.solved(PEOPLE)
        self.load_again()
        self.begins_nothing()
        self.assertEqual(self.text("#answer"), matbench.intersect(PEOPLE).certificate)

    def test_it_can_be_turned_off_and_stays_so(self):
        self.of("#live", "it.click()")
        self.write("#description", PEOPLE + "\n")
        self.begins_nothing()
        self.load_again()
        self.assertFalse(self.of("#live", "it.checked"))
        self.write("#description", PEOPLE)
        self.begins_nothing()
        self.of("#live", "it.click()")
        self.solved(PEOPLE)
