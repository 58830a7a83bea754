"""Tests of the page in a browser without a window: what it says, shows and takes. That its answers
are the program's, answers.py tests.
"""
import json
import os
import pathlib
import re
import shutil
import subprocess
import sys
import tempfile
import time
import unittest

from opened_page import HERE, PEOPLE, TOP, Page, fragment_of, long_problem
from page_network import Frame, Network  # noqa: F401 (their tests run here too)
from page_posts import Posts  # noqa: F401 (its tests run here too)
from page_roster import Roster  # noqa: F401 (its tests run here too)
from page_typing import Typing  # noqa: F401 (its tests run here too)

import matbench
import pages

FORMATS = (TOP / "docs" / "FORMATS.md").read_text()
#: What is said of the answer to people.txt.
RESULT = "BEST: 4 elements, weight 25. LARGEST: 5 elements, weight 23."
#: A problem whose names have what markup is made of.
MARKUP = "\n".join(["matroids 2", "rooted 3 3", 'elements a&b <script>x</script> "q"',
                    "vertices A&B <img> &lt;", "root A&B", "arc A&B <img> 3",
                    "arc <img> &lt; 2", "arc A&B &lt; 7", "end", ""])

#: Asks another server for something: the directive of the page's policy that does not let it, or
#: null where none has said so.
SEND = """new Promise((tell) => {
  const told = (event) => tell(event.effectiveDirective);
  document.addEventListener("securitypolicyviolation", told, { once: true });
  const late = () => setTimeout(() => tell(null), 5000);
  fetch("https://example.org/").then(late, late);
})"""


def said_in_formats(note):
    """What docs/FORMATS.md says of a note that has a row of its own."""
    row, = [line for line in FORMATS.splitlines() if line.startswith("|")
            and f"| `{note}` |" in line]
    return row.rstrip("| ").rsplit("| ", 1)[1]


def uniform_pair(n):
    """A problem whose certificate has all weights for each number of elements: for 500 it has more
    than a MB."""
    weights = "weights " + " ".join(str(1000 + e) for e in range(n))
    return "\n".join(["matroids 1", f"pair {n}", weights, f"uniform {n}", f"uniform {n}", "end",
                      ""])


class Use(Page):
    """What a user does."""

    def test_it_begins_with_an_example_and_tells_and_draws_its_answer(self):
        self.assertEqual(self.text("#description"), PEOPLE)
        self.assertTrue(self.is_shown("nothing"))
        self.solve()
        self.assertRegex(pages.state(self.browser), r"^Done in [\d.]+ m?s\.$")
        self.assertTrue(self.is_shown("words", "picture"))
        self.assertIn("BEST: 4 elements, weight 25.", self.text("#words"))
        self.assertEqual(self.of("#picture img", "it.alt"),
                         f"The answer as a picture. {RESULT}")
        self.wait_for_image()
        self.picture("solved")
        self.browser.resize(1900, 1000)
        self.picture("solved_wide")

    def test_told_lines_that_go_on_are_one_paragraph(self):
        self.solve()
        self.assertIn("  Each weight is split into two shares, one for each rule. "
                      "All of it is for rule 1, but of\n    these:",
                      self.of_all(".told p", "it.textContent"))
        self.write("#description", (TOP / "examples" / "supply.txt").read_text())
        self.solve()
        self.assertIn("    e2: 2 = -2 + 4", self.of_all(".told p", "it.textContent"))

    def test_a_right_certificate_is_told_and_drawn(self):
        self.write("#answer", matbench.intersect(PEOPLE).certificate)
        pages.click_and_wait(self.browser, "#check")
        self.assertRegex(pages.state(self.browser),
                         r"^yes: the answer is right\. Judged in [\d.]+ m?s\.$")
        self.assertTrue(self.is_shown("words", "picture"))
        self.wait_for_image()

    def test_what_is_shown_belongs_to_both_texts(self):
        for selector in ("#description", "#answer"):
            self.write("#description", PEOPLE)
            self.solve()
            self.assertTrue(self.is_shown("words", "picture"))
            self.write(selector, self.text(selector).replace("1", "2", 1))
            self.assertTrue(self.is_shown("nothing"))
        pages.click_and_wait(self.browser, "#check")
        self.assertTrue(self.is_shown("nothing"))

    def test_the_texts_of_show_and_convert_stand_alone(self):
        for command in ("show", "convert"):
            pages.choose(self.browser, "#command", command)
            self.solve()
            self.assertRegex(pages.state(self.browser), "^Done in")
            self.assertTrue(self.is_shown("nothing"))
            self.assertEqual(self.text("#answer-label"), "Text")
        pages.choose(self.browser, "#command", "intersect")
        self.solve()
        self.assertEqual(self.text("#answer-label"), "Certificate")

    def test_names_with_markup_are_shown_as_they_are(self):
        self.write("#description", MARKUP)
        pages.choose(self.browser, "#command", "arborescence")
        elements = self.browser.run("document.querySelectorAll('script, img').length")
        self.solve()
        self.wait_for_image()
        self.assertIn("a&b: A&B to <img>, cost 3", self.text("#words"))
        drawn = self.saved("#save-picture", "arborescence.svg").decode()
        self.assertEqual(drawn, matbench.arborescence(MARKUP).picture())
        self.assertEqual(self.browser.run("document.querySelectorAll('script, img').length"),
                         elements)
        pages.choose(self.browser, "#command", "cuts")
        self.solve()
        self.assertIn("a&b <script>x</script>", self.text("#names tbody"))
        self.assertEqual(self.browser.run("document.querySelectorAll('script, img').length"),
                         elements)

    def test_a_picture_runs_no_script_and_loads_nothing(self):
        run = "parent.ran = top.ran = window.ran = 1"
        size = 'xmlns="http://www.w3.org/2000/svg" width="200" height="100"'
        picture = f"""<svg {size} onload="{run}"><script>{run}</script>
            <image href="{self.address}style.css?of=picture" width="9" height="9"/></svg>"""
        self.solve()
        self.browser.run(f"""import("./answer.mjs").then(({{ AnswerParts }}) => {{
            const names = ["nothing", "words", "picture", "names"];
            const parts = names.map((it) => [it, document.getElementById(it)]);
            new AnswerParts(Object.fromEntries(parts)).draw({json.dumps(picture)});
        }})""")
        self.wait_for("#picture img", "it.naturalWidth === 200")
        time.sleep(0.2)
        self.assertTrue(self.browser.run("window.ran === undefined"))
        self.assertIn("/style.css", pages.ASKED)
        self.assertNotIn("/style.css?of=picture", pages.ASKED)

    def test_there_is_an_example_of_each_form_with_its_command(self):
        found = self.of_all("#example optgroup", "it.label")
        self.assertEqual(found, ["pair", "list", "graph", "rooted", "coloured", "table"])
        titles = self.of_all("#example option", "it.textContent")
        self.assertIn("ward_four.txt: who works when", titles)
        self.assertIn("cheap_links.txt: costs instead of gains, and which rung to read", titles)
        self.choose_example("frame.txt")
        self.assertEqual((self.text("#command"), self.text("#count")), ("trees", "6"))
        self.assertTrue(self.of("#count", "it.checkVisibility()"))

    def test_the_commands_are_those_of_the_form(self):
        for line, wanted in (("table 1 1 0", ["assign"]), ("list 0 2", ["union"]),
                             ("list 0 1", ["best", "union", "pack", "cover"]),
                             ("rooted 1 0 0", ["arborescence", "disjoint", "cuts"])):
            self.write("#description", f"matroids 1\n{line}\nend\n")
            offered = self.of_all("#command option", "it.value")
            self.assertEqual(offered, [*wanted, "show", "convert"])

    def test_the_sets_of_cuts_have_names(self):
        self.write("#description", (TOP / "examples" / "towns.txt").read_text())
        pages.choose(self.browser, "#command", "cuts")
        self.solve()
        self.assertTrue(self.is_shown("names"))
        self.assertIn("coast ridge pass", self.text("#names"))
        self.assertRegex(self.text("#names"), "cut[0-9]+.*(Mill|Abbey|Quarry)")

    def test_each_kind_of_limit_is_told(self):
        rows = self.of_all("#limits tbody tr", "it.textContent")
        self.assertIn("uniform CAPit has at most CAP elements", rows)
        self.assertIn("dual, then a matroid", " ".join(rows))
        self.of("details", "it.open = true")
        self.picture("limits")

    def test_a_fault_is_marked_with_its_meaning(self):
        self.write("#description", PEOPLE.replace("class 1 7 8", "class 1 7 9"))
        self.solve()
        self.assertRegex(self.text("#description-fault"),
                         "^Line 8, NumberRange: the number is out of its range: .* Go to line 8$")
        self.assertEqual(self.of("#description", "it.getAttribute('aria-invalid')"), "true")
        top, bottom = self.place_of("#text .mark")
        area, _ = self.place_of("#description")
        line = self.of("#description", "parseFloat(getComputedStyle(it).lineHeight)")
        self.assertAlmostEqual(top, area + 8 + 7 * line, delta=1.5)
        self.assertAlmostEqual(bottom - top, line, delta=0.5)
        self.picture("fault")
        self.of("#description-fault button", "it.click()")
        self.assertTrue(self.is_at("#description"))
        chosen = self.of("#description", "it.value.slice(it.selectionStart, it.selectionEnd)")
        self.assertEqual(chosen, "class 1 7 9")
        self.write("#description", PEOPLE)
        self.assertEqual(self.text("#description-fault"), "")
        self.assertTrue(self.of("#text .mark", "it.hidden"))

    def test_a_fault_far_below_is_scrolled_to(self):
        lines = ["matroids 1", "graph 500 400", *(f"edge {e} {e}" for e in range(400)), "end", ""]
        lines[300] = "edge 1"
        self.write("#description", "\n".join(lines))
        self.solve()
        (top, bottom), (mark_top, mark_bottom) = map(self.place_of, ("#description", "#text .mark"))
        self.assertTrue(top <= mark_top and mark_bottom <= bottom)

    def test_a_fault_of_an_answer_is_marked_there(self):
        self.write("#answer", "certificate 1\nanswer intersect 9 5\nrung 0 00\n")
        pages.click_and_wait(self.browser, "#check")
        self.assertIn("Line 3, NumberSpelling: a number or a weight is needed",
                      self.text("#answer-fault"))
        self.assertEqual(self.text("#description-fault"), "")

    def test_a_wrong_answer_is_told_with_its_reason(self):
        self.write("#answer", (TOP / "examples" / "people_wrong.answer").read_text())
        pages.click_and_wait(self.browser, "#check")
        self.assertEqual(pages.state(self.browser), "The answer is not right.")
        meaning = said_in_formats("no sum K E")
        self.assertEqual(len(re.findall(r"\b[KE]\b", meaning)), 2)
        meaning = re.sub(r"\bE\b", "6", re.sub(r"\bK\b", "4", meaning))
        self.assertEqual(self.text("#answer-fault"), f"no sum 4 6: {meaning}.")
        self.assertTrue(self.is_shown("nothing"))

    def test_a_reason_is_that_of_the_variant_of_the_answer(self):
        path = "matroids 1\ngraph 3 2\nedge 0 1\nedge 1 2\nend\n"
        apart = "matroids 1\nrooted 2 1 0\narc 1 0 1\nend\n"
        for problem, certificate, wanted in (
                (path, "answer trees 2 2\ntree 0 1\ntree 0 1\n",
                 "no overlap E 0: edge E stands in two trees"),
                (path, "answer trees 2 2 none 3 3\nclass 0\nclass 0 1\nclass 2\n",
                 "no overlap V 0: vertex V stands in two classes"),
                (apart, "answer arborescence 1 unreached 2\nvertices 0\n",
                 "no root 0 0: the root is on the line"),
                (apart, "answer disjoint 1 2 none 2\nvertices\n",
                 "no empty 0 0: there are no vertices on the line")):
            self.write("#description", problem)
            self.write("#answer", f"certificate 1\n{certificate}end\n")
            pages.click_and_wait(self.browser, "#check")
            for words in wanted.split(": "):
                self.assertIn(words, FORMATS)
            self.assertEqual(self.text("#answer-fault"), re.sub(r"\b[EV]\b", "0", wanted) + ".")

    def test_a_long_run_is_timed_and_can_be_stopped(self):
        self.begin_long_run()
        self.wait_for("#time", r"/^[1-9][\d.]* m?s$/.test(it.textContent)")
        self.assertEqual(pages.state(self.browser), "Running")
        self.assertTrue(self.is_off("#solve") and self.is_off("#check"))
        self.picture("running")
        pages.click_and_wait(self.browser, "#stop")
        self.assertRegex(pages.state(self.browser), r"^Stopped after [\d.]+ (ms|s)\.$")
        self.write("#description", PEOPLE)
        self.solve()
        self.assertRegex(pages.state(self.browser), "^Done in")

    def test_a_page_that_is_loaded_again_while_it_runs_begins_anew(self):
        self.begin_long_run()
        self.load_again()
        controls = self.of_all("button, select", "[it.id, it.disabled]")
        self.assertEqual([name for name, is_disabled in controls if is_disabled], ["stop"])
        self.assertFalse(self.is_off("#solve") or self.is_off("#check"))
        self.write("#description", PEOPLE)
        self.solve()
        self.assertRegex(pages.state(self.browser), "^Done in")

    def test_telling_is_timed_and_can_be_stopped(self):
        self.write("#description", long_problem(16))
        self.of("#solve", "it.click()")
        self.wait_for("#state", r"/^Done in .* Telling it$/.test(it.textContent)")
        self.wait_for("#time", r"/^[1-9][\d.]* m?s$/.test(it.textContent)")
        pages.click_and_wait(self.browser, "#stop")
        self.assertRegex(pages.state(self.browser),
                         r"^Done in [\d.]+ m?s\. Stopped after [\d.]+ m?s\.$")
        self.assertTrue(self.text("#answer").startswith("certificate 1\nanswer intersect 500 "))
        self.assertTrue(self.is_shown("nothing"))

    def test_files_are_opened(self):
        self.browser.choose_file(TOP / "examples" / "posts.txt", "#open-description")
        self.wait_for("#command", "it.value === 'assign'")
        self.browser.choose_file(TOP / "examples" / "people_wrong.answer", "#open-answer")
        self.wait_for("#answer", "it.value.startsWith('certificate 1')")

    def test_files_are_taken_by_drop(self):
        self.browser.drop(TOP / "examples" / "posts.txt", "#description")
        self.wait_for("#command", "it.value === 'assign'")
        self.browser.drop(TOP / "README.md", "h1")
        self.assertEqual(self.text("#command"), "assign")
        self.browser.drop(TOP / "examples" / "people_wrong.answer", "#answer")
        self.wait_for("#answer", "it.value.startsWith('certificate 1')")
        with tempfile.NamedTemporaryFile(suffix=".txt") as file:
            file.write(b"x" * 4_194_305)
            file.flush()
            self.browser.drop(file.name, "#description")
            said = "has more than 4,194,304 bytes."
            self.wait_for("#description-fault", f"it.textContent.endsWith('{said}')")

    def test_a_link_holds_the_problem_in_its_fragment(self):
        frame = (TOP / "examples" / "frame.txt").read_text()
        self.write("#description", frame)
        self.of("#count", "it.value = 6")
        self.of("#link", "it.click()")
        self.browser.wait("location.hash.length > 1")
        link = self.browser.run("location.href")
        self.assertTrue(link.startswith(f"{self.address}#trees,6,"))
        self.open(link)
        self.wait_for("#command", "it.value === 'trees'")
        self.assertEqual((self.text("#description"), self.text("#count")), (frame, "6"))
        for fragment in ("#what,ever,!", "#trees,1,AAAA"):
            # The page reads a fragment after the event, by streams.
            self.browser.run(f"""new Promise((done) => {{
                addEventListener("hashchange", () => setTimeout(done, 200), {{ once: true }});
                location.hash = "{fragment}";
            }})""")
            self.assertEqual((self.text("#description"), self.text("#count")), (frame, "6"))

    def test_what_is_typed_when_a_link_is_copied_stays(self):
        typed = self.browser.run("""new Promise((done) => {
            const description = document.querySelector("#description");
            document.querySelector("#link").click();
            const type = () => {
                if (!location.hash) return setTimeout(type);
                description.value += "typed";
                description.dispatchEvent(new Event("input"));
                setTimeout(() => done(description.value), 500);
            };
            type();
        })""")
        self.assertEqual(typed, f"{PEOPLE}typed")

    def another_problem_comes(self):
        """Ways in which another problem comes into the page, each with its text, after it has
        come."""
        posts = (TOP / "examples" / "posts.txt").read_text()
        self.choose_example("posts.txt")
        yield "an example", posts
        self.browser.choose_file(TOP / "examples" / "posts.txt", "#open-description")
        self.wait_for("#command", "it.value === 'assign'")
        yield "a file", posts
        self.browser.run(f"location.hash = {json.dumps(fragment_of('assign', posts))}")
        self.wait_for("#command", "it.value === 'assign'")
        yield "a link", posts

    def test_what_was_written_is_brought_back(self):
        written = "matroids 1\nlist 1 1\nweights 5\nuniform 1\nend\n"
        ways = self.another_problem_comes()
        for _ in range(3):
            self.write("#description", written)
            way, text = next(ways)
            self.assertEqual(self.text("#description"), text, way)
            self.of("#description-back", "it.click()")
            self.assertEqual((self.text("#description"), self.text("#command")), (written, "best"),
                             way)
            self.assertTrue(self.is_at("#description"))
            self.assertFalse(self.of("#description-back", "it.checkVisibility()"), way)
        self.choose_example("posts.txt")
        self.choose_example("crews.txt")
        self.of("#description-back", "it.click()")
        self.assertEqual(self.text("#description"), written)

    def test_an_example_that_was_not_changed_is_not_brought_back(self):
        self.choose_example("posts.txt")
        self.choose_example("crews.txt")
        self.assertFalse(self.of("#description-back", "it.checkVisibility()"))

    def test_undo_puts_no_two_descriptions_together(self):
        self.browser.run("""(() => {
            document.querySelector("#description").select();
            for (const text of ["a", "b", "matroids 1\\nlist"]) {
                document.execCommand("insertText", false, text);
            }
        })()""")
        self.choose_example("posts.txt")
        self.of("#description", "(it.focus(), document.execCommand('undo'))")
        self.assertEqual(self.text("#description"), (TOP / "examples" / "posts.txt").read_text())

    def test_another_problem_ends_a_run(self):
        ways = self.another_problem_comes()
        for _ in range(3):
            self.begin_long_run()
            way, text = next(ways)
            self.wait_for("#stop", "it.disabled")
            self.assertEqual(pages.state(self.browser),
                             "Stopped, since the text is another one now.", way)
            self.assertEqual((self.text("#description"), self.text("#answer")), (text, ""), way)
            self.assertTrue(self.is_shown("nothing"), way)

    def test_another_problem_leaves_no_answer_of_the_one_before(self):
        ways = self.another_problem_comes()
        for _ in range(3):
            self.write("#description", PEOPLE)
            self.solve()
            self.assertTrue(self.text("#answer").startswith("certificate 1"))
            way, _ = next(ways)
            self.assertEqual((self.text("#answer"), pages.state(self.browser)), ("", ""), way)
            self.assertTrue(self.is_shown("nothing"), way)

    def test_a_certificate_that_was_written_stays(self):
        wrong = (TOP / "examples" / "people_wrong.answer").read_text()
        self.write("#answer", wrong)
        self.choose_example("posts.txt")
        self.assertEqual(self.text("#answer"), wrong)
        self.solve()
        self.assertRegex(pages.state(self.browser), "^Done in")
        self.of("#answer-back", "it.click()")
        self.assertEqual(self.text("#answer"), wrong)

    def test_a_text_is_kept_when_the_page_is_loaded_again(self):
        frame = (TOP / "examples" / "frame.txt").read_text().replace("end\n", "")
        self.write("#description", frame)
        pages.choose(self.browser, "#command", "trees")
        self.of("#count", "it.value = 7")
        self.write("#answer", "certificate 1\n")
        self.load_again()
        found = [self.text(f"#{it}") for it in ("description", "command", "count", "answer")]
        self.assertEqual(found, [frame, "trees", "7", "certificate 1\n"])

    def test_what_is_kept_gives_way_to_another_link(self):
        posts = (TOP / "examples" / "posts.txt").read_text()
        self.open(self.address + fragment_of("assign", posts))
        self.wait_for("#command", "it.value === 'assign'")
        self.write("#description", posts + "typed")
        self.load_again()
        self.assertEqual(self.text("#description"), posts + "typed")
        self.open(self.address + fragment_of("intersect", PEOPLE))
        self.wait_for("#command", "it.value === 'intersect'")
        self.assertEqual(self.text("#description"), PEOPLE)

    def test_of_a_long_text_the_front_is_shown(self):
        text = "\n" * 2**20
        fragment = fragment_of("intersect", text)
        self.assertLess(len(fragment), 1500)
        self.open(self.address + fragment)
        self.wait_for("#description-part", "it.textContent")
        told = self.text("#description-part")
        self.assertTrue(told.startswith("The first 10,000 of 1,048,576 lines are shown"))
        self.assertEqual(self.text("#description"), "\n" * 10_000)
        self.assertEqual(self.saved("#save-description", "description.txt").decode(), text)
        self.picture("long")
        self.of("#description-part button", "it.click()")
        self.assertEqual((self.text("#description"), self.text("#description-part")), ("", ""))
        self.write("#description", PEOPLE)
        self.solve()
        self.assertRegex(pages.state(self.browser), "^Done in")

    def test_of_a_long_line_the_front_is_shown(self):
        with tempfile.NamedTemporaryFile("w", suffix=".txt") as file:
            file.write("x" * 1_000_001)
            file.flush()
            self.browser.choose_file(file.name, "#open-description")
            self.wait_for("#description-part", "it.textContent")
        told = self.text("#description-part")
        self.assertTrue(told.startswith("The first 1,000,000 of 1,000,001 characters are shown"))
        self.assertEqual(self.text("#description"), "x" * 1_000_000)

    def test_a_long_text_is_pasted(self):
        text = "matroids 1\n" * 20_000
        self.browser.run(f"""(() => {{
            const clipboardData = new DataTransfer();
            clipboardData.setData("text/plain", {json.dumps(text)});
            const description = document.querySelector("#description");
            description.setSelectionRange(0, 0);
            const event = new Event("paste", {{ cancelable: true }});
            description.dispatchEvent(Object.assign(event, {{ clipboardData }}));
        }})()""")
        self.assertEqual(self.text("#description"), text[:110_000])
        self.assertEqual(self.saved("#save-description", "description.txt").decode(), text + PEOPLE)

    def test_a_long_certificate_is_checked_and_saved_whole(self):
        problem = uniform_pair(500)
        certificate = matbench.intersect(problem).certificate
        self.assertGreater(len(certificate), 1_000_000)
        self.write("#description", problem)
        self.solve()
        self.assertRegex(pages.state(self.browser), "^Done in")
        self.assertLessEqual(len(self.text("#answer")), 200_000)
        self.assertTrue(certificate.startswith(self.text("#answer")))
        self.assertEqual(self.saved("#save-answer", "intersect.answer").decode(), certificate)
        pages.click_and_wait(self.browser, "#check")
        self.assertTrue(pages.state(self.browser).startswith("yes: the answer is right."))

    def test_a_fault_that_is_not_shown_is_told(self):
        n, shown = 500, 10_000
        head = ["matroids 1", f"list {n} {shown}", "weights" + " 1" * n]
        text = "\n".join([*head, *["uniform 1"] * (2 * shown), "end", ""])
        with tempfile.NamedTemporaryFile("w", suffix=".txt") as file:
            file.write(text)
            file.flush()
            self.browser.choose_file(file.name, "#open-description")
            self.wait_for("#description-part", "it.textContent")
        self.solve()
        fault = self.text("#description-fault")
        self.assertRegex(fault, "^Line [0-9]+, ")
        line = int(re.search("[0-9]+", fault)[0])
        self.assertEqual("Go to line" in fault, line <= shown)

    def test_an_answer_and_its_picture_are_saved_as_they_are(self):
        self.solve()
        self.assertEqual(self.saved("#save-answer", "intersect.answer").decode(),
                         self.text("#answer"))
        self.assertEqual(self.saved("#save-picture", "intersect.svg").decode(),
                         matbench.intersect(PEOPLE).picture())

    def test_the_keyboard_is_enough(self):
        self.of("#description", "it.focus()")
        self.browser.press("Enter", control=True)
        self.wait_for("#state", r"/^Done in [\d.]+ m?s\.$/.test(it.textContent)")
        self.of("#example", "it.focus()")
        order = []
        for _ in range(13):
            self.browser.press("Tab")
            order.append(self.browser.run(
                "((it) => it.id || it.parentElement.id)(document.activeElement)"))
        self.assertEqual(order, ["command", "description", "solve", "live", "open-description",
                                 "save-description", "link", "picture", "save-picture",
                                 "answer", "check", "open-answer", "save-answer"])
        self.begin_long_run()
        self.browser.press("Escape")
        self.wait_for("#state", "it.textContent.startsWith('Stopped')")

    def use_focused(self, selector):
        """Clicks a button that has the focus, as the keyboard does. A key presses no button in a
        Firefox without a window."""
        self.of(selector, "it.focus()")
        self.browser.run("document.activeElement.click()")

    def test_the_keyboard_keeps_its_place(self):
        for button in ("#solve", "#check"):
            self.use_focused(button)
            self.wait_for("#stop", "it.disabled")
            self.assertTrue(self.is_shown("words", "picture"))
            self.assertTrue(self.is_at(button))
        self.write("#description", long_problem())
        self.use_focused("#solve")
        self.wait_for("#time", "it.textContent")
        self.assertTrue(self.is_at("#solve"))
        self.use_focused("#solve")
        self.assertEqual(pages.state(self.browser), "Running")
        self.use_focused("#stop")
        self.wait_for("#stop", "it.disabled")
        self.assertTrue(self.is_at("#solve"))

    def test_it_says_which_version_it_is(self):
        version = matbench.call(["--version"], {}).output.decode().strip()
        self.assertRegex(version, r"^matbench [0-9]+\.[0-9]+\.[0-9]+$")
        self.assertIn(f"{version}, made of the proved program.", self.text("footer"))

    def test_everything_that_is_used_has_a_name_and_a_role(self):
        self.solve()
        for role, name in (("combobox", "Example"), ("combobox", "Command"),
                           ("textbox", "Description"), ("textbox", "Certificate"),
                           ("button", "Solve"), ("checkbox", "Solve while I type"),
                           ("button", "Check"), ("button", "Copy a link"),
                           ("button", "Save the picture"),
                           ("heading", "matbench"), ("heading", "Description"),
                           ("heading", "In words"), ("heading", "Picture"),
                           ("heading", "Certificate"),
                           ("image", f"The answer as a picture. {RESULT}")):
            self.assertEqual(self.browser.count_named(role, name), 1, (role, name))
        for role in ("combobox", "textbox", "button", "spinbutton", "link"):
            self.assertEqual(self.browser.count_named(role, ""), 0, role)
        self.assertEqual(self.browser.count_named("status", ""), 1)

    def test_it_has_a_dark_mode(self):
        ground = "getComputedStyle(document.body).backgroundColor"
        self.browser.prefer("light")
        self.assertEqual(self.browser.run(ground), "rgb(255, 255, 255)")
        self.browser.prefer("dark")
        self.assertEqual(self.browser.run(ground), "rgb(23, 24, 26)")
        self.solve()
        self.wait_for_image()
        ground_of_picture = self.of("#picture .picture", "getComputedStyle(it).backgroundColor")
        self.assertEqual(ground_of_picture, "rgb(255, 255, 255)")
        self.picture("solved_dark")
        self.write("#description", PEOPLE.replace("class 1 7 8", "class 1 7 9"))
        self.solve()
        self.picture("dark")
        self.browser.prefer("light")

    def test_it_fits_a_phone(self):
        self.browser.resize(360, 740, 2)
        for name in ("week", "owners"):
            self.write("#description", (TOP / "examples" / f"{name}.txt").read_text())
            self.solve()
            self.wait_for_image()
            self.assertEqual(*self.of("html", "[it.scrollWidth, it.clientWidth]"))
            narrow, natural = self.of("#picture img", "[it.width, it.naturalWidth]")
            self.assertGreaterEqual(narrow, 2 / 3 * natural - 1)
            self.picture(f"phone_{name}")

    def test_nothing_is_sent(self):
        self.solve()
        loaded = self.browser.run("performance.getEntriesByType('resource').map((it) => it.name)")
        self.assertEqual([it for it in loaded if not it.startswith(self.address)], [])
        for address in (self.address, pages.ONE_FILE):
            self.open(address)
            policy = self.of("meta[http-equiv]", "it.content")
            self.assertIn("default-src 'none'", policy)
            self.assertEqual(self.browser.run(SEND), "connect-src", address)
            self.browser.forget()


class BadUse(Page):
    """What bad use gets."""

    def run_in_page(self, words, limits, files=None):
        """How a run within these limits ends, or what it fails with."""
        given = f"{json.dumps(words)}, {json.dumps(files or {})}, {json.dumps(limits)}"
        return self.browser.run(f"""import("./run.mjs").then(({{ Run }}) => new Run({given}).ended)
            .catch((it) => it.message)""")

    def test_a_text_that_is_too_long_is_refused(self):
        self.write("#description", "x" * 4_194_305)
        self.solve()
        self.assertEqual(pages.state(self.browser), "Refused: too long.")
        self.assertTrue(self.text("#description-fault").startswith("The text is too long"))

    def test_no_memory_is_told(self):
        weights = " ".join(str(weight) for weight in range(500))
        free = f"matroids 1\npair 500\nweights {weights}\nuniform 500\nuniform 500\nend\n"
        ended = self.run_in_page(["intersect", "f"], {"memory": 46_000_000, "room": 24_000_000},
                                 {"f": free})
        self.assertEqual((ended["status"], ended["note"], ended["output"]),
                         (7, "refused: memory", ""))
        sample = ["sample", "pair", "500", "1"]
        self.assertEqual(self.run_in_page(sample, {"memory": 20_000_000}), "memory")
        self.assertEqual(self.run_in_page(sample, {})["status"], 0)

    def test_two_calls_at_once_are_independent(self):
        script = """(async () => {
          const { Run } = await import("./run.mjs");
          const words = [...Array(8).keys()].map((it) => ["sample", "pair", "60", String(it + 1)]);
          const alone = [];
          for (const it of words) alone.push((await new Run(it, {}).ended).output);
          const at_once = await Promise.all(words.map((it) => new Run(it, {}).ended));
          const areSame = at_once.every((it, place) => it.output === alone[place]);
          return areSame && new Set(alone).size === 8;
        })()"""
        self.assertTrue(self.browser.run(script))

    def test_a_buffer_that_is_too_small_is_a_write_fault(self):
        ended = self.run_in_page(["sample", "pair", "2", "1"], {"room": 6})
        self.assertEqual((ended["status"], ended["output"], ended["note"]),
                         (6, "sample", "refused: write fault"))

    def test_a_module_that_is_not_there_is_told_of(self):
        with pages.served(missing="/matbench.wasm") as address:
            self.open(address)
            self.wait_for("#unable", "it.textContent")
        self.assertTrue(self.of("#solve", "it.disabled"))
        self.browser.forget()


class OneFile(Page):
    """The page as one file from a folder."""

    def setUp(self):
        self.browser.resize(1100, 900)
        self.open(pages.ONE_FILE)
        self.begin_anew()
        self.of("#text-tab", "it.click()")
        self.solve_while_typing(False)

    def test_it_is_small(self):
        self.assertLess(pages.PAGE.stat().st_size, 800_000)

    def test_the_same_files_give_the_same_bytes(self):
        for seed in ("1", "2"):
            with tempfile.TemporaryDirectory() as folder:
                shutil.copy(pages.OUT / "matbench.wasm", folder)
                build = [sys.executable, HERE.parent / "web" / "build_page.py", TOP, folder]
                subprocess.run(build, check=True, cwd=folder,
                               env={**os.environ, "PYTHONHASHSEED": seed})
                self.assertEqual(pathlib.Path(folder, "matbench.html").read_bytes(),
                                 pages.PAGE.read_bytes())

    def test_it_solves(self):
        self.assertEqual(self.text("#description"), PEOPLE)
        self.solve()
        self.assertIn("BEST: 4 elements, weight 25.", self.text("#words"))
        self.assertEqual(self.text("#answer"), matbench.intersect(PEOPLE).certificate)
        self.picture("one_file")

    def test_no_script_but_its_own_runs(self):
        policy = self.of("meta[http-equiv]", "it.content")
        self.assertRegex(policy, r"; script-src( 'sha256-\S{44}'){2} 'wasm-unsafe-eval'; ")
        blocked = self.browser.run("""(async () => {
            const text = "window.ran = 1";
            const src = URL.createObjectURL(new Blob([text], { type: "text/javascript" }));
            const blocked = [];
            document.addEventListener("securitypolicyviolation", (it) => blocked.push(it));
            for (const given of [{ text }, { text, type: "module" }, { src }]) {
                document.body.append(Object.assign(document.createElement("script"), given));
            }
            while (blocked.length < 3) await new Promise((done) => setTimeout(done, 10));
            return [blocked.length, window.ran === undefined];
        })()""")
        self.assertEqual(blocked, [3, True])
        self.browser.forget()

    def test_it_makes_a_link_and_keeps_a_text(self):
        self.of("#link", "it.click()")
        self.browser.wait("location.hash.startsWith('#intersect,2,')")
        self.write("#description", PEOPLE + "typed")
        self.load_again()
        self.assertEqual(self.text("#description"), PEOPLE + "typed")
        self.open(self.browser.run("location.href"))
        self.assertIn(PEOPLE, self.text("#description"))


class Old(Page):
    """The page as one file in a browser that cannot unpack it."""

    def test_it_says_what_is_needed(self):
        self.browser.run_before_pages("delete globalThis.DecompressionStream;")
        self.browser.open(pages.ONE_FILE)
        self.wait_for("#unable", "it.textContent")
        self.assertIn("DecompressionStream", self.text("#unable"))
        self.browser.forget()


class Forgetful(Page):
    """The page in a browser that lets it keep nothing."""

    def test_it_begins_with_the_example_again(self):
        self.browser.run_before_pages("""Object.defineProperty(globalThis, "sessionStorage", {
            get() { throw new DOMException("it is not allowed", "SecurityError"); } });""")
        self.open(self.address)
        self.write("#description", PEOPLE + "typed")
        self.load_again()
        self.assertEqual(self.text("#description"), PEOPLE)
        self.solve()
        self.assertRegex(pages.state(self.browser), "^Done in")


class Narrow(Page):
    """The page in a browser without 64-bit memory."""

    def test_it_says_what_is_needed(self):
        self.browser.run_before_pages("WebAssembly.validate = () => false;")
        self.open(self.address)
        self.wait_for("#unable", "it.textContent")
        self.assertIn("memory64", self.text("#unable"))
        for button in ("#solve", "#check"):
            self.assertTrue(self.of(button, "it.disabled"))
        self.picture("narrow")


if __name__ == "__main__":
    unittest.main()
