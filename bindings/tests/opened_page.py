"""The page in a browser without a window: what its tests do there, and the problems that they have.

The variable BROWSER names the browser, as browser.py has it. The pictures that the tests make lie
in bindings/out/pictures/, to be looked at.
"""
import base64
import json
import pathlib
import sys
import tempfile
import time
import unittest
import zlib

HERE = pathlib.Path(__file__).resolve().parent
TOP = HERE.parent.parent
sys.path.insert(0, str(HERE.parent))

import browser as browsers  # noqa: E402
import pages  # noqa: E402

PICTURES = pages.OUT / "pictures"
PEOPLE = (TOP / "examples" / "people.txt").read_text()


def long_problem(unions=64):
    """A problem that takes seconds: a union of 64 unions of 64 uniform matroids, against a
    partition. With fewer unions it takes less."""
    n = 500
    unions = [f"union {unions}", *(line for _ in range(unions)
                                   for line in ("union 64", *["uniform 1"] * 64))]
    classes = ("class 1 " + " ".join(str(e) for e in range(first, n, 125)) for first in range(125))
    weights = "weights " + " ".join(str((7919 * e) % 1000) for e in range(n))
    return "\n".join(["matroids 1", f"pair {n}", weights, *unions, "partition 125", *classes, "end",
                      ""])


def fragment_of(command, text):
    """The fragment of a link that holds a problem."""
    squeeze = zlib.compressobj(9, wbits=-zlib.MAX_WBITS)
    packed = squeeze.compress(text.encode()) + squeeze.flush()
    return f"#{command},2,{base64.urlsafe_b64encode(packed).decode().rstrip('=')}"


class Page(unittest.TestCase):
    """The page as files from a server."""

    @classmethod
    def setUpClass(cls):
        cls.browser = cls.enterClassContext(pages.opened())
        cls.address = cls.enterClassContext(pages.served())
        cls.pictures = PICTURES / cls.browser.name
        cls.pictures.mkdir(parents=True, exist_ok=True)

    def setUp(self):
        self.browser.resize(1100, 900)
        self.open(self.address)
        self.begin_anew()
        self.of("#text-tab", "it.click()")
        self.solve_while_typing(False)

    def tearDown(self):
        self.assertEqual(self.browser.complaints(), [])

    def open(self, address):
        self.browser.open(address)
        self.wait_for("#command", "it.value")

    def begin_anew(self):
        """Opens the page once more, as in a new tab, where nothing is kept."""
        self.browser.run("Storage.prototype.setItem = () => {}; sessionStorage.clear()")
        self.open(self.browser.run("location.href.split('#')[0]"))

    def solve_while_typing(self, is_wanted):
        """Says whether the page solves by itself."""
        self.of("#live", f"it.checked = {json.dumps(is_wanted)}")

    def of(self, selector, script):
        """What an expression of JavaScript is of an element, which is `it` there."""
        found = f"document.querySelector({json.dumps(selector)})"
        return self.browser.run(f"((it) => {script})({found})")

    def of_all(self, selector, script):
        """What an expression of JavaScript is of each of some elements, which is `it` there."""
        found = f"[...document.querySelectorAll({json.dumps(selector)})]"
        return self.browser.run(f"{found}.map((it) => {script})")

    def wait_for(self, selector, condition):
        """Waits until a condition of JavaScript holds of an element, which is `it` there."""
        found = f"document.querySelector({json.dumps(selector)})"
        self.browser.wait(f"((it) => {condition})({found})")

    def place_of(self, selector):
        """How far below the top of the window an element begins and ends."""
        return self.of(selector, "(({ top, bottom }) => [top, bottom])(it.getBoundingClientRect())")

    def text(self, selector):
        return pages.text(self.browser, selector)

    def write(self, selector, text):
        pages.write(self.browser, selector, text)

    def solve(self):
        pages.click_and_wait(self.browser, "#solve")

    def choose_example(self, name):
        """Chooses the example of a file."""
        options = self.of_all("#example option", "[it.textContent, it.value]")
        value, = [value for text, value in options if text.startswith(f"{name}:")]
        pages.choose(self.browser, "#example", value)

    def begin_long_run(self):
        """Begins a run that takes seconds, and waits until it is under way."""
        self.write("#description", long_problem())
        self.of("#solve", "it.click()")
        self.wait_for("#time", "it.textContent")

    def load_again(self):
        """Loads the page again."""
        self.browser.run("window.isOld = true")
        self.browser.run("void location.reload()")
        self.browser.wait("!window.isOld && document.querySelector('#command')?.value")

    def is_at(self, selector):
        """Whether the focus is at an element."""
        return self.of(selector, "it === document.activeElement")

    def is_off(self, selector):
        """Whether a button that keeps the focus does nothing now."""
        return self.of(selector, "it.ariaDisabled === 'true'")

    def is_shown(self, *parts):
        """Whether these parts of the page are shown, and of the others that show an answer none."""
        of_answer = ("nothing", "words", "picture", "names")
        return list(parts) == [it for it in of_answer if self.of(f"#{it}", "it.checkVisibility()")]

    def wait_for_image(self):
        self.wait_for("#picture img", "it.complete && it.naturalWidth > 100")

    def saved(self, button, name):
        """The bytes of the file of this name that a button saves."""
        with tempfile.TemporaryDirectory() as folder:
            self.browser.save_to(folder)
            self.of(button, "it.click()")
            path, end = pathlib.Path(folder, name), time.monotonic() + browsers.LONGEST
            # A browser holds the name by an empty file until all of it is written.
            while not (path.exists() and path.stat().st_size) and time.monotonic() < end:
                time.sleep(0.05)
            return path.read_bytes()

    def picture(self, name):
        self.browser.picture(self.pictures / f"{name}.png")
