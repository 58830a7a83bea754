"""The sheets of the page for their tests: what each does there, by the name of its tab."""
import json

from opened_page import Page, fragment_of


class SheetPage(Page):
    """The page with the tab `name` shown."""

    name = None

    def setUp(self):
        super().setUp()
        self.show_tab()

    def show_tab(self):
        """Shows the tab of the sheet."""
        self.of(f"#{self.name}-tab", "it.click()")

    def part(self, part):
        """The selector of a part of the sheet."""
        return f"#{self.name}-{part}"

    def said(self, part):
        """The text of a part of the sheet."""
        return self.text(self.part(part))

    def click(self, part):
        """Clicks a button of the sheet."""
        self.of(self.part(part), "it.click()")

    def write_cells(self, text):
        """Puts a text into the box of cells, as if it were typed or pasted."""
        self.write(self.part("cells"), text)

    def plan(self):
        """Makes the plan, and waits for it."""
        self.click("plan")
        self.wait_for(self.part("stop"), "it.hidden")

    def wait_until_said(self, front):
        """Waits until what is said of the run begins like this."""
        self.wait_for(self.part("state"), f"it.textContent.startsWith({json.dumps(front)})")

    def cells(self, part):
        """The cells of a table of the sheet, row by row."""
        return self.of_all(f"{self.part(part)} tr", "[...it.cells].map((cell) => cell.textContent)")

    def type_into(self, label, value):
        """Types into the cell of this label, or makes it empty."""
        found = f"{self.part('')[:-1]} [aria-label={json.dumps(label)}]"
        self.of(found, f"(it.value = {json.dumps(value)}, it.dispatchEvent(new Event('change')))")

    def choose(self, part, value):
        """Chooses an item of a list, or a number."""
        self.of(self.part(part), f"(it.value = {json.dumps(value)},"
                " it.dispatchEvent(new Event('change')))")

    def show_example(self, place=0):
        """Shows an example of the sheet."""
        self.of_all(f"{self.part('examples')} button", "it")
        self.browser.run(f"document.querySelectorAll('{self.part('examples')} button')"
                         f"[{place}].click()")

    def hold_to_windows(self):
        """Holds that the sheet is not wider than a narrow window and a wide one, and takes pictures
        in light and dark."""
        for scheme in ("light", "dark"):
            self.browser.prefer(scheme)
            for width in (360, 1400):
                self.browser.resize(width, 900)
                self.assertLessEqual(self.browser.run("document.documentElement.scrollWidth"),
                                     width)
                self.picture(f"{self.name}_{width}_{scheme}")
        self.browser.prefer("light")

    def load_again_as_kept(self):
        """Loads the page again, and shows the link that holds what is typed: the address of a new
        page with it."""
        self.click("link")
        self.browser.wait(f"location.hash.startsWith('#{self.name},,')")
        link = self.browser.run("location.href")
        self.load_again()
        return link

    def open_in_new_tab(self, link):
        """Opens a link where nothing is kept."""
        self.browser.run("Storage.prototype.setItem = () => {}; sessionStorage.clear()")
        self.open(self.address)
        self.assertEqual(self.said("cells"), "")
        self.open(link)
        self.wait_for(self.part("cells"), "it.value")

    def open_in_link(self, text):
        """Opens a link of the sheet that holds this text, and waits until the page has read it."""
        self.browser.run("sessionStorage.clear()")
        self.open(self.address)
        self.browser.run(f"""new Promise((done) => {{
            addEventListener("hashchange", () => setTimeout(done, 200), {{ once: true }});
            location.hash = {json.dumps(fragment_of(self.name, text))};
        }})""")

    def faults(self):
        """All that is told of what is wrong with the cells and the limits, after a try to plan."""
        self.plan()
        self.assertFalse(self.of(self.part("result"), "it.checkVisibility()"))
        panel = f"#{self.name}"
        return " ".join(self.of_all(f"{panel} .fault, {panel} .why", "it.textContent"))

    def hold_to_faults(self, *pairs):
        """Holds that each of these cells is refused, and what is said of it."""
        for cells, said in pairs:
            with self.subTest(said=said):
                self.write_cells(cells)
                self.assertIn(said, self.faults())

    def hold_to_hostile_cells(self, cells):
        """Holds that cells that are markup make no elements, and run nothing."""
        elements = "document.querySelectorAll('script, img, svg').length"
        before = self.browser.run(elements)
        self.write_cells(cells)
        self.plan()
        self.assertEqual(self.browser.run(elements), before)
        self.assertTrue(self.browser.run("globalThis.ran === undefined"))
