"""The page for tests: served, opened in a browser, and used."""
import contextlib
import functools
import http.server
import json
import pathlib
import threading

import browser as browsers

OUT = pathlib.Path(__file__).resolve().parent.parent / "out"
#: The page that is one file, and its address.
PAGE = OUT / "matbench.html"
ONE_FILE = PAGE.as_uri()
#: The paths that the servers of the page were asked for.
ASKED = []


class _Handler(http.server.SimpleHTTPRequestHandler):
    extensions_map = {**http.server.SimpleHTTPRequestHandler.extensions_map,
                      ".mjs": "text/javascript", ".wasm": "application/wasm"}

    def __init__(self, *given, missing, **more):
        self.missing = missing
        super().__init__(*given, **more)

    def send_head(self):
        """Answers a request. The file that is missing is not found."""
        ASKED.append(self.path)
        if self.path != self.missing:
            return super().send_head()
        return self.send_error(404)

    def copyfile(self, source, outputfile):
        """Hands on a file. A browser that leaves the page takes no more of it."""
        with contextlib.suppress(BrokenPipeError, ConnectionResetError):
            super().copyfile(source, outputfile)

    def log_message(self, *_):
        """Says nothing."""


@contextlib.contextmanager
def served(missing=None):
    """The address of the page's files from a server of this machine, without the one that is
    missing there."""
    handler = functools.partial(_Handler, directory=OUT / "web", missing=missing)
    with http.server.ThreadingHTTPServer(("127.0.0.1", 0), handler) as server:
        threading.Thread(target=server.serve_forever, daemon=True).start()
        yield f"http://127.0.0.1:{server.server_port}/"
        server.shutdown()


@contextlib.contextmanager
def opened(program=None):
    """A browser, as browser.py names it."""
    found = browsers.start(program)
    try:
        yield found
    finally:
        found.close()


def _give(browser, selector, value, event):
    """Gives an element a value, which it has by an event of this name."""
    change = f"it.value = {json.dumps(value)}; it.dispatchEvent(new Event('{event}'));"
    browser.run(f"((it) => {{ {change} }})(document.querySelector('{selector}'))")


def choose(browser, selector, value):
    """Chooses an item of a list."""
    _give(browser, selector, value, "change")


def write(browser, selector, text):
    """Puts a text into a box, as if it were typed."""
    _give(browser, selector, text, "input")


def text(browser, selector):
    """The text of an element, or what stands in a box."""
    found = f"document.querySelector('{selector}')"
    return browser.run(f"((it) => it.value ?? it.textContent)({found})")


def state(browser):
    """What the page says of its last run."""
    return text(browser, "#state")


def click_and_wait(browser, selector):
    """Clicks a button that starts a run, and waits for its end."""
    browser.run(f"document.querySelector('{selector}').click()")
    browser.wait("document.querySelector('#stop').disabled")
