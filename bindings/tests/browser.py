"""A browser without a window that a test drives: pages, what is typed and clicked there, and
pictures of it.

Chromium is driven by its own debugging protocol, Firefox by WebDriver BiDi. Both have the same
calls here.
"""
import atexit
import base64
import json
import os
import pathlib
import shutil
import subprocess
import tempfile
import time

import websocket

#: How long a test waits for the browser, in seconds, before it fails. On a machine that is busy
#: with other work a page may take minutes.
LONGEST = 300

#: Drops the file of an element that takes files, which it removes, on what is at a place of the
#: window.
DROP = """((x, y) => {
  const [from, dataTransfer] = [document.querySelector("#dropped"), new DataTransfer()];
  dataTransfer.items.add(from.files[0]);
  from.remove();
  for (const kind of ["dragenter", "dragover", "drop"]) {
    const event = new DragEvent(kind, { dataTransfer, bubbles: true, cancelable: true });
    document.elementFromPoint(x, y).dispatchEvent(event);
  }
})(%s, %s)"""


def start(program=None):
    """This browser, or else the one that the variable BROWSER names, or CHROMIUM, or else
    chromium."""
    program = program or os.environ.get("BROWSER") or os.environ.get("CHROMIUM") or "chromium"
    return Firefox(program) if "firefox" in os.path.basename(program) else Chromium(program)


class Browser:
    """A browser with one page. What is done in the same way in each stands here, by `ask` and
    `run`, which each has of its own."""

    #: What it is called, and the command of its protocol that ends it.
    name = last_command = None

    def __init__(self):
        self.folder, self.last, self.events = tempfile.mkdtemp(), 0, []

    def _send(self, message):
        """Sends a message of the protocol."""
        raise NotImplementedError

    def _receive(self):
        """The next message of the browser."""
        raise NotImplementedError

    def run(self, script):
        """What an expression of JavaScript is in the page."""
        raise NotImplementedError

    def _resize(self, width, height, scale):
        """Gives the window a size."""
        raise NotImplementedError

    def _screenshot(self):
        """A picture of the whole page in PNG, in Base64."""
        raise NotImplementedError

    def _printed(self):
        """The page as it is printed, in PDF, in Base64."""
        raise NotImplementedError

    def _complaints(self):
        """The complaints among the events that were kept."""
        raise NotImplementedError

    def _start(self, words, **more):
        """Starts the browser, which ends with the test at the latest."""
        self.process = subprocess.Popen(words, stdin=subprocess.DEVNULL, stdout=subprocess.DEVNULL,
                                        stderr=subprocess.DEVNULL, **more)
        atexit.register(self.process.kill)

    def ask(self, method, **params):
        """Sends a command of the protocol, and waits for its answer. Events that come before it are
        kept."""
        self.last += 1
        self._send({"id": self.last, "method": method, "params": params})
        while True:
            got = self._receive()
            if got.get("id") == self.last:
                if "error" in got:
                    raise RuntimeError(f"{method}: {got.get('message', got['error'])}")
                return got["result"]
            self.events.append(got)

    def wait(self, condition):
        """Waits until a condition of JavaScript holds."""
        end = time.monotonic() + LONGEST
        while not self.run(f"Boolean({condition})"):
            if time.monotonic() > end:
                raise RuntimeError(f"not within {LONGEST} seconds: {condition}")
            time.sleep(0.02)

    def resize(self, width, height, scale=1):
        """Gives the window this size, in pixels of CSS, of which each has `scale` of the screen."""
        self.size = width, height, scale
        self._resize(*self.size)

    def picture(self, path):
        """A picture of the whole page as a file in PNG. The window is as high as the page while it
        is taken."""
        width, height, scale = self.size
        self._resize(width, max(height, self.run("document.documentElement.scrollHeight")), scale)
        pathlib.Path(path).write_bytes(base64.b64decode(self._screenshot()))
        self._resize(*self.size)

    def print(self, path):
        """Prints the page to a file in PDF."""
        pathlib.Path(path).write_bytes(base64.b64decode(self._printed()))

    def _middle_of(self, selector):
        """The place of the middle of an element in the window, which is scrolled to it."""
        found = f"document.querySelector({json.dumps(selector)})"
        self.run(f"{found}.scrollIntoView({{ block: 'nearest' }})")
        place = f"{found}.getBoundingClientRect()"
        return self.run(f"(({{x, y, width, height}}) => [x + width / 2, y + height / 2])({place})")

    def complaints(self):
        """What the browser's console has of the page up to now: errors, warnings and what was not
        allowed."""
        self.run("null")
        return self._complaints()

    def forget(self):
        """Forgets what was said of the page up to now."""
        self.run("null")
        self.events = []

    def close(self):
        """Ends the browser."""
        self.ask(self.last_command)
        self.process.wait(timeout=LONGEST)
        shutil.rmtree(self.folder, ignore_errors=True)


class Chromium(Browser):
    """Chromium, by the pipes of its debugging protocol."""

    name, last_command = "chromium", "Browser.close"
    keys = {"Enter": 13, "Escape": 27, "Tab": 9, "ArrowLeft": 37, "ArrowRight": 39}

    def __init__(self, program):
        super().__init__()
        to_browser, self.to = os.pipe()
        self.answers, from_browser = os.pipe()
        words = [program, "--headless=new", "--no-sandbox", "--disable-gpu", "--hide-scrollbars",
                 "--no-first-run", "--disable-extensions",
                 "--disable-background-networking", f"--user-data-dir={self.folder}",
                 "--remote-debugging-pipe", "about:blank"]
        # The protocol's pipes are the descriptors 3 and 4 of the browser.
        script = f'exec 8<&{to_browser} 9>&{from_browser} 3<&8 4>&9 8<&- 9>&-; exec "$@"'
        self._start(["bash", "-c", script, "", *words], pass_fds=(to_browser, from_browser))
        os.close(to_browser)
        os.close(from_browser)
        self.rest, self.session = b"", None
        target = self.ask("Target.createTarget", url="about:blank")["targetId"]
        self.session = self.ask("Target.attachToTarget", targetId=target, flatten=True)["sessionId"]
        for domain in ("Page", "Runtime", "Log", "DOM", "Accessibility"):
            self.ask(f"{domain}.enable")

    def _send(self, message):
        if self.session and not message["method"].startswith(("Browser.", "Target.")):
            message["sessionId"] = self.session
        os.write(self.to, json.dumps(message).encode() + b"\0")

    def _receive(self):
        while b"\0" not in self.rest:
            more = os.read(self.answers, 1 << 20)
            if not more:
                raise RuntimeError("the browser has ended")
            self.rest += more
        text, self.rest = self.rest.split(b"\0", 1)
        return json.loads(text)

    def open(self, address):
        """Opens a page, and waits until it has loaded. What was said of the page before is
        forgotten."""
        self.events = []
        self.ask("Page.navigate", url="about:blank")
        self.ask("Page.navigate", url=address)
        self.wait("document.readyState === 'complete'")

    def run(self, script):
        done = self.ask("Runtime.evaluate", expression=script, awaitPromise=True,
                        returnByValue=True)
        if "exceptionDetails" in done:
            raise RuntimeError(done["exceptionDetails"]["exception"].get("description", str(done)))
        return done["result"].get("value")

    def run_before_pages(self, script):
        """Runs a script in each page that is opened, before its own."""
        self.ask("Page.addScriptToEvaluateOnNewDocument", source=script)

    def _resize(self, width, height, scale):
        self.ask("Emulation.setDeviceMetricsOverride", width=width, height=height,
                 deviceScaleFactor=scale, mobile=scale > 1)

    def prefer(self, scheme):
        """Has the user prefer `light` or `dark` pages."""
        self.ask("Emulation.setEmulatedMedia",
                 features=[{"name": "prefers-color-scheme", "value": scheme}])

    def press(self, key, control=False):
        """Presses a key, with Control or without it, and lets it go."""
        common = {"key": key, "code": key, "windowsVirtualKeyCode": self.keys[key], "modifiers": 2
                  if control else 0}
        self.ask("Input.dispatchKeyEvent", type="keyDown", **common)
        self.ask("Input.dispatchKeyEvent", type="keyUp", **common)

    def choose_file(self, path, selector):
        """Chooses a file by an element that takes one."""
        found = self.ask("Runtime.evaluate",
                         expression=f"document.querySelector({json.dumps(selector)})")
        self.ask("DOM.setFileInputFiles", files=[str(path)], objectId=found["result"]["objectId"])

    def drop(self, path, selector):
        """Drops a file on an element."""
        x, y = self._middle_of(selector)
        data = {"items": [], "files": [str(path)], "dragOperationsMask": 1}
        for kind in ("dragEnter", "dragOver", "drop"):
            self.ask("Input.dispatchDragEvent", type=kind, x=x, y=y, data=data)

    def save_to(self, folder):
        """Has files that a page saves put into a folder."""
        self.ask("Browser.setDownloadBehavior", behavior="allow", downloadPath=folder)

    def count_named(self, role, name):
        """How many parts of the page have this role and name for who uses it by them."""
        nodes = [it for it in self.ask("Accessibility.getFullAXTree")["nodes"] if not it["ignored"]]
        return sum(it["role"]["value"] == role and it.get("name", {}).get("value", "") == name
                   for it in nodes)

    def _complaints(self):
        found = []
        for event in self.events:
            if event["method"] == "Runtime.exceptionThrown":
                found.append(event["params"]["exceptionDetails"]["text"])
            elif event["method"] == "Log.entryAdded":
                entry = event["params"]["entry"]
                found += [entry["text"]] * (entry["level"] in ("error", "warning"))
        return found

    def _printed(self):
        return self.ask("Page.printToPDF", preferCSSPageSize=True)["data"]

    def _screenshot(self):
        return self.ask("Page.captureScreenshot", format="png", captureBeyondViewport=True)["data"]

    def close(self):
        super().close()
        os.close(self.to)
        os.close(self.answers)


class Firefox(Browser):
    """Firefox, by WebDriver BiDi. What this has no command for, a script in the browser itself
    does."""

    name, last_command = "firefox", "browser.close"
    keys = {"Enter": "\ue007", "Escape": "\ue00c", "Tab": "\ue004", "ArrowLeft": "\ue012",
            "ArrowRight": "\ue014"}

    def __init__(self, program):
        super().__init__()
        self._start([program, "--headless", "--no-remote", "--profile", self.folder,
                     "--remote-debugging-port=0", "--remote-allow-system-access",
                     "about:blank"])
        self.socket = websocket.WebSocket(self._port(), "/session", LONGEST)
        self.ask("session.new", capabilities={})
        self.page = self.ask("browsingContext.getTree")["contexts"][0]["context"]
        self.ask("session.subscribe", events=["log.entryAdded"])

    def _port(self):
        """The port that the browser writes to its folder when it listens."""
        file, end = pathlib.Path(self.folder,
                                 "WebDriverBiDiServer.json"), time.monotonic() + LONGEST
        while time.monotonic() < end:
            try:
                return json.loads(file.read_text())["ws_port"]
            except (FileNotFoundError, json.JSONDecodeError):
                time.sleep(0.05)
        raise RuntimeError("the browser does not listen")

    def _send(self, message):
        self.socket.send(json.dumps(message))

    def _receive(self):
        return json.loads(self.socket.receive())

    def open(self, address):
        self.events = []
        self.ask("browsingContext.navigate", context=self.page, url="about:blank", wait="complete")
        self.ask("browsingContext.navigate", context=self.page, url=address, wait="complete")

    def _evaluate(self, script, context):
        done = self.ask("script.evaluate", expression=script, awaitPromise=True,
                        target={"context": context})
        if done["type"] == "exception":
            raise RuntimeError(done["exceptionDetails"]["text"])
        return done["result"]

    def run(self, script):
        return _value(self._evaluate(script, self.page))

    def run_before_pages(self, script):
        self.ask("script.addPreloadScript", functionDeclaration=f"() => {{ {script} }}")

    def _resize(self, width, height, scale):
        self.ask("browsingContext.setViewport", context=self.page,
                 viewport={"width": width, "height": height}, devicePixelRatio=scale)

    def prefer(self, scheme):
        window = self.ask("browsingContext.getTree",
                          **{"moz:scope": "chrome"})["contexts"][0]["context"]
        context = "gBrowser.selectedBrowser.browsingContext"
        self._evaluate(f"{context}.prefersColorSchemeOverride = {json.dumps(scheme)}", window)
        self.wait(f"matchMedia('(prefers-color-scheme: {scheme})').matches")

    def press(self, key, control=False):
        keys = ["\ue009"] * control + [self.keys[key]]
        actions = [{"type": "keyDown", "value": it}
                   for it in keys] + [{"type": "keyUp", "value": it} for it in reversed(keys)]
        self.ask("input.performActions", context=self.page,
                 actions=[{"type": "key", "id": "keyboard", "actions": actions}])

    def _find(self, **locator):
        return self.ask("browsingContext.locateNodes", context=self.page, locator=locator)["nodes"]

    def choose_file(self, path, selector):
        [element] = self._find(type="css", value=selector)
        self.ask("input.setFiles", context=self.page, element={"sharedId": element["sharedId"]},
                 files=[str(path)])

    def drop(self, path, selector):
        """Drops a file on an element. The file is one of the disk, the events are made in the page,
        since BiDi has no command that drops."""
        self.run("""document.body.append(
            Object.assign(document.createElement("input"), { type: "file", id: "dropped" }))""")
        self.choose_file(path, "#dropped")
        self.run(DROP % tuple(self._middle_of(selector)))

    def save_to(self, folder):
        self.ask("browser.setDownloadBehavior",
                 downloadBehavior={"type": "allowed", "destinationFolder": folder})

    def count_named(self, role, name):
        return len(self._find(type="accessibility", value={"role": role, "name": name}))

    def _complaints(self):
        return [it["params"]["text"] for it in self.events if it["method"] == "log.entryAdded"
                and it["params"]["level"] in ("error", "warn")]

    def _printed(self):
        return self.ask("browsingContext.print", context=self.page)["data"]

    def _screenshot(self):
        return self.ask("browsingContext.captureScreenshot", context=self.page,
                        origin="document")["data"]

    def close(self):
        super().close()
        self.socket.close()


def _value(told):
    """The value that BiDi tells of: a list as that of the values told of in it, an object as its
    pairs."""
    value = told.get("value")
    if told["type"] == "array":
        return [_value(it) for it in value]
    if told["type"] == "object":
        return {key: _value(it) for key, it in value}
    return value if told["type"] in ("string", "number", "boolean") else None
