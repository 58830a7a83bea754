"""answers.py PROGRAM CALL LINE [BROWSER..]: compares the answers of the program with those of the C
library, the static library, the Python module and the page, byte for byte.

The problems are those of examples/ and 200 random ones. PROGRAM is the program, CALL what
tests/call.c is compiled to, and LINE what tests/line.c is; CALL or LINE is `-` if it is not there,
and then the answers of that library are not compared. The page is tried in each BROWSER: as files
from a server, and as one file from a folder. There every example is chosen, solved and checked as a
user does.
"""
import json
import os
import pathlib
import random
import subprocess
import sys
import tempfile

HERE = pathlib.Path(__file__).resolve().parent
TOP = HERE.parent.parent
sys.path[:0] = [str(HERE.parent), str(TOP / "tests")]

import matbench  # noqa: E402
import pages  # noqa: E402
import soak  # noqa: E402

RANDOM = 200
#: Calls that a page makes at a time.
BLOCK = 20


def kind_of(text):
    """Which of the lists of commands of soak.py a description takes."""
    form, *numbers = text.split(b"\n")[1].decode().split(" ")
    return "one" if form == "list" and numbers[1] == "1" else form


def problems():
    """The descriptions of the examples and random ones, with their names."""
    numbers = random.Random(46)
    for path in sorted((TOP / "examples").glob("*.txt")):
        text = path.read_bytes()
        if text.startswith(b"matroids "):
            yield path.name, text
    for place in range(RANDOM):
        yield f"random {place}", soak.problem(numbers)[1]


class Compared:
    """How many calls were compared, and what was wrong."""

    def __init__(self, program, caller, line):
        self.program, self.caller, self.line, self.counts, self.wrong = program, caller, line, {}, 0

    def hold(self, way, what, wanted, given):
        """Compares what a way gives with what the program gives."""
        self.counts[way] = self.counts.get(way, 0) + 1
        if wanted != given:
            self.wrong += 1
            print(f"{way}: {what}: the program gives {str(wanted)[:300]}, "
                  f"it gives {str(given)[:300]}")

    def by_program(self, words, files):
        """The status, the output and the note of the program, over files in a new folder."""
        with tempfile.TemporaryDirectory() as folder:
            for name, text in files.items():
                pathlib.Path(folder, name).write_bytes(text)
            ended = subprocess.run([self.program, *words], cwd=folder, capture_output=True,
                                   check=False)
            wanted = (ended.returncode, ended.stdout, ended.stderr)
            if self.caller:
                self.by_library(words, files, folder, wanted)
            if self.line and not words[0].startswith("--"):
                self.by_line(words, files, folder, wanted)
        return wanted

    def by_library(self, words, files, folder, wanted):
        """Makes a call by the C library."""
        given = [*words, "--", *(f"{name}={name}" for name in files)]
        ended = subprocess.run([self.caller, *given], cwd=folder, capture_output=True, check=False)
        self.hold("C", words, wanted, (ended.returncode, ended.stdout, ended.stderr))

    def by_line(self, words, files, folder, wanted):
        """Makes a call by the static library, and where it has an output, once more with room for
        one byte less."""
        given = [" ".join(words), *(f"{name}={name}" for name in files)]
        ended = subprocess.run([self.line, *given], cwd=folder, capture_output=True, check=False)
        self.hold("static library", words, wanted, (ended.returncode, ended.stdout, ended.stderr))
        if wanted[1]:
            room = len(wanted[1]) - 1
            ended = subprocess.run([self.line, "--room", str(room), *given], cwd=folder,
                                   capture_output=True, check=False)
            self.hold("static library, cut off", words,
                      (6, wanted[1][:room], b"refused: write fault\n"),
                      (ended.returncode, ended.stdout, ended.stderr))

    def call(self, words, files):
        """Makes a call by the program, by C and by Python, and answers what the program gives."""
        wanted = self.by_program(words, files)
        ended = matbench.call(words, files)
        note = f"{ended.note}\n".encode() if ended.note else b""
        self.hold("Python", words, wanted, (ended.status, ended.output, note))
        return wanted


def solved(compared, name, text):
    """The calls about a problem: words, files, and what the program gives. Each answer is checked
    too, and has to be right."""
    commands = [*soak.COMMANDS[kind_of(text)], "show", "convert"]
    for command in commands:
        words = [*command.split(), "f"]
        wanted = compared.call(words, {"f": text})
        yield words, {"f": text}, wanted
        if wanted[0] == 0 and words[0] not in ("show", "convert", "cuts"):
            files = {"f": text, "c": wanted[1]}
            verdict = compared.call(["check", "f", "c"], files)
            compared.hold("yes", f"{name}, {command}", (0, b"yes\n", b""), verdict)
            yield ["check", "f", "c"], files, verdict
            yield from shown(compared, f"{name}, {command}", files)
            if words[0] == "intersect":
                yield from witnessed(compared, f"{name}, {command}", files)
    yield listed(compared, text, [command for command in commands
                                  if command not in ("show", "convert", "cuts")])


def listed(compared, text, commands):
    """The call that answers a list of jobs about a problem, one for each command."""
    files = {"f": text, "c": "\n".join(["jobs 1", *(f"job {command} f" for command in commands),
                                        "end", ""]).encode()}
    return ["batch", "c"], files, compared.call(["batch", "c"], files)


def sampled(compared):
    """The calls that draw a problem of each kind."""
    for kind in ("pair", "list", "graph", "rooted", "table"):
        words = ["sample", kind, "12", "7"]
        yield words, {}, compared.call(words, {})


def witnessed(compared, what, files):
    """The calls about a witness for a rung of a right answer. Where there is one, it shows the
    rung."""
    words = ["witness", "1", "f", "c"]
    wanted = compared.call(words, files)
    yield words, files, wanted
    if wanted[0] == 0:
        files, words = {**files, "w": wanted[1]}, ["verify", "1", "f", "c", "w"]
        verdict = compared.call(words, files)
        compared.hold("yes", f"{what}, witness", (0, b"yes\n", b""), verdict)
        yield words, files, verdict


def refused(compared, text):
    """The calls about a problem that are refused: no command, and a name that no file has."""
    for words in (["intersect"], ["solve", "f"], ["show", "g"], ["check", "f", "f"]):
        yield words, {"f": text}, compared.call(words, {"f": text})


def shown(compared, what, files):
    """The calls that tell and draw a right answer. The functions of the Python module give what the
    program writes."""
    for word, function in (("--tell", matbench.tell), ("--picture", matbench.picture)):
        words = [word, "f", "c"]
        wanted = compared.call(words, files)
        try:
            given = function(files["f"], files["c"]).encode()
        except matbench.MatbenchError as refusal:
            given = repr(refusal)
        compared.hold(f"Python {word}", what, (0, wanted[1], b""), (wanted[0], given, wanted[2]))
        yield words, files, wanted


RUN_ALL = """(async (calls) => {
  const { Run } = await import("./run.mjs");
  const ended = [];
  for (const [words, files] of calls) ended.push(await new Run(words, files).ended);
  return ended.map((it) => [it.status, it.output, it.note]);
})"""


def compare_page(compared, browser, calls):
    """Makes the calls in the page that lies open, by what runs its own."""
    for place in range(0, len(calls), BLOCK):
        block = calls[place:place + BLOCK]
        asked = [[words, {name: text.decode() for name, text in files.items()}] for words, files,
                 _ in block]
        for (words, _, wanted), given in zip(block, browser.run(f"{RUN_ALL}({json.dumps(asked)})")):
            compared.hold(f"page in {browser.name}", words,
                          [wanted[0], wanted[1].decode(), wanted[2].decode().rstrip("\n")], given)


#: The answer in words and the text of its picture, as they stand in the page.
SHOWN = """[[...document.querySelectorAll(".told p")].map((it) => it.textContent + "\\n").join(""),
  decodeURIComponent(document.querySelector("#picture img").src.replace(/^[^,]*,/, ""))]"""


def compare_examples(compared, browser, way, answers):
    """Chooses each example of the page that lies open, and solves and checks it by its buttons. It
    is told and drawn after both."""
    way = f"{way} in {browser.name}"
    browser.wait("document.querySelector('#command').value")
    examples = browser.run("""[...document.querySelectorAll('#example option')]
        .map((it) => [it.value, it.textContent]).filter((it) => it[0])""")
    compared.hold(way, "how many examples there are", len(answers), len(examples))
    for value, title in examples:
        name = title.split(":")[0]
        pages.choose(browser, "#example", value)
        command = browser.run("document.querySelector('#command').value")
        count = browser.run("""((it) => it.disabled ? "" : it.value)(
            document.querySelector("#count"))""")
        pages.click_and_wait(browser, "#solve")
        wanted = compared.by_program([*f"{command} {count}".split(), "f"], {"f": answers[name]})
        compared.hold(way, title, (wanted[0], wanted[1].decode()),
                      (0, browser.run("document.querySelector('#answer').value")))
        if command != "cuts":
            files = {"f": answers[name], "c": wanted[1]}
            told, drawn = (compared.by_program([word, "f", "c"], files)[1].decode()
                           for word in ("--tell", "--picture"))
            compared.hold(f"{way}, shown", title, [told, drawn], browser.run(SHOWN))
            pages.click_and_wait(browser, "#check")
            compared.hold(f"{way}, yes", title, "yes: the answer is right.",
                          pages.state(browser)[:25])
            compared.hold(f"{way}, shown", title, [told, drawn], browser.run(SHOWN))


def compare_in(compared, program, calls, examples):
    """Compares the page in a browser."""
    with pages.served() as address, pages.opened(program) as browser:
        browser.open(address)
        compare_page(compared, browser, calls)
        compare_examples(compared, browser, "page from a server", examples)
        compared.hold(f"page in {browser.name}", "what the browser complains of", [],
                      browser.complaints())
        browser.open(pages.ONE_FILE)
        compare_examples(compared, browser, "page from a folder", examples)
        compared.hold(f"page in {browser.name}", "what the browser complains of", [],
                      browser.complaints())


def main():
    if len(sys.argv) < 4:
        sys.exit("usage: answers.py PROGRAM CALL LINE [BROWSER..]")
    compared = Compared(*(os.path.abspath(word) if word != "-" else None for word in sys.argv[1:4]))
    calls, examples = list(sampled(compared)), {}
    for name, text in problems():
        calls += solved(compared, name, text)
        if not name.startswith("random"):
            calls += refused(compared, text)
            examples[name] = text
    for program in sys.argv[4:]:
        compare_in(compared, program, calls, examples)
    print("answers.py:", ", ".join(f"{way} {count}" for way, count in compared.counts.items()),
          f"compared, {compared.wrong} wrong")
    return 1 if compared.wrong else 0


if __name__ == "__main__":
    sys.exit(main())
