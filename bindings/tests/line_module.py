"""line_module.py LINE: tests the WebAssembly module of the static library in a browser without a
window: it asks its host for nothing, and gives what the static library gives.

LINE is what tests/line.c is compiled to. The variable BROWSER names the browser, as browser.py has
it.
"""
import base64
import json
import os
import pathlib
import subprocess
import sys
import tempfile

HERE = pathlib.Path(__file__).resolve().parent
TOP = HERE.parent.parent
sys.path.insert(0, str(HERE))

import pages  # noqa: E402

MODULE = pages.OUT / "matbench_line.wasm"

#: Makes calls of the module, each by an instance of its own: texts are a line, a description, a
#: certificate and a witness.
RUN_ALL = """(async (packed, calls) => {
  const module = await WebAssembly.compile(Uint8Array.from(atob(packed), (it) => it.charCodeAt(0)));
  const run = (texts, room) => {
    const { exports } = new WebAssembly.Instance(module);
    const take = (size) => Number(exports.allocate(BigInt(size)));
    const view = (at, size) => new Uint8Array(exports.memory.buffer, at, size);
    const slices = texts.flatMap((text) => {
      const bytes = new TextEncoder().encode(text);
      const at = take(bytes.length);
      view(at, bytes.length).set(bytes);
      return [at, bytes.length];
    });
    const [ended, output, note] = [take(24), take(room), take(256)];
    exports.matbench_line(...[ended, ...slices, output, room, note, 256].map(BigInt));
    const [, written, noted] = new BigUint64Array(exports.memory.buffer, ended, 3);
    const text = (at, size) => new TextDecoder().decode(view(at, Number(size)));
    return [view(ended, 1)[0], text(output, written), text(note, noted)];
  };
  const asked = WebAssembly.Module.imports(module).map((it) => it.name);
  return [asked, calls.map(([texts, room]) => run(texts, room))];
})(%s, %s)"""


def calls():
    """The calls to make: their words, their files, and the room for their output."""
    for path in sorted((TOP / "examples").glob("*.txt")):
        text = path.read_text()
        form = text.split("\n")[1].split(" ")[0] if text.startswith("matroids ") else ""
        command = {"pair": "intersect", "graph": "trees 1", "rooted": "cuts", "coloured": "rainbow",
                   "table": "assign"}.get(form)
        for words in [f"{command} f"] if command else ["show f", "union f"]:
            yield words, [text], 1 << 20
            yield words, [text], 10
    people = (TOP / "examples" / "people.txt").read_text()
    yield "check f c", [people, (TOP / "examples" / "people_wrong.answer").read_text()], 100
    yield "intersect", [people], 100
    yield "intersect g", [people], 100


def by_library(caller, words, texts, room):
    """The status, the output and the note of the static library."""
    with tempfile.TemporaryDirectory() as folder:
        for name, text in zip("fcw", texts):
            pathlib.Path(folder, name).write_text(text)
        given = [f"{name}={name}" for name, _ in zip("fcw", texts)]
        ended = subprocess.run([caller, "--room", str(room), words, *given], cwd=folder,
                               capture_output=True, check=False)
    return [ended.returncode, ended.stdout.decode(), ended.stderr.decode()]


def main():
    caller = os.path.abspath(sys.argv[1])
    made = list(calls())
    asked = [[[words, *texts, *[""] * (3 - len(texts))], room] for words, texts, room in made]
    packed = base64.b64encode(MODULE.read_bytes()).decode()
    with pages.served() as address, pages.opened() as browser:
        browser.open(address)
        imports, given = browser.run(RUN_ALL % (json.dumps(packed), json.dumps(asked)))
        name = browser.name
    wrong = 0
    if imports:
        wrong += 1
        print(f"line_module.py: the module asks its host for {imports}")
    for (words, texts, room), answer in zip(made, given, strict=True):
        wanted = by_library(caller, words, texts, room)
        if answer != wanted:
            wrong += 1
            print(f"line_module.py: {words}, room {room}: the library gives {str(wanted)[:300]}, "
                  f"the module {str(answer)[:300]}")
    print(f"line_module.py: in {name} {len(given)} calls compared, {wrong} wrong")
    return 1 if wrong else 0


if __name__ == "__main__":
    sys.exit(main())
