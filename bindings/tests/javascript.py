"""javascript.py ENGINE: runs the programs in JavaScript of docs/BINDINGS.md beside the module of
bindings/web and what bindings/build.sh built, and compares what they print.

ENGINE is node, or a browser as browser.py has it. In a node without 64-bit WebAssembly memory the
programs are not run, which a line says; there the test is that `load` says so, and reads a file. If
there is a command tsc, the programs are held to the types of matbench.d.mts too.
"""
import contextlib
import functools
import http.server
import pathlib
import shutil
import subprocess
import sys
import tempfile
import threading

import browser as browsers
import documents

WEB, OUT = documents.BINDINGS / "web", documents.BINDINGS / "out"
#: Imports a program in a page, and answers what it printed.
RUN_IN_PAGE = """(async () => {
  const lines = [];
  console.log = (line) => lines.push(`${line}\\n`);
  await import("./example.mjs");
  return lines.join("");
})()"""
#: Prints whether node runs the module, or else what `load` says, and whether it reads a file.
TRY_NODE = """
import { hasWideMemory, load } from "./matbench.mjs";
const here = (name) => new URL(name, import.meta.url);
if (hasWideMemory()) console.log("able");
else {
  await load(here("matbench.wasm")).catch((error) => console.log(error.message));
  WebAssembly.validate = () => true;
  console.log((await load(here("empty.wasm"))) instanceof WebAssembly.Module);
}
"""
UNABLE = ("this engine has no WebAssembly memory with 64-bit addresses (memory64), which the"
          " program needs\ntrue\n")
WRONG_TYPES = 'import { load } from "./matbench.mjs";\nawait load(5);\n'


class _Handler(http.server.SimpleHTTPRequestHandler):
    extensions_map = {".mjs": "text/javascript", ".wasm": "application/wasm", ".html": "text/html"}

    def log_message(self, *_):
        """Says nothing."""


@contextlib.contextmanager
def served(folder):
    """The address of a folder's files from a server of this machine."""
    handler = functools.partial(_Handler, directory=folder)
    with http.server.ThreadingHTTPServer(("127.0.0.1", 0), handler) as server:
        threading.Thread(target=server.serve_forever, daemon=True).start()
        yield f"http://127.0.0.1:{server.server_port}/page.html"
        server.shutdown()


def printed_by(*words):
    """What a command prints, to standard output and standard error."""
    done = subprocess.run(words, stdout=subprocess.PIPE, stderr=subprocess.STDOUT, text=True,
                          check=False)
    return done.stdout


def printed_by_node(folder):
    """What the program prints in node, or None if node cannot run it."""
    (folder / "try.mjs").write_text(TRY_NODE)
    (folder / "empty.wasm").write_bytes(b"\0asm\1\0\0\0")
    told = printed_by("node", str(folder / "try.mjs"))
    if told == "able\n":
        return printed_by("node", str(folder / "example.mjs"))
    if told != UNABLE:
        return told
    print(f"not run: the programs in node {printed_by('node', '--version').strip()}, which has no"
          " 64-bit WebAssembly memory")
    return None


def printed_in_browser(folder, engine):
    """What the program prints in a page."""
    (folder / "page.html").write_text("<!doctype html><title>page</title>")
    with served(folder) as address, contextlib.closing(browsers.start(engine)) as browser:
        browser.open(address)
        return browser.run(RUN_IN_PAGE)


def faults_of_types(folder):
    """What the TypeScript compiler says against the types of the program, and of its silence on a
    wrong program."""
    command = ("tsc", "--noEmit", "--strict", "--target", "es2022", "--module", "nodenext",
               "--moduleResolution", "nodenext", "--lib", "es2022,dom")
    (folder / "wrong.mts").write_text(WRONG_TYPES)
    shutil.copy(folder / "example.mjs", folder / "right.mts")
    told = printed_by(*command, str(folder / "right.mts"))
    if "wrong.mts(2,12): error TS2345" not in printed_by(*command, str(folder / "wrong.mts")):
        told += "load(5) is no fault of types\n"
    return told


def try_program(program, wanted, engine):
    """Whether a program was run, and whether it has a fault. It has a folder of its own."""
    with tempfile.TemporaryDirectory() as name:
        folder = pathlib.Path(name)
        for path in (WEB / "matbench.mjs", WEB / "matbench.d.mts", OUT / "matbench.wasm"):
            shutil.copy(path, folder)
        (folder / "example.mjs").write_text(program, encoding="utf-8")
        found = (printed_by_node(folder) if engine == "node"
                 else printed_in_browser(folder, engine))
        faults = faults_of_types(folder) if shutil.which("tsc") else ""
    if found not in (None, wanted):
        faults += f"the program prints\n{found}and not\n{wanted}"
    if faults:
        print(f"docs/BINDINGS.md, in {engine}: {faults}")
    return found is not None, bool(faults)


def main():
    """Runs all of them, and says how many have faults."""
    if len(sys.argv) != 2:
        sys.exit("usage: bindings/tests/javascript.py ENGINE")
    if not (OUT / "matbench.wasm").exists():
        sys.exit(f"javascript.py: there is no {OUT}/matbench.wasm: bindings/build.sh makes it")
    if not shutil.which(sys.argv[1]):
        sys.exit(f"javascript.py: there is no {sys.argv[1]}")
    if not shutil.which("tsc"):
        print("not run: the types of matbench.d.mts: there is no command tsc")
    found = list(documents.examples(documents.TOP / "docs" / "BINDINGS.md", ("js",)))
    tried = [try_program(program, wanted, sys.argv[1]) for _, program, wanted in found]
    wrong = sum(has_fault for _, has_fault in tried)
    print(f"javascript.py: {sum(was_run for was_run, _ in tried)} programs run, {wrong} wrong")
    return 1 if wrong or not found else 0


if __name__ == "__main__":
    sys.exit(main())
