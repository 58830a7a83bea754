"""python3 tests/shown.py [PROGRAM]: runs every command that the documents show, and compares every
output that they show byte for byte.

The documents are README.md, examples/README.md, docs/FORMATS.md, docs/REPORTS.md, docs/COOKBOOK.md,
docs/MANY.md and docs/CALLING.md, and the program is crates/mat_main/out/mat_main unless another is
named. In the documents
- a block marked `console` has commands, each behind '$ ', and below each all that it prints; each
  ends with the status 0;
- a block below the comment '<!-- printed by: COMMAND -->' is what the command prints;
- a block below the comment '<!-- from: FILE -->' stands in the file word for word, but for what a
  line '..' leaves out;
- a block that begins with 'matroids' is a canonical description, and one that begins with 'jobs' a
  list of jobs that is answered; below the comment '<!-- saved as: NAME -->' it is a file for the
  commands further down;
- a block marked `sh` is not run;
- './matbench ..' within a line is run and ends with 0, but where it names no file of its own, as in
  './matbench show FILE';
- a row of a table that begins with the number of a line tells that line of a file in the heading
  above;
- a link within the repository leads to a file, and to a heading where it names one; of all other
  documents, the links alone are followed.
The text of --help is compared with the one that the launcher prints where nothing is built.
Commands run in a new folder that has the program as `matbench` beside the folders of the
repository, and which stands for /tmp too; `python3 -m matbench` is the package of bindings/, which
calls this program. What is wrong is printed; the last line is
`N passed, M failed`, and counts commands, quotes, lines of files and links.
"""
import glob
import os
import re
import shutil
import subprocess
import sys
import tempfile

TOP = os.path.dirname(os.path.dirname(os.path.abspath(__file__)))
DOCUMENTS = ("README.md", "examples/README.md", "docs/FORMATS.md", "docs/REPORTS.md",
             "docs/COOKBOOK.md", "docs/MANY.md", "docs/CALLING.md")
OPEN_WORD = re.compile(r"(?<![\w.])(?:FILE|CERT|WIT|LIST|RUNG|KIND|SIZE|SEED|K|W)(?!\w)")
COUNTS = {"commands": 0, "outputs": 0, "blocks not run": 0, "quotes": 0, "lines of files": 0,
          "links": 0, "wrong": 0}
TESTS = ("commands", "quotes", "lines of files", "links")
LONGEST = 120


def wrong(place, what, wanted="", given=""):
    """Tells something that is wrong, with what is shown and what there is."""
    COUNTS["wrong"] += 1
    print(f"{place}: {what}")
    if wanted != given:
        print("  shown:", *wanted.splitlines(), sep="\n    ")
        print("  there is:", *given.splitlines(), sep="\n    ")


def run(folder, command, given=""):
    """What a command prints, to standard output and standard error in their order, and its
    status."""
    COUNTS["commands"] += 1
    try:
        done = subprocess.run(["sh", "-c", command.replace("/tmp/", folder + "/")], cwd=folder,
                              input=given.encode(),
                              stdout=subprocess.PIPE, stderr=subprocess.STDOUT, timeout=LONGEST,
                              check=False)
    except subprocess.TimeoutExpired:
        return "", f"no status after {LONGEST} s"
    return done.stdout.decode("utf-8", "replace"), done.returncode


def compare(folder, place, command, wanted, given=""):
    """Runs a command that has to print the wanted text and to end with 0."""
    COUNTS["outputs"] += 1
    printed, status = run(folder, command, given)
    if (printed, status) != (wanted, 0):
        wrong(place, command if status == 0 else f"{command} ends with {status}", wanted, printed)


def blocks_of(text):
    """The text without its blocks, and each block: its line, its mark, the comment above it, and
    what it holds."""
    prose, blocks, at = [], [], None
    lines = text.splitlines()
    for number, line in enumerate(lines, 1):
        if at is None and line.startswith("```"):
            above = lines[number - 2] if number > 1 else ""
            at = (number, line[3:], above if above.startswith("<!--") else "", [])
        elif at is not None and line == "```":
            blocks.append(at)
            at = None
        elif at is not None:
            at[3].append(line)
        prose.append(line if at is None and line != "```" else "")
    return prose, blocks


def try_console(folder, place, lines):
    """Runs the commands of a block, and compares what stands below each."""
    command, wanted = None, []
    for line in [*lines, "$ "]:
        if line.startswith("$ "):
            if command is not None:
                compare(folder, place, command, "".join(text + "\n" for text in wanted))
            command, wanted = line[2:], []
        else:
            wanted.append(line)


def try_quote(place, name, text):
    """Looks up the parts of a block, which a line '..' divides, one behind the other in a file."""
    COUNTS["quotes"] += 1
    with open(os.path.join(TOP, name), encoding="utf-8") as file:
        rest = "\n" + file.read()
    for part in text.split("..\n"):
        _, found, rest = rest.partition("\n" + part)
        rest = "\n" + rest
        if not found:
            wrong(place, f"not in {name}", part)
            return


def try_block(folder, place, mark, comment, lines):
    """Tries one block by its mark, the comment above it or its first word."""
    text = "".join(line + "\n" for line in lines)
    if comment.startswith("<!-- from: "):
        try_quote(place, comment[len("<!-- from: "):-len(" -->")], text)
    elif mark == "console":
        try_console(folder, place, lines)
    elif mark == "sh":
        COUNTS["blocks not run"] += 1
    elif comment.startswith("<!-- printed by: "):
        compare(folder, place, comment[len("<!-- printed by: "):-len(" -->")], text)
    elif lines[0].startswith("matroids "):
        compare(folder, place, "./matbench show -" if lines[0] == "matroids 1"
                else "./matbench convert -", text, text)
    elif lines[0].startswith("jobs "):
        status = run(folder, "./matbench batch -", text)[1]
        if status != 0:
            wrong(place, f"the list ends with {status}")
    else:
        COUNTS["quotes"] += 1
        wrong(place, "a block that is not told by its mark, a comment or its first word")
    if comment.startswith("<!-- saved as: "):
        with open(os.path.join(folder, comment[len("<!-- saved as: "):-len(" -->")]), "w",
                  encoding="ascii") as file:
            file.write(text)


def try_spans(folder, name, prose):
    """Runs the commands within the lines."""
    text = "\n".join(prose)
    for hit in re.finditer(r"(?<!`)`(\./matbench [^`]*)`(?!`)", text):
        command = " ".join(hit.group(1).split()).replace("\\|", "|")
        if OPEN_WORD.search(command):
            continue
        place = f"{name}:{text.count(chr(10), 0, hit.start()) + 1}"
        printed, status = run(folder, command)
        if status != 0:
            wrong(place, f"{command} ends with {status}: {printed}")


def try_rows(name, prose):
    """Looks up the lines of files that tables tell."""
    files = []
    for number, line in enumerate(prose, 1):
        if line.startswith("## "):
            files = [os.path.join(TOP, "examples", word)
                     for word in re.findall(r"`(\w+\.txt)`", line)]
        hit = re.match(r"\| (\d+)\b[^|]*\| `([^`]*)`", line)
        if hit and files and os.path.isfile(files[0]):
            COUNTS["lines of files"] += 1
            told = [open(file, encoding="ascii").read().splitlines() for file in files]
            at = int(hit.group(1)) - 1
            if not any(lines[at:at + 1] == [hit.group(2)] for lines in told):
                wrong(f"{name}:{number}", f"no such line {at + 1}: {hit.group(2)}")


def anchors_of(path):
    """The headings of a document, as links write them."""
    with open(path, encoding="utf-8") as file:
        prose, _ = blocks_of(file.read())
    heads = (re.sub(r"^#+ ", "", line).lower() for line in prose if line.startswith("#"))
    return {re.sub(r"[^\w\- ]", "", head).replace(" ", "-") for head in heads}


def try_links(name, prose):
    """Follows the links within the repository."""
    for number, line in enumerate(prose, 1):
        for target in re.findall(r"\]\(([^)\s]+)\)", line):
            if "://" in target:
                continue
            COUNTS["links"] += 1
            path, _, anchor = target.partition("#")
            path = os.path.join(os.path.dirname(name), path) if path else name
            path = os.path.normpath(os.path.join(TOP, path))
            if not os.path.exists(path) or anchor and anchor not in anchors_of(path):
                wrong(f"{name}:{number}", f"a link that leads nowhere: {target}")


def try_document(folder, name):
    """Tries all that a document shows."""
    with open(os.path.join(TOP, name), encoding="utf-8") as file:
        prose, blocks = blocks_of(file.read())
    for number, mark, comment, lines in blocks:
        try_block(folder, f"{name}:{number}", mark, comment, lines)
    try_spans(folder, name, prose)
    try_rows(name, prose)
    try_links(name, prose)


def try_links_of_others():
    """Follows the links of the documents of which nothing else is tried."""
    for path in sorted(glob.glob(os.path.join(TOP, "*.md"))
                       + glob.glob(os.path.join(TOP, "*", "*.md"))):
        name = os.path.relpath(path, TOP)
        if name not in DOCUMENTS:
            with open(path, encoding="utf-8") as file:
                try_links(name, blocks_of(file.read())[0])


def try_help(folder):
    """Compares the text of --help with the one of the launcher where nothing is built."""
    bare = os.path.join(folder, "bare")
    os.makedirs(os.path.join(bare, "crates/mat_main/src"))
    shutil.copy(os.path.join(TOP, "matbench"), bare)
    shutil.copytree(os.path.join(TOP, "launcher"), os.path.join(bare, "launcher"))
    shutil.copy(os.path.join(TOP, "crates/mat_main/src/help.rt"),
                os.path.join(bare, "crates/mat_main/src"))
    printed, status = run(folder, "./bare/matbench --help")
    if status != 0 or max(map(len, printed.splitlines()), default=0) > 100:
        wrong("matbench", f"--help ends with {status}, or has a line of more than 100 columns")
    compare(folder, "matbench", "./matbench --help", printed)


def main():
    """Tries each document with the program."""
    program = os.path.abspath(sys.argv[1] if len(sys.argv) > 1
                              else os.path.join(TOP, "crates/mat_main/out/mat_main"))
    if not os.access(program, os.X_OK):
        sys.exit(f"shown.py: {program}: there is no such program; "
                 "./matbench --version puts it there")
    folder = tempfile.mkdtemp(prefix="shown")
    os.symlink(program, os.path.join(folder, "matbench"))
    # The scripts of examples/many/ and the Python package take this program then.
    os.environ["MATBENCH"] = os.environ["MATBENCH_PROGRAM"] = program
    os.environ.pop("MATBENCH_LIBRARY", None)
    os.environ["MATBENCH_QUIET"] = "yes"
    os.environ["PYTHONPATH"] = os.path.join(TOP, "bindings")
    for name in ("bench", "crates", "docs", "examples"):
        os.symlink(os.path.join(TOP, name), os.path.join(folder, name))
    try:
        for name in DOCUMENTS:
            try_document(folder, name)
        try_links_of_others()
        try_help(folder)
    finally:
        shutil.rmtree(folder)
    print(", ".join(f"{number} {what}" for what, number in COUNTS.items()))
    passed = sum(COUNTS[what] for what in TESTS) - COUNTS["wrong"]
    print(f"{passed} passed, {COUNTS['wrong']} failed")
    sys.exit(1 if COUNTS["wrong"] else 0)


main()
