"""Runs the programs that docs/BINDINGS.md shows: each block marked `python` or `c` has to print
what the block after it has.

They run at the top of the repository, with examples/people.txt as standard input, over what
bindings/build.sh built. One that uses networkx is left out where this is not there.
"""
import importlib.util
import os
import pathlib
import re
import subprocess
import sys
import tempfile

BINDINGS = pathlib.Path(__file__).resolve().parent.parent
TOP = BINDINGS.parent
#: How an example in C is compiled.
COMPILER = ["cc", "-std=c11", "-Wall", "-Wextra", "-Werror"]


def examples(path, languages):
    """The programs of a document in these languages, each with its language and what it prints."""
    text = path.read_text(encoding="utf-8")
    blocks = re.findall(r"^```(\w*)\n(.*?)^```$", text, re.M | re.S)
    for (language, program), (_, wanted) in zip(blocks, blocks[1:]):
        if language in languages:
            yield language, program, wanted


def run(words, **more):
    """What a command prints, to standard output and standard error in their order."""
    with open(TOP / "examples" / "people.txt", "rb") as given:
        done = subprocess.run(words, cwd=TOP, stdin=given, stdout=subprocess.PIPE,
                              stderr=subprocess.STDOUT, text=True, check=False, **more)
    return done.stdout + (f"status {done.returncode}\n" if done.returncode else "")


def library_of(program):
    """The library that a program in C needs, by its header."""
    return "matbench_line" if "matbench_line.h" in program else "matbench"


def printed_by_c(program, folder, flags):
    """What a program in C prints, or its compiler. It is compiled in a folder."""
    source = pathlib.Path(folder, "example.c")
    source.write_text(program, encoding="utf-8")
    made = str(source.with_suffix(""))
    told = run([*COMPILER, str(source), *flags, "-o", made])
    return told or run([made])


def printed(language, program, folder):
    """What a program in this language prints over what bindings/build.sh built."""
    if language == "c":
        out = BINDINGS / "out"
        library = f"{out}/lib{library_of(program)}.a"
        return printed_by_c(program, folder, [f"-I{out}", library, "-pthread"])
    source = pathlib.Path(folder, "example.py")
    source.write_text(program, encoding="utf-8")
    return run([sys.executable, str(source)], env={**os.environ, "PYTHONPATH": str(BINDINGS)})


def main():
    """Runs all of them, and says how many print something else."""
    count, wrong = 0, 0
    has_networkx = importlib.util.find_spec("networkx")
    for language, program, wanted in examples(TOP / "docs" / "BINDINGS.md", ("python", "c")):
        if "import networkx" in program and not has_networkx:
            continue
        with tempfile.TemporaryDirectory() as folder:
            given = printed(language, program, folder)
        count += 1
        if given != wanted:
            wrong += 1
            print(f"docs/BINDINGS.md: the program in {language} prints\n{given}and not\n{wanted}")
    print(f"documents.py: {count} programs, {wrong} wrong")
    return 1 if wrong or count == 0 else 0


if __name__ == "__main__":
    sys.exit(main())
