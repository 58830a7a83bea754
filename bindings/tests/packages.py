"""Tests of the wheel and of the archive for C that bindings/pack.py made: they are installed and
used as by someone who has nothing else, without a network.

It needs `python3 -m venv`, cc and objdump. Where pkg-config is not there, the flags of its files
are read here.
"""
import hashlib
import pathlib
import re
import shutil
import subprocess
import sys
import tarfile
import tempfile
import unittest

import documents

BINDINGS = documents.BINDINGS
OUT = BINDINGS / "out"
PEOPLE = documents.TOP / "examples" / "people.txt"
SOURCE = documents.TOP / "crates" / "mat_main" / "src" / "help.rt"
#: The number in the name of the shared library, which a change that breaks its callers raises.
NUMBER = 1
#: What is printed by an installed package: its version by both ways, and an answer.
SCRIPT = """
import importlib.metadata, pathlib, sys, matbench
print(matbench.__version__, importlib.metadata.version("matbench"))
answer = matbench.intersect(pathlib.Path(sys.argv[1]))
print(answer.best.members, answer.best.weight, bool(matbench.check(answer.problem, answer)))
print(pathlib.Path(matbench.__file__).with_name("py.typed").exists())
"""
#: Prints what the macros of a header are.
MACROS = """
#include "HEADER"
#include <stdio.h>
int main(void) {
    printf("%s", MATBENCH_VERSION);
#ifdef MATBENCH_ROOM
    printf(" %zu %zu", MATBENCH_ROOM, MATBENCH_BATCH_ROOM);
#endif
    return 0;
}
"""


def version():
    """The version that the source of the program has."""
    return re.search(r'VERSION: &str = "matbench ([0-9.]+)\\n"', SOURCE.read_text())[1]


def only(pattern):
    """The one file of out/ of this form."""
    found = list(OUT.glob(pattern))
    if len(found) != 1:
        raise AssertionError(f"there is not one {pattern} in {OUT}: bindings/pack.py makes it")
    return found[0]


def run(*words, **more):
    """What a command prints. It has to end with 0."""
    done = subprocess.run(words, capture_output=True, text=True, check=False, **more)
    if done.returncode:
        raise AssertionError(f"{words} ends with {done.returncode}: {done.stdout}{done.stderr}")
    return done.stdout


def checksum(path):
    """The checksum of a file."""
    return hashlib.sha256(path.read_bytes()).hexdigest()


class Temporary(unittest.TestCase):
    """A test with a folder of its own."""

    def setUp(self):
        folder = tempfile.TemporaryDirectory()
        self.addCleanup(folder.cleanup)
        self.folder = pathlib.Path(folder.name)


class Wheel(Temporary):
    """The wheel, in a new environment that has no other package."""

    def install(self, what):
        """Installs this in a new environment, and answers its Python."""
        run(sys.executable, "-m", "venv", str(self.folder / "new"))
        python = str(self.folder / "new" / "bin" / "python3")
        run(python, "-m", "pip", "install", "--quiet", "--no-index",
            "--disable-pip-version-check", str(what))
        return python

    def test_it_is_installed_and_answers(self):
        python = self.install(only("matbench-*.whl"))
        wanted = f"{version()} {version()}\n(0, 3, 4, 6) 25 True\nTrue\n"
        self.assertEqual(run(python, "-I", "-c", SCRIPT, str(PEOPLE), cwd=self.folder), wanted)
        readme = BINDINGS / "packing" / "wheel.md"
        programs = list(documents.examples(readme, ("python",)))
        self.assertEqual(len(programs), 1)
        for _, program, printed in programs:
            self.assertEqual(run(python, "-I", "-c", program, cwd=self.folder), printed)
        shown = run(python, "-m", "pip", "show", "--files", "matbench")
        self.assertIn("Summary: Weighted optimisation over matroids", shown)
        self.assertIn("matbench/libmatbench.so", shown)

    def test_the_folder_is_installed_as_the_same_wheel(self):
        python = self.install(only("matbench-*.whl"))
        run(python, "-m", "pip", "wheel", "--quiet", "--no-index", "--no-deps",
            "--disable-pip-version-check", "-w", str(self.folder / "made"), str(BINDINGS))
        made, = (self.folder / "made").iterdir()
        self.assertEqual(made.name, only("matbench-*.whl").name)
        self.assertEqual(checksum(made), checksum(only("matbench-*.whl")))

    def test_its_tag_names_a_glibc_that_has_all_that_the_library_asks_for(self):
        asked = [tuple(map(int, it.split("."))) for it in re.findall(
            r"\(GLIBC_([0-9.]+)\)", run("objdump", "-T", str(OUT / "libmatbench.so")))]
        tag = re.search(r"-py3-none-manylinux_(\d+)_(\d+)_x86_64\.whl$", only("*.whl").name)
        self.assertGreater(len(asked), 10)
        self.assertLessEqual(max(asked), (int(tag[1]), int(tag[2])))


class Archive(Temporary):
    """The archive for C, in some folder."""

    def setUp(self):
        super().setUp()
        with tarfile.open(only("matbench-c-*.tar.xz")) as archive:
            archive.extractall(self.folder)
        self.place, = self.folder.iterdir()

    def flags(self, name):
        """The words for the compiler, by pkg-config or by its file."""
        libraries = self.place / "lib" / "pkgconfig"
        if shutil.which("pkg-config"):
            return run("pkg-config", "--cflags", "--libs", name,
                       env={"PATH": "/usr/bin:/bin", "PKG_CONFIG_PATH": str(libraries)}).split()
        text = (libraries / f"{name}.pc").read_text()
        values = {"pcfiledir": str(libraries), **dict(re.findall(r"^(\w+)=(.*)$", text, re.M))}
        words = " ".join(re.findall(r"^(?:Cflags|Libs): (.*)$", text, re.M))
        while "$" in words:
            words = re.sub(r"\$\{(\w+)\}", lambda it: values[it[1]], words)
        return words.split()

    def test_the_examples_of_the_documents_are_compiled_with_it(self):
        count = 0
        document = documents.TOP / "docs" / "BINDINGS.md"
        for _, program, wanted in documents.examples(document, ("c",)):
            count += 1
            with self.subTest(program=program):
                flags = self.flags(documents.library_of(program))
                self.assertIn(str(self.folder), " ".join(flags))
                self.assertEqual(documents.printed_by_c(program, self.folder, flags), wanted)
        self.assertEqual(count, 2)

    def test_the_headers_have_the_version_and_rooms_that_do_not_overflow(self):
        rooms = {"matbench": " 67108864 2147483648", "matbench_line": ""}
        for name, room in rooms.items():
            with self.subTest(name=name):
                program = MACROS.replace("HEADER", f"{name}.h")
                printed = documents.printed_by_c(program, self.folder, self.flags(name))
                self.assertEqual(printed, version() + room)
                packed = (self.place / "lib" / "pkgconfig" / f"{name}.pc").read_text()
                self.assertIn(f"\nVersion: {version()}\n", packed)
        self.assertEqual(self.place.name, f"matbench-c-{version()}")


class Shared(Temporary):
    """The shared library, which a program is linked to when it starts."""

    def test_a_program_is_linked_to_the_name_with_a_version(self):
        document = documents.TOP / "docs" / "BINDINGS.md"
        program, wanted = next((program, wanted) for _, program, wanted
                               in documents.examples(document, ("c",)) if "matbench.h" in program)
        flags = [f"-I{OUT}", f"-L{OUT}", "-lmatbench", f"-Wl,-rpath,{OUT}"]
        self.assertEqual(documents.printed_by_c(program, self.folder, flags), wanted)
        needed = re.findall(r"NEEDED +(\S+)", run("objdump", "-p", str(self.folder / "example")))
        self.assertIn(f"libmatbench.so.{NUMBER}", needed)


class Bytes(Temporary):
    """What is packed of the same inputs is the same, in any folder."""

    def pack(self):
        """Makes both packages in a copy of what they are made of."""
        for part in ("matbench", "packing", "pack.py"):
            copy = shutil.copytree if (BINDINGS / part).is_dir() else shutil.copy
            copy(BINDINGS / part, self.folder / part)
        (self.folder / "out").mkdir()
        for path in [*OUT.glob("*.a"), *OUT.glob("*.h"), OUT / "libmatbench.so"]:
            shutil.copyfile(path, self.folder / "out" / path.name)
        return subprocess.run([sys.executable, str(self.folder / "pack.py")], text=True,
                              capture_output=True, check=False)

    def test_a_second_packing_has_the_same_bytes(self):
        self.assertEqual(self.pack().returncode, 0)
        for pattern in ("matbench-*.whl", "matbench-c-*.tar.xz"):
            made, = (self.folder / "out").glob(pattern)
            self.assertEqual(made.name, only(pattern).name)
            self.assertEqual(checksum(made), checksum(only(pattern)))

    def test_what_is_missing_or_of_another_version_is_told(self):
        self.assertEqual(self.pack().returncode, 0)
        command = [sys.executable, str(self.folder / "pack.py")]
        for name, edit, told in (
                ("matbench.h", lambda path: path.write_text('#define MATBENCH_VERSION "9.9.9"\n'),
                 f"version {version()}, and .*matbench.h is not"),
                ("libmatbench.a", lambda path: path.unlink(), "libmatbench.a is missing"),
                ("libmatbench.so", lambda path: path.write_text("x"), "is not the library"),
                ("libmatbench.so", lambda path: path.unlink(), "libmatbench.so is missing")):
            with self.subTest(name=name, told=told):
                kept = (self.folder / "out" / name).read_bytes()
                edit(self.folder / "out" / name)
                done = subprocess.run(command, capture_output=True, text=True, check=False)
                self.assertEqual((done.returncode, done.stdout), (1, ""))
                self.assertRegex(done.stderr, f"^pack.py: .*{told}")
                self.assertNotIn("Traceback", done.stderr)
                (self.folder / "out" / name).write_bytes(kept)


def main():
    """Runs the tests, if the packages are made."""
    try:
        only("matbench-*.whl")
        only("matbench-c-*.tar.xz")
    except AssertionError as error:
        sys.exit(f"packages.py: {error}")
    unittest.main()


if __name__ == "__main__":
    main()
