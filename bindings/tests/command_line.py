"""Tests of what the commands of `python3 -m matbench` share: how a command ends, progress, tables,
and calls of the program where there is no library.

The program is the one that the environment variable MATBENCH_PROGRAM names, or else
crates/mat_main/out/mat_main.
"""
import io
import os
import pathlib
import shutil
import subprocess
import sys
import tempfile
import unittest
import unittest.mock

HERE = pathlib.Path(__file__).resolve().parent
TOP = HERE.parent.parent
PEOPLE = TOP / "examples" / "people.txt"
PROGRAM = os.environ.setdefault("MATBENCH_PROGRAM", str(TOP / "crates/mat_main/out/mat_main"))
sys.path.insert(0, str(HERE.parent))

import matbench  # noqa: E402
from matbench import command_lines, program, progress, tables  # noqa: E402
from matbench.faults import InputFault  # noqa: E402


def ran(*words, given=b"", **settings):
    """The status, the output and the notes of a command."""
    done = subprocess.run([sys.executable, "-m", "matbench", *words], input=given,
                          capture_output=True, check=False,
                          env={**os.environ, "PYTHONPATH": str(HERE.parent), **settings})
    return done.returncode, done.stdout.decode(), done.stderr.decode()


class Ends(unittest.TestCase):
    """How a command ends."""

    def test_help_lists_the_commands_and_what_is_none_is_told(self):
        status, text, _ = ran("--help")
        self.assertEqual(status, 0)
        self.assertIn("python3 -m matbench roster", text)
        self.assertEqual(ran()[0], 2)
        status, text, note = ran("rooster")
        self.assertEqual((status, text), (2, ""))
        self.assertIn("rooster is no command here; these are: roster, ", note)

    def test_what_a_person_gave_wrong_is_one_line_and_status_2(self):
        cases = [(InputFault("no such table"), "no such table"),
                 (matbench.OutOfMemory(7, "refused: memory"), "there is not enough memory"),
                 (matbench.WrongShape(9, "refused: wrong shape"), "refused: wrong shape"),
                 (FileNotFoundError(2, "No such file", "a.csv"), "a.csv: No such file"),
                 (RecursionError(), "nested too deeply"),
                 (matbench.NoLibrary("nowhere"), "matbench is not here: nowhere")]
        for error, told in cases:
            with self.subTest(error=error), \
                    unittest.mock.patch("sys.stderr", io.StringIO()) as notes:
                status = command_lines.run("roster", unittest.mock.Mock(side_effect=error), [])
                self.assertEqual(status, 2)
                self.assertEqual(notes.getvalue().count("\n"), 1)
                self.assertIn(told, notes.getvalue())

    def test_a_reader_that_has_gone_is_no_fault(self):
        done = subprocess.run(f"{sys.executable} -m matbench --help | true", shell=True,
                              capture_output=True, text=True, check=True,
                              env={**os.environ, "PYTHONPATH": str(HERE.parent)})
        self.assertEqual(done.stderr, "")

    def test_a_file_that_cannot_be_written_is_told(self):
        with self.assertRaisesRegex(InputFault, "/nowhere/it.csv cannot be written: No such file"):
            command_lines.write("x", "/nowhere/it.csv")


class OfTheProgram(unittest.TestCase):
    """Calls of the program."""

    def call(self, *words, room=1 << 20, timeout=None, **files):
        """A call of the program as the package makes it."""
        return program.run(PROGRAM, words, files, room, timeout)

    def test_it_gives_what_the_command_gives(self):
        wanted = subprocess.run([PROGRAM, "intersect", PEOPLE], capture_output=True, check=True)
        self.assertEqual(self.call("intersect", "f", f=PEOPLE.read_bytes()),
                         (0, wanted.stdout, ""))
        status, output, note = self.call("intersect", "f", f=b"matroids 1\n")
        self.assertEqual((status, output), (3, b""))
        self.assertRegex(note, "^refused: description ")
        self.assertEqual(self.call("intersect", "f"), (5, b"", "refused: read fault"))
        self.assertEqual(self.call("intersect", "f", room=10, f=PEOPLE.read_bytes()),
                         (6, wanted.stdout[:10], "refused: write fault"))

    def test_a_name_stays_in_the_folder_and_time_ends(self):
        for name in ("../f", "/tmp/f", "-", "..", ""):
            with self.subTest(name=name), self.assertRaises(ValueError):
                program.run(PROGRAM, ["show", name], {name: b""}, 100, None)
        with self.assertRaises(TimeoutError):
            program.run("/bin/sleep", ["5"], {}, 100, 0.1)
        with self.assertRaises(matbench.NoLibrary):
            program.run("/etc/passwd", [], {}, 100, None)

    def test_without_a_library_the_package_takes_the_program(self):
        script = ("import matbench, pathlib, sys\n"
                  "answer = matbench.intersect(pathlib.Path(sys.argv[1]))\n"
                  "print(answer.best.weight, bool(matbench.check(answer.problem, answer)))\n"
                  "try: matbench.intersect('matroids 1\\n')\n"
                  "except matbench.BadDescription as error: print(error.line)\n"
                  "jobs = [('intersect', answer.problem)]\n"
                  "print([len(it.rungs) for it in matbench.batch(jobs)])")
        with tempfile.TemporaryDirectory() as folder:
            shutil.copytree(HERE.parent / "matbench", f"{folder}/matbench",
                            ignore=shutil.ignore_patterns("*.so"))
            os.makedirs(f"{folder}/bin")
            os.symlink(PROGRAM, f"{folder}/bin/matbench")
            for settings in ({"MATBENCH_PROGRAM": PROGRAM}, {"PATH": f"{folder}/bin:/usr/bin"}):
                with self.subTest(settings=settings):
                    done = subprocess.run([sys.executable, "-c", script, str(PEOPLE)], cwd=folder,
                                          capture_output=True, text=True, check=False,
                                          env={"PATH": "/usr/bin:/bin", **settings})
                    self.assertEqual((done.stdout, done.stderr), ("25 True\n2\n[6]\n", ""))

    def checkout(self, folder, launcher):
        """A checkout with the package and this launcher, and how a command ends in it."""
        shutil.copytree(HERE.parent / "matbench", f"{folder}/bindings/matbench",
                        ignore=shutil.ignore_patterns("*.so"))
        for name in ("release", "kit", "crates/mat_main/out"):
            os.makedirs(f"{folder}/{name}")
        for name, text, mode in (("release/CONTENTS", "", 0o644), ("matbench", launcher, 0o755),
                                 ("kit/rt", "#!/bin/sh\n", 0o755)):
            path = pathlib.Path(folder, name)
            path.write_text(text)
            path.chmod(mode)
        done = subprocess.run(
            [sys.executable, "-m", "matbench", "plan", str(PEOPLE)], capture_output=True, text=True,
            check=False, env={"PATH": f"{folder}/kit:/usr/bin:/bin",
                              "PYTHONPATH": f"{folder}/bindings"})
        return done.returncode, done.stdout[:4], done.stderr

    def test_in_a_fresh_checkout_its_launcher_is_started(self):
        placed = (f"#!/bin/sh\ncp {PROGRAM} ${{0%/*}}/crates/mat_main/out/mat_main\n"
                  "echo 'this is the released program' >&2\n")
        once = f"#!/bin/sh\nexec {PROGRAM} \"$@\"\n"
        for launcher, told in ((placed, "this is the released program\n"), (once, "")):
            with self.subTest(told=told), tempfile.TemporaryDirectory() as folder:
                self.assertEqual(self.checkout(folder, launcher), (0, "BEST", told))

    def test_a_launcher_that_has_no_program_is_told_and_nothing_is_built(self):
        builds = "#!/bin/sh\ncommand -v rt >&2 && exit 0\necho 'no program\nis here' >&2\nexit 70\n"
        with tempfile.TemporaryDirectory() as folder:
            self.assertEqual(self.checkout(folder, builds), (
                2, "", f"matbench plan: matbench is not here: {folder}/matbench has put no program"
                       " at hand, as it was started without rt; start it by hand where it is to"
                       " prove and build one. It says: no program is here\n"))

    def test_a_program_that_is_named_and_missing_is_told(self):
        status, _, note = ran("--version", MATBENCH_PROGRAM="/nowhere/it")
        self.assertEqual(status, 2)
        self.assertIn("MATBENCH_PROGRAM names /nowhere/it, and there is no such program", note)


class Shown(unittest.TestCase):
    """Progress and tables."""

    def test_progress_begins_after_two_seconds(self):
        stream = io.StringIO()
        with unittest.mock.patch("time.monotonic", side_effect=[0, 1.9, 2.1, 5, 12.5]):
            shown = progress.Progress("limits", stream)
            for what in ("one", "two", "three", "four"):
                shown.tell(what)
        self.assertEqual(stream.getvalue(),
                         "matbench limits: two, 2 s\nmatbench limits: four, 12 s\n")

    def test_progress_of_a_terminal_goes_away(self):
        stream = io.StringIO()
        stream.isatty = lambda: True
        with unittest.mock.patch("time.monotonic", side_effect=[0, 3, 3.1, 3.5]), \
                progress.Progress("limits", stream) as shown:
            for what in ("one", "two", "three"):
                shown.tell(what)
        self.assertEqual(stream.getvalue(), "\r\033[Kmatbench limits: one, 3 s"
                                            "\r\033[Kmatbench limits: three, 4 s\r\033[K")

    def test_tables_have_columns_for_wide_names_too(self):
        table = tables.Table(["name", "gain"], [["李娜", 5], ["Zoe\u0308", 12], ["Al", None]])
        self.assertEqual(table.text(), "name  gain\n----  ----\n李娜     5\nZoe\u0308     12\nAl\n")
        self.assertEqual(table.csv(), "name,gain\n李娜,5\nZoe\u0308,12\nAl,\n")
        self.assertEqual(table.records()[0], {"name": "李娜", "gain": 5})
        self.assertIn('"name": "李娜"', tables.json_of(table.records()))


if __name__ == "__main__":
    unittest.main()
