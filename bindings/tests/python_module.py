"""Tests of the Python package: what its answers, exceptions and descriptions are.

That its bytes are the program's, answers.py tests.
"""
import _ctypes
import inspect
import os
import pathlib
import pickle
import re
import resource
import shutil
import subprocess
import sys
import tempfile
import threading
import traceback
import unittest
import unittest.mock
import xml.etree.ElementTree

HERE = pathlib.Path(__file__).resolve().parent
EXAMPLES = HERE.parent.parent / "examples"
sys.path.insert(0, str(HERE.parent))

import matbench  # noqa: E402
from python_plain import PlainData, Weights  # noqa: E402,F401 (their tests run here too)

try:
    import networkx
except ImportError:
    networkx = None
PATH = "matroids 1\ngraph 3 2\nedge 0 1\nedge 1 2\nend\n"
TOWNS = EXAMPLES / "towns.txt"


class Library(unittest.TestCase):
    """Where the library is looked for, and what is told where it is not there."""

    def told(self, folder=HERE.parent, library=None):
        """What a first call of the package in a folder raises, by its name and in words."""
        script = ("import matbench\n"
                  "try: matbench.version()\n"
                  "except OSError as error: print(type(error).__name__, error, sep=': ')\n")
        settings = {key: it for key, it in os.environ.items() if not key.startswith("MATBENCH_")}
        settings["PATH"] = "/usr/bin:/bin"
        if library:
            settings["MATBENCH_LIBRARY"] = str(library)
        done = subprocess.run([sys.executable, "-c", script], cwd=folder, env=settings,
                              capture_output=True, text=True, check=False)
        self.assertEqual(done.stderr, "")
        return done.stdout

    def test_a_missing_library_is_told_with_where_it_may_be(self):
        with tempfile.TemporaryDirectory() as folder:
            shutil.copytree(HERE.parent / "matbench", f"{folder}/matbench")
            told = self.told(folder)
        self.assertRegex(told, "^NoLibrary: there is no libmatbench.so in ")
        for word in (f"{folder}/matbench,", f"{folder}/out", "build.sh", "MATBENCH_LIBRARY"):
            self.assertIn(word, told)

    def test_a_library_that_is_named_and_missing_is_told(self):
        told = self.told(library="/nowhere/it.so")
        self.assertRegex(told, "^NoLibrary: .*MATBENCH_LIBRARY names /nowhere/it.so, and there is")

    def test_what_is_no_library_of_matbench_is_told(self):
        told = self.told(library=EXAMPLES / "people.txt")
        self.assertRegex(told, "^NoLibrary: .*people.txt cannot be loaded: it is for Linux")
        told = self.told(library=_ctypes.__file__)
        self.assertRegex(told, "^NoLibrary: .* it has no matbench_call")

    def test_the_library_is_found_beside_the_package_and_in_it(self):
        for place in ("libmatbench.so", "out/libmatbench.so", "matbench/libmatbench.so"):
            with self.subTest(place=place), tempfile.TemporaryDirectory() as folder:
                shutil.copytree(HERE.parent / "matbench", f"{folder}/matbench")
                os.makedirs(f"{folder}/out")
                shutil.copy(HERE.parent / "out" / "libmatbench.so", f"{folder}/{place}")
                self.assertEqual(self.told(folder), "")

    def test_the_version_is_that_of_the_source(self):
        source = HERE.parent.parent / "crates" / "mat_main" / "src" / "help.rt"
        wanted = re.search(r'VERSION: &str = "matbench ([0-9.]+)\\n"', source.read_text())[1]
        self.assertEqual(matbench.__version__, wanted)
        with self.assertRaises(AttributeError):
            matbench.__versoin__


class Answers(unittest.TestCase):
    """What the commands answer."""

    def test_a_ladder_has_a_rung_for_each_size(self):
        answer = matbench.intersect(EXAMPLES / "people.txt")
        self.assertEqual([rung.weight for rung in answer.rungs], [0, 8, 15, 22, 25, 23])
        self.assertEqual(answer.best.members, (0, 3, 4, 6))
        sums = [a + b for a, b in zip(answer.best.first, answer.best.second)]
        self.assertEqual(sums, [8, 5, 2, 6, 7, 7, 4, 3, -2])
        self.assertEqual(answer.cut, ())
        self.assertTrue(matbench.check(EXAMPLES / "people.txt", answer))

    def test_members_have_the_names_of_the_description(self):
        answer = matbench.intersect(EXAMPLES / "week.txt")
        self.assertIn("Ben.Mon.early", answer.best.members)
        self.assertEqual(matbench.arborescence(TOWNS).arcs, ("coast", "ridge", "pass"))

    def test_a_tie_stands_in_a_weight(self):
        best = matbench.intersect(EXAMPLES / "last_week.txt").best
        self.assertEqual(best.weight, matbench.Weight(15, 3))
        self.assertEqual(str(best.weight), "15:3")
        self.assertTrue(15 < best.weight < 16)
        self.assertTrue(matbench.Weight(15, -1) < 15 <= 15)

    def test_text_bytes_and_path_are_the_same_problem(self):
        path = EXAMPLES / "people.txt"
        self.assertEqual(matbench.intersect(path), matbench.intersect(path.read_text()))
        self.assertEqual(matbench.intersect(path), matbench.intersect(path.read_bytes(), workers=4))

    def test_best_has_no_cut_and_no_split(self):
        answer = matbench.best("matroids 1\nlist 3 1\nweights 7 6 5\nuniform 2\nend\n")
        self.assertEqual((answer.cut, answer.best.members, answer.best.first), (None, (0, 1), ()))

    def test_union_has_a_part_for_each_matroid_and_levels(self):
        answer = matbench.union("matroids 1\nlist 3 2\nweights 5 5 2\nuniform 1\nuniform 1\nend\n")
        self.assertEqual((answer.weight, len(answer.parts)), (10, 2))
        self.assertEqual(answer.levels[1], matbench.Level(2, (0, 1, 2)))

    def test_packing_and_covering_have_both_their_ends(self):
        none = "matroids 1\nlist 1 1\nweights 1\nuniform 0\nend\n"
        self.assertEqual((matbench.pack(none).bases, matbench.cover(none).uncovered), (None, (0,)))
        all_of = "matroids 1\nlist 2 1\nweights 1 1\nuniform 1\nend\n"
        self.assertEqual(matbench.pack(all_of).bases, ((0,), (1,)))
        self.assertEqual(matbench.cover(all_of).parts, ((0,), (1,)))

    def test_trees_or_classes(self):
        self.assertEqual(matbench.trees(PATH, 1).trees, ((0, 1),))
        self.assertIsNone(matbench.trees(PATH, 2).trees)
        self.assertEqual(matbench.trees(PATH, 2).classes, ((0,), (1,), (2,)))

    def test_arcs_or_unreached_vertices(self):
        apart = ("matroids 2\nrooted 2 1\nelements back\nvertices here there\nroot here\n"
                 "arc there here 1\nend\n")
        for answer in (matbench.arborescence(apart), matbench.cuts(apart)):
            self.assertEqual((answer.arcs, answer.unreached), (None, ("there",)))
        self.assertEqual(matbench.disjoint(apart, 1).entered, ("there",))
        priced = matbench.cuts(TOWNS)
        self.assertEqual(sum(it.price for it in priced.prices), priced.cost)
        self.assertEqual(len(matbench.disjoint(TOWNS, 1).trees), 1)

    def test_rainbow_has_colours_where_there_is_no_tree(self):
        self.assertIsNone(matbench.rainbow(EXAMPLES / "owners.txt").colours)
        self.assertIsNotNone(matbench.rainbow(EXAMPLES / "two_owners.txt").colours)

    def test_a_list_of_jobs_is_answered_in_its_order(self):
        first, second = matbench.batch([("intersect", EXAMPLES / "week.txt"), ("trees", PATH, 1)])
        self.assertEqual(first, matbench.intersect(EXAMPLES / "week.txt"))
        self.assertEqual(second.trees, ((0, 1),))
        with self.assertRaises(matbench.BadList):
            matbench.batch([("cuts", TOWNS)])

    def test_a_witness_shows_its_rung_and_no_other(self):
        problem = EXAMPLES / "people.txt"
        answer = matbench.intersect(problem)
        text = matbench.witness(problem, answer, 4)
        self.assertTrue(matbench.verify(problem, answer, 4, text))
        wrong = re.sub("^sets .*$", "sets", text, flags=re.M)
        verdict = matbench.verify(problem, answer, 4, wrong)
        self.assertEqual((bool(verdict), verdict.note), (False, "no witness 3 0"))

    def test_an_answer_is_told_and_drawn(self):
        for command, problem, result in (
                (matbench.intersect, EXAMPLES / "people.txt", "BEST: 4 elements, weight 25."),
                (matbench.arborescence, TOWNS, "BEST: 3 arcs, cost 9."),
                (lambda it: matbench.trees(it, 2), PATH, "NONE: it cannot be done.")):
            with self.subTest(result=result):
                answer = command(problem)
                self.assertIn(f"\n{result}\n", answer.told())
                drawn = xml.etree.ElementTree.fromstring(answer.picture())
                self.assertIn(result, "".join(drawn.itertext()))
                self.assertEqual(answer.told(), matbench.tell(problem, answer))
                self.assertEqual(answer.picture(), matbench.picture(problem, answer.certificate))
                self.assertEqual(answer._repr_svg_(), answer.picture())
        self.assertIsNone(matbench.cuts(TOWNS)._repr_svg_())

    def test_names_with_markup_stand_in_both(self):
        names = ["a&b", "<script>", '"q"', "&lt;", "]]>"]
        problem = (f"matroids 2\nlist 5 1\nelements {' '.join(names)}\nweights 5 4 3 2 1\n"
                   "uniform 4\nend\n")
        answer = matbench.best(problem)
        drawn = xml.etree.ElementTree.fromstring(answer.picture())
        texts = [it.text for it in drawn.iter() if it.text]
        for name in names[:4]:
            self.assertIn(name, texts)
            self.assertIn(name, answer.told())

    def test_texts(self):
        self.assertEqual(matbench.show(PATH), PATH)
        self.assertIn("elements e0 e1\n", matbench.convert(PATH))
        self.assertRegex(matbench.version(), r"^matbench \d+\.\d+\.\d+$")
        self.assertEqual(matbench.sample("pair", 2, 1),
                         "sample pair 2 1 size 1 weight 756 ladder 756 accepted")


class Refusals(unittest.TestCase):
    """What bad use gets."""

    def test_a_fault_has_its_kind_and_line(self):
        with self.assertRaises(matbench.BadDescription) as found:
            matbench.intersect("matroids 1\npair x\nend\n")
        error = found.exception
        self.assertEqual((error.status, error.kind), (3, 4))
        self.assertEqual((error.name, error.line), ("NumberSpelling", 2))
        note = "refused: description 4 NumberSpelling line 2"
        self.assertEqual((error.note, str(error)), (note, note))
        self.assertIsInstance(error, ValueError)

    def test_an_exception_comes_whole_from_another_process(self):
        with self.assertRaises(matbench.BadDescription) as found:
            matbench.intersect("matroids 1\npair x\nend\n")
        error = pickle.loads(pickle.dumps(found.exception))
        self.assertIs(type(error), matbench.BadDescription)
        self.assertEqual(str(error), "refused: description 4 NumberSpelling line 2")
        self.assertEqual((error.status, error.line), (3, 2))

    def test_a_letter_beyond_ascii_is_refused_by_its_line(self):
        with self.assertRaises(matbench.BadDescription) as found:
            matbench.show(PATH.replace("edge 1", "edgé 1"))
        self.assertEqual(found.exception.line, 4)

    def test_a_wrong_answer_has_its_reason(self):
        verdict = matbench.check(EXAMPLES / "people.txt", EXAMPLES / "people_wrong.answer")
        self.assertFalse(verdict)
        self.assertEqual(verdict.note, "no sum 4 6")
        with self.assertRaises(matbench.NotRight):
            matbench.witness(EXAMPLES / "people.txt", EXAMPLES / "people_wrong.answer", 4)

    def test_what_cannot_be_told_or_drawn_is_refused(self):
        people = EXAMPLES / "people.txt"
        for function in (matbench.tell, matbench.picture):
            with self.subTest(function=function.__name__):
                with self.assertRaises(matbench.NotRight) as found:
                    function(people, EXAMPLES / "people_wrong.answer")
                self.assertEqual(found.exception.note, "no sum 4 6")
                with self.assertRaises(matbench.BadDescription):
                    function("matroids 1\npair x\nend\n", matbench.intersect(people))
                with self.assertRaises(matbench.WrongShape):
                    function(TOWNS, matbench.intersect(people))
                with self.assertRaises(matbench.BadCertificate):
                    function(TOWNS, matbench.cuts(TOWNS))
                with self.assertRaises(FileNotFoundError):
                    function(people, pathlib.Path("nowhere"))
        for show in (matbench.cuts(TOWNS).told, matbench.cuts(TOWNS).picture):
            with self.assertRaisesRegex(TypeError, "arborescence"):
                show()
        for word in ("--tell", "--picture"):
            self.assertEqual(matbench.call([word, "f"], {"f": b""}).status, 2)
            self.assertEqual(matbench.call([word, "f", "c"], {"f": PATH.encode()}).status, 5)

    def test_each_refusal_has_its_exception(self):
        people, tasks = EXAMPLES / "people.txt", EXAMPLES / "tasks.txt"
        cost = "matroids 1\nrooted 2 1 0\narc 0 1 -1\nend\n"
        cases = [
            (matbench.UsageError, lambda: matbench.trees(PATH, 65)),
            (matbench.BadCertificate, lambda: matbench.check(people, "x")),
            (matbench.WrongShape, lambda: matbench.best(people)),
            (matbench.TooLong, lambda: matbench.show("x" * 4194305)),
            (matbench.BadWitness,
             lambda: matbench.verify(people, matbench.intersect(people), 4, "x")),
            (matbench.BadCost, lambda: matbench.cuts(cost)),
            (matbench.Unwitnessed, lambda: matbench.witness(tasks, matbench.intersect(tasks), 1)),
            (ValueError, lambda: matbench.sample("pair\0", 1, 1)),
            (ValueError, lambda: matbench.call(["show", "f"], {"f\0": b""})),
            (ValueError, lambda: matbench.call(["show", "f"], {"f": b""}, room=-1)),
            (FileNotFoundError, lambda: matbench.show(pathlib.Path("nowhere")))]
        for error, run in cases:
            with self.subTest(error=error), self.assertRaises(error):
                run()

    def test_the_name_of_a_file_is_no_text(self):
        for run in (lambda: matbench.intersect("people.txt"),
                    lambda: matbench.check(EXAMPLES / "people.txt", "people.answer"),
                    lambda: matbench.batch([("intersect", "people.txt")])):
            with self.assertRaises(matbench.FaultyText) as found:
                run()
            self.assertIn("pathlib.Path", "".join(traceback.format_exception(found.exception)))
        with self.assertRaises(matbench.BadDescription) as found:
            matbench.intersect("matroids 1\npair x\nend\n")
        self.assertNotIn("pathlib.Path", "".join(traceback.format_exception(found.exception)))

    def test_what_is_neither_a_text_nor_a_path_is_a_type_error(self):
        for it in (5, None, [PATH]):
            kind = type(it).__name__
            with self.subTest(it=it), self.assertRaisesRegex(TypeError, f"not a {kind}"):
                matbench.intersect(it)
        with self.assertRaisesRegex(TypeError, "not a int"):
            matbench.graph_description(3)

    def test_what_is_no_certificate_and_no_job_is_told(self):
        for text in ("", "certificate 1\nanswer show 1\nend\n", EXAMPLES / "people.txt"):
            with self.subTest(text=text), self.assertRaisesRegex(ValueError, "no certificate"):
                matbench.read_answer(EXAMPLES / "people.txt", text)
        for job in ("intersect", ("intersect",), (PATH, 1, 2, 3), (1, PATH)):
            with self.subTest(job=job), self.assertRaisesRegex(TypeError, "job 1 is no tuple"):
                matbench.batch([("trees", PATH, 1), job])

    def test_a_job_has_no_line_end_in_its_words(self):
        people = EXAMPLES / "people.txt"
        for job in (("intersect f0\njob intersect", people), ("best\n", people), ("", people),
                    ("trees", PATH, "2 f0\njob trees 1")):
            with self.subTest(job=job), self.assertRaises(matbench.BadList) as found:
                matbench.batch([("intersect", people), job])
            self.assertEqual(found.exception.note, "refused: list line 3")
            self.assertIn("neither a command nor a count", str(found.exception))

    def test_many_jobs_need_no_more_address_space_than_their_answers(self):
        script = ("import matbench, pathlib, resource\n"
                  "resource.setrlimit(resource.RLIMIT_AS, (1 << 30, 1 << 30))\n"
                  "jobs = [('intersect', pathlib.Path('../examples/people.txt'))] * 32\n"
                  "print(len(matbench.batch(jobs)))\n")
        done = subprocess.run([sys.executable, "-c", script], cwd=HERE.parent, capture_output=True,
                              text=True, check=False)
        self.assertEqual((done.stdout, done.stderr), ("32\n", ""))

    def test_jobs_whose_answers_need_more_room_than_one_get_it(self):
        jobs = [("intersect", EXAMPLES / "people.txt")] * 3
        length = len(matbench.intersect(EXAMPLES / "people.txt").certificate)
        for room in (length, length + 100):
            with self.subTest(room=room), unittest.mock.patch("matbench.batches.ROOM", room):
                self.assertEqual(len(matbench.batch(jobs)), 3)
        with unittest.mock.patch("matbench.batches.ROOM", length - 1):
            with self.assertRaises(matbench.WriteFault):
                matbench.batch(jobs)

    def test_a_file_that_is_too_long_is_not_read_whole(self):
        script = ("import matbench, pathlib, resource, sys\n"
                  "resource.setrlimit(resource.RLIMIT_AS, (1 << 29, 1 << 29))\n"
                  "long, people = map(pathlib.Path, sys.argv[1:])\n"
                  "for run in (lambda: matbench.show(long), lambda: matbench.check(people, long),\n"
                  "            lambda: matbench.read_answer(people, long)):\n"
                  "    try: run()\n"
                  "    except matbench.TooLong as error: print(error.status, error)\n")
        with tempfile.NamedTemporaryFile() as file:
            file.truncate(1 << 30)
            people = str(EXAMPLES / "people.txt")
            done = subprocess.run([sys.executable, "-c", script, file.name, people],
                                  cwd=HERE.parent, capture_output=True, text=True, check=False)
        wanted = "".join(f"8 refused: too long: {file.name} has more than {most} bytes\n"
                         for most in ("4,194,304", "67,108,864", "67,108,864"))
        self.assertEqual((done.stdout, done.stderr), (wanted, ""))

    def test_a_certificate_may_be_a_file_or_bytes(self):
        people = EXAMPLES / "people.txt"
        answer = matbench.intersect(people)
        self.assertEqual(matbench.read_answer(people, answer.certificate.encode()), answer)
        wrong = matbench.read_answer(people, EXAMPLES / "people_wrong.answer")
        self.assertEqual(wrong.rungs[4].weight, 25)

    def test_a_weight_without_a_tie_is_an_int(self):
        with self.assertRaisesRegex(ValueError, "an int: 3"):
            matbench.Weight(3, 0)

    def test_a_buffer_that_is_too_small_is_a_write_fault(self):
        ended = matbench.call(["show", "f"], {"f": PATH.encode()}, room=5)
        self.assertEqual((ended.status, ended.output), (6, b"matro"))
        self.assertEqual(ended.note, "refused: write fault")

    def test_no_memory_is_an_exception(self):
        script = ("import matbench, resource\n"
                  "matbench.version()\n"
                  "resource.setrlimit(resource.RLIMIT_AS, (200_000_000, 200_000_000))\n"
                  "held = []\n"
                  "try:\n while True: held.append(bytearray(1 << 20))\n"
                  "except MemoryError: held.pop()\n"
                  "try: matbench.sample('pair', 500, 1)\n"
                  "except matbench.OutOfMemory as error: print(error.status, error.note)\n")
        done = subprocess.run([sys.executable, "-c", script], cwd=HERE.parent, capture_output=True,
                              text=True, check=False)
        self.assertEqual((done.stdout, done.stderr), ("7 refused: memory\n", ""))

    def test_calls_at_once_in_several_threads_are_independent(self):
        wanted = {seed: matbench.sample("pair", 60, seed) for seed in range(1, 9)}
        wrong = []

        def work(seed):
            for _ in range(20):
                if matbench.sample("pair", 60, seed, workers=1 + seed % 2) != wanted[seed]:
                    wrong.append(seed)

        threads = [threading.Thread(target=work, args=(seed,)) for seed in wanted]
        for thread in threads:
            thread.start()
        for thread in threads:
            thread.join()
        self.assertEqual(wrong, [])

    def test_calls_leave_no_memory_behind(self):
        text = (EXAMPLES / "people.txt").read_bytes()
        for _ in range(200):
            matbench.intersect(text)
        before = resource.getrusage(resource.RUSAGE_SELF).ru_maxrss
        for _ in range(2000):
            matbench.intersect(text)
        self.assertLess(resource.getrusage(resource.RUSAGE_SELF).ru_maxrss - before, 4000)


#: Makes a problem whose answer takes minutes, and then what {} says.
LONG = """
import os, signal, sys, threading, time
import matbench
signal.signal(signal.SIGINT, signal.default_int_handler)
half = matbench.UnionOf(*[matbench.Uniform(100)] * 2)
problem = matbench.pair([it % 10 for it in range(400)],
                        matbench.Dual(matbench.UnionOf(half, matbench.Uniform(100))),
                        matbench.Dual(half))
began = time.monotonic()
{}
print(time.monotonic() - began < 30)
"""


class Waiting(unittest.TestCase):
    """Calls that take longer than their caller waits."""

    def printed(self, script):
        """What a script prints that works on a long problem."""
        # From 3.12 on Python warns of a fork beside other threads.
        done = subprocess.run([sys.executable, "-W", "ignore", "-c", LONG.format(script)],
                              cwd=HERE.parent, capture_output=True, text=True, check=False,
                              timeout=120)
        self.assertEqual(done.stderr, "")
        return done.stdout

    def test_ctrl_c_ends_the_wait_and_the_process_can_end(self):
        self.assertEqual(self.printed(
            "threading.Timer(1, os.kill, (os.getpid(), signal.SIGINT)).start()\n"
            "try: matbench.intersect(problem)\n"
            "except KeyboardInterrupt: print('interrupted')"), "interrupted\nTrue\n")

    def test_a_time_limit_ends_the_wait_in_any_thread(self):
        self.assertEqual(self.printed(
            "def work():\n"
            "    try: matbench.intersect(problem, timeout=0.5)\n"
            "    except TimeoutError as error: print(error)\n"
            "work()\n"
            "other = threading.Thread(target=work)\n"
            "other.start()\n"
            "other.join()\n"
            "print(matbench.assign([[7]], timeout=20).best.weight)"),
            "the call has not ended within 0.5 seconds\n" * 2 + "7\nTrue\n")

    def test_a_limit_that_is_long_enough_changes_nothing(self):
        people = EXAMPLES / "people.txt"
        answer = matbench.intersect(people)
        for timeout in (60, 1e300, float("inf")):
            self.assertEqual(matbench.intersect(people, timeout=timeout), answer)
        self.assertTrue(matbench.check(people, answer, timeout=60))
        self.assertEqual(answer.told(timeout=60), matbench.tell(people, answer, timeout=60))
        jobs = [("intersect", people)] * 2
        self.assertEqual(matbench.batch(jobs, timeout=60), [answer, answer])
        with self.assertRaises(matbench.BadDescription):
            matbench.show("x", timeout=60)
        with self.assertRaises(ZeroDivisionError):
            matbench.waiting.interruptibly(lambda: 1 // 0, 60)
        for timeout in (-1, float("nan")):
            with self.subTest(timeout=timeout), self.assertRaisesRegex(ValueError, "a timeout is"):
                matbench.intersect(people, timeout=timeout)

    def test_every_function_that_calls_takes_a_limit(self):
        names = [name for name, it in vars(matbench).items()
                 if inspect.isfunction(it) and it.__module__.endswith((".commands", ".batches"))]
        self.assertGreater(len(names), 19)
        for name in names:
            with self.subTest(name=name):
                self.assertIn("timeout", inspect.signature(getattr(matbench, name)).parameters)

    def test_a_thread_is_started_only_where_it_is_needed(self):
        people = EXAMPLES / "people.txt"
        with unittest.mock.patch("_thread.start_new_thread", side_effect=RuntimeError) as start:
            matbench.intersect(people)
            self.assertEqual(start.call_count, 0)
            # If no thread can be started, a call without a limit is made without one.
            self.assertIn("accepted", matbench.sample("pair", 2, 1))
            self.assertEqual(start.call_count, 1)
            with self.assertRaises(RuntimeError):
                matbench.intersect(people, timeout=60)

    def test_a_process_that_was_forked_during_a_call_makes_calls(self):
        self.assertEqual(self.printed(
            "threading.Thread(target=matbench.intersect, args=(problem,), daemon=True).start()\n"
            "time.sleep(0.5)\n"
            "child = os.fork()\n"
            "if child == 0:\n"
            "    found = matbench.sample('pair', 2, 1, workers=2, timeout=20)\n"
            "    os._exit(0 if found.endswith('ladder 756 accepted') else 1)\n"
            "print(os.waitpid(child, 0)[1])"), "0\nTrue\n")


@unittest.skipIf(networkx is None, "networkx is not there")
class Graphs(unittest.TestCase):
    """Descriptions of graphs of networkx."""

    def test_trees_are_edges_of_the_graph(self):
        graph = networkx.complete_graph(["Ada", "Ben", "Cleo", ("Dana", 4)])
        problem = matbench.graph_description(graph)
        answer = matbench.trees(problem, 2)
        for tree in answer.trees:
            self.assertTrue(networkx.is_tree(graph.edge_subgraph(tree)))
        self.assertTrue(matbench.check(problem, answer))
        nodes = {node for part in matbench.trees(problem, 3).classes for node in part}
        self.assertEqual(nodes, set(graph.nodes))

    def test_arborescences_are_the_cheapest(self):
        graph = networkx.gnp_random_graph(12, 0.4, seed=3, directed=True)
        for place, (_, _, data) in enumerate(graph.edges(data=True)):
            data["cost"] = (7 * place) % 11
        graph.remove_edges_from(list(graph.in_edges(0)))
        problem = matbench.rooted_description(graph, 0, cost="cost")
        wanted = networkx.minimum_spanning_arborescence(graph, attr="cost").size(weight="cost")
        self.assertEqual(matbench.arborescence(problem).cost, wanted)
        self.assertEqual(matbench.cuts(problem).cost, wanted)

    def test_parallel_edges_have_keys(self):
        graph = networkx.MultiGraph([("a", "b"), ("a", "b")])
        answer = matbench.trees(matbench.graph_description(graph), 2)
        self.assertEqual(sorted(answer.trees), [(("a", "b", 0),), (("a", "b", 1),)])

    def test_assignments_weigh_as_much_as_matchings(self):
        graph = networkx.Graph()
        graph.add_weighted_edges_from([("Ada", "till", 5), ("Ada", "door", 4), ("till", "Ben", 4)])
        answer = matbench.assign(matbench.table_description(graph, ["Ada", "Ben"]))
        matched = graph.edge_subgraph(answer.best.members)
        self.assertEqual(answer.best.weight, matched.size(weight="weight"))
        self.assertEqual(answer.best.weight, 8)
        self.assertEqual(sorted(answer.best.members), [("Ada", "door"), ("Ben", "till")])
        self.assertEqual(matbench.table_description(graph, ["Ada", "Ben", "Ada"]),
                         matbench.table_description(graph, ["Ada", "Ben"]))
        with self.assertRaises(ValueError):
            matbench.table_description(graph, ["Ada", "till"])

    def test_rainbow_forests_have_different_colours(self):
        graph = networkx.Graph()
        for u, v, colour in (("a", "b", "red"), ("b", "c", "red"), ("a", "c", "blue"),
                             ("c", "d", "red")):
            graph.add_edge(u, v, colour=colour)
        answer = matbench.rainbow(matbench.coloured_description(graph))
        colours = [graph.edges[edge]["colour"] for edge in answer.best.members]
        self.assertEqual(len(colours), len(set(colours)))
        self.assertTrue(set(answer.colours) <= {"red", "blue"})

    def test_forests_are_the_heaviest(self):
        graph = networkx.gnp_random_graph(15, 0.5, seed=1)
        for place, (_, _, data) in enumerate(graph.edges(data=True)):
            data["weight"] = 1 + (5 * place) % 13
        answer = matbench.best(matbench.forests_description(graph))
        wanted = networkx.maximum_spanning_tree(graph).size(weight="weight")
        self.assertEqual(answer.best.weight, wanted)

    def test_as_many_spanning_trees_are_packed_as_there_are(self):
        graph = networkx.gnp_random_graph(15, 0.5, seed=1)
        bases = matbench.pack(matbench.forests_description(graph)).bases
        for base in bases:
            self.assertTrue(networkx.is_tree(graph.edge_subgraph(base)))
        self.assertEqual(len({edge for base in bases for edge in base}), 14 * len(bases))
        # No more have room among the edges, since each has 14.
        self.assertEqual(len(bases), graph.number_of_edges() // 14)

    def test_nodes_have_their_names_in_words_and_pictures(self):
        graph = networkx.DiGraph([("Harbour", "Old Mill"), ("Old Mill", "Abbey")])
        answer = matbench.arborescence(matbench.rooted_description(graph, "Harbour"))
        self.assertIn("\n  Harbour-Old_Mill: Harbour to Old_Mill, cost 1\n", answer.told())
        self.assertIn(">Old_Mill</text>", answer.picture())
        self.assertEqual(answer.arcs, (("Harbour", "Old Mill"), ("Old Mill", "Abbey")))

    def test_what_is_no_name_is_a_number_in_words(self):
        for nodes in (["a", "x" * 33], ["a", "\u00e9"], ["a", ""], [1, "1"]):
            with self.subTest(nodes=nodes):
                answer = matbench.trees(matbench.graph_description(networkx.Graph([nodes])), 1)
                self.assertIn("(v0-v1)", answer.told())
                self.assertEqual(answer.trees, ((tuple(nodes),),))

    def test_a_graph_may_have_no_edges(self):
        graph = networkx.Graph()
        graph.add_nodes_from("ab")
        answer = matbench.trees(matbench.graph_description(graph), 1)
        self.assertEqual(answer.classes, (("a",), ("b",)))
        self.assertEqual(matbench.best(matbench.forests_description(graph)).best.members, ())
        self.assertEqual(matbench.assign(matbench.table_description(graph, "a")).best.members, ())
        self.assertEqual(matbench.rainbow(matbench.coloured_description(graph)).best.members, ())
        rooted = matbench.rooted_description(graph.to_directed(), "a")
        self.assertEqual(matbench.arborescence(rooted).unreached, ("b",))

    def hold_to_sentence(self, sentence, line, run):
        """A call raises what the program says of a number in a line, with a sentence."""
        with self.assertRaises(matbench.BadDescription) as found:
            run()
        error = found.exception
        note = f"refused: description 5 NumberRange line {line}"
        self.assertEqual((error.name, error.line, error.note), ("NumberRange", line, note))
        self.assertEqual(str(error), f"{note}: {sentence}")
        self.assertEqual(str(pickle.loads(pickle.dumps(error))), str(error))

    def test_too_many_nodes_or_none_are_told_in_words(self):
        makers = [(matbench.graph_description, networkx.Graph, 2),
                  (matbench.coloured_description, networkx.Graph, 2),
                  (matbench.forests_description, networkx.Graph, 5),
                  (lambda graph: matbench.rooted_description(graph, 0), networkx.DiGraph, 2)]
        for make, kind, line in makers:
            graph = kind()
            graph.add_nodes_from(range(501))
            with self.subTest(make=make):
                sentence = "the graph has 501 nodes, and a description has from 1 to 500"
                self.hold_to_sentence(sentence, line, lambda: make(graph))
        for make, kind, line in makers[:3]:
            with self.subTest(make=make):
                sentence = "the graph has 0 nodes, and a description has from 1 to 500"
                self.hold_to_sentence(sentence, line, lambda: make(kind()))

    def test_too_many_edges_rows_and_columns_are_told_in_words(self):
        graph = networkx.gnm_random_graph(100, 501, seed=1)
        sentence = "the graph has 501 edges, and a description has from 0 to 500"
        self.hold_to_sentence(sentence, 2, lambda: matbench.graph_description(graph))
        self.hold_to_sentence(sentence, 2, lambda: matbench.forests_description(graph))
        graph = networkx.empty_graph(502)
        sentence = "the graph has 501 {}, and a description has from 0 to 500"
        self.hold_to_sentence(sentence.format("rows"), 2,
                              lambda: matbench.table_description(graph, range(501)))
        self.hold_to_sentence(sentence.format("columns"), 2,
                              lambda: matbench.table_description(graph, [0]))

    def test_500_of_each_fit(self):
        graph = networkx.gnm_random_graph(500, 500, seed=1)
        self.assertIn("graph 500 500\n", matbench.show(matbench.graph_description(graph)))
        self.assertIn("list 500 1\n", matbench.show(matbench.forests_description(graph)))

    def test_an_attribute_that_no_edge_has_is_refused(self):
        graph = networkx.Graph([("a", "b"), ("b", "c")])
        for edge in graph.edges:
            graph.edges[edge].update(weight=5, colour="red")
        for run in (lambda: matbench.forests_description(graph, "wieght"),
                    lambda: matbench.coloured_description(graph, weight="wieght"),
                    lambda: matbench.table_description(graph, "b", "wieght"),
                    lambda: matbench.rooted_description(graph.to_directed(), "a", "wieght")):
            with self.assertRaisesRegex(ValueError, "no edge has the attribute 'wieght'"):
                run()
        graph.edges["a", "b"]["gain"] = 7
        best = matbench.best(matbench.forests_description(graph, "gain")).best
        self.assertEqual(best.weight, 8)

    def test_what_does_not_fit_is_refused(self):
        graph = networkx.Graph()
        graph.add_edge(1, 2, weight=0.5)
        with self.assertRaises(ValueError):
            matbench.forests_description(graph)
        for weight in ("5", None, float("inf"), float("nan")):
            graph.edges[1, 2]["weight"] = weight
            with self.subTest(weight=weight):
                with self.assertRaisesRegex(TypeError, "an int or a Weight"):
                    matbench.forests_description(graph)
        with self.assertRaises(TypeError):
            matbench.rooted_description(graph, 1)
        with self.assertRaises(TypeError):
            matbench.graph_description(networkx.DiGraph())
        with self.assertRaisesRegex(TypeError, "graph_description"):
            matbench.trees(graph, 1)
        with self.assertRaisesRegex(ValueError, "no node 'x'"):
            matbench.rooted_description(networkx.DiGraph([(1, 2)]), "x")
        with self.assertRaisesRegex(ValueError, "no node 'x'"):
            matbench.table_description(networkx.Graph([(1, 2)]), [1, "x"])
        with self.assertRaisesRegex(ValueError, "no attribute 'colour'"):
            matbench.coloured_description(graph)


if __name__ == "__main__":
    unittest.main()
