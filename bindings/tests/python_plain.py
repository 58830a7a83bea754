"""Tests of descriptions that are made of plain data, and of sums of weights, in the Python package.

python_module.py runs them too.
"""
import itertools
import pathlib
import sys
import types
import unittest
import unittest.mock

HERE = pathlib.Path(__file__).resolve().parent
EXAMPLES = HERE.parent.parent / "examples"
sys.path.insert(0, str(HERE.parent))

import matbench  # noqa: E402

try:
    import numpy
except ImportError:
    numpy = None


class Weights(unittest.TestCase):
    """Sums of weights."""

    def test_sums_are_exact_and_an_int_where_no_tie_is_left(self):
        weight = matbench.Weight
        self.assertEqual(weight(5, 2) + weight(3, -1), weight(8, 1))
        self.assertEqual(sum([weight(10 ** 30, 1), 4, weight(1, 1)]), weight(10 ** 30 + 5, 2))
        self.assertEqual((2 + weight(5, 2), weight(5, 2) - 2), (weight(7, 2), weight(3, 2)))
        self.assertEqual((2 - weight(5, 2), -weight(5, 2)), (weight(-3, -2), weight(-5, -2)))
        left = weight(5, 2) - weight(3, 2)
        self.assertEqual((left, type(left)), (2, int))
        for run in (lambda: weight(5, 2) + 0.5, lambda: 0.5 - weight(5, 2),
                    lambda: weight(5, 2) - "1"):
            with self.assertRaises(TypeError):
                run()

    def test_a_rung_weighs_as_much_as_its_members(self):
        problem = EXAMPLES / "last_week.txt"
        line = next(it for it in problem.read_text().split("\n") if it.startswith("weights "))
        pairs = [(*map(int, it.split(":")), 0)[:2] for it in line.split()[1:]]
        weights = [matbench.Weight(*it) if it[1] else it[0] for it in pairs]
        for rung in matbench.intersect(problem).rungs:
            self.assertEqual(sum(weights[it] for it in rung.members), rung.weight)


class PlainData(unittest.TestCase):
    """Descriptions of weights and matroids, of edges and of matrices."""

    def test_each_kind_of_matroid_has_its_lines(self):
        made = matbench.listed(
            [3, matbench.Weight(2, -1)],
            matbench.Uniform(2), matbench.Partition([(1, [1, 0])]),
            matbench.Laminar({1: [0], 2: [0, 1]}.items()),
            matbench.Graphic([("a", "b"), ("c", "b")]), matbench.Transversal([[0], [0, 1]]),
            matbench.Gammoid([("s", "a"), ("s", "b")], ["s"], ["a", "b"]),
            matbench.Binary(["01", [1, 1]]), matbench.Dual(matbench.Uniform(1)),
            matbench.Truncate(1, matbench.Restrict([1], matbench.Uniform(2))),
            matbench.UnionOf(matbench.Contract([0], matbench.Uniform(1)), matbench.Uniform(0)))
        self.assertEqual(made.text.decode().split("\n"), [
            "matroids 1", "list 2 10", "weights 3 2:-1",
            "uniform 2", "partition 1", "class 1 1 0",
            "laminar 2", "set 1 0", "set 2 0 1",
            "graphic 3", "edge 0 1", "edge 2 1", "transversal 2", "set 0", "set 0 1",
            "gammoid 3 2", "sources 0", "targets 1 2", "arc 0 1", "arc 0 2",
            "gf2 2", "column 01", "column 11", "dual", "uniform 1",
            "truncate 1", "restrict 1", "uniform 2",
            "union 2", "contract 0", "uniform 1", "uniform 0", "end", ""])
        self.assertEqual(matbench.union(made).weight, matbench.Weight(5, -1))

    def test_elements_may_be_keys_of_any_kind(self):
        wishes = {("Ada", "early"): 5, ("Ada", "late"): 4, ("Ben", "early"): 3}
        shifts, people = [{}, {}]
        for wish in wishes:
            people.setdefault(wish[0], []).append(wish)
            shifts.setdefault(wish[1], []).append(wish)
        by_shift, by_person = [matbench.Partition([(1, it) for it in groups.values()])
                               for groups in (shifts, people)]
        answer = matbench.intersect(matbench.pair(wishes, by_shift, by_person))
        self.assertEqual([rung.weight for rung in answer.rungs], [0, 5, 7])
        self.assertEqual(set(answer.best.members), {("Ada", "late"), ("Ben", "early")})
        self.assertIn("\n  Ada-late Ben-early\n", answer.told())
        # What an element has may be told by its key.
        ring = matbench.Graphic({"c": (2, 0), "a": (0, 1), "b": (1, 2)})
        made = matbench.listed({"a": 1, "b": 5, "c": 4}, ring)
        self.assertIn(b"\nedge 0 1\nedge 1 2\nedge 2 0\nend\n", made.text)
        self.assertEqual(set(matbench.best(made).best.members), {"b", "c"})

    def test_a_matroid_may_be_used_twice_and_made_of_an_iterator(self):
        classes = matbench.Partition(iter([(1, iter([0, 1]))]))
        for _ in range(2):
            self.assertEqual(matbench.best(matbench.listed([2, 3], classes)).rungs[-1].size, 1)

    def test_edges_and_arcs_stand_in_answers_as_they_were_given(self):
        ring = [("a", "b"), ("b", "c"), ("c", "a"), ("a", "b")]
        answer = matbench.trees(matbench.graph(ring), 2)
        self.assertEqual(sorted(sum(answer.trees, ())), sorted(ring))
        apart = matbench.trees(matbench.graph(ring, ["d"]), 1).classes
        self.assertEqual(sorted(apart), [("a", "b", "c"), ("d",)])
        arcs = [("Harbour", "Mill", 4), ("Mill", "Abbey", 2), ("Harbour", "Abbey", 5)]
        answer = matbench.arborescence(matbench.rooted(arcs, "Harbour"))
        self.assertEqual((answer.cost, set(answer.arcs)), (6, set(arcs[:2])))
        self.assertEqual(matbench.cuts(matbench.rooted([], 1, [2])).unreached, (2,))
        edges = [("a", "b", "red", 4), ("b", "c", "red", 3), ("a", "c", "blue", 1)]
        answer = matbench.rainbow(matbench.coloured(edges))
        self.assertEqual((answer.best.weight, set(answer.best.members)),
                         (5, {edges[0], edges[2]}))

    def test_a_matrix_is_assigned(self):
        matrix = [[4, 1, 3], [2, 0, 5], [3, 2, 2]]
        wanted = max(sum(row[it] for row, it in zip(matrix, order))
                     for order in itertools.permutations(range(3)))
        answer = matbench.assign(matrix)
        rows, columns = zip(*sorted(answer.rungs[-1].members))
        self.assertEqual((rows, sorted(columns)), ((0, 1, 2), [0, 1, 2]))
        self.assertEqual(sum(matrix[i][j] for i, j in zip(rows, columns)), wanted)
        self.assertEqual(answer.rungs[-1].weight, wanted)
        named = matbench.table([(5, 4), (4, None)], ["Ada", "Ben"], ["till", "door"])
        self.assertEqual(set(matbench.assign(named).best.members),
                         {("Ada", "door"), ("Ben", "till")})
        self.assertEqual(matbench.assign([]).best.members, ())

    @unittest.skipIf(numpy is None, "numpy is not there")
    def test_an_array_of_numpy_is_a_matrix(self):
        matrix = numpy.array([[4, 1], [2, 0]])
        for it in (matrix, matrix.astype(float), list(matrix)):
            answer = matbench.assign(it)
            self.assertEqual([rung.weight for rung in answer.rungs], [0, 4, 4])
        self.assertEqual(set(answer.rungs[2].members), {(0, 0), (1, 1)})
        for it in (numpy.array([[numpy.inf]]), numpy.array([[numpy.nan]]), numpy.arange(3)):
            with self.assertRaises(TypeError):
                matbench.assign(it)

    def test_a_frame_is_a_matrix_with_labels(self):
        frame = types.SimpleNamespace(index=["Ada", "Ben"], columns=["till", "door"],
                                      to_numpy=lambda: [[5, 4], [4, 1]])
        answer = matbench.assign(matbench.table(frame))
        self.assertEqual(set(answer.best.members), {("Ada", "door"), ("Ben", "till")})

    def test_what_is_out_of_range_is_told_before_a_call(self):
        uniform = matbench.Uniform
        cases = [
            (4, "a cap is 501, and has to be from 0 to 500",
             lambda: matbench.listed([1], uniform(501))),
            (5, "a cap is -1, ", lambda: matbench.listed({"a": 1}, uniform(-1))),
            (2, "the number of elements is 501, ", lambda: matbench.listed([1] * 501, uniform(1))),
            (2, "the number of matroids is 65, ", lambda: matbench.listed([], *[uniform(1)] * 65)),
            (3, "a number of a weight is 1,000,000,000,001, ",
             lambda: matbench.listed([10 ** 12 + 1], uniform(1))),
            (4, "the number of vertices is 501, ",
             lambda: matbench.listed([0] * 500, matbench.Graphic(zip(range(500), range(1, 501))))),
            (5, "the number of digits of a column is 129, ",
             lambda: matbench.pair([1], uniform(1), matbench.Binary(["0" * 129]))),
            (2, "the table has 529 cells, ", lambda: matbench.assign([[1] * 23] * 23))]
        for line, sentence, run in cases:
            with self.subTest(sentence=sentence), \
                    unittest.mock.patch("matbench.library.load", side_effect=AssertionError):
                with self.assertRaisesRegex(matbench.BadDescription, sentence) as found:
                    run()
                self.assertEqual((found.exception.name, found.exception.line),
                                 ("NumberRange", line))

    def test_a_fault_that_the_program_finds_has_its_line(self):
        twice = matbench.listed([1, 2], matbench.Partition([(1, [0]), (1, [1, 0])]))
        with self.assertRaisesRegex(matbench.BadDescription, "Repeated line 6: .*'class 1 1 0'"):
            matbench.best(twice)
        with self.assertRaisesRegex(matbench.BadDescription, "line 4: .*'cell 0 0 1000000000001'"):
            matbench.assign([[10 ** 12 + 1]])

    def test_what_does_not_fit_is_told(self):
        cases = [
            (ValueError, "no element 2", lambda: matbench.listed(
                [1, 2], matbench.Partition([(1, [2])]))),
            (ValueError, "1 edges for 2 elements", lambda: matbench.listed(
                [1, 2], matbench.Graphic([(0, 1)]))),
            (ValueError, "no element 'b'", lambda: matbench.listed(
                {"a": 1}, matbench.Graphic({"b": (0, 1)}))),
            (TypeError, "a cap is an int, and not 1.5", lambda: matbench.listed(
                [1], matbench.Uniform(1.5))),
            (TypeError, "a cap and its elements, and not 1",
             lambda: matbench.Partition((1, [0]))),
            (TypeError, "a matroid is wanted here, and not 3",
             lambda: matbench.pair([1], matbench.Uniform(1), 3)),
            (ValueError, "two ends and weight", lambda: matbench.rooted([("a", "b")], "a")),
            (ValueError, "a row has 1 cells", lambda: matbench.assign([[1, 2], [3]])),
            (ValueError, "1 labels for 2 rows", lambda: matbench.table([[1], [2]], ["a"])),
            (ValueError, "no whole number", lambda: matbench.assign([[0.5]])),
            (TypeError, "a matrix is wanted here", lambda: matbench.assign([1, 2]))]
        for error, sentence, run in cases:
            with self.subTest(sentence=sentence), self.assertRaisesRegex(error, sentence):
                run()


if __name__ == "__main__":
    unittest.main()
