"""The calls on three projectors, and the marked cases of document 01."""
import dataclasses
import doctest
import pathlib
import unittest

import numpy

import tejiwakpa
from tejiwakpa import (
    Clique, Columns, Cone, ConeMapEntry, Pattern, Problem, Refusal, Route, Solution, change_route, cut, cut_between, cut_many, generate,
    inverse, join, original_residual, pair_back, pair_index, pool, renumber, same_layout, sizes,
)
from tejiwakpa import calls, types

BLOCKS = [3.0, 4.0, 5.0, 1.0, 2.0, 7.0]
TAILS = [0.0] * 6 + [1.0, 2.0, 7.0, 3.0, 4.0, 5.0]


def load_tests(loader, tests, ignore):
    tests.addTests(doctest.DocTestSuite(calls))
    tests.addTests(doctest.DocTestSuite(types))
    return tests


class Refused:
    """Expects a refusal with this number, and `where` in the description of its place."""

    def refused(self, number, call, *arguments, where=""):
        with self.assertRaises(Refusal) as caught:
            call(*arguments)
        self.assertEqual(caught.exception.number, number)
        self.assertIn(where, caught.exception.where)


class Marked(unittest.TestCase, Refused):
    def test_pairs(self):
        self.assertEqual([pair_index(*p) for p in ((0, 0), (0, 1), (1, 0), (2, 5), (255, 255))], [0, 1, 1, 17, 32_895])
        self.assertEqual((pair_back(0), pair_back(3)), ((0, 0), (0, 2)))
        self.refused(1, pair_index, 256, 0)
        self.refused(1, pair_index, -1, 0)
        self.refused(1, pair_back, 32_896)

    def test_inverse(self):
        self.assertEqual(inverse([2, 0, 1]), [1, 2, 0])
        self.refused(5, inverse, [1, 1])

    def test_renumber(self):
        got = renumber(Pattern(0, [2, 0, 1], [Clique(1, [2], [0]), Clique(None, [0, 1])]))
        self.assertEqual(got, Pattern(0, [1, 2, 0], [Clique(1, [0], [1]), Clique(None, [1, 2], [])]))

    def test_compact_cut(self):
        problem = Problem.three_projectors()
        augmented = cut(Route.COMPACT, problem)
        self.assertEqual((augmented.problem.m, augmented.problem.n), (6, 2))
        self.assertEqual(augmented.problem.b.tolist(), [3, 4, 5, 1, 2, 0])
        self.assertEqual(augmented.problem.a.starts.tolist(), [0, 5, 7])
        self.assertEqual(augmented.problem.a.rows.tolist(), [0, 1, 2, 3, 4, 0, 5])
        self.assertEqual(augmented.problem.a.values.tolist(), [30, 40, 50, 10, 20, -1, 1])
        self.assertEqual(augmented.map, [ConeMapEntry(0, (0, 1), 0, 3), ConeMapEntry(0, (0, 0), 3, 3)])
        self.assertEqual(augmented.problem.cones, [Cone.psd_triangle(2)] * 2)

    def test_standard_cut(self):
        augmented = cut(Route.STANDARD, Problem.three_projectors())
        self.assertEqual(augmented.problem.cones, [Cone.zero(6), Cone.psd_triangle(2), Cone.psd_triangle(2)])
        dense = augmented.problem.a.dense(12)
        self.assertEqual([numpy.nonzero(dense[:6, k])[0].tolist() for k in range(1, 7)], [[0], [1], [2], [2], [4], [5]])
        self.assertTrue((dense[6:, 1:] == -numpy.eye(6)).all())

    def test_joining(self):
        problem = Problem.three_projectors()
        entries = cut(Route.COMPACT, problem).map
        joined = join(Route.COMPACT, problem, entries, Solution([0.5, 9.0], BLOCKS, BLOCKS, 2.0, 3.0))
        self.assertEqual((joined.x.tolist(), joined.tau, joined.kappa), ([0.5], 1, 1))
        self.assertEqual((joined.s.tolist(), joined.z.tolist()), ([1, 2, 10, 0, 4, 5], [1, 2, 7, 0, 4, 5]))
        joined = join(Route.STANDARD, problem, [], Solution([0.5] * 7, TAILS, TAILS))
        self.assertEqual((joined.s.tolist(), joined.z.tolist()), ([1, 2, 10, 0, 4, 5], [1, 2, 5, 0, 4, 5]))

    def test_uncovered(self):
        problem = Problem.three_projectors()
        entry = dataclasses.replace(problem, a=Columns([0, 6], [0, 1, 2, 3, 4, 5], [10.0, 20.0, 30.0, 0.0, 40.0, 50.0]))
        # a stored 0.0 counts as an entry
        self.refused(9, cut, Route.COMPACT, entry, where="column 0, row 3: the pair (0, 2) of cone 0")
        value = dataclasses.replace(problem, b=[1.0, 2.0, 3.0, 1.0, 4.0, 5.0])
        self.refused(9, sizes, Route.COMPACT, value, where="b has 1.0 in row 3")
        zero = dataclasses.replace(problem, b=[1.0, 2.0, 3.0, -0.0, 4.0, 5.0])
        self.assertEqual(sizes(Route.COMPACT, zero).b, 6)


class Beside(unittest.TestCase, Refused):
    def test_change_route(self):
        compact = change_route(Problem.three_projectors(), Solution([0.5] * 7, TAILS, TAILS, 2.0, 0.25))
        self.assertEqual((compact.x.tolist(), compact.s.tolist(), compact.z.tolist()), ([0.5, 0], BLOCKS, BLOCKS))
        self.assertEqual((compact.tau, compact.kappa), (2, 0.25))
        self.refused(12, change_route, Problem.three_projectors(), Solution([0.5] * 6, TAILS, TAILS), where="x has 6 values, not 7")

    def test_between(self):
        problem = Problem.three_projectors()
        low, high = [0.5, 1.5, 2.5, 0.0, 3.5, 4.5], [1.5, 2.5, 3.5, 0.0, 4.5, 5.5]
        augmented, got_low, got_high = cut_between(problem, low, high)
        self.assertEqual(got_low.tolist(), [2.5, 3.5, 4.5, 0.5, 1.5, 0])
        self.assertEqual(got_high.tolist(), [3.5, 4.5, 5.5, 1.5, 2.5, 0])
        self.assertEqual(augmented.problem.b.tolist(), got_low.tolist())
        self.refused(16, cut_between, problem, high, low, where="row 0 has the limits 1.5 and 0.5")
        self.refused(4, cut_between, problem, low, high[1:], where="high has 5 values")

    def test_many_sides(self):
        problem = Problem.three_projectors()
        sides = [[1.0 + k, 2.0, 3.0, 0.0, 4.0, 5.0] for k in range(64)]
        augmented, each = cut_many(problem, sides)
        self.assertEqual(augmented.problem.b.tolist(), each[0].tolist())
        for side, got in zip(sides, each):
            self.assertEqual(got.tolist(), cut(Route.COMPACT, dataclasses.replace(problem, b=side)).problem.b.tolist())
        self.refused(1, cut_many, problem, [])
        self.refused(1, cut_many, problem, sides + sides[:1])
        self.refused(4, cut_many, problem, [sides[0], sides[1][1:]])
        self.refused(4, cut_many, problem, [sides[0][1:], sides[1] + [0.0]])
        sides[5][3] = 1.0
        self.refused(9, cut_many, problem, sides, where="row 3")

    def test_pool(self):
        first = Problem.three_projectors()
        second = dataclasses.replace(first, b=[1.5, 2.5, 3.5, 0.0, 4.5, 5.5], q=[9.0])
        pooled = pool(first, second)
        self.assertEqual((pooled.n, pooled.m, pooled.q.tolist()), (1, 12, [0.0]))
        self.assertEqual(pooled.a.rows.tolist(), [0, 1, 2, 4, 5, 6, 7, 8, 10, 11])
        self.assertEqual(pooled.patterns[1].words(), [1, *first.patterns[0].words()[1:]])
        compact = cut(Route.COMPACT, pooled).problem.b.tolist()
        self.assertEqual(compact, sum((cut(Route.COMPACT, p).problem.b.tolist() for p in (first, second)), []))
        wider = dataclasses.replace(first, n=2, p=Columns.empty(2), q=[0.0, 0.0], a=Columns([0, 5, 5], first.a.rows, first.a.values))
        self.refused(17, pool, first, wider)

    def test_generate(self):
        problem = generate(1, 8, 2, 4)
        self.assertEqual((problem.n, problem.m, len(problem.patterns[0].cliques)), (4, 36, 6))
        for route in Route:
            self.assertGreater(len(cut(route, problem).problem.b), 0)
        for seed, v, w, n in ((0, 8, 2, 4), (1, 65, 2, 4), (1, 8, 8, 4), (1, 8, 2, 65)):
            self.refused(15, generate, seed, v, w, n)

    def test_same_layout(self):
        problem = Problem.three_projectors()
        other = dataclasses.replace(problem, b=[9.0] * 6)
        self.assertTrue(same_layout(problem, other))
        self.assertFalse(same_layout(problem, dataclasses.replace(problem, m=7, b=[0.0] * 7, cones=[*problem.cones, Cone.zero(1)])))

    def test_no_columns(self):
        problem = dataclasses.replace(Problem.three_projectors(), n=0, p=Columns.empty(0), q=[], a=Columns.empty(0))
        self.assertEqual(cut(Route.COMPACT, problem).problem.n, 1)

    def test_solution_and_map(self):
        problem = Problem.three_projectors()
        entries = cut(Route.COMPACT, problem).map
        good = Solution([0.5, 0.0], BLOCKS, BLOCKS)
        self.refused(12, join, Route.COMPACT, problem, entries, dataclasses.replace(good, s=BLOCKS[1:]), where="s has 5 values, not 6")
        self.refused(12, join, Route.COMPACT, problem, entries[::-1], good, where="entry 0 of the map")
        self.refused(12, join, Route.COMPACT, problem, entries[:1], good, where="ends after 1")
        marked = [dataclasses.replace(entries[0], tree_and_clique=(4_294_967_295, 1)), entries[1]]
        self.refused(12, join, Route.COMPACT, problem, marked, good, where="entry 0")

    def test_original_residual(self):
        problem = Problem.three_projectors()
        solution = Solution([0.5], numpy.array(problem.b) - 0.5 * problem.a.dense(6)[:, 0], [0.0] * 6)
        self.assertEqual(original_residual(problem, solution), 0)
        solution.s[4] += 0.25
        self.assertEqual(original_residual(problem, solution), 0.25)
        solution.s[1] = float("nan")
        self.assertNotEqual(original_residual(problem, solution), original_residual(problem, solution))
        empty = Problem(0, 0, Columns.empty(0), [], Columns.empty(0), [], [])
        self.assertEqual(original_residual(empty, Solution([], [], [])), 0)


class Contract(unittest.TestCase, Refused):
    """Tests each sentence of the contract in python/README.md."""

    def test_members_are_places_in_the_ordering(self):
        # the same two cliques, {0, 1} and {1, 2} of the matrix, under another ordering: members change, the blocks do not
        problem = Problem.three_projectors()
        turned = dataclasses.replace(problem, patterns=[Pattern(0, [2, 0, 1], [Clique(1, [1], [2]), Clique(None, [2, 0])])])
        self.assertEqual([turned.patterns[0].originals(k) for k in (0, 1)], [[0, 1], [1, 2]])
        self.assertEqual(cut(Route.COMPACT, turned).problem.b.tolist(), cut(Route.COMPACT, problem).problem.b.tolist())
        # read as original vertices the members would be {1, 2} and {2, 0}, and row 3 would be covered
        wrong = dataclasses.replace(turned, patterns=[dataclasses.replace(turned.patterns[0], ordering=[0, 1, 2])])
        self.refused(9, cut, Route.COMPACT, wrong, where="the pair (0, 1)")

    def test_blocks_from_last_to_first_and_from_first_to_last(self):
        problem = Problem.three_projectors()
        two = dataclasses.replace(problem, m=7, b=[8.0, *problem.b], cones=[Cone.nonnegative(1), *problem.cones],
                                  a=dataclasses.replace(problem.a, rows=[r + 1 for r in problem.a.rows]),
                                  patterns=[dataclasses.replace(problem.patterns[0], orig_index=1)])
        compact = cut(Route.COMPACT, two)
        self.assertEqual(compact.problem.b.tolist(), [8, 3, 4, 5, 1, 2, 0])
        self.assertEqual([entry.tree_and_clique for entry in compact.map], [None, (0, 1), (0, 0)])
        entry = compact.map[two.map_place(0, 0)]
        self.assertEqual((entry.tree_and_clique, compact.problem.b[entry.range()].tolist()), ((0, 0), [1, 2, 0]))
        self.assertIsNone(two.map_place(0, 2))
        standard = cut(Route.STANDARD, two).problem
        self.assertEqual(standard.cones[:2], [Cone.zero(7), Cone.nonnegative(1)])
        self.assertEqual(numpy.nonzero(standard.a.dense(14)[:7, 1:].T)[1].tolist(), [0, 1, 2, 3, 3, 5, 6])

    def test_entries_are_only_moved(self):
        # so any scaling of the off-diagonal entries works
        problem = Problem.three_projectors()
        scale = numpy.array([1, 3, 1, 3, 3, 1.0])
        scaled = dataclasses.replace(problem, b=scale * problem.b, a=Columns.of(scale[:, None] * problem.a.dense(6)))
        for route in Route:
            plain, other = cut(route, problem).problem, cut(route, scaled).problem
            moved = {v for v in plain.a.values} | {3 * v for v in plain.a.values}
            self.assertTrue({v for v in other.a.values} <= moved)
            self.assertEqual(plain.a.rows.tolist(), other.a.rows.tolist())

    def test_p_whole_or_upper(self):
        problem = dataclasses.replace(Problem.three_projectors(), n=2, q=[0.0, 0.0], a=Columns([0, 5, 5], [0, 1, 2, 4, 5], [1.0] * 5))
        for p in (Columns([0, 1, 3], [0, 0, 1], [1.0, 2.0, 5.0]), Columns([0, 2, 4], [0, 1, 0, 1], [1.0, 2.0, 2.0, 5.0])):
            for route in Route:
                got = cut(route, dataclasses.replace(problem, p=p)).problem
                self.assertEqual(got.p.values.tolist(), p.values)
                self.assertEqual(got.p.rows.tolist(), p.rows)
                self.assertEqual(got.p.starts.tolist(), p.starts + [p.starts[-1]] * (got.n - 2))
                self.assertEqual(got.q.tolist(), [0.0] * got.n)

    def test_tau_is_not_read(self):
        problem = Problem.three_projectors()
        entries = cut(Route.COMPACT, problem).map
        doubled = [2 * v for v in BLOCKS]
        homogeneous = join(Route.COMPACT, problem, entries, Solution([1.0, 0.0], doubled, doubled, 2.0, 0.0))
        divided = join(Route.COMPACT, problem, entries, Solution([0.5, 0.0], BLOCKS, BLOCKS))
        self.assertEqual(homogeneous.s.tolist(), (2 * divided.s).tolist())

    def test_joined_z_is_no_psd_matrix(self):
        # both blocks' z are PSD, of rank one; the joined z, zero at the pair (0, 2), is not
        problem = Problem.three_projectors()
        entries = cut(Route.COMPACT, problem).map
        ones = [1.0] * 6
        joined = join(Route.COMPACT, problem, entries, Solution([0.0, 0.0], ones, ones))
        self.assertLess(numpy.linalg.eigvalsh(tejiwakpa.smat(joined.z, 1.0))[0], -0.4)


class Page(unittest.TestCase):
    def test_the_example_of_the_page_runs(self):
        page = pathlib.Path(__file__).resolve().parents[1] / "README.md"
        lines = page.read_text(encoding="utf-8").splitlines()
        start = next(k for k, line in enumerate(lines) if line.startswith("    from tejiwakpa"))
        end = next(k for k in range(start, len(lines)) if lines[k] and not lines[k].startswith("    "))
        code = "\n".join(line[4:] for line in lines[start:end])
        self.assertIn("original_residual(problem, joined)", code)
        exec(compile(code, "README.md", "exec"), {})


class Covering(unittest.TestCase, Refused):
    def test_covers(self):
        problem = Problem.three_projectors()
        self.assertTrue(tejiwakpa.covers(problem))
        value = dataclasses.replace(problem, b=[1.0, 2.0, 3.0, 1.0, 4.0, 5.0])
        self.assertFalse(tejiwakpa.covers(value))
        # the standard route accepts it; `cut_covered` does not
        self.assertEqual(cut(Route.STANDARD, value).problem.m, 12)
        for route in Route:
            self.refused(9, tejiwakpa.cut_covered, route, value, where="row 3")
            self.assertEqual(tejiwakpa.cut_covered(route, problem).problem.m, cut(route, problem).problem.m)
        self.refused(3, tejiwakpa.covers, dataclasses.replace(problem, a=Columns([0, 1], [6], [1.0])), where="row 6")


if __name__ == "__main__":
    unittest.main()
