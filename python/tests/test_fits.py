"""The fits: clique trees that the calls accept, domes whose true unknowns close the seams, and the effect of a wrong tie."""
import unittest

import numpy

from fits import kinds, ties
from fits.domes import dome
from fits.trees import clique_tree
from tejiwakpa import Cone, Columns, Problem, Route, Solution, covers, cut, join, original_residual, smat, svec


def slacks(problem, x):
    """Returns the slacks that satisfy the equations of a problem at `x`."""
    return numpy.asarray(problem.b) - problem.a.times(x, problem.m)


class Trees(unittest.TestCase):
    def test_every_pair_is_covered(self):
        for seed in range(12):
            size = 3 + seed
            pairs = kinds.random_pairs(size, seed * 2, seed)
            mask = numpy.eye(size)
            for i, j in pairs:
                mask[i, j] = mask[j, i] = 1
            m = size * (size + 1) // 2
            problem = Problem(0, m, Columns.empty(0), [], Columns.empty(0), svec(mask), [Cone.psd_triangle(size)],
                              [clique_tree(size, pairs)])
            self.assertTrue(covers(problem))


class Vectors(unittest.TestCase):
    def test_there_and_back(self):
        matrix = numpy.arange(16.0).reshape(4, 4)
        matrix += matrix.T
        self.assertTrue(numpy.allclose(smat(svec(matrix)), matrix))
        self.assertEqual(svec(matrix, 1.0).tolist()[:4], [matrix[0, 0], matrix[0, 1], matrix[1, 1], matrix[0, 2]])


class Domes(unittest.TestCase):
    def test_the_truth_closes_the_seams(self):
        # without noise, Λ made of the sums over each projector's seams gives Λ − C the rotations as its kernel
        fitted = dome(4, 3, noise=0.0)
        self.assertTrue(covers(fitted.problem))
        x = []
        for p in range(fitted.projectors):
            block = sum(sum(numpy.outer(m, m) for _, *both in markers for m in [both[0] if p == i else both[1]]) / len(markers)
                        for i, j, markers in fitted.seams if p in (i, j))
            x += [block[i, j] for j in range(3) for i in range(j + 1)]
        self.assertLess(fitted.gaps(x).max(), 1e-3)
        self.assertGreater(numpy.linalg.eigvalsh(smat(slacks(fitted.problem, x)))[0], -1e-9)

    def test_a_wrong_tie_shows_in_the_original_residual_alone(self):
        problem = dome(4, 3).problem
        draws = numpy.random.default_rng(1)
        total = ties.overlaps(problem)
        for overlap in (0, total // 2, total - 1):
            augmented = cut(Route.COMPACT, problem)
            x = draws.normal(size=augmented.problem.n)
            for broken in (False, True):
                if broken:
                    before = augmented.problem.a.dense(augmented.problem.m)
                    right, wrong = ties.break_a_tie(augmented, problem.n, overlap, draws)
                    after = augmented.problem.a.dense(augmented.problem.m)
                    self.assertEqual([tuple(place) for place in numpy.argwhere(before != after)],
                                     sorted([(right, problem.n + overlap), (wrong, problem.n + overlap)]))
                s = slacks(augmented.problem, x)
                joined = join(Route.COMPACT, problem, augmented.map, Solution(x, s, s))
                missed = original_residual(problem, joined)
                self.assertTrue(missed > 1e-6 if broken else missed < 1e-12, (overlap, broken, missed))


if __name__ == "__main__":
    unittest.main()
