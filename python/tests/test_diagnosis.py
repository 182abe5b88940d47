"""The diagnosis compared with the calls: on damaged problems `fault` finds the call's number, and names a place."""
import dataclasses
import random
import unittest

import numpy

from fits.kinds import band_pairs, inside
from tejiwakpa import Clique, Columns, Cone, Pattern, Problem, Refusal, Route, fault, sizes

PROBLEMS = 600


def start():
    """Returns a valid problem with two patterns, an undecomposed cone, a power and a generalised power cone."""
    cones = [Cone.psd_triangle(5), Cone.nonnegative(2), Cone.psd_triangle(4)]
    problem = inside(cones, {0: band_pairs(5, 1), 2: band_pairs(4, 2)}, 3, 7, quadratic=True)
    power = [Cone.power(0.5), Cone.gen_power([0.25, 0.75], 1)]
    listed = dict(q=list(problem.q), b=list(problem.b) + [0.0] * 6, m=problem.m + 6, cones=problem.cones + power)
    plain = lambda c: Columns([int(v) for v in c.starts], [int(v) for v in c.rows], [float(v) for v in c.values])
    return dataclasses.replace(problem, p=plain(problem.p), a=plain(problem.a), **listed)


def copy(problem):
    columns = lambda c: Columns(list(c.starts), list(c.rows), list(c.values))
    patterns = [
        Pattern(p.orig_index, list(p.ordering), [Clique(c.parent, list(c.snode), list(c.separator)) for c in p.cliques])
        for p in problem.patterns
    ]
    return dataclasses.replace(problem, p=columns(problem.p), a=columns(problem.a), q=list(problem.q), b=list(problem.b),
                               cones=list(problem.cones), patterns=patterns)


def damage(problem, draws):
    """Makes one random change to a problem."""
    number = draws.choice([0, 1, 2, 3, 4, 7, 9, 30, 257, 65_537, 4_294_967_294])
    matrix = draws.choice([problem.p, problem.a])
    pattern = draws.choice(problem.patterns)
    clique = draws.choice(pattern.cliques)

    def put(values):
        if values:
            values[draws.randrange(len(values))] = number

    def drop(values):
        if values:
            values.pop(draws.randrange(len(values)))

    def size(field):
        place = draws.randrange(len(problem.cones))
        problem.cones[place] = dataclasses.replace(problem.cones[place], **{field: number})

    draws.choice([
        lambda: setattr(problem, draws.choice("nm"), number), lambda: put(matrix.starts), lambda: drop(matrix.starts),
        lambda: put(matrix.rows), lambda: drop(matrix.rows), lambda: drop(matrix.values), lambda: size("size"),
        lambda: size("second"), lambda: size("kind"), lambda: drop(problem.q), lambda: drop(problem.b),
        lambda: setattr(pattern, "orig_index", number), lambda: put(pattern.ordering), lambda: drop(pattern.ordering),
        lambda: pattern.cliques.clear(), lambda: setattr(clique, "parent", draws.choice([None, number])),
        lambda: put(clique.snode), lambda: drop(clique.snode), lambda: put(clique.separator), lambda: drop(clique.separator),
        lambda: clique.separator.append(number), lambda: clique.snode.append(number), lambda: problem.patterns.reverse(),
        lambda: problem.b.__setitem__(draws.randrange(len(problem.b)), draws.choice([1.0, float("nan"), -0.0])),
    ])()
    return problem


class Diagnosis(unittest.TestCase):
    def test_numbers_agree(self):
        draws, seen = random.Random(5), {}
        right = start()
        for route in Route:
            self.assertIsNone(fault(right, route))
            sizes(route, right)
        for _ in range(PROBLEMS):
            problem = damage(copy(right), draws)
            for _ in range(draws.randrange(2)):
                if problem.patterns and all(p.cliques for p in problem.patterns) and problem.b:
                    damage(problem, draws)
            for route in Route:
                found = fault(problem, route)
                number = 0
                try:
                    sizes(route, problem)
                except Refusal as refused:
                    number = refused.number
                    self.assertTrue(refused.where)
                self.assertEqual(number, 0 if found is None else found.number, (route, problem))
                seen[number] = seen.get(number, 0) + 1
        for number in (0, 1, 2, 3, 4, 5, 6, 7, 9):
            self.assertGreater(seen.get(number, 0), 3, number)

    def test_too_large(self):
        # 8 patterns, each of one clique with all 256 vertices
        whole = [Clique(None, range(256))]
        count = 8
        problem = Problem(0, count * 32_896, Columns.empty(0), [], Columns.empty(0), numpy.zeros(count * 32_896),
                          [Cone.psd_triangle(256)] * count, [Pattern(k, range(256), whole) for k in range(count)])
        with self.assertRaises(Refusal) as caught:
            sizes(Route.STANDARD, problem)
        self.assertEqual(caught.exception.number, 1)
        self.assertIn("m is 263168", caught.exception.where)
        # 40 cliques with separators of 206 vertices have too many rows
        cliques = [Clique(40, [k], range(50, 256)) for k in range(40)] + [Clique(None, range(40, 256))]
        problem = Problem(0, 32_896, Columns.empty(0), [], Columns.empty(0), numpy.zeros(32_896), [Cone.psd_triangle(256)],
                          [Pattern(0, range(256), cliques)])
        for route in Route:
            with self.assertRaises(Refusal) as caught:
                sizes(route, problem)
            self.assertEqual(caught.exception.number, 10)
            self.assertIn("augmented rows", caught.exception.where)


if __name__ == "__main__":
    unittest.main()
