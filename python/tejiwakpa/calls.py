"""The calls: each returns its full result or raises one `Refusal`."""
import ctypes
import dataclasses

import numpy

from . import door
from .diagnosis import fault, fault_of_map, fault_of_solution, limits_fault
from .refusal import Refusal
from .types import Augmented, Columns, ConeMapEntry, Pattern, Problem, Route, Solution, read_cones

MOST_ROWS, MOST_OVERLAPS, MOST_SIZE, MOST_SIDES = 262_144, 131_072, 65_536, 64


def _done(number, where=lambda: None):
    if number:
        found = where()
        raise Refusal(number, found.where if found is not None and found.number == number else "")


def _room(length, dtype):
    return numpy.zeros(int(length), dtype=dtype)


def pair_index(i, j):
    """Returns the index of the pair (i, j), in either order, in the upper triangle packed column by column.

    >>> pair_index(2, 5)
    17
    """
    out = _room(1, numpy.uint32)
    _done(door.call("chordal_pair_index", door.word(i), door.word(j), out))
    return int(out[0])


def pair_back(index):
    """Returns row and column of an index in the packed upper triangle.

    >>> pair_back(17)
    (2, 5)
    """
    out = _room(2, numpy.uint32)
    _done(door.call("chordal_pair_back", door.word(index), out))
    return int(out[0]), int(out[1])


def inverse(permutation):
    """Returns the inverse of a permutation: for each number its index.

    >>> inverse([2, 0, 1])
    [1, 2, 0]
    """
    out = _room(len(permutation), numpy.uint32)
    _done(door.call("chordal_inverse", door.words(permutation), out))
    return out.tolist()


def renumber(pattern):
    """Returns the pattern with its vertices renumbered clique by clique and, within a snode, in the order of the old numbers."""
    words = door.words(pattern.words())
    out = _room(len(words), numpy.uint32)
    _done(door.call("chordal_renumber", words, out))
    return Pattern.from_words(out)


@dataclasses.dataclass(frozen=True)
class Sizes:
    """The lengths of the cut's outputs as flat tables."""

    p_starts: int
    p_rows: int
    p_values: int
    q: int
    a_starts: int
    a_rows: int
    a_values: int
    b: int
    cones: int
    alphas: int
    map: int


def _sizes(route, tables):
    out = _room(11, numpy.uint32)
    number = door.call("chordal_sizes", int(route), *tables, out)
    return number, Sizes(*out.tolist())


def sizes(route, problem):
    """Returns the lengths of the outputs of `cut` for this problem: `b` is the number of augmented rows, `q` that of unknowns."""
    number, lengths = _sizes(route, problem.tables())
    _done(number, lambda: fault(problem, route))
    return lengths


def covers(problem):
    """Returns whether the patterns cover A and b: no stored entry of A and no nonzero b is in a row that no clique of
    its cone's pattern covers.

    The standard route accepts a problem whose patterns do not. The fit is then another, stricter one, and no residual
    shows it; the compact route refuses such a problem, number 9. Any other refusal is raised.
    """
    try:
        sizes(Route.COMPACT, problem)
    except Refusal as refused:
        if refused.number == 10:
            # check 9 comes before 10, so a problem that is refused as too large is covered
            return True
        if refused.number != 9:
            raise
        return False
    return True


class _Buffers:
    def __init__(self, lengths, sides=1):
        words, values = numpy.uint32, numpy.float64
        self.p = Columns(_room(lengths.p_starts, words), _room(lengths.p_rows, words), _room(lengths.p_values, values))
        self.q = _room(lengths.q, values)
        self.a = Columns(_room(lengths.a_starts, words), _room(lengths.a_rows, words), _room(lengths.a_values, values))
        self.sides = [_room(lengths.b, values) for _ in range(sides)]
        self.cones, self.alphas = _room(lengths.cones, words), _room(lengths.alphas, values)
        self.map = _room(lengths.map, words)

    def outputs(self):
        return [self.p.starts, self.p.rows, self.p.values, self.q, self.a.starts, self.a.rows, self.a.values, *self.sides,
                self.cones, self.alphas, self.map]

    def augmented(self):
        b = self.sides[0]
        problem = Problem(len(self.q), len(b), self.p, self.q, self.a, b, read_cones(self.cones, self.alphas))
        entries = [
            ConeMapEntry(orig, None if tree == door.NONE else (tree, clique), first, rows)
            for orig, tree, clique, first, rows in self.map.reshape(-1, 5).tolist()
        ]
        return Augmented(problem, entries)


def cut(route, problem):
    """Cuts the PSD cones that have a pattern into their cliques. Returns the augmented problem, and where its cones come from.

    On the standard route a pattern that does not cover A and b is accepted, and the fit is then another, stricter
    problem; `cut_covered` checks that first.

    >>> cut(Route.COMPACT, Problem.three_projectors()).problem.b.tolist()
    [3.0, 4.0, 5.0, 1.0, 2.0, 0.0]
    """
    tables = problem.tables()
    number, lengths = _sizes(route, tables)
    _done(number, lambda: fault(problem, route))
    made = _Buffers(lengths)
    _done(door.call("chordal_cut", int(route), *tables, *made.outputs()), lambda: fault(problem, route))
    return made.augmented()


def cut_covered(route, problem):
    """Cuts a problem whose patterns cover A and b; refuses it on either route, number 9, where they do not."""
    if not covers(problem):
        found = fault(problem, Route.COMPACT)
        raise Refusal(9, found.where if found is not None and found.number == 9 else "")
    return cut(route, problem)


def cut_between(problem, low, high):
    """Cuts a problem on the compact route whose b is known only as a low and a high limit. Returns the augmented problem, with
    the augmented low limits as its b, and both augmented limits."""
    tables = problem.tables(low, high)
    _, lengths = _sizes(Route.COMPACT, problem.tables(low))
    made = _Buffers(lengths, 2)
    _done(door.call("chordal_cut_between", *tables, *made.outputs()), lambda: limits_fault(problem, low, high))
    return made.augmented(), made.sides[0], made.sides[1]


def cut_many(problem, sides):
    """Cuts one problem on the compact route with 1 to 64 right sides; its own b is not read. Returns the augmented problem, with
    the first side's b, and each side's augmented b in turn. Each is what `cut` gives for that side alone; if several sides
    would be refused, the first of them gives the number.

    >>> problem = Problem.three_projectors()
    >>> augmented, each = cut_many(problem, [[1.0, 2.0, 3.0, 0.0, 4.0, 5.0], [1.5, 2.5, 3.5, 0.0, 4.5, 5.5]])
    >>> [side.tolist() for side in each]
    [[3.0, 4.0, 5.0, 1.0, 2.0, 0.0], [3.5, 4.5, 5.5, 1.5, 2.5, 0.0]]
    """
    taken = [door.doubles(side) for side in sides[:MOST_SIDES]]
    _, lengths = _sizes(Route.COMPACT, problem.tables(taken[0] if taken else []))
    values = numpy.concatenate([*taken, numpy.zeros(0)])
    if any(len(side) != problem.m for side in taken) and len(values) == len(taken) * problem.m:
        # sides of wrong lengths whose total is right are refused all the same
        values = numpy.append(values, 0.0)
    made = _Buffers(dataclasses.replace(lengths, b=lengths.b * len(taken)))
    number = door.call("chordal_cut_many", door.word(len(sides)), *problem.tables(values), *made.outputs())
    _done(number, lambda: next((f for f in (fault(dataclasses.replace(problem, b=s), Route.COMPACT) for s in taken) if f), None))
    each = made.sides[0].reshape(len(taken), lengths.b)
    made.sides = [each[0]]
    return made.augmented(), list(each)


def _tables(lengths):
    """Returns buffers for a problem's eleven tables."""
    words, values = numpy.uint32, numpy.float64
    kinds = [words, words, values, values, words, words, values, values, words, values, words]
    return [_room(length, kind) for length, kind in zip(lengths, kinds)]


def _problem(n, m, count, tables):
    """Returns the problem of tables that a call has written."""
    p_starts, p_rows, p_values, q, a_starts, a_rows, a_values, b, cones, alphas, patterns = tables
    return Problem(n, m, Columns(p_starts, p_rows, p_values), q, Columns(a_starts, a_rows, a_values), b, read_cones(cones, alphas),
                   Pattern.all_from_words(count, patterns))


def pool(first, second):
    """Pools two passes over one dome, which share their unknowns: A over A, b over b, cones and patterns one after the other; P
    and q are the first's.

    >>> pooled = pool(Problem.three_projectors(), Problem.three_projectors())
    >>> pooled.m, [pattern.orig_index for pattern in pooled.patterns]
    (12, [0, 1])
    """
    one, two = first.tables(), second.tables()
    shared = {2, 3, 4, 5, 6}  # P, q and the starts of A are as long as the first's
    places = [2, 3, 4, 5, 6, 7, 8, 9, 10, 11, 13]
    outs = _tables([len(one[k]) + (0 if k in shared else len(two[k])) for k in places])
    number = door.call("chordal_pool", *one, *two, *outs)
    _done(number, lambda: fault(first) or fault(second))
    return _problem(first.n, first.m + second.m, len(first.patterns) + len(second.patterns), outs)


def generate(seed, v, w, n):
    """Generates a problem that any site can make again: from a seed that is not 0, a vertex count `v` of 2 to 64, a band `w`
    with 1 ≤ w < v, and `n` of 1 to 64 columns. Both routes accept it.

    >>> generate(7, 4, 1, 2).b.tolist()
    [23.0, 88.0, -22.0, 0.0, 73.0, 21.0, 30.0, 0.0, 0.0, -66.0]
    """
    drawn = [ctypes.c_uint64(seed), door.word(v), door.word(w), door.word(n)]
    lengths = _room(11, numpy.uint32)
    _done(door.call("chordal_generate_sizes", *drawn, lengths))
    outs = _tables(lengths.tolist())
    _done(door.call("chordal_generate", *drawn, *outs))
    return _problem(n, v * (v + 1) // 2, 1, outs)


def _map_words(entries):
    words = []
    for entry in entries:
        tree, clique = (None, 0) if entry.tree_and_clique is None else entry.tree_and_clique
        words += [entry.orig_index, door.numbered(tree), clique, entry.first_row, entry.rows]
    return door.words(words)


def _solved(problem, solution):
    return [door.word(problem.n), door.word(problem.m), problem.cone_words()[0], len(problem.patterns),
            problem.pattern_words(), door.doubles(solution.x), door.doubles(solution.s), door.doubles(solution.z),
            float(solution.tau), float(solution.kappa)]


def _size(number):
    # a size above the bound is refused whatever the outputs' lengths
    return min(max(number, 0), MOST_SIZE)


def join(route, problem, entries, solution):
    """Joins a solution of the augmented problem into one of the original problem, of which only n, m, the cones and the
    patterns are read. `entries` is the cut's map; the standard route does not read it.

    In rows of cut cones z is the last walked block's value on the compact route and the blocks' mean on the standard one,
    and zero in a row that no clique covers: entries of a matrix to be completed, not a PSD matrix. See `original_residual`
    for what to watch.
    """
    outs = [_room(_size(problem.n), float), _room(_size(problem.m), float), _room(_size(problem.m), float), _room(2, float)]
    number = door.call("chordal_join", int(route), *_solved(problem, solution), _map_words(entries), *outs)
    _done(number, lambda: fault_of_solution(problem, route, solution) or fault_of_map(problem, route, entries))
    x, s, z, scalars = outs
    return Solution(x, s, z, float(scalars[0]), float(scalars[1]))


def change_route(problem, solution):
    """Returns a solution of the standard cut as one of the compact cut of the same problem, so that a fit that began on the
    standard route can continue on the compact one. τ and κ are copied."""
    rows = sum(cone.nvars() for cone in problem.cones)
    overlaps = 0
    for pattern in problem.patterns:
        if 0 <= pattern.orig_index < len(problem.cones):
            rows -= problem.cones[pattern.orig_index].nvars()
        for clique in pattern.cliques:
            size, shared = len(clique.snode) + len(clique.separator), len(clique.separator)
            rows += size * (size + 1) // 2
            overlaps += shared * (shared + 1) // 2
    rows, overlaps = max(0, min(rows, MOST_ROWS)), min(overlaps, MOST_OVERLAPS)
    outs = [_room(_size(problem.n) + overlaps, float), _room(rows, float), _room(rows, float), _room(2, float)]
    number = door.call("chordal_change_route", *_solved(problem, solution), *outs)
    _done(number, lambda: fault_of_solution(problem, Route.STANDARD, solution))
    x, s, z, scalars = outs
    return Solution(x, s, z, float(scalars[0]), float(scalars[1]))


def same_layout(first, second):
    """Returns whether n, m, the cones with their exponents, the patterns, and the starts and rows of A and P of two problems
    agree: a symbolic result computed for one cut can then be reused for the other."""
    out = _room(1, numpy.uint32)
    _done(door.call("chordal_same_layout", *first.tables(), *second.tables(), out), lambda: fault(first) or fault(second))
    return bool(out[0])


def original_residual(problem, solution):
    """Returns the largest |Ax + s − b| of a joined solution in the original problem's rows: what a site should watch.

    A solver's own residuals are those of the augmented equations. If one of these equations were wrong, the solver's
    residuals would still vanish; this one would not.

    >>> problem = Problem.three_projectors()
    >>> original_residual(problem, Solution([0.0], problem.b, [0.0] * 6))
    0.0
    """
    rows = problem.a.times(solution.x, problem.m) + numpy.asarray(solution.s, dtype=float) - numpy.asarray(problem.b, dtype=float)
    return float(numpy.max(numpy.abs(rows), initial=0.0))
