"""Problems of other kinds from a seed: arrows, bands, random chordal and mixed ones, each with primal and dual solutions inside
the cones, so that a solver reaches the optimum."""
import dataclasses
import math

import numpy

from tejiwakpa import Columns, Cone, Problem, svec
from tejiwakpa.types import triangle

from .trees import clique_tree


def _inside(cone, draws, pairs, dual):
    # values well inside the cone; a PSD slack has off-diagonal entries at `pairs` only
    if cone.kind == 0:
        return draws.normal(size=cone.size) if dual else numpy.zeros(cone.size)
    if cone.kind == 1:
        return draws.uniform(0.5, 2, size=cone.size)
    if cone.kind == 2:
        tail = draws.normal(size=cone.size - 1)
        return numpy.concatenate([[numpy.linalg.norm(tail) + draws.uniform(0.5, 2)], tail])
    matrix = draws.normal(size=(cone.size, cone.size))
    matrix = (matrix + matrix.T) / 2
    if not dual:
        matrix *= _mask(cone.size, pairs)
    least = numpy.linalg.eigvalsh(matrix)[0]
    return svec(matrix + (draws.uniform(0.5, 2) - min(least, 0)) * numpy.eye(cone.size))


def _mask(size, pairs):
    mask = numpy.eye(size)
    for i, j in pairs:
        mask[i, j] = mask[j, i] = 1
    return mask


def inside(cones, pairs, n, seed, density=0.4, quadratic=False, repeats=0, slack=None):
    """Returns a problem with `n` unknowns over `cones`, whose PSD cones have off-diagonal entries at their `pairs` only and get
    a clique tree of these. `repeats` entries of A are split into two; with `slack`, other pairs, there is a solution whose slack
    has entries at these only."""
    draws = numpy.random.default_rng(seed)
    blocks = []
    for place, cone in enumerate(cones):
        rows = cone.nvars()
        block = draws.normal(size=(rows, n)) * (draws.uniform(size=(rows, n)) < density)
        if place in pairs:
            mask = _mask(cone.size, pairs[place])
            block *= numpy.array([mask[i, j] for i, j in triangle(cone.size)])[:, None]
        blocks.append(block)
    dense = numpy.concatenate(blocks)
    # every column has an entry
    for column in range(n):
        if not dense[:, column].any():
            dense[0, column] = 1.0
    within = pairs if slack is None else slack
    s = numpy.concatenate([_inside(cone, draws, within.get(k, ()), False) for k, cone in enumerate(cones)])
    z = numpy.concatenate([_inside(cone, draws, pairs.get(k, ()), True) for k, cone in enumerate(cones)])
    x = draws.normal(size=n)
    p = numpy.zeros((n, n))
    if quadratic:
        half = draws.normal(size=(n, n)) / math.sqrt(n)
        p = half @ half.T
    q = -(p @ x) - dense.T @ z
    b = dense @ x + s
    a = Columns.of(dense)
    if repeats:
        a = _split(a, draws, repeats)
    patterns = [clique_tree(cones[k].size, pairs[k], k) for k in sorted(pairs)]
    return Problem(n, len(b), Columns.of(numpy.triu(p)), q, a, b, cones, patterns)


def _split(a, draws, count):
    # two cameras see the same marker: an entry becomes two entries in its row
    chosen = set(draws.choice(len(a.values), size=min(count, len(a.values)), replace=False).tolist())
    starts, rows, values = [0], [], []
    for column in range(len(a.starts) - 1):
        for place in range(a.starts[column], a.starts[column + 1]):
            parts = [a.values[place] * 0.25, a.values[place] * 0.75] if place in chosen else [a.values[place]]
            rows += [int(a.rows[place])] * len(parts)
            values += parts
        starts.append(len(rows))
    return Columns(starts, rows, values)


def arrow(size, n, seed):
    """Returns a least-squares fit with an arrow matrix: t is at least |Fx − g|² where [[t, (Fx − g)ᵀ], [Fx − g, I]] is PSD."""
    draws = numpy.random.default_rng(seed)
    f, g = draws.normal(size=(size - 1, n)), draws.normal(size=size - 1)
    head = numpy.zeros((size, size))
    head[0, 0] = 1
    columns = [-svec(head)]
    for k in range(n):
        basis = numpy.zeros((size, size))
        basis[0, 1:] = basis[1:, 0] = f[:, k]
        columns.append(-svec(basis))
    right = numpy.eye(size)
    right[0, 0] = 0
    right[0, 1:] = right[1:, 0] = -g
    a, m = Columns.of(numpy.array(columns).T), size * (size + 1) // 2
    q = numpy.zeros(n + 1)
    q[0] = 1
    pairs = [(0, k) for k in range(1, size)]
    return Problem(n + 1, m, Columns.empty(n + 1), q, a, svec(right), [Cone.psd_triangle(size)], [clique_tree(size, pairs)])


def band_pairs(size, width):
    """Returns the pairs of a band."""
    return [(i, j) for j in range(size) for i in range(max(0, j - width), j)]


def random_pairs(size, count, seed):
    """Returns up to `count` random pairs."""
    draws = numpy.random.default_rng(seed)
    return sorted({tuple(sorted(draws.choice(size, size=2, replace=False).tolist())) for _ in range(count)})


def band(size, width, n, seed):
    """Returns a problem with one PSD cone with entries in a band."""
    return inside([Cone.psd_triangle(size)], {0: band_pairs(size, width)}, n, seed)


def chordal(size, count, n, seed):
    """Returns a problem with one PSD cone with entries at random pairs."""
    return inside([Cone.psd_triangle(size)], {0: random_pairs(size, count, seed + 1)}, n, seed)


def mixed(n, seed):
    """Returns a problem with a quadratic cost, a zero, a nonnegative and a second order cone, a PSD cone that stays whole and two
    that are cut, with entries of A repeated."""
    cones = [Cone.zero(2), Cone.psd_triangle(12), Cone.nonnegative(4), Cone.psd_triangle(4), Cone.second_order(5),
             Cone.psd_triangle(10)]
    pairs = {1: band_pairs(12, 2), 5: random_pairs(10, 12, seed + 1)}
    return inside(cones, pairs, n, seed, quadratic=True, repeats=9)


def forgotten(size, width, n, seed):
    """Returns a band, and the same problem with the pattern of a narrower band, which does not cover all of A. Both have solutions."""
    narrow = band_pairs(size, width - 1)
    right = inside([Cone.psd_triangle(size)], {0: band_pairs(size, width)}, n, seed, slack={0: narrow})
    return right, dataclasses.replace(right, patterns=[clique_tree(size, narrow)])
