"""A dome's alignment fit from a seed: projectors in a ring and one at the zenith, markers on the seams between them.

Projector i turns its own directions by a rotation R_i into the sky's. A marker on the seam of i and j is seen at m_i and m_j.
The fit finds the rotations that bring both images of every marker together, in the least-squares sense: it maximises the sum
of m_iᵀ R_iᵀ R_j m_j, that is ⟨C, Z⟩ over Z = (R_iᵀ R_j) with identities on the diagonal. The dual is the semidefinite problem
that is solved here, min tr Λ with Λ − C positive semidefinite, where Λ has a symmetric block of size 3 for each projector; the
rotations are read from the kernel of Λ − C. C has blocks only where two projectors share a seam, so the cone is cut by that
graph.
"""
import dataclasses
import math

import numpy

from tejiwakpa import Columns, Cone, Problem, smat, svec

from .trees import clique_tree

ARC_SECOND = math.pi / 180 / 3600


@dataclasses.dataclass
class Dome:
    """A dome: its problem, and for each seam the projectors i and j and their markers' directions in the sky and as seen."""

    projectors: int
    problem: Problem
    seams: list

    def rotations(self, x):
        """Returns the rotations for a fit's unknowns: the blocks of the kernel of Λ − C, made orthogonal, and turned so that the
        zenith's is the identity."""
        slack = numpy.asarray(self.problem.b) - self.problem.a.times(x, self.problem.m)
        _, vectors = numpy.linalg.eigh(smat(slack))
        kernel = vectors[:, :3]
        blocks = [kernel[3 * i : 3 * i + 3] for i in range(self.projectors)]
        turned = []
        for block in blocks:
            left, _, right = numpy.linalg.svd(block)
            turned.append((left @ right).T)
        return [turned[-1].T @ r for r in turned]

    def images(self, x):
        """Returns for each marker its seam's number, its direction in the sky, and both images under the fit's rotations."""
        turn = self.rotations(x)
        return [
            (k, sky, turn[i] @ first, turn[j] @ second)
            for k, (i, j, markers) in enumerate(self.seams)
            for sky, first, second in markers
        ]

    def gaps(self, x):
        """Returns how far apart both images of each marker are, in arc seconds."""
        pairs = self.images(x)
        return numpy.array([2 * math.asin(min(1.0, numpy.linalg.norm(p - q) / 2)) / ARC_SECOND for _, _, p, q in pairs])


def _direction(azimuth, elevation):
    return numpy.array([math.cos(elevation) * math.cos(azimuth), math.cos(elevation) * math.sin(azimuth), math.sin(elevation)])


def _rotation(draws, most):
    axis = draws.normal(size=3)
    axis /= numpy.linalg.norm(axis)
    cross = numpy.cross(numpy.eye(3), axis)
    angle = draws.uniform(-most, most)
    return numpy.eye(3) + math.sin(angle) * cross + (1 - math.cos(angle)) * cross @ cross


def dome(ring, seed, markers=6, noise=10.0):
    """Returns a dome with `ring` projectors in a ring and one at the zenith, `markers` on each seam, seen with `noise` arc seconds."""
    draws = numpy.random.default_rng(seed)
    projectors, zenith = ring + 1, ring
    truth = [_rotation(draws, 0.6) for _ in range(ring)] + [numpy.eye(3)]
    step = 2 * math.pi / ring
    places = []
    for i in range(ring):
        lifted = numpy.linspace(math.radians(8), math.radians(55), markers)
        places.append((i, (i + 1) % ring, [_direction((i + 0.5) * step, e) for e in lifted]))
        around = numpy.linspace((i - 0.4) * step, (i + 0.4) * step, markers)
        places.append((i, zenith, [_direction(a, math.radians(58)) for a in around]))
    seams, c = [], numpy.zeros((3 * projectors, 3 * projectors))
    for i, j, directions in places:
        seen = []
        for sky in directions:
            pair = [truth[p].T @ sky + draws.normal(scale=noise * ARC_SECOND, size=3) for p in (i, j)]
            first, second = (m / numpy.linalg.norm(m) for m in pair)
            seen.append((sky, first, second))
            c[3 * i : 3 * i + 3, 3 * j : 3 * j + 3] += numpy.outer(first, second) / markers
        c[3 * j : 3 * j + 3, 3 * i : 3 * i + 3] = c[3 * i : 3 * i + 3, 3 * j : 3 * j + 3].T
        seams.append((i, j, seen))
    return Dome(projectors, _problem(projectors, c, seams), seams)


def _problem(projectors, c, seams):
    size, columns, q = 3 * projectors, [], []
    for p in range(projectors):
        for j in range(3):
            for i in range(j + 1):
                basis = numpy.zeros((size, size))
                basis[3 * p + i, 3 * p + j] = basis[3 * p + j, 3 * p + i] = 1
                columns.append(-svec(basis))
                q.append(1.0 if i == j else 0.0)
    near = {(p, p) for p in range(projectors)} | {(i, j) for i, j, _ in seams}
    pairs = [(3 * i + k, 3 * j + l) for i, j in near for k in range(3) for l in range(3)]
    a = Columns.of(numpy.array(columns).T)
    n, m = len(q), size * (size + 1) // 2
    return Problem(n, m, Columns.empty(n), q, a, -svec(c), [Cone.psd_triangle(size)], [clique_tree(size, pairs)])
