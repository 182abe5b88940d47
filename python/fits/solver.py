"""CVXOPT as the solver behind the cut, for zero, nonnegative, second order and PSD cones. Seconds are process time."""
import dataclasses
import math
import time

import cvxopt
import cvxopt.solvers
import numpy

from tejiwakpa import Kind, Problem, Route, Solution, cut, join
from tejiwakpa.types import triangle

ROOT = math.sqrt(2)


@dataclasses.dataclass
class Solved:
    """A solution, how the solver ended, and what it reports: value, gap and the larger of its residuals."""

    solution: Solution
    status: str
    value: float
    gap: float
    residual: float
    iterations: int
    seconds: float


def _places(problem):
    # the cones of each kind with their first rows: CVXOPT takes equations, nonnegative, second order and PSD cones separately
    rows = {Kind.ZERO: [], Kind.NONNEGATIVE: [], Kind.SECOND_ORDER: [], Kind.PSD_TRIANGLE: []}
    first = 0
    for cone in problem.cones:
        rows[cone.kind].append((cone, first))
        first += cone.nvars()
    return rows


def solve(problem, tolerance=1e-9):
    """Solves a problem by CVXOPT. Off-diagonal rows of PSD cones are scaled by the root of 2. Returns `Solved`."""
    rows, a, b = _places(problem), problem.a.dense(problem.m), numpy.asarray(problem.b, dtype=float)
    equal = [r for cone, first in rows[Kind.ZERO] for r in range(first, first + cone.size)]
    # where no clique covers a row, its equation is 0 = 0 and is left out
    equal = [r for r in equal if a[r].any() or b[r] != 0]
    parts, back, height = [], [], 0
    for kind in (Kind.NONNEGATIVE, Kind.SECOND_ORDER):
        for cone, first in rows[kind]:
            parts += [(height + k, first + k, 1.0) for k in range(cone.size)]
            back += [(first + k, height + k, 1.0, 1.0) for k in range(cone.size)]
            height += cone.size
    for cone, first in rows[Kind.PSD_TRIANGLE]:
        for place, (i, j) in enumerate(triangle(cone.size)):
            scale = 1.0 if i == j else ROOT
            lower, upper = height + i * cone.size + j, height + j * cone.size + i
            parts += [(at, first + place, 1 / scale) for at in {lower, upper}]
            back.append((first + place, lower, scale, scale))
        height += cone.size**2
    g, h = numpy.zeros((height, problem.n)), numpy.zeros(height)
    to, source, factor = (numpy.array(column) for column in zip(*parts))
    g[to] = a[source] * factor[:, None]
    h[to] = b[source] * factor
    dims = {"l": sum(cone.size for cone, _ in rows[Kind.NONNEGATIVE]), "q": [cone.size for cone, _ in rows[Kind.SECOND_ORDER]],
            "s": [cone.size for cone, _ in rows[Kind.PSD_TRIANGLE]]}
    p = problem.p.dense(problem.n)
    p = numpy.triu(p) + numpy.triu(p, 1).T
    q = numpy.asarray(problem.q, dtype=float)
    start = time.process_time()
    answer = _run(p, q, g, h, dims, a[equal], b[equal], tolerance)
    if answer["status"] != "optimal":
        # some fits reach only CVXOPT's own tolerance
        answer = _run(p, q, g, h, dims, a[equal], b[equal], 100 * tolerance)
    seconds = time.process_time() - start
    s, z = numpy.zeros(problem.m), numpy.zeros(problem.m)
    flat_s, flat_z = _taken(answer["s"], height), _taken(answer["z"], height)
    for row, at, scale_s, scale_z in back:
        s[row], z[row] = flat_s[at] * scale_s, flat_z[at] * scale_z
    if equal:
        z[equal] = _taken(answer["y"], len(equal))
    x = _taken(answer["x"], problem.n)
    residual = max(answer["primal infeasibility"] or 0.0, answer["dual infeasibility"] or 0.0)
    value = float(x @ p @ x / 2 + q @ x)
    return Solved(Solution(x, s, z), answer["status"], value, answer["gap"] or 0.0, residual, answer["iterations"], seconds)


def _taken(values, length):
    # a solver that finds a problem infeasible returns no values
    return numpy.full(length, numpy.nan) if values is None else numpy.array(values).ravel()


def _sparse(matrix):
    columns, rows = numpy.nonzero(matrix.T)
    values = matrix.T[columns, rows]
    return cvxopt.spmatrix(values.tolist(), rows.tolist(), columns.tolist(), matrix.shape, "d")


def _run(p, q, g, h, dims, a, b, tolerance):
    options = {"show_progress": False, "abstol": tolerance, "reltol": tolerance, "feastol": tolerance, "maxiters": 60,
               "refinement": 2}
    arguments = dict(G=_sparse(g), h=cvxopt.matrix(h), dims=dims, options=options)
    if len(b):
        arguments.update(A=_sparse(a), b=cvxopt.matrix(b))
    if p.any():
        return cvxopt.solvers.coneqp(_sparse(p), cvxopt.matrix(q), **arguments)
    return cvxopt.solvers.conelp(cvxopt.matrix(q), **arguments)


@dataclasses.dataclass
class Routed:
    """A solve on a route: the augmented sizes, the joined solution, and the seconds of cut, solve and joining."""

    rows: int
    columns: int
    solved: Solved
    joined: Solution
    cut_seconds: float
    join_seconds: float


def solve_on(route, problem, change=None, tolerance=1e-9):
    """Cuts a problem, solves it by CVXOPT and joins the solution; `change` may damage the augmented problem in between."""
    start = time.process_time()
    augmented = cut(route, problem)
    cut_seconds = time.process_time() - start
    if change is not None:
        change(augmented)
    solved = solve(augmented.problem, tolerance)
    start = time.process_time()
    joined = join(route, problem, augmented.map, solved.solution)
    join_seconds = time.process_time() - start
    return Routed(augmented.problem.m, augmented.problem.n, solved, joined, cut_seconds, join_seconds)
