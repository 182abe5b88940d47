"""Wrong ties: an overlap of the compact cut whose −1 is in another row of its parent's block."""
import dataclasses
import math

import numpy

from tejiwakpa import Route, original_residual

from .solver import Routed, solve_on

# bounds within which a fit would be taken for a good one
GAP, RESIDUAL, ARC_MINUTE, CLOSE = 1e-7, 1e-7, 60.0, 1e-3


@dataclasses.dataclass
class Broken:
    """A solve with one wrong tie: the overlap, the row where its −1 belongs and the row where it was put."""

    overlap: int
    right: int
    wrong: int
    run: Routed


def break_a_tie(augmented, n, overlap, draws):
    """Moves the −1 of an overlap to another row of the same block. Returns the row before and the row after."""
    a = augmented.problem.a
    start, end = int(a.starts[n + overlap]), int(a.starts[n + overlap + 1])
    place = next(k for k in range(start, end) if a.values[k] == -1)
    right = int(a.rows[place])
    block = next(e for e in augmented.map if e.first_row <= right < e.first_row + e.rows)
    taken = set(a.rows[start:end].tolist())
    wrong = int(draws.choice([r for r in range(block.first_row, block.first_row + block.rows) if r not in taken]))
    entries = sorted([(wrong, -1.0)] + [(int(a.rows[k]), a.values[k]) for k in range(start, end) if k != place])
    for k, (row, value) in zip(range(start, end), entries):
        a.rows[k], a.values[k] = row, value
    return right, wrong


def run(dome, overlap, seed, tolerance=1e-9):
    """Solves a dome on the compact route with one tie broken."""
    moved = []
    draws = numpy.random.default_rng([seed, overlap])

    def change(augmented):
        moved.extend(break_a_tie(augmented, dome.problem.n, overlap, draws))

    routed = solve_on(Route.COMPACT, dome.problem, change, tolerance)
    return Broken(overlap, moved[0], moved[1], routed)


def overlaps(problem):
    """Returns how many overlaps the compact cut of a problem has."""
    return sum(len(c.separator) * (len(c.separator) + 1) // 2 for p in problem.patterns for c in p.cliques)


def many(dome, count, seed, said=lambda done, total: None):
    """Solves with one wrong tie at a time, `count` times; each overlap is broken once before any is broken again."""
    draws = numpy.random.default_rng(seed)
    total = overlaps(dome.problem)
    results = []
    chosen = [int(k) for _ in range(-(-count // total)) for k in draws.permutation(total)][:count]
    for done, overlap in enumerate(chosen, 1):
        try:
            # in the first round the same row as `--break-a-tie` takes, then other rows
            results.append(run(dome, overlap, seed + (done - 1) // total))
        except (ArithmeticError, ValueError):
            # the solver gave up
            results.append(None)
        said(done, count)
    return results


def optimal(broken):
    """Returns whether the solver ended as if nothing were wrong."""
    return broken is not None and broken.run.solved.status == "optimal" and broken.run.solved.gap < GAP


def clearest(dome, results):
    """Returns, of the solves with a wrong tie that ended as if nothing were wrong, the one whose seams a picture shows best."""
    ended = [r for r in results if optimal(r)]
    return min(ended, key=lambda r: abs(math.log(max(1.0, dome.gaps(r.run.joined.x).max()) / (15 * ARC_MINUTE))))


def report(dome, results, right):
    """Returns the table of wrong ties compared with the right fit, as Markdown."""
    ended = [r for r in results if optimal(r)]
    most = [dome.gaps(r.run.joined.x).max() for r in ended]
    away = [abs(r.run.solved.value - right.value) / max(1.0, abs(right.value)) for r in ended]
    own = [r.run.solved.residual for r in ended]
    seen = [original_residual(dome.problem, r.run.joined) for r in ended]
    best = dome.gaps(right.solution.x).max()
    doubled = [gap > ARC_MINUTE for gap in most]
    hidden = [d and value < CLOSE for d, value in zip(doubled, away)]
    lines = [
        ("wrong ties tried, one at a time", len(results)),
        (f"the solver ends 'optimal' with a gap below {GAP:g}", len(ended)),
        ("of these, a seam is off by more than an arc minute", sum(doubled)),
        (f"of those, the value is within {CLOSE:.1%} of the right one", sum(hidden)),
        (f"shown by the solver's own residuals (above {RESIDUAL:g})", sum(v > RESIDUAL for v in own)),
        (f"shown by the original residual (above {RESIDUAL:g})", sum(v > RESIDUAL for v in seen)),
    ]
    text = ["| | fits |", "|---|---|"] + [f"| {what} | {number} |" for what, number in lines]
    if ended:
        text += ["", f"Largest seam of the right fit {best:.1f} arc seconds; of the broken ones {min(most) / 3600:.1f} degrees at least, "
                 f"{numpy.median(most) / 3600:.0f} in the median. Original residual of the broken ones {min(seen):.1e} at least; the "
                 f"solver's own {max(own):.1e} at most."]
    return "\n".join(text)
