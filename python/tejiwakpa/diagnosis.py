"""Finds the first place at fault in a problem that was refused, independently of the calls: a diagnosis and not a promise.

The call decides the refusal number. `fault` makes the checks in the same order and names the column, row, cone, pattern or
clique at which the first of them fails; the tests compare its number with the call's on damaged problems.
"""
import dataclasses

import numpy

from .types import Kind, Route, triangle

SIZES, ENTRIES, CONES, PSD_SIZE, ROWS, OVERLAPS = 65_536, 262_144, 1_024, 256, 262_144, 131_072


@dataclasses.dataclass(frozen=True)
class Fault:
    """The number of a check that fails, and the first place where it does."""

    number: int
    where: str


def _bounds(problem):
    for name, size in (("n", problem.n), ("m", problem.m)):
        if not 0 <= size <= SIZES:
            return f"{name} is {size}, above {SIZES}"
    for name, matrix in (("P", problem.p), ("A", problem.a)):
        if len(matrix.values) > ENTRIES:
            return f"{name} has {len(matrix.values)} entries, above {ENTRIES}"
    if len(problem.cones) > CONES:
        return f"there are {len(problem.cones)} cones, above {CONES}"
    for place, cone in enumerate(problem.cones):
        _, first, second = cone.record()
        if not (0 <= first <= SIZES and 0 <= second <= SIZES):
            return f"cone {place} has the sizes {first} and {second}, above {SIZES}"
        if cone.kind == Kind.PSD_TRIANGLE and first > PSD_SIZE:
            return f"cone {place} is PSD of size {first}, above {PSD_SIZE}"
    return None


def _starts(problem):
    for name, matrix in (("P", problem.p), ("A", problem.a)):
        starts, entries = matrix.starts, len(matrix.values)
        if len(starts) != problem.n + 1:
            return f"{name} has {len(starts)} starts for {problem.n} columns"
        if starts[0] != 0:
            return f"{name}'s first start is {starts[0]}"
        for column in range(problem.n):
            if starts[column + 1] < starts[column]:
                return f"{name}'s starts fall after column {column}"
        if starts[problem.n] != entries:
            return f"{name}'s starts end at {starts[problem.n]}, with {entries} values"
        if len(matrix.rows) != entries:
            return f"{name} has {len(matrix.rows)} rows for {entries} values"
    return None


def _rows(problem):
    for name, matrix, height in (("P", problem.p, problem.n), ("A", problem.a, problem.m)):
        for column in range(problem.n):
            last = -1
            for place in range(matrix.starts[column], matrix.starts[column + 1]):
                row = int(matrix.rows[place])
                if not 0 <= row < height:
                    return f"{name}'s column {column} has an entry in row {row}, outside"
                if row < last:
                    return f"{name}'s column {column} has row {row} after row {last}"
                if row == last and name == "P":
                    return f"P's column {column} has row {row} twice"
                last = row
    return None


def _cones(problem):
    rows = alphas = given = 0
    for place, cone in enumerate(problem.cones):
        kind, first, second = cone.record()
        if kind not in list(Kind):
            return f"cone {place} has kind {kind}"
        if second and kind != Kind.GEN_POWER or first and kind in (Kind.EXPONENTIAL, Kind.POWER):
            return f"cone {place} has a size that its kind does not use"
        rows += cone.nvars()
        alphas += {Kind.POWER: 1, Kind.GEN_POWER: first}.get(kind, 0)
        given += len(cone.alphas)
    if rows != problem.m:
        return f"the cones have {rows} rows, m is {problem.m}"
    if alphas != given:
        return f"the cones take {alphas} exponents, {given} are given"
    for name, length, want in (("q", len(problem.q), problem.n), ("b", len(problem.b), problem.m)):
        if length != want:
            return f"{name} has {length} values, not {want}"
    return None


def _patterns(problem):
    last = -1
    for place, pattern in enumerate(problem.patterns):
        cone, size = pattern.orig_index, len(pattern.ordering)
        if cone <= last:
            return f"pattern {place} names cone {cone}, which does not follow cone {last}"
        if not cone < len(problem.cones) or problem.cones[cone].kind != Kind.PSD_TRIANGLE:
            return f"pattern {place} names cone {cone}, which is no PSD cone"
        if problem.cones[cone].size != size:
            return f"pattern {place} has {size} vertices, cone {cone} has size {problem.cones[cone].size}"
        seen = set()
        for vertex, original in enumerate(pattern.ordering):
            if not 0 <= original < size or original in seen:
                return f"pattern {place}'s ordering has {original} at place {vertex}, outside or twice"
            seen.add(original)
        last = cone
    return None


def _tree(problem):
    for place, pattern in enumerate(problem.patterns):
        count = len(pattern.cliques)
        if count == 0:
            return f"pattern {place} has no clique"
        for number, clique in enumerate(pattern.cliques[:-1]):
            if clique.parent is None or not number < clique.parent < count:
                return f"clique {number} of pattern {place} has the parent {clique.parent}, not a later clique"
        root = pattern.cliques[-1]
        if root.parent is not None or len(root.separator):
            return f"clique {count - 1}, the last of pattern {place}, has a parent or a separator"
    return None


def _cliques(problem):
    for place, pattern in enumerate(problem.patterns):
        seen = {}
        for number, clique in enumerate(pattern.cliques):
            if not len(clique.snode):
                return f"clique {number} of pattern {place} has an empty snode"
            for vertex in clique.snode:
                if not 0 <= vertex < len(pattern.ordering):
                    return f"clique {number} of pattern {place} has the vertex {vertex}, outside"
                if vertex in seen:
                    return f"vertex {vertex} of pattern {place} is in the snodes of cliques {seen[vertex]} and {number}"
                seen[vertex] = number
        for vertex in range(len(pattern.ordering)):
            if vertex not in seen:
                return f"vertex {vertex} of pattern {place} is in no snode"
        for number, clique in enumerate(pattern.cliques[:-1]):
            held = set(pattern.cliques[clique.parent].members())
            for at, vertex in enumerate(clique.separator):
                if vertex in list(clique.separator)[:at]:
                    return f"the separator of clique {number} of pattern {place} has vertex {vertex} twice"
                if vertex not in held:
                    return (f"the separator of clique {number} of pattern {place} has vertex {vertex}, "
                            f"which clique {clique.parent}, its parent, lacks")
    return None


def uncovered(problem):
    """Returns the rows of cut cones that no clique covers, each with its cone and its pair."""
    rows, first = {}, problem.first_rows()
    for pattern in problem.patterns:
        covered = set()
        for number in range(len(pattern.cliques)):
            members = pattern.originals(number)
            covered.update((i, j) for j in members for i in members if i <= j)
        for place, pair in enumerate(triangle(problem.cones[pattern.orig_index].size)):
            if pair not in covered:
                rows[first[pattern.orig_index] + place] = (pattern.orig_index, pair)
    return rows


def _uncovered(problem, sides):
    free = uncovered(problem)
    for column in range(problem.n):
        for place in range(problem.a.starts[column], problem.a.starts[column + 1]):
            row = int(problem.a.rows[place])
            if row in free:
                cone, pair = free[row]
                return f"A has an entry in column {column}, row {row}: the pair {pair} of cone {cone}, in no clique"
    for name, side in sides:
        for row, (cone, pair) in free.items():
            if not side[row] == 0:
                return f"{name} has {side[row]} in row {row}: the pair {pair} of cone {cone}, in no clique"
    return None


def counts(problem):
    """Returns the number of rows of all blocks and whole cones, and how many of them are overlaps."""
    rows, overlaps = sum(cone.nvars() for cone in problem.cones), 0
    for pattern in problem.patterns:
        rows -= problem.cones[pattern.orig_index].nvars()
        for clique in pattern.cliques:
            size, shared = len(clique.snode) + len(clique.separator), len(clique.separator)
            rows += size * (size + 1) // 2
            overlaps += shared * (shared + 1) // 2
    return rows, overlaps


def _large(problem, route):
    rows, overlaps = counts(problem)
    rows += problem.m if route == Route.STANDARD else 0
    if rows > ROWS:
        return f"there are {rows} augmented rows, above {ROWS}"
    if route == Route.COMPACT and overlaps > OVERLAPS:
        return f"there are {overlaps} overlaps, above {OVERLAPS}"
    return None


def _first(checks):
    for number, check in checks:
        where = check()
        if where is not None:
            return Fault(number, where)
    return None


def _before_patterns(problem):
    return [(1, lambda: _bounds(problem)), (2, lambda: _starts(problem)), (3, lambda: _rows(problem)),
            (4, lambda: _cones(problem))]


def _of_patterns(problem):
    return [(5, lambda: _patterns(problem)), (6, lambda: _tree(problem)), (7, lambda: _cliques(problem))]


def _of_route(problem, route, sides):
    checks = []
    if route == Route.COMPACT:
        checks.append((9, lambda: _uncovered(problem, sides)))
    if route is not None:
        checks.append((10, lambda: _large(problem, route)))
    return checks


def fault(problem, route=None):
    """Returns the first fault of a problem, on a route if one is given, or None."""
    return _first(_before_patterns(problem) + _of_patterns(problem) + _of_route(problem, route, [("b", problem.b)]))


def limits_fault(problem, low, high):
    """Returns the first fault of a problem with limits instead of b, or None."""
    sided = dataclasses.replace(problem, b=low)

    def length():
        return None if len(high) == problem.m else f"high has {len(high)} values, not {problem.m}"

    def order():
        for row in range(problem.m):
            if not low[row] <= high[row]:
                return f"row {row} has the limits {low[row]} and {high[row]}"
        return None

    between = [(4, length), (16, order)]
    sides = [("low", low), ("high", high)]
    return _first(_before_patterns(sided) + between + _of_patterns(problem) + _of_route(problem, Route.COMPACT, sides))


def _sketch(problem):
    def bounds():
        empty = dataclasses.replace(problem.a, starts=(), rows=(), values=())
        return _bounds(dataclasses.replace(problem, p=empty, a=empty))

    def cones():
        return _cones(dataclasses.replace(problem, q=numpy.zeros(problem.n), b=numpy.zeros(problem.m)))

    return [(1, bounds), (4, cones)] + _of_patterns(problem) + [(10, lambda: None)]


def fault_of_solution(problem, route, solution):
    """Returns the first fault of a joining's input except its map, or None."""

    def lengths():
        rows, overlaps = counts(problem)
        added, before = (overlaps, 0) if route == Route.COMPACT else (rows, problem.m)
        for name, values, want in (("x", solution.x, problem.n + added), ("s", solution.s, before + rows),
                                   ("z", solution.z, before + rows)):
            if len(values) != want:
                return f"{name} has {len(values)} values, not {want}"
        return None

    checks = _sketch(problem)
    checks[-1] = (10, lambda: _large(problem, route))
    return _first(checks + [(12, lengths)])


def fault_of_map(problem, route, entries):
    """Returns the first fault of a compact joining's map, an entry that is not the cut's, or None."""
    if route != Route.COMPACT:
        return None
    patterns, row, place = {p.orig_index: (k, p) for k, p in enumerate(problem.patterns)}, 0, 0
    for orig, cone in enumerate(problem.cones):
        number, pattern = patterns.get(orig, (None, None))
        for clique in [None] if pattern is None else reversed(range(len(pattern.cliques))):
            rows = cone.nvars()
            if clique is not None:
                size = len(pattern.cliques[clique].members())
                rows = size * (size + 1) // 2
            want = (orig, None if clique is None else (number, clique), row, rows)
            if place >= len(entries):
                return Fault(12, f"the map ends after {place} entries")
            entry = entries[place]
            if (entry.orig_index, entry.tree_and_clique, entry.first_row, entry.rows) != want:
                return Fault(12, f"entry {place} of the map is not that of cone {orig}" +
                             ("" if clique is None else f", clique {clique} of pattern {number}"))
            row, place = row + rows, place + 1
    return None if place == len(entries) else Fault(12, f"the map has {len(entries)} entries, not {place}")
