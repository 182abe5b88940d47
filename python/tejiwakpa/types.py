"""The types: problem, cones, clique trees, solutions, and what a cut gives."""
import dataclasses
import enum
import math
import typing

import numpy

from . import door


class Route(enum.IntEnum):
    """The two ways to cut a problem. Both mean the same problem; docs/ROUTES.md says which to take."""

    STANDARD = 0
    COMPACT = 1


class Kind(enum.IntEnum):
    """The seven kinds of cones, with their codes."""

    ZERO = 0
    NONNEGATIVE = 1
    SECOND_ORDER = 2
    EXPONENTIAL = 3
    POWER = 4
    GEN_POWER = 5
    PSD_TRIANGLE = 6


@dataclasses.dataclass(frozen=True)
class Cone:
    """A cone, made by the functions named after its kinds.

    >>> [cone.nvars() for cone in (Cone.zero(2), Cone.power(0.5), Cone.gen_power([0.25, 0.75], 3), Cone.psd_triangle(4))]
    [2, 3, 5, 10]
    """

    kind: int
    size: int = 0
    second: int = 0
    alphas: tuple = ()

    @staticmethod
    def zero(size):
        """Returns the zero cone of this dimension."""
        return Cone(Kind.ZERO, size)

    @staticmethod
    def nonnegative(size):
        """Returns the nonnegative orthant of this dimension."""
        return Cone(Kind.NONNEGATIVE, size)

    @staticmethod
    def second_order(size):
        """Returns the second order cone of this dimension."""
        return Cone(Kind.SECOND_ORDER, size)

    @staticmethod
    def exponential():
        """Returns the exponential cone, in three rows."""
        return Cone(Kind.EXPONENTIAL)

    @staticmethod
    def power(alpha):
        """Returns the power cone with this exponent, in three rows."""
        return Cone(Kind.POWER, alphas=(alpha,))

    @staticmethod
    def gen_power(alphas, second):
        """Returns the generalised power cone with these exponents, whose second part has dimension `second`."""
        return Cone(Kind.GEN_POWER, len(alphas), second, tuple(alphas))

    @staticmethod
    def psd_triangle(size):
        """Returns the cone of the upper triangles, column by column, of positive semidefinite matrices of this size."""
        return Cone(Kind.PSD_TRIANGLE, size)

    def nvars(self):
        """Returns how many rows the cone has."""
        if self.kind == Kind.PSD_TRIANGLE:
            return self.size * (self.size + 1) // 2
        if self.kind in (Kind.EXPONENTIAL, Kind.POWER):
            return 3
        return self.size + self.second

    def record(self):
        """Returns the cone's record: its kind, first size and second size."""
        return [self.kind, self.size, self.second]


@dataclasses.dataclass
class Columns:
    """A matrix in compressed columns: the entries of column c are those from `starts[c]` to `starts[c + 1]`, with increasing
    rows. A problem's A may repeat a row; the entry is then the sum of the run."""

    starts: typing.Sequence
    rows: typing.Sequence = ()
    values: typing.Sequence = ()

    @staticmethod
    def empty(columns):
        """Returns a matrix with this many columns and no entries."""
        return Columns([0] * (columns + 1))

    @staticmethod
    def of(matrix):
        """Returns the nonzero entries of a dense matrix."""
        matrix = numpy.asarray(matrix, dtype=float)
        columns, rows = numpy.nonzero(matrix.T)
        starts = numpy.searchsorted(columns, numpy.arange(matrix.shape[1] + 1))
        return Columns(starts.astype(numpy.uint32), rows.astype(numpy.uint32), matrix.T[columns, rows])

    def dense(self, rows):
        """Returns the dense matrix with `rows` rows; repeated entries are added."""
        matrix = numpy.zeros((rows, len(self.starts) - 1))
        starts = numpy.asarray(self.starts, dtype=numpy.int64)
        columns = numpy.repeat(numpy.arange(len(starts) - 1), numpy.diff(starts))
        numpy.add.at(matrix, (numpy.asarray(self.rows, dtype=numpy.int64), columns), numpy.asarray(self.values, dtype=float))
        return matrix

    def times(self, x, rows):
        """Returns the product of the matrix, with `rows` rows, and `x`."""
        starts = numpy.asarray(self.starts, dtype=numpy.int64)
        factors = numpy.repeat(numpy.asarray(x, dtype=float), numpy.diff(starts))
        weights = numpy.asarray(self.values, dtype=float) * factors
        return numpy.bincount(numpy.asarray(self.rows, dtype=numpy.int64), weights, rows).astype(float)[:rows]


@dataclasses.dataclass
class Clique:
    """One clique of a `Pattern`. Members are vertices: places in the pattern's ordering."""

    parent: typing.Optional[int]
    snode: typing.Sequence
    separator: typing.Sequence = ()

    def members(self):
        """Returns the members of the snode and of the separator."""
        return list(self.snode) + list(self.separator)


@dataclasses.dataclass
class Pattern:
    """The clique tree that a PSD cone is cut by.

    `ordering[v]` is the original vertex, a row of the cone's matrix, of vertex v; members of cliques are such v and not
    original vertices. Each clique comes before its parent; the last has none.
    """

    orig_index: int
    ordering: typing.Sequence
    cliques: typing.Sequence

    def words(self):
        """Returns the pattern as words: `orig_index`, vertex count, clique count, the ordering, and for each clique its
        parent, snode count, separator count, snode members and separator members."""
        words = [self.orig_index, len(self.ordering), len(self.cliques), *self.ordering]
        for clique in self.cliques:
            parent = door.numbered(clique.parent)
            words += [parent, len(clique.snode), len(clique.separator), *clique.members()]
        return words

    @staticmethod
    def from_words(words):
        """Reads the words of one pattern that a call has written."""
        orig_index, vertices, count = (int(w) for w in words[:3])
        ordering, rest = [int(w) for w in words[3 : 3 + vertices]], words[3 + vertices :]
        cliques = []
        for _ in range(count):
            parent, snodes, separators = (int(w) for w in rest[:3])
            members = [int(w) for w in rest[3 : 3 + snodes + separators]]
            rest = rest[3 + snodes + separators :]
            cliques.append(Clique(None if parent == door.NONE else parent, members[:snodes], members[snodes:]))
        return Pattern(orig_index, ordering, cliques)

    @staticmethod
    def all_from_words(count, words):
        """Reads the words of `count` patterns, one after the other, that a call has written."""
        patterns = []
        for _ in range(count):
            patterns.append(Pattern.from_words(words))
            words = words[len(patterns[-1].words()) :]
        return patterns

    def originals(self, clique):
        """Returns the original vertices of a clique's members, sorted: the rows of the matrix in its block."""
        return sorted(self.ordering[v] for v in self.cliques[clique].members())


@dataclasses.dataclass
class Problem:
    """A conic problem, ½ xᵀPx + qᵀx with Ax + s = b and s in the cones, and the clique trees of the PSD cones to be cut.

    P is passed on as it is, whole or upper triangle, whichever the solver reads. A PSD cone's rows are its matrix's upper
    triangle column by column; entries are only moved, so any scaling of the off-diagonal ones works.
    """

    n: int
    m: int
    p: Columns
    q: typing.Sequence
    a: Columns
    b: typing.Sequence
    cones: typing.Sequence
    patterns: typing.Sequence = ()

    @staticmethod
    def three_projectors():
        """Returns the example of these pages: one unknown and a PSD cone of dimension 3, cut into the cliques {0, 1} and
        {1, 2}, which overlap in vertex 1: row 2 belongs to both."""
        return Problem(
            1, 6, Columns.empty(1), [0.0], Columns([0, 5], [0, 1, 2, 4, 5], [10.0, 20.0, 30.0, 40.0, 50.0]),
            [1.0, 2.0, 3.0, 0.0, 4.0, 5.0], [Cone.psd_triangle(3)],
            [Pattern(0, [0, 1, 2], [Clique(1, [0], [1]), Clique(None, [1, 2])])],
        )

    @staticmethod
    def from_bytes(data):
        """Returns the problem of a problem file's bytes; docs/FILE.md has the format.

        >>> Problem.from_bytes(Problem.three_projectors().to_bytes()).b.tolist()
        [1.0, 2.0, 3.0, 0.0, 4.0, 5.0]
        """
        from . import file  # imported here, since it imports the calls, and these import this module

        return file.from_bytes(data)

    @staticmethod
    def from_file(path):
        """Reads a problem file, as other tools write it. A problem that is read passes checks 1 to 7; a cut may still refuse it."""
        with open(path, "rb") as file:
            return Problem.from_bytes(file.read())

    def to_bytes(self):
        """Returns the bytes of the problem's file. A file that is read and written again has the same bytes, whatever NaNs it holds.

        >>> len(Problem.three_projectors().to_bytes())
        296
        """
        from . import file

        return file.to_bytes(self)

    def to_file(self, path):
        """Writes the problem as a file, for other tools. If the problem is refused, no file is written."""
        data = self.to_bytes()
        with open(path, "wb") as file:
            file.write(data)

    def cone_words(self):
        """Returns the cones' records and their exponents."""
        return (door.words([w for cone in self.cones for w in cone.record()]),
                door.doubles([a for cone in self.cones for a in cone.alphas]))

    def pattern_words(self):
        """Returns the patterns' words, one pattern after the other."""
        return door.words([w for pattern in self.patterns for w in pattern.words()])

    def tables(self, *sides):
        """Returns the arguments of a call that takes a problem, with `sides` instead of b if they are given."""
        cones, alphas = self.cone_words()
        return [
            door.word(self.n), door.word(self.m),
            door.words(self.p.starts), door.words(self.p.rows), door.doubles(self.p.values), door.doubles(self.q),
            door.words(self.a.starts), door.words(self.a.rows), door.doubles(self.a.values),
            *(door.doubles(side) for side in sides or (self.b,)),
            cones, alphas, len(self.patterns), self.pattern_words(),
        ]

    def map_place(self, pattern, clique):
        """Returns the index, in the compact cut's map, of the entry of a pattern's clique; None if there is no such clique."""
        if not 0 <= pattern < len(self.patterns) or not 0 <= clique < len(self.patterns[pattern].cliques):
            return None
        more = sum(max(0, len(p.cliques) - 1) for p in self.patterns[:pattern])
        return self.patterns[pattern].orig_index + more + len(self.patterns[pattern].cliques) - 1 - clique

    def first_rows(self):
        """Returns the first row of each cone."""
        return [0, *numpy.cumsum([cone.nvars() for cone in self.cones]).tolist()][:-1]


@dataclasses.dataclass
class Solution:
    """A solution: of the augmented problem before `join`, of the original one after it.

    A joining reads neither τ nor κ and returns 1 for both: divide x, s and z of a homogeneous embedding by τ first.
    """

    x: typing.Sequence
    s: typing.Sequence
    z: typing.Sequence
    tau: float = 1.0
    kappa: float = 0.0


@dataclasses.dataclass(frozen=True)
class ConeMapEntry:
    """Where a cone of the augmented problem comes from: the original cone, the pattern and the clique where it was cut,
    its first augmented row and its row count."""

    orig_index: int
    tree_and_clique: typing.Optional[typing.Tuple[int, int]]
    first_row: int
    rows: int

    def range(self):
        """Returns the slice of the cone's rows: where its values are in b, s and z of the augmented problem."""
        return slice(self.first_row, self.first_row + self.rows)


@dataclasses.dataclass
class Augmented:
    """What the cut gives: a problem without patterns, and where its cones come from; the map is empty on the standard
    route."""

    problem: Problem
    map: typing.List[ConeMapEntry]


def read_cones(records, alphas):
    """Returns the cones of the records that a cut has written, with their exponents."""
    cones, taken = [], 0
    for kind, first, second in numpy.reshape(records, (-1, 3)).tolist():
        count = {Kind.POWER: 1, Kind.GEN_POWER: first}.get(kind, 0)
        cones.append(Cone(Kind(kind), first, second, tuple(alphas[taken : taken + count].tolist())))
        taken += count
    return cones


def triangle(size):
    """Returns the pair of each row of a PSD cone: (i, j), i at most j, column by column."""
    return [(i, j) for j in range(size) for i in range(j + 1)]


def svec(matrix, off_diagonal=math.sqrt(2)):
    """Returns the upper triangle of a symmetric matrix column by column, its off-diagonal entries times `off_diagonal`."""
    matrix = numpy.asarray(matrix, dtype=float)
    j, i = numpy.tril_indices(matrix.shape[0])
    return matrix[i, j] * numpy.where(i == j, 1.0, off_diagonal)


def smat(values, off_diagonal=math.sqrt(2)):
    """Returns the symmetric matrix whose `svec` these values are."""
    values = numpy.asarray(values, dtype=float)
    size = int((math.isqrt(8 * len(values) + 1) - 1) // 2)
    j, i = numpy.tril_indices(size)
    matrix = numpy.zeros((size, size))
    matrix[i, j] = values / numpy.where(i == j, 1.0, off_diagonal)
    matrix[j, i] = matrix[i, j]
    return matrix
