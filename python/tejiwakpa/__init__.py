"""The chordal cut and join of semidefinite problems, proved, for Python.

A solver cuts a large matrix cone into the cliques of its sparsity pattern before the solve, and joins the solution again
afterwards: `cut` and `join`. `original_residual` is what to watch after a joining. python/README.md has the contract.
"""
from .calls import (
    Sizes,
    change_route,
    covers,
    cut,
    cut_between,
    cut_covered,
    cut_many,
    generate,
    inverse,
    join,
    original_residual,
    pair_back,
    pair_index,
    pool,
    renumber,
    same_layout,
    sizes,
)
from .diagnosis import Fault, fault, uncovered
from .refusal import Refusal
from .types import Augmented, Clique, Columns, Cone, ConeMapEntry, Kind, Pattern, Problem, Route, Solution, smat, svec

__all__ = [
    "Augmented", "Clique", "Columns", "Cone", "ConeMapEntry", "Fault", "Kind", "Pattern", "Problem", "Refusal", "Route", "Sizes",
    "Solution", "change_route", "covers", "cut", "cut_between", "cut_covered", "cut_many", "fault", "generate", "inverse", "join",
    "original_residual", "pair_back", "pair_index", "pool", "renumber", "same_layout", "sizes", "smat", "svec", "uncovered",
]
