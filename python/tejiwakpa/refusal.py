"""Why a call is refused."""

MEANINGS = {
    1: "a bound is exceeded",
    2: "the starts of A or P are wrong, or rows are not as many as values",
    3: "rows in a column of A fall or lie outside, or rows of P do not strictly rise or lie outside",
    4: "a cone record, the cones' rows, or the length of alphas, q or b is wrong",
    5: "pattern words or a pattern's cone are wrong, or an ordering is no permutation",
    6: "a pattern's cliques are no tree with the last as its root",
    7: "snodes do not hold each vertex once, or a separator is wrong",
    9: "an entry of A or a value of b lies in a row that no clique covers",
    10: "there are too many augmented rows or overlaps",
    11: "an output is too short",
    12: "the solution's lengths or the cone map are not those of this problem",
    13: "a problem file's header is short, or its length is not the file's",
    14: "a problem file's offsets, gaps or end are not those of its counts",
    15: "a seed is 0, or a count of the generator is outside its range",
    16: "a low limit is above its high one, or one of them is a NaN",
    17: "two problems to be pooled have different n",
}


class Refusal(Exception):
    """The first check that fails, by its number; a refused call has written nothing.

    `where` names the first place at fault, found by a walk in Python: a diagnosis and not a promise. It is empty if the walk
    finds none.
    """

    def __init__(self, number, where=""):
        self.number, self.where = number, where
        meaning = MEANINGS.get(number, "a check that these pages do not name")
        super().__init__(f"refused, number {number}: {meaning}" + (f"; {where}" if where else ""))
