use std::fmt;

/// Why a call is refused: the first check that fails, in the order of the numbers except where one says otherwise. A refused
/// call has written nothing.
///
/// ```
/// use tejiwakpa::{pair_index, Refusal};
///
/// let refused = pair_index(256, 0).unwrap_err();
/// assert_eq!(refused, Refusal::Bound);
/// assert_eq!(refused.number(), 1);
/// ```
#[derive(Clone, Copy, Debug, PartialEq, Eq, PartialOrd, Ord, Hash)]
#[repr(u32)]
pub enum Refusal {
    /// 1: a bound is exceeded: n or m 65,536, entries of A or of P 262,144, cones 1,024, a size in a cone record 65,536,
    /// a PSD size 256, an index argument 255 (32,895 for `pair_back`); or the route is neither 0 nor 1,
    /// or there are no right hand sides or more than 64.
    Bound = 1,
    /// 2: the starts of A or P are not n + 1 numbers, do not begin at 0, decrease, or do not end at the number of values;
    /// or there are not as many rows as values.
    Starts = 2,
    /// 3: rows decrease in a column of A, do not strictly increase in a column of P, or are out of range. A may
    /// repeat a row.
    Rows = 3,
    /// 4: a cone record is not one of the seven kinds, the cones' rows do not add up to m, or the count of α or the
    /// length of q or b is wrong.
    Cones = 4,
    /// 5: pattern words end early or late, a pattern's `orig_index` is not above that of the pattern before or names no PSD
    /// cone, its vertex count is not the cone's dimension, or an ordering (for the inverse, its argument) is not a permutation.
    Patterns = 5,
    /// 6: a pattern has no clique, a parent is not a later clique, or the last clique has a parent or a separator.
    Tree = 6,
    /// 7: a snode is empty, a vertex is not in exactly one snode, a snode has a number that is no vertex, or a separator repeats
    /// a member or has one that its parent's clique does not have.
    Cliques = 7,
    /// 8: never returned, since the compact route accepts a problem without columns. The number is not used for anything
    /// else.
    NoColumns = 8,
    /// 9: the route is compact, and a stored entry of A or a nonzero b is in a row of a decomposed cone that no
    /// clique covers.
    Uncovered = 9,
    /// 10: more than 262,144 augmented rows or, on the compact route, 131,072 overlaps.
    TooLarge = 10,
    /// 11: an output is too short. The calls that allocate their own outputs never return it.
    Short = 11,
    /// 12: the lengths of a solution, or the cone map, are not those of this problem.
    Solution = 12,
    /// 13: a file is shorter than its header, or the length in its header is not its own. A reader checks this first.
    FileLength = 13,
    /// 14: a file's offsets, a gap between its tables or the end of its last table are not those that its counts give. This
    /// check comes before 1.
    FileTables = 14,
    /// 15: the seed of a problem to be generated is 0, or its vertex count, band or column count is out of range. This
    /// check comes before any other.
    Ranges = 15,
    /// 16: a low limit is above its high limit, or either is a NaN. This check comes after 4.
    Limits = 16,
    /// 17: two problems that are to be pooled have different n. This check comes after 7 of the second problem.
    Unknowns = 17,
}

impl Refusal {
    /// All refusals in the order of their numbers, including the one that is never returned.
    ///
    /// ```
    /// use tejiwakpa::Refusal;
    ///
    /// assert!(Refusal::ALL.windows(2).all(|two| two[0].number() < two[1].number()));
    /// ```
    pub const ALL: [Refusal; 17] = [
        Refusal::Bound,
        Refusal::Starts,
        Refusal::Rows,
        Refusal::Cones,
        Refusal::Patterns,
        Refusal::Tree,
        Refusal::Cliques,
        Refusal::NoColumns,
        Refusal::Uncovered,
        Refusal::TooLarge,
        Refusal::Short,
        Refusal::Solution,
        Refusal::FileLength,
        Refusal::FileTables,
        Refusal::Ranges,
        Refusal::Limits,
        Refusal::Unknowns,
    ];

    /// Returns the number of the check.
    ///
    /// ```
    /// assert_eq!(tejiwakpa::Refusal::Uncovered.number(), 9);
    /// ```
    pub fn number(self) -> u32 {
        self as u32
    }

    /// Returns the refusal that has this number.
    ///
    /// ```
    /// use tejiwakpa::Refusal;
    ///
    /// assert_eq!(Refusal::from_number(12), Some(Refusal::Solution));
    /// assert_eq!(Refusal::from_number(0), None);
    /// ```
    pub fn from_number(number: u32) -> Option<Refusal> {
        Refusal::ALL.into_iter().find(|refusal| refusal.number() == number)
    }

    /// Returns what the check found, in a few words.
    ///
    /// ```
    /// assert_eq!(tejiwakpa::Refusal::Short.meaning(), "an output is too short");
    /// ```
    pub fn meaning(self) -> &'static str {
        match self {
            Refusal::Bound => "a bound is exceeded",
            Refusal::Starts => "the starts of A or P are wrong, or rows are not as many as values",
            Refusal::Rows => {
                "rows in a column of A fall or lie outside, or rows of P do not strictly rise or lie outside"
            }
            Refusal::Cones => "a cone record, the cones' rows, or the length of alphas, q or b is wrong",
            Refusal::Patterns => "pattern words or a pattern's cone are wrong, or an ordering is no permutation",
            Refusal::Tree => "a pattern's cliques are no tree with the last as its root",
            Refusal::Cliques => "snodes do not hold each vertex once, or a separator is wrong",
            Refusal::NoColumns => "no columns, which is not refused any more",
            Refusal::Uncovered => "an entry of A or a value of b lies in a row that no clique covers",
            Refusal::TooLarge => "there are too many augmented rows or overlaps",
            Refusal::Short => "an output is too short",
            Refusal::Solution => "the solution's lengths or the cone map are not those of this problem",
            Refusal::FileLength => "the file is shorter than its header, or the length in it is not its own",
            Refusal::FileTables => "the file's offsets, gaps or end are not those that its counts give",
            Refusal::Ranges => "the seed is 0, or a vertex count, band or column count is out of its range",
            Refusal::Limits => "a low limit is above its high one, or one of them is a NaN",
            Refusal::Unknowns => "the two problems have different numbers of unknowns",
        }
    }
}

/// ```
/// let refused = tejiwakpa::inverse(&[1, 1]).unwrap_err();
/// assert_eq!(
///     refused.to_string(),
///     "refused, number 5: pattern words or a pattern's cone are wrong, or an ordering is no permutation"
/// );
/// ```
impl fmt::Display for Refusal {
    fn fmt(&self, f: &mut fmt::Formatter<'_>) -> fmt::Result {
        write!(f, "refused, number {}: {}", self.number(), self.meaning())
    }
}

/// ```
/// fn index() -> Result<u32, Box<dyn std::error::Error>> {
///     Ok(tejiwakpa::pair_index(2, 5)?)
/// }
/// assert_eq!(index().unwrap(), 17);
/// ```
impl std::error::Error for Refusal {}
