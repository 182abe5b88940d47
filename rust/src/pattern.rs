use crate::{count, flat, Refusal};

/// One clique of a [`Pattern`]. Vertices are places in the pattern's ordering.
///
/// ```
/// use tejiwakpa::Clique;
///
/// let leaf = Clique { parent: Some(1), snode: vec![0], separator: vec![1] };
/// let root = Clique { parent: None, snode: vec![1, 2], separator: vec![] };
/// assert!(leaf.parent.is_some() && root.parent.is_none());
/// ```
#[derive(Clone, Debug, Default, PartialEq, Eq)]
pub struct Clique {
    /// The clique's parent, a later clique of the pattern; none for the last clique. Any other number is refused as
    /// [`Refusal::Tree`], `Some(u32::MAX)` too.
    pub parent: Option<u32>,
    /// Its own vertices: each vertex is in exactly one snode.
    pub snode: Vec<u32>,
    /// The vertices that it shares with its parent.
    pub separator: Vec<u32>,
}

/// The clique tree that a PSD cone is cut by.
///
/// ```
/// use tejiwakpa::{Clique, Pattern};
///
/// let pattern = Pattern {
///     orig_index: 0,
///     ordering: vec![0, 1, 2],
///     cliques: vec![
///         Clique { parent: Some(1), snode: vec![0], separator: vec![1] },
///         Clique { parent: None, snode: vec![1, 2], separator: vec![] },
///     ],
/// };
/// assert_eq!(pattern.words(), [0, 3, 2, 0, 1, 2, 1, 1, 1, 0, 1, 4_294_967_295, 2, 0, 1, 2]);
/// ```
#[derive(Clone, Debug, Default, PartialEq, Eq)]
pub struct Pattern {
    /// The index of the cone that is cut.
    pub orig_index: u32,
    /// The original vertex of each vertex. Its length is the number of vertices.
    pub ordering: Vec<u32>,
    /// The cliques, each before its parent.
    pub cliques: Vec<Clique>,
}

impl Pattern {
    /// Returns the pattern as words: `orig_index`, vertex count, clique count, the ordering, and for each clique its parent,
    /// snode count, separator count, snode members and separator members. Only the parent `None` becomes the mark
    /// [`flat::NONE`]; `Some(u32::MAX)` becomes `u32::MAX - 1`, which no call accepts as a parent either.
    ///
    /// ```
    /// use tejiwakpa::Problem;
    ///
    /// let pattern = &Problem::three_projectors().patterns[0];
    /// assert_eq!(pattern.words()[..6], [0, 3, 2, 0, 1, 2]);
    ///
    /// let mut wrong = pattern.clone();
    /// wrong.cliques[1].parent = Some(u32::MAX);
    /// assert_ne!(wrong.words(), pattern.words());
    /// ```
    pub fn words(&self) -> Vec<u32> {
        let mut words = vec![self.orig_index, count(self.ordering.len()), count(self.cliques.len())];
        words.extend(&self.ordering);
        for clique in &self.cliques {
            words.push(flat::numbered(clique.parent));
            words.extend([count(clique.snode.len()), count(clique.separator.len())]);
            words.extend(clique.snode.iter().chain(&clique.separator));
        }
        words
    }

    /// Reads one pattern; [`Refusal::Patterns`] where the words end early or late. Nothing else is checked.
    ///
    /// ```
    /// use tejiwakpa::{Pattern, Problem, Refusal};
    ///
    /// let pattern = &Problem::three_projectors().patterns[0];
    /// let mut words = pattern.words();
    /// assert_eq!(&Pattern::from_words(&words)?, pattern);
    /// words.pop();
    /// assert_eq!(Pattern::from_words(&words), Err(Refusal::Patterns));
    /// # Ok::<(), Refusal>(())
    /// ```
    pub fn from_words(words: &[u32]) -> Result<Pattern, Refusal> {
        let mut rest = words;
        let pattern = read(&mut rest).filter(|_| rest.is_empty());
        pattern.ok_or(Refusal::Patterns)
    }
}

/// Returns the patterns of the words that a call has written.
pub(crate) fn read_all(mut words: &[u32]) -> Vec<Pattern> {
    let mut patterns = vec![];
    while !words.is_empty() {
        patterns.push(read(&mut words).expect("a call writes whole patterns"));
    }
    patterns
}

// takes the next `count` words, or returns none where there are fewer
fn taken<'a>(words: &mut &'a [u32], count: u32) -> Option<&'a [u32]> {
    let (first, rest) = words.split_at_checked(count as usize)?;
    *words = rest;
    Some(first)
}

fn read(words: &mut &[u32]) -> Option<Pattern> {
    let head = taken(words, 3)?;
    let ordering = taken(words, head[1])?.to_vec();
    let mut cliques = vec![];
    for _ in 0..head[2] {
        let counts = taken(words, 3)?;
        cliques.push(Clique {
            parent: (counts[0] != flat::NONE).then_some(counts[0]),
            snode: taken(words, counts[1])?.to_vec(),
            separator: taken(words, counts[2])?.to_vec(),
        });
    }
    Some(Pattern { orig_index: head[0], ordering, cliques })
}
