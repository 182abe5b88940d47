use crate::count;

/// A cone of one of the seven kinds.
///
/// ```
/// use tejiwakpa::Cone;
///
/// let cones = [Cone::Zero(2), Cone::Power(0.5), Cone::GenPower(vec![0.25, 0.75], 3), Cone::PsdTriangle(4)];
/// let rows: Vec<usize> = cones.iter().map(Cone::nvars).collect();
/// assert_eq!(rows, [2, 3, 5, 10]);
/// ```
#[derive(Clone, Debug, PartialEq)]
pub enum Cone {
    /// The zero cone of this dimension.
    Zero(u32),
    /// The nonnegative orthant of this dimension.
    Nonnegative(u32),
    /// The second order cone of this dimension.
    SecondOrder(u32),
    /// The exponential cone, in three rows.
    Exponential,
    /// The power cone with this exponent, in three rows.
    Power(f64),
    /// The generalised power cone: its exponents, and the dimension of its second part.
    GenPower(Vec<f64>, u32),
    /// The upper triangles, column by column, of the positive semidefinite matrices of this size.
    PsdTriangle(u32),
}

impl Cone {
    /// Returns how many rows the cone has.
    ///
    /// ```
    /// assert_eq!(tejiwakpa::Cone::PsdTriangle(3).nvars(), 6);
    /// ```
    pub fn nvars(&self) -> usize {
        match *self {
            Cone::Zero(size) | Cone::Nonnegative(size) | Cone::SecondOrder(size) => size as usize,
            Cone::Exponential | Cone::Power(_) => 3,
            Cone::GenPower(ref alphas, second) => alphas.len() + second as usize,
            Cone::PsdTriangle(size) => size as usize * (size as usize + 1) / 2,
        }
    }

    /// Returns the cone's record: its kind, first size and second size.
    ///
    /// ```
    /// use tejiwakpa::Cone;
    ///
    /// assert_eq!(Cone::PsdTriangle(3).record(), [6, 3, 0]);
    /// assert_eq!(Cone::GenPower(vec![0.25, 0.75], 3).record(), [5, 2, 3]);
    /// ```
    pub fn record(&self) -> [u32; 3] {
        match *self {
            Cone::Zero(size) => [0, size, 0],
            Cone::Nonnegative(size) => [1, size, 0],
            Cone::SecondOrder(size) => [2, size, 0],
            Cone::Exponential => [3, 0, 0],
            Cone::Power(_) => [4, 0, 0],
            Cone::GenPower(ref alphas, second) => [5, count(alphas.len()), second],
            Cone::PsdTriangle(size) => [6, size, 0],
        }
    }

    /// Returns the exponents that the cone takes from the table of α.
    ///
    /// ```
    /// use tejiwakpa::Cone;
    ///
    /// assert_eq!(Cone::Power(0.5).alphas(), [0.5]);
    /// assert!(Cone::Zero(2).alphas().is_empty());
    /// ```
    pub fn alphas(&self) -> &[f64] {
        match self {
            Cone::Power(alpha) => std::slice::from_ref(alpha),
            Cone::GenPower(alphas, _) => alphas,
            _ => &[],
        }
    }
}

/// Returns the cones of the records that a call has written, with their exponents.
pub(crate) fn read(records: &[u32], mut alphas: &[f64]) -> Vec<Cone> {
    let mut taken = |count: u32| {
        let (first, rest) = alphas.split_at(count as usize);
        alphas = rest;
        first.to_vec()
    };
    let cones = records.chunks_exact(3).map(|record| match *record {
        [0, size, 0] => Cone::Zero(size),
        [1, size, 0] => Cone::Nonnegative(size),
        [2, size, 0] => Cone::SecondOrder(size),
        [3, 0, 0] => Cone::Exponential,
        [4, 0, 0] => Cone::Power(taken(1)[0]),
        [5, count, second] => Cone::GenPower(taken(count), second),
        [6, size, 0] => Cone::PsdTriangle(size),
        _ => unreachable!("a call writes records of the seven kinds"),
    });
    cones.collect()
}
