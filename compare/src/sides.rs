//! A plain reading of document 02's compact cuts with several right sides: low and high limits, and many sides.

use crate::expected;
use crate::problem::*;

/// Returns the problem with another right side.
pub fn with_b(p: &Problem, b: &[f64]) -> Problem {
    Problem { b: b.to_vec(), ..p.clone() }
}

/// Returns whether no low is above its high, and neither is a NaN.
pub fn in_order(low: &[f64], high: &[f64]) -> bool {
    low.iter().zip(high).all(|(low, high)| low <= high)
}

// makes checks 1 to 4 with both lists, 16, and 5 to 10 with both
fn accepted_between(p: &Problem, low: &[f64], high: &[f64]) -> Result<[Problem; 2], u32> {
    let sides = [low, high].map(|b| with_b(p, b));
    let first = |check: &dyn Fn(&Problem) -> Option<u32>| sides.iter().filter_map(check).min();
    if let Some(number) = first(&|p| expected::first_four(p).err()) {
        return Err(number);
    }
    if !in_order(low, high) {
        return Err(16);
    }
    match first(&|p| expected::accepted(Route::Compact, p).err()) {
        Some(number) => Err(number),
        None => Ok(sides),
    }
}

/// Returns the lengths of the outputs: those of the cut, where b's length holds for the low and for the high limits.
pub fn lengths_between(p: &Problem, low: &[f64], high: &[f64]) -> Result<[usize; 11], u32> {
    let [low, _] = accepted_between(p, low, high)?;
    expected::sizes(Route::Compact, &low, 11)
}

/// Returns the compact cut of a problem whose b lies between two lists: the cut with the low limits, and the augmented high
/// limits. `rooms` are the output lengths for the cut with the low limits, and for the high limits.
pub fn cut_between(
    p: &Problem,
    low: &[f64],
    high: &[f64],
    rooms: Option<(&[usize; 11], usize)>,
) -> Result<(Cut, Vec<f64>), u32> {
    let [low, high] = accepted_between(p, low, high)?;
    let cut = expected::cut(Route::Compact, &low, rooms.map(|(rooms, _)| rooms))?;
    let high = expected::cut(Route::Compact, &high, None)?.b;
    if rooms.is_some_and(|(_, room)| room < high.len()) {
        return Err(11);
    }
    Ok((cut, high))
}

/// The largest number of right sides that a cut accepts.
const SIDES: u32 = 64;

// Returns the problem with each right side, if all pass checks 1 to 10, each completely before the next. The count is a part
// of check 1, the length of the list a part of check 4 of the first side.
fn accepted_many(count: u32, p: &Problem) -> Result<Vec<Problem>, u32> {
    if count == 0 || count > SIDES {
        return Err(1);
    }
    if p.b.len() as u64 != count as u64 * p.m as u64 {
        // replaced by a side whose length is not m either
        let no_side: &[f64] = if p.m == 0 { &[0.0] } else { &[] };
        return Err(expected::first_four(&with_b(p, no_side)).unwrap_err());
    }
    let m = p.m as usize;
    let sides: Vec<Problem> = (0..count as usize).map(|k| with_b(p, &p.b[k * m..(k + 1) * m])).collect();
    for side in &sides {
        expected::accepted(Route::Compact, side)?;
    }
    Ok(sides)
}

/// Returns the lengths of the outputs: those of the cut, where b's length is that of all sides.
pub fn lengths_many(count: u32, p: &Problem) -> Result<[usize; 11], u32> {
    let sides = accepted_many(count, p)?;
    let mut lengths = expected::sizes(Route::Compact, &sides[0], 11)?;
    lengths[7] *= sides.len();
    Ok(lengths)
}

/// Returns the compact cut of a problem whose b holds `count` right sides, one after another: everything but b once, and each
/// augmented b in turn.
pub fn cut_many(count: u32, p: &Problem, rooms: Option<&[usize; 11]>) -> Result<Cut, u32> {
    let sides = accepted_many(count, p)?;
    let needed = lengths_many(count, p)?;
    if rooms.is_some_and(|rooms| rooms.iter().zip(&needed).any(|(room, needed)| room < needed)) {
        return Err(11);
    }
    let mut cut = expected::cut(Route::Compact, &sides[0], None)?;
    for side in &sides[1..] {
        cut.b.extend(expected::cut(Route::Compact, side, None)?.b);
    }
    Ok(cut)
}

#[cfg(test)]
mod tests {
    use super::*;

    // PSD 2 cut into its two vertices: row 1 uncovered
    fn apart() -> Problem {
        let none = Columns { starts: vec![0], ..Columns::default() };
        Problem {
            m: 3,
            p: none.clone(),
            a: none,
            cones: vec![6, 2, 0],
            pattern_count: 1,
            pattern_words: vec![0, 2, 2, 0, 1, 1, 1, 0, 0, NONE, 1, 0, 1],
            ..Problem::default()
        }
    }

    #[test]
    fn limits() {
        let p = apart();
        let (cut, high) = cut_between(&p, &[-0.0, 0.0, 1.0], &[0.0, -0.0, f64::INFINITY], None).unwrap();
        assert!(all_bits(&cut.b, &[1.0, 0.0]) && all_bits(&high, &[f64::INFINITY, 0.0]));
        let number = |low: &[f64], high: &[f64]| cut_between(&p, low, high, None).err();
        assert_eq!(number(&[0.0, 0.0, 2.0], &[0.0, 0.0, 1.0]), Some(16));
        assert_eq!(number(&[f64::NAN, 0.0, 1.0], &[0.0, 0.0, 1.0]), Some(16));
        assert_eq!(number(&[0.0, 0.0, 1.0], &[0.0, 0.0, f64::NAN]), Some(16));
        assert_eq!(number(&[0.0, 0.0, 2.0], &[0.0, 0.0]), Some(4));
        assert_eq!(number(&[0.0; 3], &[0.0, 1.0, 0.0]), Some(9));
        assert_eq!(number(&[0.0, -1.0, 0.0], &[0.0; 3]), Some(9));
        // 16 comes after 4 and before 5
        let mut wrong = apart();
        wrong.pattern_words.pop();
        assert_eq!(cut_between(&wrong, &[1.0, 0.0, 0.0], &[0.0; 3], None).err(), Some(16));
        assert_eq!(cut_between(&wrong, &[0.0; 3], &[0.0; 3], None).err(), Some(5));
        // the output length for the high limits counts too
        let rooms = [1, 0, 0, 0, 1, 0, 0, 2, 6, 0, 10];
        assert_eq!(cut_between(&p, &[0.0; 3], &[0.0; 3], Some((&rooms, 1))).err(), Some(11));
        assert!(cut_between(&p, &[0.0; 3], &[0.0; 3], Some((&rooms, 2))).is_ok());
    }

    #[test]
    fn exposures() {
        let with = |b: &[f64]| with_b(&apart(), b);
        let two = with(&[1.0, 0.0, 2.0, 3.0, -0.0, 4.0]);
        let cut = cut_many(2, &two, None).unwrap();
        assert!(all_bits(&cut.b, &[2.0, 1.0, 4.0, 3.0]));
        assert_eq!(cut.map.len(), 2 * MAP_WORDS);
        let number = |count: u32, p: &Problem| cut_many(count, p, None).err();
        assert_eq!(number(0, &with(&[])), Some(1));
        assert_eq!(number(64, &with(&[0.0; 192])), None);
        assert_eq!(number(65, &with(&[0.0; 195])), Some(1));
        assert_eq!(number(1, &two), Some(4));
        assert_eq!(number(3, &two), Some(4));
        // check 9 of the further side comes before 11
        let uncovered = with(&[0.0, 0.0, 0.0, 0.0, 5.0, 0.0]);
        assert_eq!(cut_many(2, &uncovered, Some(&[0; 11])).err(), Some(9));
        assert_eq!(cut_many(2, &two, Some(&[1, 0, 0, 0, 1, 0, 0, 3, 6, 0, 10])).err(), Some(11));
        // a list of the wrong length is refused after 3 and before 5
        let mut wrong = two.clone();
        wrong.pattern_words.pop();
        assert_eq!(number(3, &wrong), Some(4));
        assert_eq!(number(2, &wrong), Some(5));
        wrong.a.starts.push(0);
        assert_eq!(number(3, &wrong), Some(2));
        // no rows: any count of empty sides is accepted
        let none = Problem { m: 0, cones: vec![], pattern_count: 0, pattern_words: vec![], ..apart() };
        assert_eq!((number(64, &none), number(1, &with_b(&none, &[0.0]))), (None, Some(4)));
    }
}
