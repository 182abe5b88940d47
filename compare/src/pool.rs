//! A plain reading of document 02's pooling of two camera passes.

use crate::expected::{self, read_patterns};
use crate::problem::*;

// returns A over A, b over b, cones, exponents and patterns one after the other; P and q are the first's
fn stacked(first: &Problem, second: &Problem) -> Problem {
    let mut a = Columns { starts: vec![0], ..Columns::default() };
    for column in 0..first.n as usize {
        for (pass, raise) in [(first, 0), (second, first.m)] {
            let entries = pass.a.starts[column] as usize..pass.a.starts[column + 1] as usize;
            a.rows.extend(pass.a.rows[entries.clone()].iter().map(|row| row + raise));
            a.values.extend(&pass.a.values[entries]);
        }
        a.starts.push(a.rows.len() as u32);
    }
    let mut pattern_words = first.pattern_words.clone();
    for mut pattern in read_patterns(second.pattern_count, &second.pattern_words).expect("checked") {
        pattern.orig_index += first.cones.len() as u32 / 3;
        pattern_words.extend(pattern.words());
    }
    Problem {
        n: first.n,
        m: first.m + second.m,
        p: first.p.clone(),
        q: first.q.clone(),
        a,
        b: [&first.b[..], &second.b].concat(),
        cones: [&first.cones[..], &second.cones].concat(),
        alphas: [&first.alphas[..], &second.alphas].concat(),
        pattern_count: first.pattern_count + second.pattern_count,
        pattern_words,
    }
}

/// Returns the lengths of a problem's eleven tables.
pub fn lengths(p: &Problem) -> [usize; 11] {
    [
        p.p.starts.len(),
        p.p.rows.len(),
        p.p.values.len(),
        p.q.len(),
        p.a.starts.len(),
        p.a.rows.len(),
        p.a.values.len(),
        p.b.len(),
        p.cones.len(),
        p.alphas.len(),
        p.pattern_words.len(),
    ]
}

/// Returns the pooled problem. Makes checks 1 to 7 of the first, of the second, compares n, and makes checks 1 to 7 of the pool.
pub fn pool(first: &Problem, second: &Problem, rooms: Option<&[usize; 11]>) -> Result<Problem, u32> {
    expected::first_seven(first)?;
    expected::first_seven(second)?;
    if first.n != second.n {
        return Err(17);
    }
    let pool = stacked(first, second);
    expected::first_seven(&pool)?;
    if rooms.is_some_and(|rooms| rooms.iter().zip(&lengths(&pool)).any(|(room, needed)| room < needed)) {
        return Err(11);
    }
    Ok(pool)
}

#[cfg(test)]
mod tests {
    use super::*;
    use crate::random;

    // one column, an entry in a row that is not cut, and document 01's seam
    fn pass(value: f64) -> Problem {
        Problem {
            n: 1,
            m: 7,
            p: Columns { starts: vec![0, 1], rows: vec![0], values: vec![value] },
            q: vec![value],
            a: Columns { starts: vec![0, 2], rows: vec![0, 3], values: vec![value, value + 1.0] },
            b: vec![value, 0.0, 0.0, 0.0, 0.0, 0.0, value],
            cones: vec![1, 1, 0, 6, 3, 0],
            alphas: vec![],
            pattern_count: 1,
            pattern_words: vec![1, 3, 2, 0, 1, 2, 1, 1, 1, 0, 1, NONE, 2, 0, 1, 2],
        }
    }

    #[test]
    fn two_passes() {
        let (first, second) = (pass(2.0), pass(5.0));
        let pooled = pool(&first, &second, None).unwrap();
        assert_eq!((pooled.n, pooled.m, pooled.pattern_count), (1, 14, 2));
        assert_eq!((pooled.a.starts, pooled.a.rows), (vec![0, 4], vec![0, 3, 7, 10]));
        assert_eq!(pooled.a.values, [2.0, 3.0, 5.0, 6.0]);
        assert_eq!((pooled.q, pooled.p.values), (vec![2.0], vec![2.0]));
        assert_eq!(pooled.b[7..], second.b);
        assert_eq!((pooled.pattern_words[0], pooled.pattern_words[16]), (1, 3));
        assert_eq!(pooled.pattern_words[17..], second.pattern_words[1..]);
    }

    #[test]
    fn refusals_in_order() {
        let number = |first: &Problem, second: &Problem| pool(first, second, Some(&[0; 11])).err();
        let right = pass(1.0);
        let mut wide = pass(1.0);
        (wide.n, wide.q) = (2, vec![1.0; 2]);
        wide.a.starts.push(2);
        wide.p.starts.push(1);
        assert_eq!(number(&right, &wide), Some(17));
        let mut both = wide.clone();
        both.pattern_words.pop();
        assert_eq!(number(&right, &both), Some(5));
        both.b.pop();
        assert_eq!(number(&right, &both), Some(4));
        assert_eq!(number(&both, &wide), Some(4));
        assert_eq!(number(&right, &right), Some(11));
        for (name, [first, second], refused) in random::pools_at_limits() {
            assert_eq!(pool(&first, &second, None).err(), refused.then_some(1), "{name}");
        }
    }
}
