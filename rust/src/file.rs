use crate::{cone, flat, pattern, Columns, Problem, Refusal};

fn bits(values: &[f64]) -> Vec<u64> {
    values.iter().map(|value| value.to_bits()).collect()
}

fn floats(bits: Vec<u64>) -> Vec<f64> {
    bits.into_iter().map(f64::from_bits).collect()
}

impl Problem {
    /// Reads a problem from the bytes of a problem file, as other tools write it; docs/FILE.md has the format. A problem that is
    /// read passes checks 1 to 7; a cut may still refuse it.
    ///
    /// ```
    /// use tejiwakpa::{Problem, Refusal};
    ///
    /// let mut file = Problem::three_projectors().to_file_bytes()?;
    /// assert_eq!(Problem::from_file_bytes(&file)?, Problem::three_projectors());
    ///
    /// assert_eq!(Problem::from_file_bytes(&file[1..]), Err(Refusal::FileLength));
    /// // the offset of the first table
    /// file[32] = 84;
    /// assert_eq!(Problem::from_file_bytes(&file), Err(Refusal::FileTables));
    /// # Ok::<(), Refusal>(())
    /// ```
    pub fn from_file_bytes(bytes: &[u8]) -> Result<Problem, Refusal> {
        let mut words = vec![0; bytes.len() / 4];
        flat::file_words(bytes, &mut words)?;
        // no table of an accepted file is longer than the file, so larger counts need no larger outputs
        let count = |k: usize| words.get(k).map_or(0, |&count| (count as usize).min(words.len()));
        let [n, m, p_entries, a_entries, cones, alphas, _, pattern_words] = std::array::from_fn(count);
        let mut counts = [0; 8];
        let [mut p_starts, mut p_rows, mut a_starts, mut a_rows] =
            [n + 1, p_entries, n + 1, a_entries].map(|k| vec![0; k]);
        let [mut p_values, mut q, mut a_values, mut b] = [p_entries, n, a_entries, m].map(|k| vec![0; k]);
        let (mut records, mut exponents, mut patterns) = (vec![0; 3 * cones], vec![0; alphas], vec![0; pattern_words]);
        let mut out = flat::FileOutputs {
            counts: &mut counts,
            p_starts: &mut p_starts,
            p_rows: &mut p_rows,
            p_values: &mut p_values,
            q: &mut q,
            a_starts: &mut a_starts,
            a_rows: &mut a_rows,
            a_values: &mut a_values,
            b: &mut b,
            cones: &mut records,
            alphas: &mut exponents,
            pattern_words: &mut patterns,
        };
        flat::read_file(&words, bytes.len(), &mut out)?;
        Ok(Problem {
            n: counts[0],
            m: counts[1],
            p: Columns { starts: p_starts, rows: p_rows, values: floats(p_values) },
            q: floats(q),
            a: Columns { starts: a_starts, rows: a_rows, values: floats(a_values) },
            b: floats(b),
            cones: cone::read(&records, &floats(exponents)),
            patterns: pattern::read_all(&patterns),
        })
    }

    /// Returns the bytes of the problem as a file, if it passes checks 1 to 7. A file that is read and written again has the same
    /// bytes, whatever NaNs it holds.
    ///
    /// ```
    /// use tejiwakpa::{Problem, Refusal};
    ///
    /// let mut problem = Problem::three_projectors();
    /// let file = problem.to_file_bytes()?;
    /// assert_eq!(file.len(), 296);
    /// assert_eq!(file[..8], [1, 0, 0, 0, 6, 0, 0, 0]);
    ///
    /// problem.b.pop();
    /// assert_eq!(problem.to_file_bytes(), Err(Refusal::Cones));
    /// # Ok::<(), Refusal>(())
    /// ```
    pub fn to_file_bytes(&self) -> Result<Vec<u8>, Refusal> {
        let words = self.words();
        let [p_values, q, a_values, b] = [&self.p.values, &self.q, &self.a.values, &self.b].map(|values| bits(values));
        let tables = flat::FileTables {
            n: self.n,
            m: self.m,
            p_starts: &self.p.starts,
            p_rows: &self.p.rows,
            p_values: &p_values,
            q: &q,
            a_starts: &self.a.starts,
            a_rows: &self.a.rows,
            a_values: &a_values,
            b: &b,
            cones: &words.cones,
            alphas: &bits(&words.alphas),
            pattern_count: words.pattern_count,
            pattern_words: &words.pattern_words,
        };
        let mut file = vec![0; flat::file_length(&tables)];
        flat::write_file(&tables, &mut file)?;
        Ok(file)
    }
}
