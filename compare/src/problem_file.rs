//! A plain reading of document 02's problem file: the reader, the writer, and the program that cuts a file.

use crate::expected;
use crate::problem::*;

/// The length of the header: eight counts, eleven offsets and the file's length.
pub const HEADER: usize = 80;

const LONGEST_INPUT: usize = 8_192;
const LONGEST_OUTPUT: usize = 65_536;

/// The NaN that the program writes in A and b; document 02 leaves open which one it is.
const NAN: u64 = 0x7ff8_0000_0000_0000;

// returns for each table the width of its numbers and how many it has, from the counts n, m, entries of P and of A, cones,
// α values, patterns and pattern words
fn shape(counts: &[u32; 8]) -> [(u64, u64); 11] {
    let [n, m, p, a, cones, alphas, _, words] = counts.map(u64::from);
    [(4, n + 1), (4, p), (8, p), (8, n), (4, n + 1), (4, a), (8, a), (8, m), (4, 3 * cones), (8, alphas), (4, words)]
}

/// Returns how many numbers each table has, from the counts.
pub fn lengths(counts: &[u32; 8]) -> [u64; 11] {
    shape(counts).map(|(_, count)| count)
}

/// Returns where each table begins, at a multiple of `step`, and where the last one ends.
pub fn offsets(counts: &[u32; 8], step: u64) -> ([u64; 11], u64) {
    let mut end = HEADER as u64;
    let offsets = shape(counts).map(|(width, count)| {
        let offset = end.next_multiple_of(step);
        end = offset + width * count;
        offset
    });
    (offsets, end)
}

/// Returns the counts of a problem's tables.
pub fn counts(p: &Problem) -> [u32; 8] {
    [
        p.n,
        p.m,
        p.p.values.len() as u32,
        p.a.values.len() as u32,
        (p.cones.len() / 3) as u32,
        p.alphas.len() as u32,
        p.pattern_count,
        p.pattern_words.len() as u32,
    ]
}

// ---- the writer

fn words_bytes(words: &[u32]) -> Vec<u8> {
    words.iter().flat_map(|w| w.to_le_bytes()).collect()
}

fn values_bytes(values: &[f64]) -> Vec<u8> {
    values.iter().flat_map(|v| v.to_bits().to_le_bytes()).collect()
}

/// Returns a problem's tables as a file, each beginning at a multiple of `step`; nothing is checked.
pub fn laid_out(p: &Problem, step: u64) -> Vec<u8> {
    let counts = counts(p);
    let (offsets, end) = offsets(&counts, step);
    let mut file = words_bytes(&counts);
    file.extend(words_bytes(&offsets.map(|o| o as u32)));
    file.extend(words_bytes(&[end as u32]));
    let tables = [
        words_bytes(&p.p.starts),
        words_bytes(&p.p.rows),
        values_bytes(&p.p.values),
        values_bytes(&p.q),
        words_bytes(&p.a.starts),
        words_bytes(&p.a.rows),
        values_bytes(&p.a.values),
        values_bytes(&p.b),
        words_bytes(&p.cones),
        values_bytes(&p.alphas),
        words_bytes(&p.pattern_words),
    ];
    for table in tables {
        file.resize(file.len().next_multiple_of(step as usize), 0);
        file.extend(table);
    }
    file
}

/// Returns the problem's file, for an output with this length.
pub fn write(p: &Problem, room: Option<usize>) -> Result<Vec<u8>, u32> {
    expected::first_seven(p)?;
    let file = laid_out(p, 8);
    if room.is_some_and(|room| room < file.len()) {
        return Err(11);
    }
    Ok(file)
}

// ---- the reader

fn word(bytes: &[u8], at: u64) -> u32 {
    let at = at as usize;
    u32::from_le_bytes(bytes[at..at + 4].try_into().unwrap())
}

fn words(bytes: &[u8], offset: u64, count: u64) -> Vec<u32> {
    (0..count).map(|k| word(bytes, offset + 4 * k)).collect()
}

fn values(bytes: &[u8], offset: u64, count: u64) -> Vec<f64> {
    let half = |at| word(bytes, at) as u64;
    (0..count).map(|k| offset + 8 * k).map(|at| f64::from_bits(half(at) | half(at + 4) << 32)).collect()
}

// makes checks 13 and 14; if both pass, the tables lie within the bytes
fn well_formed(bytes: &[u8]) -> Result<[u32; 8], u32> {
    if bytes.len() < HEADER || word(bytes, 76) as usize != bytes.len() {
        return Err(13);
    }
    let counts = std::array::from_fn(|k| word(bytes, 4 * k as u64));
    let (offsets, end) = offsets(&counts, 8);
    let right = offsets.iter().enumerate().all(|(k, &offset)| word(bytes, 32 + 4 * k as u64) as u64 == offset);
    if !right || end != bytes.len() as u64 {
        return Err(14);
    }
    let mut gap = HEADER;
    for ((width, count), offset) in shape(&counts).into_iter().zip(offsets) {
        if bytes[gap..offset as usize].iter().any(|&byte| byte != 0) {
            return Err(14);
        }
        gap = (offset + width * count) as usize;
    }
    Ok(counts)
}

/// Returns the counts and the problem of a file.
pub fn read(bytes: &[u8]) -> Result<([u32; 8], Problem), u32> {
    let counts = well_formed(bytes)?;
    let (at, _) = offsets(&counts, 8);
    let count = lengths(&counts);
    let p = Problem {
        n: counts[0],
        m: counts[1],
        p: Columns {
            starts: words(bytes, at[0], count[0]),
            rows: words(bytes, at[1], count[1]),
            values: values(bytes, at[2], count[2]),
        },
        q: values(bytes, at[3], count[3]),
        a: Columns {
            starts: words(bytes, at[4], count[4]),
            rows: words(bytes, at[5], count[5]),
            values: values(bytes, at[6], count[6]),
        },
        b: values(bytes, at[7], count[7]),
        cones: words(bytes, at[8], count[8]),
        alphas: values(bytes, at[9], count[9]),
        pattern_count: counts[6],
        pattern_words: words(bytes, at[10], count[10]),
    };
    expected::first_seven(&p)?;
    Ok((counts, p))
}

/// Returns the complete words of a file, for an output with this length.
pub fn file_words(bytes: &[u8], room: Option<usize>) -> Result<Vec<u32>, u32> {
    if room.is_some_and(|room| room < bytes.len() / 4) {
        return Err(11);
    }
    Ok(bytes.chunks_exact(4).map(|b| u32::from_le_bytes(b.try_into().unwrap())).collect())
}

/// The same from the complete words of a file of `length` bytes, for outputs with these lengths: the counts' and the tables'.
/// Bytes after the last complete word are not passed, and no file that has such bytes is accepted.
pub fn read_words(words: &[u32], length: usize, rooms: Option<&[usize; 12]>) -> Result<([u32; 8], Problem), u32> {
    if words.len() != length / 4 {
        return Err(13);
    }
    let mut bytes = words_bytes(words);
    bytes.resize(length, 0);
    let (counts, p) = read(&bytes)?;
    let needed = [8].into_iter().chain(lengths(&counts));
    if rooms.is_some_and(|rooms| rooms.iter().zip(needed).any(|(&room, needed)| (room as u64) < needed)) {
        return Err(11);
    }
    Ok((counts, p))
}

// ---- the program

/// Returns the problem with the same NaN for all NaNs in A and b.
pub fn with_one_nan(mut p: Problem) -> Problem {
    p.a.values.iter_mut().chain(&mut p.b).filter(|v| v.is_nan()).for_each(|v| *v = f64::from_bits(NAN));
    p
}

fn compact(bytes: &[u8]) -> Result<Vec<u8>, u32> {
    if bytes.len() > LONGEST_INPUT {
        return Err(1);
    }
    let (_, p) = read(bytes)?;
    let cut = expected::cut(Route::Compact, &p, None)?;
    let problem = Problem {
        n: cut.q.len() as u32,
        m: cut.b.len() as u32,
        p: cut.p,
        q: cut.q,
        a: cut.a,
        b: cut.b,
        cones: cut.cones,
        alphas: cut.alphas,
        pattern_count: 0,
        pattern_words: vec![],
    };
    let file = laid_out(&with_one_nan(problem), 8);
    if file.len() > LONGEST_OUTPUT {
        return Err(10);
    }
    Ok(file)
}

/// Returns what the program writes when it reads these bytes, and its refusal number or 0.
pub fn program(bytes: &[u8]) -> (Vec<u8>, u32) {
    match compact(bytes) {
        Ok(file) => (file, 0),
        Err(number) => (format!("refused {number}\n").into_bytes(), number),
    }
}

#[cfg(test)]
mod tests {
    use super::*;

    // document 01's seam with a Power cone, so that no table is empty
    fn seam() -> Problem {
        Problem {
            n: 1,
            m: 9,
            p: Columns { starts: vec![0, 1], rows: vec![0], values: vec![2.0] },
            q: vec![f64::from_bits(0x7ff0_0000_dead_beef)],
            a: Columns { starts: vec![0, 2], rows: vec![0, 3], values: vec![1.0, -0.0] },
            b: vec![1.0, 2.0, 3.0, 4.0, 5.0, 6.0, 0.0, 7.0, 8.0],
            cones: vec![4, 0, 0, 6, 3, 0],
            alphas: vec![0.5],
            pattern_count: 1,
            pattern_words: vec![1, 3, 2, 0, 1, 2, 1, 1, 1, 0, 1, NONE, 2, 0, 1, 2],
        }
    }

    #[test]
    fn offsets_are_multiples_of_eight() {
        let file = write(&seam(), None).unwrap();
        let header: Vec<u32> = words(&file, 0, 20);
        assert_eq!(header[..8], [1, 9, 1, 2, 2, 1, 1, 16]);
        assert_eq!(header[8..19], [80, 88, 96, 104, 112, 120, 128, 144, 216, 240, 248]);
        assert_eq!((header[19], file.len()), (312, 312));
        assert_eq!(write(&seam(), Some(311)), Err(11));
    }

    #[test]
    fn a_file_is_read_back_and_written_again() {
        let file = write(&seam(), None).unwrap();
        let (counts, p) = read(&file).unwrap();
        assert_eq!(counts, super::counts(&seam()));
        assert!(all_bits(&p.q, &seam().q) && all_bits(&p.a.values, &seam().a.values));
        assert_eq!(write(&p, None).unwrap(), file);
    }

    #[test]
    fn refusals_in_order() {
        let file = write(&seam(), None).unwrap();
        let number = |bytes: &[u8]| read(bytes).err().unwrap_or(0);
        let with = |at: usize, word: u32| {
            let mut bytes = file.clone();
            bytes[at..at + 4].copy_from_slice(&word.to_le_bytes());
            bytes
        };
        assert_eq!(number(&file[..79]), 13);
        assert_eq!(number(&file[..311]), 13);
        assert_eq!(number(&[&file[..], &[0]].concat()), 13);
        // the gap after P's row
        assert_eq!(number(&with(92, 1)), 14);
        // each header word in turn, except the pattern count, which the patterns check
        for at in (0..80).step_by(4).filter(|&at| at != 24) {
            assert_eq!(number(&with(at, u32::MAX)), if at == 76 { 13 } else { 14 }, "{at}");
        }
        assert_eq!(number(&with(24, 2)), 5);
        // counts that agree with the bytes only if products wrap
        assert_eq!(number(&with(20, 0x2000_0001)), 14);
        assert_eq!(number(&with(80, 1)), 2);
        assert_eq!(read_words(&words(&file, 0, 78), 313, None).err(), Some(13));
        let mut long = with(76, 313);
        long.push(0);
        assert_eq!((number(&long), read_words(&words(&long, 0, 78), 313, None).err()), (14, Some(14)));
        assert_eq!(read_words(&words(&file, 0, 77), 312, None).err(), Some(13));
        let rooms = [8, 2, 1, 1, 1, 2, 2, 2, 9, 6, 1, 16];
        assert!(read_words(&words(&file, 0, 78), 312, Some(&rooms)).is_ok());
        for short in 0..12 {
            let mut rooms = rooms;
            rooms[short] -= 1;
            assert_eq!(read_words(&words(&file, 0, 78), 312, Some(&rooms)).err(), Some(11));
        }
    }

    #[test]
    fn the_program() {
        let (file, number) = program(&write(&seam(), None).unwrap());
        let (counts, cut) = read(&file).unwrap();
        assert_eq!((number, counts), (0, [2, 9, 1, 4, 3, 1, 0, 0]));
        assert_eq!(cut.q[0].to_bits(), 0x7ff0_0000_dead_beef);
        assert_eq!(program(&[0; 8_193]), (b"refused 1\n".to_vec(), 1));
        assert_eq!(program(&[0; 79]), (b"refused 13\n".to_vec(), 13));
        let mut uncovered = seam();
        uncovered.b[6] = 1.0;
        assert_eq!(program(&laid_out(&uncovered, 8)), (b"refused 9\n".to_vec(), 9));
        // 18 cliques, each of which shares all but one vertex with the next
        let dense = Problem {
            m: 666,
            p: Columns { starts: vec![0], ..Columns::default() },
            a: Columns { starts: vec![0], ..Columns::default() },
            b: vec![0.0; 666],
            cones: vec![6, 36, 0],
            pattern_count: 1,
            pattern_words: crate::random::band_pattern(0, 36, 18).words(),
            ..Problem::default()
        };
        let file = laid_out(&dense, 8);
        assert!(file.len() < LONGEST_INPUT && read(&file).is_ok());
        assert_eq!(program(&file), (b"refused 10\n".to_vec(), 10));
    }
}
