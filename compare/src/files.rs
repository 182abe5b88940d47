//! The door's calls on problem files and the program that cuts one, and their comparison with the plain reading on
//! files that are damaged in some way.
#![cfg_attr(not(door), allow(dead_code))]

use crate::door::{judge, room, words, words_after};
use crate::generated::Load;
use crate::problem::*;
use crate::problem_file::{self, counts, laid_out, lengths, HEADER};
use crate::random::{self, Draws};
use crate::report::*;
use std::io::{Read, Write};
use std::path::Path;
use std::process::{Command, Stdio};

#[cfg(door)]
#[rustfmt::skip]
mod c {
    extern "C" {
        pub fn chordal_file_words(file: *const u8, file_len: usize, out: *mut u32, out_len: usize) -> u32;
        pub fn chordal_read_file(
            words: *const u32, words_len: usize, length: usize, counts_out: *mut u32, counts_out_len: usize,
            p_starts_out: *mut u32, p_starts_out_len: usize, p_rows_out: *mut u32, p_rows_out_len: usize,
            p_values_out: *mut u64, p_values_out_len: usize, q_out: *mut u64, q_out_len: usize,
            a_starts_out: *mut u32, a_starts_out_len: usize, a_rows_out: *mut u32, a_rows_out_len: usize,
            a_values_out: *mut u64, a_values_out_len: usize, b_out: *mut u64, b_out_len: usize,
            cones_out: *mut u32, cones_out_len: usize, alphas_out: *mut u64, alphas_out_len: usize,
            pattern_words_out: *mut u32, pattern_words_out_len: usize,
        ) -> u32;
        pub fn chordal_write_file(
            n: u32, m: u32,
            p_starts: *const u32, p_starts_len: usize, p_rows: *const u32, p_rows_len: usize,
            p_values: *const u64, p_values_len: usize, q: *const u64, q_len: usize,
            a_starts: *const u32, a_starts_len: usize, a_rows: *const u32, a_rows_len: usize,
            a_values: *const u64, a_values_len: usize, b: *const u64, b_len: usize,
            cones: *const u32, cones_len: usize, alphas: *const u64, alphas_len: usize,
            pattern_count: u32, pattern_words: *const u32, pattern_words_len: usize,
            out: *mut u8, out_len: usize,
        ) -> u32;
    }
}

// ---- the calls with slices

/// A problem's tables with floats as 64-bit patterns, and its eight counts.
#[derive(Clone, Default)]
pub struct Tables {
    pub counts: Vec<u32>,
    pub p_starts: Vec<u32>,
    pub p_rows: Vec<u32>,
    pub p_values: Vec<u64>,
    pub q: Vec<u64>,
    pub a_starts: Vec<u32>,
    pub a_rows: Vec<u32>,
    pub a_values: Vec<u64>,
    pub b: Vec<u64>,
    pub cones: Vec<u32>,
    pub alphas: Vec<u64>,
    pub pattern_words: Vec<u32>,
}

fn bits(values: &[f64]) -> Vec<u64> {
    values.iter().map(|v| v.to_bits()).collect()
}

pub fn tables(p: &Problem) -> Tables {
    Tables {
        counts: counts(p).to_vec(),
        p_starts: p.p.starts.clone(),
        p_rows: p.p.rows.clone(),
        p_values: bits(&p.p.values),
        q: bits(&p.q),
        a_starts: p.a.starts.clone(),
        a_rows: p.a.rows.clone(),
        a_values: bits(&p.a.values),
        b: bits(&p.b),
        cones: p.cones.clone(),
        alphas: bits(&p.alphas),
        pattern_words: p.pattern_words.clone(),
    }
}

#[cfg(door)]
mod calls {
    use super::*;

    pub fn file_words(file: &[u8], out: &mut [u32]) -> u32 {
        unsafe { c::chordal_file_words(file.as_ptr(), file.len(), out.as_mut_ptr(), out.len()) }
    }

    #[rustfmt::skip]
    pub fn read_file(words: &[u32], length: usize, o: &mut Tables) -> u32 {
        unsafe {
            c::chordal_read_file(
                words.as_ptr(), words.len(), length, o.counts.as_mut_ptr(), o.counts.len(),
                o.p_starts.as_mut_ptr(), o.p_starts.len(), o.p_rows.as_mut_ptr(), o.p_rows.len(),
                o.p_values.as_mut_ptr(), o.p_values.len(), o.q.as_mut_ptr(), o.q.len(),
                o.a_starts.as_mut_ptr(), o.a_starts.len(), o.a_rows.as_mut_ptr(), o.a_rows.len(),
                o.a_values.as_mut_ptr(), o.a_values.len(), o.b.as_mut_ptr(), o.b.len(),
                o.cones.as_mut_ptr(), o.cones.len(), o.alphas.as_mut_ptr(), o.alphas.len(),
                o.pattern_words.as_mut_ptr(), o.pattern_words.len(),
            )
        }
    }

    /// The door's writer. Of the counts only n, m and the pattern count are passed.
    #[rustfmt::skip]
    pub fn write_file(t: &Tables, out: &mut [u8]) -> u32 {
        unsafe {
            c::chordal_write_file(
                t.counts[0], t.counts[1],
                t.p_starts.as_ptr(), t.p_starts.len(), t.p_rows.as_ptr(), t.p_rows.len(),
                t.p_values.as_ptr(), t.p_values.len(), t.q.as_ptr(), t.q.len(),
                t.a_starts.as_ptr(), t.a_starts.len(), t.a_rows.as_ptr(), t.a_rows.len(),
                t.a_values.as_ptr(), t.a_values.len(), t.b.as_ptr(), t.b.len(),
                t.cones.as_ptr(), t.cones.len(), t.alphas.as_ptr(), t.alphas.len(),
                t.counts[6], t.pattern_words.as_ptr(), t.pattern_words.len(),
                out.as_mut_ptr(), out.len(),
            )
        }
    }
}

#[cfg(not(door))]
mod calls {
    use super::*;

    pub fn file_words(_: &[u8], _: &mut [u32]) -> u32 {
        unreachable!("the door is not linked")
    }
    pub fn read_file(_: &[u32], _: usize, _: &mut Tables) -> u32 {
        unreachable!("the door is not linked")
    }
    pub fn write_file(_: &Tables, _: &mut [u8]) -> u32 {
        unreachable!("the door is not linked")
    }
}

pub use calls::*;

// ---- files, and how they are damaged

fn set_word(file: &mut [u8], at: usize, word: u32) {
    if let Some(place) = file.get_mut(at..at + 4) {
        place.copy_from_slice(&word.to_le_bytes());
    }
}

fn word_at(file: &[u8], at: usize) -> u32 {
    file.get(at..at + 4).map_or(0, |bytes| u32::from_le_bytes(bytes.try_into().unwrap()))
}

// returns the indices of the gap bytes of a file whose header is right
fn gaps(file: &[u8], p: &Problem) -> Vec<usize> {
    let (offsets, _) = problem_file::offsets(&counts(p), 8);
    let widths = [4, 4, 8, 8, 4, 4, 8, 8, 4, 8];
    let ends =
        offsets.iter().zip(lengths(&counts(p))).zip(widths).map(|((offset, count), width)| offset + count * width);
    ends.zip(&offsets[1..]).flat_map(|(end, &next)| end as usize..next as usize).filter(|&at| at < file.len()).collect()
}

// changes one place, or the length
fn damage(d: &mut Draws, file: &mut Vec<u8>, p: &Problem) {
    let header_word = 4 * d.below(HEADER / 4);
    match d.below(14) {
        // a bit, a byte, a word of the header, any word
        0..=1 if !file.is_empty() => {
            let at = d.below(file.len());
            file[at] ^= 1 << d.below(8);
        }
        2 if !file.is_empty() => {
            let at = d.below(file.len());
            file[at] = d.next() as u8;
        }
        3 => {
            let near =
                word_at(file, header_word).wrapping_add(*pick(d, &[1, 4, 8, u32::MAX, u32::MAX - 3, u32::MAX - 7]));
            set_word(file, header_word, near);
        }
        4 => {
            let at = 4 * d.below(file.len() / 4 + 1);
            let word = *pick(d, &[0, 1, 2, 7, 255, 257, 65_537, 0x7fff_ffff, 0x8000_0000, u32::MAX]);
            set_word(file, at, word);
        }
        // truncated, and extended
        5 => file.truncate(d.below(file.len() + 1)),
        6 => file.truncate(file.len().saturating_sub(1 + d.below(12))),
        7 => {
            let most = if d.chance(5) { 9_000 } else { 12 };
            let more = 1 + d.below(most);
            let byte = if d.chance(50) { 0 } else { d.next() as u8 };
            file.resize(file.len() + more, byte);
            if d.chance(60) {
                let length = file.len() as u32;
                set_word(file, HEADER - 4, length);
            }
        }
        // truncated, with the new length in the header
        8 => {
            let less = 1 + d.below(16);
            file.truncate(file.len().saturating_sub(less));
            let length = file.len() as u32;
            set_word(file, HEADER - 4, length);
        }
        // a count made huge, in some cases so that products agree if they wrap
        9..=10 => {
            let at = 4 * d.below(8);
            let wraps = *pick(d, &[0x2000_0000, 0x4000_0000, 0x8000_0000, 0x1555_5556, 0xffff_fffc]);
            let count = if d.chance(30) { d.next() as u32 } else { word_at(file, at).wrapping_add(wraps) };
            set_word(file, at, count);
        }
        // a nonzero byte in a gap
        11..=12 => {
            let gaps = gaps(file, p);
            if !gaps.is_empty() {
                let at = *pick(d, &gaps);
                file[at] = 1 << d.below(8);
            }
        }
        // two words of the header exchanged
        _ => {
            let other = 4 * d.below(HEADER / 4);
            let [one, two] = [header_word, other].map(|at| word_at(file, at));
            set_word(file, header_word, two);
            set_word(file, other, one);
        }
    }
}

fn pick<'a, T>(d: &mut Draws, xs: &'a [T]) -> &'a T {
    &xs[d.below(xs.len())]
}

/// Returns a file: mostly of a problem that passes the checks or nearly does, mostly with its tables at multiples of 8, and
/// mostly damaged.
pub fn file(d: &mut Draws, p: &Problem) -> Vec<u8> {
    let step = if d.chance(4) { *pick(d, &[4, 16]) } else { 8 };
    let mut file = laid_out(p, step);
    if d.chance(75) {
        for _ in 0..1 + d.below(3).saturating_sub(d.below(3)) {
            damage(d, &mut file, p);
        }
    }
    file
}

fn hex(bytes: &[u8]) -> String {
    bytes
        .chunks(4)
        .map(|word| word.iter().map(|b| format!("{b:02x}")).collect::<String>())
        .collect::<Vec<_>>()
        .join(" ")
}

// ---- reader and writer

const BYTE: u8 = 0xa5;
const VALUE: u64 = 0x7ff8_1234_5678_9abc;

pub fn outputs(rooms: [usize; 12]) -> Tables {
    let values = |room| vec![VALUE; room];
    Tables {
        counts: words(rooms[0]),
        p_starts: words(rooms[1]),
        p_rows: words(rooms[2]),
        p_values: values(rooms[3]),
        q: values(rooms[4]),
        a_starts: words(rooms[5]),
        a_rows: words(rooms[6]),
        a_values: values(rooms[7]),
        b: values(rooms[8]),
        cones: words(rooms[9]),
        alphas: values(rooms[10]),
        pattern_words: words(rooms[11]),
    }
}

// returns the outputs cut to these lengths
fn fronts(mut o: Tables, lengths: &[usize; 12]) -> Tables {
    o.counts.truncate(lengths[0]);
    o.p_starts.truncate(lengths[1]);
    o.p_rows.truncate(lengths[2]);
    o.p_values.truncate(lengths[3]);
    o.q.truncate(lengths[4]);
    o.a_starts.truncate(lengths[5]);
    o.a_rows.truncate(lengths[6]);
    o.a_values.truncate(lengths[7]);
    o.b.truncate(lengths[8]);
    o.cones.truncate(lengths[9]);
    o.alphas.truncate(lengths[10]);
    o.pattern_words.truncate(lengths[11]);
    o
}

// returns the first output that is not the expected one followed by its unchanged rest
fn read_wrong(o: &Tables, read: &Tables) -> Option<&'static str> {
    let is = |o: &[u32], front: &[u32]| *o == words_after(front, o.len());
    let is_bits = |o: &[u64], front: &[u64]| o.starts_with(front) && o[front.len()..].iter().all(|&v| v == VALUE);
    let tests = [
        ("counts", is(&o.counts, &read.counts)),
        ("P starts", is(&o.p_starts, &read.p_starts)),
        ("P rows", is(&o.p_rows, &read.p_rows)),
        ("P values", is_bits(&o.p_values, &read.p_values)),
        ("q", is_bits(&o.q, &read.q)),
        ("A starts", is(&o.a_starts, &read.a_starts)),
        ("A rows", is(&o.a_rows, &read.a_rows)),
        ("A values", is_bits(&o.a_values, &read.a_values)),
        ("b", is_bits(&o.b, &read.b)),
        ("cones", is(&o.cones, &read.cones)),
        ("alphas", is_bits(&o.alphas, &read.alphas)),
        ("pattern words", is(&o.pattern_words, &read.pattern_words)),
    ];
    tests.iter().find(|t| !t.1).map(|t| t.0)
}

/// Returns the output lengths that the reader needs: for the counts and for each table.
pub fn needed(counts: &[u32; 8]) -> [usize; 12] {
    let mut needed = [8; 12];
    needed[1..].copy_from_slice(&lengths(counts).map(|l| l as usize));
    needed
}

/// Compares the reader on one file: its words, then its tables, and the tables written again.
pub fn compare_read(report: &mut Report, d: &mut Draws, file: &[u8]) {
    let short = d.chance(3);
    let space = room(d, file.len() / 4, short);
    let mut out = words(space);
    let number = file_words(file, &mut out);
    let expected = problem_file::file_words(file, Some(space));
    let refusal = expected.as_ref().err().copied().unwrap_or(0);
    let wrong = (out != words_after(&expected.unwrap_or_default(), space)).then_some("words");
    judge(report, "words of a file", refusal, number, wrong, file.len(), || format!("  {} room {space}", hex(file)));

    // now and then the words with another length
    let mut lent = problem_file::file_words(file, None).unwrap();
    let mut length = file.len();
    if d.chance(3) {
        match d.below(4) {
            0 => lent.push(0),
            1 => _ = lent.pop(),
            2 => length += 1 + d.below(4),
            _ => length = *pick(d, &[0, usize::MAX, usize::MAX / 2, 1 << 32]),
        }
    }
    let found = problem_file::read_words(&lent, length, None);
    let needed = found.as_ref().map_or([3; 12], |(counts, _)| needed(counts));
    let short = if d.chance(8) { d.below(12) } else { 12 };
    let mut rooms = needed;
    for (i, space) in rooms.iter_mut().enumerate() {
        *space = room(d, *space, i == short);
    }
    let mut out = outputs(rooms);
    let number = read_file(&lent, length, &mut out);
    let expected = problem_file::read_words(&lent, length, Some(&rooms));
    let refusal = expected.as_ref().err().copied().unwrap_or(0);
    let read = expected.as_ref().map(|(_, p)| tables(p)).unwrap_or_default();
    let wrong = read_wrong(&out, &read);
    judge(report, "reading a file", refusal, number, wrong, file.len(), || {
        format!("  {} length {length} rooms {rooms:?} needed {needed:?}", hex(file))
    });

    // an accepted file written again has the same bytes
    if number == 0 {
        let mut again = vec![BYTE; length];
        match write_file(&fronts(out, &needed), &mut again) {
            0 if again == file => report.count("file written again: the same bytes"),
            _ => report.fail("an accepted file written again differs", file.len(), || hex(file)),
        }
    }
}

/// Compares the writer on one problem.
pub fn compare_write(report: &mut Report, d: &mut Draws, p: &Problem) {
    let needed = problem_file::write(p, None).map_or(200, |file| file.len());
    let short = d.chance(10);
    let space = room(d, needed, short);
    let mut out = vec![BYTE; space];
    let number = write_file(&tables(p), &mut out);
    let expected = problem_file::write(p, Some(space));
    let refusal = expected.as_ref().err().copied().unwrap_or(0);
    let mut after = expected.unwrap_or_default();
    after.resize(space, BYTE);
    let wrong = (out != after).then_some("bytes");
    judge(report, "writing a file", refusal, number, wrong, p.weight(), || {
        format!("{}\n room {space} of {needed}", problem_text(p))
    });
}

// ---- the program

/// Returns what the program at this path writes when it reads these bytes.
pub fn run_program(program: &Path, file: &[u8]) -> std::io::Result<Vec<u8>> {
    let mut child = Command::new(program).stdin(Stdio::piped()).stdout(Stdio::piped()).spawn()?;
    // the program may stop reading early
    let _ = child.stdin.take().unwrap().write_all(file);
    let mut out = vec![];
    child.stdout.take().unwrap().read_to_end(&mut out)?;
    let status = child.wait()?;
    if !status.success() {
        return Err(std::io::Error::other(format!("the program ends with {status}")));
    }
    Ok(out)
}

/// Compares the program on one file.
pub fn compare_program(report: &mut Report, program: &Path, file: &[u8]) {
    let (expected, number) = problem_file::program(file);
    match run_program(program, file) {
        Ok(out) if out == expected => report.count(match number {
            0 => "program: a file".to_string(),
            _ => format!("program: refused {number:>2}"),
        }),
        Ok(out) => {
            report.fail(format!("program: wrong where {number} is expected"), file.len(), || {
                format!("  {}\n writes {}\n expected {}", hex(file), hex(&out), hex(&expected))
            });
        }
        Err(e) => report.fail(format!("program: {e}"), file.len(), || hex(file)),
    }
}

// ---- the sample files

fn three_projectors() -> Problem {
    Problem {
        n: 1,
        m: 6,
        p: Columns { starts: vec![0, 0], ..Columns::default() },
        q: vec![0.0],
        a: Columns { starts: vec![0, 5], rows: vec![0, 1, 2, 4, 5], values: vec![10.0, 20.0, 30.0, 40.0, 50.0] },
        b: vec![1.0, 2.0, 3.0, 0.0, 4.0, 5.0],
        cones: vec![6, 3, 0],
        alphas: vec![],
        pattern_count: 1,
        pattern_words: vec![0, 3, 2, 0, 1, 2, 1, 1, 1, 0, 1, NONE, 2, 0, 1, 2],
    }
}

/// Writes three projectors and a generated load as files, and for each the program's expected output.
pub fn write_samples(folder: &Path) -> std::io::Result<()> {
    let load = Load { seed: 2026, v: 12, w: 3, n: 4 }.problem(None).expect("arguments in range");
    for (name, p) in [("three_projectors", three_projectors()), ("load", load)] {
        let file = laid_out(&p, 8);
        let (cut, number) = problem_file::program(&file);
        assert_eq!(number, 0, "{name} is refused");
        std::fs::write(folder.join(format!("{name}.bin")), &file)?;
        std::fs::write(folder.join(format!("{name}.compact.bin")), &cut)?;
    }
    Ok(())
}

// ---- stored answers

// a case of crate replay_files: the file, with its length and the reader's number as the last two words
const CASE: usize = 1_024;
const LONGEST: usize = CASE - 8;

/// Writes `cases` files, each with the number that the reader returns, for crate replay_files: at most a third accepted, and at most
/// a twelfth refused under each number.
pub fn write_answers(path: &Path, cases: u64, seed: u64) -> std::io::Result<()> {
    let most = |number| if number == 0 { cases.div_ceil(3) } else { cases.div_ceil(12) };
    let mut kept = std::collections::BTreeMap::new();
    let mut out = vec![];
    for index in 0.. {
        if out.len() == CASE * cases as usize {
            break;
        }
        let mut d = crate::case_draws(seed, index);
        let p = problem(&mut d, index);
        let file = file(&mut d, &p);
        let number = problem_file::read(&file).err().unwrap_or(0);
        let count = kept.entry(number).or_insert(0);
        if file.len() > LONGEST || *count == most(number) {
            continue;
        }
        *count += 1;
        let mut case = file.clone();
        case.resize(LONGEST, BYTE);
        case.extend([file.len() as u32, number].iter().flat_map(|word| word.to_le_bytes()));
        out.extend(case);
    }
    println!("{cases} cases, so many of each number: {kept:?}");
    std::fs::write(path, out)
}

// ---- many files

// a problem for a file: of any size for the reader, mostly with a file short enough for the program
fn problem(d: &mut Draws, index: u64) -> Problem {
    let scale = match index % 20 {
        0..=7 => random::TINY,
        19 => random::LARGE,
        _ => random::SMALL,
    };
    let mut p = random::problem(d, scale);
    match d.below(12) {
        0 => random::no_columns(&mut p),
        1..=2 => random::repeat_entries(d, &mut p),
        _ => {}
    }
    if d.chance(15) {
        let check = 1 + d.below(9);
        random::damage(d, &mut p, check);
    }
    // few words and many rows, so that the program's output is too long
    if d.chance(1) {
        p = dense(30 + d.below(8) as u32, 10 + d.below(10));
    }
    p
}

// a band so wide that the compact file is many times as long as the file
fn dense(vertices: u32, band: usize) -> Problem {
    let rows = vertices * (vertices + 1) / 2;
    Problem {
        m: rows,
        p: Columns { starts: vec![0], ..Columns::default() },
        a: Columns { starts: vec![0], ..Columns::default() },
        b: vec![0.0; rows as usize],
        cones: vec![6, vertices, 0],
        pattern_count: 1,
        pattern_words: random::band_pattern(0, vertices, band).words(),
        ..Problem::default()
    }
}

/// Runs `cases` files through the reader, and their problems through the writer; or, if a program is given, through the program.
pub fn compare(report: &mut Report, cases: u64, seed: u64, program: Option<&Path>) {
    for index in 0..cases {
        let mut d = crate::case_draws(seed, index);
        let p = problem(&mut d, index);
        let file = file(&mut d, &p);
        match program {
            Some(program) => compare_program(report, program, &file),
            None if crate::door::LINKED => {
                compare_read(report, &mut d, &file);
                if index % 4 == 0 {
                    compare_write(report, &mut d, &p);
                }
            }
            None => {
                let number = problem_file::read(&file).err().unwrap_or(0);
                report.count(format!("plain reading: {number}"));
            }
        }
        if index % 4096 == 4095 || index + 1 == cases {
            eprint!("\r{} of {cases} files, {} failed ", index + 1, report.failures());
            let _ = std::io::stderr().flush();
        }
    }
    eprintln!();
}

#[cfg(test)]
mod tests {
    use super::*;

    // docs/FILE.md has a file byte by byte: in each line the first and last byte's number, and the bytes
    #[test]
    fn the_page_has_three_projectors() {
        let mut told = vec![];
        for line in include_str!("../../docs/FILE.md").lines() {
            let cells: Vec<&str> = line.split('|').map(str::trim).collect();
            let Some((first, last)) = cells.get(1).and_then(|cell| cell.split_once('–')) else { continue };
            let bytes: Vec<u8> = cells[2]
                .split(|c: char| !c.is_ascii_hexdigit())
                .filter_map(|two| u8::from_str_radix(two, 16).ok())
                .collect();
            assert_eq!(first.parse(), Ok(told.len()), "{line}");
            told.extend(bytes);
            assert_eq!(last.parse(), Ok(told.len() - 1), "{line}");
        }
        assert_eq!(told, laid_out(&three_projectors(), 8));
        assert_eq!(told, include_bytes!("../../crates/cut_samples/data/three_projectors.bin"));
    }
}
