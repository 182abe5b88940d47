//! Problem files: what is written is read back, every NaN with its bits, and what is no file is refused.

use tejiwakpa::{cut, flat, Columns, Cone, Problem, Refusal, Route};

// three projectors behind a Power cone, with a cost, so that each table has a number
fn problem() -> Problem {
    let mut problem = Problem::three_projectors();
    problem.cones.insert(0, Cone::Power(0.5));
    problem.m += 3;
    problem.b.splice(0..0, [0.5; 3]);
    problem.a.rows.iter_mut().for_each(|row| *row += 3);
    problem.patterns[0].orig_index = 1;
    problem.p = Columns { starts: vec![0, 1], rows: vec![0], values: vec![2.0] };
    problem
}

fn word(file: &[u8], k: usize) -> u32 {
    u32::from_le_bytes(file[4 * k..4 * k + 4].try_into().unwrap())
}

fn set_word(file: &mut [u8], k: usize, word: u32) {
    file[4 * k..4 * k + 4].copy_from_slice(&word.to_le_bytes());
}

#[test]
fn read_back() {
    let file = problem().to_file_bytes().unwrap();
    assert_eq!(Problem::from_file_bytes(&file).unwrap(), problem());
    let header: Vec<u32> = (0..20).map(|k| word(&file, k)).collect();
    assert_eq!(header[..8], [1, 9, 1, 5, 2, 1, 1, 16]);
    assert_eq!(header[8..19], [80, 88, 96, 104, 112, 120, 144, 184, 256, 280, 288]);
    assert_eq!(header[19] as usize, file.len());
}

#[test]
fn every_nan_keeps_its_bits() {
    let mut problem = problem();
    let nans = [0x7ff8_0000_0000_0000, 0xfff8_0000_0000_0001, 0x7ff0_0000_dead_beef, 0x7fff_ffff_ffff_ffff]
        .map(f64::from_bits);
    problem.p.values[0] = nans[0];
    problem.q[0] = nans[1];
    problem.a.values[0] = nans[2];
    problem.b[1] = nans[3];
    problem.cones[0] = Cone::Power(nans[2]);
    let file = problem.to_file_bytes().unwrap();
    let read = Problem::from_file_bytes(&file).unwrap();
    assert_eq!(read.a.values[0].to_bits(), nans[2].to_bits());
    assert_eq!(read.to_file_bytes().unwrap(), file);
}

#[test]
fn other_bytes_are_refused() {
    let file = problem().to_file_bytes().unwrap();
    let refusal = |file: &[u8]| Problem::from_file_bytes(file).unwrap_err();
    for length in [0, 1, 79, 80, file.len() - 1] {
        assert_eq!(refusal(&file[..length]), Refusal::FileLength);
    }
    let with = |k, word| {
        let mut file = file.clone();
        set_word(&mut file, k, word);
        file
    };
    for k in (0..19).filter(|&k| k != 6) {
        assert_eq!(refusal(&with(k, u32::MAX)), Refusal::FileTables, "word {k}");
    }
    assert_eq!(refusal(&with(19, u32::MAX)), Refusal::FileLength);
    // a pattern more than there is
    assert_eq!(refusal(&with(6, 2)), Refusal::Patterns);
    // eight times this count is right where products wrap
    assert_eq!(refusal(&with(5, 0x2000_0001)), Refusal::FileTables);
    // the gap after P's row
    assert_eq!(word(&file, 23), 0);
    assert_eq!(refusal(&with(23, 1)), Refusal::FileTables);
    // a table more, with the length right
    let mut long = with(19, file.len() as u32 + 8);
    long.extend([0; 8]);
    assert_eq!(refusal(&long), Refusal::FileTables);
    // what the tables hold comes last
    assert_eq!(refusal(&with(20, 1)), Refusal::Starts);
}

#[test]
fn refused_outputs_are_kept() {
    let file = problem().to_file_bytes().unwrap();
    let mut words = vec![7; file.len() / 4 - 1];
    assert_eq!(flat::file_words(&file, &mut words), Err(Refusal::Short));
    assert!(words.iter().all(|&w| w == 7));

    let mut wrong = problem();
    wrong.a.rows[0] = 99;
    assert_eq!(wrong.to_file_bytes(), Err(Refusal::Rows));
    let mut out = [7; 400];
    assert_eq!(flat::write_file(&flat::FileTables::default(), &mut out), Err(Refusal::Starts));
    assert_eq!(out, [7; 400]);
}

#[test]
fn a_compact_problem_is_handed_on() {
    let made = cut(Route::Compact, &problem()).unwrap().problem;
    assert_eq!(Problem::from_file_bytes(&made.to_file_bytes().unwrap()).unwrap(), made);
}

#[test]
fn words_that_are_not_the_files() {
    let file = problem().to_file_bytes().unwrap();
    let mut words = vec![0; file.len() / 4];
    flat::file_words(&file, &mut words).unwrap();
    let read = |words: &[u32], length| flat::read_file(words, length, &mut flat::FileOutputs::default());
    assert_eq!(read(&words[1..], file.len()), Err(Refusal::FileLength));
    assert_eq!(read(&words, file.len() + 4), Err(Refusal::FileLength));
    assert_eq!(read(&words, usize::MAX), Err(Refusal::FileLength));
    // the words are right, and there is no room for what is read
    assert_eq!(read(&words, file.len()), Err(Refusal::Short));
}

#[test]
fn the_sample_files() {
    let folder = concat!(env!("CARGO_MANIFEST_DIR"), "/../crates/cut_samples/data");
    for name in ["three_projectors", "load"] {
        let sample = |ending| std::fs::read(format!("{folder}/{name}{ending}")).unwrap();
        let read = Problem::from_file_bytes(&sample(".bin")).unwrap();
        assert_eq!(read.to_file_bytes().unwrap(), sample(".bin"));
        let compact = cut(Route::Compact, &read).unwrap().problem;
        assert_eq!(compact.to_file_bytes().unwrap(), sample(".compact.bin"));
    }
    let sample = std::fs::read(format!("{folder}/three_projectors.bin")).unwrap();
    assert_eq!(Problem::from_file_bytes(&sample).unwrap(), Problem::three_projectors());
}
