//! Request 107, by hand: the longest column, as it is and with a few rows that differ. Every call that reads it whole is made once over the C
//! face, what it answers is compared with what it must be, and the time is told. `bench/ten-years` builds and starts it.
#[allow(dead_code)]
#[path = "../../../tests/src/face.rs"]
mod face;
#[path = "../../../tests/src/mapped.rs"]
mod mapped;

use face::{mgz_append, mgz_build, mgz_register, mgz_search};
use mapped::{Sparse, Zeros};
use miguzoryane::{lines, COUNT_AT_MOST, ROWS_AT_MOST};
use std::fmt::Debug;
use std::time::Instant;

const REPEAT: u32 = 1 << 24;
const FULL: usize = COUNT_AT_MOST as usize;
/// Words lent for imprints and for the dictionary: more than any index here needs.
const SPACE: usize = 256;
/// Imprints of lines of 0 alone, and of 0 and 7, with the borders 0, or 0 and 7.
const ZEROS: u64 = 2;
const MIXED: u64 = 6;

#[derive(Clone, Debug, PartialEq)]
struct Index {
    borders: Vec<i32>,
    imprints: Vec<u64>,
    dictionary: Vec<u32>,
}

impl Index {
    /// What lines with these imprints, each so many times, make; no two neighbours are equal, and none of several stands once.
    fn of(borders: &[i32], runs: &[(u64, usize)]) -> Index {
        let (mut imprints, mut dictionary) = (Vec::new(), Vec::new());
        for &(imprint, times) in runs {
            let (full, left) = (times / FULL, times % FULL);
            dictionary.extend(vec![REPEAT + COUNT_AT_MOST; full]);
            dictionary.extend(match left {
                0 => None,
                1 => Some(1),
                _ => Some(REPEAT + left as u32),
            });
            imprints.resize(imprints.len() + full + (left != 0) as usize, imprint);
        }
        Index { borders: borders.to_vec(), imprints, dictionary }
    }

    fn zeros(rows: usize) -> Index {
        Index::of(&[0], &[(ZEROS, lines(rows))])
    }

    fn counts(&self) -> String {
        format!("borders {}, imprints {}, dictionary words {}", self.borders.len(), self.imprints.len(), self.dictionary.len())
    }
}

fn build(column: &[i32]) -> (u32, Index) {
    let mut index = Index { borders: vec![0; 63], imprints: vec![0; SPACE], dictionary: vec![0; SPACE] };
    let mut out = [9; 4];
    let number = unsafe {
        mgz_build(
            column.as_ptr(),
            column.len(),
            index.borders.as_mut_ptr(),
            63,
            index.imprints.as_mut_ptr(),
            SPACE,
            index.dictionary.as_mut_ptr(),
            SPACE,
            out.as_mut_ptr(),
        )
    };
    let [needed, borders, imprints, dictionary] = out.map(|word| word as usize);
    assert_eq!(needed, 0, "a space of {SPACE} words is short");
    index.borders.truncate(borders);
    index.imprints.truncate(imprints);
    index.dictionary.truncate(dictionary);
    (number, index)
}

/// Extends the index in spaces that are longer than it.
fn append(column: &[i32], covered: usize, index: &Index) -> (u32, Index) {
    let mut grown = index.clone();
    grown.imprints.resize(SPACE, 0);
    grown.dictionary.resize(SPACE, 0);
    let mut out = [9; 3];
    let number = unsafe {
        mgz_append(
            column.as_ptr(),
            column.len(),
            covered as u64,
            grown.borders.as_ptr(),
            grown.borders.len(),
            grown.imprints.as_mut_ptr(),
            SPACE,
            index.imprints.len() as u64,
            grown.dictionary.as_mut_ptr(),
            SPACE,
            index.dictionary.len() as u64,
            out.as_mut_ptr(),
        )
    };
    grown.imprints.truncate(out[1] as usize);
    grown.dictionary.truncate(out[2] as usize);
    (number, grown)
}

/// Number; length needed, rows listed, lines skipped and whole, values compared.
fn search(column: &[i32], index: &Index, low: i32, high: i32, ids: &mut [u32]) -> (u32, [u64; 5]) {
    let mut out = [9; 5];
    let number = unsafe {
        mgz_search(
            column.as_ptr(),
            column.len(),
            index.borders.as_ptr(),
            index.borders.len(),
            index.imprints.as_ptr(),
            index.imprints.len(),
            index.dictionary.as_ptr(),
            index.dictionary.len(),
            low,
            high,
            ids.as_mut_ptr(),
            ids.len(),
            out.as_mut_ptr(),
        )
    };
    (number, out)
}

/// Number; length needed, entries, row.
fn register(minutes: &[i32], words: &mut [u32]) -> (u32, [u64; 3]) {
    let mut out = [9; 3];
    let number = unsafe { mgz_register(minutes.as_ptr(), minutes.len(), words.as_mut_ptr(), words.len(), out.as_mut_ptr()) };
    (number, out)
}

/// A line of the table: what was done, what came of it, and how long it took. Another answer than the one wanted ends the program.
fn told<T: PartialEq + Debug>(what: &str, says: &str, wanted: T, call: impl FnOnce() -> T) {
    eprintln!("{what}");
    let start = Instant::now();
    let answer = call();
    let took = start.elapsed().as_secs_f64();
    assert!(answer == wanted, "{what}: {answer:?}, should be {wanted:?}");
    println!("| {what} | {says} | {took:.3} |");
}

/// One value of each page is read, so that the times below are those of the calls and not of the first touch.
fn touched(column: &[i32]) -> i64 {
    column.iter().step_by(1024).map(|&value| value as i64).sum()
}

fn available_gib() -> usize {
    let text = std::fs::read_to_string("/proc/meminfo").unwrap_or_default();
    let line = text.lines().find(|line| line.starts_with("MemAvailable:"));
    let kib: usize = line.and_then(|line| line.split_whitespace().nth(1)).and_then(|word| word.parse().ok()).unwrap_or(0);
    kib >> 20
}

/// All lines alike.
fn same_rows(column: &[i32], list: bool) {
    let rows = column.len();
    let own = Index::zeros(rows);
    let all = rows as u64;
    told("pages touched", "", 0, || touched(column));
    told("build", &own.counts(), (0, own.clone()), || build(column));
    told("search 0 to 0, no space for a row", &format!("4, {all} needed"), (4, [all, 0, 0, 0, 0]), || search(column, &own, 0, 0, &mut []));
    let high = i32::MAX;
    told("search 0 upwards, no space for a row", &format!("4, {all} needed"), (4, [all, 0, 0, 0, 0]), || {
        search(column, &own, 0, high, &mut [])
    });
    told("search 1 to 1", &format!("no rows, {all} values compared"), (0, [0, 0, 0, 0, all]), || search(column, &own, 1, 1, &mut []));
    let skipped = lines(rows) as u64;
    told("search -1 to -1", &format!("no rows, {skipped} lines skipped"), (0, [0, 0, skipped, 0, 0]), || {
        search(column, &own, -1, -1, &mut [])
    });
    if list {
        let mut ids = Sparse::of(rows);
        told("search 0 to 0, every row listed", &format!("{all} rows"), (0, [0, all, 0, 0, all]), || search(column, &own, 0, 0, &mut ids));
        assert!(ids.iter().enumerate().all(|(place, &row)| place == row as usize), "the rows are not 0, 1 and so on");
        ids.fill(7);
        told("search 0 upwards, every line whole", &format!("{all} rows"), (0, [0, all, 0, skipped, 0]), || {
            search(column, &own, 0, high, &mut ids)
        });
        assert!(ids.iter().enumerate().all(|(place, &row)| place == row as usize), "the rows are not 0, 1 and so on");
    }
    for covered in [16 * FULL, 1 << 31, rows / 2, rows - 1] {
        if rows < covered {
            eprintln!("append from {covered} rows: left out, there are only {rows}");
            continue;
        }
        let old = Index::zeros(covered);
        told(&format!("append from {covered} rows"), "as built", (0, own.clone()), || append(column, covered, &old));
    }
    let mut words = [77; 8];
    told("register, minute 0 in every row, 3 words lent", "4, 4 needed", (4, [4, 0, 0]), || register(column, &mut words[..3]));
    told("register, minute 0 in every row", &format!("1 entry of {rows} rows"), (0, [0, 1, 0]), || register(column, &mut words));
    assert_eq!(words, [0, 0, 0, rows as u32, 77, 77, 77, 77]);
}

/// A few rows are 7: one in the middle and the last one, then the first one too.
fn few_rows(rows: usize) {
    let mut column = Sparse::of(rows);
    let middle = rows / 2 + 21;
    column[middle] = 7;
    column[rows - 1] = 7;
    let all = rows as u64;
    // The sample meets neither, so 7 is no border, and all lines have one imprint.
    let unseen = Index::zeros(rows);
    told("another column, pages touched", "", 0, || touched(&column) / 8);
    told("build, 7 in the middle and in the last row", "7 is no border", (0, unseen.clone()), || build(&column));
    let mut ids = [77; 4];
    let compared = (0, [0, 2, 0, 0, all]);
    told("search 7 to 7", &format!("rows {middle} and {}", rows - 1), compared, || search(&column, &unseen, 7, 7, &mut ids));
    assert_eq!(ids, [middle as u32, rows as u32 - 1, 77, 77]);
    column[0] = 7;
    let (line, last) = (middle / 16, lines(rows) - 1);
    let seen = Index::of(&[0, 7], &[(MIXED, 1), (ZEROS, line - 1), (MIXED, 1), (ZEROS, last - line - 1), (MIXED, 1)]);
    told("build, 7 in the first row too", &seen.counts(), (0, seen.clone()), || build(&column));
    let last_rows = (rows - 16 * last) as u64;
    let compared = (0, [0, 3, lines(rows) as u64 - 3, 0, 32 + last_rows]);
    let says = format!("rows 0, {middle} and {}", rows - 1);
    told("search 7 to 7", &says, compared, || search(&column, &seen, 7, 7, &mut ids));
    assert_eq!(ids, [0, middle as u32, rows as u32 - 1, 77]);
    told("search 7 to 7, space for two rows", "4, 3 needed", (4, [3, 0, 0, 0, 0]), || search(&column, &seen, 7, 7, &mut ids[..2]));
    for covered in [16 * (line + 1), rows - 1] {
        let later = if covered == rows - 1 { last - line - 1 } else { 0 };
        let mut runs = vec![(MIXED, 1), (ZEROS, line - 1), (MIXED, 1), (ZEROS, later)];
        // The last line, short by the row that is still to come, is of 0 alone, and so one more of the run.
        runs[3].1 += (covered == rows - 1 && last_rows != 1) as usize;
        let old = Index::of(&[0, 7], &runs);
        told(&format!("append from {covered} rows"), "as built", (0, seen.clone()), || append(&column, covered, &old));
    }
}

/// One row more is 2, whatever else.
fn a_row_more(column: &[i32]) {
    let own = Index::zeros(column.len() - 1);
    told("build", "2", 2, || build(column).0);
    told("search", "2", (2, [0; 5]), || search(column, &own, 0, 0, &mut []));
    told("append", "2", 2, || append(column, column.len() - 1, &own).0);
    told("register", "2", (2, [0; 3]), || register(column, &mut []));
}

fn main() {
    let rows = std::env::var("MGZ_ROWS").map_or(ROWS_AT_MOST, |text| text.parse().expect("MGZ_ROWS is no number"));
    assert!((1000..=ROWS_AT_MOST).contains(&rows), "MGZ_ROWS: 1000 to {ROWS_AT_MOST}");
    let list = match std::env::args().skip(1).collect::<Vec<String>>().as_slice() {
        [] => false,
        [word] if word == "--list" => true,
        _ => {
            eprintln!("usage: bench/ten-years [--list]");
            std::process::exit(2);
        }
    };
    let gib = (4 * rows).div_ceil(1 << 30);
    eprintln!("{rows} rows. This takes some minutes and little memory; with --list, which writes out every row number, {gib} GiB more (so a machine of 24 GiB for the longest column).");
    let there = available_gib();
    assert!(!list || gib < there, "--list needs {gib} GiB and some, and {there} GiB are free");
    println!("{rows} rows, wall time, each call once; {}.\n", std::env::consts::ARCH);
    println!("| call | answer | seconds |\n|---|---|---|");
    let column = Zeros::of(rows + 1);
    same_rows(&column[..rows], list);
    few_rows(rows);
    println!("\n| a row more: {} | answer | seconds |\n|---|---|---|", rows + 1);
    a_row_more(&column);
}
