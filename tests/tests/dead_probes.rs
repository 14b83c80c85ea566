//! A dead probe isn't a reading: document 02's request 102, with what it must give written out, and held against the plain implementation.
use outside_tests::held;
use outside_tests::inputs::{self, every_column, in_spaces, Dice, LOWEST};
use outside_tests::plain::{self, carried, Found, Index, Outcome, FAULT, REPEAT};
use std::ops::Range;

/// These rows, but for those of faults.
fn readings(column: &[i32], rows: Range<u32>) -> Vec<u32> {
    rows.filter(|&row| column[row as usize] != i32::MIN).collect()
}

/// The lowest ranges, and some of any kind, low end first.
fn ranges(dice: &mut Dice, column: &[i32], borders: &[i32]) -> Vec<(i32, i32)> {
    let some = (0..6).map(|_| inputs::range(dice, column, borders)).filter(|(low, high)| low <= high);
    LOWEST.into_iter().chain(some).collect()
}

/// The index that append makes from no rows with these borders.
fn from_nothing(column: &[i32], borders: &[i32]) -> Index {
    let lines = plain::lines(column.len());
    let nothing = Index { borders: borders.to_vec(), ..Index::default() };
    held::append(column, 0, &mut in_spaces(&nothing, [lines, lines])).unwrap()
}

/// Column A with a fault in its first line, row 3, and one in the short last one, row 35.
fn column_a() -> Vec<i32> {
    let mut column = [[5; 32].as_slice(), &[20; 8]].concat();
    column[3] = FAULT;
    column[35] = FAULT;
    column
}

fn index_a() -> Index {
    Index { borders: vec![5, 20], imprints: vec![3, 2, 5], dictionary: vec![3] }
}

#[test]
fn in_a_full_line_and_in_the_short_one() {
    let column = column_a();
    assert_eq!(held::build(&column, [2, 3, 1]), Ok(index_a()));
    let found = |low, high| held::search(&column, &index_a(), low, high, 38).unwrap();
    let rows = |rows, skipped, whole, compared| Found { ids: readings(&column, rows), skipped, whole, compared };
    assert_eq!(found(FAULT, i32::MAX), rows(0..40, 0, 1, 24));
    assert_eq!(found(FAULT + 1, i32::MAX), rows(0..40, 0, 1, 24));
    assert_eq!(found(FAULT, 19), rows(0..32, 0, 1, 24));
    assert_eq!(found(FAULT, 4), rows(0..0, 1, 0, 24));
    assert_eq!(found(FAULT, FAULT), rows(0..0, 1, 0, 24));
    assert_eq!(found(5, 5), rows(0..32, 1, 0, 32));
    assert_eq!(found(5, 19), rows(0..32, 1, 1, 16));
    assert_eq!(found(20, i32::MAX), rows(32..40, 2, 0, 8));
}

#[test]
fn a_full_line_and_the_short_one_of_faults() {
    let column = [[FAULT; 16].as_slice(), &[5; 16], &[FAULT; 8]].concat();
    let index = held::build(&column, [1, 3, 1]).unwrap();
    assert_eq!(index, Index { borders: vec![5], imprints: vec![1, 2, 1], dictionary: vec![3] });
    let found = |low, high| held::search(&column, &index, low, high, 16).unwrap();
    let rows = |rows: Range<u32>, skipped, whole, compared| Found { ids: rows.collect(), skipped, whole, compared };
    assert_eq!(found(FAULT, i32::MAX), rows(16..32, 0, 1, 24));
    assert_eq!(found(FAULT, 4), rows(0..0, 1, 0, 24));
    assert_eq!(found(5, i32::MAX), rows(16..32, 2, 1, 0));
    assert_eq!(found(5, 5), rows(16..32, 2, 0, 16));
}

/// No borders and one bin: every imprint is 1, every search compares every row, and none is listed.
#[test]
fn faults_only() {
    for rows in [0, 1, 15, 16, 17, 31, 32, 33, 40, 2047, 2048, 2049, 4096, 4097, 5000] {
        held::case(format!("{rows} faults"));
        let column = vec![FAULT; rows];
        let lines = plain::lines(rows);
        let (imprints, dictionary) = match lines {
            0 => (vec![], vec![]),
            1 => (vec![1], vec![1]),
            _ => (vec![1], vec![REPEAT + lines as u32]),
        };
        let index = held::build(&column, [0, 1, 1]).unwrap();
        assert_eq!(index, Index { borders: vec![], imprints, dictionary });
        assert_eq!(held::unpack(&index, lines as u64, lines).unwrap(), vec![1; lines]);
        for (low, high) in LOWEST.into_iter().chain([(0, 0), (-5, 7), (i32::MAX, i32::MAX)]) {
            let none = Found { compared: rows as u64, ..Found::default() };
            assert_eq!(held::search(&column, &index, low, high, 0), Ok(none));
        }
        for covered in [0, 1, 15, 16, 17, rows] {
            let old = plain::index(&column[..covered.min(rows)]);
            assert_eq!(held::append(&column, covered.min(rows) as u64, &mut in_spaces(&old, [1, 1])).unwrap(), index);
        }
    }
}

/// So too of a long column, and of one that has a reading at its very end alone, which the stride doesn't meet.
#[test]
fn long_column() {
    let mut column = vec![FAULT; 16_777_217];
    let index = held::build(&column, [0, 1, 1]).unwrap();
    assert_eq!(index.dictionary, [REPEAT + 1_048_577]);
    let mut found = Found { compared: 16_777_217, ..Found::default() };
    assert_eq!(held::search(&column, &index, FAULT, i32::MAX, 0).unwrap(), found);
    column[16_777_216] = 7;
    assert_eq!(held::build(&column, [0, 1, 1]).unwrap(), index);
    found.ids.push(16_777_216);
    assert_eq!(held::search(&column, &index, FAULT, i32::MAX, 1).unwrap(), found);
}

/// The stride counts every row: of 2,049 rows and of 2,050 it takes every second one, however few are readings.
#[test]
fn the_stride_counts_faults() {
    let mixed = |even: i32, odd: i32, rows: usize| [even, odd].into_iter().cycle().take(rows).collect::<Vec<i32>>();
    let unseen = mixed(FAULT, 7, 2049);
    let index = held::build(&unseen, [0, 1, 1]).unwrap();
    assert_eq!(index.imprints, [1]);
    let found = held::search(&unseen, &index, FAULT, i32::MAX, 1024).unwrap();
    assert_eq!(found, Found { ids: readings(&unseen, 0..2049), compared: 2049, ..Found::default() });

    let seen = held::build(&mixed(7, FAULT, 2049), [1, 2, 2]).unwrap();
    assert_eq!(seen, Index { borders: vec![7], imprints: vec![3, 2], dictionary: vec![REPEAT + 128, 1] });

    let mut few_faults = mixed(10, 20, 2050);
    for row in [1, 3, 5] {
        few_faults[row] = FAULT;
    }
    assert_eq!(held::build(&few_faults, [63, 129, 129]).unwrap().borders, [10]);
}

/// P8's column with a fault before each reading has P8's borders: the places are those of the sample without faults.
#[test]
fn borders_of_the_readings() {
    let column: Vec<i32> = (0..100).flat_map(|v| [FAULT, v]).collect();
    let index = held::build(&column, [63, 13, 13]).unwrap();
    assert_eq!(index.borders.len(), 63);
    assert_eq!(index.borders[..6], [0, 1, 3, 4, 6, 8]);
    assert_eq!(index.borders[61..], [98, 99]);
    assert_eq!(index.imprints[0], 63);

    // With 62 different readings there is a border for each, faults or none.
    let column: Vec<i32> = (0..62).flat_map(|v| [v * 5, FAULT]).collect();
    assert_eq!(held::build(&column, [63, 8, 8]).unwrap().borders, (0..62).map(|v| v * 5).collect::<Vec<i32>>());
}

/// Counts the lines: full or short, with no fault, with some, and of faults only.
fn count_lines(kinds: &mut [[usize; 3]; 2], column: &[i32]) {
    for line in column.chunks(plain::ROWS_PER_LINE) {
        let faults = line.iter().filter(|&&v| v == i32::MIN).count();
        let short = line.len() < plain::ROWS_PER_LINE;
        kinds[short as usize][(0 < faults) as usize + (faults == line.len()) as usize] += 1;
    }
}

/// From the smallest value up every reading is listed; no search lists a fault.
#[test]
fn own_index() {
    let mut kinds = [[0; 3]; 2];
    every_column(201, |dice, column| {
        let index = held::build(&column, [63, 400, 400]).unwrap();
        count_lines(&mut kinds, &column);
        let all = readings(&column, 0..column.len() as u32);
        assert_eq!(held::search(&column, &index, FAULT, i32::MAX, column.len()).unwrap().ids, all);
        for (low, high) in ranges(dice, &column, &index.borders) {
            let found = held::search(&column, &index, low, high, all.len()).unwrap();
            assert!(found.ids.iter().all(|row| all.binary_search(row).is_ok()), "{low} to {high} lists a fault");
            assert_eq!(found.ids, plain::scan(&column, low, high));
            held::search(&column, &index, low, high, found.ids.len().saturating_sub(1)).ok();
        }
    });
    assert!(kinds.iter().flatten().all(|&times| 12 < times), "{kinds:?}");
}

/// In a line that another column's index takes whole, a fault is listed: the ids are the rows of whole lines.
#[test]
fn another_columns_index() {
    let column = vec![FAULT; 40];
    let index = Index { borders: vec![5, 20], imprints: vec![2, 4], dictionary: vec![REPEAT + 2, 1] };
    let found = |low, high| held::search(&column, &index, low, high, 40).unwrap();
    let rows = |rows: Range<u32>, skipped, whole, compared| Found { ids: rows.collect(), skipped, whole, compared };
    assert_eq!(found(5, 19), rows(0..32, 1, 2, 0));
    assert_eq!(found(20, i32::MAX), rows(32..40, 2, 1, 0));
    assert_eq!(found(FAULT, i32::MAX), rows(0..40, 0, 3, 0));
    assert_eq!(found(5, 5), rows(0..0, 1, 0, 32));
    assert_eq!(found(FAULT, 4), rows(0..0, 3, 0, 0));
}

/// With the smallest value as the only border, faults alone lie in bin 0, and bin 1 is in the inner mask from the smallest value up.
#[test]
fn the_smallest_value_as_the_only_border() {
    let mixed = [[FAULT; 8], [7; 8]].concat();
    let column = [[FAULT; 16].as_slice(), &[7; 16], &mixed, &[FAULT, 7, FAULT]].concat();
    let index = from_nothing(&column, &[FAULT]);
    assert_eq!(index, Index { borders: vec![FAULT], imprints: vec![1, 2, 3], dictionary: vec![2, REPEAT + 2] });
    assert_eq!(held::pack(&[1, 2, 3, 3], &[FAULT], [3, 2]), Ok((index.imprints.clone(), index.dictionary.clone())));
    assert_eq!(held::unpack(&index, 4, 4).unwrap(), [1, 2, 3, 3]);
    let found = |low, high| held::search(&column, &index, low, high, 25).unwrap();
    let rows = |rows, skipped, whole, compared| Found { ids: readings(&column, rows), skipped, whole, compared };
    assert_eq!(found(FAULT, i32::MAX), rows(0..51, 0, 1, 35));
    assert_eq!(found(FAULT + 1, i32::MAX), rows(0..51, 1, 0, 51 - 16));
    assert_eq!(found(FAULT, i32::MAX - 1), rows(0..51, 0, 0, 51));
    assert_eq!(found(FAULT, 6), rows(0..0, 0, 0, 51));
    assert_eq!(found(FAULT, FAULT), rows(0..0, 1, 0, 35));
    assert_eq!(found(7, 7), rows(0..51, 1, 0, 35));
}

/// Beside the next value: no value lies in bin 1. Among 63: the highest bin is 63.
#[test]
fn the_smallest_value_beside_other_borders() {
    let column = [[FAULT; 16].as_slice(), &[FAULT + 1; 16], &[61; 9]].concat();
    let index = from_nothing(&column, &[FAULT, FAULT + 1]);
    assert_eq!((&index.imprints[..], &index.dictionary[..]), ([1, 4].as_slice(), [1, REPEAT + 2].as_slice()));
    let found = |index: &Index, low, high| held::search(&column, index, low, high, 41).unwrap();
    let rows = |rows: Range<u32>, skipped, whole, compared| Found { ids: rows.collect(), skipped, whole, compared };
    assert_eq!(found(&index, FAULT, i32::MAX), rows(16..41, 0, 2, 16));
    assert_eq!(found(&index, FAULT + 1, i32::MAX), rows(16..41, 1, 2, 0));
    assert_eq!(found(&index, FAULT, FAULT), rows(0..0, 2, 0, 16));
    assert_eq!(found(&index, FAULT, FAULT + 1), rows(16..32, 0, 0, 41));

    let many: Vec<i32> = [FAULT].into_iter().chain(0..62).collect();
    let index = from_nothing(&column, &many);
    assert_eq!((&index.imprints[..], &index.dictionary[..]), ([1, 2, 1 << 63].as_slice(), [3].as_slice()));
    assert_eq!(found(&index, FAULT, i32::MAX), rows(16..41, 0, 2, 16));
    assert_eq!(found(&index, FAULT, -1), rows(16..32, 1, 1, 16));
    assert_eq!(found(&index, FAULT + 1, -1), rows(16..32, 2, 0, 16));
    assert_eq!(found(&index, 61, i32::MAX), rows(32..41, 2, 1, 0));
    assert_eq!(found(&index, FAULT, FAULT), rows(0..0, 2, 0, 16));
}

/// Carried by an index that is else the column's own, whatever stands beside it: what a plain scan lists.
#[test]
fn any_borders_from_the_smallest() {
    let mut counts = [0; 64];
    every_column(202, |dice, column| {
        let borders = inputs::borders_from_the_smallest(dice, &column);
        counts[borders.len()] += 1;
        let index = from_nothing(&column, &borders);
        assert_eq!(index, carried(&column, &borders));
        let first = dice.below(column.len() + 1);
        let mut told = in_spaces(&carried(&column[..first], &borders), [400, 400]);
        assert_eq!(held::append(&column, first as u64, &mut told).unwrap(), index);
        for (low, high) in ranges(dice, &column, &borders) {
            let found = held::search(&column, &index, low, high, column.len()).unwrap();
            assert_eq!(found.ids, plain::scan(&column, low, high));
        }
    });
    assert!(counts[1] != 0 && counts[2] != 0 && counts[63] != 0, "{counts:?}");
}

/// Rows that come and are faults only add no row to any search.
#[test]
fn faults_come() {
    every_column(203, |dice, column| {
        let old = held::build(&column, [63, 400, 400]).unwrap();
        for more in [1, 15, 16, 17, 40] {
            let longer = [column.as_slice(), &vec![FAULT; more]].concat();
            let mut told = in_spaces(&old, [400, 400]);
            let new = held::append(&longer, column.len() as u64, &mut told).unwrap();
            assert_eq!(new, carried(&longer, &old.borders));
            for (low, high) in [(FAULT, i32::MAX), inputs::range(dice, &column, &old.borders)] {
                let rows = |column: &[i32], index: &Index| held::search(column, index, low, high, column.len()).map(|found| found.ids);
                assert_eq!(rows(&longer, &new), rows(&column, &old));
            }
        }
    });
}

/// Column A, then faults: its short last line gains bin 0, the next one has it alone. Faults, then readings: no borders come.
#[test]
fn faults_come_and_go() {
    let column = [[5; 32].as_slice(), &[20; 8], &[FAULT; 12]].concat();
    let old = held::build(&column[..40], [2, 2, 2]).unwrap();
    let new = held::append(&column, 40, &mut in_spaces(&old, [3, 2])).unwrap();
    assert_eq!(new, Index { borders: vec![5, 20], imprints: vec![2, 5, 1], dictionary: vec![REPEAT + 2, 2] });
    let found = held::search(&column, &new, 20, i32::MAX, 8).unwrap();
    assert_eq!(found, Found { ids: (32..40).collect(), skipped: 3, whole: 0, compared: 16 });
    let found = held::search(&column, &new, FAULT, i32::MAX, 40).unwrap();
    assert_eq!(found, Found { ids: (0..40).collect(), skipped: 0, whole: 2, compared: 20 });

    let column = [[FAULT; 20].as_slice(), &[7; 30]].concat();
    let old = held::build(&column[..20], [0, 1, 1]).unwrap();
    let new = held::append(&column, 20, &mut in_spaces(&old, [1, 1])).unwrap();
    assert_eq!(new, Index { borders: vec![], imprints: vec![1], dictionary: vec![REPEAT + 4] });
    let found = held::search(&column, &new, FAULT, 7, 30).unwrap();
    assert_eq!(found, Found { ids: (20..50).collect(), skipped: 0, whole: 0, compared: 50 });
}

/// With faults only one look is wasted, and learning it takes no room; among minutes, the gaps are those between readings.
#[test]
fn faults_are_no_keys() {
    let fresh = |room| {
        let mut words = vec![9; plain::filter_words(room) as usize];
        held::fresh(5, room, &mut words).unwrap();
        words
    };
    let column = vec![FAULT; 40];
    let (index, mut words) = (plain::index(&column), fresh(0));
    let (outcome, found) = held::guarded(&mut words, &column, &index, 3, 4, 0).unwrap();
    assert!(matches!(outcome, Outcome::EmptyLearnt(_)));
    assert_eq!(found, Found { compared: 40, ..Found::default() });
    assert_eq!(held::guarded(&mut words, &column, &index, 0, 31, 0), Ok((Outcome::Denied, Found::default())));

    let (column, mut words) = (column_a(), fresh(10));
    let both = |words: &mut Vec<u32>, low, high| {
        let (outcome, found) = held::guarded(words, &column, &index_a(), low, high, 38).unwrap();
        (outcome.number(), found.ids)
    };
    assert_eq!(both(&mut words, 0, 5), (1, readings(&column, 0..32)));
    assert_eq!(both(&mut words, 1, 2), (2, vec![]));
    assert_eq!(both(&mut words, 0, 4), (0, vec![]));
    assert_eq!(both(&mut words, 8, 9), (2, vec![]));
    assert_eq!(both(&mut words, 6, 19), (0, vec![]));
    assert_eq!(both(&mut words, 0, 31), (1, readings(&column, 0..40)));
}
