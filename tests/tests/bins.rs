//! The bin of a value, for every number of borders and every bin of each. An append to no rows takes any borders, so that they can be laid as
//! one likes; what it imprints is held against the plain implementation, which counts the borders not above a value.
use outside_tests::held;
use outside_tests::inputs::{in_spaces, rounds, Dice};
use outside_tests::plain::{self, Index, FAULT};

const MOST: usize = 63;

/// So many borders: side by side from the smallest value up, from the one above it, around 0 and up to the greatest; far apart; anywhere.
fn laid(dice: &mut Dice, count: usize) -> [Vec<i32>; 6] {
    let side_by_side = |from: i32| (0..count as i32).map(|place| from + place).collect();
    let up_to_the_greatest = (0..count as i32).rev().map(|place| i32::MAX - place).collect();
    let far_apart = (0..count as i64).map(|place| (i64::from(FAULT) + (place << 26)) as i32).collect();
    let mut anywhere: Vec<i32> = Vec::new();
    while anywhere.len() < count {
        anywhere.push(dice.word() as i32);
        anywhere.sort();
        anywhere.dedup();
    }
    [side_by_side(FAULT), side_by_side(FAULT + 1), side_by_side(-20), up_to_the_greatest, far_apart, anywhere]
}

/// Every border with its neighbours, and both ends of the values.
fn around(borders: &[i32]) -> Vec<i32> {
    let ends = [FAULT, FAULT + 1, -1, 0, i32::MAX - 1, i32::MAX];
    borders.iter().flat_map(|&border| [border.saturating_sub(1), border, border.saturating_add(1)]).chain(ends).collect()
}

/// The imprints that these borders give a column, line by line.
fn imprinted(column: &[i32], borders: &[i32]) -> Vec<u64> {
    let nothing = Index { borders: borders.to_vec(), ..Index::default() };
    let lines = plain::lines(column.len());
    let index = held::append(column, 0, &mut in_spaces(&nothing, [lines, lines])).unwrap();
    held::unpack(&index, lines as u64, lines).unwrap()
}

fn every_laying(salt: u64, mut f: impl FnMut(&mut Dice, &[i32])) {
    for round in 0..rounds(1) {
        let mut dice = Dice::new(salt + 1000 * round as u64);
        for count in 0..=MOST {
            for (way, borders) in laid(&mut dice, count).into_iter().enumerate() {
                held::case(format!("round {round}, {count} borders, way {way}"));
                f(&mut dice, &borders);
            }
        }
    }
}

/// A line a value: its imprint is the one bit of its bin.
#[test]
fn every_bin_alone() {
    every_laying(1051, |_, borders| {
        let values = around(borders);
        let column: Vec<i32> = values.iter().flat_map(|&value| [value; 16]).collect();
        for (value, imprint) in values.iter().zip(imprinted(&column, borders)) {
            let bin = if *value == FAULT { 0 } else { borders.iter().filter(|border| *border <= value).count() };
            assert_eq!(imprint, 1 << bin, "value {value}");
        }
    });
}

/// One row of a line in another bin than the others, at every place, in the last short line too.
#[test]
fn one_row_apart() {
    every_laying(1052, |dice, borders| {
        let values = around(borders);
        let mut column = Vec::new();
        for place in 0..16 {
            let mut line = [dice.of(&values); 16];
            line[place] = dice.of(&values);
            column.extend(line);
        }
        for rows in [256, 255, 241, 17, 16, 15, 1] {
            imprinted(&column[256 - rows..], borders);
            imprinted(&column[..rows], borders);
        }
    });
}

/// Lines behind lines of one bin: in the same bin, in the next one, and with one row apart at each place; a short one at the end.
#[test]
fn after_a_line_of_one_bin() {
    every_laying(1054, |dice, borders| {
        let values = around(borders);
        let mut column = Vec::new();
        for place in 0..16 {
            let at = dice.below(values.len() - 1);
            let (one, near, far) = (values[at], values[at + 1], dice.of(&values));
            for other in [near, far] {
                let mut apart = [one; 16];
                apart[place] = other;
                column.extend([[one; 16], apart, [one; 16], [other; 16], apart, apart].concat());
            }
        }
        for rows in [column.len(), column.len() - 1, column.len() - 15] {
            imprinted(&column[column.len() - rows..], borders);
            imprinted(&column[..rows], borders);
        }
    });
}

/// Any values side by side.
#[test]
fn bins_mixed() {
    every_laying(1053, |dice, borders| {
        let mut column = around(borders);
        dice.shuffle(&mut column);
        imprinted(&column, borders);
    });
}
