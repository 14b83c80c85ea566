//! Build, pack, unpack, positions and range search, held against the plain implementation.
use outside_tests::held::{self, Numbers};
use outside_tests::inputs::{self, every_column, rounds, strange_index, Dice};
use outside_tests::plain::{self, Index, Position, COUNT, REPEAT};

#[test]
fn build() {
    let mut numbers = Numbers::default();
    every_column(1, |dice, column| {
        let index = plain::index(&column);
        let needed = [index.borders.len(), index.imprints.len(), index.dictionary.len()];
        numbers.count(&held::build(&column, needed));
        for i in 0..3 {
            let mut spaces = needed;
            spaces[i] = spaces[i].saturating_sub(1);
            numbers.count(&held::build(&column, spaces));
            let mut spaces = needed.map(|n| n + 7);
            spaces[i] = 0;
            numbers.count(&held::build(&column, spaces));
        }
        for _ in 0..3 {
            let spaces = needed.map(|n| inputs::space(dice, n));
            numbers.count(&held::build(&column, spaces));
        }
    });
    numbers.seen(&[0, 4]);
}

/// The library's own index, then ranges over it: what it lists is what a plain scan lists.
#[test]
fn search_of_own_index() {
    let mut numbers = Numbers::default();
    every_column(2, |dice, column| {
        let index = held::build(&column, [63, 400, 400]).unwrap();
        for _ in 0..16 {
            let (low, high) = inputs::range(dice, &column, &index.borders);
            let found = held::search(&column, &index, low, high, column.len());
            numbers.count(&found);
            let scanned = plain::scan(&column, low, high);
            if let Ok(found) = found {
                assert_eq!(found.ids, scanned);
                let lines = plain::lines(column.len()) as u64;
                assert!(found.skipped + found.whole + found.compared.div_ceil(16) == lines);
            }
            let space = inputs::space(dice, scanned.len());
            numbers.count(&held::search(&column, &index, low, high, space));
        }
    });
    numbers.seen(&[0, 1, 4]);
}

#[test]
fn search_of_strange_index() {
    let mut numbers = Numbers::default();
    every_column(3, |dice, column| {
        for _ in 0..24 {
            let index = strange_index(dice, &column);
            let (low, high) = inputs::range(dice, &column, &index.borders);
            let found = held::search(&column, &index, low, high, column.len());
            numbers.count(&found);
            let rows = found.map_or(0, |found| found.ids.len());
            let space = inputs::space(dice, rows);
            numbers.count(&held::search(&column, &index, low, high, space));
        }
    });
    numbers.seen(&[0, 1, 3, 4, 5]);
}

#[test]
fn each_damage_alone() {
    let mut numbers = Numbers::default();
    every_column(4, |dice, column| {
        for kind in 0..inputs::INDEX_DAMAGES {
            let mut index = plain::index(&column);
            inputs::damage(dice, &mut index, kind);
            let (low, high) = inputs::range(dice, &column, &index.borders);
            numbers.count(&held::search(&column, &index, low, high, column.len()));
            let lines = plain::lines(column.len());
            numbers.count(&held::unpack(&index, lines as u64, lines));
        }
    });
    numbers.seen(&[0, 1, 3, 5]);
}

#[test]
fn pack_and_unpack() {
    let mut numbers = Numbers::default();
    every_column(5, |dice, column| {
        let index = plain::index(&column);
        let list = plain::line_imprints(&column, &index.borders);
        let packed = held::pack(&list, &index.borders, [list.len(), list.len()]).unwrap();
        assert_eq!(packed, (index.imprints.clone(), index.dictionary.clone()));
        assert_eq!(held::unpack(&index, list.len() as u64, list.len()).unwrap(), list);
        for _ in 0..8 {
            let mut list = list.clone();
            let mut borders = index.borders.clone();
            if dice.one_in(2) && !list.is_empty() {
                let at = dice.below(list.len());
                let any = dice.word();
                list[at] = dice.of(&[0, 1, 1 << 63, u64::MAX, list[0], any]);
            }
            if dice.one_in(3) {
                let mut other = index.clone();
                let kind = dice.below(inputs::INDEX_DAMAGES - inputs::FIRST_OF_BORDERS) + inputs::FIRST_OF_BORDERS;
                inputs::damage(dice, &mut other, kind);
                borders = other.borders;
            }
            let spaces = [inputs::space(dice, index.imprints.len()), inputs::space(dice, index.dictionary.len())];
            numbers.count(&held::pack(&list, &borders, spaces));
            let strange = strange_index(dice, &column);
            let lines = dice.of(&[list.len(), list.len(), list.len() + 1, list.len().saturating_sub(1), 0]);
            let space = inputs::space(dice, lines);
            numbers.count(&held::unpack(&strange, lines as u64, space));
        }
    });
    numbers.seen(&[0, 3, 4, 5]);
}

/// Bins up to 64: every list of three words over the highest bins.
#[test]
fn highest_bins() {
    for count in [0, 1, 61, 62, 63] {
        let borders: Vec<i32> = (0..count).collect();
        let top = 1u64.checked_shl(count as u32).unwrap();
        let words = [0, 1, top, top | 1, top.wrapping_shl(1), u64::MAX, u64::MAX >> (63 - count)];
        for a in words {
            for b in words {
                for c in words {
                    held::case(format!("{count} borders, words {a} {b} {c}"));
                    let list = [a, b, c];
                    if let Ok((imprints, dictionary)) = held::pack(&list, &borders, [3, 3]) {
                        let index = Index { borders: borders.clone(), imprints, dictionary };
                        assert_eq!(held::unpack(&index, 3, 3).unwrap(), list);
                        let column: Vec<i32> = (0..33).map(|i| i * 2).collect();
                        for (low, high) in [(0, 62), (62, i32::MAX), (i32::MIN, -1), (i32::MIN, i32::MAX), (61, 61), (1, 62)] {
                            held::search(&column, &index, low, high, 48).unwrap();
                        }
                    }
                }
            }
        }
    }
}

/// Acceptance of every small dictionary over every small list of imprints.
#[test]
fn every_small_dictionary() {
    let entries = [0, 1, 2, 3, REPEAT, REPEAT + 1, REPEAT + 2, REPEAT + 3, (1 << 25) + 1, REPEAT + (1 << 31) + 2];
    let words = [0, 1, 2, 4];
    let mut accepted = 0;
    for entries_used in 0..4u32 {
        for code in 0..10usize.pow(entries_used) {
            let dictionary: Vec<u32> = (0..entries_used).map(|i| entries[code / 10usize.pow(i) % 10]).collect();
            for kept in 0..4u32 {
                for code in 0..4usize.pow(kept) {
                    let imprints: Vec<u64> = (0..kept).map(|i| words[code / 4usize.pow(i) % 4]).collect();
                    let index = Index { borders: vec![3], imprints, dictionary: dictionary.clone() };
                    held::case(format!("{index:?}"));
                    let lines = dictionary.iter().map(|e| (e & COUNT) as u64).sum();
                    accepted += held::unpack(&index, lines, 9).is_ok() as usize;
                }
            }
        }
    }
    assert!(50 < accepted, "{accepted}");
}

/// From the start, step by step, a reader gives the list; then it has ended and stays.
#[test]
fn steps_give_the_lines() {
    every_column(6, |_, column| {
        let index = plain::index(&column);
        let list = plain::line_imprints(&column, &index.borders);
        let mut at = Position { entry: 0, place: 0, number: 0 };
        for &word in &list {
            let (imprint, after) = held::step(&index.dictionary, &index.imprints, at).unwrap();
            assert_eq!(imprint, Some(word));
            at = after;
        }
        for _ in 0..2 {
            assert_eq!(held::step(&index.dictionary, &index.imprints, at), Ok((None, at)));
        }
    });
}

#[test]
fn steps_from_anywhere() {
    let mut numbers = Numbers::default();
    let edges = [0, 1, 2, 3, 4, 5, 1 << 24, (1 << 32) + 1, 1 << 63, u64::MAX - 1, u64::MAX];
    let entries = [0, 1, 3, COUNT, REPEAT, REPEAT + 1, REPEAT + 2, u32::MAX, (1 << 25) + 2];
    let mut dice = Dice::new(7);
    for round in 0..rounds(400) {
        let dictionary: Vec<u32> = (0..dice.below(4)).map(|_| dice.of(&entries)).collect();
        let imprints: Vec<u64> = (0..dice.below(4)).map(|_| dice.word()).collect();
        held::case(format!("round {round}, {dictionary:?}, {} imprints", imprints.len()));
        for entry in edges {
            for place in edges {
                for number in edges {
                    let at = Position { entry, place, number };
                    numbers.count(&held::step(&dictionary, &imprints, at));
                }
            }
        }
        let last = Position { entry: 0, place: COUNT as u64 - 1, number: 0 };
        numbers.count(&held::step(&dictionary, &imprints, last));
    }
    numbers.seen(&[0, 3]);
}

/// Many small columns, everything chosen at random.
#[test]
fn at_random() {
    let mut dice = Dice::new(8);
    for round in 0..rounds(6000) {
        let length = dice.below(200);
        let shape = dice.below(inputs::SHAPES);
        held::case(format!("random round {round}, length {length}, shape {shape}"));
        let column = inputs::column(&mut dice, length, shape);
        let spaces = [dice.below(70), dice.below(16), dice.below(16)];
        _ = held::build(&column, spaces);
        let index = strange_index(&mut dice, &column);
        let (low, high) = inputs::range(&mut dice, &column, &index.borders);
        let space = dice.below(length + 2);
        _ = held::search(&column, &index, low, high, space);
    }
}
