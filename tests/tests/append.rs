//! Append, document 02's request 101, held against the plain implementation.
use outside_tests::held::{self, Numbers};
use outside_tests::inputs::{self, every_column, in_spaces, rounds, strange_index, Dice};
use outside_tests::mapped::Zeros;
use outside_tests::plain::{self, carried, Index, Told, COUNT, REPEAT};

/// Covered numbers at the edges of lines, at both ends of the column, and anywhere.
fn cuts(dice: &mut Dice, rows: usize) -> Vec<usize> {
    let mut cuts = vec![0, 1, 15, 16, 17, rows / 16 * 16, rows.saturating_sub(1), rows, dice.below(rows + 1), dice.below(rows + 1)];
    cuts.retain(|&cut| cut <= rows);
    cuts.sort();
    cuts.dedup();
    cuts
}

/// The index in spaces that are long enough for any of a column with so many rows.
fn roomy(index: &Index, rows: usize) -> Told {
    let lines = plain::lines(rows);
    in_spaces(index, [lines + 3, lines + 3])
}

/// The words told of the spaces.
fn standing(told: &Told) -> Index {
    let imprints = told.imprints[..told.imprints_told as usize].to_vec();
    let dictionary = told.dictionary[..told.dictionary_told as usize].to_vec();
    Index { borders: told.borders.clone(), imprints, dictionary }
}

/// An index built from the covered rows becomes the one that building over the longer column gives with its borders; a search then lists
/// what a plain scan lists.
#[test]
fn own_index() {
    every_column(101, |dice, column| {
        for covered in cuts(dice, column.len()) {
            let old = held::build(&column[..covered], [63, 400, 400]).unwrap();
            let new = held::append(&column, covered as u64, &mut roomy(&old, column.len())).unwrap();
            assert_eq!(new, carried(&column, &old.borders), "covered {covered}");
            let (low, high) = inputs::range(dice, &column, &new.borders);
            if let Ok(found) = held::search(&column, &new, low, high, column.len()) {
                assert_eq!(found.ids, plain::scan(&column, low, high));
            }
        }
    });
}

/// Spaces too short by one, just long enough, and others: the told length beyond its space, or the new length told whole.
#[test]
fn short_spaces() {
    let mut numbers = Numbers::default();
    every_column(102, |dice, column| {
        for covered in cuts(dice, column.len()) {
            let old = plain::index(&column[..covered]);
            let new = carried(&column, &old.borders);
            let needed = [new.imprints.len(), new.dictionary.len()];
            let told = [old.imprints.len(), old.dictionary.len()];
            let mut spaces = vec![needed, [needed[0].saturating_sub(1), needed[1]], [needed[0], needed[1].saturating_sub(1)], told];
            // Between the old length and the new one, where nothing is beyond its space.
            spaces.push([0, 1].map(|part| told[part] + dice.below(needed[part].saturating_sub(told[part]) + 1)));
            spaces.push(needed.map(|length| inputs::space(dice, length)));
            for spaces in spaces {
                numbers.count(&held::append(&column, covered as u64, &mut in_spaces(&old, spaces)));
            }
        }
    });
    numbers.seen(&[0, 3, 4]);
}

/// A told length that is off by some, or far beyond any space.
fn off(dice: &mut Dice, length: u64) -> u64 {
    match dice.below(6) {
        0 => length.wrapping_sub(1),
        1 => length + 1,
        2 => dice.of(&[0, 1 << 24, 1 << 32, (1 << 32) + length, 1 << 63, u64::MAX - 1, u64::MAX]),
        _ => length,
    }
}

/// Damaged indexes, those of other columns, covered numbers and told lengths that are wrong, spaces of any length.
#[test]
fn strange() {
    let mut numbers = Numbers::default();
    every_column(103, |dice, column| {
        for covered in cuts(dice, column.len()) {
            for _ in 0..6 {
                let index = strange_index(dice, &column[..covered]);
                let spare = [dice.below(3), plain::lines(column.len())];
                let spaces = [index.imprints.len() + dice.of(&spare), index.dictionary.len() + dice.of(&spare)];
                let mut told = in_spaces(&index, spaces);
                if dice.one_in(4) {
                    told.imprints_told = off(dice, told.imprints_told);
                    told.dictionary_told = off(dice, told.dictionary_told);
                }
                let edges = [covered + 1, covered + 16, covered / 2, column.len(), column.len() + 1, usize::MAX];
                let said = if dice.one_in(5) { dice.of(&edges) } else { covered };
                numbers.count(&held::append(&column, said as u64, &mut told));
            }
        }
    });
    numbers.seen(&[0, 3, 4, 5, 17]);
}

#[test]
fn each_damage_alone() {
    let mut numbers = Numbers::default();
    every_column(104, |dice, column| {
        for kind in 0..inputs::INDEX_DAMAGES {
            let covered = dice.below(column.len() + 1);
            let mut index = plain::index(&column[..covered]);
            inputs::damage(dice, &mut index, kind);
            let long = index.imprints.len().max(index.dictionary.len()) + plain::lines(column.len());
            numbers.count(&held::append(&column, covered as u64, &mut in_spaces(&index, [long, long])));
        }
    });
    numbers.seen(&[0, 3, 5]);
}

/// The order of checks: each fault stands before all that follow.
#[test]
fn order_of_checks() {
    let column = vec![3; 40];
    let long = Zeros::of(plain::ROWS_AT_MOST + 1);
    let good = in_spaces(&plain::index(&column[..20]), [1, 1]);
    let bad_borders = Told { borders: vec![4, 4], ..good.clone() };
    let beyond = Told { imprints_told: 2, ..good.clone() };
    let no_index = Told { dictionary: vec![REPEAT + 3], ..good.clone() };
    let all_bad = Told { borders: vec![4, 4], ..beyond.clone() };
    let number = |column: &[i32], covered, told: &Told| held::append(column, covered, &mut told.clone()).err().map_or(0, |no| no.number);
    assert_eq!(number(&long, u64::MAX, &all_bad), 2);
    assert_eq!(number(&long, 20, &good), 2);
    assert_eq!(number(&column, 41, &all_bad), 17);
    assert_eq!(number(&column, u64::MAX, &good), 17);
    assert_eq!(number(&column, 41, &good), 17);
    assert_eq!(number(&column, 20, &all_bad), 5);
    assert_eq!(number(&column, 20, &bad_borders), 5);
    assert_eq!(number(&column, 20, &beyond), 3);
    assert_eq!(number(&column, 20, &Told { dictionary_told: 2, ..good.clone() }), 3);
    assert_eq!(number(&column, 20, &no_index), 3);
    assert_eq!(number(&column, 33, &good), 3);
    assert_eq!(number(&column, 20, &good), 0);
    let other: Vec<i32> = (0..40).map(|row| if row < 20 { 3 } else { 2 }).collect();
    assert_eq!(number(&other, 20, &good), 4);
    assert_eq!(number(&other, 20, &no_index), 3);
    assert_eq!(number(&other, 20, &beyond), 3);
}

/// Beside 4 stands the whole new length of the first short space.
#[test]
fn needed() {
    let column: Vec<i32> = (0..64).map(|row| row / 16).collect();
    let old = carried(&column[..32], &[1, 2, 3]);
    assert_eq!((old.imprints.len(), old.dictionary.len()), (2, 1));
    let needed = |column: &[i32], spaces| held::append(column, 32, &mut in_spaces(&old, spaces)).unwrap_err().needed;
    assert_eq!(needed(&column, [2, 1]), 4);
    assert_eq!(needed(&column, [3, 1]), 4);
    let twice: Vec<i32> = (0..64).map(|row| row.min(47) / 16).collect();
    assert_eq!(needed(&twice, [2, 1]), 3);
    assert_eq!(needed(&twice, [3, 1]), 2);
    assert_eq!(held::append(&twice, 32, &mut in_spaces(&old, [3, 2])).unwrap().dictionary, [2, REPEAT + 2]);
}

/// Column A from covered numbers at every edge, with what each must give written out.
#[test]
fn column_a() {
    let column = [[5; 32].as_slice(), &[20; 8]].concat();
    for covered in [0, 1, 15, 16, 17, 31, 32, 33, 39, 40] {
        held::case(format!("covered {covered}"));
        let mut told = roomy(&carried(&column[..covered], &[5, 20]), 40);
        let new = held::append(&column, covered as u64, &mut told).unwrap();
        assert_eq!((new.imprints, new.dictionary), (vec![2, 4], vec![REPEAT + 2, 1]));
        assert_eq!((told.imprints_told, told.dictionary_told), (2, 2));
    }
}

/// No rows, into an index of no rows or of all.
#[test]
fn no_rows() {
    let nothing = Index::default();
    assert_eq!(held::append(&[], 0, &mut in_spaces(&nothing, [0, 0])), Ok(nothing.clone()));
    assert_eq!(held::append(&[], 0, &mut in_spaces(&nothing, [2, 2])), Ok(nothing.clone()));
    assert_eq!(held::append(&[], 1, &mut in_spaces(&nothing, [2, 2])).unwrap_err().number, 17);
    assert_eq!(held::append(&[7], 0, &mut in_spaces(&nothing, [0, 0])).unwrap_err().needed, 1);
    every_column(105, |_, column| {
        let own = plain::index(&column);
        let mut exact = in_spaces(&own, [own.imprints.len(), own.dictionary.len()]);
        assert_eq!(held::append(&column, column.len() as u64, &mut exact), Ok(own));
    });
}

/// The once short line's new imprint equals its neighbour's: both parts get shorter, and the words behind them stay.
#[test]
fn shorter_than_before() {
    let mixed = [5, 20].repeat(16);
    let column = [mixed.as_slice(), &[5], &mixed].concat();
    let old = carried(&column[..33], &[5, 20]);
    assert_eq!((&old.imprints[..], &old.dictionary[..]), ([6, 2].as_slice(), [REPEAT + 2, 1].as_slice()));
    let mut told = in_spaces(&old, [4, 4]);
    let behind = (told.imprints[1..].to_vec(), told.dictionary[1..].to_vec());
    let new = held::append(&column[..48], 33, &mut told).unwrap();
    assert_eq!((new.imprints, new.dictionary), (vec![6], vec![REPEAT + 3]));
    assert_eq!((told.imprints[1..].to_vec(), told.dictionary[1..].to_vec()), behind);
    assert_eq!(told.imprints[1], 2);
    assert_eq!(told.dictionary[1], 1);

    // Spaces that hold the old index alone are long enough for the shorter one.
    let exact = held::append(&column[..48], 33, &mut in_spaces(&old, [2, 2])).unwrap();
    assert_eq!(exact.dictionary, [REPEAT + 3]);

    // With no rows at all, where the short line's imprint was another column's.
    let wrong = carried(&[mixed.as_slice(), &[5]].concat(), &[5, 20]);
    let right = [mixed.as_slice(), &[5, 20]].concat();
    let new = held::append(&right, 34, &mut in_spaces(&wrong, [2, 2])).unwrap();
    assert_eq!((new.imprints, new.dictionary), (vec![6], vec![REPEAT + 3]));
}

/// Full lines that were wrong stay; every later line is the column's, the once short one too.
#[test]
fn wrong_lines_stay() {
    let mut wrong = 0;
    every_column(106, |dice, column| {
        let borders = plain::borders(&column);
        for covered in cuts(dice, column.len()) {
            let shape = dice.below(inputs::SHAPES);
            let other = inputs::column(dice, covered, shape);
            let mut told = roomy(&carried(&other, &borders), column.len());
            let new = held::append(&column, covered as u64, &mut told).unwrap();
            let list = held::unpack(&new, plain::lines(column.len()) as u64, 400).unwrap();
            let full = covered / 16;
            assert_eq!(list[..full], plain::line_imprints(&other, &borders)[..full]);
            assert_eq!(list[full..], plain::line_imprints(&column, &borders)[full..]);
            wrong += (list != plain::line_imprints(&column, &borders)) as usize;
        }
    });
    assert!(100 < wrong, "{wrong}");
}

/// Extends piece by piece, in the same spaces.
fn in_pieces(column: &[i32], old: &Index, cuts: &[usize]) -> Index {
    let mut told = roomy(old, column.len());
    for piece in cuts.windows(2) {
        held::append(&column[..piece[1]], piece[0] as u64, &mut told).unwrap();
    }
    standing(&told)
}

/// Pieces cut anywhere end as one append does, whether the index was the column's own or not.
#[test]
fn pieces() {
    every_column(107, |dice, column| {
        let rows = column.len();
        for other in [false, true] {
            let first = dice.below(rows + 1);
            let mut cuts: Vec<usize> = (0..dice.below(9)).map(|_| first + dice.below(rows - first + 1)).collect();
            cuts.extend([first, rows]);
            cuts.sort();
            let own = plain::index(&column[..first]);
            let shape = dice.below(inputs::SHAPES);
            let strange = carried(&inputs::column(dice, first, shape), &own.borders);
            let old = if other { strange } else { own };
            let once = held::append(&column, first as u64, &mut roomy(&old, rows)).unwrap();
            assert_eq!(in_pieces(&column, &old, &cuts), once);
            if !other {
                assert_eq!(once, carried(&column, &once.borders));
            }
        }
    });
}

#[test]
fn pieces_of_one_row() {
    for shape in 0..inputs::SHAPES {
        for first in [0, 1, 20, 64] {
            let mut dice = Dice::new(108_000 + (shape * 100 + first) as u64);
            let column = inputs::column(&mut dice, 150, shape);
            held::case(format!("shape {shape}, first {first}"));
            let old = plain::index(&column[..first]);
            let cuts: Vec<usize> = (first..=150).collect();
            assert_eq!(in_pieces(&column, &old, &cuts), carried(&column, &old.borders));
        }
    }
}

/// A column whose lines have these imprints, with the border 1: 1 is rows of 0, 2 is rows of 1, 3 has both.
fn column_of(list: &[u64]) -> Vec<i32> {
    list.iter().flat_map(|&word| (0..16).map(move |row| if word == 3 { row % 2 } else { word as i32 - 1 })).collect()
}

/// The list of so many words that has this number.
fn small_list(lines: u32, number: usize) -> Vec<u64> {
    (0..lines).map(|line| 1 + number as u64 / 3u64.pow(line) % 3).collect()
}

/// Every list of up to four imprints over two bins, its last line full or short, goes on with every list of up to two later ones.
#[test]
fn every_small_list() {
    let mut shorter = 0;
    for lines in 0..5 {
        for number in 0..3usize.pow(lines) {
            let list = small_list(lines, number);
            let (imprints, dictionary) = plain::packing(&list);
            let old = Index { borders: vec![1], imprints, dictionary };
            for covered in [16 * lines as usize, (16 * lines as usize).saturating_sub(9)] {
                let full = covered / 16;
                for (later, number) in (0..4).flat_map(|later| (0..3usize.pow(later)).map(move |number| (later, number))) {
                    let new_list = [&list[..full], &small_list(later, number)].concat();
                    let column = column_of(&new_list);
                    if column.len() < covered {
                        continue;
                    }
                    held::case(format!("{list:?} covers {covered}, then {new_list:?}"));
                    let new = held::append(&column, covered as u64, &mut roomy(&old, column.len())).unwrap();
                    assert_eq!((new.imprints.clone(), new.dictionary), plain::packing(&new_list));
                    shorter += (new.imprints.len() < old.imprints.len()) as usize;
                }
            }
        }
    }
    assert!(20 < shorter, "{shorter}");
}

/// Up to document 01's longest column, and one row past it.
#[test]
fn long_column() {
    let column = vec![7; 16_777_217];
    let index = |lines| Index { borders: vec![7], imprints: vec![2], dictionary: vec![REPEAT + lines] };
    for covered in [16_777_199, 16_777_200, 16_777_201, 16_777_215, 16_777_216, 16_777_217] {
        held::case(format!("covered {covered}"));
        let old = index(plain::lines(covered) as u32);
        assert_eq!(held::append(&column, covered as u64, &mut in_spaces(&old, [1, 1])), Ok(index(1_048_577)));
    }
}

/// Up to the longest column, and one row past it. All lines are alike: sixteen full entries, and one for what is left.
#[test]
fn longest_column() {
    let column = Zeros::of(plain::ROWS_AT_MOST + 1);
    let index = |left: u32| {
        let dictionary = [[REPEAT + COUNT; 16].as_slice(), &[REPEAT + left]].concat();
        Index { borders: vec![0], imprints: vec![2; 17], dictionary }
    };
    let longest = &column[..4_294_967_295];
    for (covered, left) in [(4_294_967_279, 15), (4_294_967_280, 15), (4_294_967_281, 16), (4_294_967_294, 16), (4_294_967_295, 16)] {
        held::case(format!("covered {covered}"));
        assert_eq!(held::append(longest, covered, &mut in_spaces(&index(left), [17, 17])), Ok(index(16)));
    }
    assert_eq!(held::append(longest, 4_294_967_296, &mut in_spaces(&index(16), [17, 17])).unwrap_err().number, 17);
    assert_eq!(held::append(&column, 4_294_967_295, &mut in_spaces(&index(16), [18, 18])).unwrap_err().number, 2);
    assert_eq!(held::append(&column, 4_294_967_296, &mut in_spaces(&index(16), [18, 18])).unwrap_err().number, 2);
}

/// Many small columns, everything chosen at random.
#[test]
fn at_random() {
    let mut dice = Dice::new(109);
    for round in 0..rounds(6000) {
        let length = dice.below(200);
        let shape = dice.below(inputs::SHAPES);
        held::case(format!("random round {round}, length {length}, shape {shape}"));
        let column = inputs::column(&mut dice, length, shape);
        let covered = dice.below(length + 1);
        let index = if dice.one_in(3) { strange_index(&mut dice, &column[..covered]) } else { plain::index(&column[..covered]) };
        let spaces = [dice.below(16), dice.below(16)];
        _ = held::append(&column, covered as u64, &mut in_spaces(&index, spaces));
    }
}
