//! The search with both, and demand 3's bound.
use outside_tests::inputs::{self, rounds, Dice};
use outside_tests::mapped::Zeros;
use outside_tests::plain::{self, Index, Outcome, FAULT};
use outside_tests::{face, held};

/// A column of minutes for `levels` levels: some keys, some repeated, some values that are no keys, and in every third column many faults.
fn column(dice: &mut Dice, levels: u32, different: usize) -> Vec<i32> {
    let keys = 1usize << levels;
    let pool: Vec<i32> = (0..different).map(|_| dice.below(keys) as i32).collect();
    let length = if different == 0 { dice.below(20) } else { dice.below(120) };
    let strange = [-1, FAULT, keys as i32, keys as i32 + 1, i32::MAX];
    let minutes = (0..length).map(|_| if different == 0 || dice.one_in(9) { dice.of(&strange) } else { dice.of(&pool) }).collect();
    if dice.one_in(3) {
        inputs::with_faults(dice, minutes)
    } else {
        minutes
    }
}

fn fresh(levels: u32, room: u32, extra: usize) -> Vec<u32> {
    let mut words = vec![9; plain::filter_words(room) as usize + extra];
    held::fresh(levels, room, &mut words).unwrap();
    words
}

#[test]
fn sequences() {
    let (mut numbers, mut outcomes) = ([0; 13], [0; 4]);
    for round in 0..rounds(1500) {
        let mut dice = Dice::new(50_000 + round as u64);
        let levels = 1 + dice.below(6) as u32;
        let keys = 1u32 << levels;
        let room = dice.of(&[0, 1, levels, 3 * levels, 63]).min(plain::most_room(levels));
        let different = dice.below(7);
        let column = column(&mut dice, levels, different);
        let own = plain::index(&column);
        let mut words = fresh(levels, room, round % 3);
        for call in 0..24 {
            held::case(format!("round {round}, call {call}"));
            let (low, high) = inputs::key_range(&mut dice, keys);
            let index = if dice.one_in(6) { strange_index(&mut dice, &column, &own) } else { own.clone() };
            let space = if dice.one_in(4) { dice.below(column.len() + 1) } else { column.len() };
            let before = words.clone();
            if dice.one_in(12) {
                let kind = dice.below(inputs::FILTER_DAMAGES);
                inputs::damage_filter(&mut dice, &mut words, kind);
            }
            match held::guarded(&mut words, &column, &index, low, high, space) {
                Ok((outcome, _)) => outcomes[outcome.number() as usize] += 1,
                Err(no) => {
                    numbers[no.number as usize] += 1;
                    words = before;
                }
            }
            if dice.one_in(5) {
                let key = dice.below(keys as usize) as u32;
                _ = held::arrive(&mut words, key);
            }
            if dice.one_in(12) {
                _ = held::forget(&mut words);
            }
        }
    }
    assert!(outcomes.iter().all(|&times| 20 < times), "{outcomes:?}");
    for number in [1, 3, 4, 5, 7, 8] {
        assert!(10 < numbers[number], "number {number}: {numbers:?}");
    }
}

/// Another column's index of as many lines, one whose first border is the smallest value, or a damaged one.
fn strange_index(dice: &mut Dice, column: &[i32], own: &Index) -> Index {
    match dice.below(5) {
        0 | 1 => return plain::index(&vec![dice.below(9) as i32; column.len()]),
        2 => return plain::carried(column, &inputs::borders_from_the_smallest(dice, column)),
        _ => (),
    }
    let mut index = own.clone();
    let kind = dice.below(inputs::INDEX_DAMAGES);
    inputs::damage(dice, &mut index, kind);
    index
}

/// The order of checks: each pair of faults at once.
#[test]
fn order_of_checks() {
    let column = vec![3; 20];
    let index = plain::index(&column);
    let long = Zeros::of(plain::ROWS_AT_MOST + 1);
    let good = fresh(3, 3, 0);
    let bad_words = vec![0; 10];
    let bad_borders = Index { borders: vec![4, 4], ..index.clone() };
    let bad_dictionary = Index { dictionary: vec![3], ..index.clone() };
    let both_bad = Index { borders: vec![4, 4], ..bad_dictionary.clone() };
    let number = |words: &[u32], column: &[i32], index: &Index, low, high, space| {
        let mut words = words.to_vec();
        held::guarded(&mut words, column, index, low, high, space).err().map_or(0, |no| no.number)
    };
    assert_eq!(number(&bad_words, &column, &both_bad, 8, 0, 0), 8);
    assert_eq!(number(&good, &long, &both_bad, 8, 0, 0), 7);
    assert_eq!(number(&good, &long, &both_bad, 0, 8, 0), 7);
    assert_eq!(number(&good, &long, &both_bad, 5, 4, 0), 1);
    assert_eq!(number(&good, &long, &both_bad, 3, 3, 0), 2);
    assert_eq!(number(&good, &column, &both_bad, 3, 3, 0), 5);
    assert_eq!(number(&good, &column, &bad_borders, 3, 3, 0), 5);
    assert_eq!(number(&good, &column, &bad_dictionary, 3, 3, 0), 3);
    assert_eq!(number(&good, &column, &index, 3, 3, 19), 4);
    assert_eq!(number(&good, &column, &index, 3, 3, 20), 0);
    let mut taught = good.clone();
    held::learn(&mut taught, 0, 7).unwrap();
    assert_eq!(number(&taught, &column, &index, 3, 3, 0), 0);
    assert_eq!(number(&taught, &column, &bad_dictionary, 3, 3, 0), 3);
}

/// Demand 3: an unchanged column with n different keys, its own index, room for the smaller of k x n and 2^k - 1: whatever is asked, at most n + 1 looks find nothing, and
/// each is learnt.
#[test]
fn wasted_looks() {
    let mut all_splits = 0;
    for round in 0..rounds(150) {
        let mut dice = Dice::new(70_000 + round as u64);
        let levels = 1 + dice.below(7) as u32;
        let keys = 1u32 << levels;
        let different = dice.of(&[0, 1, 2, 3, 5, 8, 12, 40]);
        let column = column(&mut dice, levels, different);
        let mut present: Vec<i32> = column.iter().copied().filter(|v| (0..keys as i32).contains(v)).collect();
        present.sort();
        present.dedup();
        let n = present.len();
        let index = held::build(&column, [63, 10, 10]).unwrap();
        let room = (levels * n as u32).min(keys - 1);
        all_splits += (room == keys - 1) as usize;
        let mut words = fresh(levels, room, 0);
        let mut wasted = 0;
        let every = (0..keys).map(|key| (key, key));
        let some: Vec<(u32, u32)> = (0..60).map(|_| inputs::key_range(&mut dice, keys)).chain(every).collect();
        for (low, high) in some {
            held::case(format!("round {round}, range {low} to {high}"));
            let space = inputs::space(&mut dice, column.len());
            match held::guarded(&mut words, &column, &index, low, high, space) {
                Ok((Outcome::EmptyNotLearnt, _)) => panic!("round {round}: not learnt"),
                Ok((Outcome::EmptyLearnt(_), _)) => wasted += 1,
                _ => (),
            }
        }
        assert!(wasted <= n + 1, "round {round}: {wasted} wasted looks, {n} keys");
        for key in 0..keys {
            let look = held::ask(&words, key, key).unwrap();
            assert_eq!(look, present.contains(&(key as i32)), "round {round}, key {key}");
        }
    }
    assert!(20 < all_splits, "room 2^k - 1 came {all_splits} times");
}

/// The bound over the library alone, with more keys than the plain filter is quick for, and faults, which are no keys.
#[test]
fn wasted_looks_of_a_long_column() {
    let mut dice = Dice::new(90);
    let levels = 16;
    let minutes: Vec<i32> = (0..200).map(|_| dice.below(1 << levels) as i32).collect();
    let column: Vec<i32> = (0..5000).map(|_| if dice.one_in(9) { FAULT } else { dice.of(&minutes) }).collect();
    let mut present: Vec<i32> = column.iter().copied().filter(|&v| v != FAULT).collect();
    present.sort();
    present.dedup();
    let index = held::build(&column, [63, 400, 400]).unwrap();
    let room = (levels * present.len() as u32).min(plain::most_room(levels));
    let mut words = fresh(levels, room, 0);
    let (mut ids, mut wasted) = (vec![0; column.len()], 0);
    for _ in 0..rounds(1500) {
        let low = dice.below(1 << levels) as u32;
        let high = (low + dice.below(300) as u32).min((1 << levels) - 1);
        let mut out = [7; 6];
        let number = unsafe {
            face::mgz_guarded_search(
                words.as_mut_ptr(),
                words.len(),
                column.as_ptr(),
                column.len(),
                index.borders.as_ptr(),
                index.borders.len(),
                index.imprints.as_ptr(),
                index.imprints.len(),
                index.dictionary.as_ptr(),
                index.dictionary.len(),
                low,
                high,
                ids.as_mut_ptr(),
                ids.len(),
                out.as_mut_ptr(),
            )
        };
        assert_eq!(number, 0);
        assert_ne!(out[0], 3, "not learnt");
        let scanned = plain::scan(&column, low as i32, high as i32);
        assert_eq!(ids[..out[2] as usize], scanned);
        wasted += (out[0] == 2) as usize;
    }
    assert!(wasted <= present.len() + 1, "{wasted} wasted looks, {} keys", present.len());
}
