//! The filter's calls, held against the plain implementation.
use outside_tests::inputs::{self, rounds, Dice};
use outside_tests::plain::{self, Filter};
use outside_tests::{face, held};

/// A filter that remembers this set of keys, bit by bit.
fn filter(levels: u32, room: u32, hand: u32, set: u64) -> Filter {
    let empty = (0..1 << levels).map(|key| set >> key & 1 == 1).collect();
    Filter { levels, room, hand, empty }
}

#[test]
fn formula() {
    for room in (0..=4095).chain([4096, 1 << 16, 1 << 31, u32::MAX]) {
        held::formula(room);
        if room <= 4095 {
            assert!(unsafe { face::mgz_filter_words(room) } <= 8 * room as u64 + 256);
        }
    }
}

#[test]
fn fresh() {
    for levels in (0..=22).chain([31, 32, 33, 1 << 31, u32::MAX]) {
        let most = plain::most_room(levels);
        let rooms = [0, 1, 2, 15, 16, most.saturating_sub(1), most, most + 1, most + 2, 4094, 4095, 4096, 5000, 1 << 31, u32::MAX];
        for room in rooms {
            let needed = plain::filter_words(room.min(4095)) as usize;
            for length in [0, 1, 3, needed - 1, needed, needed + 1, needed + 30] {
                held::case(format!("levels {levels}, room {room}, {length} words"));
                let mut words: Vec<u32> = (0..length as u32).map(|i| i.wrapping_mul(77)).collect();
                if held::fresh(levels, room, &mut words).is_ok() && levels < 14 {
                    assert_eq!(held::read(&words).unwrap(), [levels as u64, room as u64, 0, 0]);
                }
            }
        }
    }
}

/// Room 15 at 4 levels is taken and can be used, 16 isn't taken, nor what a fitter set up who swapped the settings; 6 comes before 11, and 11 before 4.
#[test]
fn swapped_settings() {
    let number = |levels, room, length| held::fresh(levels, room, &mut vec![7; length]).err().map_or(0, |no| no.number);
    let wanted =
        [(4, 15, 0), (4, 16, 11), (4, 4095, 11), (1, 1, 0), (1, 2, 11), (11, 2047, 0), (11, 2048, 11), (12, 4095, 0), (20, 4096, 11)];
    for (levels, room, wanted) in wanted {
        assert_eq!(number(levels, room, 8200), wanted, "levels {levels}, room {room}");
    }
    assert_eq!([number(0, 1, 8200), number(0, 4096, 0), number(21, 4096, 0)], [6; 3]);
    assert_eq!([number(4, 16, 0), number(4, 15, 33), number(4, 15, 34)], [11, 4, 0]);
    let mut words = vec![7; 34];
    held::fresh(4, 15, &mut words).unwrap();
    for key in (1..16).step_by(2) {
        held::learn(&mut words, key, key).unwrap();
    }
    assert_eq!(held::read(&words), Ok([4, 15, 0, 15]));
}

/// Words laid out with a room that no tree of their levels can use are 8, everywhere, though they are long enough and their tree is a smallest one.
#[test]
fn words_with_an_unusable_room() {
    let column = vec![1; 20];
    let index = plain::index(&column);
    for levels in 1..=12 {
        let most = plain::most_room(levels);
        for room in [most, most + 1, 4095, 4096] {
            held::case(format!("levels {levels}, room {room}"));
            let words = [&[levels, room, 0, 3, 1, 0], [5; 8200].as_slice()].concat();
            let refused = [
                held::read(&words).err(),
                held::ask(&words, 0, 0).err(),
                held::learn(&mut words.clone(), 0, 1).err(),
                held::arrive(&mut words.clone(), 0).err(),
                held::depart(&words, 0).err(),
                held::forget(&mut words.clone()).err(),
                held::guarded(&mut words.clone(), &column, &index, 0, 1, 20).err(),
            ];
            let wanted = (most < room).then_some(plain::No::of(8));
            assert!(refused.iter().all(|no| *no == wanted), "levels {levels}, room {room}: {refused:?}");
        }
    }
}

/// Every set of keys up to three levels, with every hand, every range and key, and little room.
#[test]
fn every_small_set() {
    let mut dice = Dice::new(20);
    for levels in 1..=3u32 {
        let keys = 1u32 << levels;
        for set in 0..1u64 << keys {
            let splits = plain::splits(&filter(levels, 0, 0, set).empty) as u32;
            for room in [splits, (splits + 1).min(keys - 1), keys - 1] {
                let hand = dice.below(keys as usize) as u32;
                let words = inputs::filter_words(&mut dice, &filter(levels, room, hand, set), 2);
                held::case(format!("levels {levels}, set {set:b}, room {room}, hand {hand}"));
                held::read(&words).unwrap();
                for low in 0..keys + 1 {
                    for high in 0..keys + 1 {
                        _ = held::ask(&words, low, high);
                        _ = held::learn(&mut words.clone(), low, high);
                    }
                    _ = held::arrive(&mut words.clone(), low);
                    _ = held::depart(&words, low);
                }
            }
            for hand in 0..keys {
                held::case(format!("levels {levels}, set {set:b}, hand {hand}"));
                let words = inputs::filter_words(&mut dice, &filter(levels, splits, hand, set), 0);
                _ = held::forget(&mut words.clone());
            }
        }
    }
}

/// Acceptance of every short run of tree words, for one and two levels.
#[test]
fn every_small_layout() {
    let mut accepted = 0;
    for levels in 1..=2 {
        for room in 0..=3u32 {
            let length = 2 * room as usize + 1;
            let values = if room == 3 { 6usize } else { 7 };
            for code in 0..values.pow(length as u32) {
                let mut words = vec![levels, room, 1];
                words.extend((0..length).map(|i| (code / values.pow(i as u32) % values) as u32));
                held::case(format!("words {words:?}"));
                accepted += held::read(&words).is_ok() as usize;
            }
        }
    }
    assert!(1000 < accepted, "{accepted}");
}

/// One call at random, mostly a good one.
fn any_call(dice: &mut Dice, words: &mut Vec<u32>, keys: u32) -> u32 {
    let (low, high) = inputs::key_range(dice, keys);
    let number = |no: plain::No| no.number;
    match dice.below(12) {
        0..=2 => held::learn(words, low, high).err().map_or(0, number),
        3 => {
            let high = low.saturating_add(dice.below(3) as u32);
            held::learn(words, low, high).err().map_or(0, number)
        }
        4..=5 => held::ask(words, low, high).err().map_or(0, number),
        6 => held::ask(words, low, low).err().map_or(0, number),
        7 => held::arrive(words, low).err().map_or(0, number),
        8 => held::depart(words, high).err().map_or(0, number),
        9..=10 => held::forget(words).err().map_or(0, number),
        _ => held::read(words).err().map_or(0, number),
    }
}

#[test]
fn sequences() {
    let mut seen = [0; 13];
    for round in 0..rounds(500) {
        let mut dice = Dice::new(30_000 + round as u64);
        let levels = 1 + dice.below(8) as u32;
        let room = dice.of(&[0, 1, levels, 2 * levels, 3 * levels, 255]).min(plain::most_room(levels));
        let mut words = vec![5; plain::filter_words(room) as usize + dice.below(3)];
        held::fresh(levels, room, &mut words).unwrap();
        for call in 0..80 {
            held::case(format!("round {round}, call {call}, levels {levels}, room {room}"));
            let number = any_call(&mut dice, &mut words, 1 << levels);
            assert_ne!(number, 8, "words left by a fresh filter and calls are never refused");
            seen[number as usize] += 1;
        }
    }
    for (number, times) in seen.iter().enumerate() {
        assert_eq!([0, 1, 7, 9, 10].contains(&number), *times != 0, "number {number} came {times} times");
    }
}

#[test]
fn damaged_words() {
    let (mut refused, mut taken) = (0, 0);
    for round in 0..rounds(20_000) {
        let mut dice = Dice::new(1_000_000 + round as u64);
        let levels = 1 + dice.below(5) as u32;
        let set = dice.word() & dice.word() | dice.word() << dice.below(64);
        let hand = dice.below(1 << levels) as u32;
        let mut filter = filter(levels, 0, hand, set);
        let splits = plain::splits(&filter.empty) as u32;
        filter.room = splits + dice.below(3) as u32;
        let extra = dice.below(3);
        let mut words = inputs::filter_words(&mut dice, &filter, extra);
        for _ in 0..1 + dice.below(2) {
            let kind = dice.below(inputs::FILTER_DAMAGES);
            inputs::damage_filter(&mut dice, &mut words, kind);
        }
        held::case(format!("round {round}, levels {levels}, set {set:b}, words {words:?}"));
        let keys = 1 << levels;
        for _ in 0..2 {
            if any_call(&mut dice, &mut words, keys) == 8 {
                refused += 1;
            } else {
                taken += 1;
            }
        }
    }
    assert!(1000 < refused && 1000 < taken, "{refused} refused, {taken} taken");
}

/// The widest keys and the largest room: a comb of single keys until the room is full.
#[test]
fn largest_filter() {
    let mut dice = Dice::new(40);
    for levels in [12, 20] {
        let keys = 1u32 << levels;
        let mut words = vec![0; plain::filter_words(4095) as usize + 3];
        held::fresh(levels, 4095, &mut words).unwrap();
        let step = if levels == 12 { 2 } else { 3001 };
        let mut key = 1;
        // The library alone builds the comb; then it is held against the plain one.
        while key < keys {
            let number = unsafe { face::mgz_filter_learn(words.as_mut_ptr(), words.len(), key, key) };
            assert!(number == 0 || number == 9);
            key += step;
        }
        let splits = held::read(&words).unwrap()[3];
        assert!(4070 < splits, "{splits}");
        for call in 0..rounds(12) {
            held::case(format!("levels {levels}, full tree, call {call}"));
            any_call(&mut dice, &mut words, keys);
            _ = held::learn(&mut words, keys - 1, keys - 1);
            _ = held::ask(&words, 1, 1);
        }
    }
}
