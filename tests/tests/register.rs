//! The hour register, document 02's request 103, held against the plain implementation; and its theorems, of what the library answers.
use outside_tests::face::mgz_register;
use outside_tests::held::{self, Numbers};
use outside_tests::inputs::{self, rounds, Dice, LENGTHS};
use outside_tests::mapped::Sparse;
use outside_tests::plain::{self, Entry, No, FAULT};
use std::collections::HashMap;

const SHAPES: usize = 14;

/// Minutes of this shape. None is negative.
fn minutes(dice: &mut Dice, length: usize, shape: usize) -> Vec<i32> {
    let rows = 0..length as i32;
    match shape {
        0 => vec![dice.of(&[0, 59, 60, 150, i32::MAX]); length],
        1 => rows.collect(),
        2 => rows.rev().collect(),
        3 => inputs::drifting(dice, length),
        // The clock goes back an hour whenever five have gone by.
        4 => rows.map(|row| row - row / 300 * 60).collect(),
        5 => rows.map(|row| row % 2 * 60).collect(),
        6 => rows.rev().map(|row| row * 60).collect(),
        7 => {
            let mut hours: Vec<i32> = rows.map(|row| row * 60 + 30).collect();
            dice.shuffle(&mut hours);
            hours
        }
        8 => rows.map(|_| dice.below(60) as i32).collect(),
        9 => rows.map(|_| dice.below(180) as i32).collect(),
        10 => rows.map(|_| dice.below(1 << 31) as i32).collect(),
        11 => rows.map(|_| 60 * dice.below(4) as i32 + dice.of(&[0, 1, 58, 59])).collect(),
        12 => rows.map(|_| dice.of(&[0, 1, 59, 60, i32::MAX - 8, i32::MAX - 7, i32::MAX - 1, i32::MAX])).collect(),
        _ => {
            // Some rows in a minute, some minutes in an hour, and then any hour.
            let mut minute = 0;
            let next = |_| {
                minute = if dice.one_in(9) { dice.below(600) as i32 } else { minute + dice.below(2) as i32 };
                minute
            };
            rows.map(next).collect()
        }
    }
}

/// Every length with every shape.
fn every_minutes(salt: u64, mut f: impl FnMut(&mut Dice, Vec<i32>)) {
    for round in 0..rounds(1) {
        for length in LENGTHS {
            for shape in 0..SHAPES {
                let mut dice = Dice::new(salt + 1000 * round as u64 + (length * 100 + shape) as u64);
                let minutes = minutes(&mut dice, length, shape);
                held::case(format!("round {round}, length {length}, shape {shape}"));
                f(&mut dice, minutes);
            }
        }
    }
}

/// The entries, each as its four words, in a space that is just long enough.
fn register(minutes: &[i32]) -> Vec<[u32; 4]> {
    let needed = 4 * plain::first_rows(minutes).len();
    held::register(minutes, needed).unwrap().into_iter().map(Entry::words).collect()
}

#[test]
fn no_rows_and_one() {
    assert!(register(&[]).is_empty());
    assert_eq!(held::register(&[], 9), Ok(vec![]));
    assert_eq!(register(&[0]), [[0, 0, 0, 1]]);
    assert_eq!(register(&[59]), [[0, 0, 0, 1]]);
    assert_eq!(register(&[60]), [[1, 0, 0, 1]]);
    assert_eq!(register(&[i32::MAX]), [[35_791_394, 0, 0, 1]]);
}

#[test]
fn equal_minutes_stay_together() {
    assert_eq!(register(&[150; 7]), [[2, 0, 0, 7]]);
    assert_eq!(register(&[150, 150, 151, 151, 151]), [[2, 0, 0, 5]]);
    assert_eq!(register(&[179, 179, 180, 180]), [[2, 0, 0, 2], [3, 0, 2, 2]]);
}

/// 02:00 to 02:30, then the clock goes back to 02:10: the second 02:30 is in the second entry.
#[test]
fn the_clock_goes_back_within_the_hour() {
    let minutes: Vec<i32> = (120..=150).chain(130..180).collect();
    assert_eq!(register(&minutes), [[2, 0, 0, 31], [2, 1, 31, 50]]);
    assert_eq!(register(&[150, 149]), [[2, 0, 0, 1], [2, 1, 1, 1]]);
    assert_eq!(register(&[150, 151, 150, 150, 151]), [[2, 0, 0, 2], [2, 1, 2, 3]]);
}

/// At 03:00 the clock goes back to 02:00.
#[test]
fn the_clock_goes_back_an_hour() {
    let minutes: Vec<i32> = (0..180).chain(120..240).collect();
    assert_eq!(register(&minutes), [[0, 0, 0, 60], [1, 0, 60, 60], [2, 0, 120, 60], [2, 1, 180, 60], [3, 0, 240, 60]]);
}

/// If the clock went back between the two rows of 02:30, no smaller minute shows it.
#[test]
fn a_step_back_that_no_minute_shows() {
    assert_eq!(register(&[120, 150, 150, 179]), [[2, 0, 0, 4]]);
}

#[test]
fn hours_alternate() {
    let minutes: Vec<i32> = (0..100).map(|row| row % 2 * 60).collect();
    let wanted: Vec<[u32; 4]> = (0..100).map(|row| [row % 2, row / 2, row, 1]).collect();
    assert_eq!(register(&minutes), wanted);
}

#[test]
fn hours_fall() {
    assert_eq!(register(&[180, 120, 60, 0]), [[3, 0, 0, 1], [2, 0, 1, 1], [1, 0, 2, 1], [0, 0, 3, 1]]);
    assert_eq!(register(&[180, 60, 180, 120]), [[3, 0, 0, 1], [1, 0, 1, 1], [3, 1, 2, 1], [2, 0, 3, 1]]);
}

/// Hour 2 is passed over at first.
#[test]
fn an_hour_is_returned_to() {
    let minutes = [0, 60, 61, 180, 70, 200, 120, 65, 130];
    let wanted = [[0, 0, 0, 1], [1, 0, 1, 2], [3, 0, 3, 1], [1, 1, 4, 1], [3, 1, 5, 1], [2, 0, 6, 1], [1, 2, 7, 1], [2, 1, 8, 1]];
    assert_eq!(register(&minutes), wanted);
}

/// Hour 35791394 has eight minutes only.
#[test]
fn greatest_minute() {
    const MAX: i32 = i32::MAX;
    let wanted = [[35_791_393, 0, 0, 1], [35_791_394, 0, 1, 2], [35_791_394, 1, 3, 3], [0, 0, 6, 1], [35_791_394, 2, 7, 1]];
    assert_eq!(register(&[MAX - 8, MAX - 7, MAX, MAX - 1, MAX, MAX, 0, MAX]), wanted);
}

/// Hours that differ in one bit, or by a power of two, are different ones.
#[test]
fn hours_far_apart() {
    for bit in 0..26 {
        for hour in [0, 5, (1 << bit) - 1, 2_236_962] {
            let far = hour + (1 << bit);
            held::case(format!("hours {hour} and {far}"));
            if far <= 35_791_394 {
                let minutes = [hour, far, hour, far, far].map(|hour| 60 * hour);
                let [hour, far] = [hour, far].map(|hour| hour as u32);
                assert_eq!(register(&minutes), [[hour, 0, 0, 1], [far, 0, 1, 1], [hour, 1, 2, 1], [far, 1, 3, 2]]);
            }
        }
    }
}

/// The first negative row is told, whatever follows it.
#[test]
fn negative_minutes() {
    for negative in [-1, -59, -60, -61, FAULT + 1, FAULT] {
        for length in [1, 2, 15, 16, 17, 100, 1000] {
            for row in [0, length / 2, length - 1] {
                held::case(format!("{negative} in row {row} of {length}"));
                let mut minutes: Vec<i32> = (0..length as i32).collect();
                minutes[row] = negative;
                assert_eq!(held::register(&minutes, 4 * length), Err(No::negative(row)));
                for later in [row + 1, length - 1] {
                    minutes[later.min(length - 1)] = -1;
                }
                assert_eq!(held::register(&minutes, 4 * length), Err(No::negative(row)));
                minutes[row..].fill(FAULT);
                assert_eq!(held::register(&minutes, 4 * length), Err(No::negative(row)));
            }
        }
    }
}

/// Too short by one word, by an entry, by all; just long enough; longer. The length needed is in words.
#[test]
fn spaces() {
    let mut numbers = Numbers::default();
    every_minutes(301, |dice, minutes| {
        let needed = 4 * plain::first_rows(&minutes).len();
        let any = inputs::space(dice, needed);
        for space in [0, 1, 3, 4, needed.saturating_sub(4), needed.saturating_sub(1), needed, needed + 1, needed + 20, any] {
            let answer = held::register(&minutes, space);
            numbers.count(&answer);
            assert_eq!(answer.err(), (space < needed).then(|| No::short(needed)));
        }
    });
    numbers.seen(&[0, 4]);
}

/// 2, 13, 4: each stands before all that follow.
#[test]
fn order_of_checks() {
    let mut long = Sparse::of(plain::ROWS_AT_MOST + 1);
    assert_eq!(held::register(&long, 0), Err(No::of(2)));
    assert_eq!(held::register(&long, 8), Err(No::of(2)));
    long[5] = -1;
    assert_eq!(held::register(&long, 0), Err(No::of(2)));
    assert_eq!(held::register(&long, 8), Err(No::of(2)));
    assert_eq!(held::register(&[90, 150, FAULT], 0), Err(No::negative(2)));
    assert_eq!(held::register(&[90, 150, -1], 7), Err(No::negative(2)));
    assert_eq!(held::register(&[90, -1, 150], 12), Err(No::negative(1)));
    assert_eq!(held::register(&[90, 150, 150], 0), Err(No::short(8)));
    assert_eq!(held::register(&[90, 150, 150], 7), Err(No::short(8)));
}

/// One row past document 01's longest column.
#[test]
fn long_column() {
    let mut minutes = vec![179; 16_777_217];
    assert_eq!(register(&minutes), [[2, 0, 0, 16_777_217]]);
    minutes[16_777_216] = 120;
    assert_eq!(register(&minutes), [[2, 0, 0, 16_777_216], [2, 1, 16_777_216, 1]]);
    assert_eq!(held::register(&minutes, 7), Err(No::short(8)));
    minutes[16_777_216] = -1;
    assert_eq!(held::register(&minutes, 8), Err(No::negative(16_777_216)));
}

/// The longest column is looked at, and one row more is not.
#[test]
fn longest_column() {
    let mut minutes = Sparse::of(4_294_967_296);
    minutes[9] = -1;
    assert_eq!(held::register(&minutes[..4_294_967_295], 8), Err(No::negative(9)));
    assert_eq!(held::register(&minutes, 8), Err(No::of(2)));
}

/// Every column of up to five rows over a negative minute and those at the edges of two hours.
#[test]
fn every_small_column() {
    const MINUTES: [i32; 7] = [-1, 0, 1, 59, 60, 61, 119];
    let mut numbers = Numbers::default();
    for length in 0..6 {
        for number in 0..7usize.pow(length) {
            let minutes: Vec<i32> = (0..length).map(|row| MINUTES[number / 7usize.pow(row) % 7]).collect();
            held::case(format!("{minutes:?}"));
            for space in [8, 4 * length as usize] {
                numbers.count(&held::register(&minutes, space));
            }
        }
    }
    numbers.seen(&[0, 4, 13]);
}

/// Everything chosen at random, a negative minute now and then.
#[test]
fn at_random() {
    let mut numbers = Numbers::default();
    let mut dice = Dice::new(302);
    for round in 0..rounds(6000) {
        let (length, shape) = (dice.below(200), dice.below(SHAPES));
        held::case(format!("random round {round}, length {length}, shape {shape}"));
        let mut minutes = minutes(&mut dice, length, shape);
        if dice.one_in(4) {
            let some = dice.below(40) + 1;
            minutes.iter_mut().filter(|_| dice.one_in(some)).for_each(|minute| *minute = !*minute);
        }
        let needed = 4 * plain::first_rows(&minutes).len();
        numbers.count(&held::register(&minutes, inputs::space(&mut dice, needed)));
    }
    numbers.seen(&[0, 4, 13]);
}

/// What the library answers, with nothing beside it.
fn answered(minutes: &[i32]) -> Vec<Entry> {
    let mut words = vec![0; 4 * minutes.len()];
    let mut out = [0; 3];
    let number = unsafe { mgz_register(minutes.as_ptr(), minutes.len(), words.as_mut_ptr(), words.len(), out.as_mut_ptr()) };
    assert_eq!(number, 0);
    words.truncate(4 * out[1] as usize);
    words.chunks(4).map(|word| Entry { hour: word[0], repeat: word[1], first_row: word[2], rows: word[3] }).collect()
}

/// In order, none of them empty, so that their counts add up to the column's length.
fn cover_every_row_once(minutes: &[i32], entries: &[Entry]) {
    let mut next = 0;
    for entry in entries {
        assert_eq!(entry.first_row, next);
        assert_ne!(entry.rows, 0);
        next += entry.rows;
    }
    assert_eq!(next as usize, minutes.len());
}

fn rows<'a>(minutes: &'a [i32], entry: &Entry) -> &'a [i32] {
    &minutes[entry.first_row as usize..][..entry.rows as usize]
}

fn are_one_hour_each(minutes: &[i32], entries: &[Entry]) {
    for entry in entries {
        let (from, to) = (60 * entry.hour as i64, 60 * entry.hour as i64 + 59);
        assert!(rows(minutes, entry).iter().all(|&minute| from <= minute as i64 && minute as i64 <= to), "{entry:?}");
        assert!(rows(minutes, entry).is_sorted(), "{entry:?}");
    }
}

fn neighbours_differ_or_the_minute_fell(minutes: &[i32], entries: &[Entry]) {
    for pair in entries.windows(2) {
        let row = pair[1].first_row as usize;
        assert!(pair[0].hour != pair[1].hour || minutes[row] < minutes[row - 1], "{pair:?}");
    }
}

/// Of every hour they are 0, 1, 2 .. in row order; so hour and repeat number name one entry.
fn repeats_count_up(entries: &[Entry]) {
    let mut hours: HashMap<u32, Vec<u32>> = HashMap::new();
    for entry in entries {
        hours.entry(entry.hour).or_default().push(entry.repeat);
    }
    for (hour, repeats) in hours {
        assert!(repeats.iter().copied().eq(0..repeats.len() as u32), "hour {hour}: {repeats:?}");
    }
}

/// A minute that comes again is in a later entry if a smaller one than before it came between; equal neighbours are in one entry.
fn the_second_is_later(minutes: &[i32], entries: &[Entry]) {
    let entry_of: Vec<usize> = entries.iter().enumerate().flat_map(|(number, entry)| vec![number; entry.rows as usize]).collect();
    let mut last: HashMap<i32, (usize, usize)> = HashMap::new();
    let mut falls = 0;
    for (row, &minute) in minutes.iter().enumerate() {
        falls += (0 < row && minute < minutes[row - 1]) as usize;
        if let Some((first, falls_before)) = last.insert(minute, (row, falls)) {
            assert!(falls == falls_before || entry_of[first] < entry_of[row], "rows {first} and {row}");
            assert!(first + 1 != row || entry_of[first] == entry_of[row], "rows {first} and {row}");
        }
    }
}

fn theorems(minutes: &[i32]) {
    let entries = answered(minutes);
    cover_every_row_once(minutes, &entries);
    are_one_hour_each(minutes, &entries);
    neighbours_differ_or_the_minute_fell(minutes, &entries);
    repeats_count_up(&entries);
    the_second_is_later(minutes, &entries);
}

#[test]
fn theorems_of_every_column() {
    every_minutes(303, |_, minutes| theorems(&minutes));
}

/// So many entries that a call which looks back over all earlier ones at each takes long enough to show.
#[test]
fn many_entries() {
    const ENTRIES: usize = 200_000;
    let mut dice = Dice::new(304);
    let mut shuffled: Vec<i32> = (0..ENTRIES as i32).map(|row| row / 3 * 60).collect();
    dice.shuffle(&mut shuffled);
    let falling = (0..ENTRIES as i32).rev().map(|row| row * 60).collect();
    let falling_in_one_hour = (0..ENTRIES as i32).map(|row| 59 - row % 2).collect();
    let alternating = (0..ENTRIES as i32).map(|row| row % 2 * 60).collect();
    let there_and_back = (0..ENTRIES as i32 / 2).chain((0..ENTRIES as i32 / 2).rev()).map(|row| row * 60).collect();
    for minutes in [shuffled, falling, falling_in_one_hour, alternating, there_and_back] {
        held::case(format!("many entries, from {:?}", &minutes[..3]));
        assert!(ENTRIES / 3 < register(&minutes).len());
        theorems(&minutes);
    }
}
