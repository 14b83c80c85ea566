//! Seeded inputs: columns of every shape, ranges that touch their edges, and damage.
use crate::held::{case, Word};
use crate::plain::{self, Filter, Index, Told, COUNT, FAULT, REPEAT};

/// Marsaglia's xorshift.
pub struct Dice(u64);

impl Dice {
    /// The same for the same salt, unless `MGZ_SEED` says otherwise.
    pub fn new(salt: u64) -> Dice {
        let seed: u64 = std::env::var("MGZ_SEED").map_or(1, |s| s.parse().expect("MGZ_SEED"));
        let mut dice = Dice(seed.wrapping_mul(0x9E37_79B9_7F4A_7C15) ^ (salt + 1).wrapping_mul(0xD1B5_4A32_D192_ED03) | 1);
        (0..8).for_each(|_| _ = dice.word());
        dice
    }

    pub fn word(&mut self) -> u64 {
        self.0 ^= self.0 << 13;
        self.0 ^= self.0 >> 7;
        self.0 ^= self.0 << 17;
        self.0
    }

    /// Below `n`.
    pub fn below(&mut self, n: usize) -> usize {
        ((self.word() >> 11) % n as u64) as usize
    }

    pub fn one_in(&mut self, n: usize) -> bool {
        self.below(n) == 0
    }

    pub fn of<T: Copy>(&mut self, all: &[T]) -> T {
        all[self.below(all.len())]
    }

    pub fn shuffle<T>(&mut self, all: &mut [T]) {
        for i in (1..all.len()).rev() {
            let j = self.below(i + 1);
            all.swap(i, j);
        }
    }
}

/// How often a test repeats: `few` times, or that times `MGZ_ROUNDS`.
pub fn rounds(few: usize) -> usize {
    let times: usize = std::env::var("MGZ_ROUNDS").map_or(1, |s| s.parse().expect("MGZ_ROUNDS"));
    few * times
}

pub const LENGTHS: [usize; 24] =
    [0, 1, 2, 15, 16, 17, 31, 32, 33, 47, 48, 61, 64, 65, 100, 992, 1025, 2047, 2048, 2049, 4095, 4096, 4097, 5000];

/// A fault, the smallest readings, the greatest ones, and those around 0.
pub const EXTREMES: [i32; 9] = [FAULT, FAULT + 1, FAULT + 2, -1, 0, 1, i32::MAX - 2, i32::MAX - 1, i32::MAX];

/// Ranges that begin or end at the smallest value, or just above it.
pub const LOWEST: [(i32, i32); 8] = [
    (FAULT, FAULT),
    (FAULT, FAULT + 1),
    (FAULT, -1),
    (FAULT, i32::MAX - 1),
    (FAULT, i32::MAX),
    (FAULT + 1, FAULT + 1),
    (FAULT + 1, 0),
    (FAULT + 1, i32::MAX),
];

pub const SHAPES: usize = 21;
/// From this shape on there are faults; before it only an extreme value can be one.
const FIRST_WITH_FAULTS: usize = 16;

/// A column of this length and shape.
pub fn column(dice: &mut Dice, length: usize, shape: usize) -> Vec<i32> {
    let different = |dice: &mut Dice, d: usize| -> Vec<i32> {
        // From a fault on there is one different reading less.
        let from = dice.of(&[FAULT, FAULT + 1, -31, 0, i32::MAX - 300]);
        let mut values: Vec<i32> = (0..length).map(|i| from + 3 * (i % d) as i32).collect();
        dice.shuffle(&mut values);
        values
    };
    match shape {
        0 => vec![dice.of(&EXTREMES); length],
        1 => (0..length as i32).collect(),
        2 => (0..length as i32).rev().collect(),
        3 => {
            let mut values: Vec<i32> = (0..length as i32).collect();
            dice.shuffle(&mut values);
            values
        }
        4 => (0..length).map(|_| dice.below(5) as i32 * 7 - 14).collect(),
        5 => different(dice, 61),
        6 => different(dice, 62),
        7 => different(dice, 63),
        8 => different(dice, 64),
        9 => (0..length).map(|_| dice.of(&EXTREMES)).collect(),
        10 => drifting(dice, length),
        11 => (0..length).map(|_| dice.word() as i32).collect(),
        12 => {
            let mut values: Vec<i32> = (0..length).map(|_| dice.word() as i32).collect();
            values.sort();
            values
        }
        13 => {
            let (mut values, mut value) = (Vec::new(), 0);
            for _ in 0..length {
                if dice.one_in(40) {
                    value = dice.below(9) as i32 - 4;
                }
                values.push(value);
            }
            values
        }
        14 => (0..length).map(|i| if i / 16 % 3 == 0 { 9 } else { -9 }).collect(),
        15 => {
            // Long stretches of one imprint, then single odd lines.
            let odd: Vec<bool> = (0..length / 16 + 1).map(|_| dice.one_in(6)).collect();
            (0..length).map(|i| if odd[i / 16] { dice.below(90) as i32 } else { 100 }).collect()
        }
        16 => vec![FAULT; length],
        17 => {
            let readings = drifting(dice, length);
            with_faults(dice, readings)
        }
        18 => {
            let shape = dice.below(FIRST_WITH_FAULTS);
            let readings = column(dice, length, shape);
            with_faults(dice, readings)
        }
        _ => {
            // Rows that the sample takes (of a long column) are faults, or all others are.
            let stride = plain::stride(length).max(2);
            (0..length).map(|i| if (i % stride == 0) == (shape == 19) { FAULT } else { dice.below(70) as i32 }).collect()
        }
    }
}

/// Every length with every shape; `f` gets a column.
pub fn every_column(salt: u64, mut f: impl FnMut(&mut Dice, Vec<i32>)) {
    for round in 0..rounds(1) {
        for length in LENGTHS {
            for shape in 0..SHAPES {
                let mut dice = Dice::new(salt + 1000 * round as u64 + (length * 100 + shape) as u64);
                let column = column(&mut dice, length, shape);
                case(format!("round {round}, length {length}, shape {shape}"));
                f(&mut dice, column);
            }
        }
    }
}

/// Minutes, each some rows long; now and then the clock goes back and minutes come twice.
pub fn drifting(dice: &mut Dice, length: usize) -> Vec<i32> {
    let (mut values, mut minute) = (Vec::new(), 1000);
    while values.len() < length {
        for _ in 0..dice.below(4) + 1 {
            values.push(minute);
        }
        minute += if dice.one_in(50) { -20 } else { 1 };
    }
    values.truncate(length);
    values
}

/// Of the lines, the last one like any other, some become faults altogether, some get one, some get several, and some stay.
pub fn with_faults(dice: &mut Dice, mut column: Vec<i32>) -> Vec<i32> {
    for line in column.chunks_mut(plain::ROWS_PER_LINE) {
        match dice.below(4) {
            0 => line.fill(FAULT),
            1 => line[dice.below(line.len())] = FAULT,
            2 => line.iter_mut().filter(|_| dice.one_in(3)).for_each(|v| *v = FAULT),
            _ => (),
        }
    }
    column
}

/// Borders of which the smallest value is the first: alone, beside the next value, among others, and 63 of them.
pub fn borders_from_the_smallest(dice: &mut Dice, column: &[i32]) -> Vec<i32> {
    let mut above = match dice.below(6) {
        0 => vec![],
        1 => vec![FAULT + 1],
        2 => vec![dice.of(&[FAULT + 2, -9, 0, 9, 100, i32::MAX])],
        3 => (1..63).map(|i| FAULT + i).collect(),
        4 => {
            let from = dice.of(&[-31, 0, 1000]);
            (from..from + 62).collect()
        }
        _ => plain::borders(column),
    };
    above.push(FAULT);
    above.sort();
    above.dedup();
    above.truncate(63);
    above
}

/// An end of a range: near a value, near a border, or near an edge.
pub fn end(dice: &mut Dice, column: &[i32], borders: &[i32]) -> i32 {
    let near = dice.below(3) as i32 - 1;
    match dice.below(5) {
        0 => dice.of(&EXTREMES),
        1 | 2 if !column.is_empty() => dice.of(column).wrapping_add(near),
        3 if !borders.is_empty() => dice.of(borders).wrapping_add(near),
        4 => dice.word() as i32,
        _ => near,
    }
}

/// Mostly low to high, now and then from the smallest value up, or the wrong way round.
pub fn range(dice: &mut Dice, column: &[i32], borders: &[i32]) -> (i32, i32) {
    let (a, b) = (end(dice, column, borders), end(dice, column, borders));
    match dice.below(8) {
        0 => (a, b),
        1 => (FAULT, b),
        2 => dice.of(&LOWEST),
        _ => (a.min(b), a.max(b)),
    }
}

pub fn key_range(dice: &mut Dice, keys: u32) -> (u32, u32) {
    let far = |dice: &mut Dice| match dice.below(40) {
        0 => keys,
        1 => u32::MAX - dice.below(2) as u32,
        _ => dice.below(keys as usize) as u32,
    };
    let (a, b) = (far(dice), far(dice));
    if dice.one_in(16) {
        (a, b)
    } else {
        (a.min(b), a.max(b))
    }
}

/// A space that is too short, exactly long enough, or longer than needed.
pub fn space(dice: &mut Dice, needed: usize) -> usize {
    match dice.below(6) {
        0 => 0,
        1 => needed.saturating_sub(1),
        2 => dice.below(needed + 1),
        3 => needed,
        4 => needed + 1,
        _ => needed + 20,
    }
}

fn spot<T>(dice: &mut Dice, all: &mut [T]) -> Option<usize> {
    (!all.is_empty()).then(|| dice.below(all.len()))
}

pub const INDEX_DAMAGES: usize = 18;
/// From this damage on it is the borders that are damaged.
pub const FIRST_OF_BORDERS: usize = 13;

/// One damage to an index. It may still be a packed form afterwards: the plain implementation knows.
pub fn damage(dice: &mut Dice, index: &mut Index, kind: usize) {
    let Index { borders, imprints, dictionary } = index;
    let (b, i, d) = (spot(dice, borders), spot(dice, imprints), spot(dice, dictionary));
    let bins = borders.len() + 1;
    match kind {
        0 => i.into_iter().for_each(|i| imprints[i] ^= 1 << dice.below(64)),
        1 => i.into_iter().for_each(|i| imprints[i] ^= 1 << dice.below(bins.min(64))),
        2 => i.into_iter().for_each(|i| imprints[i] = 0),
        3 => i.into_iter().for_each(|i| imprints[i] = imprints[i.saturating_sub(1)]),
        4 => d.into_iter().for_each(|d| dictionary[d] ^= 1 << dice.below(25)),
        5 => d.into_iter().for_each(|d| dictionary[d] ^= 1 << (25 + dice.below(7))),
        6 => d.into_iter().for_each(|d| dictionary[d] = dictionary[d].wrapping_add(1)),
        7 => d.into_iter().for_each(|d| dictionary[d] = dice.of(&[0, REPEAT, REPEAT + 1, COUNT, u32::MAX])),
        8 => d.into_iter().for_each(|d| dictionary.swap(d, 0)),
        9 => i.into_iter().for_each(|i| imprints.swap(i, 0)),
        10 => _ = if dice.one_in(2) { imprints.pop().is_some() } else { dictionary.pop().is_some() },
        11 => {
            if dice.one_in(2) {
                imprints.push(1)
            } else {
                dictionary.push(dice.of(&[0, 1, REPEAT + 2]))
            }
        }
        12 => split_entry(dice, dictionary, imprints),
        13 => b.into_iter().for_each(|b| borders[b] = dice.word() as i32),
        14 => b.into_iter().for_each(|b| borders.swap(b, 0)),
        15 => b.into_iter().for_each(|b| borders[b] = borders[b.saturating_sub(1)]),
        16 => borders.first_mut().into_iter().for_each(|first| *first = FAULT),
        _ => {
            if dice.one_in(2) {
                borders.pop();
            } else {
                let from = borders.last().copied().unwrap_or(0);
                let to = dice.of(&[borders.len() + 1, 63, 64, 65]);
                (borders.len()..to).for_each(|i| borders.push(from.saturating_add(i as i32)));
            }
        }
    }
}

/// One entry as two that stand for the same lines.
fn split_entry(dice: &mut Dice, dictionary: &mut Vec<u32>, imprints: &mut Vec<u64>) {
    let Some(at) = spot(dice, dictionary) else {
        return;
    };
    let (count, mark) = (dictionary[at] & COUNT, dictionary[at] & REPEAT);
    if count < 2 {
        return;
    }
    let first = 1 + dice.below(count as usize - 1) as u32;
    let kept: u32 = dictionary[..at].iter().map(|e| if e & REPEAT == 0 { e & COUNT } else { 1 }).sum();
    dictionary[at] = mark + first;
    dictionary.insert(at + 1, mark + count - first);
    if mark != 0 && (kept as usize) < imprints.len() {
        imprints.insert(kept as usize, imprints[kept as usize]);
    }
}

/// An index that is not the column's own, or not an index at all.
pub fn strange_index(dice: &mut Dice, column: &[i32]) -> Index {
    let mut index = match dice.below(5) {
        0 => {
            let shape = dice.below(SHAPES);
            plain::index(&self::column(dice, column.len(), shape))
        }
        1 => {
            let length = dice.of(&[column.len() + 1, column.len() + 16, column.len() / 2]);
            let shape = dice.below(SHAPES);
            plain::index(&self::column(dice, length, shape))
        }
        2 => plain::carried(column, &borders_from_the_smallest(dice, column)),
        _ => plain::index(column),
    };
    for _ in 0..dice.below(3) {
        let kind = dice.below(INDEX_DAMAGES);
        damage(dice, &mut index, kind);
    }
    index
}

/// The index in an imprint and a dictionary space of these lengths: stale words behind it, or what fits where the space is shorter.
pub fn in_spaces(index: &Index, spaces: [usize; 2]) -> Told {
    Told {
        borders: index.borders.clone(),
        imprints: in_space(&index.imprints, spaces[0]),
        imprints_told: index.imprints.len() as u64,
        dictionary: in_space(&index.dictionary, spaces[1]),
        dictionary_told: index.dictionary.len() as u64,
    }
}

fn in_space<T: Word>(words: &[T], space: usize) -> Vec<T> {
    let behind = (words.len()..space).map(T::stale);
    words.iter().copied().take(space).chain(behind).collect()
}

/// Words of a filter with free words behind the tree and `extra` ones behind the formula, never zero by chance alone.
pub fn filter_words(dice: &mut Dice, filter: &Filter, extra: usize) -> Vec<u32> {
    let mut words = filter.layout();
    let all = plain::filter_words(filter.room) as usize + extra;
    while words.len() < all {
        words.push(dice.of(&[0, 1, 2, 3, 4, 7, u32::MAX, 1 << 20]));
    }
    words
}

pub const FILTER_DAMAGES: usize = 12;

/// One damage to filter words. They may still mean a filter afterwards: the plain implementation knows.
pub fn damage_filter(dice: &mut Dice, words: &mut Vec<u32>, kind: usize) {
    let used = words.len().min(12);
    let tree = 3 + dice.below(used.max(4) - 3);
    if words.len() <= tree {
        words.clear();
        return;
    }
    match kind {
        0 if dice.one_in(20) => words[0] = 20,
        0 => words[0] = dice.of(&[0, 1, 2, 3, 9, 21, 32, 33, u32::MAX]),
        1 => words[0] = words[0].wrapping_add(dice.of(&[1, u32::MAX])),
        2 => words[1] = dice.of(&[0, 1, 2, 3, 4095, 4096, 1 << 31, u32::MAX]),
        3 if dice.one_in(2) => words[1] = plain::most_room(words[0]) + dice.below(2) as u32,
        3 => words[1] = words[1].wrapping_add(dice.of(&[1, u32::MAX])),
        4 => words[2] = dice.of(&[1, 2, 1 << 19, 1 << 20, u32::MAX]),
        5 => words[2] = 1u32.wrapping_shl(words[0]).wrapping_sub(dice.below(2) as u32),
        6 => words[tree] ^= 1 << dice.below(32),
        7 => words[tree] = dice.below(2) as u32,
        8 => words[tree] = words[tree].wrapping_add(dice.of(&[1, 2, u32::MAX, u32::MAX - 1])),
        9 => words[tree] = dice.below(12) as u32,
        10 => words.truncate(dice.below(words.len() + 1)),
        _ => {
            let other = 3 + dice.below(used - 3);
            words.swap(tree, other);
        }
    }
}
