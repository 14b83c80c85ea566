//! Document 01, with what document 02 adds, said in plain Rust: slow, short, one function a sentence. Nothing here is taken from the proved
//! code.
use std::collections::HashMap;
use std::iter::repeat_n;

/// Request 107: the longest column, and its lines.
pub const ROWS_AT_MOST: usize = 4_294_967_295;
pub const LINES_AT_MOST: u64 = 268_435_456;
pub const ROWS_PER_LINE: usize = 16;
pub const ROOM_AT_MOST: u32 = 4_095;

/// Any answer but 0: its number, the length needed where the number is 4 (else 0), the row where it is 13 (else 0), and the block due where
/// it is 14 or 15 (else 0).
#[derive(Clone, Copy, Debug, PartialEq, Eq)]
pub struct No {
    pub number: u32,
    pub needed: u64,
    pub row: u64,
    pub block: u64,
}

impl No {
    pub fn of(number: u32) -> No {
        No { number, needed: 0, row: 0, block: 0 }
    }

    pub fn short(needed: usize) -> No {
        No { needed: needed as u64, ..No::of(4) }
    }

    pub fn negative(row: usize) -> No {
        No { row: row as u64, ..No::of(13) }
    }

    /// 14 or 15, with the block due.
    pub fn at(number: u32, block: u64) -> No {
        No { block, ..No::of(number) }
    }
}

fn no<T>(number: u32) -> Result<T, No> {
    Err(No::of(number))
}

fn short<T>(needed: usize) -> Result<T, No> {
    Err(No::short(needed))
}

// ---------------------------------------------------------------- bins and line imprints

pub fn lines(rows: usize) -> usize {
    rows.div_ceil(ROWS_PER_LINE)
}

/// Document 02, request 102: a dead probe sends the smallest value. It is no reading.
pub const FAULT: i32 = i32::MIN;

pub fn fault(v: i32) -> bool {
    v == FAULT
}

pub fn stride(rows: usize) -> usize {
    if rows <= 2048 {
        1
    } else {
        rows.div_ceil(2048)
    }
}

/// The stride counts every row; faults among the rows it meets are left out.
pub fn sample(column: &[i32]) -> Vec<i32> {
    column.iter().copied().step_by(stride(column.len())).filter(|&v| !fault(v)).collect()
}

pub fn borders(column: &[i32]) -> Vec<i32> {
    borders_of(sample(column))
}

pub fn borders_of(sample: Vec<i32>) -> Vec<i32> {
    let mut sorted = sample;
    sorted.sort();
    let mut different = sorted.clone();
    different.dedup();
    if different.len() <= 62 {
        return different;
    }
    let m = sorted.len();
    let mut chosen: Vec<i32> = (0..62).map(|i| sorted[i * m / 62]).collect();
    chosen.push(sorted[m - 1]);
    chosen.dedup();
    chosen
}

/// A fault lies in bin 0 whatever the borders, and so does a range's end that is the smallest value.
pub fn bin(borders: &[i32], v: i32) -> usize {
    if fault(v) {
        return 0;
    }
    borders.iter().filter(|&&b| b <= v).count()
}

pub fn imprint(borders: &[i32], line: &[i32]) -> u64 {
    let mut word = 0;
    for &v in line {
        word |= 1u64 << bin(borders, v);
    }
    word
}

pub fn line_imprints(column: &[i32], borders: &[i32]) -> Vec<u64> {
    column.chunks(ROWS_PER_LINE).map(|line| imprint(borders, line)).collect()
}

pub fn borders_good(borders: &[i32]) -> bool {
    borders.len() <= 63 && borders.windows(2).all(|w| w[0] < w[1])
}

// ---------------------------------------------------------------- the packed line dictionary

pub const REPEAT: u32 = 1 << 24;
pub const COUNT: u32 = REPEAT - 1;
/// The largest count that an entry's word has room for: such an entry is full.
pub const LARGEST: usize = COUNT as usize;

/// A word, and how often it stands there in a row.
pub type Run = (u64, usize);

/// One more word behind these runs, so many times.
fn push(runs: &mut Vec<Run>, word: u64, times: usize) {
    match runs.last_mut() {
        Some(last) if last.0 == word => last.1 += times,
        _ => runs.push((word, times)),
    }
}

/// The longest runs of equal words.
pub fn runs(list: &[u64]) -> Vec<Run> {
    let mut runs = Vec::new();
    list.iter().for_each(|&word| push(&mut runs, word, 1));
    runs
}

/// The words of these runs, one after the other.
pub fn each_word(runs: &[Run]) -> impl Iterator<Item = u64> + '_ {
    runs.iter().flat_map(|&(word, times)| repeat_n(word, times))
}

/// How many words there are in these runs.
fn length(runs: &[Run]) -> u64 {
    runs.iter().map(|run| run.1 as u64).sum()
}

/// The imprints kept and the dictionary of a list with these longest runs, where an entry counts to `largest`, 2 or more (request 107).
/// Neighbouring runs of one are gathered into plain entries, full ones first. A run of two or more becomes full repeat entries and one
/// entry for what is left; a line that is left alone is a plain entry of its own.
pub fn packing_of(largest: usize, runs: &[Run]) -> (Vec<u64>, Vec<u32>) {
    let (mut kept, mut dictionary) = (Vec::new(), Vec::new());
    for group in runs.chunk_by(|one, next| one.1 == 1 && next.1 == 1) {
        let (word, times) = group[0];
        if times == 1 {
            kept.extend(group.iter().map(|run| run.0));
            dictionary.extend(group.chunks(largest).map(|entry| entry.len() as u32));
            continue;
        }
        let (full, left) = (times / largest, times % largest);
        kept.extend(repeat_n(word, full));
        dictionary.extend(repeat_n(REPEAT + largest as u32, full));
        if left != 0 {
            kept.push(word);
            dictionary.push(if left == 1 { 1 } else { REPEAT + left as u32 });
        }
    }
    (kept, dictionary)
}

pub fn packing_with(largest: usize, list: &[u64]) -> (Vec<u64>, Vec<u32>) {
    packing_of(largest, &runs(list))
}

/// The imprints kept and the dictionary.
pub fn packing(list: &[u64]) -> (Vec<u64>, Vec<u32>) {
    packing_with(LARGEST, list)
}

/// Nonzero, and no bit at or above the number of bins.
pub fn fit(borders: &[i32], word: u64) -> bool {
    let bins = borders.len() as u32 + 1;
    word != 0 && word.checked_shr(bins).unwrap_or(0) == 0
}

/// What the words stand for, entry by entry, as longest runs; nothing where an imprint is wanting.
pub fn stood_for(imprints: &[u64], dictionary: &[u32]) -> Option<Vec<Run>> {
    let mut runs = Vec::new();
    let mut left = imprints;
    for &entry in dictionary {
        let count = (entry & COUNT) as usize;
        let kept = if entry & REPEAT == 0 { count } else { 1 };
        let (own, behind) = left.split_at_checked(kept)?;
        let times = if entry & REPEAT == 0 { 1 } else { count };
        own.iter().for_each(|&word| push(&mut runs, word, times));
        left = behind;
    }
    Some(runs)
}

/// The list of which these words are the packing, as longest runs: of fit words, one per line. There is none where 3 is due.
pub fn accepted_with(largest: usize, borders: &[i32], imprints: &[u64], dictionary: &[u32], lines: u64) -> Option<Vec<Run>> {
    let runs = stood_for(imprints, dictionary)?;
    let (kept, entries) = packing_of(largest, &runs);
    let good = kept == imprints && entries == dictionary && runs.iter().all(|run| fit(borders, run.0)) && length(&runs) == lines;
    good.then_some(runs)
}

pub fn accepted(borders: &[i32], imprints: &[u64], dictionary: &[u32], lines: u64) -> Option<Vec<Run>> {
    accepted_with(LARGEST, borders, imprints, dictionary, lines)
}

/// That list, word by word.
pub fn listed(borders: &[i32], imprints: &[u64], dictionary: &[u32], lines: u64) -> Option<Vec<u64>> {
    accepted(borders, imprints, dictionary, lines).map(|runs| each_word(&runs).collect())
}

#[derive(Clone, Copy, Debug, PartialEq, Eq)]
pub struct Position {
    pub entry: u64,
    pub place: u64,
    pub number: u64,
}

/// The imprint (none at the end) and the position after the step.
pub fn step(dictionary: &[u32], imprints: &[u64], at: Position) -> Result<(Option<u64>, Position), No> {
    let Position { entry, place, number } = at;
    if entry == dictionary.len() as u64 {
        return Ok((None, at));
    }
    if (dictionary.len() as u64) < entry {
        return no(3);
    }
    let word = dictionary[entry as usize];
    let count = (word & COUNT) as u64;
    if count <= place || (imprints.len() as u64) <= number {
        return no(3);
    }
    let last = place + 1 == count;
    let after = Position {
        entry: if last { entry + 1 } else { entry },
        place: if last { 0 } else { place + 1 },
        number: if last || word & REPEAT == 0 { number + 1 } else { number },
    };
    Ok((Some(imprints[number as usize]), after))
}

// ---------------------------------------------------------------- build, pack, unpack, range search

#[derive(Clone, Debug, Default, PartialEq, Eq)]
pub struct Index {
    pub borders: Vec<i32>,
    pub imprints: Vec<u64>,
    pub dictionary: Vec<u32>,
}

/// What building over a column gives with these borders carried.
pub fn carried(column: &[i32], borders: &[i32]) -> Index {
    let (imprints, dictionary) = packing(&line_imprints(column, borders));
    Index { borders: borders.to_vec(), imprints, dictionary }
}

/// The index of a column, whatever its length and the spaces lent.
pub fn index(column: &[i32]) -> Index {
    carried(column, &borders(column))
}

/// `spaces`: how long the border, imprint and dictionary spaces are.
pub fn build(column: &[i32], spaces: [usize; 3]) -> Result<Index, No> {
    if ROWS_AT_MOST < column.len() {
        return no(2);
    }
    fitting(index(column), spaces)
}

/// The first part that its space is too short for is refused with its length.
pub fn fitting(index: Index, spaces: [usize; 3]) -> Result<Index, No> {
    let needed = [index.borders.len(), index.imprints.len(), index.dictionary.len()];
    for i in 0..3 {
        if spaces[i] < needed[i] {
            return short(needed[i]);
        }
    }
    Ok(index)
}

pub fn pack(list: &[u64], borders: &[i32], spaces: [usize; 2]) -> Result<(Vec<u64>, Vec<u32>), No> {
    if LINES_AT_MOST < list.len() as u64 {
        return no(2);
    }
    if !borders_good(borders) {
        return no(5);
    }
    if !list.iter().all(|&word| fit(borders, word)) {
        return no(3);
    }
    let (imprints, dictionary) = packing(list);
    if spaces[0] < imprints.len() {
        return short(imprints.len());
    }
    if spaces[1] < dictionary.len() {
        return short(dictionary.len());
    }
    Ok((imprints, dictionary))
}

pub fn unpack(borders: &[i32], imprints: &[u64], dictionary: &[u32], lines: u64, space: usize) -> Result<Vec<u64>, No> {
    if LINES_AT_MOST < lines {
        return no(2);
    }
    if !borders_good(borders) {
        return no(5);
    }
    let Some(runs) = accepted(borders, imprints, dictionary, lines) else {
        return no(3);
    };
    if (space as u64) < lines {
        return short(lines as usize);
    }
    Ok(each_word(&runs).collect())
}

/// An index at the front of imprint and dictionary spaces that may be longer than it: the lengths of these two parts are told.
#[derive(Clone, Debug, PartialEq, Eq)]
pub struct Told {
    pub borders: Vec<i32>,
    pub imprints: Vec<u64>,
    pub imprints_told: u64,
    pub dictionary: Vec<u32>,
    pub dictionary_told: u64,
}

/// The words told of a space; there are none where the length is beyond it.
fn told<T>(space: &[T], length: u64) -> Option<&[T]> {
    (length <= space.len() as u64).then(|| &space[..length as usize])
}

/// The imprints of lines that were full as they stood, those of every later line from the longer column.
pub fn extended(column: &[i32], covered: usize, borders: &[i32], covering: &[Run]) -> Vec<Run> {
    let full = covered / ROWS_PER_LINE;
    let (mut runs, mut left) = (Vec::new(), full);
    for &(word, times) in covering {
        let stay = times.min(left);
        left -= stay;
        if stay != 0 {
            push(&mut runs, word, stay);
        }
    }
    let later = column[full * ROWS_PER_LINE..].chunks(ROWS_PER_LINE);
    later.for_each(|line| push(&mut runs, imprint(borders, line), 1));
    runs
}

/// Document 02, request 101: the index that stands in the spaces afterwards. Their words past it stay.
pub fn append(column: &[i32], covered: u64, index: &Told) -> Result<Index, No> {
    if ROWS_AT_MOST < column.len() {
        return no(2);
    }
    if (column.len() as u64) < covered {
        return no(17);
    }
    if !borders_good(&index.borders) {
        return no(5);
    }
    let covered = covered as usize;
    let Some((imprints, dictionary)) = told(&index.imprints, index.imprints_told).zip(told(&index.dictionary, index.dictionary_told))
    else {
        return no(3);
    };
    let Some(runs) = accepted(&index.borders, imprints, dictionary, lines(covered) as u64) else {
        return no(3);
    };
    let (imprints, dictionary) = packing_of(LARGEST, &extended(column, covered, &index.borders, &runs));
    if index.imprints.len() < imprints.len() {
        return short(imprints.len());
    }
    if index.dictionary.len() < dictionary.len() {
        return short(dictionary.len());
    }
    Ok(Index { borders: index.borders.clone(), imprints, dictionary })
}

/// The smallest and the greatest value of a bin (the first above the second where the bin holds none).
pub fn span(borders: &[i32], bin: usize) -> (i64, i64) {
    let from = if bin == 0 { i32::MIN as i64 } else { borders[bin - 1] as i64 };
    let to = if bin == borders.len() { i32::MAX as i64 } else { borders[bin] as i64 - 1 };
    (from, to)
}

/// The mask and the inner mask of a range. Bin 0, where faults lie, is never an inner one.
pub fn masks(borders: &[i32], low: i32, high: i32) -> (u64, u64) {
    let (mut mask, mut inner) = (0, 0);
    for b in bin(borders, low)..=bin(borders, high) {
        mask |= 1u64 << b;
        let (from, to) = span(borders, b);
        if b != 0 && low as i64 <= from && to <= high as i64 {
            inner |= 1u64 << b;
        }
    }
    (mask, inner)
}

#[derive(Clone, Debug, Default, PartialEq, Eq)]
pub struct Found {
    pub ids: Vec<u32>,
    pub skipped: u64,
    pub whole: u64,
    pub compared: u64,
}

/// A fault matches no range.
pub fn matches(v: i32, low: i32, high: i32) -> bool {
    !fault(v) && low <= v && v <= high
}

/// What the lines of these imprints list with these masks.
pub fn rows_of(column: &[i32], list: impl Iterator<Item = u64>, (mask, inner): (u64, u64), low: i32, high: i32) -> Found {
    let mut found = Found::default();
    for (line, word) in list.enumerate() {
        let rows = line * ROWS_PER_LINE..column.len().min((line + 1) * ROWS_PER_LINE);
        if word & mask == 0 {
            found.skipped += 1;
        } else if word & !inner == 0 {
            found.whole += 1;
            found.ids.extend(rows.map(|row| row as u32));
        } else {
            found.compared += rows.len() as u64;
            found.ids.extend(rows.filter(|&row| matches(column[row], low, high)).map(|row| row as u32));
        }
    }
    found
}

/// What a plain scan lists.
pub fn scan(column: &[i32], low: i32, high: i32) -> Vec<u32> {
    (0..column.len()).filter(|&row| matches(column[row], low, high)).map(|row| row as u32).collect()
}

pub fn index_runs(column: &[i32], borders: &[i32], imprints: &[u64], dictionary: &[u32]) -> Result<Vec<Run>, No> {
    if ROWS_AT_MOST < column.len() {
        return no(2);
    }
    if !borders_good(borders) {
        return no(5);
    }
    let lines = lines(column.len()) as u64;
    accepted(borders, imprints, dictionary, lines).ok_or(No::of(3))
}

pub fn search(
    column: &[i32],
    borders: &[i32],
    imprints: &[u64],
    dictionary: &[u32],
    low: i32,
    high: i32,
    space: usize,
) -> Result<Found, No> {
    let runs = index_runs(column, borders, imprints, dictionary)?;
    if high < low {
        return no(1);
    }
    let found = rows_of(column, each_word(&runs), masks(borders, low, high), low, high);
    if space < found.ids.len() {
        return short(found.ids.len());
    }
    Ok(found)
}

// ---------------------------------------------------------------- the filter

/// What filter words mean.
#[derive(Clone, Debug, PartialEq, Eq)]
pub struct Filter {
    pub levels: u32,
    pub room: u32,
    pub hand: u32,
    /// Of each key: is it remembered as empty?
    pub empty: Vec<bool>,
}

/// Levels that a filter can have.
fn good_levels(levels: u32) -> bool {
    (1..=20).contains(&levels)
}

/// Request 104: the most that any tree of these levels can use, and 4,095 at most.
pub fn most_room(levels: u32) -> u32 {
    let usable = 2u64.saturating_pow(levels) - 1;
    usable.min(ROOM_AT_MOST as u64) as u32
}

/// The formula: levels, room, hand, and a tree of at most `room` splits.
pub fn filter_words(room: u32) -> u64 {
    2 * room as u64 + 4
}

/// Wholly in D or wholly outside.
fn uniform(empty: &[bool]) -> bool {
    empty.iter().all(|&e| e == empty[0])
}

/// The smallest halving tree in preorder: a leaf is 0 (outside) or 1 (in D), a split is 2 + the words of its left half.
pub fn tree(empty: &[bool]) -> Vec<u32> {
    if uniform(empty) {
        return vec![empty[0] as u32];
    }
    let (left, right) = empty.split_at(empty.len() / 2);
    let left = tree(left);
    let mut words = vec![2 + left.len() as u32];
    words.extend(left);
    words.extend(tree(right));
    words
}

/// How many splits the smallest tree has.
pub fn splits(empty: &[bool]) -> usize {
    tree(empty).iter().filter(|&&word| 2 <= word).count()
}

/// The leaf of the smallest tree that holds the key: its first key, and the first one after it.
pub fn leaf(empty: &[bool], key: usize) -> (usize, usize) {
    let (mut from, mut to) = (0, empty.len());
    while !uniform(&empty[from..to]) {
        let half = from + (to - from) / 2;
        if key < half {
            to = half;
        } else {
            from = half;
        }
    }
    (from, to)
}

/// Every split with two leaves, by its range, lowest first.
pub fn pairs(empty: &[bool], from: usize) -> Vec<(usize, usize)> {
    if uniform(empty) {
        return Vec::new();
    }
    let half = empty.len() / 2;
    if uniform(&empty[..half]) && uniform(&empty[half..]) {
        return vec![(from, from + empty.len())];
    }
    let mut all = pairs(&empty[..half], from);
    all.extend(pairs(&empty[half..], from + half));
    all
}

/// Follows the words at `at` down a halving tree over `empty`; gives the place after them.
fn follow(words: &[u32], at: usize, empty: &mut [bool]) -> Option<usize> {
    let word = *words.get(at)?;
    if word < 2 {
        empty.fill(word == 1);
        return Some(at + 1);
    }
    if empty.len() == 1 {
        return None;
    }
    let (left, right) = empty.split_at_mut(empty.len() / 2);
    let middle = follow(words, at + 1, left)?;
    follow(words, middle, right)
}

impl Filter {
    pub fn keys(&self) -> u32 {
        1 << self.levels
    }

    /// The words in use.
    pub fn layout(&self) -> Vec<u32> {
        let mut words = vec![self.levels, self.room, self.hand];
        words.extend(tree(&self.empty));
        words
    }

    /// What the words mean; none where 8 is due.
    pub fn meant(words: &[u32]) -> Option<Filter> {
        let (&levels, &room, &hand) = (words.first()?, words.get(1)?, words.get(2)?);
        if !good_levels(levels) || most_room(levels) < room || 1 << levels <= hand {
            return None;
        }
        if (words.len() as u64) < filter_words(room) {
            return None;
        }
        let mut empty = vec![false; 1 << levels];
        follow(words, 3, &mut empty)?;
        let filter = Filter { levels, room, hand, empty };
        let layout = filter.layout();
        let same = layout.len() <= words.len() && words[..layout.len()] == layout[..];
        (same && splits(&filter.empty) <= room as usize).then_some(filter)
    }
}

fn meant(words: &[u32]) -> Result<Filter, No> {
    Filter::meant(words).ok_or(No::of(8))
}

fn meant_with_key(words: &[u32], key: u32) -> Result<Filter, No> {
    let filter = meant(words)?;
    if filter.keys() <= key {
        return no(7);
    }
    Ok(filter)
}

fn meant_with_range(words: &[u32], low: u32, high: u32) -> Result<Filter, No> {
    let filter = meant(words)?;
    if filter.keys() <= low || filter.keys() <= high {
        return no(7);
    }
    if high < low {
        return no(1);
    }
    Ok(filter)
}

pub fn fresh(levels: u32, room: u32, space: usize) -> Result<Filter, No> {
    if !good_levels(levels) {
        return no(6);
    }
    if most_room(levels) < room {
        return no(11);
    }
    if (space as u64) < filter_words(room) {
        return short(filter_words(room) as usize);
    }
    Ok(Filter { levels, room, hand: 0, empty: vec![false; 1 << levels] })
}

fn denies(filter: &Filter, low: u32, high: u32) -> bool {
    filter.empty[low as usize..=high as usize].iter().all(|&e| e)
}

/// Does it say look?
pub fn ask(words: &[u32], low: u32, high: u32) -> Result<bool, No> {
    Ok(!denies(&meant_with_range(words, low, high)?, low, high))
}

pub fn learn(words: &[u32], low: u32, high: u32) -> Result<Filter, No> {
    let mut filter = meant_with_range(words, low, high)?;
    filter.empty[low as usize..=high as usize].fill(true);
    if (filter.room as usize) < splits(&filter.empty) {
        return no(9);
    }
    Ok(filter)
}

pub fn arrive(words: &[u32], key: u32) -> Result<Filter, No> {
    let mut filter = meant_with_key(words, key)?;
    let (from, to) = leaf(&filter.empty, key as usize);
    filter.empty[from..to].fill(false);
    Ok(filter)
}

pub fn depart(words: &[u32], key: u32) -> Result<(), No> {
    meant_with_key(words, key).map(|_| ())
}

pub fn forget(words: &[u32]) -> Result<Filter, No> {
    let mut filter = meant(words)?;
    let pairs = pairs(&filter.empty, 0);
    let ahead = pairs.iter().find(|(from, _)| filter.hand as usize <= *from).or(pairs.first());
    let Some(&(from, to)) = ahead else {
        return no(10);
    };
    filter.empty[from..to].fill(false);
    filter.hand = if to == filter.empty.len() { 0 } else { to as u32 };
    Ok(filter)
}

/// Levels, room, hand, splits.
pub fn read(words: &[u32]) -> Result<[u64; 4], No> {
    let filter = meant(words)?;
    let splits = splits(&filter.empty) as u64;
    Ok([filter.levels as u64, filter.room as u64, filter.hand as u64, splits])
}

// ---------------------------------------------------------------- search with both

#[derive(Clone, Debug, PartialEq, Eq)]
pub enum Outcome {
    Denied,
    Found,
    /// With the filter as it stands afterwards.
    EmptyLearnt(Filter),
    EmptyNotLearnt,
}

impl Outcome {
    pub fn number(&self) -> u64 {
        match self {
            Outcome::Denied => 0,
            Outcome::Found => 1,
            Outcome::EmptyLearnt(_) => 2,
            Outcome::EmptyNotLearnt => 3,
        }
    }
}

/// The widest range of keys around low to high that no column value lies in; there is none if one lies in that range. Faults are no keys.
pub fn gap(column: &[i32], keys: u32, low: u32, high: u32) -> Option<(u32, u32)> {
    let values: Vec<u32> = column.iter().filter(|&&v| 0 <= v && v < keys as i32).map(|&v| v as u32).collect();
    if values.iter().any(|&v| low <= v && v <= high) {
        return None;
    }
    let before = values.iter().filter(|&&v| v < low).max();
    let after = values.iter().filter(|&&v| high < v).min();
    Some((before.map_or(0, |v| v + 1), after.map_or(keys, |v| *v) - 1))
}

#[allow(clippy::too_many_arguments)]
pub fn guarded(
    words: &[u32],
    column: &[i32],
    borders: &[i32],
    imprints: &[u64],
    dictionary: &[u32],
    low: u32,
    high: u32,
    space: usize,
) -> Result<(Outcome, Found), No> {
    let filter = meant_with_range(words, low, high)?;
    index_runs(column, borders, imprints, dictionary)?;
    if denies(&filter, low, high) {
        return Ok((Outcome::Denied, Found::default()));
    }
    let found = search(column, borders, imprints, dictionary, low as i32, high as i32, space)?;
    if !found.ids.is_empty() {
        return Ok((Outcome::Found, found));
    }
    let outcome = match gap(column, filter.keys(), low, high) {
        None => Outcome::EmptyNotLearnt,
        Some((from, to)) => match learn(words, from, to) {
            Ok(after) => Outcome::EmptyLearnt(after),
            Err(_) => Outcome::EmptyNotLearnt,
        },
    };
    Ok((outcome, found))
}

// ---------------------------------------------------------------- the hour register

/// Document 02, request 103: one discharge hour.
#[derive(Clone, Copy, Debug, PartialEq, Eq)]
pub struct Entry {
    pub hour: u32,
    pub repeat: u32,
    pub first_row: u32,
    pub rows: u32,
}

impl Entry {
    /// As it stands in a register.
    pub fn words(self) -> [u32; 4] {
        [self.hour, self.repeat, self.first_row, self.rows]
    }
}

/// Of a minute that is not negative.
pub fn hour(minute: i32) -> u32 {
    minute as u32 / 60
}

/// Does a new entry begin at this row?
pub fn begins(minutes: &[i32], row: usize) -> bool {
    row == 0 || hour(minutes[row]) != hour(minutes[row - 1]) || minutes[row] < minutes[row - 1]
}

/// The rows at which an entry begins.
pub fn first_rows(minutes: &[i32]) -> Vec<usize> {
    (0..minutes.len()).filter(|&row| begins(minutes, row)).collect()
}

/// The entries that begin at these rows: each ends where the next begins, the last with the column.
pub fn entries(minutes: &[i32], first_rows: &[usize]) -> Vec<Entry> {
    let mut earlier: HashMap<u32, u32> = HashMap::new();
    let mut entries = Vec::new();
    for (number, &first) in first_rows.iter().enumerate() {
        let end = first_rows.get(number + 1).copied().unwrap_or(minutes.len());
        let hour = hour(minutes[first]);
        let repeat = earlier.get(&hour).copied().unwrap_or(0);
        earlier.insert(hour, repeat + 1);
        entries.push(Entry { hour, repeat, first_row: first as u32, rows: (end - first) as u32 });
    }
    entries
}

/// `space`: how many words are lent.
pub fn register(minutes: &[i32], space: usize) -> Result<Vec<Entry>, No> {
    if ROWS_AT_MOST < minutes.len() {
        return no(2);
    }
    if let Some(row) = minutes.iter().position(|&minute| minute < 0) {
        return Err(No::negative(row));
    }
    let entries = entries(minutes, &first_rows(minutes));
    if space < 4 * entries.len() {
        return short(4 * entries.len());
    }
    Ok(entries)
}
