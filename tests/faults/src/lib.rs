//! Tests of the tests: a stand-in for the library under the library's own names, made of the plain implementation.
//! `MGZ_PLANTED` plants one fault; `tests/faults/run` shows that the tests catch each. Never linked into anything else.
//! Where faults of a column are meant, not planted ones, they are called dead probes here.
#![allow(clippy::missing_safety_doc, clippy::too_many_arguments)]
#[allow(dead_code)]
#[path = "../../src/plain.rs"]
mod plain;
#[allow(dead_code)]
#[path = "../../src/plain_card.rs"]
mod plain_card;
use plain::{Entry, Filter, Found, Index, No, Outcome, Position, Run, Told, LARGEST, REPEAT};
use plain_card::{Fed, State, BLOCK, CHECKED, EDITION, PAYLOAD};
use std::collections::HashMap;
use std::iter::repeat_n;
use std::slice::{from_raw_parts, from_raw_parts_mut};
use std::sync::OnceLock;

fn fault(name: &str) -> bool {
    static PLANTED: OnceLock<String> = OnceLock::new();
    PLANTED.get_or_init(|| std::env::var("MGZ_PLANTED").unwrap_or_default()) == name
}

unsafe fn read<'a, T>(at: *const T, length: usize) -> &'a [T] {
    unsafe { from_raw_parts(at, length) }
}

unsafe fn lent<'a, T>(at: *mut T, length: usize) -> &'a mut [T] {
    unsafe { from_raw_parts_mut(at, length) }
}

fn put<T: Copy>(space: &mut [T], words: &[T]) {
    space[..words.len()].copy_from_slice(words);
}

fn number<T>(answer: &Result<T, No>) -> u32 {
    answer.as_ref().err().map_or(0, |no| no.number)
}

fn needed<T>(answer: &Result<T, No>) -> u64 {
    answer.as_ref().err().map_or(0, |no| no.needed)
}

/// What is said wrongly of a row count just at the limit, or one above it.
fn misjudged(rows: u64, at_the_limit: bool, above_it: bool) -> Option<No> {
    let limit = plain::ROWS_AT_MOST as u64;
    (at_the_limit && rows == limit).then_some(No::of(2)).or((above_it && rows == limit + 1).then_some(No::of(3)))
}

/// Slips where an entry is full.
#[derive(Default)]
struct Slips {
    run_goes_on: bool,
    plain_goes_on: bool,
    left_line_gathers: bool,
    left_line_repeats: bool,
}

impl Slips {
    fn any(&self) -> bool {
        self.run_goes_on || self.plain_goes_on || self.left_line_gathers || self.left_line_repeats
    }

    /// The packing of a list with these runs, with the slips.
    fn packing(&self, runs: &[Run]) -> (Vec<u64>, Vec<u32>) {
        let (of_runs, of_plain) = (LARGEST + self.run_goes_on as usize, LARGEST + self.plain_goes_on as usize);
        let (mut kept, mut dictionary) = (Vec::new(), Vec::new());
        let mut left_before = false;
        for group in runs.chunk_by(|one, next| one.1 == 1 && next.1 == 1) {
            let (word, times) = group[0];
            if times == 1 {
                kept.extend(group.iter().map(|run| run.0));
                let mut counts: Vec<u32> = group.chunks(of_plain).map(|entry| entry.len() as u32).collect();
                if left_before && self.left_line_gathers {
                    *dictionary.last_mut().unwrap() += counts.remove(0);
                }
                dictionary.extend(counts);
                left_before = false;
                continue;
            }
            let (full, left) = (times / of_runs, times % of_runs);
            kept.extend(repeat_n(word, full + (left != 0) as usize));
            dictionary.extend(repeat_n(REPEAT + of_runs as u32, full));
            left_before = full != 0 && left == 1;
            match left {
                0 => (),
                1 if !self.left_line_repeats => dictionary.push(1),
                _ => dictionary.push(REPEAT + left as u32),
            }
        }
        (kept, dictionary)
    }
}

/// The right words for wrong ones that a slip in acceptance takes.
fn retaken(imprints: &[u64], dictionary: &[u32]) -> Option<(Vec<u64>, Vec<u32>)> {
    let slips = Slips {
        left_line_gathers: fault("gathered-left-line-accepted"),
        left_line_repeats: fault("repeated-left-line-accepted"),
        ..Slips::default()
    };
    let anyhow = fault("long-run-cut-anyhow-accepted");
    if !slips.any() && !anyhow {
        return None;
    }
    let runs = plain::stood_for(imprints, dictionary)?;
    let slipped = slips.any() && slips.packing(&runs) == (imprints.to_vec(), dictionary.to_vec());
    let cut = anyhow && runs.iter().any(|run| LARGEST < run.1);
    (slipped || cut).then(|| plain::packing_of(LARGEST, &runs))
}

/// The readings.
fn live(column: &[i32]) -> Vec<i32> {
    column.iter().copied().filter(|&v| !plain::fault(v)).collect()
}

/// Dead probes as the value just above theirs.
fn raised(column: &[i32]) -> Vec<i32> {
    column.iter().map(|&v| v.max(plain::FAULT + 1)).collect()
}

/// The bin that a faulty lookup finds.
fn misfound(borders: &[i32], v: i32) -> Option<usize> {
    let bin = plain::bin(borders, v);
    if fault("pad-counted-as-a-border") {
        return Some(if v == i32::MAX { 63 } else { bin });
    }
    if fault("last-halving-lost") {
        return Some(bin / 2 * 2);
    }
    if fault("highest-upper-node-left-out") {
        return Some(bin.min(55));
    }
    if fault("value-before-a-border-behind-it") {
        return Some(bin + borders.iter().any(|&b| b.checked_sub(1) == Some(v) && !plain::fault(v)) as usize);
    }
    None
}

/// The imprints where the line before tells a line's wrongly.
fn mistold(column: &[i32], borders: &[i32]) -> Option<Vec<u64>> {
    let told: fn(u64, &[usize]) -> bool = if fault("line-told-by-its-first-row") {
        |before, bins| before == 1 << bins[0]
    } else if fault("bin-before-counted-too") {
        |before, bins| bins.iter().all(|&bin| before == 1 << bin || before == 2 << bin)
    } else if fault("lowest-bin-taken-for-the-only-one") {
        |before, bins| bins.iter().all(|&bin| before.trailing_zeros() as usize == bin)
    } else {
        return None;
    };
    let mut before = 0;
    let line = |line: &[i32]| {
        let bins: Vec<usize> = line.iter().map(|&v| plain::bin(borders, v)).collect();
        if !told(before, &bins) {
            before = bins.iter().fold(0, |word, bin| word | 1 << bin);
        }
        before
    };
    Some(column.chunks(16).map(line).collect())
}

/// The imprints by a faulty lookup, where one is planted.
fn misimprinted(column: &[i32], borders: &[i32]) -> Option<Vec<u64>> {
    if let Some(list) = mistold(column, borders) {
        return Some(list);
    }
    misfound(borders, 0)?;
    let line = |line: &[i32]| line.iter().fold(0, |word, &v| word | 1 << misfound(borders, v).unwrap());
    Some(column.chunks(16).map(line).collect())
}

fn built(column: &[i32], spaces: [usize; 3]) -> Result<Index, No> {
    if let Some(no) = misjudged(column.len() as u64, false, fault("build-takes-a-row-more")) {
        return Err(no);
    }
    let answer = plain::build(column, spaces);
    if number(&answer) == 2 {
        return answer;
    }
    let borders = plain::borders(column);
    let slips =
        Slips { run_goes_on: fault("build-full-run-goes-on"), left_line_gathers: fault("build-left-line-gathered"), ..Slips::default() };
    if slips.any() {
        let (imprints, dictionary) = slips.packing(&plain::runs(&plain::line_imprints(column, &borders)));
        return plain::fitting(Index { borders, imprints, dictionary }, spaces);
    }
    if let Some(list) = misimprinted(column, &borders) {
        let (imprints, dictionary) = plain::packing(&list);
        return plain::fitting(Index { borders, imprints, dictionary }, spaces);
    }
    if fault("dead-in-the-sample") {
        let sample = column.iter().copied().step_by(plain::stride(column.len())).collect();
        return plain::fitting(plain::carried(column, &plain::borders_of(sample)), spaces);
    }
    if fault("stride-over-the-live") {
        return plain::fitting(plain::carried(column, &plain::borders(&live(column))), spaces);
    }
    if fault("dead-without-a-bin") {
        let borders = plain::borders(column);
        let lines = column.chunks(16).map(|line| (line, live(line)));
        let list: Vec<u64> = lines.map(|(line, live)| plain::imprint(&borders, if live.is_empty() { line } else { &live })).collect();
        let (imprints, dictionary) = plain::packing(&list);
        return plain::fitting(Index { borders, imprints, dictionary }, spaces);
    }
    answer
}

#[no_mangle]
pub unsafe extern "C" fn mgz_build(
    column: *const i32,
    n: usize,
    borders: *mut i32,
    b: usize,
    imprints: *mut u64,
    i: usize,
    dictionary: *mut u32,
    d: usize,
    out: *mut u64,
) -> u32 {
    let (column, out) = unsafe { (read(column, n), lent(out, 4)) };
    let (borders, imprints, dictionary) = unsafe { (lent(borders, b), lent(imprints, i), lent(dictionary, d)) };
    let mut answer = built(column, [b, i, d]);
    if fault("last-short-line") && answer.is_ok() && n % 16 != 0 {
        let whole = &column[..n - n % 16];
        let kept = answer.unwrap().borders;
        answer = Ok(plain::carried(whole, &kept));
    }
    if fault("short-dictionary-first") && number(&answer) == 4 {
        let index = plain::index(column);
        if d < index.dictionary.len() {
            answer = Err(No::short(index.dictionary.len()));
        }
    }
    *out.first_chunk_mut().unwrap() = [needed(&answer), 0, 0, 0];
    let Ok(index) = &answer else {
        if fault("build-writes-before-refusal") && b != 0 {
            borders[0] = column.first().copied().unwrap_or(0);
        }
        return number(&answer);
    };
    out[1..].copy_from_slice(&[index.borders.len() as u64, index.imprints.len() as u64, index.dictionary.len() as u64]);
    put(borders, &index.borders);
    put(imprints, &index.imprints);
    put(dictionary, &index.dictionary);
    if fault("build-writes-past-answer") && index.borders.len() < b {
        borders[index.borders.len()] = i32::MAX;
    }
    0
}

fn appended(column: &[i32], covered: u64, index: &Told) -> Result<Index, No> {
    if let Some(no) = misjudged(column.len() as u64, fault("append-2-at-the-longest"), fault("append-takes-a-row-more")) {
        return Err(no);
    }
    let beyond = (index.imprints.len() as u64) < index.imprints_told || (index.dictionary.len() as u64) < index.dictionary_told;
    if fault("told-before-borders") && beyond && column.len() <= plain::ROWS_AT_MOST && covered <= column.len() as u64 {
        return Err(No::of(3));
    }
    let filled = covered.checked_next_multiple_of(16).filter(|&rows| rows <= column.len() as u64);
    let covered = if fault("short-line-trusted") { filled.unwrap_or(covered) } else { covered };
    // Where the smallest value is a border and the next one is none, a raised probe lies in bin 1.
    let in_bin_1 = index.borders.first() == Some(&plain::FAULT) && index.borders.get(1) != Some(&(plain::FAULT + 1));
    let column: &[i32] = if fault("dead-by-the-borders") && in_bin_1 { &raised(column) } else { column };
    let mut answer = plain::append(column, covered, index);
    if let (true, Ok(after)) = (fault("full-lines-reread"), &mut answer) {
        (after.imprints, after.dictionary) = plain::packing(&plain::line_imprints(column, &after.borders));
        after.imprints.truncate(index.imprints.len());
        after.dictionary.truncate(index.dictionary.len());
    }
    if let (0, Ok(after), Some(list)) = (covered, &mut answer, misimprinted(column, &index.borders)) {
        (after.imprints, after.dictionary) = plain::packing(&list);
        after.imprints.truncate(index.imprints.len());
        after.dictionary.truncate(index.dictionary.len());
    }
    let slips = Slips {
        run_goes_on: fault("append-full-run-goes-on"),
        plain_goes_on: fault("append-full-plain-goes-on"),
        left_line_gathers: fault("append-left-line-gathered"),
        left_line_repeats: fault("append-left-line-repeats"),
    };
    if let (true, Ok(after)) = (slips.any(), &mut answer) {
        let told = (&index.imprints[..index.imprints_told as usize], &index.dictionary[..index.dictionary_told as usize]);
        let runs = plain::stood_for(told.0, told.1).unwrap();
        (after.imprints, after.dictionary) = slips.packing(&plain::extended(column, covered as usize, &index.borders, &runs));
        after.imprints.truncate(index.imprints.len());
        after.dictionary.truncate(index.dictionary.len());
    }
    if let (true, Err(No { number: 4, needed, .. })) = (fault("append-needs-the-additional"), &mut answer) {
        let imprints_short = (index.imprints.len() as u64) < *needed;
        *needed -= (if imprints_short { index.imprints_told } else { index.dictionary_told }).min(*needed);
    }
    answer
}

#[no_mangle]
pub unsafe extern "C" fn mgz_append(
    column: *const i32,
    n: usize,
    covered: u64,
    borders: *const i32,
    b: usize,
    imprints: *mut u64,
    i: usize,
    imprints_told: u64,
    dictionary: *mut u32,
    d: usize,
    dictionary_told: u64,
    out: *mut u64,
) -> u32 {
    let (column, borders, out) = unsafe { (read(column, n), read(borders, b).to_vec(), lent(out, 3)) };
    let (imprints, dictionary) = unsafe { (lent(imprints, i), lent(dictionary, d)) };
    let index = Told { borders, imprints: imprints.to_vec(), imprints_told, dictionary: dictionary.to_vec(), dictionary_told };
    let answer = appended(column, covered, &index);
    if fault("append-writes-before-4") && number(&answer) == 4 && 0 < imprints_told {
        imprints[imprints_told as usize - 1] ^= 1;
    }
    let after = answer.clone().unwrap_or_default();
    out.copy_from_slice(&[needed(&answer), after.imprints.len() as u64, after.dictionary.len() as u64]);
    if fault("append-clears-behind") && answer.is_ok() && (after.imprints.len() as u64) < imprints_told {
        imprints[after.imprints.len()..imprints_told as usize].fill(0);
    }
    put(imprints, &after.imprints);
    put(dictionary, &after.dictionary);
    number(&answer)
}

fn packed(list: &[u64], borders: &[i32], spaces: [usize; 2]) -> Result<(Vec<u64>, Vec<u32>), No> {
    let (lines, most) = (list.len() as u64, plain::LINES_AT_MOST);
    if fault("pack-2-at-the-most-lines") && lines == most {
        return Err(No::of(2));
    }
    if fault("pack-takes-a-line-more") && lines == most + 1 {
        return Err(No::of(3));
    }
    let answer = plain::pack(list, borders, spaces);
    let slips = Slips {
        run_goes_on: fault("full-run-goes-on"),
        plain_goes_on: fault("full-plain-goes-on"),
        left_line_gathers: fault("left-line-gathered"),
        left_line_repeats: fault("left-line-repeats"),
    };
    if slips.any() && answer.is_ok() {
        return Ok(slips.packing(&plain::runs(list)));
    }
    answer
}

#[no_mangle]
pub unsafe extern "C" fn mgz_pack(
    list: *const u64,
    n: usize,
    borders: *const i32,
    b: usize,
    imprints: *mut u64,
    i: usize,
    dictionary: *mut u32,
    d: usize,
    out: *mut u64,
) -> u32 {
    let (list, borders, out) = unsafe { (read(list, n), read(borders, b), lent(out, 3)) };
    let (imprints, dictionary) = unsafe { (lent(imprints, i), lent(dictionary, d)) };
    let mut answer = packed(list, borders, [i, d]);
    if fault("pack-takes-zero") && number(&answer) == 3 && list.contains(&0) {
        answer = plain::pack(&list.iter().map(|&w| w.max(1)).collect::<Vec<u64>>(), borders, [i, d]);
    }
    let (needed, number) = (needed(&answer), number(&answer));
    let (mut kept, mut entries) = answer.unwrap_or_default();
    kept.truncate(i);
    entries.truncate(d);
    out.copy_from_slice(&[needed, kept.len() as u64, entries.len() as u64]);
    put(imprints, &kept);
    put(dictionary, &entries);
    number
}

/// What a dictionary says once bits 25 to 31 are passed over.
fn lax(dictionary: &[u32]) -> Vec<u32> {
    dictionary.iter().map(|e| if fault("high-bits-pass") { e & 0x1FF_FFFF } else { *e }).collect()
}

fn unpacked(borders: &[i32], imprints: &[u64], dictionary: &[u32], lines: u64, space: usize) -> Result<Vec<u64>, No> {
    if fault("unpack-2-at-the-most-lines") && lines == plain::LINES_AT_MOST {
        return Err(No::of(2));
    }
    if fault("unpack-takes-a-line-more") && lines == plain::LINES_AT_MOST + 1 {
        return Err(No::of(3));
    }
    match retaken(imprints, dictionary) {
        Some((imprints, dictionary)) => plain::unpack(borders, &imprints, &dictionary, lines, space),
        None => plain::unpack(borders, imprints, dictionary, lines, space),
    }
}

#[no_mangle]
pub unsafe extern "C" fn mgz_unpack(
    borders: *const i32,
    b: usize,
    imprints: *const u64,
    i: usize,
    dictionary: *const u32,
    d: usize,
    lines: u64,
    list: *mut u64,
    n: usize,
    out: *mut u64,
) -> u32 {
    let (borders, imprints, dictionary) = unsafe { (read(borders, b), read(imprints, i), read(dictionary, d)) };
    let answer = unpacked(borders, imprints, &lax(dictionary), lines, n);
    put(unsafe { lent(list, n) }, answer.as_deref().unwrap_or(&[]));
    unsafe { *out = needed(&answer) };
    number(&answer)
}

#[no_mangle]
pub unsafe extern "C" fn mgz_step(
    dictionary: *const u32,
    d: usize,
    imprints: *const u64,
    i: usize,
    entry: u64,
    place: u64,
    number_: u64,
    out: *mut u64,
) -> u32 {
    let (dictionary, imprints, out) = unsafe { (read(dictionary, d), read(imprints, i), lent(out, 5)) };
    let answer = plain::step(dictionary, imprints, Position { entry, place, number: number_ });
    out.fill(0);
    if let Ok((imprint, after)) = answer {
        out.copy_from_slice(&[imprint.is_none() as u64, imprint.unwrap_or(0), after.entry, after.place, after.number]);
        if fault("end-moves") && imprint.is_none() {
            out[3] = 0;
        }
    }
    number(&answer)
}

fn masks(borders: &[i32], low: i32, high: i32) -> (u64, u64) {
    let (mut mask, mut inner) = plain::masks(borders, low, high);
    if fault("bin-0-inner") && low == plain::FAULT && plain::span(borders, 0).1 <= high as i64 {
        inner |= 1;
    }
    if fault("low-by-the-borders") && low == plain::FAULT && borders.first() == Some(&low) {
        mask = mask & !1 | 2;
    }
    (mask, inner)
}

fn searched(column: &[i32], borders: &[i32], imprints: &[u64], dictionary: &[u32], low: i32, high: i32, space: usize) -> Result<Found, No> {
    if let Some(no) = misjudged(column.len() as u64, fault("search-2-at-the-longest"), fault("search-takes-a-row-more")) {
        return Err(no);
    }
    if fault("low-above-high-first") && high < low && column.len() <= plain::ROWS_AT_MOST {
        return Err(No::of(1));
    }
    let dictionary = lax(dictionary);
    let retaken = retaken(imprints, &dictionary);
    let (imprints, dictionary) = retaken.as_ref().map_or((imprints, &dictionary), |(imprints, dictionary)| (imprints, dictionary));
    let runs = plain::index_runs(column, borders, imprints, dictionary)?;
    if high < low {
        return Err(No::of(1));
    }
    let compared: &[i32] = if fault("dead-matched") && low == plain::FAULT { &raised(column) } else { column };
    let mut found = plain::rows_of(compared, plain::each_word(&runs), masks(borders, low, high), low, high);
    if fault("dead-left-out-of-whole-lines") {
        found.ids.retain(|&row| !plain::fault(column[row as usize]));
    }
    if space < found.ids.len() {
        return Err(No::short(found.ids.len()));
    }
    if fault("high-left-out") {
        let before = found.ids.len();
        found.ids.retain(|&row| column[row as usize] != high || high == low || found.compared == 0);
        assert!(found.ids.len() <= before);
    }
    if fault("made-up-compared") && found.compared != 0 {
        found.compared = 16 * (plain::lines(column.len()) as u64 - found.skipped - found.whole);
    }
    if fault("sixteen-ids") && column.len() % 16 != 0 && found.ids.last() == Some(&(column.len() as u32 - 1)) && found.whole != 0 {
        let to = (column.len() as u32).div_ceil(16) * 16;
        found.ids.extend((column.len() as u32..to).take(space - found.ids.len()));
    }
    if fault("shift-by-64") && borders.len() == 63 && borders[62] <= high {
        found.whole = 0;
    }
    Ok(found)
}

#[no_mangle]
pub unsafe extern "C" fn mgz_search(
    column: *const i32,
    n: usize,
    borders: *const i32,
    b: usize,
    imprints: *const u64,
    i: usize,
    dictionary: *const u32,
    d: usize,
    low: i32,
    high: i32,
    ids: *mut u32,
    m: usize,
    out: *mut u64,
) -> u32 {
    let (column, ids, out) = unsafe { (read(column, n), lent(ids, m), lent(out, 5)) };
    let (borders, imprints, dictionary) = unsafe { (read(borders, b), read(imprints, i), read(dictionary, d)) };
    let answer = searched(column, borders, imprints, dictionary, low, high, m);
    let nothing = Found::default();
    let found = answer.as_ref().unwrap_or(&nothing);
    if fault("out-kept-at-refusal") && number(&answer) == 4 {
        out[0] = needed(&answer);
        return 4;
    }
    out.copy_from_slice(&[needed(&answer), found.ids.len() as u64, found.skipped, found.whole, found.compared]);
    put(ids, &found.ids);
    if fault("flat-scan-writes-one-past") && found.ids.len() < m && found.compared != 0 {
        ids[found.ids.len()] = n as u32;
    }
    if fault("guard-word") && found.ids.len() == m {
        unsafe { *ids.as_mut_ptr().add(m) = 0 };
    }
    number(&answer)
}

#[no_mangle]
pub extern "C" fn mgz_filter_words(room: u32) -> u64 {
    plain::filter_words(room)
}

fn store(words: &mut [u32], answer: &Result<Filter, No>) -> u32 {
    if let Ok(filter) = answer {
        put(words, &filter.layout());
        let behind = plain::filter_words(filter.room) as usize;
        if fault("behind-the-formula") && behind < words.len() {
            words[behind] = 0;
        }
    }
    number(answer)
}

#[no_mangle]
pub unsafe extern "C" fn mgz_filter_fresh(levels: u32, room: u32, words: *mut u32, w: usize, out: *mut u64) -> u32 {
    let mut answer = plain::fresh(levels, room, w);
    if fault("fresh-11-before-6") && plain::most_room(levels) < room {
        answer = Err(No::of(11));
    }
    if fault("fresh-11-at-the-most") && number(&answer) != 6 && plain::most_room(levels) == room {
        answer = Err(No::of(11));
    }
    if fault("fresh-4-before-11") && number(&answer) == 11 && (w as u64) < plain::filter_words(room) {
        answer = Err(No::short(plain::filter_words(room) as usize));
    }
    if fault("fresh-takes-an-unusable-room") && number(&answer) == 11 && room <= plain::ROOM_AT_MOST {
        answer = plain::fresh(20, room, w).map(|filter| Filter { levels, ..filter });
    }
    unsafe { *out = needed(&answer) };
    store(unsafe { lent(words, w) }, &answer)
}

/// Words that acceptance by 4,095 alone would take, with the room lowered to what a tree of their levels can use.
fn lowered(words: &[u32]) -> Option<Vec<u32>> {
    let &[levels, room, ..] = words else { return None };
    let most = plain::most_room(levels);
    let unusable = most < room && room <= plain::ROOM_AT_MOST && plain::filter_words(room) <= words.len() as u64;
    unusable.then(|| [&[levels, most], &words[2..]].concat())
}

#[no_mangle]
pub unsafe extern "C" fn mgz_filter_ask(words: *const u32, w: usize, low: u32, high: u32, look: *mut u32) -> u32 {
    let words = unsafe { read(words, w) };
    let mut answer = plain::ask(words, low, high);
    if let (true, Some(words)) = (fault("unusable-room-asked"), lowered(words)) {
        answer = plain::ask(&words, low, high);
    }
    if fault("never-denies") && answer == Ok(false) {
        answer = Ok(true);
    }
    unsafe { *look = *answer.as_ref().unwrap_or(&false) as u32 };
    number(&answer)
}

#[no_mangle]
pub unsafe extern "C" fn mgz_filter_learn(words: *mut u32, w: usize, low: u32, high: u32) -> u32 {
    let words = unsafe { lent(words, w) };
    let answer = plain::learn(words, low, high);
    if fault("learn-writes-before-refusal") && number(&answer) == 9 {
        words[w - 1] ^= 1;
    }
    store(words, &answer)
}

#[no_mangle]
pub unsafe extern "C" fn mgz_filter_arrive(words: *mut u32, w: usize, key: u32) -> u32 {
    let words = unsafe { lent(words, w) };
    let mut answer = plain::arrive(words, key);
    if fault("arrival-of-one-key") && answer.is_ok() {
        let mut filter = Filter::meant(words).unwrap();
        filter.empty[key as usize] = false;
        if plain::splits(&filter.empty) <= filter.room as usize {
            answer = Ok(filter);
        }
    }
    store(words, &answer)
}

#[no_mangle]
pub unsafe extern "C" fn mgz_filter_depart(words: *mut u32, w: usize, key: u32) -> u32 {
    let words = unsafe { lent(words, w) };
    let answer = plain::depart(words, key);
    if fault("departure-marks") && answer.is_ok() {
        store(words, &plain::learn(words, key, key));
    }
    number(&answer)
}

#[no_mangle]
pub unsafe extern "C" fn mgz_filter_forget(words: *mut u32, w: usize) -> u32 {
    let words = unsafe { lent(words, w) };
    let mut answer = plain::forget(words);
    if let (true, Ok(filter)) = (fault("hand-past-the-end"), &mut answer) {
        if filter.hand == 0 {
            filter.hand = filter.keys() - 1;
        }
    }
    store(words, &answer)
}

#[no_mangle]
pub unsafe extern "C" fn mgz_filter_read(words: *const u32, w: usize, out: *mut u64) -> u32 {
    let words = unsafe { read(words, w) };
    let mut answer = plain::read(words);
    if fault("short-words-pass") && w > 4 && answer.is_err() && words[1] == (w - 4) as u32 / 2 + 1 {
        let mut longer = words.to_vec();
        longer.resize(w + 2, 0);
        answer = plain::read(&longer);
    }
    if let (true, Some(words)) = (fault("unusable-room-read"), lowered(words)) {
        answer = plain::read(&words);
    }
    unsafe { lent(out, 4) }.copy_from_slice(answer.as_ref().unwrap_or(&[0; 4]));
    number(&answer)
}

#[no_mangle]
pub unsafe extern "C" fn mgz_guarded_search(
    words: *mut u32,
    w: usize,
    column: *const i32,
    n: usize,
    borders: *const i32,
    b: usize,
    imprints: *const u64,
    i: usize,
    dictionary: *const u32,
    d: usize,
    low: u32,
    high: u32,
    ids: *mut u32,
    m: usize,
    out: *mut u64,
) -> u32 {
    let (words, column, ids, out) = unsafe { (lent(words, w), read(column, n), lent(ids, m), lent(out, 6)) };
    let (borders, imprints, dictionary) = unsafe { (read(borders, b), read(imprints, i), read(dictionary, d)) };
    let mut answer = plain::guarded(words, column, borders, imprints, dictionary, low, high, m);
    if let Some(no) = misjudged(n as u64, fault("guarded-2-at-the-longest"), fault("guarded-takes-a-row-more")) {
        answer = Err(no);
    }
    if let (true, Some(words)) = (fault("unusable-room-searched"), lowered(words)) {
        answer = plain::guarded(&words, column, borders, imprints, dictionary, low, high, m);
    }
    if let Ok((outcome, _)) = &mut answer {
        if fault("gap-is-the-range") && outcome.number() == 2 {
            if let Ok(filter) = plain::learn(words, low, high) {
                *outcome = Outcome::EmptyLearnt(filter);
            }
        }
        if fault("learns-a-held-range") && outcome.number() == 3 {
            if let Ok(filter) = plain::learn(words, low, high) {
                *outcome = Outcome::EmptyLearnt(filter);
            }
        }
    }
    if let (true, Ok((Outcome::EmptyLearnt(_), found))) = (fault("dead-is-key-0"), &answer) {
        let keys: Vec<i32> = column.iter().map(|&v| if plain::fault(v) { 0 } else { v }).collect();
        let gap = plain::gap(&keys, Filter::meant(words).unwrap().keys(), low, high);
        let learnt = gap.and_then(|(from, to)| plain::learn(words, from, to).ok());
        answer = Ok((learnt.map_or(Outcome::EmptyNotLearnt, Outcome::EmptyLearnt), found.clone()));
    }
    if fault("denied-with-4") && m == 0 && number(&answer) == 0 && answer.as_ref().unwrap().0 == Outcome::Denied {
        answer = Err(No::of(4));
    }
    let (outcome, found) = answer.clone().unwrap_or((Outcome::Denied, Found::default()));
    out.copy_from_slice(&[outcome.number(), needed(&answer), found.ids.len() as u64, found.skipped, found.whole, found.compared]);
    put(ids, &found.ids);
    if let Outcome::EmptyLearnt(filter) = outcome {
        store(words, &Ok(filter));
    }
    number(&answer)
}

fn begins(minutes: &[i32], row: usize) -> bool {
    let before = row.checked_sub(1).map(|before| minutes[before]);
    if fault("equal-minutes-part") && before == Some(minutes[row]) {
        return true;
    }
    if fault("fall-within-the-hour-stays") && before.map(plain::hour) == Some(plain::hour(minutes[row])) {
        return false;
    }
    plain::begins(minutes, row)
}

/// Each repeat number is how much came before under the entry's key.
fn repeats(entries: &mut [Entry], key: impl Fn(&Entry) -> u32, much: impl Fn(&Entry) -> u32) {
    let mut before: HashMap<u32, u32> = HashMap::new();
    for entry in entries {
        let sum = before.entry(key(entry)).or_insert(0);
        entry.repeat = *sum;
        *sum += much(entry);
    }
}

fn wrong_repeats(entries: &mut [Entry]) {
    if fault("repeat-counts-rows") {
        repeats(entries, |entry| entry.hour, |entry| entry.rows);
    }
    if fault("repeat-of-24-bit-hours") {
        repeats(entries, |entry| entry.hour & 0xFF_FFFF, |_| 1);
    }
    if fault("repeat-of-neighbours") {
        for at in 0..entries.len() {
            entries[at].repeat = if 0 < at && entries[at - 1].hour == entries[at].hour { entries[at - 1].repeat + 1 } else { 0 };
        }
    }
    if fault("late-hour-is-a-repeat") {
        let mut highest = 0;
        for entry in entries {
            highest = highest.max(entry.hour);
            entry.repeat = entry.repeat.max((entry.hour < highest) as u32);
        }
    }
}

fn first_negative(minutes: &[i32]) -> Option<usize> {
    if fault("last-negative-row") {
        return minutes.iter().rposition(|&minute| minute < 0);
    }
    if fault("dead-minute-passes") {
        return minutes.iter().position(|&minute| minute < 0 && !plain::fault(minute));
    }
    minutes.iter().position(|&minute| minute < 0)
}

fn registered(minutes: &[i32], space: usize) -> Result<Vec<Entry>, No> {
    if let Some(no) = misjudged(minutes.len() as u64, fault("register-2-at-the-longest"), fault("register-takes-a-row-more")) {
        return Err(no);
    }
    if plain::ROWS_AT_MOST < minutes.len() {
        // Of so many rows the first ones are enough.
        let negative = fault("register-13-before-2").then(|| first_negative(&minutes[..100])).flatten();
        return Err(negative.map_or(No::of(2), No::negative));
    }
    let negative = first_negative(minutes).map(No::negative);
    if let (true, Some(no)) = (!fault("register-4-before-13"), negative) {
        return Err(no);
    }
    let first_rows: Vec<usize> = (0..minutes.len()).filter(|&row| begins(minutes, row)).collect();
    let mut entries = plain::entries(minutes, &first_rows);
    wrong_repeats(&mut entries);
    if fault("last-hour-lost") {
        entries.pop();
    }
    if let (true, Some(last)) = (fault("last-row-not-counted"), entries.last_mut()) {
        last.rows -= 1;
    }
    let short = (space < 4 * entries.len()).then(|| No::short(4 * entries.len()));
    let refusal = if fault("register-4-before-13") { short.or(negative) } else { negative.or(short) };
    refusal.map_or(Ok(entries), Err)
}

#[no_mangle]
pub unsafe extern "C" fn mgz_register(minutes: *const i32, n: usize, words: *mut u32, w: usize, out: *mut u64) -> u32 {
    let (minutes, words, out) = unsafe { (read(minutes, n), lent(words, w), lent(out, 3)) };
    let answer = registered(minutes, w);
    let entries = answer.clone().unwrap_or_default();
    out.copy_from_slice(&[needed(&answer), entries.len() as u64, answer.as_ref().err().map_or(0, |no| no.row)]);
    if fault("register-needs-entries") {
        out[0] /= 4;
    }
    if fault("register-writes-before-4") && number(&answer) == 4 && w != 0 {
        words[0] = plain::hour(minutes[0]);
    }
    if fault("register-clears-behind") && answer.is_ok() {
        words[4 * entries.len()..].fill(0);
    }
    put(words, &entries.into_iter().flat_map(Entry::words).collect::<Vec<u32>>());
    number(&answer)
}

/// The check of a block, by wrong sums where a fault in them is planted.
fn card_check(block: &[u8]) -> [u8; 4] {
    let over = if fault("card-sums-over-the-whole-block") { BLOCK } else { CHECKED };
    let sum = |sum: u32, x: u32| {
        let sum = sum + x;
        if fault("card-sums-modulo-65536") {
            sum % 65_536
        } else if fault("card-sums-leave-65535") {
            sum % 65_536 + sum / 65_536
        } else {
            sum % 65_535
        }
    };
    let checked = [&block[..CHECKED], &[0; BLOCK - CHECKED]].concat();
    let (mut a, mut b) = (0, 0);
    for pair in checked[..over].chunks(2) {
        a = sum(a, u16::from_le_bytes([pair[0], pair[1]]) as u32);
        b = sum(b, a);
    }
    (a + 65_536 * b).to_le_bytes()
}

fn card_written(rows: u64, index: &Index, space: usize) -> Result<Vec<u8>, No> {
    let mut image = plain_card::image(rows, index);
    if fault("card-empty-block-behind-a-full-one") && plain_card::payload(rows, index).len() % PAYLOAD == 0 {
        image.extend(plain_card::block((image.len() / BLOCK) as u32, &[]));
    }
    for block in image.chunks_mut(BLOCK) {
        let check = card_check(block);
        block[CHECKED..].copy_from_slice(&check);
    }
    let misjudged = misjudged(rows, fault("card-2-at-the-longest"), fault("card-takes-a-row-more"));
    let refusal = misjudged.or(plain_card::is_index(rows, index).err());
    let needed = if fault("card-needs-blocks") { image.len() / BLOCK } else { image.len() };
    let short = (space < image.len()).then(|| No::short(needed));
    let unfit = matches!(refusal, Some(No { number: 3, .. }));
    let refusal = if fault("card-4-before-3") && unfit { short.or(refusal) } else { refusal.or(short) };
    refusal.map_or(Ok(image), Err)
}

#[no_mangle]
pub unsafe extern "C" fn mgz_card_write(
    rows: u64,
    borders: *const i32,
    b: usize,
    imprints: *const u64,
    i: usize,
    dictionary: *const u32,
    d: usize,
    card: *mut u8,
    c: usize,
    out: *mut u64,
) -> u32 {
    let (borders, imprints, dictionary) = unsafe { (read(borders, b), read(imprints, i), read(dictionary, d)) };
    let (card, out) = unsafe { (lent(card, c), lent(out, 2)) };
    let index = Index { borders: borders.to_vec(), imprints: imprints.to_vec(), dictionary: dictionary.to_vec() };
    let answer = card_written(rows, &index, c);
    if fault("card-blocks-that-fit-written-before-4") && number(&answer) == 4 {
        put(card, &plain_card::image(rows, &index)[..c / BLOCK * BLOCK]);
    }
    let image = answer.clone().unwrap_or_default();
    out.copy_from_slice(&[needed(&answer), image.len() as u64]);
    put(card, &image);
    number(&answer)
}

fn card_two(block: &[u8], at: usize) -> usize {
    u16::from_le_bytes([block[at], block[at + 1]]) as usize
}

fn card_four(block: &[u8], at: usize) -> u32 {
    u32::from_le_bytes(block[at..at + 4].try_into().unwrap())
}

fn card_sound(block: &[u8]) -> bool {
    if block.len() != BLOCK {
        return false;
    }
    let (right, told) = (card_check(block), &block[CHECKED..]);
    if fault("card-check-by-its-remainder") {
        return [0, 2].iter().all(|&at| card_two(&right, at) % 65_535 == card_two(told, at) % 65_535);
    }
    right == told
}

fn card_in_place(block: &[u8], state: &State) -> bool {
    let total = if fault("card-total-in-32-bits") { state.total() as u32 as u128 } else { state.total() };
    let left = total.saturating_sub(state.before()).min(PAYLOAD as u128) as usize;
    let length = card_two(block, 8);
    let due = card_four(block, 0) as u64;
    let by_its_low_half = fault("card-due-by-its-low-half") && due == state.due as u32 as u64;
    let named = due == state.due || by_its_low_half || fault("card-number-not-looked-at");
    let measured = if fault("card-last-by-its-own-length") { length <= left } else { length == left };
    let zeros = card_two(block, 10) == 0 || fault("card-zero-bytes-not-looked-at");
    let filled = fault("card-filler-not-looked-at") || block[12..CHECKED].iter().skip(length).all(|&byte| byte == 0);
    let not_past = left != 0 || fault("card-extra-block-taken");
    named && measured && zeros && filled && not_past
}

fn card_short(state: &State, spaces: &Index) -> Option<No> {
    if fault("card-4-by-the-last-space") && (spaces.dictionary.len() as u64) < state.dictionary {
        return Some(No::short(state.dictionary as usize));
    }
    plain_card::short(state, spaces)
}

/// An imprint of which the block has the first half loses the other one.
fn card_half_cleared(state: &State, words: &mut Index, length: usize) {
    let to = (state.before() as usize + length).saturating_sub(16 + 4 * words.borders.len());
    if to % 8 == 4 && to / 8 < words.imprints.len() {
        words.imprints[to / 8] &= 0xFFFF_FFFF;
    }
}

/// The answer, and what stands in the spaces where that is not what the answer says.
fn card_fed(block: &[u8], state: State, spaces: &Index) -> (Result<Fed, No>, Option<Index>) {
    let bad = |number| (Err(No::at(number, state.due)), None);
    let other_edition = block.len() == BLOCK && card_four(block, 4) != EDITION;
    if fault("card-14-before-the-check") && other_edition {
        return bad(14);
    }
    if !card_sound(block) {
        return bad(15);
    }
    if other_edition {
        return bad(14);
    }
    let told = if state.due == 0 { State::header(block) } else { state };
    let after = State { due: told.due.wrapping_add(1), ..told };
    if !card_in_place(block, &told) {
        return bad(15);
    }
    if fault("card-2-before-the-last-block") && plain::ROWS_AT_MOST as u64 <= told.rows.saturating_sub(1) {
        return (Err(No::of(2)), None);
    }
    if let Some(no) = card_short(&told, spaces) {
        return (Err(no), None);
    }
    if told.total() <= told.before() {
        return (Ok(Fed { ended: true, state: after, spaces: spaces.clone() }), None);
    }
    let length = card_two(block, 8);
    let mut words = plain_card::laid(&told, &plain_card::told(&told, spaces), &block[12..12 + length]);
    if fault("card-other-half-cleared") {
        card_half_cleared(&told, &mut words, length);
    }
    let mut ended = told.total() <= told.before() + PAYLOAD as u128;
    if fault("card-last-by-its-own-length") {
        ended |= length < PAYLOAD;
    }
    let spaces_after = plain_card::put_back(&words, spaces);
    if let (true, Err(no)) = (ended, plain_card::is_index(told.rows, &words)) {
        let block = if fault("card-block-beside-3") { state.due } else { 0 };
        return (Err(No { block, ..no }), fault("card-words-before-3").then_some(spaces_after));
    }
    if fault("card-full-block-never-last") && length == PAYLOAD {
        ended = false;
    }
    (Ok(Fed { ended, state: after, spaces: spaces_after }), None)
}

#[no_mangle]
pub unsafe extern "C" fn mgz_card_feed(
    block: *const u8,
    n: usize,
    due: u64,
    rows: u64,
    borders_count: u64,
    imprints_count: u64,
    dictionary_count: u64,
    borders: *mut i32,
    b: usize,
    imprints: *mut u64,
    i: usize,
    dictionary: *mut u32,
    d: usize,
    out: *mut u64,
) -> u32 {
    let (block, out) = unsafe { (read(block, n), lent(out, 8)) };
    let (borders, imprints, dictionary) = unsafe { (lent(borders, b), lent(imprints, i), lent(dictionary, d)) };
    let spaces = Index { borders: borders.to_vec(), imprints: imprints.to_vec(), dictionary: dictionary.to_vec() };
    let state = State { due, rows, borders: borders_count, imprints: imprints_count, dictionary: dictionary_count };
    let (answer, written) = card_fed(block, state, &spaces);
    out.fill(0);
    match &answer {
        Ok(fed) => {
            out[2] = fed.ended as u64;
            out[3..].copy_from_slice(&fed.state.words());
        }
        Err(no) => {
            out[..2].copy_from_slice(&[no.needed, no.block]);
            if fault("card-state-at-a-refusal") {
                out[3..].copy_from_slice(&state.words());
            }
        }
    }
    let after = written.or(answer.as_ref().ok().map(|fed| fed.spaces.clone())).unwrap_or(spaces);
    put(borders, &after.borders);
    put(imprints, &after.imprints);
    put(dictionary, &after.dictionary);
    number(&answer)
}
