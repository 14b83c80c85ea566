//! Document 01's examples, and what document 02 says of append and of faults, of the plain implementation.
use crate::inputs::{in_spaces, LOWEST};
use crate::mapped::Zeros;
use crate::plain::*;
use std::collections::HashSet;

fn column_a() -> Vec<i32> {
    let mut column = vec![5; 32];
    column.extend([20; 8]);
    column
}

fn search_a(low: i32, high: i32) -> Found {
    let (column, index) = (column_a(), index(&column_a()));
    search(&column, &index.borders, &index.imprints, &index.dictionary, low, high, 40).unwrap()
}

fn found(rows: std::ops::Range<u32>, skipped: u64, whole: u64, compared: u64) -> Found {
    let ids = rows.collect();
    Found { ids, skipped, whole, compared }
}

#[test]
fn p1_p2_index_of_a() {
    let index = index(&column_a());
    assert_eq!(index.borders, [5, 20]);
    assert_eq!(line_imprints(&column_a(), &index.borders), [2, 2, 4]);
    assert_eq!(index.dictionary, [16777218, 1]);
    assert_eq!(index.imprints, [2, 4]);
    let spaces = [2, 2, 2];
    assert_eq!(build(&column_a(), spaces), Ok(index));
}

#[test]
fn p3_to_p7_ranges_of_a() {
    assert_eq!(search_a(5, 5), found(0..32, 1, 0, 32));
    assert_eq!(search_a(5, 19), found(0..32, 1, 2, 0));
    assert_eq!(search_a(20, i32::MAX), found(32..40, 2, 1, 0));
    assert_eq!(search_a(6, 19), found(0..0, 1, 0, 32));
    assert_eq!(search_a(-1, 4), found(0..0, 3, 0, 0));
    assert_eq!(search_a(20, 20), found(32..40, 2, 0, 8));
}

#[test]
fn p8_column_of_a_hundred() {
    let column: Vec<i32> = (0..100).collect();
    let index = index(&column);
    assert_eq!(index.borders.len(), 63);
    assert_eq!(index.borders[..6], [0, 1, 3, 4, 6, 8]);
    assert_eq!(index.borders[61..], [98, 99]);
    assert_eq!(line_imprints(&column, &index.borders)[0], 2046);
}

fn words(filter: Filter) -> Vec<u32> {
    let mut words = filter.layout();
    assert!(words.len() as u64 <= filter_words(filter.room));
    words.resize(filter_words(filter.room) as usize, 77);
    words
}

fn fresh_words(levels: u32, room: u32) -> Vec<u32> {
    words(fresh(levels, room, filter_words(room) as usize).unwrap())
}

fn splits_of(words: &[u32]) -> u64 {
    read(words).unwrap()[3]
}

fn remembered(words: &[u32]) -> Vec<usize> {
    let empty = Filter::meant(words).unwrap().empty;
    (0..empty.len()).filter(|&key| empty[key]).collect()
}

#[test]
fn p9_learn_ask_arrive() {
    let w = words(learn(&fresh_words(4, 7), 12, 15).unwrap());
    assert_eq!(w[..8], [4, 7, 0, 3, 0, 3, 0, 1]);
    assert_eq!(splits_of(&w), 2);
    assert_eq!(ask(&w, 13, 13), Ok(false));
    assert_eq!(ask(&w, 11, 12), Ok(true));
    let w = words(learn(&w, 8, 11).unwrap());
    assert_eq!(splits_of(&w), 1);
    let w = words(arrive(&w, 9).unwrap());
    assert_eq!(remembered(&w), []);
}

#[test]
fn p10_room() {
    assert_eq!(splits_of(&words(learn(&fresh_words(4, 7), 7, 8).unwrap())), 7);
    assert_eq!(learn(&fresh_words(4, 6), 7, 8).unwrap_err().number, 9);
}

#[test]
fn p11_one_key() {
    let w = words(learn(&fresh_words(4, 7), 0, 4).unwrap());
    assert_eq!(splits_of(&w), 4);
    let w = words(learn(&w, 6, 15).unwrap());
    assert_eq!(splits_of(&w), 4);
}

#[test]
fn p12_forget() {
    let w = words(learn(&fresh_words(4, 7), 12, 15).unwrap());
    let w = words(forget(&w).unwrap());
    assert_eq!(remembered(&w), []);
    assert_eq!(read(&w), Ok([4, 7, 0, 0]));
    assert_eq!(forget(&w).unwrap_err().number, 10);
}

#[test]
fn samples_and_lengths() {
    assert_eq!(sample(&vec![1; 2048]).len(), 2048);
    assert_eq!(sample(&vec![1; 2049]).len(), 1025);
    let nothing = Index { borders: vec![], imprints: vec![], dictionary: vec![] };
    assert_eq!(build(&[], [0, 0, 0]), Ok(nothing));
    assert_eq!(build(&vec![0; 16_777_217], [63, 9, 9]).unwrap().dictionary, [REPEAT + 1_048_577]);
    assert_eq!(build(&Zeros::of(4_294_967_296), [63, 9, 9]).unwrap_err().number, 2);
}

/// Request 107 with small largest counts: runs that fill entries, what is left of them, and singles beyond a full entry.
#[test]
fn entries_fill_up() {
    const R: u32 = REPEAT;
    type Case<'a> = (usize, &'a [u64], &'a [u64], &'a [u32]);
    let cases: [Case; 20] = [
        (3, &[], &[], &[]),
        (3, &[5], &[5], &[1]),
        (3, &[5, 5, 5], &[5], &[R + 3]),
        (3, &[5, 5, 5, 5], &[5, 5], &[R + 3, 1]),
        (3, &[5, 5, 5, 5, 5], &[5, 5], &[R + 3, R + 2]),
        (3, &[5, 5, 5, 5, 5, 5], &[5, 5], &[R + 3, R + 3]),
        (3, &[5, 5, 5, 5, 5, 5, 5], &[5, 5, 5], &[R + 3, R + 3, 1]),
        (3, &[5, 5, 5, 6], &[5, 6], &[R + 3, 1]),
        (3, &[5, 5, 5, 5, 6], &[5, 5, 6], &[R + 3, 1, 1]),
        (3, &[5, 5, 5, 5, 6, 5], &[5, 5, 6, 5], &[R + 3, 1, 2]),
        (3, &[5, 5, 5, 5, 6, 6], &[5, 5, 6], &[R + 3, 1, R + 2]),
        (3, &[6, 5, 5, 5, 5, 6], &[6, 5, 5, 6], &[1, R + 3, 1, 1]),
        (3, &[5, 6, 5], &[5, 6, 5], &[3]),
        (3, &[5, 6, 5, 6], &[5, 6, 5, 6], &[3, 1]),
        (3, &[5, 6, 5, 6, 6], &[5, 6, 5, 6], &[3, R + 2]),
        (3, &[5, 6, 5, 6, 5, 6, 7, 7], &[5, 6, 5, 6, 5, 6, 7], &[3, 3, R + 2]),
        (2, &[5, 5, 5], &[5, 5], &[R + 2, 1]),
        (2, &[5, 5, 5, 6, 7, 8], &[5, 5, 6, 7, 8], &[R + 2, 1, 2, 1]),
        (2, &[6, 5, 5, 5, 5, 5], &[6, 5, 5, 5], &[1, R + 2, R + 2, 1]),
        (7, &[5, 5, 5, 6, 7, 8], &[5, 6, 7, 8], &[R + 3, 3]),
    ];
    for (largest, list, imprints, dictionary) in cases {
        assert_eq!(packing_with(largest, list), (imprints.to_vec(), dictionary.to_vec()), "{list:?} in entries of {largest}");
    }
}

/// With entries of up to 2, 3 and 4 lines: of all small dictionaries over small imprints those are accepted that are the packing of a list,
/// each list's packing is among them, and no two of them stand for the same.
#[test]
fn packings_alone_are_accepted() {
    fn lists(words: usize, length: u32) -> impl Iterator<Item = Vec<u64>> {
        (0..words.pow(length)).map(move |code| (0..length).map(|i| (code / words.pow(i) % words) as u64 + 1).collect())
    }
    for largest in 2..5 {
        let packed: Vec<_> = (0..8).flat_map(|length| lists(2, length)).map(|list| (packing_with(largest, &list), list)).collect();
        for ((imprints, dictionary), list) in &packed {
            let back = accepted_with(largest, &[0], imprints, dictionary, list.len() as u64).expect("a packing");
            assert_eq!(each_word(&back).collect::<Vec<u64>>(), *list);
        }
        let packings: HashSet<_> = packed.into_iter().map(|(packing, _)| packing).collect();
        // Entries 1 to 5 as they stand, 6 to 10 as repeat entries of one less, so also of 0 and of more than the largest count.
        let entry = |code: u64| if code < 6 { code as u32 } else { REPEAT + code as u32 - 6 };
        let mut accepted = 0;
        for dictionary in (0..5).flat_map(|length| lists(11, length)).map(|codes| codes.into_iter().map(entry).collect::<Vec<u32>>()) {
            let lines: u64 = dictionary.iter().map(|word| (word & COUNT) as u64).sum();
            let kept = dictionary.iter().map(|word| if word & REPEAT == 0 { word & COUNT } else { 1 }).sum();
            if 7 < lines || 6 < kept {
                continue;
            }
            for imprints in lists(2, kept) {
                let taken = accepted_with(largest, &[0], &imprints, &dictionary, lines).is_some();
                let packing = packings.contains(&(imprints.clone(), dictionary.clone()));
                assert_eq!(taken, packing, "{imprints:?} {dictionary:?} in entries of {largest}");
                accepted += taken as usize;
            }
        }
        assert!(100 < accepted, "{accepted}");
    }
}

fn appended(column: &[i32], covered: usize, old: &Index) -> Index {
    let lines = lines(column.len());
    append(column, covered as u64, &in_spaces(old, [lines, lines])).unwrap()
}

/// Whatever part was covered, the borders of the whole carried: what build gives. With those of the part, in pieces or at once: the same.
#[test]
fn append_is_building_with_the_borders_carried() {
    let column: Vec<i32> = (0..130).map(|row| row * row % 11).collect();
    let whole = index(&column);
    for covered in 0..=column.len() {
        let old = carried(&column[..covered], &whole.borders);
        assert_eq!(appended(&column, covered, &old), whole);
        let own = index(&column[..covered]);
        for middle in covered..=column.len() {
            let first = appended(&column[..middle], covered, &own);
            assert_eq!(appended(&column, middle, &first), appended(&column, covered, &own));
        }
    }
}

#[test]
fn faults_are_left_out_of_the_sample() {
    assert_eq!(sample(&[3, FAULT, 4, FAULT]), [3, 4]);
    assert_eq!(borders(&[FAULT; 40]), []);
    let halves = |even, odd| (0..2049).map(|row| if row % 2 == 0 { even } else { odd }).collect::<Vec<i32>>();
    assert_eq!(sample(&halves(FAULT, 7)), []);
    assert_eq!(sample(&halves(7, FAULT)), [7; 1025]);
}

/// Whatever the borders: bin 0, which is never an inner one, and no match.
#[test]
fn faults_lie_in_bin_0() {
    for borders in [vec![], vec![5, 20], vec![FAULT], vec![FAULT, FAULT + 1], vec![FAULT, 0], (FAULT..FAULT + 63).collect()] {
        assert_eq!(bin(&borders, FAULT), 0);
        for (low, high) in LOWEST {
            let (mask, inner) = masks(&borders, low, high);
            assert!(!matches(FAULT, low, high));
            assert_eq!(inner & !mask, 0);
            assert_eq!(inner & 1, 0);
            assert!(mask & 1 == 1 || low != FAULT);
        }
    }
    assert_eq!(masks(&[], FAULT, i32::MAX), (1, 0));
    assert_eq!(masks(&[5], FAULT, i32::MAX), (3, 2));
    assert_eq!(masks(&[FAULT], FAULT, i32::MAX), (3, 2));
    assert_eq!(masks(&[FAULT], FAULT + 1, i32::MAX), (2, 0));
    assert_eq!(masks(&[FAULT], FAULT, FAULT), (1, 0));
}
