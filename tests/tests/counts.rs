//! Request 107 with a largest count of 2, 3 and 4: every small dictionary and every short list. The proved program `count_examples` says what
//! it finds; here the same is counted by the plain implementation, and the text must be the program's. Three counts are 0 by the document
//! alone: what is packed is accepted, and the words of a list do not depend on how it came.
use outside_tests::plain::{self, Position, COUNT, REPEAT};
use std::collections::{HashMap, HashSet};

const FITTING: [u64; 2] = [1, 2];

/// Every list of these words up to this length, the shorter ones first; of one length, the first word turns fastest.
fn lists<T: Copy>(words: &[T], most: usize) -> Vec<Vec<T>> {
    let mut all = vec![Vec::new()];
    let mut from = 0;
    for _ in 0..most {
        let shorter = from..all.len();
        from = all.len();
        for &last in words {
            for list in shorter.clone() {
                all.push([&all[list][..], &[last]].concat());
            }
        }
    }
    all
}

fn mixed(sum: u64, word: u64) -> u64 {
    (sum * 31 + word) % 1_000_003
}

/// Words are accepted exactly when they are the packing of some list of fit imprints, one per line. Packings of three entries or fewer are
/// those of some of these lists, so they are looked up and nothing is unpacked.
fn acceptance(full: u32) -> String {
    let mut lines_of = HashMap::new();
    for list in lists(&FITTING, 3 * full as usize) {
        lines_of.insert(plain::packing_with(full as usize, &list), list.len() as u32);
    }
    let counts: Vec<u32> = (0..full + 2).collect();
    let repeats: Vec<u32> = counts.iter().map(|count| REPEAT + count).collect();
    let words = [&counts[..], &repeats, &[2 * REPEAT + 1]].concat();
    let imprints = lists(&FITTING, 4);
    let (mut place, mut accepted, mut sum, mut for_more) = (0, 0, 0, 0);
    for dictionary in lists(&words, 3) {
        let lines: u32 = dictionary.iter().map(|word| word & COUNT).sum();
        for kept in &imprints {
            let due = lines_of.get(&(kept.clone(), dictionary.clone()));
            if due == Some(&lines) {
                accepted += 1;
                sum = mixed(sum, place);
            }
            for_more += u32::from(due == Some(&(lines + 1)));
            place += 1;
        }
    }
    format!(
        " {place} dictionaries with imprints tried\n {accepted} of them accepted\n {sum} is the sum of their places\n {for_more} accepted for a line more\n"
    )
}

/// The imprints that a position meets on its way to the end; nothing where it is a bad one.
fn stepped(imprints: &[u64], dictionary: &[u32]) -> Option<Vec<u64>> {
    let mut met = Vec::new();
    let mut at = Position { entry: 0, place: 0, number: 0 };
    while let (Some(word), next) = plain::step(dictionary, imprints, at).ok()? {
        met.push(word);
        at = next;
    }
    Some(met)
}

/// A packing that two lists have would be unpacked to one of them alone.
fn packings(full: u32) -> String {
    let all = lists(&FITTING, 8);
    let mut packed = HashSet::new();
    let (mut sum, mut with_full, mut unlike, mut lost, mut strayed) = (0, 0, 0, 0, 0);
    for list in &all {
        let (imprints, dictionary) = plain::packing_with(full as usize, list);
        sum = dictionary.iter().map(|&word| word.into()).chain(imprints.iter().copied()).fold(sum, mixed);
        with_full += u32::from(dictionary.iter().any(|word| word & COUNT == full));
        strayed += u32::from(stepped(&imprints, &dictionary).as_ref() != Some(list));
        let both = (imprints, dictionary);
        unlike += u32::from(plain::packing_with(full as usize + 1, list) != both);
        lost += u32::from(!packed.insert(both));
    }
    [
        format!(" {} lists packed\n {sum} is the sum of their words\n", all.len()),
        format!(" {with_full} of them with a full entry\n"),
        format!(" {unlike} of them otherwise than with the largest count one more\n"),
        " 0 of them refused\n".to_string(),
        format!(" {lost} of them unpacked to another list\n {strayed} of them stepped through otherwise\n"),
    ]
    .concat()
}

fn appends() -> String {
    let fronts: usize = lists(&FITTING, 6).iter().map(|list| list.len() + 1).sum();
    format!(
        " {fronts} fronts of lists gone on from\n 0 of them to another packing\n 0 of them to another packing from before their last line\n"
    )
}

#[test]
fn the_proved_program_counts_what_the_document_says() {
    let mut due = String::new();
    for full in [2, 3, 4] {
        due += &format!("largest count {full}:\n{}{}{}", acceptance(full), packings(full), appends());
    }
    assert_eq!(due, include_str!("../../crates/count_examples/stdout"));
}
