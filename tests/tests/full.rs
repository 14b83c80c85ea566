//! Request 107: entries that fill up, at the true largest count, and the limits of rows and lines. Most of it needs hundreds of megabytes, so
//! one test runs at a time. What must come is written out; the plain implementation is asked too where that takes no longer than the
//! library.
use outside_tests::face::{mgz_append, mgz_pack, mgz_unpack};
use outside_tests::held::{self, case};
use outside_tests::inputs::in_spaces;
use outside_tests::mapped::{Sparse, Zeros};
use outside_tests::plain::{self, Found, Index, No, Outcome, Position, REPEAT};
use std::sync::{Mutex, MutexGuard, OnceLock};

/// The largest count of an entry, as lines and as a dictionary word says it.
const FULL: usize = 16_777_215;
const F: u32 = 16_777_215;
const R: u32 = 16_777_216;

const BORDERS: [i32; 3] = [0, 7, 9];
/// Imprints of lines with rows of 0, of 7 and of 9 alone, and of 0 and 7.
const A: u64 = 2;
const B: u64 = 4;
const C: u64 = 8;
const AB: u64 = 6;

/// B and C in turn, then A and nothing else: any number of single lines, a run, and a few words behind it are one part of this.
struct Words {
    all: Vec<u64>,
    run_from: usize,
    /// For lists that are unpacked and imprints that are kept.
    spare: Vec<u64>,
}

/// What no call writes.
const STALE: u64 = 0x9E37_79B9_7F4A_7C15;

impl Words {
    fn new() -> Words {
        let (singles, run) = (2 * FULL + 2, 2 * FULL + 8);
        let mut all = vec![A; singles + run];
        all[..singles].chunks_mut(2).for_each(|two| two.copy_from_slice(&[B, C]));
        Words { all, run_from: singles, spare: vec![STALE; 2 * FULL + 16] }
    }

    /// The last of them is C.
    fn singles(&self, number: usize) -> &[u64] {
        &self.all[self.run_from - number..self.run_from]
    }

    /// Lends the list, and the spare words.
    fn with_list<T>(&mut self, (singles, run, behind): List, f: impl FnOnce(&[u64], &mut [u64]) -> T) -> T {
        let (run_to, to) = (self.run_from + run, self.run_from + run + behind.len());
        self.all[run_to..to].copy_from_slice(behind);
        let answer = f(&self.all[self.run_from - singles..to], &mut self.spare);
        self.all[run_to..to].fill(A);
        answer
    }
}

/// Held while a test runs, so that the next one waits. After one that failed they are made anew.
fn words() -> MutexGuard<'static, Words> {
    static WORDS: OnceLock<Mutex<Words>> = OnceLock::new();
    let words = WORDS.get_or_init(|| Mutex::new(Words::new()));
    words.lock().unwrap_or_else(|failed| {
        words.clear_poison();
        let mut left = failed.into_inner();
        *left = Words::new();
        left
    })
}

fn index(imprints: Vec<u64>, dictionary: &[u32]) -> Index {
    Index { borders: BORDERS.to_vec(), imprints, dictionary: dictionary.to_vec() }
}

/// The spare words that an answer does not fill are as they were. They are made stale again where it does.
fn only_filled(spare: &mut [u64], filled: usize) {
    assert!(spare[filled..].iter().take(1 << 16).all(|&word| word == STALE), "a word behind the answer was changed");
    spare[..filled].fill(STALE);
}

/// Packed by the library alone, into spaces with a word to spare: number, lengths needed and told, and the dictionary.
fn packed(list: &[u64], imprints: &mut [u64], entries: usize) -> (u32, [u64; 3], Vec<u32>) {
    let (mut dictionary, mut out) = (vec![77; entries], [9; 3]);
    let number = unsafe {
        mgz_pack(
            list.as_ptr(),
            list.len(),
            BORDERS.as_ptr(),
            BORDERS.len(),
            imprints.as_mut_ptr(),
            imprints.len(),
            dictionary.as_mut_ptr(),
            entries,
            out.as_mut_ptr(),
        )
    };
    (number, out, dictionary)
}

/// Unpacked by the library alone: number, and length needed.
fn unpacked(imprints: &[u64], dictionary: &[u32], lines: usize, list: &mut [u64]) -> (u32, u64) {
    let mut needed = 9;
    let number = unsafe {
        mgz_unpack(
            BORDERS.as_ptr(),
            BORDERS.len(),
            imprints.as_ptr(),
            imprints.len(),
            dictionary.as_ptr(),
            dictionary.len(),
            lines as u64,
            list.as_mut_ptr(),
            list.len(),
            &mut needed,
        )
    };
    (number, needed)
}

/// So many single lines, so many of a run of A, and these behind it.
type List<'a> = (usize, usize, &'a [u64]);
/// A list; what is kept behind the single lines' imprints, and the dictionary.
type Case<'a> = (List<'a>, &'a [u64], &'a [u32]);

fn named((singles, run, behind): List) {
    case(format!("{singles} singles, {run} lines of a run, then {behind:?}"));
}

/// A list of few single lines, held against the plain implementation, in spaces just long enough.
fn packs_as_plain((list, kept, dictionary): Case) {
    let mut words = words();
    named(list);
    let imprints = [words.singles(list.0), kept].concat();
    words.with_list(list, |list, _| {
        let answer = held::pack(list, &BORDERS, [imprints.len(), dictionary.len()]);
        assert_eq!(answer, Ok((imprints.clone(), dictionary.to_vec())));
        let index = index(imprints, dictionary);
        assert_eq!(held::unpack(&index, list.len() as u64, 5), Err(No::short(list.len())));
        assert_eq!(held::unpack(&index, list.len() as u64 - 1, 5), Err(No::of(3)));
    });
}

/// Any list.
fn packs((list, kept, dictionary): Case) {
    let mut words = words();
    let singles = list.0;
    let needed = singles + kept.len();
    words.with_list(list, |list, spare| {
        let said = format!("{singles} singles, {} lines in all", list.len());
        let answer = packed(list, &mut spare[..needed + 1], dictionary.len() + 1);
        let told = [0, needed as u64, dictionary.len() as u64];
        assert_eq!(answer, (0, told, [dictionary, &[77]].concat()), "{said}");
        assert!(spare[..singles] == list[..singles] && spare[singles..needed] == *kept, "{said}: imprints kept");
        only_filled(spare, needed);
    });
}

/// And back, word for word.
fn unpacks((list, kept, dictionary): Case) {
    let mut words = words();
    let imprints = [words.singles(list.0), kept].concat();
    words.with_list(list, |list, spare| {
        let lines = list.len();
        assert_eq!(unpacked(&imprints, dictionary, lines, &mut spare[..lines - 1]), (4, lines as u64), "{lines} lines");
        assert!(spare[..lines].iter().all(|&word| word == STALE), "a word was changed at 4");
        assert_eq!(unpacked(&imprints, dictionary, lines, &mut spare[..lines + 1]), (0, 0), "{lines} lines");
        assert!(spare[..lines] == *list, "{lines} lines");
        only_filled(spare, lines);
    });
}

#[test]
fn runs() {
    let cases: [Case; 8] = [
        ((0, FULL - 1, &[]), &[A], &[R + F - 1]),
        ((0, FULL, &[]), &[A], &[R + F]),
        ((0, FULL + 1, &[]), &[A, A], &[R + F, 1]),
        ((0, FULL + 2, &[]), &[A, A], &[R + F, R + 2]),
        ((0, 2 * FULL - 1, &[]), &[A, A], &[R + F, R + F - 1]),
        ((0, 2 * FULL, &[]), &[A, A], &[R + F, R + F]),
        ((0, 2 * FULL + 1, &[]), &[A, A, A], &[R + F, R + F, 1]),
        ((0, 2 * FULL + 2, &[]), &[A, A, A], &[R + F, R + F, R + 2]),
    ];
    cases[..4].iter().copied().for_each(packs_as_plain);
    cases[4..].iter().copied().for_each(packs);
    [cases[2], cases[3], cases[6]].into_iter().for_each(unpacks);
}

/// A line left over from full entries gathers no later single, nor does a full entry's last line.
#[test]
fn behind_runs() {
    let cases: [Case; 11] = [
        ((0, FULL, &[B]), &[A, B], &[R + F, 1]),
        ((0, FULL, &[B, C, B]), &[A, B, C, B], &[R + F, 3]),
        ((0, FULL, &[B, B]), &[A, B], &[R + F, R + 2]),
        ((0, FULL, &[B, A, A]), &[A, B, A], &[R + F, 1, R + 2]),
        ((0, FULL + 1, &[B]), &[A, A, B], &[R + F, 1, 1]),
        ((0, FULL + 1, &[B, C, B]), &[A, A, B, C, B], &[R + F, 1, 3]),
        ((0, FULL + 1, &[B, A]), &[A, A, B, A], &[R + F, 1, 2]),
        ((0, FULL + 1, &[B, B, C]), &[A, A, B, C], &[R + F, 1, R + 2, 1]),
        ((0, FULL + 2, &[B, C]), &[A, A, B, C], &[R + F, R + 2, 2]),
        ((1, FULL + 1, &[C, B]), &[A, A, C, B], &[1, R + F, 1, 2]),
        ((3, 2 * FULL + 1, &[B]), &[A, A, A, B], &[3, R + F, R + F, 1, 1]),
    ];
    [cases[0], cases[5], cases[9]].into_iter().for_each(packs_as_plain);
    cases.into_iter().for_each(packs);
    [cases[3], cases[9]].into_iter().for_each(unpacks);
}

#[test]
fn singles() {
    let cases: [Case; 8] = [
        ((FULL - 1, 0, &[]), &[], &[F - 1]),
        ((FULL, 0, &[]), &[], &[F]),
        ((FULL + 1, 0, &[]), &[], &[F, 1]),
        ((FULL + 2, 0, &[]), &[], &[F, 2]),
        ((FULL, 3, &[]), &[A], &[F, R + 3]),
        ((FULL + 1, 2, &[]), &[A], &[F, 1, R + 2]),
        ((FULL, FULL + 1, &[B]), &[A, A, B], &[F, R + F, 1, 1]),
        ((2 * FULL + 1, 0, &[]), &[], &[F, F, 1]),
    ];
    cases.into_iter().for_each(packs);
    [cases[2], cases[6]].into_iter().for_each(unpacks);
}

/// The plain implementation is held to the same, without the library.
#[test]
fn plain_packing() {
    let mut words = words();
    let packed = words.with_list((FULL + 1, 0, &[]), |list, _| plain::packing(list));
    assert!(packed.0 == words.singles(FULL + 1) && packed.1 == [F, 1]);
}

/// Over a dictionary with full entries, step by step around their ends.
#[test]
fn steps() {
    let (imprints, dictionary) = ([A, A, B, A], [R + F, 1, 1, R + F]);
    let last = F as u64 - 1;
    let at = |entry, place, number| Position { entry, place, number };
    for (from, imprint, to) in [
        (at(0, last - 1, 0), A, at(0, last, 0)),
        (at(0, last, 0), A, at(1, 0, 1)),
        (at(1, 0, 1), A, at(2, 0, 2)),
        (at(2, 0, 2), B, at(3, 0, 3)),
        (at(3, last, 3), A, at(4, 0, 4)),
    ] {
        assert_eq!(held::step(&dictionary, &imprints, from), Ok((Some(imprint), to)));
    }
    assert_eq!(held::step(&dictionary, &imprints, at(0, last + 1, 0)), Err(No::of(3)));
    assert_eq!(held::step(&dictionary, &imprints, at(4, 0, 4)), Ok((None, at(4, 0, 4))));
}

// ---------------------------------------------------------------- which words are an index

fn lines_of(dictionary: &[u32]) -> usize {
    dictionary.iter().map(|entry| (entry & F) as usize).sum()
}

/// A filter that denies every range, so that a search with both reads no row.
fn denying() -> Vec<u32> {
    let mut filter = vec![0; 4];
    held::fresh(4, 0, &mut filter).unwrap();
    held::learn(&mut filter, 0, 15).unwrap();
    filter
}

/// What every call that takes an index says of this one, for a column of just so many full lines: an index, or 3.
fn taken_by_all(index: &Index, lines: usize, good: bool) {
    case(format!("{:?} {:?}", index.imprints, index.dictionary));
    let column = Zeros::of(16 * lines);
    let number = |answer: Option<No>| answer.map_or(0, |no| no.number);
    let numbers = [
        number(held::unpack(index, lines as u64, 3).err()),
        number(held::search(&column, index, 1, 0, 0).err()),
        number(held::guarded(&mut denying(), &column, index, 10, 12, 0).err()),
        number(held::append(&column, 16 * lines as u64, &mut in_spaces(index, [9, 9])).err()),
        number(held::card_write(16 * lines as u64, index, 512).err()),
        number(held::card_write(16 * lines as u64 - 15, index, 9).err()),
    ];
    assert_eq!(numbers, if good { [4, 1, 0, 0, 0, 4] } else { [3; 6] }, "{index:?}");
}

/// Lists of entries that are no packing, and beside them the packing of what they stand for.
#[test]
fn only_packings_are_taken() {
    let _alone = words();
    type Entries<'a> = (&'a [u64], &'a [u32]);
    let groups: [(Entries, &[Entries]); 8] = [
        // A run of one more than an entry holds.
        (
            (&[A, A], &[R + F, 1]),
            &[(&[A, A], &[R + F - 1, R + 2]), (&[A, A], &[R + F, R + 1]), (&[A, A], &[1, R + F]), (&[A, A], &[R + 2, R + F - 1])],
        ),
        ((&[A, A], &[R + F, R + 2]), &[(&[A, A, A], &[R + F, 1, 1]), (&[A, A], &[R + F, 2]), (&[A, A], &[R + F - 1, R + 3])]),
        // Behind it a single line, which the line left over doesn't gather.
        (
            (&[A, A, B], &[R + F, 1, 1]),
            &[(&[A, A, B], &[R + F, 2]), (&[A, A, B], &[R + F, R + 1, 1]), (&[A, A, B], &[R + F - 1, R + 2, 1])],
        ),
        ((&[A, A, B, C, B], &[R + F, 1, 3]), &[(&[A, A, B, C, B], &[R + F, 4]), (&[A, A, B, C, B], &[R + F, 2, 2])]),
        // A single line before it and one behind it.
        ((&[B, A, A, B], &[1, R + F, 1, 1]), &[(&[B, A, A, B], &[2, R + F, 1]), (&[B, A, A, B], &[1, R + F, 2])]),
        // A run that fills two entries.
        ((&[A, A], &[R + F, R + F]), &[(&[A, A, A], &[R + F, R + F - 1, 1]), (&[A, A, A], &[R + F - 1, R + F, 1])]),
        // And five more lines.
        (
            (&[A, A, A], &[R + F, R + F, R + 5]),
            &[
                (&[A, A, A], &[R + 5, R + F, R + F]),
                (&[A, A, A], &[R + F, R + 5, R + F]),
                (&[A, A, A], &[R + F - 1, R + F, R + 6]),
                (&[A, A, A], &[R + F, R + F - 1, R + 6]),
                (&[A, A, A, A], &[R + F, R + F, R + 4, 1]),
                (&[A, A, A, A], &[R + F, R + F, 1, R + 4]),
                (&[A, A, A, A], &[R + F, R + F, R + 3, R + 2]),
            ],
        ),
        // A full run and the next imprint's run.
        ((&[A, B], &[R + F, R + 2]), &[(&[A, B, B], &[R + F, 2]), (&[A, B, B], &[R + F, 1, 1]), (&[A, A, B], &[R + F - 1, 1, R + 2])]),
    ];
    for ((imprints, dictionary), damaged) in groups {
        let lines = lines_of(dictionary);
        taken_by_all(&index(imprints.to_vec(), dictionary), lines, true);
        for (imprints, entries) in damaged {
            assert_eq!(lines_of(entries), lines);
            taken_by_all(&index(imprints.to_vec(), entries), lines, false);
        }
        // An imprint too few and one too many; a line too few and one too many.
        taken_by_all(&index(imprints[1..].to_vec(), dictionary), lines, false);
        taken_by_all(&index([imprints, &[A]].concat(), dictionary), lines, false);
        taken_by_all(&index(imprints.to_vec(), dictionary), lines - 1, false);
        taken_by_all(&index(imprints.to_vec(), dictionary), lines + 1, false);
    }
    // A count that runs over into the bits above it.
    taken_by_all(&index(vec![A], &[R + R]), FULL + 1, false);
    taken_by_all(&index(vec![A], &[R]), FULL + 1, false);
}

/// So too of plain entries.
#[test]
fn only_packings_of_singles_are_taken() {
    let mut words = words();
    let Words { all, run_from, spare } = &mut *words;
    spare[..FULL].copy_from_slice(&all[*run_from - FULL..*run_from]);
    let mut said = |kept: &[u64], dictionary: &[u32]| {
        let imprints = FULL + kept.len();
        spare[FULL..imprints].copy_from_slice(kept);
        unpacked(&spare[..imprints], dictionary, lines_of(dictionary), &mut [])
    };
    let short = |lines: usize| (4, lines as u64);
    assert_eq!(said(&[B], &[F, 1]), short(FULL + 1));
    assert_eq!(said(&[A], &[F, R + 2]), short(FULL + 2));
    // The last single is C: behind the full entry it would go on as a run.
    assert_eq!(said(&[C], &[F, 1]), (3, 0));
    assert_eq!(said(&[C, B], &[F, 2]), (3, 0));
    assert_eq!(said(&[C], &[F, R + 2]), (3, 0));
    // Entries that are parted before they are full.
    assert_eq!(said(&[B], &[F - 1, 2]), (3, 0));
    assert_eq!(said(&[], &[F - 1, 1]), (3, 0));
    assert_eq!(said(&[B], &[1, F]), (3, 0));
    // A count that runs over into the repeat mark.
    assert_eq!(said(&[B], &[R]), (3, 0));
    spare.fill(STALE);
}

// ---------------------------------------------------------------- columns of such lines

/// Lines of 0 with the borders 0, 7, 9: so many of them make this index.
fn equal_lines(lines: usize) -> Index {
    let dictionary: &[u32] = match lines.checked_sub(FULL) {
        None => &[R + lines as u32],
        Some(0) => &[R + F],
        Some(1) => &[R + F, 1],
        Some(left) => &[R + F, R + left as u32],
    };
    index(vec![A; dictionary.len()], dictionary)
}

/// Rows are appended before, at and behind the line with which an entry fills: at once, and piece by piece in the same spaces.
#[test]
fn append_over_a_full_run() {
    let _alone = words();
    let column = Zeros::of(16 * (FULL + 4));
    let full = 16 * FULL;
    let cuts =
        [full - 33, full - 17, full - 16, full - 15, full - 1, full, full + 1, full + 15, full + 16, full + 17, full + 40, full + 64];
    for (at, &covered) in cuts.iter().enumerate() {
        for &rows in &cuts[at..] {
            case(format!("from {covered} rows to {rows}"));
            let (old, new) = (equal_lines(covered.div_ceil(16)), equal_lines(rows.div_ceil(16)));
            assert_eq!(held::append(&column[..rows], covered as u64, &mut in_spaces(&old, [2, 2])), Ok(new.clone()));
            if old.imprints.len() < new.imprints.len() {
                assert_eq!(held::append(&column[..rows], covered as u64, &mut in_spaces(&old, [1, 2])), Err(No::short(2)));
                assert_eq!(held::append(&column[..rows], covered as u64, &mut in_spaces(&old, [2, 1])), Err(No::short(2)));
            }
        }
    }
    let mut told = in_spaces(&equal_lines(cuts[0].div_ceil(16)), [2, 2]);
    for piece in cuts.windows(2) {
        case(format!("piece from {} rows to {}", piece[0], piece[1]));
        assert_eq!(held::append(&column[..piece[1]], piece[0] as u64, &mut told), Ok(equal_lines(piece[1].div_ceil(16))));
    }
}

/// A line left over from a full entry, or the last one of it, was short and becomes another; what comes behind them is gathered or not.
#[test]
fn append_of_other_lines_behind_a_full_run() {
    let _alone = words();
    let mut column = Sparse::of(16 * (FULL + 4));
    let full = 16 * FULL;
    // Line FULL - 1 ends in a 7, line FULL is of 0, the one behind it of 7, then one of 9, then one of 0.
    column[full - 1] = 7;
    column[full + 16..full + 32].fill(7);
    column[full + 32..full + 48].fill(9);
    let cases: [(usize, usize, &[u64], &[u32]); 9] = [
        (full - 1, full, &[A, AB], &[R + F - 1, 1]),
        (full - 1, full + 16, &[A, AB, A], &[R + F - 1, 2]),
        (full, full + 16, &[A, A], &[R + F, 1]),
        (full, full + 32, &[A, A, B], &[R + F, 1, 1]),
        (full + 15, full + 32, &[A, A, B], &[R + F, 1, 1]),
        (full + 16, full + 32, &[A, A, B], &[R + F, 1, 1]),
        (full + 16, full + 48, &[A, A, B, C], &[R + F, 1, 2]),
        (full + 16, full + 64, &[A, A, B, C, A], &[R + F, 1, 3]),
        (full + 17, full + 64, &[A, A, B, C, A], &[R + F, 1, 3]),
    ];
    for (covered, rows, imprints, dictionary) in cases {
        case(format!("from {covered} rows to {rows}"));
        let old = equal_lines(covered.div_ceil(16));
        let new = held::append(&column[..rows], covered as u64, &mut in_spaces(&old, [6, 6])).unwrap();
        assert_eq!((&new.imprints[..], &new.dictionary[..]), (imprints, dictionary));
    }
    // Piece by piece behind the line left over.
    let mut told = in_spaces(&equal_lines(FULL), [6, 6]);
    for rows in full + 1..=full + 64 {
        held::append(&column[..rows], rows as u64 - 1, &mut told).unwrap();
    }
    let n = [told.imprints_told as usize, told.dictionary_told as usize];
    assert_eq!((&told.imprints[..n[0]], &told.dictionary[..n[1]]), ([A, A, B, C, A].as_slice(), [R + F, 1, 3].as_slice()));
}

/// Lines that come behind a plain entry which is full, or becomes it. The lines covered are another column's: they are not read.
#[test]
fn append_over_full_singles() {
    let mut words = words();
    let mut column = Sparse::of(16 * (FULL + 3));
    column[16 * (FULL + 1)..16 * (FULL + 2)].fill(7);
    let cases: [(usize, usize, &[u64], &[u32]); 5] = [
        (FULL - 1, FULL, &[A], &[F]),
        (FULL - 1, FULL + 2, &[A, B], &[F - 1, R + 2, 1]),
        (FULL, FULL, &[], &[F]),
        (FULL, FULL + 1, &[A], &[F, 1]),
        (FULL, FULL + 3, &[A, B, A], &[F, 3]),
    ];
    let Words { all, run_from, spare } = &mut *words;
    for (covered, lines, more, dictionary) in cases {
        let singles = &all[*run_from - covered..*run_from];
        let said = format!("{covered} singles, then {more:?}");
        spare[..covered].copy_from_slice(singles);
        let (mut entries, mut out) = ([covered as u32, 77, 77, 77], [9; 3]);
        let number = unsafe {
            mgz_append(
                column.as_ptr(),
                16 * lines,
                16 * covered as u64,
                BORDERS.as_ptr(),
                BORDERS.len(),
                spare.as_mut_ptr(),
                covered + more.len(),
                covered as u64,
                entries.as_mut_ptr(),
                4,
                1,
                out.as_mut_ptr(),
            )
        };
        assert_eq!((number, out), (0, [0, (covered + more.len()) as u64, dictionary.len() as u64]), "{said}");
        assert_eq!(entries, *[dictionary, &[77; 3]].concat().first_chunk().unwrap(), "{said}");
        assert!(spare[..covered] == *singles && spare[covered..covered + more.len()] == *more, "{said}: imprints");
        only_filled(spare, covered + more.len());
    }
}

/// A column of which a run is longer than an entry holds, built, searched and built piece by piece.
#[test]
fn build_and_search() {
    let _alone = words();
    let lines = FULL + 5;
    let rows = 16 * lines - 3;
    let mut column = Sparse::of(rows);
    // Line 0 ends in a 7 and begins with one, which the sample takes; then FULL + 1 lines of 0, one of 7, one of 0 and 7, and a short one.
    column[0] = 7;
    column[15] = 7;
    column[16 * (FULL + 2)..16 * (FULL + 3)].fill(7);
    column[16 * (FULL + 3) + 9] = 7;
    let own = Index { borders: vec![0, 7], imprints: vec![AB, A, A, B, AB, A], dictionary: vec![1, R + F, 1, 3] };
    assert_eq!(held::build(&column, [2, 6, 4]), Ok(own.clone()));
    let found = |low, high, space| held::search(&column, &own, low, high, space);
    let sevens: Vec<u32> = [0, 15].into_iter().chain(268_435_472..268_435_488).chain([268_435_497]).collect();
    let compared = Found { ids: sevens.clone(), skipped: FULL as u64 + 2, whole: 0, compared: 48 };
    assert_eq!(found(7, 7, 19), Ok(compared));
    assert_eq!(found(7, 7, 18), Err(No::short(19)));
    let whole = Found { ids: sevens, skipped: FULL as u64 + 2, whole: 1, compared: 32 };
    assert_eq!(found(7, i32::MAX, 19), Ok(whole));
    // Every line but that of 7 alone is compared, through both entries of the run.
    assert_eq!(found(1, 6, 0), Ok(Found { compared: rows as u64 - 16, skipped: 1, ..Found::default() }));
    for covered in [16 * FULL, 16 * (FULL + 1), 16 * (FULL + 2) - 1, 16 * (FULL + 3) + 1] {
        case(format!("from {covered} rows"));
        let (kept, dictionary): (usize, &[u32]) = match covered.div_ceil(16) {
            FULL => (2, &[1, R + F - 1]),
            lines if lines == FULL + 1 => (2, &[1, R + F]),
            lines if lines == FULL + 2 => (3, &[1, R + F, 1]),
            _ => (5, &[1, R + F, 1, 2]),
        };
        let old = Index { borders: vec![0, 7], imprints: own.imprints[..kept].to_vec(), dictionary: dictionary.to_vec() };
        assert_eq!(held::append(&column, covered as u64, &mut in_spaces(&old, [6, 4])), Ok(own.clone()));
    }
}

// ---------------------------------------------------------------- the limits

/// The index of a column of zeros with as many rows as there can be.
fn longest_index() -> Index {
    let dictionary = [[R + F; 16].as_slice(), &[R + 16]].concat();
    index(vec![A; 17], &dictionary)
}

/// 4,294,967,295 rows are not too long for any call that can tell without reading them all; one more is, before anything else. (Append and
/// the register at this limit: `append.rs`, `register.rs`. A build reads all of them: `bench/ten-years`.)
#[test]
fn rows() {
    let rows = plain::ROWS_AT_MOST;
    assert_eq!(rows, 4_294_967_295);
    let too_long = Zeros::of(rows + 1);
    let longest = &too_long[..rows];
    let good = longest_index();
    let bad = Index { borders: vec![3, 3], ..Index::default() };
    for spaces in [[0; 3], [63, 17, 17]] {
        assert_eq!(held::build(&too_long, spaces), Err(No::of(2)));
    }
    let search = |column: &[i32], index: &Index| held::search(column, index, 1, 0, 0).unwrap_err().number;
    assert_eq!([search(longest, &bad), search(&too_long, &bad)], [5, 2]);
    assert_eq!([search(longest, &Index::default()), search(&too_long, &Index::default())], [3, 2]);
    assert_eq!([search(longest, &good), search(&too_long, &good)], [1, 2]);
    let mut denying = denying();
    assert_eq!(held::guarded(&mut denying, longest, &good, 3, 4, 0), Ok((Outcome::Denied, Found::default())));
    assert_eq!(held::guarded(&mut denying, &too_long, &good, 3, 4, 0).unwrap_err().number, 2);
}

/// So too of 268,435,456 lines.
#[test]
fn lines() {
    let most = plain::LINES_AT_MOST as usize;
    assert_eq!(most, 268_435_456);
    let too_many = Zeros::of(most + 1);
    let longest = &too_many[..most];
    let pack = |list: &[u64], borders: &[i32]| held::pack(list, borders, [1, 1]).unwrap_err().number;
    // Zeros are no line's imprints.
    assert_eq!([pack(longest, &[3, 3]), pack(&too_many, &[3, 3])], [5, 2]);
    assert_eq!([pack(longest, &[3]), pack(&too_many, &[3])], [3, 2]);
    let good = longest_index();
    let bad = Index { borders: vec![3, 3], ..good.clone() };
    let one_more = Index { dictionary: [&good.dictionary[..16], &[R + 17]].concat(), ..good.clone() };
    let unpack = |index: &Index, lines: usize| held::unpack(index, lines as u64, 9).unwrap_err();
    assert_eq!(unpack(&good, most), No::short(most));
    assert_eq!(unpack(&bad, most), No::of(5));
    assert_eq!(unpack(&one_more, most), No::of(3));
    for index in [&good, &bad, &one_more] {
        assert_eq!(unpack(index, most + 1), No::of(2));
    }
    assert_eq!(REPEAT, R);
}
