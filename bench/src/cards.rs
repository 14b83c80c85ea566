//! An index on the card, written and read, beside plain Rust loops written for this purpose.
use crate::inputs::Dice;
use crate::seconds;
use miguzoryane::card::{self, State, BLOCK, EDITION, PAYLOAD};
use miguzoryane::{lines, pack, Index, BORDERS_AT_MOST};

const CHECKED: usize = BLOCK - 4;
const HEAD: usize = 12;
const HEADER: usize = 16;
const COUNT: u32 = (1 << 24) - 1;
const REPEAT: u32 = 1 << 24;

/// The check of a block as the document says it, the remainder taken once: neither sum passes 32 bits.
fn step_by_step(block: &[u8]) -> [u8; 4] {
    let (mut a, mut b) = (0u32, 0u32);
    for pair in block[..CHECKED].chunks_exact(2) {
        a += u16::from_le_bytes([pair[0], pair[1]]) as u32;
        b += a;
    }
    (a % 65_535 + 65_536 * (b % 65_535)).to_le_bytes()
}

/// The same, and no step waits for the one before: the second sum takes the first number 254 times, the next 253 times, and so on.
fn side_by_side(block: &[u8]) -> [u8; 4] {
    let (mut a, mut b) = (0u32, 0u32);
    for (at, pair) in block[..CHECKED].chunks_exact(2).enumerate() {
        let x = u16::from_le_bytes([pair[0], pair[1]]) as u32;
        a += x;
        b += (254 - at as u32) * x;
    }
    (a % 65_535 + 65_536 * (b % 65_535)).to_le_bytes()
}

/// A plain loop: how it sums, and whether it looks if the words are an index, as the library does.
trait Way {
    const TESTED: bool;
    fn check(block: &[u8]) -> [u8; 4];
}

struct SideBySide;
struct StepByStep;
struct Untested;

impl Way for SideBySide {
    const TESTED: bool = true;
    fn check(block: &[u8]) -> [u8; 4] {
        side_by_side(block)
    }
}

impl Way for StepByStep {
    const TESTED: bool = true;
    fn check(block: &[u8]) -> [u8; 4] {
        step_by_step(block)
    }
}

impl Way for Untested {
    const TESTED: bool = false;
    fn check(block: &[u8]) -> [u8; 4] {
        side_by_side(block)
    }
}

/// Borders that rise, fit imprints that differ from their neighbours, and entries as the packing has them.
fn is_index(rows: usize, index: Index<'_>) -> bool {
    let Index { borders, imprints, dictionary } = index;
    let fit = u64::MAX >> (BORDERS_AT_MOST - borders.len().min(BORDERS_AT_MOST));
    let good_borders = borders.len() <= BORDERS_AT_MOST && borders.windows(2).all(|pair| pair[0] < pair[1]);
    let good_imprints = imprints.iter().all(|&word| word != 0 && word & !fit == 0) && imprints.windows(2).all(|pair| pair[0] != pair[1]);
    let (mut listed, mut kept, mut plain_before) = (0, 0, false);
    for &entry in dictionary {
        let (count, repeats) = (entry & COUNT, entry & REPEAT != 0);
        if entry & !(REPEAT | COUNT) != 0 || count == 0 || repeats && count < 2 || !repeats && plain_before {
            return false;
        }
        listed += count as usize;
        kept += if repeats { 1 } else { count as usize };
        plain_before = !repeats;
    }
    good_borders && good_imprints && listed == lines(rows) && kept == imprints.len()
}

/// The words of an index, at the fronts of spaces that are there already.
struct Spaces {
    borders: Vec<i32>,
    imprints: Vec<u64>,
    dictionary: Vec<u32>,
}

impl Spaces {
    fn index(&self) -> Index<'_> {
        Index { borders: &self.borders, imprints: &self.imprints, dictionary: &self.dictionary }
    }
}

/// The words gathered as bytes, then the blocks around them. Both spaces are there already.
#[inline(never)]
fn plain_write<W: Way>(rows: usize, index: Index<'_>, bytes: &mut [u8], card: &mut [u8]) -> bool {
    if W::TESTED && !is_index(rows, index) {
        return false;
    }
    let (header, rest) = bytes.split_at_mut(HEADER);
    let (borders, rest) = rest.split_at_mut(4 * index.borders.len());
    let (imprints, dictionary) = rest.split_at_mut(8 * index.imprints.len());
    let counts = [rows, index.borders.len(), index.imprints.len(), index.dictionary.len()];
    header.chunks_exact_mut(4).zip(counts).for_each(|(to, count)| to.copy_from_slice(&(count as u32).to_le_bytes()));
    borders.chunks_exact_mut(4).zip(index.borders).for_each(|(to, word)| to.copy_from_slice(&word.to_le_bytes()));
    imprints.chunks_exact_mut(8).zip(index.imprints).for_each(|(to, word)| to.copy_from_slice(&word.to_le_bytes()));
    dictionary.chunks_exact_mut(4).zip(index.dictionary).for_each(|(to, word)| to.copy_from_slice(&word.to_le_bytes()));
    for (number, (block, part)) in card.chunks_exact_mut(BLOCK).zip(bytes.chunks(PAYLOAD)).enumerate() {
        block[..4].copy_from_slice(&(number as u32).to_le_bytes());
        block[4..8].copy_from_slice(&EDITION.to_le_bytes());
        block[8..10].copy_from_slice(&(part.len() as u16).to_le_bytes());
        block[10..HEAD].fill(0);
        block[HEAD..HEAD + part.len()].copy_from_slice(part);
        block[HEAD + part.len()..CHECKED].fill(0);
        let check = W::check(block);
        block[CHECKED..].copy_from_slice(&check);
    }
    true
}

/// Each block tested and its payload taken, then the bytes as words. The counts are known already, and all spaces are there.
#[inline(never)]
fn plain_read<W: Way>(card: &[u8], bytes: &mut [u8], spaces: &mut Spaces) -> bool {
    for (number, (block, part)) in card.chunks_exact(BLOCK).zip(bytes.chunks_mut(PAYLOAD)).enumerate() {
        let behind = HEAD + part.len();
        let head = [&(number as u32).to_le_bytes()[..], &EDITION.to_le_bytes(), &(part.len() as u32).to_le_bytes()];
        if W::check(block) != block[CHECKED..] || block[..4] != *head[0] || block[4..8] != *head[1] || block[8..HEAD] != *head[2] {
            return false;
        }
        if block[behind..CHECKED].iter().any(|&byte| byte != 0) {
            return false;
        }
        part.copy_from_slice(&block[HEAD..behind]);
    }
    let (borders, rest) = bytes[HEADER..].split_at(4 * spaces.borders.len());
    let (imprints, dictionary) = rest.split_at(8 * spaces.imprints.len());
    let four = |word: &[u8]| u32::from_le_bytes(word.try_into().expect("4 bytes"));
    spaces.borders.iter_mut().zip(borders.chunks_exact(4)).for_each(|(to, word)| *to = four(word) as i32);
    spaces.imprints.iter_mut().zip(imprints.chunks_exact(8)).for_each(|(to, w)| *to = u64::from_le_bytes(w.try_into().expect("8 bytes")));
    spaces.dictionary.iter_mut().zip(dictionary.chunks_exact(4)).for_each(|(to, word)| *to = four(word));
    !W::TESTED || is_index(four(&bytes[..4]) as usize, spaces.index())
}

/// A block at a time, as it comes from the card.
fn feed_all(card: &[u8], spaces: &mut Spaces) -> bool {
    let (mut state, mut ended) = (State::default(), false);
    for block in card.chunks_exact(BLOCK) {
        let fed = card::feed(block, state, &mut spaces.borders, &mut spaces.imprints, &mut spaces.dictionary).expect("a good block");
        (state, ended) = (fed.state, fed.ended);
    }
    ended
}

/// Best seconds of a call: the library's and those of the three ways of a plain loop.
#[derive(Clone, Copy)]
struct Best([f64; 4]);

impl Best {
    fn take(&mut self, way: usize, took: f64) {
        self.0[way] = self.0[way].min(took);
    }

    fn row(&self) -> String {
        let [ours, plain, stepping, untested] = self.0.map(|seconds| seconds * 1e3);
        let others = format!("{stepping:.3} | {:.2} | {untested:.3} | {:.2}", ours / stepping, ours / untested);
        format!("{ours:.3} | {plain:.3} | **{:.2}** | {others}", ours / plain)
    }
}

/// An imprint a line, none like the one before it; or two lines to each.
fn list(name: &str, lines: usize) -> Vec<u64> {
    let mut dice = Dice(88_172_645_463_325_252);
    let mut word = |line: usize| (dice.below(1 << 53) as u64) << 8 | (line as u64 % 2) << 1 | 1;
    match name {
        "no two lines alike" => (0..lines).map(word).collect(),
        "two lines alike, and two" => (0..lines.div_ceil(2)).map(&mut word).flat_map(|word| [word, word]).take(lines).collect(),
        other => unreachable!("no list {other}"),
    }
}

/// Milliseconds of writing and of reading an index with as many imprints as the column of so many rows can have, as two tables.
pub fn measure(rows: usize, reps: usize) {
    let (mut written, mut read) = (String::new(), String::new());
    for name in ["no two lines alike", "two lines alike, and two"] {
        eprintln!("card, {name}: {reps} times");
        let list = list(name, lines(rows));
        let borders: Vec<i32> = (0..BORDERS_AT_MOST as i32).collect();
        let (mut imprints, mut dictionary) = (vec![0; list.len()], vec![0; list.len()]);
        let index = pack(&list, &borders, &mut imprints, &mut dictionary).expect("words that fit");
        let mut spaces = Spaces {
            borders: vec![1; index.borders.len()],
            imprints: vec![1; index.imprints.len()],
            dictionary: vec![1; index.dictionary.len()],
        };
        let total = HEADER + 4 * index.borders.len() + 8 * index.imprints.len() + 4 * index.dictionary.len();
        let (mut image, mut by_hand, mut bytes) = (vec![1; card::bytes(index)], vec![1; card::bytes(index)], vec![1; total]);
        let (mut write, mut feed) = (Best([f64::MAX; 4]), Best([f64::MAX; 4]));
        for _ in 0..reps {
            let (took, answer) = seconds(|| card::write(rows, index, &mut image));
            assert_eq!(answer, Ok(image.len()), "a good index");
            write.take(0, took);
            let ways = [plain_write::<SideBySide>, plain_write::<StepByStep>, plain_write::<Untested>];
            for (way, plain_write) in (1..).zip(ways) {
                let (took, done) = seconds(|| plain_write(rows, index, &mut bytes, &mut by_hand));
                assert!(done && image == by_hand, "writer and plain loop differ");
                write.take(way, took);
            }
            let (took, ended) = seconds(|| feed_all(&image, &mut spaces));
            assert!(ended && spaces.index() == index, "the reader gives back another index");
            feed.take(0, took);
            let ways = [plain_read::<SideBySide>, plain_read::<StepByStep>, plain_read::<Untested>];
            for (way, plain_read) in (1..).zip(ways) {
                let (took, done) = seconds(|| plain_read(&image, &mut bytes, &mut spaces));
                assert!(done && spaces.index() == index, "the plain loop gives back another index");
                feed.take(way, took);
            }
        }
        let lengths = format!("{} | {} | {}", index.imprints.len(), index.dictionary.len(), image.len() / BLOCK);
        written += &format!("| {name} | {lengths} | {} |\n", write.row());
        read += &format!("| {name} | {lengths} | {} |\n", feed.row());
    }
    for (call, rows) in [("write", written), ("read", read)] {
        let others = format!("its sums step by step, ms | {call} / that | no look at the words, ms | {call} / that");
        let loops = format!("plain loop, ms | {call} / plain loop | {others}");
        println!("| index of a card | imprints | dictionary words | blocks | {call}, ms | {loops} |");
        println!("|---|---|---|---|---|---|---|---|---|---|---|\n{rows}");
    }
}
