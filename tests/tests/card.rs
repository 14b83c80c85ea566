//! An index on the card, document 02's request 106, held against the plain implementation; and its theorems, of what the library answers.
use outside_tests::held::{self, Numbers, Word};
use outside_tests::inputs::{self, every_column, rounds, Dice};
use outside_tests::plain::{self, Index, No};
use outside_tests::plain_card::{self, sealed, State, BLOCK, CHECKED, PAYLOAD};

/// Spaces of these lengths that nobody has written to.
fn stale(lengths: [usize; 3]) -> Index {
    Index {
        borders: (0..lengths[0]).map(i32::stale).collect(),
        imprints: (0..lengths[1]).map(u64::stale).collect(),
        dictionary: (0..lengths[2]).map(u32::stale).collect(),
    }
}

fn lengths(index: &Index) -> [usize; 3] {
    [index.borders.len(), index.imprints.len(), index.dictionary.len()]
}

/// What a reader holds once it has read the blocks before this one.
fn state(due: usize, rows: u64, index: &Index) -> State {
    let [borders, imprints, dictionary] = lengths(index).map(|length| length as u64);
    State { due: due as u64, rows, borders, imprints, dictionary }
}

/// A reader as a caller keeps it: a refused block changes nothing of it.
#[derive(Clone)]
struct Reader {
    state: State,
    spaces: Index,
}

impl Reader {
    fn fresh(lengths: [usize; 3]) -> Reader {
        Reader { state: State::default(), spaces: stale(lengths) }
    }

    /// Was it the last?
    fn feed(&mut self, block: &[u8]) -> Result<bool, No> {
        let fed = held::card_feed(block, self.state, &mut self.spaces)?;
        self.state = fed.state;
        Ok(fed.ended)
    }

    fn words(&self) -> Index {
        plain_card::told(&self.state, &self.spaces)
    }
}

/// Up to a refusal, or to the last block.
fn read(image: &[u8], spaces: [usize; 3]) -> Result<Reader, No> {
    let mut reader = Reader::fresh(spaces);
    for block in image.chunks(BLOCK) {
        if reader.feed(block)? {
            return Ok(reader);
        }
    }
    Err(reader.feed(&[]).unwrap_err())
}

/// The reader gives back what the writer was given, says which block is the last, and takes none after it.
fn read_back(rows: u64, index: &Index, image: &[u8], more: usize) {
    let mut reader = Reader::fresh(lengths(index).map(|length| length + more));
    let last = image.len() / BLOCK - 1;
    for (number, block) in image.chunks(BLOCK).enumerate() {
        assert_eq!(reader.feed(block), Ok(number == last));
        assert_eq!(reader.state, state(number + 1, rows, index));
    }
    assert_eq!(reader.words(), *index);
    let past = No::at(15, last as u64 + 1);
    let empty = plain_card::block(last as u32 + 1, &[]);
    for block in [&image[image.len() - BLOCK..], &image[..BLOCK], &empty, &[]] {
        assert_eq!(reader.feed(block), Err(past));
    }
}

/// So many borders, far apart, and so many lines of words that fit them, in runs of one and of more.
fn index_of(dice: &mut Dice, borders: usize, lines: usize) -> Index {
    let border = |number: usize| -2_000_000_000 + 63_000_000 * number as i64 + dice.below(60_000_000) as i64;
    let rising = (0..borders).map(border).map(|border| border as i32).collect();
    let fit = u64::MAX >> (63 - borders);
    let mut list: Vec<u64> = Vec::new();
    for _ in 0..lines {
        let word = (dice.word() & fit).max(1);
        list.push(if dice.one_in(3) { list.last().copied().unwrap_or(word) } else { word });
    }
    let (imprints, dictionary) = plain::packing(&list);
    Index { borders: rising, imprints, dictionary }
}

/// So many borders and lines, no two neighbouring ones alike: one plain entry.
fn singles_of(borders: usize, lines: usize) -> Index {
    let list: Vec<u64> = (0..lines).map(|line| 1 + line as u64 % 2 * ((1 << borders) - 1)).collect();
    let (imprints, dictionary) = plain::packing(&list);
    Index { borders: (0..borders as i32).collect(), imprints, dictionary }
}

/// Images of one to four blocks, with odd and even numbers of borders.
fn small_images(dice: &mut Dice) -> Vec<(u64, Index, Vec<u8>)> {
    let parts = [(0, 0), (2, 3), (5, 90), (6, 90), (63, 30), (62, 31), (9, 160), (63, 200)];
    let image = |(borders, lines): (usize, usize)| {
        let rows = (16 * lines) as u64 - if lines == 0 { 0 } else { dice.below(16) as u64 };
        let index = index_of(dice, borders, lines);
        let image = plain_card::image(rows, &index);
        (rows, index, image)
    };
    parts.into_iter().map(image).collect()
}

fn block_of(image: &[u8], number: usize) -> Vec<u8> {
    image[number * BLOCK..][..BLOCK].to_vec()
}

/// A reader of this image that stands before this block, in spaces with two words more than needed.
fn reader_at(number: usize, rows: u64, index: &Index, image: &[u8]) -> Reader {
    let mut reader = Reader::fresh(lengths(index).map(|length| length + 2));
    for block in image.chunks(BLOCK).take(number) {
        assert_eq!(reader.feed(block), Ok(false));
    }
    assert!(number == 0 || reader.state == state(number, rows, index));
    reader
}

// ---------------------------------------------------------------- write and read back

/// Column A of document 01. The bytes and the sums stand here as they were reckoned without any of this code.
#[test]
fn column_a() {
    let index = Index { borders: vec![5, 20], imprints: vec![2, 4], dictionary: vec![16_777_218, 1] };
    let mut wanted = vec![0, 0, 0, 0, 1, 0, 0, 0, 48, 0, 0, 0];
    wanted.extend([40, 0, 0, 0, 2, 0, 0, 0, 2, 0, 0, 0, 2, 0, 0, 0, 5, 0, 0, 0, 20, 0, 0, 0]);
    wanted.extend([2, 0, 0, 0, 0, 0, 0, 0, 4, 0, 0, 0, 0, 0, 0, 0, 2, 0, 0, 1, 1, 0, 0, 0]);
    wanted.resize(CHECKED, 0);
    wanted.extend([129, 1, 191, 94]);
    assert_eq!(held::card_write(40, &index, 512).as_ref(), Ok(&wanted));
    read_back(40, &index, &wanted, 0);
    let empty = held::card_write(0, &Index::default(), 512).unwrap();
    assert_eq!((empty.len(), &empty[CHECKED..]), (512, [17, 0, 156, 16].as_slice()));
    let negative = held::card_write(0, &Index { borders: vec![-2, -1], ..Index::default() }, 600).unwrap();
    assert_eq!(negative[28..36], [254, 255, 255, 255, 255, 255, 255, 255]);
    assert_eq!(negative[CHECKED..], [26, 0, 104, 25]);
}

#[test]
fn every_columns_index() {
    let mut numbers = Numbers::default();
    every_column(401, |dice, column| {
        let (rows, index) = (column.len() as u64, plain::index(&column));
        let needed = plain_card::image(rows, &index).len();
        for space in [needed, needed + 700, needed - 1, inputs::space(dice, needed)] {
            let answer = held::card_write(rows, &index, space);
            numbers.count(&answer);
            assert_eq!(answer.as_ref().err(), (space < needed).then(|| No::short(needed)).as_ref());
            if let Ok(image) = answer {
                read_back(rows, &index, &image, dice.below(3));
            }
        }
    });
    numbers.seen(&[0, 4]);
}

/// Every number of borders, so every way for an imprint to lie across two blocks; and totals that end with a block, or a word off it.
#[test]
fn every_number_of_borders() {
    let mut dice = Dice::new(402);
    let (mut full, mut across) = (0, 0);
    for borders in 0..=63 {
        // With so many single lines an odd number of borders ends with block 0.
        let exact = (PAYLOAD - 20 - 4 * borders) / 8;
        for lines in [0, 1, 2, 27, 28, 29, 58, 59, 60, 61, 89, 90, 200, exact, exact + 1] {
            held::case(format!("{borders} borders, {lines} lines"));
            let rows = (16 * lines) as u64;
            let singles = singles_of(borders, if borders == 0 { 0 } else { lines });
            for (rows, index) in [(16 * singles.imprints.len() as u64, singles), (rows, index_of(&mut dice, borders, lines))] {
                let total = plain_card::payload(rows, &index).len();
                full += total.is_multiple_of(PAYLOAD) as usize;
                across += (borders % 2 == 1 && PAYLOAD < total) as usize;
                let image = held::card_write(rows, &index, total.div_ceil(PAYLOAD) * BLOCK).unwrap();
                read_back(rows, &index, &image, 1);
            }
        }
    }
    assert!(32 <= full && 100 <= across, "{full} ended with a block, {across} had a word across two");
}

/// 2, 5, 3, 4: each stands before all that follow.
#[test]
fn writer_refuses_in_order() {
    let good = Index { borders: vec![5, 20], imprints: vec![2, 4], dictionary: vec![16_777_218, 1] };
    let borders = Index { borders: vec![5, 5], ..good.clone() };
    let both = Index { dictionary: vec![3], ..borders.clone() };
    let unfit = Index { dictionary: vec![3], ..good.clone() };
    for space in [0, 511, 512] {
        for rows in [4_294_967_296, (1 << 32) + 40, 1 << 33, u64::MAX] {
            for index in [&good, &both, &unfit] {
                assert_eq!(held::card_write(rows, index, space), Err(No::of(2)));
            }
        }
        for rows in [0, 40, 48, 16_777_217, 4_294_967_295] {
            assert_eq!(held::card_write(rows, &borders, space), Err(No::of(5)));
            assert_eq!(held::card_write(rows, &both, space), Err(No::of(5)));
            assert_eq!(held::card_write(rows, &unfit, space), Err(No::of(3)));
        }
        for rows in [0, 31, 32, 49, 16_777_217, 4_294_967_295] {
            assert_eq!(held::card_write(rows, &good, space), Err(No::of(3)));
        }
        for rows in 33..=48 {
            assert_eq!(held::card_write(rows, &good, space).err(), (space < 512).then(|| No::short(512)));
        }
    }
}

/// Other columns' indexes, damaged ones, and rows that are off.
#[test]
fn writer_over_strange_indexes() {
    let mut numbers = Numbers::default();
    every_column(403, |dice, column| {
        let index = inputs::strange_index(dice, &column);
        let off = dice.of(&[0, 0, 0, 1, 16, plain::ROWS_AT_MOST as u64, u64::MAX]);
        let rows = (column.len() as u64).wrapping_add(off);
        let needed = plain_card::image(rows, &index).len();
        numbers.count(&held::card_write(rows, &index, inputs::space(dice, needed)));
    });
    numbers.count(&held::card_write(u64::MAX, &singles_of(1, 1), 512));
    numbers.seen(&[0, 2, 3, 4, 5]);
}

/// The most rows, all lines alike: sixteen full entries, and one for what is left. Of as many rows as a header can tell none are too many.
#[test]
fn longest_column() {
    let rows = 4_294_967_295;
    let dictionary = [[plain::REPEAT + plain::COUNT; 16].as_slice(), &[plain::REPEAT + 16]].concat();
    let index = Index { borders: vec![7], imprints: vec![3; 17], dictionary };
    let image = held::card_write(rows, &index, 512).unwrap();
    assert_eq!(image[12..28], [255, 255, 255, 255, 1, 0, 0, 0, 17, 0, 0, 0, 17, 0, 0, 0]);
    read_back(rows, &index, &image, 0);
    for fewer in 1..15 {
        assert!(held::card_write(rows - fewer, &index, 512).is_ok());
    }
    assert_eq!(held::card_write(rows - 15, &index, 512), Err(No::of(3)));
    assert_eq!(held::card_write(rows + 1, &index, 512), Err(No::of(2)));
    let one_less = Index { dictionary: [&index.dictionary[..16], &[plain::REPEAT + 15]].concat(), ..index.clone() };
    assert_eq!(held::card_write(rows, &one_less, 512), Err(No::of(3)));
    assert_eq!(read(&plain_card::image(rows, &one_less), [1, 17, 17]).err(), Some(No::of(3)));
}

/// Many imprints; the reader is tried at both ends.
#[test]
fn long_column() {
    let rows = 16_777_216;
    let index = singles_of(63, 1_048_576);
    let image = held::card_write(rows, &index, 16 + 20_000 * BLOCK).unwrap();
    assert_eq!(held::card_write(rows, &index, image.len() - 1), Err(No::short(image.len())));
    let blocks = image.len() / BLOCK;
    let mut spaces = index.clone();
    spaces.imprints[..59].fill(77);
    spaces.dictionary[0] = 77;
    for number in [0, 1, blocks - 2, blocks - 1] {
        let fed = held::card_feed(&image[number * BLOCK..][..BLOCK], state(number, rows, &index), &mut spaces).unwrap();
        assert_eq!((fed.ended, fed.state), (number + 1 == blocks, state(number + 1, rows, &index)));
    }
    assert_eq!(spaces, index);
}

// ---------------------------------------------------------------- the check

/// The block with the four bytes at this place such that the sums are these.
fn steered(mut block: Vec<u8>, at: usize, wanted: [i64; 2]) -> Vec<u8> {
    block[at..at + 4].fill(0);
    let sums = plain_card::check(&block);
    let [a, b] = [0, 2].map(|place| i64::from(u16::from_le_bytes([sums[place], sums[place + 1]])));
    let (a, b) = (wanted[0] - a, wanted[1] - b);
    // The second of the two numbers comes into b so many times, the first once more.
    let times = 253 - at as i64 / 2;
    let first = (b - times * a).rem_euclid(65_535);
    let second = (a - first).rem_euclid(65_535);
    block[at..at + 2].copy_from_slice(&(first as u16).to_le_bytes());
    block[at + 2..at + 4].copy_from_slice(&(second as u16).to_le_bytes());
    let block = sealed(block);
    assert_eq!(block[CHECKED..], ((wanted[0] + 65_536 * wanted[1]) as u32).to_le_bytes());
    block
}

/// Sums that are multiples of 65,535 are stored as 0, and 65,535 is never the right one.
#[test]
fn sums_at_their_edges() {
    let none = Index { borders: vec![0], ..Index::default() };
    for wanted in [[0, 0], [0, 9], [9, 0], [1, 1], [65_534, 65_534], [0, 65_534], [65_534, 0]] {
        held::case(format!("sums {wanted:?}"));
        let block = steered(plain_card::image(0, &none), 28, wanted);
        let border = i32::from_le_bytes(block[28..32].try_into().unwrap());
        let index = Index { borders: vec![border], ..Index::default() };
        assert_eq!(held::card_write(0, &index, 512).as_ref(), Ok(&block));
        read_back(0, &index, &block, 0);
        for at in [CHECKED, CHECKED + 2] {
            let mut other = block.clone();
            if other[at..at + 2] == [0, 0] {
                other[at..at + 2].fill(255);
                assert_eq!(read(&other, [1, 0, 0]).err(), Some(No::at(15, 0)));
            }
        }
    }
}

/// 65,535 in place of 0 leaves the sums as they are, so the check can't tell: it is another border then, or filler that is not zero.
#[test]
fn what_the_check_does_not_tell() {
    let index = Index { borders: vec![3], ..Index::default() };
    let image = plain_card::image(0, &index);
    let with = |at: usize| {
        let mut other = image.clone();
        other[at..at + 2].fill(255);
        assert_eq!(sealed(other.clone()), other);
        other
    };
    assert_eq!(read(&with(30), [1, 0, 0]).unwrap().words().borders, [3 - 65_536]);
    for at in [10, 32, 400, 506] {
        assert_eq!(read(&with(at), [1, 0, 0]).err(), Some(No::at(15, 0)));
    }
}

/// Each byte of each block of small images, spoilt in several ways: 15 with the block due, and the reader goes on as if nothing had been.
#[test]
fn damaged_bytes() {
    let mut dice = Dice::new(404);
    for round in 0..rounds(1) {
        for (rows, index, image) in small_images(&mut dice) {
            for number in 0..image.len() / BLOCK {
                let mut reader = reader_at(number, rows, &index, &image);
                let good = block_of(&image, number);
                for at in 0..BLOCK {
                    held::case(format!("round {round}, {:?}, block {number}, byte {at}", lengths(&index)));
                    let any = 1 + dice.below(255) as u8;
                    for spoilt in [good[at] ^ 255, good[at] ^ 1, good[at] ^ 128, good[at].wrapping_add(1), good[at] ^ any] {
                        let mut block = good.clone();
                        block[at] = spoilt;
                        assert_eq!(reader.feed(&block), Err(No::at(15, number as u64)));
                    }
                }
                assert_eq!(reader.feed(&good), Ok((number + 1) * BLOCK == image.len()));
            }
        }
    }
}

/// Two neighbouring bytes changed, two numbers swapped, a block of zeros, one of 255s, another sum's order.
#[test]
fn otherwise_damaged() {
    let mut dice = Dice::new(405);
    for (rows, index, image) in small_images(&mut dice) {
        for number in 0..image.len() / BLOCK {
            let mut reader = reader_at(number, rows, &index, &image);
            let good = block_of(&image, number);
            for at in (0..CHECKED - 2).step_by(2) {
                let mut block = good.clone();
                block.swap(at, at + 2);
                block.swap(at + 1, at + 3);
                assert_eq!(reader.feed(&block).is_err(), block != good, "numbers swapped at {at}");
                if block == good {
                    reader = reader_at(number, rows, &index, &image);
                }
            }
            let mut swapped = good.clone();
            swapped[CHECKED..].rotate_left(2);
            for block in [vec![255; BLOCK], swapped] {
                assert_eq!(reader.feed(&block), Err(No::at(15, number as u64)));
            }
            // The sums of a block of zeros are 0, so its check fits; its edition is 0.
            assert_eq!(reader.feed(&[0; BLOCK]), Err(No::at(14, number as u64)));
        }
    }
}

#[test]
fn sizes() {
    let mut dice = Dice::new(406);
    for (rows, index, image) in small_images(&mut dice) {
        let behind = [image.clone(), image.clone()].concat();
        for number in 0..image.len() / BLOCK {
            let mut reader = reader_at(number, rows, &index, &image);
            for size in [0, 1, 4, 12, 28, 256, 508, 511, 513, 514, 1024] {
                let from = &behind[number * BLOCK..];
                let block = [from, &vec![0; BLOCK]].concat();
                assert_eq!(reader.feed(&block[..size]), Err(No::at(15, number as u64)), "{size} bytes");
            }
        }
    }
}

// ---------------------------------------------------------------- sound blocks, each test by itself

/// The block with these bytes at this place, and a check that fits again.
fn with(mut block: Vec<u8>, at: usize, bytes: &[u8]) -> Vec<u8> {
    block[at..at + bytes.len()].copy_from_slice(bytes);
    sealed(block)
}

/// Feeds each block of the small images, changed by `change`, in its turn.
fn each_changed(salt: u64, mut change: impl FnMut(&mut Dice, usize, Vec<u8>) -> Vec<(Vec<u8>, u32)>) {
    let mut dice = Dice::new(salt);
    for (rows, index, image) in small_images(&mut dice) {
        for number in 0..image.len() / BLOCK {
            let mut reader = reader_at(number, rows, &index, &image);
            let good = block_of(&image, number);
            held::case(format!("{:?}, block {number}", lengths(&index)));
            for (block, refusal) in change(&mut dice, number, good.clone()) {
                assert_eq!(reader.feed(&block), Err(No::at(refusal, number as u64)));
            }
            assert_eq!(reader.feed(&good), Ok((number + 1) * BLOCK == image.len()));
        }
    }
}

#[test]
fn editions() {
    each_changed(407, |dice, number, good| {
        let mut all = Vec::new();
        for edition in [0u32, 2, 3, 257, 65_537, 1 << 24, u32::MAX] {
            let other = with(good.clone(), 4, &edition.to_le_bytes());
            let mut unsound = other.clone();
            unsound[dice.below(BLOCK)] ^= 1;
            // The edition comes before the number, the length, the zero bytes and the filler.
            let elsewhere = with(other.clone(), 0, &(number as u32 + 1).to_le_bytes());
            let wrong_length = with(other.clone(), 8, &[7, 7, 7, 7]);
            all.extend([(other, 14), (unsound, 15), (elsewhere, 14), (wrong_length, 14)]);
        }
        all
    });
}

#[test]
fn block_numbers() {
    each_changed(408, |_, number, good| {
        let others = [number.wrapping_sub(1), number + 1, number + 256, number + 65_536, number + (1 << 31), usize::MAX];
        others.map(|other| (with(good.clone(), 0, &(other as u32).to_le_bytes()), 15)).to_vec()
    });
}

#[test]
fn payload_lengths() {
    each_changed(409, |_, _, good| {
        let length = u16::from_le_bytes([good[8], good[9]]);
        let off = [1, 2, 4, 8, 256, u16::MAX, u16::MAX - 1, u16::MAX - 3, u16::MAX - 7].map(|off| length.wrapping_add(off));
        let any = [0, 12, 16, 20, 492, 495, 496, 497, 500, 508, 512, u16::MAX];
        let others = off.into_iter().chain(any).filter(|&other| other != length);
        others.map(|other| (with(good.clone(), 8, &other.to_le_bytes()), 15)).collect()
    });
}

#[test]
fn zero_bytes() {
    each_changed(410, |dice, _, good| {
        let any = [dice.word() as u8 | 1, dice.word() as u8];
        [[1, 0], [0, 1], [255, 255], [0, 128], any].map(|bytes| (with(good.clone(), 10, &bytes), 15)).to_vec()
    });
}

#[test]
fn filler() {
    let mut filled = 0;
    each_changed(411, |dice, _, good| {
        let length = u16::from_le_bytes([good[8], good[9]]) as usize;
        filled += CHECKED - 12 - length;
        (12 + length..CHECKED).map(|at| (with(good.clone(), at, &[1 + dice.below(255) as u8]), 15)).collect()
    });
    assert!(1000 < filled);
}

/// Any other block of the image in the due one's place, before it and after it; the same one twice; one left out.
#[test]
fn order_of_blocks() {
    let mut dice = Dice::new(412);
    for (rows, index, image) in small_images(&mut dice) {
        let blocks = image.len() / BLOCK;
        let mut reader = reader_at(0, rows, &index, &image);
        for number in 0..blocks {
            for other in (0..blocks).filter(|&other| other != number) {
                assert_eq!(reader.feed(&block_of(&image, other)), Err(No::at(15, number as u64)));
            }
            assert_eq!(reader.feed(&[]), Err(No::at(15, number as u64)));
            assert_eq!(reader.feed(&block_of(&image, number)), Ok(number + 1 == blocks));
        }
        for left_out in 0..blocks {
            let short = [&image[..left_out * BLOCK], &image[(left_out + 1) * BLOCK..]].concat();
            assert_eq!(read(&short, lengths(&index)).err(), Some(No::at(15, left_out as u64)));
            let cut = read(&image[..left_out * BLOCK], lengths(&index));
            assert_eq!(cut.err(), Some(No::at(15, left_out as u64)));
        }
    }
}

/// Blocks that would carry the image on: empty, full, and one with the words again.
#[test]
fn extra_blocks() {
    let mut dice = Dice::new(413);
    let full = [(1, singles_of(1, 59)), (63, singles_of(63, 28))];
    let full = full.map(|(borders, index)| (16 * index.imprints.len() as u64, borders, index));
    assert!(full.iter().all(|(rows, _, index)| plain_card::payload(*rows, index).len() == PAYLOAD));
    let full = full.map(|(rows, _, index)| (rows, index.clone(), plain_card::image(rows, &index)));
    for (rows, index, image) in small_images(&mut dice).into_iter().chain(full) {
        let blocks = image.len() / BLOCK;
        let mut reader = reader_at(blocks - 1, rows, &index, &image);
        assert_eq!(reader.feed(&block_of(&image, blocks - 1)), Ok(true));
        let last = &image[image.len() - BLOCK..];
        let length = u16::from_le_bytes([last[8], last[9]]) as usize;
        for payload in [&[][..], &[0; 4], &[0; 16], &[0; PAYLOAD], &last[12..12 + length]] {
            assert_eq!(reader.feed(&plain_card::block(blocks as u32, payload)), Err(No::at(15, blocks as u64)));
        }
        let edition = with(plain_card::block(blocks as u32, &[]), 4, &[2]);
        assert_eq!(reader.feed(&edition), Err(No::at(14, blocks as u64)));
        assert_eq!(reader.words(), index);
    }
}

// ---------------------------------------------------------------- spaces

/// Each space short by one word and by all of them, at each block: the first short one is told, and one word more is enough.
#[test]
fn short_spaces() {
    let mut dice = Dice::new(414);
    let mut numbers = Numbers::default();
    for (rows, index, image) in small_images(&mut dice) {
        let needed = lengths(&index);
        for number in 0..image.len() / BLOCK {
            let whole = reader_at(number, rows, &index, &image);
            let block = block_of(&image, number);
            for cut in 1..27usize {
                // Of each space: nothing, one word, or all.
                let kept = [0, 1, 2].map(|space| match cut / 3usize.pow(space as u32) % 3 {
                    0 => needed[space] + 2,
                    1 => needed[space].saturating_sub(1),
                    _ => 0,
                });
                let mut reader = whole.clone();
                reader.spaces.borders.truncate(kept[0]);
                reader.spaces.imprints.truncate(kept[1]);
                reader.spaces.dictionary.truncate(kept[2]);
                let short = (0..3).find(|&space| kept[space] < needed[space]).map(|space| No::short(needed[space]));
                held::case(format!("{needed:?}, block {number}, spaces {kept:?}"));
                let answer = reader.feed(&block);
                numbers.count(&answer);
                assert_eq!(answer.err(), short);
            }
        }
    }
    numbers.seen(&[0, 4]);
}

/// A damaged block, one of another edition and one out of place are told before a space that is short.
#[test]
fn short_spaces_come_last() {
    let mut dice = Dice::new(415);
    for (rows, index, image) in small_images(&mut dice).into_iter().skip(2) {
        for number in 0..image.len() / BLOCK {
            let state = state(number, rows, &index);
            let good = block_of(&image, number);
            let mut damaged = good.clone();
            damaged[300] ^= 4;
            let edition = with(good.clone(), 4, &[2]);
            let elsewhere = with(good.clone(), 0, &[9]);
            for (block, refusal) in [(damaged, 15), (edition, 14), (elsewhere, 15)] {
                let answer = held::card_feed(&block, state, &mut stale([0, 0, 0]));
                assert_eq!(answer.err(), Some(No::at(refusal, number as u64)));
            }
            assert_eq!(held::card_feed(&good, state, &mut stale([0, 0, 0])).err(), Some(No::short(index.borders.len())));
        }
    }
    // And before 2, 5 and 3.
    let unfit = Index { borders: vec![5, 5], imprints: vec![0], dictionary: vec![] };
    for rows in [40, u32::MAX as u64] {
        assert_eq!(read(&plain_card::image(rows, &unfit), [2, 0, 0]).err(), Some(No::short(1)));
        assert_eq!(read(&plain_card::image(rows, &unfit), [1, 1, 0]).err(), Some(No::short(2)));
    }
}

// ---------------------------------------------------------------- headers and states that no writer gave

fn header(counts: [u32; 4]) -> Vec<u8> {
    counts.iter().flat_map(|count| count.to_le_bytes()).collect()
}

/// Counts up to 2^32 - 1, and those of which the total would be little if it were kept in 32 bits.
#[test]
fn headers_that_claim() {
    const MOST: u32 = u32::MAX;
    const COUNTS: [[u32; 4]; 15] = [
        [MOST; 4],
        [0, MOST, 0, 0],
        [0, 0, MOST, 0],
        [0, 0, 0, MOST],
        [0, 3, MOST, MOST],
        [0, 3, 4, MOST],
        [MOST, 3, 4, 5],
        [16_777_217, 0, 0, 0],
        [MOST, 0, 0, 0],
        [0, 0, 1 << 29, 0],
        [0, 1 << 30, 0, 0],
        [0, 0, 0, 1 << 30],
        [40, 1 << 30, 1 << 29, 1 << 30],
        [0, (1 << 30) - 4, 0, 0],
        [16, 1, (1 << 29) + 1, (1 << 30) + 1],
    ];
    let mut numbers = Numbers::default();
    for counts in COUNTS {
        for length in [16, 20, 32, 72, 492, 496] {
            let mut payload = header(counts);
            payload.resize(length, 1);
            let block = plain_card::block(0, &payload);
            for spaces in [[0, 0, 0], [3, 3, 5], [3, 4, 5], [70, 300, 300]] {
                held::case(format!("counts {counts:?}, {length} bytes, spaces {spaces:?}"));
                numbers.count(&read(&block, spaces));
            }
        }
    }
    numbers.seen(&[3, 4, 15]);
    let mut payload = header([MOST; 4]);
    payload.resize(PAYLOAD, 7);
    assert_eq!(read(&plain_card::block(0, &payload), [63, 9, 9]).err(), Some(No::short(MOST as usize)));
}

/// A fresh reader's counts don't matter, whatever they are told to be.
#[test]
fn counts_told_at_block_0() {
    let mut dice = Dice::new(416);
    for (rows, index, image) in small_images(&mut dice) {
        for count in [0, 1, 77, u32::MAX as u64, u64::MAX] {
            let told = State { due: 0, rows: count, borders: count, imprints: count, dictionary: count };
            let fed = held::card_feed(&image[..BLOCK], told, &mut stale(lengths(&index))).unwrap();
            assert_eq!(fed.state, state(1, rows, &index));
        }
    }
}

/// Numbers and counts at the edges of 32 and 64 bits.
const EDGES: [u64; 16] = [
    0,
    1,
    2,
    60,
    (1 << 32) - 1,
    1 << 32,
    (1 << 32) + 1,
    1 << 40,
    1 << 60,
    1 << 61,
    (1 << 61) + 1,
    (1 << 62) + 3,
    u64::MAX / 496,
    u64::MAX / 496 + 1,
    u64::MAX - 1,
    u64::MAX,
];

#[test]
fn states_at_the_edges() {
    let mut numbers = Numbers::default();
    for due in EDGES {
        for borders in EDGES {
            for [imprints, dictionary] in [[0, 0], [1, 1], [1 << 61, 0], [u64::MAX, u64::MAX], [0, 1 << 62], [borders, due]] {
                let state = State { due, rows: borders, borders, imprints, dictionary };
                let left = state.total().saturating_sub(state.before()).min(PAYLOAD as u128) as usize;
                for length in [left, 0, 16, PAYLOAD] {
                    held::case(format!("{state:?}, {length} bytes"));
                    let block = plain_card::block(due as u32, &vec![3; length]);
                    for spaces in [[0, 0, 0], [70, 2, 2]] {
                        numbers.count(&held::card_feed(&block, state, &mut stale(spaces)));
                    }
                }
            }
        }
    }
    numbers.seen(&[4, 15]);
}

/// The block due is told beside 15, up to the greatest.
#[test]
fn greatest_block_due() {
    let state = State { due: u64::MAX, rows: 0, borders: u64::MAX, imprints: u64::MAX, dictionary: u64::MAX };
    let block = plain_card::block(u32::MAX, &[0; PAYLOAD]);
    assert_eq!(held::card_feed(&block, state, &mut stale([1, 1, 1])).err(), Some(No::at(15, u64::MAX)));
    assert_eq!(held::card_feed(&[], state, &mut stale([1, 1, 1])).err(), Some(No::at(15, u64::MAX)));
    let edition = with(block.clone(), 4, &[2]);
    assert_eq!(held::card_feed(&edition, state, &mut stale([1, 1, 1])).err(), Some(No::at(14, u64::MAX)));
    let last_number = State { due: u32::MAX as u64, ..state };
    assert_eq!(held::card_feed(&block, last_number, &mut stale([1, 1, 1])).err(), Some(No::short(usize::MAX)));
}

/// Of an imprint that lies across two blocks, each block writes its own half and leaves the other as it was.
#[test]
fn a_word_across_two_blocks() {
    let mut dice = Dice::new(417);
    for borders in (1..=63).step_by(2) {
        let index = index_of(&mut dice, borders, 400);
        let image = plain_card::image(6400, &index);
        let at = (PAYLOAD - 16 - 4 * borders) / 8;
        assert!(at + 1 < index.imprints.len());
        held::case(format!("{borders} borders, imprint {at}"));
        let before = stale(lengths(&index));
        let (low, high) = (0xFFFF_FFFF, 0xFFFF_FFFF << 32);
        let mut first = before.clone();
        held::card_feed(&block_of(&image, 0), State::default(), &mut first).unwrap();
        assert_eq!(first.imprints[at], index.imprints[at] & low | before.imprints[at] & high);
        assert_eq!(first.imprints[..at], index.imprints[..at]);
        assert_eq!(first.imprints[at + 1..], before.imprints[at + 1..]);
        assert_eq!(first.dictionary, before.dictionary);
        let mut second = before.clone();
        held::card_feed(&block_of(&image, 1), state(1, 6400, &index), &mut second).unwrap();
        assert_eq!(second.imprints[at], index.imprints[at] & high | before.imprints[at] & low);
        assert_eq!(second.imprints[..at], before.imprints[..at]);
        assert_eq!(second.borders, before.borders);
    }
}

// ---------------------------------------------------------------- sound blocks that hold no index

/// Every block but the last is taken, and the last refused: it changes no word.
fn refused_at_the_last(rows: u64, index: &Index) -> Result<(), No> {
    let image = plain_card::image(rows, index);
    let blocks = image.len() / BLOCK;
    let mut reader = reader_at(blocks - 1, rows, index, &image);
    let before = reader.spaces.clone();
    let answer = reader.feed(&block_of(&image, blocks - 1)).map(|ended| assert!(ended));
    assert!(answer.is_ok() || reader.spaces == before);
    assert_eq!(answer.err(), plain_card::is_index(rows, index).err());
    answer
}

/// More rows than a header has room to tell come with a state that is handed in. 2 is given for them at the last block alone, before 5
/// and 3.
fn told_too_many_rows(rows: u64, index: &Index) {
    let image = plain_card::image(1600, index);
    let last = image.len() / BLOCK - 1;
    assert!(0 < last);
    for number in 1..=last {
        let mut reader = reader_at(number, 1600, index, &image);
        reader.state.rows = rows;
        let before = reader.spaces.clone();
        let answer = reader.feed(&block_of(&image, number));
        assert_eq!(answer, if number == last { Err(No::of(2)) } else { Ok(false) });
        assert!(number != last || reader.spaces == before);
    }
}

#[test]
fn no_index_at_all() {
    let good = singles_of(9, 100);
    assert_eq!(refused_at_the_last(1600, &good), Ok(()));
    let falling = Index { borders: (0..9).rev().collect(), ..good.clone() };
    let many = Index { borders: (0..64).collect(), ..good.clone() };
    let zero = Index { imprints: [&[0], &good.imprints[1..]].concat(), ..good.clone() };
    let long = Index { dictionary: vec![101], ..good.clone() };
    let unfit = Index { imprints: [&good.imprints[..99], &[1 << 10]].concat(), ..good.clone() };
    for index in [&good, &falling, &many, &zero, &long, &unfit] {
        for rows in [1 << 32, (1 << 32) + 1600, 1 << 63, u64::MAX] {
            told_too_many_rows(rows, index);
        }
        for rows in [0, 1584, 1601, 16_777_217, 1 << 24 | 1600, u32::MAX as u64] {
            let number = if index.borders == good.borders { 3 } else { 5 };
            assert_eq!(refused_at_the_last(rows, index), Err(No::of(number)));
        }
    }
    for index in [&falling, &many] {
        assert_eq!(refused_at_the_last(1600, index), Err(No::of(5)));
    }
    for index in [&zero, &long, &unfit] {
        assert_eq!(refused_at_the_last(1600, index), Err(No::of(3)));
    }
}

#[test]
fn images_of_strange_indexes() {
    let mut numbers = Numbers::default();
    every_column(418, |dice, column| {
        let index = inputs::strange_index(dice, &column);
        let off = dice.of(&[0, 0, 0, 1, 16, 16_777_216, u32::MAX as u64 - column.len() as u64]);
        numbers.count(&refused_at_the_last(column.len() as u64 + off, &index));
    });
    numbers.seen(&[0, 3, 5]);
}

/// What the words hold before the block counts at the last one: blocks of another index, or words that were changed between.
#[test]
fn words_changed_between_blocks() {
    let mut dice = Dice::new(419);
    let mut numbers = Numbers::default();
    for round in 0..rounds(300) {
        let (borders, lines) = (dice.below(64), 60 + dice.below(150));
        held::case(format!("round {round}, {borders} borders, {lines} lines"));
        let (rows, index) = ((16 * lines) as u64, index_of(&mut dice, borders, lines));
        let image = plain_card::image(rows, &index);
        let mut reader = reader_at(image.len() / BLOCK - 1, rows, &index, &image);
        let words = &mut reader.spaces;
        match dice.below(4) {
            0 if borders != 0 => words.borders[dice.below(borders)] ^= 1 << dice.below(32),
            1 => words.imprints[dice.below(index.imprints.len())] ^= 1 << dice.below(64),
            2 => words.dictionary[dice.below(index.dictionary.len())] ^= 1 << dice.below(32),
            _ => (),
        }
        numbers.count(&reader.feed(&image[image.len() - BLOCK..]));
    }
    numbers.seen(&[0, 3, 5]);
}

// ---------------------------------------------------------------- at random

/// A change to a block that its check does not show.
fn changed(dice: &mut Dice, block: Vec<u8>) -> Vec<u8> {
    let at = match dice.below(6) {
        0 => dice.below(12),
        1 => 12 + dice.below(16),
        2 => 28 + dice.below(60),
        3 => CHECKED - 1 - dice.below(40),
        _ => dice.below(CHECKED),
    };
    let byte = match dice.below(3) {
        0 => 0,
        1 => block[at] ^ 1 << dice.below(8),
        _ => dice.word() as u8,
    };
    with(block, at, &[byte])
}

fn changed_count(dice: &mut Dice, count: u64) -> u64 {
    match dice.below(12) {
        0 => count.wrapping_add(dice.of(&[1, 2, u64::MAX])),
        1 => dice.of(&EDGES),
        2 => count ^ 1 << dice.below(64),
        _ => count,
    }
}

/// States and blocks that hang together more or less.
#[test]
fn at_random() {
    let mut dice = Dice::new(420);
    let mut numbers = Numbers::default();
    for round in 0..rounds(20_000) {
        let (borders, lines) = (dice.below(64), dice.of(&[0, 1, 5, 40, 60, 61, 120, 180]));
        let mut index = index_of(&mut dice, borders, lines);
        if dice.one_in(5) {
            let kind = dice.below(inputs::INDEX_DAMAGES);
            inputs::damage(&mut dice, &mut index, kind);
        }
        let rows = (16 * lines) as u64;
        let image = plain_card::image(rows, &index);
        let number = if dice.one_in(2) { image.len() / BLOCK - 1 } else { dice.below(image.len() / BLOCK) };
        let mut block = block_of(&image, number);
        for _ in 0..dice.below(3) {
            block = changed(&mut dice, block);
        }
        if dice.one_in(20) {
            block = sealed((0..BLOCK).map(|_| dice.word() as u8).collect());
        }
        if dice.one_in(20) {
            block[dice.below(BLOCK)] ^= 1 << dice.below(8);
        }
        let words = state(number, rows, &index).words();
        let [due, rows, borders, imprints, dictionary] = words.map(|word| changed_count(&mut dice, word));
        let told = State { due, rows, borders, imprints, dictionary };
        let mut spaces = if dice.one_in(2) { index.clone() } else { stale(lengths(&index).map(|length| length + dice.below(2))) };
        if dice.one_in(8) {
            spaces.imprints.pop();
        }
        held::case(format!("random round {round}: {told:?}"));
        numbers.count(&held::card_feed(&block, told, &mut spaces));
    }
    numbers.seen(&[0, 2, 3, 4, 5, 14, 15]);
}

/// One meaning has one image: an image that is read to its end, whatever became of it on the way, is the one that the writer makes of what
/// it gave.
#[test]
fn one_image() {
    let mut dice = Dice::new(421);
    let (mut taken, mut refused) = (0, 0);
    for round in 0..rounds(4000) {
        let (borders, lines) = (dice.below(64), dice.of(&[0, 1, 5, 40, 60, 61, 120]));
        let index = index_of(&mut dice, borders, lines);
        let rows = (16 * lines - if lines == 0 { 0 } else { dice.below(16) }) as u64;
        let mut image = held::card_write(rows, &index, 10_000).unwrap();
        for _ in 0..1 + dice.below(2) {
            let number = dice.below(image.len() / BLOCK);
            let block = changed(&mut dice, block_of(&image, number));
            image[number * BLOCK..][..BLOCK].copy_from_slice(&block);
        }
        held::case(format!("round {round}, {borders} borders, {lines} lines"));
        match read(&image, [64, 300, 300]) {
            Ok(reader) => {
                taken += 1;
                let used = reader.state.due as usize * BLOCK;
                assert_eq!(held::card_write(reader.state.rows, &reader.words(), 10_000).unwrap(), image[..used]);
            }
            Err(_) => refused += 1,
        }
    }
    assert!(1000 < taken && 1000 < refused, "{taken} taken, {refused} refused");
}
