//! Each number that a call can answer arrives as the error that names it, in the order of the documents' checks.
#![allow(clippy::reversed_empty_ranges)]
use miguzoryane::*;
use std::ffi::c_void;

extern "C" {
    fn mmap(at: *mut c_void, bytes: usize, protection: i32, flags: i32, file: i32, offset: i64) -> *mut c_void;
}

/// Zeros that take no memory until they are written: an anonymous mapping (Linux), which stays.
fn zeros<T: From<u8>>(length: usize) -> &'static mut [T] {
    const READ_WRITE: i32 = 1 | 2;
    const PRIVATE_ANONYMOUS_NORESERVE: i32 = 0x2 | 0x20 | 0x4000;
    // SAFETY: a new mapping, which touches no other.
    let at = unsafe { mmap(std::ptr::null_mut(), length * size_of::<T>(), READ_WRITE, PRIVATE_ANONYMOUS_NORESERVE, -1, 0) };
    assert!(at as isize != -1, "no mapping of {length} words");
    // SAFETY: it has this length and is handed out once; of the integers that are made here zero bytes are a value.
    unsafe { std::slice::from_raw_parts_mut(at.cast(), length) }
}

const A: Index<'static> = Index { borders: &[5, 20], imprints: &[2, 4], dictionary: &[16777218, 1] };

fn column_a() -> Vec<i32> {
    [[5; 32].as_slice(), &[20; 8]].concat()
}

#[test]
fn of_the_index() {
    let column = column_a();
    let mut ids = [0; 40];
    let backwards = 6..=5;
    let long = zeros(ROWS_AT_MOST + 1);
    let equal = Index { borders: &[5, 5], ..A };
    let damaged = Index { dictionary: &[3], ..A };
    assert_eq!(IndexBuf::build(long), Err(Error::ColumnTooLong));
    assert_eq!(build(long, &mut [], &mut [], &mut []), Err(Error::ColumnTooLong));
    assert_eq!(search(long, damaged, backwards.clone(), &mut ids), Err(Error::ColumnTooLong));
    // A row less is not too long: what is wrong with the index is told.
    assert_eq!(search(&long[1..], equal, backwards.clone(), &mut ids), Err(Error::BadBorders));
    assert_eq!(search(&column, equal, backwards.clone(), &mut ids), Err(Error::BadBorders));
    assert_eq!(search(&column, damaged, backwards.clone(), &mut ids), Err(Error::NotAnIndex));
    assert_eq!(search(&column, A, backwards, &mut ids), Err(Error::LowAboveHigh));
    assert_eq!(search(&column, A, 0..=30, &mut ids[..39]), Err(Error::SpaceShort { needed: 40 }));
    assert_eq!(build(&column, &mut [0; 2], &mut [0; 1], &mut [0; 1]), Err(Error::SpaceShort { needed: 2 }));
    assert_eq!(unpack(A, LINES_AT_MOST + 1, &mut []), Err(Error::ColumnTooLong));
    assert_eq!(unpack(A, 3, &mut [0; 2]), Err(Error::SpaceShort { needed: 3 }));
    let list = zeros(LINES_AT_MOST + 1);
    assert_eq!(pack(list, &[], &mut [], &mut []), Err(Error::ColumnTooLong));
    assert_eq!(pack(&list[1..], &[5, 5], &mut [], &mut []), Err(Error::BadBorders));
    assert_eq!(unpack(A, LINES_AT_MOST, &mut []), Err(Error::NotAnIndex));
    assert_eq!(IndexBuf::build(&column).unwrap().as_index(), A);
}

#[test]
fn of_an_append() {
    let column = [column_a(), vec![5; 8]].concat();
    let long = zeros(ROWS_AT_MOST + 1);
    let (mut imprints, mut dictionary) = ([2, 4, 77], [16777218, 1, 77]);
    let mut refused = |column: &[i32], covered, borders: &[i32], told, spaces: usize| {
        append(column, covered, borders, &mut imprints[..spaces], told, &mut dictionary[..spaces], told).unwrap_err()
    };
    assert_eq!(refused(long, usize::MAX, &[5, 5], 9, 2), Error::ColumnTooLong);
    assert_eq!(refused(&long[1..], ROWS_AT_MOST + 1, &[5, 5], 9, 2), Error::CoveredAboveRows);
    assert_eq!(refused(&long[1..], ROWS_AT_MOST, &[5, 5], 9, 2), Error::BadBorders);
    assert_eq!(refused(&column, 49, &[5, 5], 9, 2), Error::CoveredAboveRows);
    assert_eq!(refused(&column, 40, &[5, 5], 9, 2), Error::BadBorders);
    assert_eq!(refused(&column, 40, &[5, 20], 3, 2), Error::NotAnIndex);
    assert_eq!(refused(&column, 40, &[5, 20], usize::MAX, 2), Error::NotAnIndex);
    assert_eq!(refused(&column, 32, &[5, 20], 2, 2), Error::NotAnIndex);
    let more = [column_a(), vec![20; 8], vec![5; 1]].concat();
    assert_eq!(refused(&more, 40, &[5, 20], 2, 2), Error::SpaceShort { needed: 3 });
    assert_eq!((imprints, dictionary), ([2, 4, 77], [16777218, 1, 77]));
    let index = append(&column, 40, &[5, 20], &mut imprints, 2, &mut dictionary, 2).unwrap();
    assert_eq!(index, Index { borders: &[5, 20], imprints: &[2, 6], dictionary: &[16777218, 1] });
    assert_eq!((imprints[2], dictionary[2]), (77, 77));
}

/// An index that grows by pieces of one row, then by a long one, ends as one that grew at once; refused, it stands as it was.
#[test]
fn of_an_index_that_grows() {
    let column: Vec<i32> = (0..5000).map(|row| row / 40 % 9 + row % 2 * (row / 1000)).collect();
    let mut index = IndexBuf::build(&column[..20]).unwrap();
    let mut at_once = index.clone();
    for rows in 20..=400 {
        index.append(&column[..rows]).unwrap();
    }
    assert_eq!(index.covered(), 400);
    let before = index.clone();
    assert_eq!(index.append(&column[..399]), Err(Error::CoveredAboveRows));
    assert_eq!(index.append(zeros(ROWS_AT_MOST + 1)), Err(Error::ColumnTooLong));
    assert_eq!(index, before);
    index.append(&column).unwrap();
    at_once.append(&column).unwrap();
    assert_eq!(index, at_once);
    let scanned: Vec<u32> = (0..5000).filter(|&row| (3..=4).contains(&column[row as usize])).collect();
    assert_eq!(index.rows(&column, 3..=4).unwrap(), scanned);
}

#[test]
fn of_a_position() {
    let bad = Position { entry: 3, place: 0, number: 0 };
    let mut lines = Lines::from(A, bad);
    assert_eq!(lines.next(), Some(Err(Error::NotAnIndex)));
    assert_eq!(lines.position(), bad);
    let mut ended = Lines::from(A, Position { entry: 2, place: 9, number: 9 });
    assert_eq!(ended.next(), None);
    assert_eq!(ended.next(), None);
}

#[test]
fn of_the_filter() {
    let backwards = 6..=5;
    let mut filter = Filter::fresh(4, 6).unwrap();
    assert_eq!(Filter::fresh(0, 4096).unwrap_err(), Error::BadLevels);
    assert_eq!(Filter::fresh(0, 1).unwrap_err(), Error::BadLevels);
    assert_eq!(Filter::fresh(1, 4096).unwrap_err(), Error::RoomTooLarge);
    assert_eq!(Filter::fresh(20, 4096).unwrap_err(), Error::RoomTooLarge);
    assert_eq!(Filter::fresh_in(1, 2, [0; 7]).unwrap_err(), Error::RoomTooLarge);
    assert_eq!(Filter::fresh_in(2, 2, [0; 7]).unwrap_err(), Error::SpaceShort { needed: 8 });
    assert_eq!(filter.denies(16..=5), Err(Error::NoKey));
    assert_eq!(filter.denies(backwards.clone()), Err(Error::LowAboveHigh));
    assert_eq!(filter.learn(backwards), Err(Error::LowAboveHigh));
    assert_eq!(filter.learn(7..=8), Err(Error::NoRoom));
    assert_eq!(filter.arrive(16), Err(Error::NoKey));
    assert_eq!(filter.depart(16), Err(Error::NoKey));
    assert_eq!(filter.depart(15), Ok(()));
    assert_eq!(filter.forget(), Err(Error::NothingToForget));
    assert_eq!(filter.state(), Ok(FilterState { levels: 4, room: 6, hand: 0, splits: 0 }));
    let mut words = filter.into_words();
    words[1] = 16;
    words.resize(filter_words(16) as usize, 0);
    assert_eq!(Filter::from_words(words.as_slice()).unwrap_err(), Error::NotAFilter);
    words[1] = 15;
    assert_eq!(Filter::from_words(words.as_slice()).unwrap().state().unwrap().room, 15);
    words[3] = 7;
    assert_eq!(Filter::from_words(words).unwrap_err(), Error::NotAFilter);
}

#[test]
fn of_the_search_with_both() {
    let column = column_a();
    let mut ids = [0; 40];
    let mut filter = Filter::fresh(5, 0).unwrap();
    assert_eq!(guarded_search(&mut filter, &column, A, 3..=32, &mut ids), Err(Error::NoKey));
    assert_eq!(guarded_search(&mut filter, &column, A, 3..=20, &mut []), Err(Error::SpaceShort { needed: 40 }));
    let counts = Counts { skipped: 1, whole: 0, compared: 32 };
    assert_eq!(guarded_search(&mut filter, &column, A, 6..=19, &mut ids), Ok(Outcome::EmptyNotLearnt(counts)));
    let long = zeros(ROWS_AT_MOST + 1);
    assert_eq!(guarded_search(&mut filter, long, A, 6..=19, &mut ids), Err(Error::ColumnTooLong));
    assert_eq!(guarded_search(&mut filter, &long[1..], A, 6..=19, &mut ids), Err(Error::NotAnIndex));
}

#[test]
fn of_a_register() {
    let long = zeros(ROWS_AT_MOST + 1);
    let mut words = [77; 9];
    long[7] = -1;
    assert_eq!(register(long, &mut words), Err(Error::ColumnTooLong));
    assert_eq!(RegisterBuf::of(long), Err(Error::ColumnTooLong));
    assert_eq!(register(&long[1..], &mut words), Err(Error::NegativeMinute { row: 6 }));
    assert_eq!(register(&long[..8], &mut []), Err(Error::NegativeMinute { row: 7 }));
    assert_eq!(register(&[FAULT, -1], &mut words), Err(Error::NegativeMinute { row: 0 }));
    assert_eq!(RegisterBuf::of(&[0, 60, -60, FAULT]), Err(Error::NegativeMinute { row: 2 }));
    assert_eq!(register(&[0, 60], &mut words[..7]), Err(Error::SpaceShort { needed: 8 }));
    assert_eq!(words, [77; 9]);
    let hours = register(&[0, 60], &mut words).unwrap();
    assert_eq!(hours.words(), [0, 0, 0, 1, 1, 0, 1, 1]);
    assert_eq!(words[8], 77);
}

/// Every way to its entries gives the same ones; a register of its own is as long as they are.
#[test]
fn of_a_registers_entries() {
    let minutes: Vec<i32> = (0..200).chain(140..300).collect();
    let own = RegisterBuf::of(&minutes).unwrap();
    let mut words = vec![0; Entry::WORDS * minutes.len()];
    let hours = register(&minutes, &mut words).unwrap();
    assert_eq!(own.as_register(), hours);
    assert_eq!((hours.len(), hours.words().len()), (7, 28));
    let entries: Vec<Entry> = hours.into_iter().collect();
    assert_eq!(entries[4], Entry { hour: 2, repeat: 1, first_row: 200, rows: 40 });
    assert!(entries.iter().copied().eq((0..7).map(|number| hours.entry(number).unwrap())));
    assert_eq!(hours.entry(7), None);
    assert!(entries.iter().flat_map(Entry::range).eq(0..minutes.len()));
    let none = RegisterBuf::of(&[]).unwrap();
    assert!(none.as_register().is_empty());
    assert_eq!(none.as_register().entry(0), None);
}

#[test]
fn of_a_card() {
    let mut space = [77; 600];
    let equal = Index { borders: &[5, 5], dictionary: &[3], ..A };
    assert_eq!(card::write(ROWS_AT_MOST + 1, equal, &mut []), Err(Error::ColumnTooLong));
    assert_eq!(card::write(usize::MAX, equal, &mut []), Err(Error::ColumnTooLong));
    assert_eq!(card::write(40, equal, &mut []), Err(Error::BadBorders));
    assert_eq!(card::write(49, A, &mut []), Err(Error::NotAnIndex));
    assert_eq!(card::write(40, A, &mut space[..511]), Err(Error::SpaceShort { needed: 512 }));
    assert_eq!(space, [77; 600]);
    assert_eq!(card::write(40, A, &mut space), Ok(512));
    assert_eq!(space[512..], [77; 88]);
    assert_eq!(card::image(40, A).as_deref(), Ok(&space[..512]));
    assert_eq!(card::image(49, A), Err(Error::NotAnIndex));
    assert_eq!(card::read(&space[..512]).unwrap().as_index(), A);
    assert_eq!(card::read(&[]), Err(Error::BadBlock { block: 0 }));
    assert_eq!(card::read(&space[..511]), Err(Error::BadBlock { block: 0 }));
    assert_eq!(card::read(&space[..513]), Err(Error::BadBlock { block: 1 }));
}

/// The block with these bytes at this place and a check that fits.
fn sealed(block: &[u8], at: usize, bytes: &[u8]) -> Vec<u8> {
    let mut block = block.to_vec();
    block[at..at + bytes.len()].copy_from_slice(bytes);
    let (mut a, mut b) = (0, 0);
    for pair in block[..508].chunks(2) {
        a = (a + u32::from(u16::from_le_bytes([pair[0], pair[1]]))) % 65_535;
        b = (b + a) % 65_535;
    }
    block[508..].copy_from_slice(&(a + 65_536 * b).to_le_bytes());
    block
}

#[test]
fn of_a_card_that_is_read() {
    let image = card::image(40, A).unwrap();
    assert_eq!(sealed(&image, 0, &[]), image);
    let read = |at: usize, bytes: &[u8]| card::read(&sealed(&image, at, bytes)).unwrap_err();
    assert_eq!(read(4, &[2]), Error::OtherEdition { block: 0 });
    assert_eq!(read(0, &[1]), Error::BadBlock { block: 0 });
    assert_eq!(read(8, &[52]), Error::BadBlock { block: 0 });
    assert_eq!(read(12, &[255; 4]), Error::NotAnIndex);
    assert_eq!(read(28, &[20]), Error::BadBorders);
    assert_eq!(read(36, &[0]), Error::NotAnIndex);
    assert_eq!(read(12, &[49]), Error::NotAnIndex);
}

/// A header that claims more than any index has gets no space; a good block 0 is taken afterwards.
#[test]
fn of_a_card_that_claims() {
    let image = card::image(40, A).unwrap();
    let full = sealed(&image, 8, &[240, 1]);
    let mut reader = card::CardReader::new();
    for (at, bytes, needed) in [
        (12, [255; 16], u32::MAX as usize),
        (16, [64, 0, 0, 0, 255, 255, 255, 255, 255, 255, 255, 255, 0, 0, 0, 0], 64),
        (16, [63, 0, 0, 0, 1, 0, 0, 16, 255, 255, 255, 255, 0, 0, 0, 0], 268_435_457),
        (16, [63, 0, 0, 0, 0, 0, 0, 16, 0, 0, 0, 128, 0, 0, 0, 0], 1 << 31),
    ] {
        assert_eq!(reader.feed(&sealed(&full, at, &bytes)), Err(Error::SpaceShort { needed }));
        assert_eq!((reader.due(), reader.ended()), (0, false));
    }
    // As much as any index has is taken.
    let mut most = reader.clone();
    assert_eq!(most.feed(&sealed(&full, 16, &[63, 0, 0, 0, 0, 0, 0, 16, 0, 0, 0, 16])), Ok(false));
    assert_eq!(most.state(), card::State { due: 1, rows: 40, borders: 63, imprints: 1 << 28, dictionary: 1 << 28 });
    assert_eq!(most.finish(), Err(Error::BadBlock { block: 1 }));
    // Spaces that were made for a block 0 that holds no index are not too long for the next.
    let longer = card::image(100, Index { borders: &[1, 2, 3], imprints: &[1, 2, 1, 2, 1, 2, 1], dictionary: &[7] }).unwrap();
    assert_eq!(reader.feed(&sealed(&longer, 12, &[1])), Err(Error::NotAnIndex));
    assert_eq!(reader.feed(&image), Ok(true));
    assert_eq!(reader.feed(&[]), Err(Error::BadBlock { block: 1 }));
    assert!(reader.ended());
    let index = reader.finish().unwrap();
    assert_eq!((index.covered(), index.as_index()), (40, A));
}

/// An index from the card grows like any other.
#[test]
fn of_an_index_from_a_card() {
    let column: Vec<i32> = (0..5000).map(|row| row / 40 % 9 + row % 2 * (row / 1000)).collect();
    let mut index = IndexBuf::build(&column[..2000]).unwrap();
    let mut from_card = card::read(&card::image(2000, index.as_index()).unwrap()).unwrap();
    assert_eq!(from_card, index);
    index.append(&column).unwrap();
    from_card.append(&column).unwrap();
    assert_eq!(from_card, index);
}

#[test]
fn numbers() {
    let all = [
        Error::LowAboveHigh,
        Error::ColumnTooLong,
        Error::NotAnIndex,
        Error::SpaceShort { needed: 1 },
        Error::BadBorders,
        Error::BadLevels,
        Error::NoKey,
        Error::NotAFilter,
        Error::NoRoom,
        Error::NothingToForget,
        Error::RoomTooLarge,
    ];
    let others = [
        (Error::NegativeMinute { row: 1 }, 13),
        (Error::OtherEdition { block: 1 }, 14),
        (Error::BadBlock { block: 1 }, 15),
        (Error::CoveredAboveRows, 17),
    ];
    for (error, number) in all.into_iter().zip(1..).chain(others) {
        assert_eq!(error.number(), number);
        assert!(!error.to_string().is_empty());
    }
}
