//! Document 01's examples, of the library, with what they must give written out.
use outside_tests::face::*;
use outside_tests::held;
use outside_tests::mapped::Zeros;
use outside_tests::plain::{Found, Index, Outcome, REPEAT};

fn column_a() -> Vec<i32> {
    let mut column = vec![5; 32];
    column.extend([20; 8]);
    column
}

fn index_a() -> Index {
    Index { borders: vec![5, 20], imprints: vec![2, 4], dictionary: vec![16777218, 1] }
}

#[test]
fn p1_p2_index_of_a() {
    assert_eq!(held::build(&column_a(), [63, 3, 3]), Ok(index_a()));
    assert_eq!(held::unpack(&index_a(), 3, 3), Ok(vec![2, 2, 4]));
    let packed = held::pack(&[2, 2, 4], &[5, 20], [2, 2]);
    assert_eq!(packed, Ok((vec![2, 4], vec![16777218, 1])));
}

#[test]
fn p3_to_p7_ranges_of_a() {
    let found = |low, high| held::search(&column_a(), &index_a(), low, high, 40).unwrap();
    let rows = |rows: std::ops::Range<u32>, skipped, whole, compared| Found { ids: rows.collect(), skipped, whole, compared };
    assert_eq!(found(5, 5), rows(0..32, 1, 0, 32));
    assert_eq!(found(5, 19), rows(0..32, 1, 2, 0));
    assert_eq!(found(20, i32::MAX), rows(32..40, 2, 1, 0));
    assert_eq!(found(6, 19), rows(0..0, 1, 0, 32));
    assert_eq!(found(-1, 4), rows(0..0, 3, 0, 0));
    assert_eq!(found(20, 20), rows(32..40, 2, 0, 8));
}

#[test]
fn p8_column_of_a_hundred() {
    let column: Vec<i32> = (0..100).collect();
    let index = held::build(&column, [63, 7, 7]).unwrap();
    assert_eq!(index.borders.len(), 63);
    assert_eq!(index.borders[..6], [0, 1, 3, 4, 6, 8]);
    assert_eq!(index.borders[61..], [98, 99]);
    assert_eq!(index.imprints[0], 2046);
}

fn fresh(levels: u32, room: u32) -> Vec<u32> {
    let mut words = vec![99; unsafe { mgz_filter_words(room) } as usize];
    held::fresh(levels, room, &mut words).unwrap();
    words
}

#[test]
fn p9_to_p12_filters() {
    let mut words = fresh(4, 7);
    held::learn(&mut words, 12, 15).unwrap();
    assert_eq!(held::read(&words), Ok([4, 7, 0, 2]));
    assert_eq!(held::ask(&words, 13, 13), Ok(false));
    assert_eq!(held::ask(&words, 11, 12), Ok(true));
    let mut again = words.clone();
    held::learn(&mut words, 8, 11).unwrap();
    assert_eq!(held::read(&words), Ok([4, 7, 0, 1]));
    held::arrive(&mut words, 9).unwrap();
    assert_eq!(held::read(&words), Ok([4, 7, 0, 0]));
    assert_eq!(held::ask(&words, 8, 8), Ok(true));

    let mut words = fresh(4, 7);
    held::learn(&mut words, 7, 8).unwrap();
    assert_eq!(held::read(&words), Ok([4, 7, 0, 7]));
    assert_eq!(held::learn(&mut fresh(4, 6), 7, 8).unwrap_err().number, 9);

    let mut words = fresh(4, 4);
    held::learn(&mut words, 0, 4).unwrap();
    assert_eq!(held::read(&words), Ok([4, 4, 0, 4]));
    held::learn(&mut words, 6, 15).unwrap();
    assert_eq!(held::read(&words), Ok([4, 4, 0, 4]));

    held::forget(&mut again).unwrap();
    assert_eq!(held::read(&again), Ok([4, 7, 0, 0]));
    assert_eq!(held::forget(&mut again).unwrap_err().number, 10);
}

#[test]
fn lengths() {
    let empty = Index { borders: vec![], imprints: vec![], dictionary: vec![] };
    assert_eq!(held::build(&[], [0, 0, 0]), Ok(empty.clone()));
    assert_eq!(held::search(&[], &empty, 0, 0, 0), Ok(Found::default()));
    // Refused as 2 until request 107.
    let column = vec![7; 16_777_217];
    let one = held::build(&column, [1, 1, 1]).unwrap();
    assert_eq!(one.dictionary, [REPEAT + 1_048_577]);
    let list = vec![2; 1_048_577];
    assert_eq!(held::pack(&list, &[7], [1, 1]).unwrap().1, one.dictionary);
    assert_eq!(held::unpack(&one, 1_048_577, 1_048_577).unwrap(), list);
    assert_eq!(held::unpack(&one, 1_048_577, 5).unwrap_err().needed, 1_048_577);
    assert_eq!(held::search(&column, &one, 1, 0, 0).unwrap_err().number, 1);
    assert_eq!(held::search(&column, &one, 8, 9, 0).unwrap().compared, 16_777_217);
    let too_long = Zeros::of(4_294_967_296);
    assert_eq!(held::build(&too_long, [63, 2, 2]).unwrap_err().number, 2);
    assert_eq!(held::search(&too_long, &empty, 1, 0, 0).unwrap_err().number, 2);
    let guarded = held::guarded(&mut fresh(4, 7), &too_long, &empty, 0, 3, 0);
    assert_eq!(guarded.unwrap_err().number, 2);
    assert_eq!(held::pack(&Zeros::of(268_435_457), &[7], [9, 9]).unwrap_err().number, 2);
    assert_eq!(held::unpack(&one, 268_435_457, 9).unwrap_err().number, 2);
    assert_eq!(held::unpack(&one, u64::MAX, 0).unwrap_err().number, 2);
}

#[test]
fn search_with_both_of_a() {
    let mut words = fresh(5, 10);
    let both = |words: &mut Vec<u32>, low, high| held::guarded(words, &column_a(), &index_a(), low, high, 40).unwrap().0.number();
    assert_eq!(both(&mut words, 5, 6), 1);
    assert_eq!(both(&mut words, 8, 9), 2);
    assert_eq!(both(&mut words, 6, 19), 0);
    assert_eq!(both(&mut words, 6, 20), 1);
    assert_eq!(both(&mut words, 21, 31), 2);
    assert_eq!(both(&mut words, 3, 4), 2);
    assert_eq!(both(&mut words, 0, 4), 0);
    assert_eq!(held::read(&words).unwrap()[2], 0);
    let (outcome, found) = held::guarded(&mut fresh(5, 0), &column_a(), &index_a(), 6, 19, 0).unwrap();
    assert_eq!(outcome, Outcome::EmptyNotLearnt);
    assert_eq!((found.skipped, found.whole, found.compared), (1, 0, 32));
}
