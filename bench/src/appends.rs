//! An hour comes in: sixty rows appended to an index of all the others, beside building anew.
use crate::seconds;
use miguzoryane::{append, lines, search, Index, IndexBuf, ROWS_PER_LINE};

const HOUR: usize = 60;

/// Best seconds of appending the last hour, as a line of the table. The index is put back into its spaces before each call, outside the
/// time taken.
pub fn measure(name: &str, column: &[i32], build: f64, reps: usize) -> String {
    let covered = column.len().saturating_sub(HOUR);
    let built = IndexBuf::build(&column[..covered]).expect("not too long");
    let Index { borders, imprints: kept, dictionary: entries } = built.as_index();
    // Room for the told words and one for each line to be imprinted, as `IndexBuf::append` has it.
    let room = lines(column.len()) - covered / ROWS_PER_LINE;
    let (mut imprints, mut dictionary) = (vec![0; kept.len() + room], vec![0; entries.len() + room]);
    let mut best = f64::MAX;
    let mut lengths = (0, 0);
    for _ in 0..reps {
        imprints[..kept.len()].copy_from_slice(kept);
        dictionary[..entries.len()].copy_from_slice(entries);
        let (took, index) = seconds(|| append(column, covered, borders, &mut imprints, kept.len(), &mut dictionary, entries.len()));
        best = best.min(took);
        lengths = index.map(|index| (index.imprints.len(), index.dictionary.len())).expect("a good index");
    }
    check(column, Index { borders, imprints: &imprints[..lengths.0], dictionary: &dictionary[..lengths.1] }, covered);
    let ratio = best / build;
    format!("| {name} | {:.4} | {:.1} | **{ratio:.6}** | 1 / {:.0} |\n", best * 1e3, build * 1e3, 1.0 / ratio)
}

/// The hour's values are found in it, and wherever else they stand.
fn check(column: &[i32], index: Index<'_>, covered: usize) {
    let hour = &column[covered..];
    let (low, high) = (*hour.iter().min().expect("rows"), *hour.iter().max().expect("rows"));
    let mut ids = vec![0; column.len()];
    let found = search(column, index, low..=high, &mut ids).expect("a good index");
    let scanned = (0..column.len()).filter(|&row| low <= column[row] && column[row] <= high);
    assert!(found.rows.iter().map(|&row| row as usize).eq(scanned), "search and scan differ");
}
