//! Build beside the same loop in hand-written Rust, once for each way to look a bin up, and the shares of the sample's sort and of packing.
use crate::lookups::{bin_before_first, counting, halving, partition_point};
use crate::seconds;
use miguzoryane::{build, lines, pack, unpack, Error, FAULT, ROWS_PER_LINE};

const REPEAT: u32 = 1 << 24;
const SAMPLE: usize = 2048;
const BORDERS: usize = 63;

/// The borders that document 01 gives a column.
pub fn borders(column: &[i32]) -> Vec<i32> {
    let stride = column.len().div_ceil(SAMPLE).max(1);
    let mut sample: Vec<i32> = column.iter().step_by(stride).copied().filter(|&value| value != FAULT).collect();
    sample.sort_unstable();
    let mut different = sample.clone();
    different.dedup();
    if different.len() < BORDERS {
        return different;
    }
    let mut spread: Vec<i32> = (0..BORDERS - 1).map(|i| sample[i * sample.len() / (BORDERS - 1)]).collect();
    spread.extend(sample.last());
    spread.dedup();
    spread
}

/// What is built, in spaces that are there already.
struct Spaces {
    borders: Vec<i32>,
    imprints: Vec<u64>,
    dictionary: Vec<u32>,
}

/// The open entry: its lines so far, and whether it is a repeat entry.
#[derive(Default)]
struct Open {
    count: u32,
    repeat: bool,
}

/// What an able programmer would write: borders, then a line at a time its imprint and the entry that it goes on with.
#[inline(never)]
fn plain<F: Fn(&[i32]) -> u64>(column: &[i32], spaces: &mut Spaces, lookup: impl FnOnce(&[i32]) -> F) {
    let Spaces { borders: found, imprints, dictionary } = spaces;
    *found = borders(column);
    imprints.clear();
    dictionary.clear();
    let imprint_of = lookup(found);
    let mut open = Open::default();
    let mut last = 0;
    for line in column.chunks(ROWS_PER_LINE) {
        let imprint = imprint_of(line);
        if imprint == last {
            if !open.repeat {
                if 1 < open.count {
                    dictionary.push(open.count - 1);
                }
                open = Open { count: 1, repeat: true };
            }
            open.count += 1;
        } else {
            if open.repeat {
                dictionary.push(REPEAT | open.count);
                open = Open::default();
            }
            imprints.push(imprint);
            last = imprint;
            open.count += 1;
        }
    }
    match open {
        Open { count: 0, .. } => (),
        Open { count, repeat: true } => dictionary.push(REPEAT | count),
        Open { count, repeat: false } => dictionary.push(count),
    }
}

type ByHand = (&'static str, fn(&[i32], &mut Spaces));

const BY_HAND: [ByHand; 4] = [
    ("counting all borders", |column, spaces| plain(column, spaces, counting)),
    ("`partition_point`", |column, spaces| plain(column, spaces, partition_point)),
    ("halving without a branch", |column, spaces| plain(column, spaces, halving)),
    ("the shape kept", |column, spaces| plain(column, spaces, bin_before_first)),
];

/// Best seconds of building, ours and by hand with each lookup, as a line of the first table; what sampling with sorting and what packing
/// take, as one of the second.
pub fn measure(name: &str, column: &[i32], reps: usize) -> (String, String) {
    let most = lines(column.len());
    let (mut borders, mut imprints, mut dictionary) = (vec![0; BORDERS], vec![0; most], vec![0; most]);
    let mut spaces = Spaces { borders: Vec::new(), imprints: Vec::with_capacity(most), dictionary: Vec::with_capacity(most) };
    let mut ours = f64::MAX;
    let mut best = [f64::MAX; BY_HAND.len()];
    for _ in 0..reps {
        let (took, built) = seconds(|| build(column, &mut borders, &mut imprints, &mut dictionary).expect("not too long"));
        ours = ours.min(took);
        for ((_, by_hand), best) in BY_HAND.iter().zip(&mut best) {
            let (took, ()) = seconds(|| by_hand(column, &mut spaces));
            *best = best.min(took);
            let same = built.borders == spaces.borders && built.imprints == spaces.imprints && built.dictionary == spaces.dictionary;
            assert!(same, "build and the loop by hand differ");
        }
    }
    let rust = best.iter().copied().fold(f64::MAX, f64::min);
    let ms: String = best.iter().map(|seconds| format!(" {:.1} |", seconds * 1e3)).collect();
    let built = format!("| {name} | {:.1} |{ms} **{:.2}** | {:.2} |\n", ours * 1e3, ours / rust, ours / best[0]);
    (built, shares(name, column, ours, reps))
}

pub fn heading() -> String {
    let by_hand: String = BY_HAND.iter().map(|(name, _)| format!(" Rust, {name}, ms |")).collect();
    format!("| column | build, ms |{by_hand} build / best Rust | build / counting |\n|---|---|---|---|---|---|---|---|")
}

/// A build that is lent no space for borders ends when it has them: it has sampled, sorted and picked, and looked up nothing. Packing is
/// measured by its own call, over the same imprints: that one also tests them and measures first, so it takes longer than the part of a build.
fn shares(name: &str, column: &[i32], whole: f64, reps: usize) -> String {
    let most = lines(column.len());
    let (mut borders, mut imprints, mut dictionary, mut list) = (vec![0; BORDERS], vec![0; most], vec![0; most], vec![0; most]);
    let built = build(column, &mut borders, &mut imprints, &mut dictionary).expect("not too long");
    unpack(built, most, &mut list).expect("its own index");
    let found = built.borders.to_vec();
    let (mut sampling, mut packing) = (f64::MAX, f64::MAX);
    for _ in 0..reps {
        let (took, refused) = seconds(|| build(column, &mut [], &mut [], &mut []).err());
        assert!(matches!(refused, Some(Error::SpaceShort { .. })), "borders have no room");
        sampling = sampling.min(took);
        packing = packing.min(seconds(|| pack(&list, &found, &mut imprints, &mut dictionary).map(|_| ()).expect("fit")).0);
    }
    let share = |part: f64| format!("{:.3} ms, {:.1}%", part * 1e3, 100.0 * part / whole);
    format!("| {name} | {} | {} |\n", share(sampling), share(packing))
}
