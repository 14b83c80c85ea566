//! Search beside an ordinary Rust scan, build beside the same loop by hand, append beside build, the register and the card beside plain loops,
//! in one run, as ratios. Prints tables in markdown; its progress goes to standard error.
//! `MGZ_BENCH_ROWS`, `MGZ_BENCH_REPS` and `MGZ_BENCH_CALLS` make it shorter or longer.
mod appends;
mod builds;
mod cards;
mod filters;
mod inputs;
mod lookups;
mod registers;

use miguzoryane::{guarded_search, search, Filter, IndexBuf, Outcome};
use std::hint::black_box;

/// As many as the figures of docs/MEASURED.md are of.
const USUAL_ROWS: usize = 16_777_216;

fn setting(name: &str, usual: usize) -> usize {
    std::env::var(name).map_or(usual, |s| s.parse().unwrap_or_else(|_| panic!("{name} is no number")))
}

#[repr(C)]
struct Timespec {
    seconds: i64,
    nanoseconds: i64,
}

extern "C" {
    fn clock_gettime(clock: i32, time: *mut Timespec) -> i32;
}

/// Processor seconds of this thread so far (Linux): on a machine shared with others, wall time would favour the shorter call.
fn clock() -> f64 {
    const THREAD: i32 = 3;
    let mut time = Timespec { seconds: 0, nanoseconds: 0 };
    // SAFETY: the pointer is good for one `struct timespec` of a 64-bit Linux.
    assert_eq!(unsafe { clock_gettime(THREAD, &mut time) }, 0, "no clock for a thread's time");
    time.seconds as f64 + time.nanoseconds as f64 * 1e-9
}

/// Processor seconds that a call takes.
fn seconds<T>(f: impl FnOnce() -> T) -> (f64, T) {
    let start = clock();
    let answer = black_box(f());
    (clock() - start, answer)
}

/// The ordinary scan: every value compared, matching rows pushed into a space that is there already.
#[inline(never)]
fn scan(column: &[i32], low: i32, high: i32, rows: &mut Vec<u32>) {
    rows.clear();
    for (row, &value) in column.iter().enumerate() {
        if low <= value && value <= high {
            rows.push(row as u32);
        }
    }
}

struct Spaces {
    ids: Vec<u32>,
    scanned: Vec<u32>,
}

/// One range of one column: best seconds of the search and of the scan, and what the search looked at.
fn measure(column: &[i32], index: &IndexBuf, (low, high): (i32, i32), reps: usize, spaces: &mut Spaces) -> String {
    let (mut ours, mut theirs) = (f64::MAX, f64::MAX);
    let mut looked = String::new();
    for _ in 0..reps {
        let (took, found) = seconds(|| search(column, index.as_index(), low..=high, &mut spaces.ids).expect("a good index"));
        ours = ours.min(took);
        let (took, ()) = seconds(|| scan(column, low, high, &mut spaces.scanned));
        theirs = theirs.min(took);
        assert!(*found.rows == spaces.scanned[..], "search and scan differ");
        let lines = miguzoryane::lines(column.len()) as f64 / 100.0;
        let counts = found.counts;
        let compared = counts.compared as f64 / 16.0 / lines;
        looked = format!("{:.1}% / {:.1}% / {compared:.1}%", counts.skipped as f64 / lines, counts.whole as f64 / lines);
    }
    let rows = spaces.scanned.len();
    let ratio = ours / theirs;
    format!("{rows} | {:.3} | {:.3} | **{ratio:.3}** | {looked}", ours * 1e3, theirs * 1e3)
}

/// The search with both over a range that no row lies in: the look that learns, a denial, and the search without a filter.
fn both(column: &[i32], index: &IndexBuf, reps: usize, ids: &mut [u32]) -> String {
    let past = column.iter().max().map_or(0, |&v| v as u32 + 1);
    let range = past..=past.max((1 << 20) - 1);
    let (mut learnt, mut denied, mut plain) = (f64::MAX, f64::MAX, f64::MAX);
    for _ in 0..reps {
        let mut filter = Filter::fresh(20, 4095).expect("levels and room are good");
        let (took, outcome) = seconds(|| {
            guarded_search(&mut filter, column, index.as_index(), range.clone(), ids).map(|o| matches!(o, Outcome::EmptyLearnt(_)))
        });
        assert_eq!(outcome, Ok(true), "the first look learns");
        learnt = learnt.min(took);
        let (took, outcome) =
            seconds(|| guarded_search(&mut filter, column, index.as_index(), range.clone(), ids).map(|o| o == Outcome::Denied));
        assert_eq!(outcome, Ok(true), "the second is denied");
        denied = denied.min(took);
        let (low, high) = (*range.start() as i32, *range.end() as i32);
        plain = plain.min(seconds(|| search(column, index.as_index(), low..=high, ids).map(|found| found.rows.len())).0);
    }
    format!("| {:.3} | {:.3} | {:.3} |", learnt * 1e3, denied * 1e3, plain * 1e3)
}

fn machine() -> String {
    let text = std::fs::read_to_string("/proc/cpuinfo").unwrap_or_default();
    let line = |name: &str| text.lines().find(|line| line.starts_with(name)).and_then(|line| line.split(": ").nth(1));
    let model = line("model name").or(line("CPU part")).unwrap_or("unknown");
    let cores = std::thread::available_parallelism().map_or(0, |n| n.get());
    format!("{}, processor {model}, {cores} cores", std::env::consts::ARCH)
}

fn main() {
    let rows = setting("MGZ_BENCH_ROWS", USUAL_ROWS);
    let reps = setting("MGZ_BENCH_REPS", 9);
    let calls = setting("MGZ_BENCH_CALLS", 2000);
    let mut spaces = Spaces { ids: vec![1; rows], scanned: Vec::with_capacity(rows) };
    println!("{rows} rows, best of {reps}, processor time; {}.\n", machine());
    let (mut built, mut appended, mut guarded) = (String::new(), String::new(), String::new());
    let (mut by_hand, mut shares) = (String::new(), String::new());
    println!("| column | range hits | rows | search, ms | scan, ms | search / scan | lines skipped / whole / compared |");
    println!("|---|---|---|---|---|---|---|");
    for name in inputs::COLUMNS {
        eprintln!("{name}: making {rows} rows");
        let column = inputs::column(name, rows);
        let mut sorted = column.clone();
        sorted.sort_unstable();
        eprintln!("{name}: building, {} times", reps.min(5));
        let (mut best, mut index) = seconds(|| IndexBuf::build(&column).expect("not too long"));
        for _ in 1..reps.min(5) {
            let (took, again) = seconds(|| IndexBuf::build(&column).expect("not too long"));
            best = best.min(took);
            index = again;
        }
        let least = (0..reps).map(|_| seconds(|| scan(&column, 1, 0, &mut spaces.scanned)).0).fold(f64::MAX, f64::min);
        let parts = index.as_index();
        let bytes = 4 * parts.borders.len() + 8 * parts.imprints.len() + 4 * parts.dictionary.len();
        let share = 100.0 * bytes as f64 / (4 * rows) as f64;
        let per_row = best * 1e9 / rows as f64;
        built += &format!("| {name} | {:.1} | {per_row:.2} | {:.1} | {share:.3}% |\n", best * 1e3, best / least);
        eprintln!("{name}: building beside loops by hand, {reps} times");
        let (beside, parts) = builds::measure(name, &column, reps);
        by_hand += &beside;
        shares += &parts;
        eprintln!("{name}: appending an hour, {reps} times");
        appended += &appends::measure(name, &column, best, reps);
        for (percent, of_million) in [("0.001%", 10), ("0.1%", 1_000), ("0.9%", 9_000), ("10%", 100_000), ("50%", 500_000)] {
            eprintln!("{name}: ranges of {percent}, {reps} times");
            let range = inputs::range(&sorted, of_million);
            println!("| {name} | {percent} | {} |", measure(&column, &index, range, reps, &mut spaces));
        }
        if name == "drifting" {
            eprintln!("{name}: search with both, {reps} times");
            guarded = both(&column, &index, reps, &mut spaces.ids);
        }
    }
    for name in inputs::HARD {
        eprintln!("{name}: building beside loops by hand, {reps} times");
        let (beside, parts) = builds::measure(name, &inputs::column(name, rows), reps);
        by_hand += &beside;
        shares += &parts;
    }
    println!("\n| column | build, ms | ns per row | build / scan of an empty range | index, of the column |");
    println!("|---|---|---|---|---|");
    println!("{built}");
    println!("{}\n{by_hand}", builds::heading());
    println!("| column | sampling and sorting, of the build | packing by its own call, of the build |");
    println!("|---|---|---|");
    println!("{shares}");
    println!("| column, all but its last 60 rows indexed | append, ms | build anew, ms | append / build | |");
    println!("|---|---|---|---|---|");
    println!("{appended}");
    println!("| an empty range of the drifting column: look and learn, ms | denied, ms | search without the filter, ms |");
    println!("|---|---|---|\n{guarded}\n");
    lookups::measure(rows, reps.min(5));
    registers::measure(rows, reps.min(5));
    cards::measure(rows, reps);
    filters::measure(reps, calls);
}
