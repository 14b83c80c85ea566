//! The hour register beside a plain Rust loop written for this purpose.
use crate::{inputs, seconds};
use miguzoryane::{register, Entry};
use std::collections::HashMap;

const MINUTES_PER_YEAR: i32 = 525_600;

/// A time column. The last three have an entry a row, or nearly so.
fn minutes(name: &str, rows: usize) -> Vec<i32> {
    let numbers = 0..rows as i32;
    match name {
        "rising by a minute" => numbers.collect(),
        "the clock goes back an hour each year" => numbers.map(|row| row - row / MINUTES_PER_YEAR * 60).collect(),
        "hours alternate" => numbers.map(|row| row % 2 * 60).collect(),
        "shuffled minutes" => inputs::column("shuffled", rows),
        "shuffled hours, each once" => inputs::column("shuffled", rows).into_iter().map(|hour| hour * 60).collect(),
        other => unreachable!("no column {other}"),
    }
}

const COLUMNS: [&str; 5] =
    ["rising by a minute", "the clock goes back an hour each year", "hours alternate", "shuffled minutes", "shuffled hours, each once"];

/// The earlier entries of each hour. One above all before is new: it goes to the end of a rising list, and only the others ask the
/// standard library's map.
#[derive(Default)]
struct Earlier {
    above_all_before: Vec<u32>,
    others: HashMap<u32, u32>,
}

impl Earlier {
    fn repeat(&mut self, hour: u32) -> u32 {
        if self.above_all_before.last().is_none_or(|&highest| highest < hour) {
            self.above_all_before.push(hour);
            return 0;
        }
        let count = self.others.entry(hour).or_insert_with(|| self.above_all_before.binary_search(&hour).is_ok() as u32);
        *count += 1;
        *count - 1
    }
}

/// What an able programmer would write: a pass for a negative minute, and one that pushes each entry as the next begins, into a space that
/// is there already.
#[inline(never)]
fn plain(minutes: &[i32], words: &mut Vec<u32>) -> Result<(), usize> {
    words.clear();
    if let Some(row) = minutes.iter().position(|&minute| minute < 0) {
        return Err(row);
    }
    let Some(&start) = minutes.first() else {
        return Ok(());
    };
    let mut earlier = Earlier::default();
    let mut push = |hour: u32, first: usize, end: usize| {
        words.extend([hour, earlier.repeat(hour), first as u32, (end - first) as u32]);
    };
    let (mut hour, mut first, mut before) = (start as u32 / 60, 0, start as u32);
    for (row, &minute) in minutes.iter().enumerate() {
        let minute = minute as u32;
        // Minutes don't fall within an entry, so another hour is a later one: no division a row.
        if minute < before || 60 * hour + 60 <= minute {
            push(hour, first, row);
            (hour, first) = (minute / 60, row);
        }
        before = minute;
    }
    push(hour, first, minutes.len());
    Ok(())
}

/// Best nanoseconds a row of the register and of the plain loop, as a table.
pub fn measure(rows: usize, reps: usize) {
    let mut words = vec![1; Entry::WORDS * rows];
    let mut pushed = Vec::with_capacity(Entry::WORDS * rows);
    println!("| time column | entries | register, ns a row | plain loop, ns a row | register / plain loop |");
    println!("|---|---|---|---|---|");
    for name in COLUMNS {
        eprintln!("register, {name}: {reps} times");
        let minutes = minutes(name, rows);
        let (mut ours, mut theirs) = (f64::MAX, f64::MAX);
        for _ in 0..reps {
            let (took, hours) = seconds(|| register(&minutes, &mut words).expect("no negative minute"));
            ours = ours.min(took);
            let (took, done) = seconds(|| plain(&minutes, &mut pushed));
            theirs = theirs.min(took);
            assert!(done.is_ok() && hours.words() == pushed, "register and plain loop differ");
        }
        let entries = pushed.len() / Entry::WORDS;
        let per_row = |best: f64| best * 1e9 / rows as f64;
        println!("| {name} | {entries} | {:.2} | {:.2} | **{:.3}** |", per_row(ours), per_row(theirs), ours / theirs);
    }
    println!();
}
