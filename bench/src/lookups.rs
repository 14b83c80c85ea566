//! Ways to find the bins of a line's rows, in hand-written Rust: the shapes that were tried before one was proved. Each makes from the borders
//! what it needs once, and gives a function from a line to its imprint.
use crate::inputs::{self, COLUMNS};
use crate::{builds, seconds};
use miguzoryane::{lines, FAULT, ROWS_PER_LINE};
use std::cell::Cell;
use std::hint::{black_box, select_unpredictable};

const BORDERS: usize = 63;

/// A line's imprint, row by row.
fn by_row(bin: impl Fn(i32) -> u32) -> impl Fn(&[i32]) -> u64 {
    move |line| line.iter().fold(0, |word, &value| word | 1u64 << (bin(value) % 64))
}

/// Every border is compared with every row, the borders side by side: the library's own lookup before request 105.
pub fn counting(borders: &[i32]) -> impl Fn(&[i32]) -> u64 {
    let borders = borders.to_vec();
    by_row(move |value| {
        let count = borders.iter().map(|&border| (border <= value) as u32).sum();
        if value == FAULT {
            0
        } else {
            count
        }
    })
}

pub fn partition_point(borders: &[i32]) -> impl Fn(&[i32]) -> u64 {
    let borders = borders.to_vec();
    by_row(move |value| {
        let count = borders.partition_point(|&border| border <= value) as u32;
        if value == FAULT {
            0
        } else {
            count
        }
    })
}

/// The value before each border, filled up with the greatest one. No border that is the smallest value counts for a fault.
fn ladder<const RUNGS: usize>(borders: &[i32]) -> [i32; RUNGS] {
    let mut rungs = [i32::MAX; RUNGS];
    rungs.iter_mut().zip(borders).for_each(|(rung, border)| *rung = border.saturating_sub(1));
    rungs
}

/// An element at a place that is one of the array's by how the shapes below count: no test is to slow a shape down that has none when proved.
#[inline(always)]
fn at<const N: usize>(array: &[i32; N], place: usize) -> i32 {
    debug_assert!(place < N);
    // SAFETY: a halving's places are sums of 32, 16, .. down to the step in hand, less 1; a tree's nodes double from 1, six times at most.
    unsafe { *array.get_unchecked(place) }
}

const STEPS: [usize; 6] = [32, 16, 8, 4, 2, 1];

/// Six halvings, each an `if`, one written after the other.
fn halving_by_if(borders: &[i32]) -> impl Fn(&[i32]) -> u64 {
    let rungs: [i32; BORDERS] = ladder(borders);
    by_row(move |value| {
        let half = |from: usize, step: usize| if at(&rungs, from + step - 1) < value { from + step } else { from };
        half(half(half(half(half(half(0, 32), 16), 8), 4), 2), 1) as u32
    })
}

/// The same, and the compiler is told to take no branch.
pub fn halving(borders: &[i32]) -> impl Fn(&[i32]) -> u64 {
    let rungs: [i32; BORDERS] = ladder(borders);
    by_row(move |value| {
        STEPS.iter().fold(0, |from, step| select_unpredictable(at(&rungs, from + step - 1) < value, from + step, from)) as u32
    })
}

/// The same, and the test is a number.
fn halving_by_number(borders: &[i32]) -> impl Fn(&[i32]) -> u64 {
    let rungs: [i32; BORDERS] = ladder(borders);
    by_row(move |value| STEPS.iter().fold(0, |from, step| from + step * (at(&rungs, from + step - 1) < value) as usize) as u32)
}

/// The same for four rows side by side, without a branch.
fn four_rows(borders: &[i32]) -> impl Fn(&[i32]) -> u64 {
    let rungs: [i32; BORDERS] = ladder(borders);
    let one_by_one = halving(borders);
    move |line| {
        let mut fours = line.chunks_exact(4);
        let mut word = 0;
        for four in &mut fours {
            let mut from = [0; 4];
            for step in STEPS {
                for (from, &value) in from.iter_mut().zip(four) {
                    *from = select_unpredictable(at(&rungs, *from + step - 1) < value, *from + step, *from);
                }
            }
            word = from.iter().fold(word, |word, bin| word | 1 << bin);
        }
        word | one_by_one(fours.remainder())
    }
}

/// Every border is compared with every row, the rows side by side.
fn rows_side_by_side(borders: &[i32]) -> impl Fn(&[i32]) -> u64 {
    let rungs: [i32; BORDERS] = ladder(borders);
    let few = borders.len();
    move |line| {
        let mut bins = [0u32; ROWS_PER_LINE];
        for rung in &rungs[..few] {
            bins.iter_mut().zip(line).for_each(|(bin, value)| *bin += (rung < value) as u32);
        }
        bins[..line.len()].iter().fold(0, |word, bin| word | 1 << bin)
    }
}

/// The rungs of which v is above the last, of eight eights; then those of the next eight.
fn eight_by_eight(borders: &[i32]) -> impl Fn(&[i32]) -> u64 {
    let rungs: [i32; 64] = ladder(borders);
    let lasts: [i32; 8] = std::array::from_fn(|eight| rungs[8 * eight + 7]);
    let below = |rungs: &[i32; 8], value: i32| rungs.iter().map(|&rung| (rung < value) as u32).sum::<u32>();
    by_row(move |value| {
        let eights = below(&lasts, value);
        let (groups, _) = rungs.as_chunks::<8>();
        8 * eights + below(&groups[eights as usize % 8], value)
    })
}

/// The ladder laid out as a tree: below node n are nodes 2n and 2n + 1.
fn tree(borders: &[i32]) -> [i32; 64] {
    let rungs: [i32; BORDERS] = ladder(borders);
    let mut nodes = [0; 64];
    for level in 0..6 {
        for place in 0..1 << level {
            nodes[(1 << level) + place] = rungs[(place << (6 - level)) + (32 >> level) - 1];
        }
    }
    nodes
}

/// Steps down the tree. What is chosen is a number, so there is nothing to branch on.
#[inline(always)]
fn down(nodes: &[i32; 64], node: usize, value: i32, steps: usize) -> usize {
    (0..steps).fold(node, |node, _| 2 * node + (at(nodes, node) < value) as usize)
}

fn tree_alone(borders: &[i32]) -> impl Fn(&[i32]) -> u64 {
    let nodes = tree(borders);
    by_row(move |value| down(&nodes, 1, value, 6) as u32)
}

/// The upper nodes are compared with all rows of a line side by side, and a row goes down the tree from where they lead to.
fn upper_nodes<const LEVELS: usize>(borders: &[i32]) -> impl Fn(&[i32]) -> u64 {
    let nodes = tree(borders);
    move |line| {
        let landing = 1 << LEVELS;
        let mut landings = [0u32; ROWS_PER_LINE];
        for (place, &value) in landings.iter_mut().zip(line) {
            *place = nodes[1..landing].iter().map(|&node| (node < value) as u32).sum();
        }
        let bins = landings.iter().zip(line).map(|(&place, &value)| down(&nodes, landing + place as usize, value, 6 - LEVELS));
        bins.fold(0, |word, leaf| word | 1 << (leaf % 64))
    }
}

/// A line whose rows all lie in its first row's bin is told by that; of any other the bins are found as before.
fn one_bin_first(borders: &[i32]) -> impl Fn(&[i32]) -> u64 {
    let nodes = tree(borders);
    let rungs: [i32; 64] = ladder(borders);
    let else_by = upper_nodes::<3>(borders);
    move |line| {
        let bin = line.first().map_or(0, |&value| down(&nodes, 1, value, 6) % 64);
        if bin != 0 && all_in(&rungs, bin, line) {
            return 1 << bin;
        }
        else_by(line)
    }
}

/// All rows lie in this bin: above the last rung before it, and not above its own.
fn all_in(rungs: &[i32; 64], bin: usize, line: &[i32]) -> bool {
    let (above, to) = (rungs[bin - 1], rungs[bin]);
    line.iter().map(|&value| (above < value && value <= to) as u32).sum::<u32>() as usize == line.len()
}

/// Where the line before lies in one bin, it is tried whether this one does too; of any other line the bins are found as before.
pub fn bin_before_first(borders: &[i32]) -> impl Fn(&[i32]) -> u64 {
    let rungs: [i32; 64] = ladder(borders);
    let else_by = upper_nodes::<3>(borders);
    let before = Cell::new(0u64);
    move |line| {
        let guess = before.get();
        if 1 < guess && guess.is_power_of_two() && all_in(&rungs, guess.trailing_zeros() as usize, line) {
            return guess;
        }
        before.set(else_by(line));
        before.get()
    }
}

/// The whole line goes down the tree together, as long as all its rows go one way; of any other line the bins are found as before.
fn together_first(borders: &[i32]) -> impl Fn(&[i32]) -> u64 {
    let nodes = tree(borders);
    let else_by = upper_nodes::<3>(borders);
    move |line| {
        let mut node = 1;
        while node < nodes.len() {
            let above = line.iter().map(|&value| (nodes[node] < value) as u32).sum::<u32>() as usize;
            if above != 0 && above != line.len() {
                return else_by(line);
            }
            node = 2 * node + (above != 0) as usize;
        }
        1 << (node % 64)
    }
}

/// The upper bits of a value's distance from the first rung say from which rung on to look: 1,024 parts of the borders' span.
fn table(borders: &[i32]) -> impl Fn(&[i32]) -> u64 {
    const PARTS: u32 = 1024;
    let rungs: [i32; 64] = ladder(borders);
    let (low, high) = (rungs[0], rungs[borders.len().saturating_sub(1)]);
    let span = low.abs_diff(high);
    let shift = u32::BITS - (span / PARTS).leading_zeros();
    let first = move |part: u32| {
        let begin = i64::from(low) + (i64::from(part) << shift);
        rungs.iter().filter(|&&rung| i64::from(rung) < begin).count() as u8
    };
    let from: [u8; PARTS as usize + 1] = std::array::from_fn(|part| first(part as u32));
    by_row(move |value| {
        let part = if value < low { 0 } else { (value.abs_diff(low) >> shift).min(PARTS) };
        let mut bin = from[part as usize] as usize;
        while bin < BORDERS && rungs[bin] < value {
            bin += 1;
        }
        bin as u32
    })
}

#[inline(never)]
fn imprint_all<F: Fn(&[i32]) -> u64>(column: &[i32], borders: &[i32], of: impl FnOnce(&[i32]) -> F, imprints: &mut [u64]) {
    let imprint = of(borders);
    imprints.iter_mut().zip(column.chunks(ROWS_PER_LINE)).for_each(|(word, line)| *word = imprint(line));
}

/// A shape: what it is called, and how it imprints a column.
type Shape = (&'static str, fn(&[i32], &[i32], &mut [u64]));

const SHAPES: [Shape; 16] = [
    ("every border, borders side by side (before)", |c, b, out| imprint_all(c, b, counting, out)),
    ("every border, rows side by side", |c, b, out| imprint_all(c, b, rows_side_by_side, out)),
    ("`partition_point`", |c, b, out| imprint_all(c, b, partition_point, out)),
    ("six halvings by `if`", |c, b, out| imprint_all(c, b, halving_by_if, out)),
    ("six halvings without a branch", |c, b, out| imprint_all(c, b, halving, out)),
    ("six halvings by a number", |c, b, out| imprint_all(c, b, halving_by_number, out)),
    ("six halvings, four rows side by side", |c, b, out| imprint_all(c, b, four_rows, out)),
    ("eight rungs, then eight", |c, b, out| imprint_all(c, b, eight_by_eight, out)),
    ("six steps down a tree", |c, b, out| imprint_all(c, b, tree_alone, out)),
    ("three upper nodes side by side, four steps", |c, b, out| imprint_all(c, b, upper_nodes::<2>, out)),
    ("seven upper nodes side by side, three steps", |c, b, out| imprint_all(c, b, upper_nodes::<3>, out)),
    ("fifteen upper nodes side by side, two steps", |c, b, out| imprint_all(c, b, upper_nodes::<4>, out)),
    ("seven, lines of one bin first", |c, b, out| imprint_all(c, b, one_bin_first, out)),
    ("seven, lines that go one way first", |c, b, out| imprint_all(c, b, together_first, out)),
    ("**seven, lines in the one bin of the line before first (kept)**", |c, b, out| imprint_all(c, b, bin_before_first, out)),
    ("a table of the top bits, then rung by rung", |c, b, out| imprint_all(c, b, table, out)),
];

/// Best nanoseconds a row of every shape over each column, as a table.
pub fn measure(rows: usize, reps: usize) {
    let names: Vec<&str> = COLUMNS.into_iter().chain(inputs::HARD).collect();
    let mut table: Vec<String> = SHAPES.iter().map(|(name, _)| format!("| {name} |")).collect();
    for name in &names {
        eprintln!("{name}: shapes of the lookup, {reps} times each, in turn");
        let column = inputs::column(name, rows);
        let borders = builds::borders(&column);
        let mut imprints = vec![1; lines(rows)];
        let mut expected = imprints.clone();
        imprint_all(&column, &borders, counting, &mut expected);
        let mut best = [f64::MAX; SHAPES.len()];
        for _ in 0..reps {
            for ((shape, imprint), best) in SHAPES.iter().zip(&mut best) {
                *best = best.min(seconds(|| imprint(black_box(&column), &borders, &mut imprints)).0);
                assert!(imprints == expected, "{shape}: differs");
            }
        }
        table.iter_mut().zip(best).for_each(|(line, best)| *line += &format!(" {:.2} |", best * 1e9 / rows as f64));
    }
    println!("| Rust, imprints alone, ns a row | {} |", names.join(" | "));
    println!("|---|{}", "---|".repeat(names.len()));
    println!("{}\n", table.join("\n"));
}
