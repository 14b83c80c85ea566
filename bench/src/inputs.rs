//! The columns and the ranges.

pub const COLUMNS: [&str; 3] = ["sorted", "shuffled", "drifting"];

/// Columns that are hard for one way or another to find bins: one value far off; guesses that fail half of the time, and always; few borders.
pub const HARD: [&str; 4] = ["noisy with spikes", "one bin or many", "another bin each line", "eight values"];

/// What a probe sends that was touched.
const SPIKE: i32 = 2_000_000_000;

/// Marsaglia's xorshift, the same at every run.
pub struct Dice(pub u64);

impl Dice {
    pub fn below(&mut self, n: usize) -> usize {
        self.0 ^= self.0 << 13;
        self.0 ^= self.0 >> 7;
        self.0 ^= self.0 << 17;
        ((self.0 >> 11) % n as u64) as usize
    }
}

pub fn column(name: &str, rows: usize) -> Vec<i32> {
    let mut dice = Dice(88_172_645_463_325_252);
    let mut column: Vec<i32> = (0..rows as i32).collect();
    match name {
        "sorted" => (),
        "shuffled" => (1..rows).rev().for_each(|i| column.swap(i, dice.below(i + 1))),
        "drifting" => drift(&mut column, &mut dice),
        "noisy with spikes" => {
            column.iter_mut().for_each(|value| *value = if *value % 997 == 0 { SPIKE } else { dice.below(5_000) as i32 })
        }
        "one bin or many" => column.chunks_mut(16).for_each(|line| {
            let many = dice.below(2) == 1;
            line.iter_mut().for_each(|value| *value = if many { dice.below(5_000) as i32 } else { 2_500 })
        }),
        "another bin each line" => column.chunks_mut(16).for_each(|line| line.fill(dice.below(5_000) as i32)),
        "eight values" => column.iter_mut().for_each(|value| *value = dice.below(8) as i32),
        other => unreachable!("no column {other}"),
    }
    column
}

/// Minutes of 12 to 20 rows each; once in about ten days the clock goes back and sixty minutes come twice.
fn drift(column: &mut [i32], dice: &mut Dice) {
    let (mut minute, mut left) = (0, 16);
    for value in column {
        if left == 0 {
            minute += 1;
            left = 12 + dice.below(9);
            if 60 <= minute && dice.below(14_400) == 0 {
                minute -= 60;
            }
        }
        *value = minute;
        left -= 1;
    }
}

/// A range that hits so many of a million rows, a third of the way up.
pub fn range(sorted: &[i32], of_million: usize) -> (i32, i32) {
    let hits = (sorted.len() as u64 * of_million as u64 / 1_000_000).max(1) as usize;
    let from = sorted.len() / 3;
    (sorted[from], sorted[from + hits - 1])
}
