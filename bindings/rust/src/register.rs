use crate::face::mgz_register;
use crate::{Error, ROWS_AT_MOST};
use std::iter::Map;
use std::ops::Range;
use std::slice::ChunksExact;

/// One discharge hour of a register. Hour and repeat number name one entry.
#[derive(Clone, Copy, Debug, PartialEq, Eq, Hash)]
pub struct Entry {
    /// The minutes of its rows over 60, rounded down.
    pub hour: u32,
    /// How many earlier entries have this hour: 0 the first time, 1 where the clock went back and it came again.
    pub repeat: u32,
    /// Its first row.
    pub first_row: u32,
    /// How many rows it has; never 0.
    pub rows: u32,
}

impl Entry {
    /// So many words of a register are an entry.
    pub const WORDS: usize = 4;

    fn of(words: &[u32]) -> Entry {
        Entry { hour: words[0], repeat: words[1], first_row: words[2], rows: words[3] }
    }

    /// Its rows, to take them from any column of the log.
    ///
    /// ```
    /// let entry = miguzoryane::Entry { hour: 2, repeat: 1, first_row: 180, rows: 60 };
    /// assert_eq!(entry.range(), 180..240);
    /// ```
    pub fn range(&self) -> Range<usize> {
        let first = self.first_row as usize;
        first..first + self.rows as usize
    }
}

/// A register's entries, in row order.
pub type Entries<'a> = Map<ChunksExact<'a, u32>, fn(&'a [u32]) -> Entry>;

/// The entries of a register, in the words that they were written to.
#[derive(Clone, Copy, Debug, PartialEq, Eq)]
pub struct Register<'a> {
    words: &'a [u32],
}

impl<'a> Register<'a> {
    /// How many entries it has.
    pub fn len(self) -> usize {
        self.words.len() / Entry::WORDS
    }

    /// Has it none? Only that of a column without rows hasn't.
    pub fn is_empty(self) -> bool {
        self.words.is_empty()
    }

    /// The entry of this number, counted from 0 in row order.
    pub fn entry(self, number: usize) -> Option<Entry> {
        self.iter().nth(number)
    }

    /// Every entry, in row order.
    pub fn iter(self) -> Entries<'a> {
        self.words.chunks_exact(Entry::WORDS).map(Entry::of)
    }

    /// Its words: of each entry the hour, the repeat number, the first row and the number of rows.
    pub fn words(self) -> &'a [u32] {
        self.words
    }
}

impl<'a> IntoIterator for Register<'a> {
    type Item = Entry;
    type IntoIter = Entries<'a>;

    fn into_iter(self) -> Entries<'a> {
        self.iter()
    }
}

/// The words of a register, owned.
///
/// ```
/// use miguzoryane::RegisterBuf;
///
/// // Three hours of a log, a row a minute. At 03:00 the clock goes back to 02:00, and that hour comes a second time.
/// let minutes: Vec<i32> = (0..180).chain(120..180).collect();
/// let register = RegisterBuf::of(&minutes)?;
/// let hours: Vec<(u32, u32)> = register.as_register().iter().map(|entry| (entry.hour, entry.repeat)).collect();
/// assert_eq!(hours, [(0, 0), (1, 0), (2, 0), (2, 1)]);
///
/// // Which row is the second 02:30?
/// let second = register.as_register().iter().find(|entry| (entry.hour, entry.repeat) == (2, 1)).expect("02:00 came twice");
/// let row = second.range().find(|&row| minutes[row] == 150);
/// assert_eq!(row, Some(210));
/// # Ok::<(), miguzoryane::Error>(())
/// ```
#[derive(Clone, Debug, PartialEq, Eq)]
pub struct RegisterBuf {
    words: Vec<u32>,
}

impl RegisterBuf {
    /// Makes the register of a time column in minutes. It is measured first, so that no more is allocated than its entries need.
    pub fn of(minutes: &[i32]) -> Result<RegisterBuf, Error> {
        let mut words = Vec::new();
        if let Err(Error::SpaceShort { needed }) = register(minutes, &mut words) {
            words.resize(needed, 0);
        }
        register(minutes, &mut words)?;
        Ok(RegisterBuf { words })
    }

    /// The register.
    pub fn as_register(&self) -> Register<'_> {
        Register { words: &self.words }
    }
}

/// Makes the hour register of a time column in minutes at the front of a lent space, and hands that part back.
///
/// There is one entry per discharge hour, in row order. A new one begins at row 0, where the hour is another than in the row before, and
/// where the minute is smaller: so once a smaller minute has shown that the clock went back, the second 02:30 is in a later entry than the
/// first. Equal neighbouring minutes stay together. The entries cover every row exactly once.
/// [`Entry::WORDS`] for each row are always enough. [`RegisterBuf::of`] sees to the space.
///
/// Refused, in this order, with [`ColumnTooLong`](Error::ColumnTooLong), [`NegativeMinute`](Error::NegativeMinute) with the first such row, a
/// [fault](crate::FAULT) included, and [`SpaceShort`](Error::SpaceShort) with the words needed.
///
/// ```
/// use miguzoryane::{register, Entry, Error, FAULT};
///
/// // 02:10, 02:30 and 02:50; then the clock goes back to 02:20, and 02:30 comes again.
/// let minutes = [130, 150, 170, 140, 150];
/// let mut words = [0; 20];
/// let hours = register(&minutes, &mut words)?;
/// assert_eq!(hours.len(), 2);
/// assert_eq!(hours.entry(0), Some(Entry { hour: 2, repeat: 0, first_row: 0, rows: 3 }));
/// assert_eq!(hours.entry(1), Some(Entry { hour: 2, repeat: 1, first_row: 3, rows: 2 }));
///
/// assert_eq!(register(&minutes, &mut words[..7]), Err(Error::SpaceShort { needed: 8 }));
/// assert_eq!(register(&[130, FAULT, 170], &mut words), Err(Error::NegativeMinute { row: 1 }));
/// # Ok::<(), Error>(())
/// ```
pub fn register<'a>(minutes: &[i32], words: &'a mut [u32]) -> Result<Register<'a>, Error> {
    if ROWS_AT_MOST < minutes.len() {
        return Err(Error::ColumnTooLong);
    }
    let mut out = [0; 3];
    // SAFETY: every pointer and length is of one slice, and the slice written is borrowed mutably, so it overlaps no other.
    let number = unsafe { mgz_register(minutes.as_ptr(), minutes.len(), words.as_mut_ptr(), words.len(), &mut out) };
    let [needed, entries, row] = out;
    // One of the two at most is not 0.
    Error::check(number, needed + row)?;
    Ok(Register { words: &words[..Entry::WORDS * entries as usize] })
}
