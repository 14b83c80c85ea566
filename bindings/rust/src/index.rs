use crate::face::{mgz_append, mgz_build, mgz_pack, mgz_search, mgz_step, mgz_unpack};
use crate::{Error, BORDERS_AT_MOST, LINES_AT_MOST, ROWS_AT_MOST, ROWS_PER_LINE};
use std::ops::RangeInclusive;

/// How many lines a column of so many rows has. Imprint and dictionary spaces of this length are always long enough to [`build`].
///
/// ```
/// assert_eq!([0, 1, 16, 17].map(miguzoryane::lines), [0, 1, 1, 2]);
/// ```
pub const fn lines(rows: usize) -> usize {
    rows.div_ceil(ROWS_PER_LINE)
}

/// The three parts of an index, wherever their words are kept.
#[derive(Clone, Copy, Debug, PartialEq, Eq)]
pub struct Index<'a> {
    /// Where one bin ends and the next begins; strictly rising.
    pub borders: &'a [i32],
    /// The imprints kept.
    pub imprints: &'a [u64],
    /// Runs of lines: how many, in bits 0 to 23, and whether they share one imprint, in bit 24.
    pub dictionary: &'a [u32],
}

/// The words of an index, owned; it grows as samples keep coming.
///
/// ```
/// use miguzoryane::IndexBuf;
///
/// // Three hours of a log, a row a minute.
/// let mut minutes: Vec<i32> = (0..180).collect();
/// let mut index = IndexBuf::build(&minutes)?;
/// assert_eq!(index.rows(&minutes, 150..=150)?, [150]);
///
/// // At 03:00 the clock goes back to 02:00, and an hour later its sixty rows come in: there are two 02:30s now.
/// minutes.extend(120..180);
/// index.append(&minutes)?;
/// assert_eq!(index.rows(&minutes, 150..=150)?, [150, 210]);
/// assert_eq!(index.covered(), 240);
/// # Ok::<(), miguzoryane::Error>(())
/// ```
#[derive(Clone, Debug, PartialEq, Eq)]
pub struct IndexBuf {
    covered: usize,
    borders: Vec<i32>,
    imprints: Vec<u64>,
    dictionary: Vec<u32>,
}

impl IndexBuf {
    /// These words, which were found to be an index of so many rows.
    pub(crate) fn of(covered: usize, borders: Vec<i32>, imprints: Vec<u64>, dictionary: Vec<u32>) -> IndexBuf {
        IndexBuf { covered, borders, imprints, dictionary }
    }

    /// Builds the index of a column.
    pub fn build(column: &[i32]) -> Result<IndexBuf, Error> {
        if ROWS_AT_MOST < column.len() {
            return Err(Error::ColumnTooLong);
        }
        let mut borders = vec![0; BORDERS_AT_MOST];
        let mut imprints = vec![0; lines(column.len())];
        let mut dictionary = vec![0; lines(column.len())];
        let built = build(column, &mut borders, &mut imprints, &mut dictionary)?;
        let lengths = (built.borders.len(), built.imprints.len(), built.dictionary.len());
        borders.truncate(lengths.0);
        imprints.truncate(lengths.1);
        dictionary.truncate(lengths.2);
        imprints.shrink_to_fit();
        dictionary.shrink_to_fit();
        Ok(IndexBuf { covered: column.len(), borders, imprints, dictionary })
    }

    /// Extends the index to the longer column, whose first rows are those it [covers](IndexBuf::covered). The borders stay those of the
    /// column it was built from. Refused, it stands as it was.
    ///
    /// ```
    /// use miguzoryane::{Error, IndexBuf};
    ///
    /// let column: Vec<i32> = (0..1000).map(|row| 70 + row % 7).collect();
    /// let mut index = IndexBuf::build(&column[..500])?;
    /// let before = index.clone();
    /// assert_eq!(index.append(&column[..499]), Err(Error::CoveredAboveRows));
    /// assert_eq!(index, before);
    /// index.append(&column)?;
    /// assert_eq!(index.rows(&column, 75..=76)?.last(), Some(&999));
    /// # Ok::<(), Error>(())
    /// ```
    pub fn append(&mut self, column: &[i32]) -> Result<(), Error> {
        if ROWS_AT_MOST < column.len() {
            return Err(Error::ColumnTooLong);
        }
        let told = (self.imprints.len(), self.dictionary.len());
        // A word for each line to be imprinted: that is always enough, and spares the library measuring first.
        let room = lines(column.len()).saturating_sub(self.covered / ROWS_PER_LINE);
        self.imprints.resize(told.0 + room, 0);
        self.dictionary.resize(told.1 + room, 0);
        let appended = append(column, self.covered, &self.borders, &mut self.imprints, told.0, &mut self.dictionary, told.1);
        let lengths = appended.map(|index| (index.imprints.len(), index.dictionary.len()));
        let (imprints, dictionary) = lengths.unwrap_or(told);
        keep(&mut self.imprints, imprints);
        keep(&mut self.dictionary, dictionary);
        lengths?;
        self.covered = column.len();
        Ok(())
    }

    /// How many rows it covers: as many as the column had that it was built from, or last extended to; of an index from a
    /// [card](crate::card), the row count that stands there.
    pub fn covered(&self) -> usize {
        self.covered
    }

    /// The index, to hand to a search.
    pub fn as_index(&self) -> Index<'_> {
        Index { borders: &self.borders, imprints: &self.imprints, dictionary: &self.dictionary }
    }

    /// The rows of a range, in a space of their own. [`search`] lists them in a lent one.
    pub fn rows(&self, column: &[i32], range: RangeInclusive<i32>) -> Result<Vec<u32>, Error> {
        let mut ids = Vec::new();
        loop {
            match search(column, self.as_index(), range.clone(), &mut ids).map(|found| found.rows.len()) {
                Ok(rows) => {
                    ids.truncate(rows);
                    return Ok(ids);
                }
                Err(Error::SpaceShort { needed }) => ids.resize(needed, 0),
                Err(error) => return Err(error),
            }
        }
    }
}

/// Keeps so many words, and lets go of most of the room where a long piece needed far more.
fn keep<T>(words: &mut Vec<T>, length: usize) {
    words.truncate(length);
    if 4 * length + 64 < words.capacity() {
        words.shrink_to(2 * length);
    }
}

/// Builds the index of a column in three lent spaces, and hands back the parts that it fills.
///
/// ```
/// let column = [[5; 32].as_slice(), &[20; 8]].concat();
/// let (mut borders, mut imprints, mut dictionary) = ([0; 63], [0; 3], [0; 3]);
/// let index = miguzoryane::build(&column, &mut borders, &mut imprints, &mut dictionary)?;
/// assert_eq!(index.dictionary, [16777218, 1]);
///
/// let short = miguzoryane::build(&column, &mut [], &mut imprints, &mut dictionary);
/// assert_eq!(short, Err(miguzoryane::Error::SpaceShort { needed: 2 }));
/// # Ok::<(), miguzoryane::Error>(())
/// ```
pub fn build<'a>(column: &[i32], borders: &'a mut [i32], imprints: &'a mut [u64], dictionary: &'a mut [u32]) -> Result<Index<'a>, Error> {
    if ROWS_AT_MOST < column.len() {
        return Err(Error::ColumnTooLong);
    }
    let mut out = [0; 4];
    // SAFETY: every pointer and length is of one slice, and the slices written are borrowed mutably, so none overlaps another.
    let number = unsafe {
        mgz_build(
            column.as_ptr(),
            column.len(),
            borders.as_mut_ptr(),
            borders.len(),
            imprints.as_mut_ptr(),
            imprints.len(),
            dictionary.as_mut_ptr(),
            dictionary.len(),
            &mut out,
        )
    };
    Error::check(number, out[0])?;
    Ok(Index { borders: &borders[..out[1] as usize], imprints: &imprints[..out[2] as usize], dictionary: &dictionary[..out[3] as usize] })
}

/// Samples keep coming: extends an index of a column's first rows to the whole of it, in the lent spaces where it stands, and hands back
/// the parts that it fills now.
///
/// Lines that were full keep their imprints, and their rows are not read again; every later line is imprinted from the column, a last short
/// one that was covered included. The borders stay. Rows may come in pieces cut anywhere: if none is refused, the index at the end is the
/// same. The spaces may be longer than the index, so the lengths of its parts are told; words past the new lengths stay as they were.
/// [`lines`] of the column's length is always enough for each space. [`IndexBuf::append`] sees to all of this.
///
/// Refused, in this order, with [`ColumnTooLong`](Error::ColumnTooLong), [`CoveredAboveRows`](Error::CoveredAboveRows),
/// [`BadBorders`](Error::BadBorders), [`NotAnIndex`](Error::NotAnIndex), and [`SpaceShort`](Error::SpaceShort) with the whole new length of
/// the first short space, imprints before dictionary.
///
/// ```
/// use miguzoryane::{append, build, search, Error};
///
/// // Three hours of a log, a row a minute; then the clock goes back, and the hour from 02:00 comes in a second time.
/// let minutes: Vec<i32> = (0..180).chain(120..180).collect();
/// let (mut borders, mut imprints, mut dictionary) = ([0; 63], [0; 15], [0; 15]);
/// let hours = build(&minutes[..180], &mut borders, &mut imprints, &mut dictionary)?;
/// let told = (hours.borders.len(), hours.imprints.len(), hours.dictionary.len());
/// let borders = &borders[..told.0];
///
/// let short = append(&minutes, 180, borders, &mut imprints[..14], told.1, &mut dictionary, told.2);
/// assert_eq!(short, Err(Error::SpaceShort { needed: 15 }));
///
/// let index = append(&minutes, 180, borders, &mut imprints, told.1, &mut dictionary, told.2)?;
/// assert_eq!(search(&minutes, index, 150..=150, &mut [0; 9])?.rows, [150, 210]);
/// # Ok::<(), Error>(())
/// ```
pub fn append<'a>(
    column: &[i32],
    covered: usize,
    borders: &'a [i32],
    imprints: &'a mut [u64],
    imprints_told: usize,
    dictionary: &'a mut [u32],
    dictionary_told: usize,
) -> Result<Index<'a>, Error> {
    if ROWS_AT_MOST < column.len() {
        return Err(Error::ColumnTooLong);
    }
    let mut out = [0; 3];
    // SAFETY: as in `build`.
    let number = unsafe {
        mgz_append(
            column.as_ptr(),
            column.len(),
            covered as u64,
            borders.as_ptr(),
            borders.len(),
            imprints.as_mut_ptr(),
            imprints.len(),
            imprints_told as u64,
            dictionary.as_mut_ptr(),
            dictionary.len(),
            dictionary_told as u64,
            &mut out,
        )
    };
    Error::check(number, out[0])?;
    Ok(Index { borders, imprints: &imprints[..out[1] as usize], dictionary: &dictionary[..out[2] as usize] })
}

/// Packs a list of imprints, one per line, in two lent spaces. The index handed back has the borders given.
///
/// A run of two or more equal imprints becomes a repeat entry of the dictionary, with its length and one imprint kept; neighbouring single
/// ones are gathered into a plain entry, with their number and all imprints kept. Entries fill up, at
/// [`COUNT_AT_MOST`](crate::COUNT_AT_MOST) lines: a longer run becomes full repeat entries and then one entry for what is left, where one
/// line left over is a plain entry of its own, which gathers no later single; singles beyond a full plain entry start another. Other calls
/// take this packing alone: the same lines in other entries are [`NotAnIndex`](Error::NotAnIndex).
///
/// ```
/// let (mut imprints, mut dictionary) = ([0; 3], [0; 3]);
/// let index = miguzoryane::pack(&[2, 2, 4], &[5, 20], &mut imprints, &mut dictionary)?;
/// assert_eq!((index.imprints, index.dictionary), ([2, 4].as_slice(), [16777218, 1].as_slice()));
/// let unfit = miguzoryane::pack(&[0], &[5, 20], &mut imprints, &mut dictionary);
/// assert_eq!(unfit, Err(miguzoryane::Error::NotAnIndex));
/// # Ok::<(), miguzoryane::Error>(())
/// ```
pub fn pack<'a>(list: &[u64], borders: &'a [i32], imprints: &'a mut [u64], dictionary: &'a mut [u32]) -> Result<Index<'a>, Error> {
    if LINES_AT_MOST < list.len() {
        return Err(Error::ColumnTooLong);
    }
    let mut out = [0; 3];
    // SAFETY: as in `build`.
    let number = unsafe {
        mgz_pack(
            list.as_ptr(),
            list.len(),
            borders.as_ptr(),
            borders.len(),
            imprints.as_mut_ptr(),
            imprints.len(),
            dictionary.as_mut_ptr(),
            dictionary.len(),
            &mut out,
        )
    };
    Error::check(number, out[0])?;
    Ok(Index { borders, imprints: &imprints[..out[1] as usize], dictionary: &dictionary[..out[2] as usize] })
}

/// Lists the imprints of an index, one per line, at the front of a lent space, and hands that part back.
///
/// ```
/// let index = miguzoryane::Index { borders: &[5, 20], imprints: &[2, 4], dictionary: &[16777218, 1] };
/// assert_eq!(miguzoryane::unpack(index, 3, &mut [0; 10])?, [2, 2, 4]);
/// assert_eq!(miguzoryane::unpack(index, 4, &mut [0; 10]), Err(miguzoryane::Error::NotAnIndex));
///
/// // A run of a line more than an entry holds: a full repeat entry, and a plain one for the line that is left.
/// let (repeat, full) = (1 << 24, miguzoryane::COUNT_AT_MOST);
/// let long = miguzoryane::Index { borders: &[5, 20], imprints: &[2, 2], dictionary: &[repeat + full, 1] };
/// let needed = full as usize + 1;
/// assert_eq!(miguzoryane::unpack(long, needed, &mut []), Err(miguzoryane::Error::SpaceShort { needed }));
/// let other = miguzoryane::Index { dictionary: &[repeat + full - 1, repeat + 2], ..long };
/// assert_eq!(miguzoryane::unpack(other, needed, &mut []), Err(miguzoryane::Error::NotAnIndex));
/// # Ok::<(), miguzoryane::Error>(())
/// ```
pub fn unpack<'a>(index: Index<'_>, lines: usize, list: &'a mut [u64]) -> Result<&'a mut [u64], Error> {
    if LINES_AT_MOST < lines {
        return Err(Error::ColumnTooLong);
    }
    let mut needed = 0;
    // SAFETY: as in `build`.
    let number = unsafe {
        mgz_unpack(
            index.borders.as_ptr(),
            index.borders.len(),
            index.imprints.as_ptr(),
            index.imprints.len(),
            index.dictionary.as_ptr(),
            index.dictionary.len(),
            lines as u64,
            list.as_mut_ptr(),
            list.len(),
            &mut needed,
        )
    };
    Error::check(number, needed)?;
    Ok(&mut list[..lines])
}

/// What a search looked at.
#[derive(Clone, Copy, Debug, Default, PartialEq, Eq)]
pub struct Counts {
    /// Lines passed over by their imprint.
    pub skipped: usize,
    /// Lines taken whole by their imprint.
    pub whole: usize,
    /// Values compared, in the other lines.
    pub compared: usize,
}

/// The rows of a range: the front part of the caller's own space.
#[derive(Debug, PartialEq, Eq)]
pub struct Found<'a> {
    /// The row numbers, rising.
    pub rows: &'a mut [u32],
    /// What the search looked at.
    pub counts: Counts,
}

/// Lists the rows whose values lie in a range, both ends included, at the front of a lent space: so with an index built from the
/// column, or built from its first rows and extended to it; a [fault](crate::FAULT) is never among them. With any other index that is not
/// refused, it lists the rows of the lines that it takes whole, faults too, and the matching rows of those compared.
///
/// ```
/// use miguzoryane::{search, Error, IndexBuf};
///
/// let column = [[5; 32].as_slice(), &[20; 8]].concat();
/// let index = IndexBuf::build(&column)?;
/// let mut ids = [0; 40];
/// let found = search(&column, index.as_index(), 20..=i32::MAX, &mut ids)?;
/// assert_eq!(found.rows, [32, 33, 34, 35, 36, 37, 38, 39]);
/// assert_eq!((found.counts.skipped, found.counts.whole, found.counts.compared), (2, 1, 0));
///
/// let short = search(&column, index.as_index(), 5..=5, &mut ids[..31]);
/// assert_eq!(short, Err(Error::SpaceShort { needed: 32 }));
/// # Ok::<(), Error>(())
/// ```
pub fn search<'a>(column: &[i32], index: Index<'_>, range: RangeInclusive<i32>, ids: &'a mut [u32]) -> Result<Found<'a>, Error> {
    if ROWS_AT_MOST < column.len() {
        return Err(Error::ColumnTooLong);
    }
    let mut out = [0; 5];
    // SAFETY: as in `build`.
    let number = unsafe {
        mgz_search(
            column.as_ptr(),
            column.len(),
            index.borders.as_ptr(),
            index.borders.len(),
            index.imprints.as_ptr(),
            index.imprints.len(),
            index.dictionary.as_ptr(),
            index.dictionary.len(),
            *range.start(),
            *range.end(),
            ids.as_mut_ptr(),
            ids.len(),
            &mut out,
        )
    };
    Error::check(number, out[0])?;
    let [_, rows, skipped, whole, compared] = out.map(|word| word as usize);
    Ok(Found { rows: &mut ids[..rows], counts: Counts { skipped, whole, compared } })
}

/// Where a reader of lines stands: an entry of the dictionary, a place in it, and an imprint number.
#[derive(Clone, Copy, Debug, Default, PartialEq, Eq)]
pub struct Position {
    /// An entry of the dictionary.
    pub entry: u64,
    /// A line of that entry.
    pub place: u64,
    /// An imprint.
    pub number: u64,
}

/// Reads an index line by line.
///
/// ```
/// use miguzoryane::{Index, Lines};
///
/// let index = Index { borders: &[5, 20], imprints: &[2, 4], dictionary: &[16777218, 1] };
/// let imprints: Result<Vec<u64>, _> = Lines::of(index).collect();
/// assert_eq!(imprints?, [2, 2, 4]);
/// # Ok::<(), miguzoryane::Error>(())
/// ```
#[derive(Clone, Debug)]
pub struct Lines<'a> {
    index: Index<'a>,
    position: Position,
}

impl<'a> Lines<'a> {
    /// From the first line on.
    pub fn of(index: Index<'a>) -> Lines<'a> {
        Lines::from(index, Position::default())
    }

    /// From a position on. A bad one gives [`Error::NotAnIndex`] at every step.
    pub fn from(index: Index<'a>, position: Position) -> Lines<'a> {
        Lines { index, position }
    }

    /// Where it stands.
    pub fn position(&self) -> Position {
        self.position
    }
}

impl Iterator for Lines<'_> {
    type Item = Result<u64, Error>;

    fn next(&mut self) -> Option<Result<u64, Error>> {
        let Position { entry, place, number } = self.position;
        let (dictionary, imprints) = (self.index.dictionary, self.index.imprints);
        let mut out = [0; 5];
        // SAFETY: as in `build`.
        let answer =
            unsafe { mgz_step(dictionary.as_ptr(), dictionary.len(), imprints.as_ptr(), imprints.len(), entry, place, number, &mut out) };
        if let Err(error) = Error::check(answer, 0) {
            return Some(Err(error));
        }
        let [ended, imprint, entry, place, number] = out;
        self.position = Position { entry, place, number };
        (ended == 0).then_some(Ok(imprint))
    }
}
