use crate::face::*;
use crate::{Counts, Error, Found, Index, ROOM_AT_MOST};
use std::ops::RangeInclusive;

/// How many words a filter of this room needs.
///
/// ```
/// assert_eq!(miguzoryane::filter_words(7), 18);
/// ```
pub fn filter_words(room: u32) -> u64 {
    // SAFETY: no pointer is handed over.
    unsafe { mgz_filter_words(room) }
}

/// A memory of ranges of keys known to be empty, in words of its own or in lent ones.
///
/// ```
/// use miguzoryane::{Error, Filter};
///
/// let mut filter = Filter::fresh(4, 7)?;
/// filter.learn(12..=15)?;
/// assert!(filter.denies(13..=13)?);
/// assert!(!filter.denies(11..=12)?);
/// filter.arrive(14)?;
/// assert!(!filter.denies(13..=13)?);
/// assert_eq!(filter.learn(3..=16), Err(Error::NoKey));
/// # Ok::<(), Error>(())
/// ```
#[derive(Clone, Debug)]
pub struct Filter<W = Vec<u32>> {
    words: W,
}

/// What a filter's words say of it.
#[derive(Clone, Copy, Debug, PartialEq, Eq)]
pub struct FilterState {
    /// Keys are 0 to 2^levels - 1.
    pub levels: u32,
    /// How many splits it may have: 2^levels - 1 at most.
    pub room: u32,
    /// Where forgetting goes on.
    pub hand: u32,
    /// How many splits it has.
    pub splits: u32,
}

impl Filter {
    /// A filter that remembers nothing, in words of its own. A tree of k levels can use 2^k - 1 splits, so a larger room is a slip of
    /// whoever set the filter up, and is refused, as is one above [`ROOM_AT_MOST`].
    ///
    /// ```
    /// use miguzoryane::{Error, Filter};
    ///
    /// // 4 levels are 16 keys: whoever asks for room 4,095 there meant something else.
    /// let slip = Filter::fresh(4, 4095).unwrap_err();
    /// assert_eq!(slip, Error::RoomTooLarge);
    /// assert_eq!(slip.to_string(), "the room is above 4,095, or above 2^levels - 1, which is all that a tree of so many levels can use");
    /// assert_eq!(Filter::fresh(4, 16).unwrap_err(), Error::RoomTooLarge);
    /// assert!(Filter::fresh(4, 15).is_ok());
    /// assert!(Filter::fresh(12, 4095).is_ok());
    /// assert_eq!(Filter::fresh(20, 4096).unwrap_err(), Error::RoomTooLarge);
    /// assert_eq!(Filter::fresh(21, 4096).unwrap_err(), Error::BadLevels);
    /// ```
    pub fn fresh(levels: u32, room: u32) -> Result<Filter, Error> {
        let length = filter_words(room.min(ROOM_AT_MOST)) as usize;
        Filter::fresh_in(levels, room, vec![0; length])
    }
}

impl<W: AsRef<[u32]>> Filter<W> {
    /// The filter that these words mean. Words with a room that [`fresh`](Filter::fresh) would refuse mean none.
    ///
    /// ```
    /// use miguzoryane::{Error, Filter};
    ///
    /// let mut filter = Filter::fresh(4, 7)?;
    /// filter.learn(12..=15)?;
    /// let kept: Vec<u32> = filter.words().to_vec();
    /// assert!(Filter::from_words(kept)?.denies(12..=15)?);
    /// assert_eq!(Filter::from_words([4, 7, 0]).unwrap_err(), Error::NotAFilter);
    /// # Ok::<(), Error>(())
    /// ```
    pub fn from_words(words: W) -> Result<Filter<W>, Error> {
        let filter = Filter { words };
        filter.state()?;
        Ok(filter)
    }

    /// Its words, to be kept.
    pub fn words(&self) -> &[u32] {
        self.words.as_ref()
    }

    /// Its words, handed back.
    pub fn into_words(self) -> W {
        self.words
    }

    /// Levels, room, hand, and splits in use.
    pub fn state(&self) -> Result<FilterState, Error> {
        let words = self.words();
        let mut out = [0; 4];
        // SAFETY: pointer and length are of one slice.
        let number = unsafe { mgz_filter_read(words.as_ptr(), words.len(), &mut out) };
        Error::check(number, 0)?;
        let [levels, room, hand, splits] = out.map(|word| word as u32);
        Ok(FilterState { levels, room, hand, splits })
    }

    /// Is the whole range remembered as empty? Else there may be a sample: look.
    pub fn denies(&self, range: RangeInclusive<u32>) -> Result<bool, Error> {
        let words = self.words();
        let mut look = 0;
        // SAFETY: pointer and length are of one slice.
        let number = unsafe { mgz_filter_ask(words.as_ptr(), words.len(), *range.start(), *range.end(), &mut look) };
        Error::check(number, 0)?;
        Ok(look == 0)
    }

    /// A sample with this key has gone. Changes nothing, since another row may carry the same key.
    pub fn depart(&self, key: u32) -> Result<(), Error> {
        let words = self.words();
        // SAFETY: pointer and length are of one slice.
        Error::check(unsafe { mgz_filter_depart(words.as_ptr(), words.len(), key) }, 0)
    }
}

impl<W: AsRef<[u32]> + AsMut<[u32]>> Filter<W> {
    /// A filter that remembers nothing, in lent words. [`filter_words`] says how many it needs; those behind are never changed.
    ///
    /// ```
    /// use miguzoryane::{Error, Filter};
    ///
    /// let mut words = [0; 18];
    /// let mut filter = Filter::fresh_in(4, 7, &mut words)?;
    /// filter.learn(0..=4)?;
    /// assert_eq!(filter.state()?.splits, 4);
    /// assert_eq!(Filter::fresh_in(4, 8, &mut words).unwrap_err(), Error::SpaceShort { needed: 20 });
    /// # Ok::<(), Error>(())
    /// ```
    pub fn fresh_in(levels: u32, room: u32, mut words: W) -> Result<Filter<W>, Error> {
        let lent = words.as_mut();
        let mut needed = 0;
        // SAFETY: pointer and length are of one slice, borrowed mutably.
        let number = unsafe { mgz_filter_fresh(levels, room, lent.as_mut_ptr(), lent.len(), &mut needed) };
        Error::check(number, needed)?;
        Ok(Filter { words })
    }

    /// Remembers the range as empty. [`Error::NoRoom`] leaves the filter as it was.
    pub fn learn(&mut self, range: RangeInclusive<u32>) -> Result<(), Error> {
        let words = self.words.as_mut();
        // SAFETY: pointer and length are of one slice, borrowed mutably.
        Error::check(unsafe { mgz_filter_learn(words.as_mut_ptr(), words.len(), *range.start(), *range.end()) }, 0)
    }

    /// A sample with this key has come. To be called once it is in the column.
    pub fn arrive(&mut self, key: u32) -> Result<(), Error> {
        let words = self.words.as_mut();
        // SAFETY: pointer and length are of one slice, borrowed mutably.
        Error::check(unsafe { mgz_filter_arrive(words.as_mut_ptr(), words.len(), key) }, 0)
    }

    /// Forgets one pair of leaves, to gain room.
    ///
    /// ```
    /// use miguzoryane::{Error, Filter};
    ///
    /// let mut filter = Filter::fresh(4, 7)?;
    /// filter.learn(12..=15)?;
    /// filter.forget()?;
    /// assert!(!filter.denies(12..=12)?);
    /// assert_eq!(filter.forget(), Err(Error::NothingToForget));
    /// # Ok::<(), Error>(())
    /// ```
    pub fn forget(&mut self) -> Result<(), Error> {
        let words = self.words.as_mut();
        // SAFETY: pointer and length are of one slice, borrowed mutably.
        Error::check(unsafe { mgz_filter_forget(words.as_mut_ptr(), words.len()) }, 0)
    }
}

/// What a search with both came to.
#[derive(Debug, PartialEq, Eq)]
pub enum Outcome<'a> {
    /// The filter remembers the range as empty: no row, all counts 0.
    Denied,
    /// Rows were listed.
    Found(Found<'a>),
    /// No row lies in the range, and the filter has learnt the gap around it.
    EmptyLearnt(Counts),
    /// No row was listed, and the filter stands as it was: it has no room, or the index is another column's.
    EmptyNotLearnt(Counts),
}

/// The search with both, over the time column in minutes: asks the filter first, searches if it says look, and lets it learn the gap if
/// no value is there.
///
/// ```
/// use miguzoryane::{guarded_search, Filter, IndexBuf, Outcome};
///
/// let minutes = [[5; 32].as_slice(), &[20; 8]].concat();
/// let index = IndexBuf::build(&minutes)?;
/// let mut filter = Filter::fresh(5, 10)?;
/// let mut ids = [0; 40];
/// let mut ask = |range| guarded_search(&mut filter, &minutes, index.as_index(), range, &mut ids).map(|outcome| match outcome {
///     Outcome::Denied => "denied",
///     Outcome::Found(_) => "found",
///     Outcome::EmptyLearnt(_) => "learnt",
///     Outcome::EmptyNotLearnt(_) => "not learnt",
/// });
/// assert_eq!(ask(8..=10)?, "learnt");
/// assert_eq!(ask(6..=19)?, "denied");
/// assert_eq!(ask(6..=20)?, "found");
/// # Ok::<(), miguzoryane::Error>(())
/// ```
pub fn guarded_search<'a, W: AsRef<[u32]> + AsMut<[u32]>>(
    filter: &mut Filter<W>,
    column: &[i32],
    index: Index<'_>,
    range: RangeInclusive<u32>,
    ids: &'a mut [u32],
) -> Result<Outcome<'a>, Error> {
    let words = filter.words.as_mut();
    let mut out = [0; 6];
    // SAFETY: every pointer and length is of one slice, and the slices written are borrowed mutably, so none overlaps another.
    let number = unsafe {
        mgz_guarded_search(
            words.as_mut_ptr(),
            words.len(),
            column.as_ptr(),
            column.len(),
            index.borders.as_ptr(),
            index.borders.len(),
            index.imprints.as_ptr(),
            index.imprints.len(),
            index.dictionary.as_ptr(),
            index.dictionary.len(),
            *range.start(),
            *range.end(),
            ids.as_mut_ptr(),
            ids.len(),
            &mut out,
        )
    };
    Error::check(number, out[1])?;
    let [outcome, _, rows, skipped, whole, compared] = out.map(|word| word as usize);
    let counts = Counts { skipped, whole, compared };
    Ok(match outcome {
        0 => Outcome::Denied,
        1 => Outcome::Found(Found { rows: &mut ids[..rows], counts }),
        2 => Outcome::EmptyLearnt(counts),
        3 => Outcome::EmptyNotLearnt(counts),
        other => unreachable!("no search has outcome {other}"),
    })
}
