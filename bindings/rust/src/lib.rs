//! The rows of a column whose values lie in a range, from a proved library.
//!
//! Two parts and one above them: **column imprints** ([`build`], [`append`], [`search`]: an index that says of every 16 rows which bins
//! their values lie in, and grows as samples keep coming), an **adaptive range filter** ([`Filter`]: a memory of ranges known to be empty),
//! and the **search with both** ([`guarded_search`]). Beside them, the **hour register** of a time column ([`register`]): one entry per
//! discharge hour, through the clock change. An index goes to the inspector on a [`card`].
//!
//! The calls take slices and write into the caller's own spaces; [`IndexBuf`], [`Filter::fresh`], [`RegisterBuf`] and
//! [`card::CardReader`] allocate them where that is handier.
//! Whatever is refused, with an [`Error`], has changed nothing. Damaged words are no danger: an index or a filter that isn't one is refused.
//!
//! ```
//! use miguzoryane::{search, IndexBuf};
//!
//! let ph: Vec<i32> = (0..1000).map(|row| 70 + row % 7).collect();
//! let index = IndexBuf::build(&ph)?;
//! let mut ids = vec![0; ph.len()];
//! let found = search(&ph, index.as_index(), 75..=76, &mut ids)?;
//! assert_eq!(found.rows[..4], [5, 6, 12, 13]);
//! # Ok::<(), miguzoryane::Error>(())
//! ```
#![warn(missing_docs)]
pub mod card;
mod error;
mod face;
mod filter;
mod index;
mod register;

pub use error::Error;
pub use filter::{filter_words, guarded_search, Filter, FilterState, Outcome};
pub use index::{append, build, lines, pack, search, unpack, Counts, Found, Index, IndexBuf, Lines, Position};
pub use register::{register, Entries, Entry, Register, RegisterBuf};

/// What a dead probe sends, and no reading: a fault.
///
/// [`build`] leaves faults out where it chooses borders, so a column of faults only has none. [`build`] and [`append`] put them into the
/// first bin, whatever the borders. A fault matches no range: with the column's own index no search lists it, not even one from the smallest
/// value up. In [`guarded_search`] it is no key. [`register`] refuses it, as any negative minute.
///
/// ```
/// use miguzoryane::{IndexBuf, FAULT};
///
/// let ph = [71, 70, FAULT, 72];
/// let index = IndexBuf::build(&ph)?;
/// assert_eq!(index.rows(&ph, i32::MIN..=71)?, [0, 1]);
/// assert_eq!(index.rows(&ph, i32::MIN..=i32::MAX)?, [0, 1, 3]);
/// # Ok::<(), miguzoryane::Error>(())
/// ```
pub const FAULT: i32 = i32::MIN;
/// A line is this many rows; the last one of a column may be shorter.
pub const ROWS_PER_LINE: usize = 16;
/// The longest column.
pub const ROWS_AT_MOST: usize = 4_294_967_295;
/// The lines of the longest column.
pub const LINES_AT_MOST: usize = 268_435_456;
/// The most lines of a dictionary entry. One of so many is full, and [`pack`] tells what follows it.
pub const COUNT_AT_MOST: u32 = 16_777_215;
/// The most borders that an index has.
pub const BORDERS_AT_MOST: usize = 63;
/// The most levels that a filter has.
pub const LEVELS_AT_MOST: u32 = 20;
/// The most splits that a filter has room for. One of k levels has room for 2^k - 1 at most.
pub const ROOM_AT_MOST: u32 = 4_095;
